//! Views of the crate's private state: published by the probe lines that patch inserts, read by the driver.
use crate::google::storage::v2::BidiWriteObjectRequest;
use crate::storage::bidi_write::OracleRetryRedirect;
use crate::storage::bidi_write::replay_buffer::ReplayChunk;
use crate::storage::bidi_write::state::AppendObjectSpecState;
use std::cell::RefCell;
use std::sync::{Arc, Mutex};

#[derive(Clone)]
pub struct WorkerView {
    /// Which probe it was.
    pub at: &'static str,
    pub persisted_size: i64,
    pub finalized: bool,
    pub mark: bool,
    pub capacity: usize,
    pub stored: usize,
    pub full: bool,
    pub chunks: Vec<ReplayChunk>,
    /// Whether it is a finalise, and its request.
    pub waiters: Vec<(bool, BidiWriteObjectRequest)>,
}

#[derive(Clone)]
pub struct ConnectorView {
    pub last_persisted_size: i64,
    pub attempts: u32,
    /// The two below are the connector's own, so they are read as they are now.
    pub retry_redirect: Option<Arc<OracleRetryRedirect>>,
    pub spec: Arc<Mutex<AppendObjectSpecState>>,
}

impl ConnectorView {
    pub fn redirects(&self) -> u32 {
        self.retry_redirect.as_ref().map_or(0, |r| r.oracle_count())
    }
    pub fn spec(&self) -> AppendObjectSpecState {
        self.spec.lock().expect("never poisoned").clone()
    }
}

#[derive(Clone)]
pub struct TransportView {
    pub write_offset: i64,
    pub running: Option<u32>,
    pub held: Vec<u8>,
}

/// What worker and connector show: all of `st` but the transport's fields.
#[derive(Clone)]
pub struct Views {
    pub worker: WorkerView,
    pub last_persisted_size: i64,
    pub attempts: u32,
    pub redirects: u32,
    pub spec: AppendObjectSpecState,
}

thread_local! {
    static WORKER: RefCell<Option<WorkerView>> = const { RefCell::new(None) };
    static CONNECTOR: RefCell<Option<ConnectorView>> = const { RefCell::new(None) };
    /// Requests about to be sent.
    static SENDING: RefCell<Vec<BidiWriteObjectRequest>> = const { RefCell::new(Vec::new()) };
}

pub fn publish_worker(v: WorkerView) {
    WORKER.set(Some(v));
}
pub fn publish_connector(v: ConnectorView) {
    CONNECTOR.set(Some(v));
}
pub fn sending(request: &BidiWriteObjectRequest) {
    SENDING.with_borrow_mut(|s| s.push(request.clone()));
}
pub fn take_sending() -> Vec<BidiWriteObjectRequest> {
    SENDING.take()
}
pub fn worker<R>(f: impl FnOnce(&WorkerView) -> R) -> R {
    WORKER.with_borrow(|w| f(w.as_ref().expect("a probe ran")))
}
pub fn redirects() -> u32 {
    CONNECTOR.with_borrow(|c| c.as_ref().expect("a probe ran").redirects())
}
/// The crate raises its attempt number behind the connector's probe, and tells it to the policy.
pub fn note_attempts(n: u32) {
    CONNECTOR.with_borrow_mut(|c| c.as_mut().expect("a probe ran").attempts = n);
}
pub fn views() -> Views {
    CONNECTOR.with_borrow(|c| {
        let c = c.as_ref().expect("a probe ran");
        Views {
            worker: worker(WorkerView::clone),
            last_persisted_size: c.last_persisted_size,
            attempts: c.attempts,
            redirects: c.redirects(),
            spec: c.spec(),
        }
    })
}
pub fn clear() {
    WORKER.set(None);
    CONNECTOR.set(None);
    SENDING.take();
}
