//! One session: the crate's transport in the foreground, its worker as a task on a current-thread runtime with a stopped clock. Each function hands the
//! crate one stimulus and lets it run until nothing moves.
use super::calls::{Break, Opening, Response, WriteStatus, text};
use super::network::{self, Attempt, NoBackoff, Outcome, Ruling, ScriptClient, ScriptPolicy, StreamSender};
use super::probe::{self, TransportView};
use crate::Error;
use crate::google::storage::v2::bidi_write_object_response::WriteStatus as ProtoStatus;
use crate::google::storage::v2::{
    AppendObjectSpec, BidiWriteHandle, BidiWriteObjectRedirectedError, BidiWriteObjectRequest, BidiWriteObjectResponse, Object, ObjectChecksums,
    WriteObjectSpec,
};
use crate::model_ext::{OpenAppendableObjectRequest, ReopenAppendableObjectRequest};
use crate::request_options::RequestOptions;
use crate::storage::bidi_write::connector::Connector;
use crate::storage::bidi_write::state::AppendObjectSpecState;
use crate::storage::bidi_write::transport::AppendableObjectWriterTransport as Transport;
use crate::stub::AppendableObjectWriter;
use bytes::Bytes;
use gaxi::grpc::tonic::{Code, Status};
use prost::{Message, Name};
use std::any::Any;
use std::cell::RefCell;
use std::future::Future;
use std::pin::Pin;
use std::rc::Rc;
use std::sync::Arc;
use std::task::{Context, Poll, Waker};
use std::time::Duration;
use tokio::runtime::{Builder, Runtime};
use tokio::sync::mpsc::Receiver;
use tokio::task::JoinHandle;

thread_local! {
    static RUNTIME: Runtime = Builder::new_current_thread().enable_time().start_paused(true).build().expect("runtime");
}

/// Lets every task run until none can move.
fn settle() {
    RUNTIME.with(|r| {
        r.block_on(async {
            tokio::task::yield_now().await;
            tokio::task::yield_now().await;
        })
    })
}
/// Lets a backoff of no time end: it is a timer of the stopped clock.
fn settle_with_timers() {
    settle();
    RUNTIME.with(|r| r.block_on(tokio::time::advance(Duration::from_millis(2))));
    settle();
}

type Foreground<T> = Pin<Box<dyn Future<Output = crate::Result<T>>>>;

fn poll_once<T>(f: &mut Foreground<T>) -> Poll<crate::Result<T>> {
    f.as_mut().poll(&mut Context::from_waker(Waker::noop()))
}

#[derive(Clone, Copy, Debug, PartialEq)]
pub enum Phase {
    Live,
    Verdict,
    Connecting,
    Replay,
    Closing,
    Ended,
}

/// The network's side of a stream.
struct Connection {
    /// None: every send of the crate fails.
    requests: Option<Receiver<BidiWriteObjectRequest>>,
    stream: StreamSender,
}

pub struct Session {
    pub phase: Phase,
    pub cause: &'static str,
    transport: Rc<RefCell<Option<Transport>>>,
    /// The newest flush, while it waits; it has the transport borrowed.
    flushing: Option<Foreground<i64>>,
    /// The finalise, which owns the transport.
    finalizing: Option<Foreground<crate::model::Object>>,
    /// A sender that keeps the worker's channel open.
    keep_open: Option<Box<dyn Any>>,
    worker: Option<JoinHandle<crate::Result<()>>>,
    connection: Option<Connection>,
    view: TransportView,
}

// ---- the crate's messages

fn write_handle(h: &Vec<u8>) -> BidiWriteHandle {
    BidiWriteHandle { handle: h.clone().into() }
}

fn response(r: &Response) -> BidiWriteObjectResponse {
    let resource = |size, generation, finalized: bool| Object {
        size,
        generation,
        finalize_time: finalized.then(prost_types::Timestamp::default),
        ..Object::default()
    };
    BidiWriteObjectResponse {
        write_status: match r.status {
            WriteStatus::Absent => None,
            WriteStatus::Size(size) => Some(ProtoStatus::PersistedSize(size)),
            WriteStatus::Resource { size, generation, finalized } => Some(ProtoStatus::Resource(resource(size, generation, finalized))),
        },
        write_handle: r.handle.as_ref().map(write_handle),
        persisted_data_checksums: r.sum.map(|sum| ObjectChecksums { crc32c: Some(sum), ..ObjectChecksums::default() }),
    }
}

/// gRPC's codes; one that it does not have is Unknown, as tonic reads it.
fn code(n: u32) -> Code {
    use Code::*;
    #[rustfmt::skip]
    let codes = [
        Ok, Cancelled, Unknown, InvalidArgument, DeadlineExceeded, NotFound, AlreadyExists, PermissionDenied, ResourceExhausted,
        FailedPrecondition, Aborted, OutOfRange, Unimplemented, Internal, Unavailable, DataLoss, Unauthenticated,
    ];
    *codes.get(n as usize).unwrap_or(&Unknown)
}

/// A status as a server sends it: a redirect is a detail inside its encoded details, with this value, which the crate's decoder reads.
fn status(n: u32, detail: Option<&Vec<u8>>) -> Status {
    let Some(value) = detail else { return Status::new(code(n), "scripted") };
    let details = vec![prost_types::Any { type_url: BidiWriteObjectRedirectedError::type_url(), value: value.clone() }];
    let rpc = crate::google::rpc::Status { code: n as i32, message: String::new(), details };
    Status::with_details(code(n), "scripted", rpc.encode_to_vec().into())
}

// ---- opening

fn options() -> RequestOptions {
    let mut options = RequestOptions::new();
    options.retry_policy = Arc::new(ScriptPolicy);
    options.backoff_policy = Arc::new(NoBackoff);
    options.set_bidi_attempt_timeout(Duration::from_secs(1_000_000_000));
    options
}

/// Whether one of the crate's own openings makes this session: `new_reopen`, `new_open` or `new_open_and_append`. They set the last persisted size to the
/// response's, reopen without a payload, and open without a token; an empty payload is none to them.
fn is_dialled(o: &Opening) -> bool {
    let payload = if o.append { o.payload.is_none() } else { o.token.is_none() && o.payload.as_ref().is_none_or(|p| !p.is_empty()) };
    payload && o.last_persisted_size == o.response.size().unwrap_or(0)
}

async fn dial(o: Opening) -> crate::Result<Transport> {
    let connector = Connector::new(options(), ScriptClient);
    if o.append {
        return Transport::new_reopen(connector, reopen_request(&o)).await;
    }
    match &o.payload {
        Some(p) => Transport::new_open_and_append(connector, open_request(&o), p.clone().into()).await,
        None => Transport::new_open(connector, open_request(&o)).await,
    }
}

fn reopen_request(o: &Opening) -> ReopenAppendableObjectRequest {
    ReopenAppendableObjectRequest {
        bucket: text(&o.bucket),
        object: text(&o.object),
        generation: o.generation,
        routing_token: o.token.as_ref().map(|t| text(t)),
        if_metageneration_match: o.if_match,
        if_metageneration_not_match: o.if_not_match,
        write_handle: o.handle.clone().map(Bytes::from),
        params: None,
    }
}

fn open_request(o: &Opening) -> OpenAppendableObjectRequest {
    let resource = crate::model::Object { bucket: text(&o.bucket), name: text(&o.object), ..Default::default() };
    let spec = crate::model::WriteObjectSpec {
        resource: Some(resource),
        if_metageneration_match: o.if_match,
        if_metageneration_not_match: o.if_not_match,
        appendable: Some(true),
        ..Default::default()
    };
    OpenAppendableObjectRequest { spec, params: None }
}

/// Any other opening: the spec is put in place, then `connect_attempt` and `start_worker` run as in the crate's.
async fn place(o: Opening) -> crate::Result<Transport> {
    let mut connector = Connector::new(options(), ScriptClient);
    let (initial, connection) = connector.oracle_open(spec(&o), o.last_persisted_size).await?;
    Transport::oracle_start(connector, initial, connection, o.generation, o.payload.map(Bytes::from))
}

fn spec(o: &Opening) -> AppendObjectSpecState {
    let initial_chunk = o.payload.clone().map(Bytes::from);
    let routing_token = o.token.as_ref().map(|t| text(t));
    if o.append {
        let spec = AppendObjectSpec {
            bucket: text(&o.bucket),
            object: text(&o.object),
            generation: o.generation,
            if_metageneration_match: o.if_match,
            if_metageneration_not_match: o.if_not_match,
            routing_token,
            write_handle: o.handle.as_ref().map(write_handle),
        };
        return AppendObjectSpecState::Append { spec, initial_chunk };
    }
    let resource = Object { bucket: text(&o.bucket), name: text(&o.object), ..Object::default() };
    let spec = Box::new(WriteObjectSpec {
        resource: Some(resource),
        if_metageneration_match: o.if_match,
        if_metageneration_not_match: o.if_not_match,
        appendable: Some(true),
        ..WriteObjectSpec::default()
    });
    AppendObjectSpecState::Write { spec, routing_token, initial_chunk }
}

impl Session {
    /// None: the crate's "object is already finalized".
    pub fn open(o: &Opening) -> Option<Session> {
        probe::clear();
        let opening = o.clone();
        let dialling = RUNTIME.with(|r| r.spawn(async move { if is_dialled(&opening) { dial(opening).await } else { place(opening).await } }));
        settle();
        let connection = accept(&o.response);
        assert!(dialling.is_finished(), "the dial is over");
        let mut transport = match RUNTIME.with(|r| r.block_on(dialling)).expect("no panic") {
            Ok(t) => t,
            Err(e) if is_already_finalized(&e) => return None,
            Err(e) => panic!("opening: {e}"),
        };
        let (worker, keep_open) = transport.oracle_split();
        let view = transport.oracle_view();
        settle();
        Some(Session {
            phase: Phase::Live,
            cause: "",
            transport: Rc::new(RefCell::new(Some(transport))),
            flushing: None,
            finalizing: None,
            keep_open: Some(Box::new(keep_open)),
            worker: Some(worker),
            connection: Some(connection),
            view,
        })
    }
}

/// The attempt under way gets a stream, whose first message is this response.
fn accept(r: &Response) -> Connection {
    let Attempt { requests, outcome } = network::take_attempt().expect("an attempt waits");
    let (tx, rx) = network::stream();
    let _ = tx.send(Ok(response(r)));
    let _ = outcome.send(Outcome::Stream(rx));
    settle();
    Connection { requests: Some(requests), stream: tx }
}

fn is_already_finalized(e: &Error) -> bool {
    e.to_string().contains("object is already finalized")
}

// ---- views and ends

impl Session {
    /// The transport's fields, as its last call left them.
    pub fn transport_view(&mut self) -> &TransportView {
        if self.flushing.is_none()
            && let Some(t) = self.transport.borrow().as_ref()
        {
            self.view = t.oracle_view();
        }
        &self.view
    }

    fn worker_returned(&self) -> bool {
        self.worker.as_ref().is_none_or(JoinHandle::is_finished)
    }

    /// Whether the worker has returned; the session's end is then named by its result.
    pub fn note_end(&mut self, ruling: Ruling) -> bool {
        if !self.worker_returned() {
            return false;
        }
        if let Some(worker) = self.worker.take() {
            let result = RUNTIME.with(|r| r.block_on(worker)).expect("no panic");
            self.cause = self.cause_of(result, ruling);
        }
        self.phase = Phase::Ended;
        true
    }

    fn cause_of(&self, result: crate::Result<()>, ruling: Ruling) -> &'static str {
        match result {
            Ok(()) => "finished",
            Err(e) if e.to_string().contains("regressed below") => "regressed",
            Err(e) if is_already_finalized(&e) => "already",
            Err(_) if self.phase == Phase::Closing => "stream",
            Err(e) => match ruling {
                Ruling::Permanent => "permanent",
                Ruling::Exhausted => "exhausted",
                Ruling::Continue => panic!("an end without a cause: {e}"),
            },
        }
    }

    /// The host gives up: nothing of the crate.
    pub fn give_up(&mut self) {
        self.stop();
        self.cause = "givenup";
        self.phase = Phase::Ended;
    }

    fn stop(&mut self) {
        self.flushing = None;
        self.finalizing = None;
        if let Some(worker) = self.worker.take() {
            worker.abort();
            settle();
        }
        drop(network::take_attempt());
    }
}

impl Drop for Session {
    fn drop(&mut self) {
        self.stop();
    }
}

// ---- calls

impl Session {
    /// The request that the call sent. Where every send fails it is known from the probe before the send.
    fn sent(&mut self) -> Option<BidiWriteObjectRequest> {
        let probed = probe::take_sending();
        match self.connection.as_mut()?.requests.as_mut() {
            Some(requests) => requests.try_recv().ok(),
            None => probed.into_iter().next(),
        }
    }
    /// From here on every send on this connection fails.
    pub fn break_sending(&mut self) {
        if let Some(c) = self.connection.as_mut() {
            c.requests = None
        }
    }
    pub fn sending_works(&self) -> bool {
        self.connection.as_ref().is_some_and(|c| c.requests.is_some())
    }

    /// At most C − held bytes.
    pub fn append(&mut self, piece: &[u8], cuts: bool) -> Option<BidiWriteObjectRequest> {
        self.flushing = None;
        let transport = self.transport.clone();
        let piece = Bytes::copy_from_slice(piece);
        let mut f: Foreground<()> = Box::pin(async move { transport.borrow_mut().as_mut().expect("open").append(piece).await });
        assert!(matches!(poll_once(&mut f), Poll::Ready(Ok(()))), "an append does not wait");
        if !cuts {
            return None;
        }
        settle();
        self.sent()
    }

    fn start_flush(&mut self) -> Foreground<i64> {
        // The request of an earlier flush stays with the worker.
        self.flushing = None;
        self.transport_view();
        let transport = self.transport.clone();
        let mut f: Foreground<i64> = Box::pin(async move { transport.borrow_mut().as_mut().expect("open").flush().await });
        assert!(poll_once(&mut f).is_pending(), "a flush waits");
        settle();
        f
    }

    /// A flush or finalise that finds held bytes: `flush` up to where it would ask.
    pub fn cut(&mut self) -> Option<BidiWriteObjectRequest> {
        drop(self.start_flush()); // its second send has not been made
        self.sent()
    }
    pub fn flush(&mut self) -> Option<BidiWriteObjectRequest> {
        self.flushing = Some(self.start_flush());
        self.sent()
    }
    pub fn finalize(&mut self) -> Option<BidiWriteObjectRequest> {
        self.flushing = None;
        self.transport_view();
        let transport = self.transport.borrow_mut().take().expect("open");
        let mut f: Foreground<crate::model::Object> = Box::pin(transport.finalize());
        assert!(poll_once(&mut f).is_pending(), "a finalise waits");
        settle();
        self.finalizing = Some(f);
        self.sent()
    }

    /// The end of the worker's channel. The crate's `close()` flushes before it.
    pub fn close(&mut self) {
        self.flushing = None;
        self.transport_view();
        self.finalizing = None;
        self.transport.take();
        self.keep_open = None;
        settle();
        self.phase = Phase::Closing;
        assert_eq!(probe::worker(|w| w.at), "closing");
    }

    pub fn respond(&mut self, r: &Response) -> Option<BidiWriteObjectRequest> {
        if let Some(c) = self.connection.as_ref() {
            let _ = c.stream.send(Ok(response(r)));
        }
        settle();
        self.check_flush();
        self.sent()
    }

    /// The flush in the foreground is the newest waiter: it is answered exactly when none waits any more, or at an end.
    fn check_flush(&mut self) {
        let Some(f) = self.flushing.as_mut() else { return };
        let answered = poll_once(f).is_ready();
        if answered {
            self.flushing = None;
        }
        let none_waits = probe::worker(|w| w.waiters.is_empty());
        assert!(answered == none_waits || self.worker_returned(), "flush answered: {answered}, none waits: {none_waits}");
    }

    pub fn stream_break(&mut self, b: &Break) {
        let Some(c) = self.connection.take() else { return };
        match b {
            Break::EndOfStream => drop(c),
            Break::Status { code, detail } => drop(c.stream.send(Err(status(*code, detail.as_ref())))),
            Break::Error => drop(c.stream.send(Err(Status::new(Code::Unknown, "another error")))),
        }
        settle_with_timers();
    }

    pub fn failed_attempt(&mut self, b: &Break) {
        let attempt = network::take_attempt().expect("an attempt waits");
        let outcome = match b {
            Break::EndOfStream => Outcome::Stream(network::stream().1),
            Break::Status { code, detail } => Outcome::Status(status(*code, detail.as_ref())),
            Break::Error => Outcome::Error(Error::io("another error")),
        };
        let _ = attempt.outcome.send(outcome);
        settle_with_timers();
    }

    pub fn handshake(&mut self, r: &Response) {
        self.connection = Some(accept(r));
        self.check_flush();
    }

    /// The next request of a replay. The worker waits at its next send until this one is taken.
    pub fn next(&mut self) -> Option<BidiWriteObjectRequest> {
        settle();
        self.sent()
    }
}
