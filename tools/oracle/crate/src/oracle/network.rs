//! The network's and the retry policy's place: every answer comes from the script.
use super::probe::{self, Views};
use crate::Error;
use crate::google::storage::v2::{BidiWriteObjectRequest, BidiWriteObjectResponse};
use crate::request_options::RequestOptions;
use crate::storage::bidi_write::{Client, TonicStreaming, oracle_ruling};
use gaxi::as_inner::as_inner;
use gaxi::grpc::from_status::to_gax_error;
use gaxi::grpc::tonic::{Extensions, Response, Result as TonicResult, Status};
use google_cloud_gax::backoff_policy::BackoffPolicy;
use google_cloud_gax::retry_policy::RetryPolicy;
use google_cloud_gax::retry_result::RetryResult;
use google_cloud_gax::retry_state::RetryState;
use std::cell::{Cell, RefCell};
use std::sync::Arc;
use std::time::Duration;
use tokio::sync::mpsc::{Receiver, UnboundedReceiver, UnboundedSender, unbounded_channel};
use tokio::sync::oneshot;

/// A stream whose messages the script writes.
#[derive(Debug)]
pub struct Stream(UnboundedReceiver<TonicResult<BidiWriteObjectResponse>>);
pub type StreamSender = UnboundedSender<TonicResult<BidiWriteObjectResponse>>;

impl TonicStreaming for Stream {
    async fn next_message(&mut self) -> TonicResult<Option<BidiWriteObjectResponse>> {
        self.0.recv().await.transpose()
    }
}

pub fn stream() -> (StreamSender, Stream) {
    let (tx, rx) = unbounded_channel();
    (tx, Stream(rx))
}

/// How an attempt to connect comes out.
pub enum Outcome {
    Stream(Stream),
    Status(Status),
    Error(Error),
}

/// An attempt under way: the crate has called `start` and waits.
pub struct Attempt {
    pub requests: Receiver<BidiWriteObjectRequest>,
    pub outcome: oneshot::Sender<Outcome>,
}

#[derive(Clone, Copy, PartialEq)]
pub enum Ruling {
    Continue,
    Permanent,
    Exhausted,
}

/// The crate asked the retry policy.
pub struct Asked {
    /// The attempt number that it told, 0 for a redirect.
    pub attempts: u32,
    /// What its `RetryRedirect` makes of the verdict.
    pub ruling: Ruling,
    /// Worker and connector as they were then.
    pub views: Views,
}

thread_local! {
    static ATTEMPT: RefCell<Option<Attempt>> = const { RefCell::new(None) };
    static VERDICT: Cell<u8> = const { Cell::new(0) };
    static ASKED: RefCell<Option<Asked>> = const { RefCell::new(None) };
}

pub fn take_attempt() -> Option<Attempt> {
    ATTEMPT.take()
}
pub fn attempt_waits() -> bool {
    ATTEMPT.with_borrow(Option::is_some)
}
/// What the policy will say when it is next asked.
pub fn set_verdict(verdict: u8) {
    VERDICT.set(verdict);
    ASKED.set(None);
}
pub fn take_asked() -> Option<Asked> {
    ASKED.take()
}

#[derive(Clone, Debug)]
pub struct ScriptClient;

impl Client for ScriptClient {
    type Stream = Stream;
    async fn start(
        &self,
        _extensions: Extensions,
        _path: http::uri::PathAndQuery,
        mut requests: Receiver<BidiWriteObjectRequest>,
        _options: &RequestOptions,
        _api_client_header: &'static str,
        _params: &str,
    ) -> crate::Result<TonicResult<Response<Stream>>> {
        requests.try_recv().expect("the opening request is sent before the call");
        let (outcome, wait) = oneshot::channel();
        ATTEMPT.set(Some(Attempt { requests, outcome }));
        match wait.await {
            Ok(Outcome::Stream(s)) => Ok(Ok(Response::new(s))),
            Ok(Outcome::Status(s)) => Ok(Err(s)),
            Ok(Outcome::Error(e)) => Err(e),
            Err(_) => std::future::pending().await, // the session is over
        }
    }
}

/// Says what document 01's verdict says: 1 continue, 3 exhausted; 2 permanent, as which 4 (the host gives up) is told too.
#[derive(Debug)]
struct Says(u8);

impl RetryPolicy for Says {
    fn on_error(&self, _: &RetryState, error: Error) -> RetryResult {
        match self.0 {
            1 => RetryResult::Continue(error),
            3 => RetryResult::Exhausted(error),
            _ => RetryResult::Permanent(error),
        }
    }
}

/// Says the script's verdict, and notes that it was asked.
#[derive(Debug)]
pub struct ScriptPolicy;

impl RetryPolicy for ScriptPolicy {
    fn on_error(&self, state: &RetryState, error: Error) -> RetryResult {
        let ruling = ruling(VERDICT.get(), &error);
        ASKED.set(Some(Asked { attempts: state.attempt_count, ruling, views: probe::views() }));
        Says(VERDICT.get()).on_error(state, error)
    }
}

/// `Connector::reconnect` does not tell a permanent error from an exhausted one, so the crate's `RetryRedirect` is asked apart, at the present count.
fn ruling(verdict: u8, error: &Error) -> Ruling {
    let again = match as_inner::<Status, _>(error) {
        Some(status) => to_gax_error(status.clone()),
        None => Error::io("no status"),
    };
    match oracle_ruling(probe::redirects(), Arc::new(Says(verdict)), again) {
        RetryResult::Continue(_) => Ruling::Continue,
        RetryResult::Permanent(_) => Ruling::Permanent,
        RetryResult::Exhausted(_) => Ruling::Exhausted,
    }
}

#[derive(Debug)]
pub struct NoBackoff;

impl BackoffPolicy for NoBackoff {
    fn on_failure(&self, _: &RetryState) -> Duration {
        Duration::ZERO
    }
}
