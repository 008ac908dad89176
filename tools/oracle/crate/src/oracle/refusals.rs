//! The refusals that document 01 adds by design (1, 2, 4, 6, 7, 9 to 13), 8, which reads the crate's `ReplayBuffer::is_full`, and document 02's 15, which asks
//! the crate's decoder. The form test of 3, and 5, are the crate's own: see runner.rs.
use super::calls::{Call, Opening};
use super::details;
use super::probe::{self, TransportView};
use super::session::Phase;
use crate::google::storage::v2::BidiWriteObjectRedirectedError;

const MAX_BUCKET: usize = 256;
const MAX_OBJECT: usize = 1_024;
const MAX_TOKEN: usize = 512;
const MAX_HANDLE: usize = 1_024;
const MAX_WAITERS: usize = 16;

fn over(bytes: Option<&Vec<u8>>, most: usize) -> bool {
    bytes.is_some_and(|b| b.len() > most)
}

/// 1 and 2.
pub fn limits_and_memory(o: &Opening) -> Option<u8> {
    let asked = o.asked_capacity();
    if o.chunk == 0 || o.chunk > 2_097_152 || asked > 1_073_741_824 {
        return Some(1);
    }
    let capacity = asked.max(2 * o.chunk + 1);
    (o.store < capacity + 2 * o.chunk - 2 || o.slots == 0).then_some(2)
}

/// The length test of 3.
pub fn bucket_too_long(o: &Opening) -> bool {
    o.bucket.len() > MAX_BUCKET
}

/// 4. A Write form has no handle.
pub fn opening_too_long(o: &Opening) -> bool {
    o.object.len() > MAX_OBJECT
        || over(o.token.as_ref(), MAX_TOKEN)
        || o.append && over(o.handle.as_ref(), MAX_HANDLE)
        || over(o.response.handle.as_ref(), MAX_HANDLE)
        || over(o.payload.as_ref(), o.chunk as usize)
}

/// What the refusals of later calls lean on besides the crate's state.
#[derive(Default)]
pub struct Facts {
    pub chunk: usize,
    pub slots: usize,
    pub out: usize,
    /// Close, or a finalise's waiter.
    pub closed: bool,
    /// The accepted call before, if it sent.
    pub sender: Option<usize>,
    /// Requests that this replay has handed out.
    pub replayed: usize,
}

/// 7, 12, 6, 13, 15, 4, 11, 8, 9, 10, as far as they apply.
pub fn later(phase: Phase, view: &TransportView, f: &Facts, call: &Call) -> Option<u8> {
    let cut = bytes_cut(call, view.held.len(), f.chunk);
    let sends = cut > 0 || matches!(call, Call::Flush | Call::Finalize);
    let waits = sends && cut == 0;
    let (full, chunks, waiters) = probe::worker(|w| (w.full, w.chunks.len(), w.waiters.len()));
    let short_out = cut > 0 || matches!(call, Call::Next) && f.replayed < chunks;
    let redirect = call.detail().map(details::read);
    let rows = [
        (7, phase == Phase::Ended),
        (12, f.closed && matches!(call, Call::Append(_) | Call::Flush | Call::Finalize)),
        (6, !is_phase(phase, call, cut > 0, f.sender.is_some())),
        (13, matches!(call, Call::Verdict(v) | Call::FailedAttempt(v, _) if !(1..=4).contains(v))),
        (15, matches!(redirect, Some(None))),
        (4, redirect.flatten().is_some_and(|r| redirect_too_long(&r)) || response_too_long(call)),
        (11, short_out && f.out < f.chunk),
        (8, (sends || matches!(call, Call::Close)) && full),
        (9, cut > 0 && chunks >= f.slots || waits && waiters >= MAX_WAITERS),
        (10, view.write_offset.checked_add(cut as i64).is_none()),
    ];
    rows.iter().find(|row| row.1).map(|row| row.0)
}

/// Length of the chunk that the call would cut.
pub fn bytes_cut(call: &Call, held: usize, chunk: usize) -> usize {
    match call {
        Call::Append(b) if b.len() >= chunk - held => chunk,
        Call::Flush | Call::Finalize => held,
        _ => 0,
    }
}

fn is_phase(phase: Phase, call: &Call, cuts: bool, sent: bool) -> bool {
    match call {
        Call::Append(_) => !cuts || phase == Phase::Live,
        Call::Flush | Call::Finalize | Call::Close => phase == Phase::Live,
        Call::Response(_) | Call::Break(_) => matches!(phase, Phase::Live | Phase::Closing),
        Call::Verdict(_) => phase == Phase::Verdict,
        Call::FailedAttempt(..) | Call::Handshake(_) => phase == Phase::Connecting,
        Call::Next => phase == Phase::Replay,
        Call::SendFailed => sent,
        Call::Open(_) | Call::Write { .. } => false,
    }
}

fn response_too_long(call: &Call) -> bool {
    match call {
        Call::Response(r) | Call::Handshake(r) => over(r.handle.as_ref(), MAX_HANDLE),
        _ => false,
    }
}

fn redirect_too_long(r: &BidiWriteObjectRedirectedError) -> bool {
    r.routing_token.as_ref().is_some_and(|t| t.len() > MAX_TOKEN) || r.write_handle.as_ref().is_some_and(|h| h.handle.len() > MAX_HANDLE)
}
