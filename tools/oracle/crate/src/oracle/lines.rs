//! The text of requests and states: docs/TRACE.md, and the short form of document 01's bench lines.
use super::probe::{TransportView, Views};
use super::session::Phase;
use super::wire;
use crate::google::storage::v2::BidiWriteObjectRequest;
use crate::google::storage::v2::bidi_write_object_request::Data;
use crate::storage::bidi_write::state::AppendObjectSpecState;
use std::fmt::Write;

pub fn hex(bytes: &[u8]) -> String {
    let digit = |d: u8| char::from(b"0123456789abcdef"[usize::from(d)]);
    bytes.iter().flat_map(|b| [digit(b >> 4), digit(b & 15)]).collect()
}
pub fn or_none<T>(value: Option<T>, text: impl FnOnce(T) -> String) -> String {
    value.map_or("none".into(), text)
}
fn sum(value: Option<u32>) -> String {
    or_none(value, |c| format!("{c:08x}"))
}
pub fn number(value: Option<i64>) -> String {
    or_none(value, |n| n.to_string())
}

/// offset:length:flags
pub fn short(r: &BidiWriteObjectRequest) -> String {
    let length = wire::content_length(r);
    let mut flags = String::new();
    for (set, letter) in [(r.flush, 'f'), (r.state_lookup, 's'), (r.finish_write, 'w')] {
        if set {
            flags.push(letter);
        }
    }
    if flags.is_empty() {
        flags.push('-');
    }
    format!("{}:{length}:{flags}", r.write_offset)
}

/// The line of a request.
pub fn request(r: &BidiWriteObjectRequest) -> String {
    format!("  rq {}", fields(r))
}

/// Every field that a request after opening can have; the others are absent.
pub fn fields(r: &BidiWriteObjectRequest) -> String {
    assert!(wire::is_sent_after_opening(r));
    let data = r.data.as_ref().map(|Data::ChecksummedData(d)| format!("{}/{}", hex(&d.content), sum(d.crc32c)));
    format!(
        "off={} data={} f={} s={} w={} sum={}",
        r.write_offset,
        or_none(data, |d| d),
        r.flush as u8,
        r.state_lookup as u8,
        r.finish_write as u8,
        sum(object_sum(r)),
    )
}

fn object_sum(r: &BidiWriteObjectRequest) -> Option<u32> {
    r.object_checksums.as_ref().and_then(|s| s.crc32c)
}

/// `made`: waiters made so far, from which their numbers follow. Those of an ended session have been failed or dropped.
pub fn state(phase: Phase, cause: &str, v: &Views, t: &TransportView, made: u64) -> String {
    let w = &v.worker;
    let mut s = format!("  st phase={phase:?} P={} held={} stored={} cap={}", w.persisted_size, hex(&t.held), w.stored, w.capacity);
    let _ = write!(s, " mark={} fin={} woff={} run={}", w.mark as u8, w.finalized as u8, t.write_offset, sum(t.running));
    let _ = write!(s, " last={} att={} red={} chunks=[", v.last_persisted_size, v.attempts, v.redirects);
    for c in &w.chunks {
        let _ = write!(s, "{}:{}:{:08x} ", c.write_offset, hex(&c.data), c.crc32c);
    }
    s.push_str("] waiters=[");
    if phase != Phase::Ended {
        let first = made + 1 - w.waiters.len() as u64;
        for (i, (finalize, r)) in w.waiters.iter().enumerate() {
            let kind = if *finalize { 'w' } else { 'f' };
            let _ = write!(s, "{}{kind}@{}:{} ", first + i as u64, r.write_offset, sum(object_sum(r)));
        }
    }
    let _ = write!(s, "] spec={}", spec(&v.spec));
    if phase == Phase::Ended {
        let _ = write!(s, " cause={cause}");
    }
    s
}

fn spec(state: &AppendObjectSpecState) -> String {
    let AppendObjectSpecState::Append { spec, initial_chunk: None } = state else { panic!("opened, and yet {state:?}") };
    format!(
        "append,{},{},gen={},token={},handle={},m={},n={}",
        spec.bucket,
        spec.object,
        spec.generation,
        or_none(spec.routing_token.as_ref(), |t| format!("'{t}'")),
        or_none(spec.write_handle.as_ref(), |h| format!("'{}'", hex(&h.handle))),
        number(spec.if_metageneration_match),
        number(spec.if_metageneration_not_match),
    )
}
