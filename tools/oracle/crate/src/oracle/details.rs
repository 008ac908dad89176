//! The value of a redirect detail: what the crate's decoder makes of it, and groups, which that decoder steps over and Q-3 of document 02 refuses.
use super::lines::{hex, number, or_none};
use crate::google::storage::v2::BidiWriteObjectRedirectedError;
use prost::Message;

/// The message inside the message.
const WRITE_HANDLE: u64 = 2;

/// None is refusal 15: the crate's decoder fails, or there is a group.
pub fn read(value: &[u8]) -> Option<BidiWriteObjectRedirectedError> {
    let redirect = BidiWriteObjectRedirectedError::decode(value).ok()?;
    (!has_group(value)).then_some(redirect)
}

/// What the crate's decoder makes of the value, with ` group` behind it where there is one.
pub fn shown(value: &[u8]) -> String {
    let Ok(r) = BidiWriteObjectRedirectedError::decode(value) else { return "malformed".into() };
    format!(
        "token={} handle={} generation={}{}",
        or_none(r.routing_token, |t| hex(t.as_bytes())),
        or_none(r.write_handle, |h| hex(&h.handle)),
        number(r.generation),
        if has_group(value) { " group" } else { "" },
    )
}

/// Whether there is a group among the fields of a value that the crate's decoder reads, or of the handle in it.
fn has_group(value: &[u8]) -> bool {
    Fields(value).any(|f| f.is_group() || f.number == WRITE_HANDLE && Fields(f.part).any(|f| f.is_group()))
}

/// The fields of a message that the crate's decoder reads, up to the first group.
struct Fields<'a>(&'a [u8]);

struct Field<'a> {
    number: u64,
    wire_type: u64,
    /// The bytes behind a length.
    part: &'a [u8],
}

impl Field<'_> {
    fn is_group(&self) -> bool {
        self.wire_type == 3
    }
}

impl<'a> Iterator for Fields<'a> {
    type Item = Field<'a>;
    fn next(&mut self) -> Option<Field<'a>> {
        if self.0.is_empty() {
            return None;
        }
        let key = self.varint();
        let (number, wire_type) = (key >> 3, key & 7);
        let part = match wire_type {
            0 => self.take_varint(),
            1 => self.take(8),
            2 => self.take_part(),
            3 => self.take(self.0.len()),
            5 => self.take(4),
            _ => panic!("read, and yet a field of wire type {wire_type}"),
        };
        Some(Field { number, wire_type, part })
    }
}

impl<'a> Fields<'a> {
    fn take(&mut self, n: usize) -> &'a [u8] {
        let (front, rest) = self.0.split_at(n);
        self.0 = rest;
        front
    }
    fn take_varint(&mut self) -> &'a [u8] {
        self.take(1 + self.0.iter().position(|b| *b < 128).expect("read, and yet cut off"))
    }
    fn take_part(&mut self) -> &'a [u8] {
        let n = self.varint();
        self.take(n as usize)
    }
    fn varint(&mut self) -> u64 {
        self.take_varint().iter().rev().fold(0, |n, b| n << 7 | u64::from(b & 127))
    }
}
