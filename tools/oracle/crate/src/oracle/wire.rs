//! Requests as bytes: the crate's own messages, written and read by prost.
use super::lines;
use super::records::Reader;
use crate::google::storage::v2::bidi_write_object_request::Data;
use crate::google::storage::v2::{BidiWriteObjectRequest, ChecksummedData, ObjectChecksums};
use prost::Message;

/// The message in a buffer of so many bytes, with so many bytes of data lent. None is refusal 14: prost's `encode` finds the buffer short of `encoded_len`,
/// or the data lent is short of the content.
pub fn write(r: &BidiWriteObjectRequest, buffer: usize, lent: usize) -> Option<Vec<u8>> {
    if lent < content_length(r) {
        return None;
    }
    let mut bytes = vec![0; buffer];
    r.encode(&mut &mut bytes[..]).ok()?;
    bytes.truncate(r.encoded_len());
    assert_eq!(BidiWriteObjectRequest::decode(&bytes[..]).as_ref(), Ok(r), "prost reads back what it wrote");
    Some(bytes)
}

pub fn content_length(r: &BidiWriteObjectRequest) -> usize {
    r.data.as_ref().map_or(0, |Data::ChecksummedData(d)| d.content.len())
}

/// What the crate's decoder makes of the bytes, in the words of a trace line.
pub fn read(bytes: &[u8]) -> String {
    match BidiWriteObjectRequest::decode(bytes) {
        Err(_) => "malformed".into(),
        Ok(r) if is_sent_after_opening(&r) => lines::fields(&r),
        Ok(_) => "another request".into(),
    }
}

/// What the crate's encoder writes for it.
pub fn write_again(bytes: &[u8]) -> String {
    BidiWriteObjectRequest::decode(bytes).map_or("malformed".into(), |r| lines::hex(&r.encode_to_vec()))
}

/// Whether document 01's record of a request can say it: nothing that only an opening has, data with its sum, of the object no sum but a CRC32C.
pub fn is_sent_after_opening(r: &BidiWriteObjectRequest) -> bool {
    r.first_message.is_none()
        && r.common_object_request_params.is_none()
        && r.data.as_ref().is_none_or(|Data::ChecksummedData(d)| d.crc32c.is_some())
        && r.object_checksums.as_ref().is_none_or(|s| s.crc32c.is_some() && s.md5_hash.is_empty())
}

/// A request whatever, and what is lent to write it: a record of the program `wire_vectors`.
pub struct Vector {
    request: BidiWriteObjectRequest,
    lent: usize,
    buffer: usize,
}

/// What the program has to lend.
const DATA: u16 = 16_384;
const BUFFER: u16 = 32_768;

impl Vector {
    /// i64 offset; u8 flags (1 flush, 2 state lookup, 4 finish, 8 data, 16 the object's sum); u32 the data's sum; u32 the object's; u16 the data's length;
    /// u16 bytes of data lent; u16 buffer. Byte i of the data is i mod 251. None: a cut record, or another flag.
    pub fn next(input: &mut Reader) -> Option<Vector> {
        let (write_offset, flags) = (input.i64()?, input.u8()?);
        let (data_sum, object_sum) = (input.u32()?, input.u32()?);
        let (length, lent, buffer) = (input.u16()?, input.u16()?, input.u16()?);
        let has = |flag: u8| flags & flag != 0;
        let checked = || Data::ChecksummedData(ChecksummedData { content: (0..length).map(|i| (i % 251) as u8).collect(), crc32c: Some(data_sum) });
        let request = BidiWriteObjectRequest {
            write_offset,
            flush: has(1),
            state_lookup: has(2),
            finish_write: has(4),
            data: has(8).then(checked),
            object_checksums: has(16).then(|| ObjectChecksums { crc32c: Some(object_sum), ..ObjectChecksums::default() }),
            ..BidiWriteObjectRequest::default()
        };
        (flags < 32).then_some(Vector { request, lent: lent.min(DATA).into(), buffer: buffer.min(BUFFER).into() })
    }

    /// `E14`, or the count and the bytes.
    pub fn answer(&self) -> String {
        write(&self.request, self.buffer, self.lent).map_or("E14".into(), |bytes| format!("{} {}", bytes.len(), lines::hex(&bytes)))
    }
}
