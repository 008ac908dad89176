//! The session, as the program `bench`: a whole upload as the records that it reads, in a process of its own. The sum, the join, a request's bytes and a plan
//! come from a static library.
use crate::Upload;
use crate::google::storage::v2::{BidiWriteObjectRequest, bidi_write_object_request::Data};
use bytes::Bytes;
use std::fs::{self, File};
use std::path::{Path, PathBuf};
use std::process::{Command, Stdio};

unsafe extern "C" {
    fn michqoya_crc32c(bytes: *const u8, length: usize) -> u32;
    fn michqoya_combine(crc1: u32, crc2: u32, len2: u64) -> u32;
    fn michqoya_write(
        write_offset: i64,
        has_data: bool,
        length: usize,
        crc32c: u32,
        has_checksum: bool,
        checksum: u32,
        state_lookup: bool,
        flush: bool,
        finish_write: bool,
        data: *const u8,
        lent: usize,
        buffer: *mut u8,
        room: usize,
    ) -> usize;
    fn michqoya_plan(limit: usize, lengths: *const u32, count: usize) -> PlanNumbers;
}

pub fn crc32c(bytes: &[u8]) -> u32 {
    unsafe { michqoya_crc32c(bytes.as_ptr(), bytes.len()) }
}

pub fn combine(crc1: u32, crc2: u32, len2: usize) -> u32 {
    unsafe { michqoya_combine(crc1, crc2, len2 as u64) }
}

/// A refusal's number, or 0 and what a list needs.
#[repr(C)]
#[derive(Debug, Default, PartialEq)]
pub struct PlanNumbers {
    pub refused: u64,
    pub chunks: u64,
    pub stored: u64,
    pub held: u64,
    pub appends: u64,
    pub flushes: u64,
}

pub fn plan(limit: usize, lengths: &[u32]) -> PlanNumbers {
    unsafe { michqoya_plan(limit, lengths.as_ptr(), lengths.len()) }
}

/// A request's fields, as `wire::write` takes them.
pub struct Request {
    write_offset: i64,
    crc32c: Option<u32>,
    data: Bytes,
    checksum: Option<u32>,
    state_lookup: bool,
    flush: bool,
    finish_write: bool,
}

impl Request {
    pub fn new(r: &BidiWriteObjectRequest) -> Request {
        let (crc32c, data) = match &r.data {
            Some(Data::ChecksummedData(d)) => (d.crc32c, d.content.clone()),
            None => (None, Bytes::new()),
        };
        let checksum = r.object_checksums.as_ref().and_then(|sums| sums.crc32c);
        Request { write_offset: r.write_offset, crc32c, data, checksum, state_lookup: r.state_lookup, flush: r.flush, finish_write: r.finish_write }
    }

    /// The number of bytes written, `usize::MAX` where the call refuses.
    pub fn write(&self, buffer: &mut [u8]) -> usize {
        unsafe {
            michqoya_write(
                self.write_offset,
                self.crc32c.is_some(),
                self.data.len(),
                self.crc32c.unwrap_or(0),
                self.checksum.is_some(),
                self.checksum.unwrap_or(0),
                self.state_lookup,
                self.flush,
                self.finish_write,
                self.data.as_ptr(),
                self.data.len(),
                buffer.as_mut_ptr(),
                buffer.len(),
            )
        }
    }
}

/// The chunk limit, the capacity and the slots of an opening.
pub struct Sizes {
    limit: usize,
    capacity: usize,
    slots: usize,
}

/// The crate's chunk size and default capacity.
pub const CRATE: Sizes = Sizes { limit: 2 << 20, capacity: 32 << 20, slots: 64 };

/// What the bench program lends takes chunks of a bank's size: its store of 32,768 bytes has room for the least capacity. Each chunk then asks for a flush.
pub const BENCH: Sizes = Sizes { limit: 8192, capacity: 16385, slots: 64 };

impl Sizes {
    /// All that a host lends: a store of capacity and two chunks less two bytes, the table, an out buffer. The session record comes on top.
    pub fn bytes(&self) -> usize {
        self.capacity + 2 * (self.limit - 1) + 8 * self.slots + self.limit
    }
}

/// The program, and a file with the records of an upload.
pub struct Bench {
    program: PathBuf,
    records: PathBuf,
}

impl Bench {
    pub fn new(program: &Path, records: &Path, u: &Upload, data: &[u8]) -> Bench {
        fs::write(records, upload(u, data)).unwrap();
        let bench = Bench { program: program.into(), records: records.into() };
        bench.check(data.len());
        bench
    }

    /// Only starts, opens and finalises.
    pub fn idle(program: &Path, records: &Path) -> Bench {
        Bench::new(program, records, &Upload { name: "", bytes: 0, piece: 0, flush: false }, &[])
    }

    pub fn run(&self) {
        let status = self.command().stdout(Stdio::null()).status().unwrap();
        assert!(status.success());
    }

    /// The last line is the finalise's request, behind all bytes.
    fn check(&self, bytes: usize) {
        let lines = String::from_utf8(self.command().output().unwrap().stdout).unwrap();
        let last = lines.lines().last().unwrap();
        assert!(last.starts_with(&format!("FI {bytes}:0:fw w")), "{last}");
    }

    fn command(&self) -> Command {
        let mut c = Command::new(&self.program);
        c.stdin(File::open(&self.records).unwrap());
        c
    }
}

/// Document 01's records: each piece, a flush or none, the response that all so far is persisted, and finalise.
fn upload(u: &Upload, data: &[u8]) -> Vec<u8> {
    let mut r = b"OP".to_vec();
    r.extend((BENCH.limit as u16).to_le_bytes());
    r.extend((BENCH.capacity as u32).to_le_bytes());
    r.extend(0i64.to_le_bytes());
    let mut sent = 0i64;
    for piece in data.chunks(u.piece.clamp(1, BENCH.limit)) {
        r.extend(b"AP");
        r.extend((piece.len() as u16).to_le_bytes());
        r.extend(piece);
        if u.flush {
            r.extend(b"FL");
        }
        sent += piece.len() as i64;
        r.extend(b"RS");
        r.extend(sent.to_le_bytes());
    }
    r.extend(b"FI");
    r
}
