//! Reads scripts: docs/TRACE.md's records, and the bench records of document 01. A script ends at EN; the last may have none.
use super::calls::{Break, Call, Opening, Response, WriteStatus};

/// What the programs have to lend.
const STORE: u16 = 32_768;
const SLOTS: u16 = 64;
const OUT: u16 = 8_192;
const BUFFER: u16 = 16_384;

#[derive(Clone, Copy, PartialEq)]
pub enum Format {
    Trace,
    Bench,
}

pub struct Script {
    pub calls: Vec<Call>,
    /// It was ended by EN.
    pub whole: bool,
}

/// `None` behind a record that is cut or unknown, or at the end of the input.
pub fn next_script(input: &mut Reader, format: Format) -> Option<Script> {
    let mut calls: Vec<Call> = Vec::new();
    while let Some(mark) = input.take(2) {
        if mark == b"EN" {
            return Some(Script { calls, whole: true });
        }
        let call = match format {
            Format::Trace => input.trace_record(mark),
            Format::Bench => input.bench_record(mark),
        };
        let Some(call) = call else { break };
        let opened = calls.iter().any(|c| matches!(c, Call::Open(_)));
        // One opening a script; what stands before it is skipped, but ends a bench run.
        match (opened, matches!(call, Call::Open(_))) {
            (true, true) => break,
            (false, false) if format == Format::Bench => break,
            _ => calls.push(call),
        }
    }
    input.bytes = &[];
    (!calls.is_empty()).then_some(Script { calls, whole: false })
}

/// Steps through bytes; every read is whole or none.
pub struct Reader<'a> {
    pub bytes: &'a [u8],
}

impl<'a> Reader<'a> {
    fn take(&mut self, n: usize) -> Option<&'a [u8]> {
        let (front, rest) = self.bytes.split_at_checked(n)?;
        self.bytes = rest;
        Some(front)
    }
    pub fn u8(&mut self) -> Option<u8> {
        Some(self.take(1)?[0])
    }
    pub fn u16(&mut self) -> Option<u16> {
        Some(u16::from_le_bytes(self.take(2)?.try_into().ok()?))
    }
    pub fn u32(&mut self) -> Option<u32> {
        Some(u32::from_le_bytes(self.take(4)?.try_into().ok()?))
    }
    pub fn i64(&mut self) -> Option<i64> {
        Some(i64::from_le_bytes(self.take(8)?.try_into().ok()?))
    }
    fn flag(&mut self) -> Option<bool> {
        match self.u8()? {
            0 => Some(false),
            1 => Some(true),
            _ => None,
        }
    }
    fn str(&mut self) -> Option<Vec<u8>> {
        let n = self.u16()?;
        Some(self.take(n.into())?.to_vec())
    }
    fn opt<T>(&mut self, read: impl FnOnce(&mut Self) -> Option<T>) -> Option<Option<T>> {
        if self.flag()? { Some(Some(read(self)?)) } else { Some(None) }
    }

    fn trace_record(&mut self, mark: &[u8]) -> Option<Call> {
        Some(match mark {
            b"OP" => Call::Open(Box::new(self.opening()?)),
            b"AP" => Call::Append(self.str()?),
            b"RS" => Call::Response(self.response()?),
            b"HS" => Call::Handshake(self.response()?),
            b"BR" => Call::Break(self.break_()?),
            b"VE" => Call::Verdict(self.u8()?),
            b"FA" => Call::FailedAttempt(self.u8()?, self.break_()?),
            b"SF" => Call::SendFailed,
            b"WB" => Call::Write { buffer: self.u16()?.min(BUFFER).into(), data: self.u16()?.into() },
            _ => return plain(mark),
        })
    }

    // Fields are read in the order in which they stand here.
    fn opening(&mut self) -> Option<Opening> {
        let mut o = Opening {
            store: self.u16()?.min(STORE).into(),
            slots: self.u16()?.min(SLOTS).into(),
            out: self.u16()?.min(OUT).into(),
            chunk: self.u32()?.into(),
            capacity: self.opt(Self::u32)?.map(u64::from),
            last_persisted_size: self.i64()?,
            append: self.flag()?,
            bucket: self.str()?,
            object: self.str()?,
            generation: self.i64()?,
            token: self.opt(Self::str)?,
            handle: self.opt(Self::str)?,
            if_match: self.opt(Self::i64)?,
            if_not_match: self.opt(Self::i64)?,
            payload: self.opt(Self::str)?,
            response: self.response()?,
        };
        o.response.sum = self.opt(Self::u32)?;
        Some(o)
    }

    fn response(&mut self) -> Option<Response> {
        let status = match self.u8()? {
            0 => WriteStatus::Absent,
            1 => WriteStatus::Size(self.i64()?),
            2 => WriteStatus::Resource { size: self.i64()?, generation: self.i64()?, finalized: false },
            3 => WriteStatus::Resource { size: self.i64()?, generation: self.i64()?, finalized: true },
            _ => return None,
        };
        Some(Response { status, handle: self.opt(Self::str)?, sum: None })
    }

    fn break_(&mut self) -> Option<Break> {
        Some(match self.u8()? {
            0 => Break::EndOfStream,
            1 => Break::Status { code: self.u32()?, detail: self.opt(Self::str)? },
            2 => Break::Error,
            _ => return None,
        })
    }

    fn bench_record(&mut self, mark: &[u8]) -> Option<Call> {
        Some(match mark {
            b"OP" => {
                let (chunk, capacity, size) = (self.u16()?, self.u32()?, self.i64()?);
                Call::Open(Box::new(bench_opening(chunk, capacity, size)))
            }
            b"AP" => Call::Append(self.str()?),
            b"RS" => Call::Response(size_alone(self.i64()?)),
            b"HS" => Call::Handshake(size_alone(self.i64()?)),
            b"BR" => Call::Break(Break::EndOfStream),
            b"VE" => Call::Verdict(self.u8()?),
            _ => return plain(mark),
        })
    }
}

/// Records that are a mark alone, in both formats.
fn plain(mark: &[u8]) -> Option<Call> {
    match mark {
        b"FL" => Some(Call::Flush),
        b"FI" => Some(Call::Finalize),
        b"CL" => Some(Call::Close),
        b"NX" => Some(Call::Next),
        _ => None,
    }
}

fn size_alone(size: i64) -> Response {
    Response { status: WriteStatus::Size(size), handle: None, sum: None }
}

fn bench_opening(chunk: u16, capacity: u32, size: i64) -> Opening {
    Opening {
        store: STORE.into(),
        slots: SLOTS.into(),
        out: OUT.into(),
        chunk: chunk.into(),
        capacity: Some(capacity.into()),
        last_persisted_size: 0,
        append: true,
        bucket: b"projects/_/buckets/b".to_vec(),
        object: b"o".to_vec(),
        generation: 0,
        token: None,
        handle: None,
        if_match: None,
        if_not_match: None,
        payload: None,
        response: size_alone(size),
    }
}
