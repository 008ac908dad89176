//! The calls of a session, with all of their arguments.

#[derive(Clone, Copy)]
pub enum WriteStatus {
    Absent,
    Size(i64),
    Resource { size: i64, generation: i64, finalized: bool },
}

#[derive(Clone)]
pub struct Response {
    pub status: WriteStatus,
    pub handle: Option<Vec<u8>>,
    /// Of the persisted data; only an opening's response has one.
    pub sum: Option<u32>,
}

impl Response {
    pub fn size(&self) -> Option<i64> {
        match self.status {
            WriteStatus::Absent => None,
            WriteStatus::Size(size) | WriteStatus::Resource { size, .. } => Some(size),
        }
    }
}

/// A status has the value of a redirect detail as received.
#[derive(Clone)]
pub enum Break {
    EndOfStream,
    Status { code: u32, detail: Option<Vec<u8>> },
    Error,
}

impl Break {
    fn detail(&self) -> Option<&[u8]> {
        match self {
            Break::Status { detail, .. } => detail.as_deref(),
            _ => None,
        }
    }
}

#[derive(Clone)]
pub struct Opening {
    /// Lengths of what is lent.
    pub store: u64,
    pub slots: usize,
    pub out: usize,
    pub chunk: u64,
    pub capacity: Option<u64>,
    pub last_persisted_size: i64,
    /// The spec is in the Append form.
    pub append: bool,
    pub bucket: Vec<u8>,
    pub object: Vec<u8>,
    pub generation: i64,
    pub token: Option<Vec<u8>>,
    pub handle: Option<Vec<u8>>,
    pub if_match: Option<i64>,
    pub if_not_match: Option<i64>,
    pub payload: Option<Vec<u8>>,
    pub response: Response,
}

impl Opening {
    pub fn asked_capacity(&self) -> u64 {
        self.capacity.unwrap_or(33_554_432)
    }
}

#[derive(Clone)]
pub enum Call {
    Open(Box<Opening>),
    Append(Vec<u8>),
    Flush,
    Finalize,
    Close,
    Response(Response),
    Break(Break),
    Verdict(u8),
    FailedAttempt(u8, Break),
    Handshake(Response),
    Next,
    SendFailed,
    /// No call of a session: the request that the last accepted one handed out is written as bytes. The lengths of what is lent.
    Write { buffer: usize, data: usize },
}

impl Call {
    pub fn mark(&self) -> &'static str {
        match self {
            Call::Open(_) => "OP",
            Call::Append(_) => "AP",
            Call::Flush => "FL",
            Call::Finalize => "FI",
            Call::Close => "CL",
            Call::Response(_) => "RS",
            Call::Break(_) => "BR",
            Call::Verdict(_) => "VE",
            Call::FailedAttempt(..) => "FA",
            Call::Handshake(_) => "HS",
            Call::Next => "NX",
            Call::SendFailed => "SF",
            Call::Write { .. } => "WB",
        }
    }

    /// The value of a redirect detail that it brings.
    pub fn detail(&self) -> Option<&[u8]> {
        match self {
            Call::Break(b) | Call::FailedAttempt(_, b) => b.detail(),
            _ => None,
        }
    }
}

impl Opening {
    /// Whether names and token are UTF-8: the crate has them as `String`.
    pub fn is_text(&self) -> bool {
        is_text(Some(&self.bucket)) && is_text(Some(&self.object)) && is_text(self.token.as_ref())
    }
}

fn is_text(bytes: Option<&Vec<u8>>) -> bool {
    bytes.is_none_or(|b| std::str::from_utf8(b).is_ok())
}

/// Of bytes that are known to be text.
pub fn text(bytes: &[u8]) -> String {
    String::from_utf8(bytes.to_vec()).expect("text")
}
