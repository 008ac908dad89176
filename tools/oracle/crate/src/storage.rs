//! Stand-in for the crate's storage.rs: only the modules that are here.
pub(crate) mod bidi_write; // the crate's own
pub(crate) mod client; // `enc`, cut out of the crate's client.rs
pub(crate) mod common_options; // the crate's own
pub(crate) mod info; // cut out of the crate's storage.rs
pub mod request_options; // the crate's own

/// Stand-in for storage/checksum.rs.
pub(crate) mod checksum {
    pub mod details {
        #[derive(Clone, Debug, Default)]
        pub struct Crc32c;
        #[derive(Clone, Debug, Default)]
        pub struct Checksum {
            pub crc32c: Option<Crc32c>,
            pub md5_hash: Option<()>,
        }
    }
}

/// Stand-in for storage/stub.rs: the one trait that transport.rs implements.
pub mod stub {
    use crate::Result;
    use std::future::Future;
    pub trait AppendableObjectWriter: std::fmt::Debug + Send {
        fn append(&mut self, chunk: bytes::Bytes) -> impl Future<Output = Result<()>> + Send;
        fn flush(&mut self) -> impl Future<Output = Result<i64>> + Send;
        fn finalize(self) -> impl Future<Output = Result<crate::model::Object>> + Send;
        fn close(self) -> impl Future<Output = Result<i64>> + Send;
        fn generation(&self) -> i64;
        fn persisted_size(&self) -> i64;
    }
}
