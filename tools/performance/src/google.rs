//! The crate's generated messages, unchanged, and a stand-in for google.type, which no request names.
pub mod rpc {
    include!("generated/google.rpc.rs");
}
pub mod storage {
    pub mod v2 {
        include!("generated/google.storage.v2.rs");
    }
}
pub mod r#type {
    #[derive(Clone, Copy, PartialEq, Eq, Hash, ::prost::Message)]
    pub struct Date {}
}
