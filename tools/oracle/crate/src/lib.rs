//! The oracle: the crate's own files under src/storage and src/generated (put there by patch), stand-ins for its other files, and the driver in
//! src/oracle.
pub use google_cloud_gax::{Result, error::Error};

pub mod google {
    pub mod rpc {
        include!("generated/protos/control/google.rpc.rs");
    }
    pub mod storage {
        pub mod v2 {
            include!("generated/protos/storage/google.storage.v2.rs");
        }
    }
    /// Stand-in for google.type; used only by bucket messages.
    pub mod r#type {
        #[derive(Clone, Copy, PartialEq, Eq, Hash, ::prost::Message)]
        pub struct Date {
            #[prost(int32, tag = "1")]
            pub year: i32,
            #[prost(int32, tag = "2")]
            pub month: i32,
            #[prost(int32, tag = "3")]
            pub day: i32,
        }
    }
}

pub mod backoff_policy; // the crate's own
pub mod storage; // list of modules: stand-in; the files below it: see there
pub use storage::{request_options, stub};

pub mod oracle;

/// Stand-in: the model types that connector.rs and transport.rs name.
pub mod model {
    use gaxi::prost::{ConvertError, FromProto, ToProto};
    #[derive(Clone, Debug, Default, PartialEq)]
    pub struct Object {
        pub bucket: String,
        pub name: String,
        pub generation: i64,
        pub size: i64,
    }
    #[derive(Clone, Debug, Default, PartialEq)]
    pub struct CommonObjectRequestParams;
    #[derive(Clone, Debug, Default, PartialEq)]
    pub struct WriteObjectSpec {
        pub resource: Option<Object>,
        pub predefined_acl: String,
        pub if_generation_match: Option<i64>,
        pub if_generation_not_match: Option<i64>,
        pub if_metageneration_match: Option<i64>,
        pub if_metageneration_not_match: Option<i64>,
        pub object_size: Option<i64>,
        pub appendable: Option<bool>,
    }
    impl ToProto<crate::google::storage::v2::Object> for Object {
        fn to_proto(self) -> Result<crate::google::storage::v2::Object, ConvertError> {
            Ok(crate::google::storage::v2::Object {
                bucket: self.bucket,
                name: self.name,
                generation: self.generation,
                size: self.size,
                ..Default::default()
            })
        }
    }
    impl FromProto<Object> for crate::google::storage::v2::Object {
        fn cnv(self) -> Result<Object, ConvertError> {
            Ok(Object { bucket: self.bucket, name: self.name, generation: self.generation, size: self.size })
        }
    }
    impl ToProto<crate::google::storage::v2::CommonObjectRequestParams> for CommonObjectRequestParams {
        fn to_proto(self) -> Result<crate::google::storage::v2::CommonObjectRequestParams, ConvertError> {
            Ok(Default::default())
        }
    }
}

/// Stand-in: the two opening requests.
pub mod model_ext {
    #[derive(Clone, Debug, Default, PartialEq)]
    pub struct OpenAppendableObjectRequest {
        pub spec: crate::model::WriteObjectSpec,
        pub params: Option<crate::model::CommonObjectRequestParams>,
    }
    #[derive(Clone, Debug, Default, PartialEq)]
    pub struct ReopenAppendableObjectRequest {
        pub bucket: String,
        pub object: String,
        pub generation: i64,
        pub routing_token: Option<String>,
        pub if_metageneration_match: Option<i64>,
        pub if_metageneration_not_match: Option<i64>,
        pub write_handle: Option<bytes::Bytes>,
        pub params: Option<crate::model::CommonObjectRequestParams>,
    }
}

/// Stand-in, never asked.
pub mod retry_policy {
    use google_cloud_gax::{error::Error, retry_policy::RetryPolicy, retry_result::RetryResult, retry_state::RetryState};
    #[derive(Debug)]
    struct Never;
    impl RetryPolicy for Never {
        fn on_error(&self, _: &RetryState, e: Error) -> RetryResult {
            RetryResult::Permanent(e)
        }
    }
    pub fn storage_default() -> impl RetryPolicy {
        Never
    }
}

/// Stand-in, never asked.
pub mod read_resume_policy {
    pub trait ReadResumePolicy: Send + Sync + std::fmt::Debug {}
    #[derive(Debug)]
    pub struct Recommended;
    impl ReadResumePolicy for Recommended {}
}
