//! Stand-in: empty. The crate's file is not among the sources.
