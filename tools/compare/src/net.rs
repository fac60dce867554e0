//! The Rust's `net` folder, as far as its flow engine needs it.
//!
//! `flow_engine` is the Rust's own file, unchanged. `types` and `parser` stand in for what it
//! imports from beside it: `types` is not among the sources, and of `parser` it needs one struct.

pub mod parser;
pub mod types;

/// The Rust's own `flow_engine.rs`, copied unchanged by the build script.
///
/// It is included below the names that it expects as crates, so that it finds them here.
#[allow(dead_code)]
pub mod flow_engine {
    use crate::flow as fluereflow;
    use crate::shims::{ahash, log};

    include!(concat!(env!("OUT_DIR"), "/flow_engine.rs"));
}
