//! In place of `net/types/mod.rs`, which is not among the Rust's sources.

/// What flows are kept under: flow_engine.rs hands it to `Flow::new`, which takes a `FlowKey`.
pub type Key = crate::flow::FlowKey;
