//! Stand-ins for the crates that the Rust's flow_engine.rs names and that are not among its sources.

pub mod ahash;
pub mod log;
