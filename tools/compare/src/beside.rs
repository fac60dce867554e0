//! The library's functions for one key and for one host's own record, beside the Rust and the model.

pub mod hosts;
pub mod keys;
