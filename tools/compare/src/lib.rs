//! The Rust under comparison, and what this package needs to ask it questions.
//!
//! `flow` and `net::flow_engine` are the Rust itself, built unchanged; `shims` and the rest of `net`
//! stand in for what they import. Everything else is ours: `forms` and `records` write the byte forms
//! of document 01, `random` makes numbers that are the same in every run, and `answers` makes the
//! lists of known answers that two of the binaries print.
//!
//! `engine` says what an engine is called with and what it answers. `model` is a plain reading of
//! document 01, `rust_engine` the Rust behind document 01's byte forms, and `ours` our static library;
//! `scripts` drives engines side by side.
//!
//! `beside` asks the library about one key or one host's record, and the Rust and the model the same;
//! `calls` drives the library beside the model where the Rust cannot judge. `words` turns records and
//! packets into the numbers that the library has for them, and `layout` reads its state memory.
//!
//! `replay` says what the program of that name prints, by the model, and `samples` makes inputs for it.

#![deny(unsafe_code)]

pub mod answers;
pub mod beside;
pub mod calls;
pub mod engine;
pub mod forms;
pub mod layout;
pub mod model;
pub mod net;
pub mod options;
pub mod ours;
pub mod random;
pub mod records;
pub mod replay;
pub mod rust_engine;
pub mod samples;
pub mod scripts;
pub mod shims;
pub mod words;

// The Rust's own `flow/mod.rs` with its modules, copied unchanged by the build script.
include!(concat!(env!("OUT_DIR"), "/flow_module.rs"));
