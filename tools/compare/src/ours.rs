//! Our static library behind safe functions over slices and arrays.
//!
//! This folder has all of the package's unsafe code. Where there was no library to link, `AT_HAND` is
//! false and no function here may be called.

#![allow(unsafe_code)]

pub mod calls;
pub mod forms;
pub mod host;
pub mod keys;

mod engine;
mod raw;

use std::process::ExitCode;
use std::ptr;

pub use engine::Ours;

/// Whether the library was there when this package was built.
pub const AT_HAND: bool = cfg!(braidpuddle);

/// What shard, name, version and number of open flows are where there is none.
pub const NONE: u64 = u64::MAX;

/// What a program that needs the library ends with where it was not there.
pub fn missing() -> ExitCode {
    eprintln!(
        "The library libbraidpuddle.a was not there when this was built. Set BRAIDPUDDLE_LIB to its \
         folder and build again."
    );
    ExitCode::from(2)
}

/// Where a slice begins, as C hosts say it: an empty one is nowhere.
fn start(bytes: &[u8]) -> *const u8 {
    if bytes.is_empty() {
        ptr::null()
    } else {
        bytes.as_ptr()
    }
}

fn start_mut(bytes: &mut [u8]) -> *mut u8 {
    if bytes.is_empty() {
        ptr::null_mut()
    } else {
        bytes.as_mut_ptr()
    }
}
