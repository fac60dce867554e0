//! Brings the Rust sources into the build, unchanged, and links our static library.
//!
//! The sources are not part of this repository: they are copied from the folder that
//! `BRAIDPUDDLE_RUST_SRC` names into cargo's own build folder, and compiled from there. The library is
//! taken from the folder that `BRAIDPUDDLE_LIB` names; without it, the cfg `braidpuddle` is not set.

use std::env;
use std::fs;
use std::path::{Path, PathBuf};

const SOURCE_VARIABLE: &str = "BRAIDPUDDLE_RUST_SRC";

/// Where the sources lie if the variable does not say, as seen from this package: beside the repository.
const DEFAULT_SOURCE: &str = "../../../shared/docs/src";

/// The folder of the record's modules, in the folder of sources.
const FLOW_FOLDER: &str = "fluereflow/src/flow";

/// The engine, a single file, in the folder of sources.
const ENGINE_FOLDER: &str = "src/net";
const ENGINE_FILE: &str = "flow_engine.rs";

const LIBRARY_VARIABLE: &str = "BRAIDPUDDLE_LIB";

/// Where the library lies if the variable does not say, as seen from this package.
const DEFAULT_LIBRARY: &str = "../../build/lib";

const LIBRARY_FILE: &str = "libbraidpuddle.a";

/// The whole folder: its root, and the modules that the root declares.
const FLOW_FILES: [&str; 8] = [
    "mod.rs",
    "encapsulation.rs",
    "key.rs",
    "link.rs",
    "paths.rs",
    "stats.rs",
    "time.rs",
    "vlan.rs",
];

fn main() {
    copy_sources();
    link_library();
}

fn copy_sources() {
    println!("cargo:rerun-if-env-changed={SOURCE_VARIABLE}");
    let source = folder(SOURCE_VARIABLE, DEFAULT_SOURCE);
    let copies = build_folder().join("flow");
    fs::create_dir_all(&copies).expect("cargo's build folder can be written");
    for file in FLOW_FILES {
        copy_unchanged(&source.join(FLOW_FOLDER), &copies, file);
    }
    copy_unchanged(&source.join(ENGINE_FOLDER), &build_folder(), ENGINE_FILE);
    fs::write(build_folder().join("flow_module.rs"), declaration(&copies))
        .expect("cargo's build folder can be written");
}

fn link_library() {
    println!("cargo:rerun-if-env-changed={LIBRARY_VARIABLE}");
    println!("cargo:rustc-check-cfg=cfg(braidpuddle)");
    let folder = folder(LIBRARY_VARIABLE, DEFAULT_LIBRARY);
    let file = folder.join(LIBRARY_FILE);
    println!("cargo:rerun-if-changed={}", file.display());
    if file.is_file() {
        println!("cargo:rustc-cfg=braidpuddle");
        println!("cargo:rustc-link-search=native={}", folder.display());
        println!("cargo:rustc-link-lib=static=braidpuddle");
    }
}

/// The folder that the variable names, or else the usual one.
fn folder(variable: &str, usual: &str) -> PathBuf {
    match env::var_os(variable) {
        Some(folder) => PathBuf::from(folder),
        None => package_folder().join(usual),
    }
}

fn package_folder() -> PathBuf {
    PathBuf::from(env::var_os("CARGO_MANIFEST_DIR").expect("cargo says where the package is"))
}

fn build_folder() -> PathBuf {
    PathBuf::from(env::var_os("OUT_DIR").expect("cargo says where to build"))
}

fn copy_unchanged(from: &Path, to: &Path, file: &str) {
    let original = from.join(file);
    println!("cargo:rerun-if-changed={}", original.display());
    let text = fs::read(&original).unwrap_or_else(|error| give_up(&original, &error.to_string()));
    fs::write(to.join(file), text).expect("cargo's build folder can be written");
}

/// A `mod` item with the copy's full path: `#[path]` takes no expression, so it is generated.
fn declaration(copies: &Path) -> String {
    let root = copies.join("mod.rs").display().to_string();
    format!("#[path = {root:?}]\n#[allow(dead_code)]\npub mod flow;\n")
}

fn give_up(file: &Path, reason: &str) -> ! {
    eprintln!(
        "The Rust sources are not at hand: {}: {reason}.",
        file.display()
    );
    eprintln!("Set {SOURCE_VARIABLE} to the folder that holds {FLOW_FOLDER} and {ENGINE_FOLDER}.");
    std::process::exit(1);
}
