//! Finds the static library: in the folder that `BRAIDPUDDLE_LIB` names, else in the repository's `build/lib`. A relative
//! folder is taken from this package's own.

use std::env;
use std::path::{Path, PathBuf};

const FOLDER_VARIABLE: &str = "BRAIDPUDDLE_LIB";
const DEFAULT_FOLDER: &str = "../build/lib";
const LIBRARY_FILE: &str = "libbraidpuddle.a";

fn main() {
    println!("cargo:rerun-if-env-changed={FOLDER_VARIABLE}");
    let folder = library_folder();
    let library = folder.join(LIBRARY_FILE);
    println!("cargo:rerun-if-changed={}", library.display());
    if !library.is_file() {
        give_up(&folder);
    }
    println!("cargo:rustc-link-search=native={}", folder.display());
    println!("cargo:rustc-link-lib=static=braidpuddle");
}

fn library_folder() -> PathBuf {
    let package =
        PathBuf::from(env::var_os("CARGO_MANIFEST_DIR").expect("cargo names the package"));
    match env::var_os(FOLDER_VARIABLE) {
        Some(folder) => package.join(folder),
        None => package.join(DEFAULT_FOLDER),
    }
}

fn give_up(folder: &Path) -> ! {
    eprintln!("There is no {LIBRARY_FILE} in {}.", folder.display());
    eprintln!("Make it with `sh tools/library.sh`, or set {FOLDER_VARIABLE} to its folder.");
    std::process::exit(1);
}
