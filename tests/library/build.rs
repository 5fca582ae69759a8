//! Links the compiled library `libc_api.a` from the directory that the
//! environment variable MELTUSK_LIB names. A relative directory is taken from
//! the root of the repository.

use std::path::{Path, PathBuf};

const VARIABLE: &str = "MELTUSK_LIB";
const ARCHIVE: &str = "libc_api.a";

fn fail(message: &str) -> ! {
    eprintln!("error: {message}");
    std::process::exit(1);
}

/// The directory above this package that has the C header.
fn root() -> PathBuf {
    let package = std::env::var_os("CARGO_MANIFEST_DIR").unwrap_or_default();
    match Path::new(&package)
        .ancestors()
        .find(|d| d.join("include/meltusk.h").is_file())
    {
        Some(root) => root.to_path_buf(),
        None => fail("no include/meltusk.h above this package"),
    }
}

fn main() {
    println!("cargo:rerun-if-changed=build.rs");
    println!("cargo:rerun-if-env-changed={VARIABLE}");
    let directory = match std::env::var_os(VARIABLE) {
        Some(directory) if !directory.is_empty() => root().join(directory),
        _ => fail(&format!(
            "{VARIABLE} is not set; set it to the directory that holds {ARCHIVE}"
        )),
    };
    let archive = directory.join(ARCHIVE);
    if !archive.is_file() {
        fail(&format!("{VARIABLE}: there is no {}", archive.display()));
    }
    println!("cargo:rerun-if-changed={}", archive.display());
    println!("cargo:rustc-link-search=native={}", directory.display());
    println!("cargo:rustc-link-lib=static=c_api");
}
