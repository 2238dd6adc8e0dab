//! Finds libturns.a: in `TURNS_LIB_DIR`, or where `./archive` puts it.

use std::env;
use std::path::{Path, PathBuf};
use std::process::exit;

fn main() {
    println!("cargo::rerun-if-env-changed=TURNS_LIB_DIR");
    println!("cargo::rerun-if-changed=build.rs");
    let given = env::var_os("TURNS_LIB_DIR").map(PathBuf::from);
    let dir = match &given {
        Some(dir) if dir.is_relative() => {
            let dir = dir.display();
            stop(&format!(
                "TURNS_LIB_DIR is {dir}: it must be an absolute path"
            ))
        }
        Some(dir) => dir.clone(),
        None => built(),
    };
    let archive = dir.join("libturns.a");
    println!("cargo::rerun-if-changed={}", archive.display());
    if !archive.is_file() {
        stop(&missing(&archive, given.is_some()));
    }
    println!("cargo::rustc-link-search=native={}", dir.display());
    println!("cargo::rustc-link-lib=static=turns");
}

/// Where `./archive` puts the archive: below the root, of which this is bindings/rust.
fn built() -> PathBuf {
    let package = env::var_os("CARGO_MANIFEST_DIR").map_or_else(PathBuf::new, PathBuf::from);
    let package = package.canonicalize().unwrap_or(package);
    let root = package.ancestors().nth(2).unwrap_or(&package);
    root.join("target/staticlib")
}

/// What to do where there is no archive.
fn missing(archive: &Path, given: bool) -> String {
    let archive = archive.display();
    if given {
        format!(
            "there is no {archive}.\n\
             TURNS_LIB_DIR must name the directory that libturns.a is in; without it the archive \
             is looked for where `./archive` puts it."
        )
    } else {
        format!(
            "there is no {archive}.\n\
             Run `./archive` at the root of the turn library, which proves the archive \
             and builds it; or set TURNS_LIB_DIR to the directory that libturns.a is in."
        )
    }
}

/// Ends the build with a message.
fn stop(message: &str) -> ! {
    eprintln!("turns: {message}");
    exit(1);
}
