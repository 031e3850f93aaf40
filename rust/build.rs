//! Links libcapi.a: from the folder that BRUNDILOPE_ARCHIVE names, else as `rt lib` builds it in crates/capi.
use std::path::{Path, PathBuf};
use std::process::{exit, Command};
use std::{env, fs};

const ROOT: &str = concat!(env!("CARGO_MANIFEST_DIR"), "/..");

fn fail(why: String) -> ! {
    eprintln!("brundilope: {why}");
    eprintln!(
        "Put `rt` of the Rattle toolchain on the path, or set BRUNDILOPE_ARCHIVE to the folder that holds libcapi.a."
    );
    exit(1)
}

/// Proves and builds the archive with the Rattle toolchain; gives its folder.
fn built() -> PathBuf {
    println!("cargo:rerun-if-changed={ROOT}/crates.txt");
    for one in fs::read_dir(format!("{ROOT}/crates")).into_iter().flatten().flatten() {
        // out/ is what `rt` itself writes
        for part in ["src", "specs", "proofs"].map(|part| one.path().join(part)) {
            if part.is_dir() {
                println!("cargo:rerun-if-changed={}", part.display());
            }
        }
    }
    let folder = Path::new(ROOT).join("crates/capi");
    let run = Command::new("rt").arg("lib").current_dir(&folder).output();
    let done = run.unwrap_or_else(|e| fail(format!("`rt` could not be run: {e}")));
    if !done.status.success() {
        eprint!("{}", String::from_utf8_lossy(&done.stdout));
        eprint!("{}", String::from_utf8_lossy(&done.stderr));
        fail("`rt lib` failed in crates/capi".to_string());
    }
    folder.join("out")
}

fn main() {
    println!("cargo:rerun-if-env-changed=BRUNDILOPE_ARCHIVE");
    let named = env::var_os("BRUNDILOPE_ARCHIVE").filter(|folder| !folder.is_empty());
    let archive = match named {
        Some(folder) => {
            let archive = Path::new(&folder).join("libcapi.a");
            println!("cargo:rerun-if-changed={}", archive.display());
            archive
        }
        None => built().join("libcapi.a"),
    };
    // A copy of its own, since `rt ci` removes it.
    let own = PathBuf::from(env::var_os("OUT_DIR").expect("cargo sets OUT_DIR"));
    if let Err(e) = fs::copy(&archive, own.join("libcapi.a")) {
        fail(format!("{} cannot be read: {e}", archive.display()));
    }
    println!("cargo:rustc-link-search=native={}", own.display());
    println!("cargo:rustc-link-lib=static=capi");
}
