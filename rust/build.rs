//! Links `libmrt.a`: the file that MRT_ARCHIVE names, or else one made from the repository around this folder, where `rt` is
//! at hand.

use std::path::{Path, PathBuf};
use std::process::{Command, exit};
use std::{env, fs};

fn main() {
    println!("cargo:rerun-if-env-changed=MRT_ARCHIVE");
    let folder = PathBuf::from(env::var_os("OUT_DIR").unwrap_or_default());
    let archive = folder.join("libmrt.a");
    match env::var_os("MRT_ARCHIVE") {
        Some(name) => take(Path::new(&name), &archive),
        None => make(&archive),
    }
    println!("cargo:rustc-link-search=native={}", folder.display());
    println!("cargo:rustc-link-lib=static=mrt");
}

/// Copies the archive, so that it may have any name.
fn take(from: &Path, archive: &Path) {
    println!("cargo:rerun-if-changed={}", from.display());
    if let Err(error) = fs::copy(from, archive) {
        stop(&format!("MRT_ARCHIVE names {}, which cannot be read: {error}", from.display()));
    }
}

/// Proves the library and makes its archive.
fn make(archive: &Path) {
    for source in ["../tests/archive", "../crates.txt"] {
        println!("cargo:rerun-if-changed={source}");
    }
    // of a crate's folder what `rt` reads, and not the `out` that it writes
    for folder in fs::read_dir("../crates").into_iter().flatten().flatten() {
        let parts = ["src", "specs", "proofs"].map(|part| folder.path().join(part));
        for part in parts.iter().filter(|part| part.is_dir()) {
            println!("cargo:rerun-if-changed={}", part.display());
        }
    }
    if !Path::new("../tests/archive").is_file() {
        stop("there is no libmrt.a to link: the repository is not around this folder");
    }
    if Command::new("rt").arg("doc").output().is_err() {
        stop("there is no libmrt.a to link: rt, which proves and makes it, is not on the PATH");
    }
    match Command::new("bash").arg("../tests/archive").arg(archive).output() {
        Ok(done) if done.status.success() => {}
        Ok(done) => {
            eprint!("{}{}", String::from_utf8_lossy(&done.stdout), String::from_utf8_lossy(&done.stderr));
            stop("the archive could not be made; what was said stands above");
        }
        Err(error) => stop(&format!("bash could not be started: {error}")),
    }
}

fn stop(why: &str) -> ! {
    eprintln!("mrt: {why}.");
    eprintln!(
        "mrt: set MRT_ARCHIVE to the full path of a libmrt.a. `bash tests/archive libmrt.a`, in the repository, makes one."
    );
    exit(1);
}
