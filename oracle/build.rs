//! Links the proved library where MRT_ARCHIVE names its archive, `libmrt.a`; without it there are two subjects.

use std::path::PathBuf;

fn main() {
    println!("cargo:rerun-if-env-changed=MRT_ARCHIVE");
    println!("cargo:rustc-check-cfg=cfg(proved)");
    let Some(archive) = std::env::var_os("MRT_ARCHIVE").map(PathBuf::from) else {
        return;
    };
    let folder = archive.parent().expect("MRT_ARCHIVE names a file in a folder");
    println!("cargo:rerun-if-changed={}", archive.display());
    println!("cargo:rustc-link-search=native={}", folder.display());
    println!("cargo:rustc-link-lib=static=mrt");
    println!("cargo:rustc-cfg=proved");
}
