//! Names the static library to link: libnode_c.a in ../target/staticlib, or in the folder
//! NODE_C_DIR. Where it is missing, the package is built without it, since not every program calls
//! it; those that do say so.

use std::path::{Path, PathBuf};

pub fn link(package: &Path) {
    println!("cargo::rerun-if-env-changed=NODE_C_DIR");
    println!("cargo::rustc-check-cfg=cfg(no_archive)");
    let named = std::env::var_os("NODE_C_DIR");
    let is_named = named.is_some();
    let folder = named.map_or(package.join("../target/staticlib"), PathBuf::from);
    if folder.join("libnode_c.a").is_file() {
        let archive = folder.join("libnode_c.a");
        println!("cargo::rerun-if-changed={}", archive.display());
        println!("cargo::rustc-link-search=native={}", folder.display());
        println!("cargo::rustc-link-lib=static=node_c");
        return;
    }
    println!("cargo::rustc-cfg=no_archive");
    // Cargo would compile anew each time while a path that it watches is missing, so the folder of
    // the archive is made; that it can't be made costs no more than that.
    if !is_named {
        let _ = std::fs::create_dir_all(&folder);
    }
    println!("cargo::rerun-if-changed={}", folder.display());
}
