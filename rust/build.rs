//! Links the static library of `crates/nio_c` and the allocator of the toolchain. `NIO_C` and `KIT` name their folders,
//! where they aren't `crates/nio_c/out` of this repository and the folder of the command `rt`.

use std::env;
use std::path::{Path, PathBuf};

fn main() {
    let here = PathBuf::from(env::var_os("CARGO_MANIFEST_DIR").expect("cargo sets it"));
    let library = env::var_os("NIO_C").map_or_else(|| here.join("../crates/nio_c/out"), PathBuf::from);
    let kit = env::var_os("KIT").map_or_else(kit_of_rt, PathBuf::from);
    link("nio_c", &library);
    link("libc_c", &kit.join("c"));
    println!("cargo:rerun-if-env-changed=NIO_C");
    println!("cargo:rerun-if-env-changed=KIT");
}

fn link(name: &str, folder: &Path) {
    println!("cargo:rustc-link-search=native={}", folder.display());
    println!("cargo:rustc-link-lib=static={name}");
    println!("cargo:rerun-if-changed={}", folder.join(format!("lib{name}.a")).display());
}

/// The toolchain's folder: it holds `bin/rt`, and `c/liblibc_c.a`.
fn kit_of_rt() -> PathBuf {
    let path = env::var_os("PATH").unwrap_or_default();
    env::split_paths(&path)
        .filter_map(|folder| folder.join("rt").canonicalize().ok())
        .filter_map(|rt| Some(rt.parent()?.parent()?.to_path_buf()))
        .find(|kit| kit.join("c/liblibc_c.a").exists())
        .unwrap_or_else(|| PathBuf::from("/opt/rattle"))
}
