//! Links the proved archive `libstabby_c.a`, and the toolchain's `liblibc_c.a` with the three functions over `malloc`
//! that it wants.
//!
//! `STABBY_C_DIR` is the folder of the first, `crates/stabby_c/out` by default, where `rt lib` in `crates/stabby_c` makes
//! it. `RATTLE_C_DIR` is the folder of the second: by default `c`, beside the page whose path `rt doc` prints.

use std::env;
use std::path::{Path, PathBuf};
use std::process::Command;

fn kit_folder() -> PathBuf {
    let said = Command::new("rt")
        .arg("doc")
        .output()
        .expect("rt doc: set RATTLE_C_DIR where there is no rt");
    let page = String::from_utf8(said.stdout).expect("a path");
    Path::new(page.trim()).parent().expect("a folder").join("c")
}

fn main() {
    println!("cargo:rerun-if-env-changed=STABBY_C_DIR");
    println!("cargo:rerun-if-env-changed=RATTLE_C_DIR");
    let beside = Path::new(&env::var("CARGO_MANIFEST_DIR").expect("cargo sets it"))
        .join("../../crates/stabby_c/out");
    let archives = env::var("STABBY_C_DIR").map_or(beside, PathBuf::from);
    let heap = env::var("RATTLE_C_DIR").map_or_else(|_| kit_folder(), PathBuf::from);
    let archive = archives.join("libstabby_c.a");
    assert!(
        archive.is_file(),
        "{} is not there: run `rt lib` in crates/stabby_c",
        archive.display()
    );
    println!("cargo:rerun-if-changed={}", archive.display());
    println!("cargo:rustc-link-search=native={}", archives.display());
    println!("cargo:rustc-link-search=native={}", heap.display());
    println!("cargo:rustc-link-lib=static=stabby_c");
    println!("cargo:rustc-link-lib=static=libc_c");
}
