//! Compiles the C program of `../fast_c` by gcc -O2, and finds the static libraries `exports` and
//! `curveplan`, these only when the feature `product` is on.
//!
//! The archive best comes from a crate that links the standard library. If it brings a panic
//! handler of its own instead, set PRODUCT_OWN_PANIC=1: the linker then takes the first of the
//! two handlers.

use std::env;
use std::path::{Path, PathBuf};
use std::process::Command;

/// The object of the C program, as an archive that rustc links.
fn compile_fast_c(here: &Path) {
    let sources = here.join("../fast_c");
    let out = PathBuf::from(env::var_os("OUT_DIR").expect("set by cargo"));
    let object = out.join("fast.o");
    let archive = out.join("libfast.a");
    for name in ["fast.c", "fast.h"] {
        println!("cargo:rerun-if-changed={}", sources.join(name).display());
    }
    let succeeds = |command: &mut Command| {
        let status = command.status().expect("gcc and ar are there");
        assert!(status.success(), "{command:?}");
    };
    succeeds(
        Command::new("gcc")
            .args(["-std=c11", "-O2", "-fPIC", "-c"])
            .arg(sources.join("fast.c"))
            .arg("-o")
            .arg(&object),
    );
    succeeds(Command::new("ar").arg("rcs").arg(&archive).arg(&object));
    println!("cargo:rustc-link-search=native={}", out.display());
    println!("cargo:rustc-link-lib=static=fast");
}

fn main() {
    println!("cargo:rerun-if-changed=build.rs");
    let here = PathBuf::from(env::var_os("CARGO_MANIFEST_DIR").expect("set by cargo"));
    compile_fast_c(&here);
    println!("cargo:rerun-if-env-changed=PRODUCT_LIB_DIR");
    println!("cargo:rerun-if-env-changed=PRODUCT_OWN_PANIC");
    if env::var_os("CARGO_FEATURE_PRODUCT").is_none() {
        return;
    }
    let folder = match env::var_os("PRODUCT_LIB_DIR") {
        Some(folder) => PathBuf::from(folder),
        None => here.join("../../target/staticlib"),
    };
    println!("cargo:rustc-link-search=native={}", folder.display());
    for name in ["exports", "curveplan"] {
        let archive = folder.join(format!("lib{name}.a"));
        println!("cargo:rerun-if-changed={}", archive.display());
        println!("cargo:rustc-link-lib=static={name}");
    }
    if env::var_os("PRODUCT_OWN_PANIC").is_some() {
        println!("cargo:rustc-link-arg=-Wl,--allow-multiple-definition");
    }
}
