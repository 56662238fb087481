//! Links the library for C, `libzevkhadun.a`.
//!
//! It is the one in `lib` of ZEVKHADUN_PREFIX, where `bindings/c/build.sh PREFIX` puts it, or else the one in `lib` of
//! this package, where `package.sh` puts it.

use std::env;
use std::path::{Path, PathBuf};

const ARCHIVE: &str = "libzevkhadun.a";

/// The folder that has to have the library.
fn folder() -> PathBuf {
    let prefix = env::var_os("ZEVKHADUN_PREFIX").filter(|prefix| !prefix.is_empty());
    let package = env::var_os("CARGO_MANIFEST_DIR").expect("cargo sets CARGO_MANIFEST_DIR");
    Path::new(&prefix.unwrap_or(package)).join("lib")
}

/// Ends the build unless the target is the one for which the library is built.
fn check_target() {
    let part = |name: &str| env::var(name).unwrap_or_default();
    let target = (part("CARGO_CFG_TARGET_OS"), part("CARGO_CFG_TARGET_ARCH"));
    let is_known = target == ("linux".to_owned(), "x86_64".to_owned());
    assert!(
        is_known,
        "zevkhadun is for Linux on x86-64, not for {} on {}",
        target.0, target.1
    );
}

fn main() {
    println!("cargo::rerun-if-env-changed=ZEVKHADUN_PREFIX");
    println!("cargo::rerun-if-changed=build.rs");
    check_target();
    let folder = folder();
    let archive = folder.join(ARCHIVE);
    println!("cargo::rerun-if-changed={}", archive.display());
    assert!(
        archive.is_file(),
        "there is no {}: set ZEVKHADUN_PREFIX to the folder that bindings/c/build.sh made",
        archive.display()
    );
    println!("cargo::rustc-link-search=native={}", folder.display());
    println!("cargo::rustc-link-lib=static=zevkhadun");
}
