//! Links the archive: from GULXINETT_LIB_DIR, or from target/lib/ARCH of the repository, where ./build puts it.

use std::env;
use std::path::PathBuf;

fn main() {
    println!("cargo:rerun-if-env-changed=GULXINETT_LIB_DIR");
    let directory = env::var_os("GULXINETT_LIB_DIR").map_or_else(built, PathBuf::from);
    let archive = directory.join("libgulxinett.a");
    assert!(
        archive.is_file(),
        "there is no {}: './build native' at the top of the repository makes it",
        archive.display()
    );
    println!("cargo:rerun-if-changed={}", archive.display());
    println!("cargo:rustc-link-search=native={}", directory.display());
    println!("cargo:rustc-link-lib=static:-bundle=gulxinett");
}

/// Where ./build puts the archive for the processor that is compiled for.
fn built() -> PathBuf {
    let variable = |name| env::var(name).unwrap_or_else(|_| panic!("cargo sets {name}"));
    PathBuf::from(variable("CARGO_MANIFEST_DIR"))
        .join("../../target/lib")
        .join(variable("CARGO_CFG_TARGET_ARCH").replace('_', "-"))
}
