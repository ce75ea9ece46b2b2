//! Links the archive that rust/archive writes, libdivisor_index.a.
//!
//! It is looked for in the folder named by DIVISOR_INDEX_LIB, which starts at this
//! package's folder if it is relative, else in the repository's target/c. The folder
//! of the header is given to build scripts of dependents as DEP_DIVISOR_INDEX_INCLUDE.

use std::{env, path::PathBuf};

const DEFAULT_LIB: &str = "../../target/c";

fn main() {
    let package = PathBuf::from(env::var_os("CARGO_MANIFEST_DIR").unwrap());
    let folder = package.join(env::var_os("DIVISOR_INDEX_LIB").unwrap_or(DEFAULT_LIB.into()));
    let archive = folder.join("libdivisor_index.a");
    assert!(
        archive.is_file(),
        "{} is not there: run rust/archive in the repository, or name the archive's folder by DIVISOR_INDEX_LIB",
        archive.display()
    );

    println!("cargo:rerun-if-env-changed=DIVISOR_INDEX_LIB");
    println!("cargo:rerun-if-changed={}", archive.display());
    println!("cargo:rustc-link-search=native={}", folder.display());
    println!("cargo:rustc-link-lib=static=divisor_index");
    println!("cargo:include={}", package.join("include").display());
}
