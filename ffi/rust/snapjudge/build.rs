//! Links libsnapjudge.a, which lies in the folder SNAPJUDGE_LIB, or else in ffi/build, where ffi/build.sh leaves it.
use std::env;
use std::path::{Path, PathBuf};

fn main() {
    println!("cargo:rerun-if-env-changed=SNAPJUDGE_LIB");
    let folder = match env::var_os("SNAPJUDGE_LIB") {
        Some(folder) => PathBuf::from(folder),
        None => Path::new(&env::var_os("CARGO_MANIFEST_DIR").expect("cargo sets it")).join("../../build"),
    };
    println!("cargo:rerun-if-changed={}", folder.join("libsnapjudge.a").display());
    println!("cargo:rustc-link-search=native={}", folder.display());
    println!("cargo:rustc-link-lib=static=snapjudge");
}
