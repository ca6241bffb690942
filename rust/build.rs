//! With the feature `proved`: says what to do where libhennelaku.a is missing. The crate `hennelaku` links it.

use std::env;
use std::path::PathBuf;

fn main() {
    println!("cargo:rerun-if-env-changed=HENNELAKU_LIB_DIR");
    if env::var_os("CARGO_FEATURE_PROVED").is_none() {
        return;
    }
    let folder = match env::var_os("HENNELAKU_LIB_DIR") {
        Some(folder) => PathBuf::from(folder),
        None => PathBuf::from(env::var_os("CARGO_MANIFEST_DIR").unwrap()).join("../dist"),
    };
    let library = folder.join("libhennelaku.a");
    if !library.exists() {
        eprintln!("{} is missing: run `make lib`, or set HENNELAKU_LIB_DIR", library.display());
        std::process::exit(1);
    }
    println!("cargo:rerun-if-changed={}", library.display());
}
