//! Tells the linker where libhennelaku lies: in the folder that HENNELAKU_LIB_DIR names, or in dist/ of the project that this
//! crate stands in, or in the `lib` of the installation that it stands in, or where the linker looks by itself. The archive is
//! taken where it is there, unless HENNELAKU_SHARED is set.

use std::env;
use std::path::PathBuf;

fn main() {
    println!("cargo:rerun-if-env-changed=HENNELAKU_LIB_DIR");
    println!("cargo:rerun-if-env-changed=HENNELAKU_SHARED");
    let here = PathBuf::from(env::var_os("CARGO_MANIFEST_DIR").unwrap());
    let named = env::var_os("HENNELAKU_LIB_DIR").map(PathBuf::from);
    let usual = [here.join("../../dist"), here.join("../../../../lib")];
    let has_archive = |folder: &PathBuf| folder.join("libhennelaku.a").exists();
    let folder = named.or_else(|| usual.into_iter().find(has_archive));
    let archive = folder.as_ref().is_some_and(has_archive);
    if let Some(folder) = folder {
        println!("cargo:rustc-link-search=native={}", folder.display());
        println!("cargo:rerun-if-changed={}", folder.join("libhennelaku.a").display());
    }
    let kind = if archive && env::var_os("HENNELAKU_SHARED").is_none() { "static" } else { "dylib" };
    println!("cargo:rustc-link-lib={kind}=hennelaku");
}
