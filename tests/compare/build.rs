//! Links libguide.a: from the folder GUIDE_LIB_DIR, or from where tools/lib.sh puts it.
use std::env;
use std::path::PathBuf;

fn main() {
    let built = || {
        let root = PathBuf::from(env::var("CARGO_MANIFEST_DIR").unwrap()).join("../..");
        root.join("target/guide").join(env::var("CARGO_CFG_TARGET_ARCH").unwrap())
    };
    let folder = env::var_os("GUIDE_LIB_DIR").map_or_else(built, PathBuf::from);
    println!("cargo:rerun-if-env-changed=GUIDE_LIB_DIR");
    println!("cargo:rerun-if-changed={}", folder.join("libguide.a").display());
    println!("cargo:rustc-link-search=native={}", folder.display());
    println!("cargo:rustc-link-lib=static=guide");
}
