//! Finds libguide.a and links it: in the folder GUIDE_LIB_DIR, else where pkg-config says that it is installed, else where `make lib` builds it.
use std::env;
use std::path::PathBuf;
use std::process::Command;

fn installed() -> Option<PathBuf> {
    // Not --libs-only-L, which leaves out the system's own folders.
    let asked = Command::new("pkg-config").args(["--variable=prefix", "guide"]).output().ok()?;
    let prefix = String::from_utf8(asked.stdout).ok().filter(|_| asked.status.success())?;
    Some(PathBuf::from(prefix.trim()).join("lib"))
}

fn built() -> PathBuf {
    let here = PathBuf::from(env::var("CARGO_MANIFEST_DIR").unwrap());
    here.join("../../target/guide").join(env::var("CARGO_CFG_TARGET_ARCH").unwrap())
}

fn main() {
    println!("cargo:rerun-if-env-changed=GUIDE_LIB_DIR");
    let folder = env::var_os("GUIDE_LIB_DIR").map(PathBuf::from).or_else(installed).unwrap_or_else(built);
    let library = folder.join("libguide.a");
    if !library.exists() {
        panic!("{} is not there: build it by `make lib`, or say in GUIDE_LIB_DIR where it is", library.display());
    }
    println!("cargo:rerun-if-changed={}", library.display());
    println!("cargo:rustc-link-search=native={}", folder.display());
    println!("cargo:rustc-link-lib=static=guide");
}
