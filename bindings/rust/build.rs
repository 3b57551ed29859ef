//! Links the static library that `sh tests/build` makes: from the folder that HIFMUNETH_LIBRARY names, or from target/staticlib.
use std::{env, path::PathBuf};

fn main() {
    println!("cargo:rerun-if-env-changed=HIFMUNETH_LIBRARY");
    let folder = env::var("HIFMUNETH_LIBRARY").map(PathBuf::from).unwrap_or_else(|_| {
        let here = PathBuf::from(env::var("CARGO_MANIFEST_DIR").expect("cargo sets it"));
        here.join("../../target/staticlib")
    });
    println!("cargo:rerun-if-changed={}", folder.join("libhifmuneth.a").display());
    println!("cargo:rustc-link-search=native={}", folder.display());
    println!("cargo:rustc-link-lib=static=hifmuneth");
}
