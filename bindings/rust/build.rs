//! Says where libtypekey.a is: in the folder that TYPEKEY_LIB names, else in the repository's target/lib.
use std::{env, path::PathBuf};

fn main() {
    let own = PathBuf::from(env::var_os("CARGO_MANIFEST_DIR").unwrap()).join("../../target/lib");
    let folder = env::var_os("TYPEKEY_LIB").map_or(own, PathBuf::from);
    let archive = folder.join("libtypekey.a");
    println!("cargo::rerun-if-env-changed=TYPEKEY_LIB");
    println!("cargo::rerun-if-changed={}", archive.display());
    if !archive.exists() {
        let there = folder.display();
        println!(
            "cargo::error=no libtypekey.a in {there}: tools/build_library.sh makes it, TYPEKEY_LIB names another folder"
        );
    }
    println!("cargo::rustc-link-search=native={}", folder.display());
}
