// Links libngawdrelo.a: from the folder that NGAWDRELO_LIB names, else from where `tools/archive` writes it.
use std::{env, path::PathBuf};

fn main() {
    println!("cargo:rerun-if-env-changed=NGAWDRELO_LIB");
    let own = || PathBuf::from(env::var("CARGO_MANIFEST_DIR").unwrap()).join("../target/staticlib");
    let folder = env::var("NGAWDRELO_LIB").map(PathBuf::from).unwrap_or_else(|_| own());
    let archive = folder.join("libngawdrelo.a");
    if !archive.exists() {
        println!("cargo:warning=there is no {}: run `tools/archive`, or set NGAWDRELO_LIB to its folder", archive.display());
    }
    println!("cargo:rerun-if-changed={}", archive.display());
    println!("cargo:rustc-link-search=native={}", folder.display());
    println!("cargo:rustc-link-lib=static=ngawdrelo");
}
