//! With the feature `proved`: links libstream.a, made by `tools/staticlib stream`.
//! BARRIZUPPA_STATICLIB names its folder if it is not ../target/staticlib. The
//! assembler's library is linked by its own wrapper.
use std::env;
use std::path::PathBuf;

fn main() {
    println!("cargo:rerun-if-env-changed=BARRIZUPPA_STATICLIB");
    if env::var_os("CARGO_FEATURE_PROVED").is_none() {
        return;
    }
    let here = PathBuf::from(env::var_os("CARGO_MANIFEST_DIR").unwrap());
    let folder = match env::var_os("BARRIZUPPA_STATICLIB") {
        Some(folder) => PathBuf::from(folder),
        None => here.join("../target/staticlib"),
    };
    println!("cargo:rerun-if-changed={}", folder.join("libstream.a").display());
    println!("cargo:rustc-link-search=native={}", folder.display());
    println!("cargo:rustc-link-lib=static=stream");
}
