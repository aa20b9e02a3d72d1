//! Links the static library that tools/staticlib made. BARRIZUPPA_LIBRARY is its
//! name if it is not `assembler`, and BARRIZUPPA_STATICLIB its folder if it is
//! not target/staticlib.
use std::env;
use std::path::PathBuf;

fn main() {
    println!("cargo:rerun-if-env-changed=BARRIZUPPA_LIBRARY");
    println!("cargo:rerun-if-env-changed=BARRIZUPPA_STATICLIB");
    let here = PathBuf::from(env::var_os("CARGO_MANIFEST_DIR").unwrap());
    let folder = env::var_os("BARRIZUPPA_STATICLIB").map_or(here.join("../../target/staticlib"), PathBuf::from);
    let name = env::var("BARRIZUPPA_LIBRARY").unwrap_or("assembler".to_string());
    println!("cargo:rerun-if-changed={}", folder.join(format!("lib{name}.a")).display());
    println!("cargo:rustc-link-search=native={}", folder.display());
    println!("cargo:rustc-link-lib=static={name}");
}
