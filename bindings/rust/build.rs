//! Links libassembler.a, which `tools/staticlib assembler` makes.
//! BARRIZUPPA_STATICLIB is its folder if it is not target/staticlib of the
//! repository. Without the feature `library` nothing is linked.
use std::env;
use std::path::PathBuf;

fn main() {
    println!("cargo:rerun-if-env-changed=BARRIZUPPA_STATICLIB");
    if env::var_os("CARGO_FEATURE_LIBRARY").is_none() {
        return;
    }
    let here =
        PathBuf::from(env::var_os("CARGO_MANIFEST_DIR").expect("cargo says where the package is"));
    let folder = env::var_os("BARRIZUPPA_STATICLIB")
        .map_or(here.join("../../target/staticlib"), PathBuf::from);
    let library = folder.join("libassembler.a");
    if !library.exists() {
        panic!(
            "{} is not there: run `tools/staticlib assembler` first",
            library.display()
        );
    }
    println!("cargo:rerun-if-changed={}", library.display());
    println!("cargo:rustc-link-search=native={}", folder.display());
    println!("cargo:rustc-link-lib=static=assembler");
}
