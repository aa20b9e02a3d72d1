//! STAND-IN for the crate's lib.rs, which was not published: the modules, and
//! the keywords that the published files name. Of the modules below, `core`
//! (all but core/expr.rs), `encode`, `gensym`, `names` and `token` are the
//! crate's own files.
#![allow(dead_code, unused_variables, unused_imports, unused_macros)]

#[macro_use]
pub mod parser; // stand-in
mod error; // stand-in
mod lexer; // stand-in

pub mod core; // the crate's
mod encode; // the crate's
mod gensym; // the crate's
mod names; // the crate's
pub mod token; // the crate's

pub use error::Error;

/// binary.rs names both cases; only `Module` is ever made.
pub enum Wat<'a> {
    Module(core::Module<'a>),
    Component(std::convert::Infallible),
}

pub mod kw {
    custom_keyword!(after = "after");
    custom_keyword!(any = "any");
    custom_keyword!(array = "array");
    custom_keyword!(before = "before");
    custom_keyword!(binary = "binary");
    custom_keyword!(code = "code");
    custom_keyword!(cont = "cont");
    custom_keyword!(data = "data");
    custom_keyword!(declare = "declare");
    custom_keyword!(describes = "describes");
    custom_keyword!(descriptor = "descriptor");
    custom_keyword!(elem = "elem");
    custom_keyword!(eq = "eq");
    custom_keyword!(exact = "exact");
    custom_keyword!(exn = "exn");
    custom_keyword!(export = "export");
    custom_keyword!(export_info = "export-info");
    custom_keyword!(f32 = "f32");
    custom_keyword!(f32x4 = "f32x4");
    custom_keyword!(f64 = "f64");
    custom_keyword!(f64x2 = "f64x2");
    custom_keyword!(field = "field");
    custom_keyword!(first = "first");
    custom_keyword!(func = "func");
    custom_keyword!(global = "global");
    custom_keyword!(i16 = "i16");
    custom_keyword!(i16x8 = "i16x8");
    custom_keyword!(i31 = "i31");
    custom_keyword!(i32 = "i32");
    custom_keyword!(i32x4 = "i32x4");
    custom_keyword!(i64 = "i64");
    custom_keyword!(i64x2 = "i64x2");
    custom_keyword!(i8 = "i8");
    custom_keyword!(i8x16 = "i8x16");
    custom_keyword!(import = "import");
    custom_keyword!(import_info = "import-info");
    custom_keyword!(item = "item");
    custom_keyword!(language = "language");
    custom_keyword!(last = "last");
    custom_keyword!(local = "local");
    custom_keyword!(mem_info = "mem-info");
    custom_keyword!(memory = "memory");
    custom_keyword!(module = "module");
    custom_keyword!(nan_arithmetic = "nan:arithmetic");
    custom_keyword!(nan_canonical = "nan:canonical");
    custom_keyword!(needed = "needed");
    custom_keyword!(nocont = "nocont");
    custom_keyword!(noexn = "noexn");
    custom_keyword!(noextern = "noextern");
    custom_keyword!(nofunc = "nofunc");
    custom_keyword!(none = "none");
    custom_keyword!(null = "null");
    custom_keyword!(offset = "offset");
    custom_keyword!(pagesize = "pagesize");
    custom_keyword!(param = "param");
    custom_keyword!(processed_by = "processed-by");
    custom_keyword!(r#extern = "extern");
    custom_keyword!(r#final = "final");
    custom_keyword!(r#mut = "mut");
    custom_keyword!(rec = "rec");
    custom_keyword!(r#ref = "ref");
    custom_keyword!(result = "result");
    custom_keyword!(runtime_path = "runtime-path");
    custom_keyword!(sdk = "sdk");
    custom_keyword!(shared = "shared");
    custom_keyword!(start = "start");
    custom_keyword!(r#struct = "struct");
    custom_keyword!(sub = "sub");
    custom_keyword!(table = "table");
    custom_keyword!(tag = "tag");
    custom_keyword!(target_arch = "target-arch");
    custom_keyword!(r#type = "type");
    custom_keyword!(v128 = "v128");
}

pub mod annotation {
    custom_keyword!(custom = "custom");
    custom_keyword!(dylink_0 = "dylink.0");
    custom_keyword!(name = "name");
    custom_keyword!(producers = "producers");
}
