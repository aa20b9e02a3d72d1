//! An assembler for WebAssembly: a record stream goes in, a binary module or a
//! refusal comes out. The work is done by a static library that is proved
//! against a definition written from the WebAssembly Core Specification; this
//! crate is its safe face, and is itself tested, not proved.
//!
//! [`assemble`] gives a stream's module, [`stream`] writes and reads streams,
//! and [`explain`] says in words why one was refused. Without the feature
//! `library` the crate has the last two only and needs no library.
#![cfg_attr(
    feature = "library",
    doc = r#"
```
// A function, exported as f, that returns its parameter x.
let stream = b"\x03\0\x01\x01f\0\0\x01\x01x\x7F\x01\x7F\0\x20\x02\x01x\xFF";
let module = barrizuppa::assemble(stream).unwrap();
assert_eq!(&module[..8], b"\0asm\x01\0\0\0");

// With y for the second x.
let stream = b"\x03\0\x01\x01f\0\0\x01\x01x\x7F\x01\x7F\0\x20\x02\x01y\xFF";
let refusal = barrizuppa::assemble(stream).unwrap_err();
assert_eq!(refusal.to_string(), "refused 14 at 1: no such identifier");
```"#
)]
#![warn(missing_debug_implementations)]

#[cfg(feature = "library")]
mod assembler;
pub mod explain;
mod refusal;
pub mod stream;

#[cfg(feature = "library")]
pub use assembler::{
    assemble, assemble_into, assemble_names, assemble_names_into, assemble_strict,
    assemble_strict_into, assemble_strict_names, assemble_strict_names_into, Assembler, WORK_WORDS,
};
pub use refusal::Refusal;
pub use stream::STREAM_BYTES;
