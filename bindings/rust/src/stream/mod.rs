//! The record stream (docs/STREAM.md): [`Writer`] makes streams, [`Reader`]
//! reads them record by record, and [`account`] shows them as text. None of
//! this needs the library.
//!
//! ```
//! use barrizuppa::stream::{Head, TypeUse, ValType::I32, Writer};
//!
//! // A function, exported as f, that returns its parameter x.
//! let mut stream = Writer::new();
//! let unary = TypeUse::new().param(("x", I32)).result(I32);
//! stream.func(Head::new().export("f"), unary, &[], |body| {
//!     body.local_get("x");
//! });
//! let stream = stream.finish()?;
//! assert_eq!(stream, b"\x03\0\x01\x01f\0\0\x01\x01x\x7F\x01\x7F\0\x20\x02\x01x\xFF");
//! # Ok::<(), barrizuppa::stream::Fault>(())
//! ```

mod account;
mod folded;
mod opcodes;
mod reader;
mod types;
mod writer;

pub use account::{account, text, Account, Row};
pub(crate) use account::{hex, signature};
pub use folded::{CannotFold, Folded};
pub use opcodes::{Access, Op};
pub use reader::{read, Fault, Reader};
pub use types::*;
pub use writer::{Body, Writer};

/// The longest stream, in bytes.
pub const STREAM_BYTES: usize = 65_536;

/// The most operands of a folded record.
pub const OPERANDS: usize = 16;

/// How deep folded records nest at most, the outermost counting 1.
pub const NESTING: usize = 32;
