//! STAND-IN for the crate's parser.rs: just enough for the `impl Parse` blocks
//! of the published files to compile. Nothing in here is ever called; the
//! oracle's front builds the syntax tree itself.
use crate::Error;
use crate::lexer::{Float, Integer};
use crate::token::Span;
use std::fmt;
use std::marker::PhantomData;

pub type Result<T, E = Error> = std::result::Result<T, E>;

fn never() -> ! {
    unimplemented!("the oracle never parses text")
}

pub trait Parse<'a>: Sized {
    fn parse(parser: Parser<'a>) -> Result<Self>;
}

pub trait Peek {
    fn peek(cursor: Cursor<'_>) -> Result<bool>;
    fn peek2(_cursor: Cursor<'_>) -> Result<bool> {
        never()
    }
    fn display() -> &'static str;
}

#[derive(Copy, Clone)]
pub struct Parser<'a>(PhantomData<&'a ()>);

#[derive(Copy, Clone)]
pub struct Cursor<'a>(PhantomData<&'a ()>);

pub struct Lookahead1<'a>(PhantomData<&'a ()>);

impl<'a> Parser<'a> {
    pub fn parse<T: Parse<'a>>(self) -> Result<T> {
        T::parse(self)
    }
    pub fn peek<T: Peek>(self) -> Result<bool> {
        never()
    }
    pub fn peek2<T: Peek>(self) -> Result<bool> {
        never()
    }
    pub fn is_empty(self) -> bool {
        never()
    }
    pub fn parens<T>(self, f: impl FnOnce(Parser<'a>) -> Result<T>) -> Result<T> {
        f(self)
    }
    pub fn step<F, T>(self, _f: F) -> Result<T>
    where
        F: FnOnce(Cursor<'a>) -> Result<(T, Cursor<'a>)>,
    {
        never()
    }
    pub fn lookahead1(self) -> Lookahead1<'a> {
        never()
    }
    pub fn error(self, _msg: impl fmt::Display) -> Error {
        never()
    }
    pub fn error_at(self, _span: Span, _msg: impl fmt::Display) -> Error {
        never()
    }
    pub fn cur_span(&self) -> Span {
        never()
    }
    pub fn prev_span(&self) -> Span {
        never()
    }
    pub fn depth_check(&self) -> Result<()> {
        never()
    }
    pub fn with_standard_annotations_registered<R>(
        self,
        f: impl FnOnce(Self) -> Result<R>,
    ) -> Result<R> {
        f(self)
    }
}

impl<'a> Cursor<'a> {
    pub fn id(self) -> Result<Option<(&'a str, Self)>> {
        never()
    }
    pub fn peek_id(self) -> Result<bool> {
        never()
    }
    pub fn peek_integer(self) -> Result<bool> {
        never()
    }
    pub fn integer(self) -> Result<Option<(Integer<'a>, Self)>> {
        never()
    }
    pub fn float(self) -> Result<Option<(Float<'a>, Self)>> {
        never()
    }
    pub fn string(self) -> Result<Option<(&'a [u8], Self)>> {
        never()
    }
    pub fn peek_string(self) -> Result<bool> {
        never()
    }
    pub fn keyword(self) -> Result<Option<(&'a str, Self)>> {
        never()
    }
    pub fn lparen(self) -> Result<Option<Self>> {
        never()
    }
    pub fn rparen(self) -> Result<Option<Self>> {
        never()
    }
    pub fn peek_lparen(self) -> Result<bool> {
        never()
    }
    pub fn peek_rparen(self) -> Result<bool> {
        never()
    }
    pub fn cur_span(&self) -> Span {
        never()
    }
    pub fn error(&self, _msg: impl fmt::Display) -> Error {
        never()
    }
}

impl Lookahead1<'_> {
    pub fn peek<T: Peek>(&mut self) -> Result<bool> {
        never()
    }
    pub fn error(self) -> Error {
        never()
    }
}

impl<'a, T: Peek + Parse<'a>> Parse<'a> for Option<T> {
    fn parse(_parser: Parser<'a>) -> Result<Self> {
        never()
    }
}

impl<'a, T: Parse<'a>> Parse<'a> for Box<T> {
    fn parse(_parser: Parser<'a>) -> Result<Self> {
        never()
    }
}

macro_rules! custom_keyword {
    ($name:ident = $kw:expr) => {
        #[allow(non_camel_case_types, missing_docs)]
        #[derive(Debug, Copy, Clone)]
        pub struct $name(pub $crate::token::Span);

        impl<'a> $crate::parser::Parse<'a> for $name {
            fn parse(_parser: $crate::parser::Parser<'a>) -> $crate::parser::Result<Self> {
                unimplemented!("the oracle never parses text")
            }
        }

        impl $crate::parser::Peek for $name {
            fn peek(_cursor: $crate::parser::Cursor<'_>) -> $crate::parser::Result<bool> {
                unimplemented!("the oracle never parses text")
            }
            fn display() -> &'static str {
                $kw
            }
        }
    };
}
