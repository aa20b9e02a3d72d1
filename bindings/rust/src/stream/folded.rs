//! Folded records as trees, for writing.
use super::types::Instruction;
use super::{NESTING, OPERANDS};
use std::fmt;

/// A folded record: an operator on operands, which are folded again. It means the
/// operands from left to right, and then the operator. There is none with more than
/// 16 operands, nested more than 32 deep, or of an operator that may not be folded.
///
/// ```
/// use barrizuppa::stream::{Folded, Head, Instruction, Op, TypeUse, ValType::I32, Writer};
///
/// let x = Folded::leaf(Instruction::LocalGet("x".into()))?;
/// let five = Folded::leaf(Instruction::I32Const(5))?;
/// let sum = Folded::new(Op::I32Add, [x, five])?;
/// let mut stream = Writer::new();
/// let unary = TypeUse::new().param(("x", I32)).result(I32);
/// stream.func(Head::new(), unary, &[], |body| {
///     body.folded(&sum);
/// });
/// let stream = stream.finish()?;
/// assert!(stream.ends_with(b"\xF0\x6A\x02\xF0\x20\x02\x01x\0\xF0\x41\x05\0\xFF"));
/// # Ok::<(), Box<dyn std::error::Error>>(())
/// ```
#[derive(Clone, Debug, PartialEq, Eq, Hash)]
pub struct Folded<'a> {
    operator: Instruction<'a>,
    operands: Vec<Folded<'a>>,
    nesting: usize,
}

impl<'a> Folded<'a> {
    /// An operator on these operands.
    pub fn new(
        operator: impl Into<Instruction<'a>>,
        operands: impl IntoIterator<Item = Folded<'a>>,
    ) -> Result<Self, CannotFold> {
        let operator = operator.into();
        if !operator.may_fold() {
            return Err(CannotFold::Operator);
        }
        let operands: Vec<Folded<'a>> = operands.into_iter().take(OPERANDS + 1).collect();
        if operands.len() > OPERANDS {
            return Err(CannotFold::Operands);
        }
        let inner = operands.iter().map(|operand| operand.nesting).max();
        let nesting = 1 + inner.unwrap_or(0);
        if nesting > NESTING {
            return Err(CannotFold::Nesting);
        }
        Ok(Folded {
            operator,
            operands,
            nesting,
        })
    }

    /// An operator without operands.
    pub fn leaf(operator: impl Into<Instruction<'a>>) -> Result<Self, CannotFold> {
        Folded::new(operator, [])
    }

    pub fn operator(&self) -> &Instruction<'a> {
        &self.operator
    }

    /// From left to right.
    pub fn operands(&self) -> &[Folded<'a>] {
        &self.operands
    }

    /// How deep it goes: 1 without operands.
    pub fn nesting(&self) -> usize {
        self.nesting
    }
}

/// Why there is no such folded record.
#[derive(Clone, Copy, Debug, PartialEq, Eq, Hash)]
#[non_exhaustive]
pub enum CannotFold {
    /// block, loop, if, else and end may not be folded.
    Operator,
    /// There are more than 16 operands.
    Operands,
    /// It would nest more than 32 deep.
    Nesting,
}

impl fmt::Display for CannotFold {
    fn fmt(&self, f: &mut fmt::Formatter<'_>) -> fmt::Result {
        f.write_str(match self {
            CannotFold::Operator => "block, loop, if, else and end may not be folded",
            CannotFold::Operands => "a folded record has at most 16 operands",
            CannotFold::Nesting => "folded records nest at most 32 deep",
        })
    }
}

impl std::error::Error for CannotFold {}
