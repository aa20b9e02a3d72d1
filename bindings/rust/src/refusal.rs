//! Why a stream was not assembled.
use std::error::Error;
use std::fmt;

/// A refusal: its number, the record that holds the fault, and where a name was
/// first used that is taken.
///
/// Records count from 0. The record is 0 with the numbers 1 and 10, and the
/// count of records with 18. docs/REFUSALS.md says when each is given, and what
/// to do; [`explain`](crate::explain) says it of a stream.
#[derive(Clone, Copy, Debug, PartialEq, Eq, Hash)]
#[non_exhaustive]
pub struct Refusal {
    pub number: u32,
    pub record: u32,
    /// With 13 the record of the item that has the name first; for a parameter or
    /// local its function's. With any other number the same as `record`.
    pub first: u32,
}

impl Refusal {
    /// The number of a refusal because a name is taken.
    pub const TAKEN: u32 = 13;

    /// The number of a refusal for want of room in the output.
    pub const NO_ROOM: u32 = 18;

    /// The refusal of this number at this record.
    pub const fn new(number: u32, record: u32) -> Self {
        Refusal {
            number,
            record,
            first: record,
        }
    }

    /// Refusal 13 at this record, of a name that `first` has.
    pub const fn taken(record: u32, first: u32) -> Self {
        Refusal {
            number: Self::TAKEN,
            record,
            first,
        }
    }

    /// The line that the program `assemble` writes.
    pub(crate) fn line(&self) -> String {
        let Refusal {
            number,
            record,
            first,
        } = self;
        match *number {
            Self::TAKEN => format!("refused {number} at {record}, first at {first}"),
            _ => format!("refused {number} at {record}"),
        }
    }

    /// What the number means, in a few words.
    pub fn meaning(&self) -> &'static str {
        match self.number {
            1 => "the stream is longer than 65,536 bytes",
            2 => "the stream ends inside a record or a body",
            3 => "a number does not fit its width",
            4 => "a byte stands where no form allows it",
            5 => "an identifier is too long, has a wrong byte, or is empty in an index",
            6 => "a string is too long or has a wrong byte",
            7 => "another count passes its ceiling",
            8 => "an else without an if, an end without a block, or a body that ends with one open",
            9 => "a second start",
            10 => "the work area is too short",
            11 => "an import stands after an own function, table, memory or global",
            12 => "a use would add a 257th type",
            13 => "an identifier is taken in its index space, or among one function's parameters and locals",
            14 => "no such identifier",
            15 => "an inline type use has a type number that no type has",
            16 => "an inline type differs from the type its index names",
            17 => "the label on an else or end is not that of its block",
            18 => "the output is too short for the module",
            19 => "a number is longer than needed",
            20 => "in a strict call, a number points to nothing that is there",
            _ => "unknown",
        }
    }
}

/// The line that the program `assemble` writes, and what it means.
impl fmt::Display for Refusal {
    fn fmt(&self, f: &mut fmt::Formatter<'_>) -> fmt::Result {
        write!(f, "{}: {}", self.line(), self.meaning())
    }
}

impl Error for Refusal {}
