//! The numbers under which calls and files are refused, and what is unfit without a number.
use std::error::Error;
use std::fmt;

/// The number under which a call or a file is refused. Nothing was changed then.
#[derive(Clone, Copy, Debug, PartialEq, Eq, Hash)]
pub struct Refusal(pub usize);

impl Refusal {
    /// What the number says, in words; docs/FORMAT.md has more on 1 to 8, and what to do.
    pub fn meaning(self) -> &'static str {
        match self.0 {
            1 => "the length of a record is missing, is below 2 or goes past the end of the file",
            2 => "the kind of a record is unknown, or out of order",
            3 => "the body of a record is not as long as its kind wants it",
            4 => "a value is out of bounds",
            5 => "the atoms of a table do not rise",
            6 => "a table is not exact",
            7 => "the file has more than 512 rows",
            8 => "the file has more than 65,536 bytes",
            9 => "a buffer is too short",
            10 => "there are more than 512 atoms or rows",
            11 => "a row or a region has a bit at its atom count or above, or a constant is above 1",
            12 => "an atom is held and cut",
            13 => "the rank is above the atoms or the rows, or a basis entry is not below the rows",
            14 => "the index has a bit at the rank or above",
            15 => "system, region and knowledge differ in their atom counts",
            16 => "what the knowledge has held or cut is not so in the region",
            17 => "a table has more than 8 atoms, or not the words that its atoms ask for",
            18 => "the atom is not below the atom count",
            _ => "a number that the header does not have",
        }
    }

    /// Nothing for 0, else the refusal.
    pub(crate) fn unless_zero(number: usize) -> Result<(), Refusal> {
        match number {
            0 => Ok(()),
            _ => Err(Refusal(number)),
        }
    }
}

impl fmt::Display for Refusal {
    fn fmt(&self, f: &mut fmt::Formatter<'_>) -> fmt::Result {
        write!(f, "refused {}: {}", self.0, self.meaning())
    }
}

impl Error for Refusal {}

/// Why a file is refused, and at which of its bytes.
#[derive(Clone, Copy, Debug, PartialEq, Eq, Hash)]
pub struct RefusedAt {
    /// The number: 1 to 8, or 9 where memory lent to [`load`](crate::load) is too short.
    pub refusal: Refusal,
    /// Where the record at fault begins; 65536 with 8, 0 with 9.
    pub offset: usize,
}

impl fmt::Display for RefusedAt {
    fn fmt(&self, f: &mut fmt::Formatter<'_>) -> fmt::Result {
        write!(f, "refused {} at {}: {}", self.refusal.0, self.offset, self.refusal.meaning())
    }
}

impl Error for RefusedAt {}

/// Why a call on sets, rows or the equations of a table gives no answer. Nothing was changed then.
#[derive(Clone, Copy, Debug, PartialEq, Eq, Hash)]
pub enum Unfit {
    /// Lengths differ, or what is asked for does not lie within what is lent.
    Lengths,
    /// A set of 2^58 words or more.
    TooWide,
}

impl Unfit {
    /// Nothing where the call was done, else `Lengths`.
    pub(crate) fn unless(done: bool) -> Result<(), Unfit> {
        if done {
            Ok(())
        } else {
            Err(Unfit::Lengths)
        }
    }
}

impl fmt::Display for Unfit {
    fn fmt(&self, f: &mut fmt::Formatter<'_>) -> fmt::Result {
        f.write_str(match self {
            Unfit::Lengths => "lengths differ, or what is asked for does not lie within what is lent",
            Unfit::TooWide => "the set has 2^58 words or more",
        })
    }
}

impl Error for Unfit {}

/// A kind that the header does not have: the archive is not that of this header.
pub(crate) fn unknown(kind: usize) -> ! {
    panic!("the archive answers with the kind {kind}, which include/worzubil.h does not have")
}
