//! The refusals, by the numbers of document 01. 10 is unused.
use std::fmt;

#[derive(Clone, Copy, Debug, PartialEq, Eq)]
pub enum Refusal {
    /// Wrong shape of store.
    Shape,
    /// More than 32 assumptions, or than 96 claims.
    Counts,
    /// A number above A+M, or an assumption above A in a set.
    Number,
    /// Falsity as a support.
    Falsity,
    /// More than 4 supports.
    Supports,
    /// 256 held already; in a file, a count above 256.
    Full,
    /// The label of this number would be over 12; 0 in the replies to a list, which do not say which.
    Label(u32),
    /// The nogoods would be over 32.
    Nogoods,
    /// The file ends inside the case.
    Ends,
    /// Bad number form.
    Form,
    /// Bytes after the last record.
    After,
    /// More than 4,096 bytes of input.
    Long,
    /// Lent bytes shorter than the text or context.
    Short,
    /// No member at that place.
    Place,
    /// Its own consequent as a support.
    Itself,
    /// Not held.
    Unheld,
}

impl Refusal {
    pub(crate) fn of(number: u32, named: u32) -> Refusal {
        match number {
            2 => Refusal::Shape,
            3 => Refusal::Counts,
            4 => Refusal::Number,
            5 => Refusal::Falsity,
            6 => Refusal::Supports,
            7 => Refusal::Full,
            8 => Refusal::Label(named),
            9 => Refusal::Nogoods,
            11 => Refusal::Ends,
            12 => Refusal::Form,
            13 => Refusal::After,
            14 => Refusal::Long,
            15 => Refusal::Short,
            16 => Refusal::Place,
            17 => Refusal::Itself,
            18 => Refusal::Unheld,
            other => unreachable!("no call answers {other}"),
        }
    }

    /// The document's number.
    pub fn number(self) -> u32 {
        match self {
            Refusal::Shape => 2,
            Refusal::Counts => 3,
            Refusal::Number => 4,
            Refusal::Falsity => 5,
            Refusal::Supports => 6,
            Refusal::Full => 7,
            Refusal::Label(_) => 8,
            Refusal::Nogoods => 9,
            Refusal::Ends => 11,
            Refusal::Form => 12,
            Refusal::After => 13,
            Refusal::Long => 14,
            Refusal::Short => 15,
            Refusal::Place => 16,
            Refusal::Itself => 17,
            Refusal::Unheld => 18,
        }
    }

    /// What it means, in a few words.
    pub fn meaning(self) -> &'static str {
        match self {
            Refusal::Shape => "wrong shape of store",
            Refusal::Counts => "more than 32 assumptions, or than 96 claims",
            Refusal::Number => "a number above all of the case, or an assumption that it does not have",
            Refusal::Falsity => "falsity as a support",
            Refusal::Supports => "more than 4 supports",
            Refusal::Full => "more than 256 justifications",
            Refusal::Label(_) => "a label over 12",
            Refusal::Nogoods => "nogoods over 32",
            Refusal::Ends => "the file ends inside the case",
            Refusal::Form => "bad number form",
            Refusal::After => "bytes after the last record",
            Refusal::Long => "more than 4,096 bytes",
            Refusal::Short => "lent bytes too short",
            Refusal::Place => "no member at that place",
            Refusal::Itself => "its own consequent as a support",
            Refusal::Unheld => "not held",
        }
    }
}

impl fmt::Display for Refusal {
    fn fmt(&self, f: &mut fmt::Formatter<'_>) -> fmt::Result {
        write!(f, "refused {}", self.number())
    }
}

impl std::error::Error for Refusal {}

/// The refusal of a file, and the record being read, from 1, 0 in the header; displayed as the listing program prints it.
#[derive(Clone, Copy, Debug, PartialEq, Eq)]
pub struct Fault {
    pub refusal: Refusal,
    pub record: u32,
}

impl fmt::Display for Fault {
    fn fmt(&self, f: &mut fmt::Formatter<'_>) -> fmt::Result {
        f.write_str(crate::refusal_line(self.refusal, self.record).trim_end())
    }
}

impl std::error::Error for Fault {}
