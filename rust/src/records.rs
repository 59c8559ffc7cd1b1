//! The house records of a file, one behind the other: the one reader of them.

use crate::bodies::{self, record};
use crate::Refusal;
use std::fmt;
use std::iter::FusedIterator;

/// The kind of a house record. Its byte stands in [`bodies::record`](crate::bodies::record).
///
/// ```
/// use npp::{bodies, Kind};
///
/// assert_eq!(Kind::of(4), Some(Kind::AddRule));
/// assert_eq!(Kind::AddRule.byte(), bodies::record::ADD_RULE);
/// assert_eq!(Kind::AddRule.body_bytes(), bodies::RULE_BYTES);
/// assert_eq!(Kind::AddRule.to_string(), "add rule");
/// assert_eq!(Kind::of(10), None);
/// ```
#[derive(Clone, Copy, Debug, PartialEq, Eq, PartialOrd, Ord, Hash)]
#[repr(u8)]
pub enum Kind {
    /// Opens a plan.
    Open = record::OPEN,
    /// Adds a set.
    AddSet = record::ADD_SET,
    /// Replaces a set.
    ReplaceSet = record::REPLACE_SET,
    /// Removes a set.
    RemoveSet = record::REMOVE_SET,
    /// Adds a rule.
    AddRule = record::ADD_RULE,
    /// Has a rule name another set.
    ChangeRule = record::CHANGE_RULE,
    /// Removes a rule.
    RemoveRule = record::REMOVE_RULE,
    /// A number to answer.
    Number = record::NUMBER,
    /// Counts the rules that name a set.
    Referrers = record::REFERRERS,
    /// Lists the rules.
    List = record::LIST,
    /// A call record (C-11).
    Call = record::CALL,
    /// Adds a price (C-11).
    Price = record::PRICE,
    /// The losses by district (C-11).
    Losses = record::LOSSES,
}

impl Kind {
    /// All of them, by their bytes.
    pub const ALL: [Kind; 13] = [
        Kind::Open,
        Kind::AddSet,
        Kind::ReplaceSet,
        Kind::RemoveSet,
        Kind::AddRule,
        Kind::ChangeRule,
        Kind::RemoveRule,
        Kind::Number,
        Kind::Referrers,
        Kind::List,
        Kind::Call,
        Kind::Price,
        Kind::Losses,
    ];

    /// The kind of a byte, 0 to 9 and 16 to 18; none for every other byte.
    pub fn of(byte: u8) -> Option<Kind> {
        let all = Kind::ALL;
        all.into_iter().find(|kind| kind.byte() == byte)
    }

    /// Its byte.
    pub fn byte(self) -> u8 {
        self as u8
    }

    /// The length of the body behind the byte.
    pub fn body_bytes(self) -> usize {
        match self {
            Kind::Open => bodies::OPEN_BYTES,
            Kind::AddSet | Kind::ReplaceSet => bodies::SET_BYTES,
            Kind::RemoveSet | Kind::Referrers => bodies::SET_NUMBER_BYTES,
            Kind::AddRule | Kind::ChangeRule => bodies::RULE_BYTES,
            Kind::RemoveRule => bodies::FILTER_BYTES,
            Kind::Number => bodies::NUMBER_BYTES,
            Kind::Call => bodies::CALL_BYTES,
            Kind::Price => bodies::PRICE_BYTES,
            Kind::List | Kind::Losses => 0,
        }
    }

    /// What the record does, in words.
    pub fn name(self) -> &'static str {
        match self {
            Kind::Open => "open",
            Kind::AddSet => "add set",
            Kind::ReplaceSet => "replace set",
            Kind::RemoveSet => "remove set",
            Kind::AddRule => "add rule",
            Kind::ChangeRule => "change rule",
            Kind::RemoveRule => "remove rule",
            Kind::Number => "number",
            Kind::Referrers => "count rules naming a set",
            Kind::List => "list",
            Kind::Call => "call record",
            Kind::Price => "add price",
            Kind::Losses => "losses",
        }
    }
}

/// The name.
impl fmt::Display for Kind {
    fn fmt(&self, f: &mut fmt::Formatter<'_>) -> fmt::Result {
        f.write_str(self.name())
    }
}

/// Where a record stands in its file.
#[derive(Clone, Copy, Debug, PartialEq, Eq, PartialOrd, Ord, Hash)]
pub struct Place {
    /// The number of the record, the first being 1.
    pub number: usize,
    /// The place of its kind byte, the first byte of the file being 0.
    pub byte: usize,
}

/// As in `record 3, byte 90`.
impl fmt::Display for Place {
    fn fmt(&self, f: &mut fmt::Formatter<'_>) -> fmt::Result {
        write!(f, "record {}, byte {}", self.number, self.byte)
    }
}

/// A whole house record.
#[derive(Clone, Copy, Debug, PartialEq, Eq)]
pub struct Record<'f> {
    /// Where it stands.
    pub place: Place,
    /// What its kind byte says.
    pub kind: Kind,
    /// The bytes behind the kind byte, just as many as the kind says; they may be out of range.
    pub body: &'f [u8],
}

/// What ends the reading of a file before its end.
#[derive(Clone, Copy, Debug, PartialEq, Eq)]
pub enum Fault {
    /// Unknown kind byte.
    Kind {
        /// Where it stands.
        place: Place,
        /// The byte.
        byte: u8,
    },
    /// The file ends within a body.
    Cut {
        /// Where the record begins.
        place: Place,
        /// What its kind byte says.
        kind: Kind,
        /// How many bytes the body lacks.
        missing: usize,
    },
}

impl Fault {
    /// Where the record begins: the bytes before it are those of whole records.
    pub fn place(&self) -> Place {
        match *self {
            Fault::Kind { place, .. } | Fault::Cut { place, .. } => place,
        }
    }

    /// KIND or CUT.
    pub fn refusal(&self) -> Refusal {
        match self {
            Fault::Kind { .. } => Refusal::Kind,
            Fault::Cut { .. } => Refusal::Cut,
        }
    }
}

/// As in `record 3, byte 90: 1 CUT, add rule, bytes missing: 4`.
impl fmt::Display for Fault {
    fn fmt(&self, f: &mut fmt::Formatter<'_>) -> fmt::Result {
        write!(f, "{}: {}, ", self.place(), self.refusal())?;
        match self {
            Fault::Kind { byte, .. } => write!(f, "there is no kind {byte}"),
            Fault::Cut { kind, missing, .. } => write!(f, "{kind}, bytes missing: {missing}"),
        }
    }
}

impl std::error::Error for Fault {}

/// The records of a file in their order, whatever its bytes are: every whole record up to the end of the
/// file, or up to the first unknown kind byte or body that is cut, which is the last that is given. An
/// empty file has none.
///
/// ```
/// use npp::{Fault, Kind, Records, Refusal};
///
/// // A listing, the removal of set 7, and a removal whose number is cut.
/// let mut records = Records::of(&[9, 3, 0, 7, 3, 0]);
/// let list = records.next().unwrap()?;
/// assert_eq!((list.kind, list.body), (Kind::List, &[][..]));
/// let removal = records.next().unwrap()?;
/// assert_eq!((removal.kind, removal.body), (Kind::RemoveSet, &[0, 7][..]));
/// assert_eq!(removal.place.to_string(), "record 2, byte 1");
/// let cut = records.next().unwrap().unwrap_err();
/// assert_eq!(cut.refusal(), Refusal::Cut);
/// assert_eq!(cut.to_string(), "record 3, byte 4: 1 CUT, remove set, bytes missing: 1");
/// assert_eq!(records.next(), None);
/// # Ok::<(), Fault>(())
/// ```
#[derive(Clone, Debug)]
pub struct Records<'f> {
    /// What is not read yet; nothing behind a fault.
    rest: &'f [u8],
    /// Where the next record begins.
    place: Place,
}

impl<'f> Records<'f> {
    /// The records of a file, from its bytes.
    pub fn of(file: &'f [u8]) -> Records<'f> {
        Records {
            rest: file,
            place: Place { number: 1, byte: 0 },
        }
    }

    /// The record that begins at the kind byte, with what stands behind it. KIND before CUT.
    fn read(&self, byte: u8, behind: &'f [u8]) -> Result<Record<'f>, Fault> {
        let place = self.place;
        let kind = Kind::of(byte).ok_or(Fault::Kind { place, byte })?;
        let length = kind.body_bytes();
        let body = behind.get(..length).ok_or(Fault::Cut {
            place,
            kind,
            missing: length.saturating_sub(behind.len()),
        })?;
        Ok(Record { place, kind, body })
    }
}

impl<'f> Iterator for Records<'f> {
    type Item = Result<Record<'f>, Fault>;

    fn next(&mut self) -> Option<Self::Item> {
        let (&byte, behind) = self.rest.split_first()?;
        let read = self.read(byte, behind);
        self.rest = match read {
            Ok(record) => &behind[record.body.len()..],
            Err(_) => &[],
        };
        if let Ok(record) = read {
            self.place.number += 1;
            self.place.byte += 1 + record.body.len();
        }
        Some(read)
    }
}

impl FusedIterator for Records<'_> {}
