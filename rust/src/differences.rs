//! What two plans differ in (C-20).

use crate::bodies::{self, FILTER_BYTES};
use crate::terms::{length_text, prefix_text};
use crate::{Class, SetNumber, MOST_RULES};
use std::fmt;
use std::iter::FusedIterator;
use std::slice::ChunksExact;

/// The bytes of an entry in the buffer of [`Plan::compare`](crate::Plan::compare).
pub const DIFFERENCE_BYTES: usize = 24;
/// The most that two plans can differ in: every filter of two full plans.
pub const MOST_DIFFERENCES: usize = 2 * MOST_RULES as usize;
/// In an entry, in the place of a set: the side holds no rule with the filter.
pub const NO_SET: u16 = 65535;

// Where the fields of an entry stand, as in include/npp.h.
pub(crate) const DIFFERENCE_SIDE: usize = 0;
pub(crate) const DIFFERENCE_FILTER: usize = 1;
pub(crate) const DIFFERENCE_LEFT_SET: usize = 20;
pub(crate) const DIFFERENCE_RIGHT_SET: usize = 22;

/// Which of two plans hold a filter.
///
/// ```
/// use npp::Side;
///
/// assert_eq!(Side::of(3), Some(Side::Both));
/// assert_eq!(Side::Both.byte(), 3);
/// assert_eq!(Side::LeftOnly.to_string(), "left only");
/// assert_eq!(Side::of(0), None);
/// ```
#[derive(Clone, Copy, Debug, PartialEq, Eq, PartialOrd, Ord, Hash)]
#[repr(u8)]
pub enum Side {
    /// The left plan alone.
    LeftOnly = 1,
    /// The right plan alone.
    RightOnly = 2,
    /// Both, with sets whose content differs.
    Both = 3,
}

impl Side {
    /// The side of a byte, 1 to 3; none for every other byte.
    pub fn of(byte: u8) -> Option<Side> {
        match byte {
            1 => Some(Side::LeftOnly),
            2 => Some(Side::RightOnly),
            3 => Some(Side::Both),
            _ => None,
        }
    }

    /// Its byte.
    pub fn byte(self) -> u8 {
        self as u8
    }
}

/// In words.
impl fmt::Display for Side {
    fn fmt(&self, f: &mut fmt::Formatter<'_>) -> fmt::Result {
        f.write_str(match self {
            Side::LeftOnly => "left only",
            Side::RightOnly => "right only",
            Side::Both => "both",
        })
    }
}

/// A filter that two plans differ in.
///
/// As text it is as `left only: NATL 21/8, set 4` or `both: UNKNOWN b339090/*, left set 4, right set 5`,
/// with `*` for a wildcard.
#[derive(Clone, Copy, Debug, PartialEq, Eq)]
pub struct Difference {
    /// Which of the two hold it.
    pub side: Side,
    /// The filter's class.
    pub class: Class,
    /// The filter's length; none for a wildcard.
    pub length: Option<u8>,
    /// The set that the left plan's rule names; none where it has no such rule.
    pub left: Option<SetNumber>,
    /// The set that the right plan's rule names; none where it has no such rule.
    pub right: Option<SetNumber>,
    prefix: [u8; 16],
    digits: usize,
}

impl Difference {
    /// The filter's prefix; no digits for a wildcard.
    pub fn prefix(&self) -> &[u8] {
        &self.prefix[..self.digits]
    }

    /// The difference of an entry, as the library writes it.
    fn of(entry: &[u8]) -> Difference {
        let word = |at| u16::from_be_bytes([entry[at], entry[at + 1]]);
        let set = |at| Some(word(at)).filter(|&set| set != NO_SET).map(SetNumber);
        let filter = &entry[DIFFERENCE_FILTER..][..FILTER_BYTES];
        let prefix = &filter[bodies::RULE_PREFIX..bodies::RULE_LENGTH];
        let length = filter[bodies::RULE_LENGTH];
        Difference {
            side: Side::of(entry[DIFFERENCE_SIDE]).expect("a side, 1 to 3"),
            class: Class::of(filter[bodies::RULE_CLASS]).expect("a class, 0 to 5"),
            length: (length != 0).then_some(length),
            left: set(DIFFERENCE_LEFT_SET),
            right: set(DIFFERENCE_RIGHT_SET),
            prefix: prefix[1..].try_into().expect("16 digits"),
            digits: usize::from(prefix[0]),
        }
    }
}

impl fmt::Display for Difference {
    fn fmt(&self, f: &mut fmt::Formatter<'_>) -> fmt::Result {
        let (prefix, length) = (prefix_text(self.prefix()), length_text(self.length));
        write!(f, "{}: {} {prefix}/{length}, ", self.side, self.class)?;
        match (self.left, self.right) {
            (Some(left), Some(right)) => write!(f, "left set {}, right set {}", left.0, right.0),
            (one, other) => write!(f, "set {}", one.or(other).map_or(NO_SET, |set| set.0)),
        }
    }
}

/// The differences of two plans in listing order, from the buffer that
/// [`Plan::compare`](crate::Plan::compare) wrote.
#[derive(Clone, Debug)]
pub struct Differences<'o> {
    entries: ChunksExact<'o, u8>,
}

impl<'o> Differences<'o> {
    /// So many entries at the front of a buffer.
    pub(crate) fn of(count: usize, out: &'o [u8]) -> Differences<'o> {
        Differences {
            entries: out[..count * DIFFERENCE_BYTES].chunks_exact(DIFFERENCE_BYTES),
        }
    }
}

impl Iterator for Differences<'_> {
    type Item = Difference;

    fn next(&mut self) -> Option<Difference> {
        self.entries.next().map(Difference::of)
    }

    fn size_hint(&self) -> (usize, Option<usize>) {
        self.entries.size_hint()
    }
}

impl ExactSizeIterator for Differences<'_> {}

impl FusedIterator for Differences<'_> {}
