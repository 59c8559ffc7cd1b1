//! The documents' terms: refusals, classes, outcomes, responses, codes of actions with their names,
//! digits as text.

use std::fmt;

/// The refusals of documents 01 and 02, with their numbers.
///
/// ```
/// use npp::Refusal;
///
/// assert_eq!(Refusal::InUse.number(), 11);
/// assert_eq!(Refusal::of(11), Some(Refusal::InUse));
/// assert_eq!(Refusal::of(0), None);
/// assert_eq!(Refusal::InUse.to_string(), "11 IN USE");
/// ```
#[derive(Clone, Copy, Debug, PartialEq, Eq, PartialOrd, Ord, Hash)]
#[repr(u8)]
pub enum Refusal {
    /// A body is shorter than its kind says.
    Cut = 1,
    /// Unknown kind byte. It is for programs over files of records: no call here gives it.
    Kind = 2,
    /// Any call with a plan but opening: the memory isn't a sound plan of this build.
    Plan = 3,
    /// Opening: the memory is too small for the rooms asked. Else: a lent buffer is too small.
    Room = 4,
    /// A number outside its stated values, a prefix longer than a stated length, an unused byte
    /// not 0, a set number at or over the room; or a lent price list or ledger out of range.
    Range = 5,
    /// A group rule of action sets is broken.
    Groups = 6,
    /// A set, a filter or the prefix of a price to add is there already.
    Taken = 7,
    /// A named set (but one being added), or a filter to change or remove, is not there.
    Absent = 8,
    /// A rule and its set don't fit.
    Misfit = 9,
    /// Adding a rule when the rules held equal the room, or a price behind 256 rows.
    Full = 10,
    /// Removing a set that a rule names.
    InUse = 11,
    /// Conditioning meets too few digits.
    Short = 12,
    /// Outgoing digits over 32.
    Long = 13,
    /// No row of the price list fits the digits that a call is priced on.
    NoPrice = 14,
    /// The ledger has its 10,000,000 records.
    LedgerFull = 15,
}

impl Refusal {
    /// All of them, by their numbers.
    pub const ALL: [Refusal; 15] = [
        Refusal::Cut,
        Refusal::Kind,
        Refusal::Plan,
        Refusal::Room,
        Refusal::Range,
        Refusal::Groups,
        Refusal::Taken,
        Refusal::Absent,
        Refusal::Misfit,
        Refusal::Full,
        Refusal::InUse,
        Refusal::Short,
        Refusal::Long,
        Refusal::NoPrice,
        Refusal::LedgerFull,
    ];

    /// The refusal of a number, 1 to 15; none for every other number.
    pub fn of(number: u8) -> Option<Refusal> {
        let all = Refusal::ALL;
        all.into_iter().find(|refusal| refusal.number() == number)
    }

    /// Its number in the documents.
    pub fn number(self) -> u8 {
        self as u8
    }

    /// Its name in the documents.
    pub fn name(self) -> &'static str {
        match self {
            Refusal::Cut => "CUT",
            Refusal::Kind => "KIND",
            Refusal::Plan => "PLAN",
            Refusal::Room => "ROOM",
            Refusal::Range => "RANGE",
            Refusal::Groups => "GROUPS",
            Refusal::Taken => "TAKEN",
            Refusal::Absent => "ABSENT",
            Refusal::Misfit => "MISFIT",
            Refusal::Full => "FULL",
            Refusal::InUse => "IN USE",
            Refusal::Short => "SHORT",
            Refusal::Long => "LONG",
            Refusal::NoPrice => "NO PRICE",
            Refusal::LedgerFull => "LEDGER FULL",
        }
    }
}

/// The number and the name.
impl fmt::Display for Refusal {
    fn fmt(&self, f: &mut fmt::Formatter<'_>) -> fmt::Result {
        write!(f, "{} {}", self.number(), self.name())
    }
}

impl std::error::Error for Refusal {}

/// What a number of the library says: 0 that a call was accepted, else why it was refused.
///
/// ```
/// use npp::{accepted, Refusal};
///
/// assert_eq!(accepted(0), Ok(()));
/// assert_eq!(accepted(7), Err(Refusal::Taken));
/// ```
///
/// # Panics
///
/// On a number over 15, which the library never gives.
pub fn accepted(number: u8) -> Result<(), Refusal> {
    match number {
        0 => Ok(()),
        _ => Err(Refusal::of(number).expect("a refusal number, 1 to 15")),
    }
}

/// A class of numbers.
///
/// ```
/// use npp::Class;
///
/// assert_eq!(Class::of(1), Some(Class::NATL));
/// assert_eq!(Class::NATL.code(), 1);
/// assert_eq!(Class::NATL.to_string(), "NATL");
/// assert_eq!(Class::of(6), None);
/// ```
#[derive(Clone, Copy, Debug, PartialEq, Eq, PartialOrd, Ord, Hash)]
pub struct Class(u8);

impl Class {
    /// 0.
    pub const INTL: Class = Class(0);
    /// 1.
    pub const NATL: Class = Class(1);
    /// 2.
    pub const UNKNOWN: Class = Class(2);
    /// House class 3.
    pub const HOUSE3: Class = Class(3);
    /// House class 4.
    pub const HOUSE4: Class = Class(4);
    /// House class 5.
    pub const HOUSE5: Class = Class(5);

    /// The class of a byte, 0 to 5; none for every other byte.
    pub fn of(byte: u8) -> Option<Class> {
        (byte <= Class::HOUSE5.0).then_some(Class(byte))
    }

    /// Its byte.
    pub fn code(self) -> u8 {
        self.0
    }

    /// Its name.
    pub fn name(self) -> &'static str {
        ["INTL", "NATL", "UNKNOWN", "HOUSE3", "HOUSE4", "HOUSE5"][usize::from(self.0)]
    }
}

/// The name.
impl fmt::Display for Class {
    fn fmt(&self, f: &mut fmt::Formatter<'_>) -> fmt::Result {
        f.write_str(self.name())
    }
}

/// The byte of an outgoing class that says "as incoming".
pub const AS_INCOMING: u8 = 255;

/// What came of a number.
///
/// ```
/// use npp::Outcome;
///
/// assert_eq!(Outcome::Formatted.code(), 4);
/// assert_eq!(Outcome::of(0), Some(Outcome::NoRule));
/// assert_eq!(Outcome::of(5), None);
/// ```
#[derive(Clone, Copy, Debug, PartialEq, Eq, PartialOrd, Ord, Hash)]
#[repr(u8)]
pub enum Outcome {
    /// No filter fits.
    NoRule = 0,
    /// The set has no conditioning action: the number escapes.
    Escaped = 1,
    /// INPRTG's answer is not RELAY.
    Responded = 2,
    /// Formatting is withheld.
    Unchanged = 3,
    /// The outgoing digits are given.
    Formatted = 4,
}

impl Outcome {
    /// The outcome of a byte, 0 to 4; none for every other byte.
    pub fn of(byte: u8) -> Option<Outcome> {
        match byte {
            0 => Some(Outcome::NoRule),
            1 => Some(Outcome::Escaped),
            2 => Some(Outcome::Responded),
            3 => Some(Outcome::Unchanged),
            4 => Some(Outcome::Formatted),
            _ => None,
        }
    }

    /// Its byte.
    pub fn code(self) -> u8 {
        self as u8
    }
}

/// INPRTG's answer: one for each lookup kind in the settings, and the response of a number.
///
/// ```
/// use npp::Response;
///
/// assert_eq!(Response::ReleaseCall.code(), 4);
/// assert_eq!(Response::of(1), Some(Response::Relay));
/// assert_eq!(Response::of(0), None);
/// ```
#[derive(Clone, Copy, Debug, PartialEq, Eq, PartialOrd, Ord, Hash)]
#[repr(u8)]
pub enum Response {
    /// RELAY: the service actions behind INPRTG are carried out.
    Relay = 1,
    /// CONNECT.
    Connect = 2,
    /// CONTINUE.
    Continue = 3,
    /// RELEASECALL.
    ReleaseCall = 4,
}

impl Response {
    /// The response of a byte, 1 to 4; none for every other byte.
    pub fn of(byte: u8) -> Option<Response> {
        match byte {
            1 => Some(Response::Relay),
            2 => Some(Response::Connect),
            3 => Some(Response::Continue),
            4 => Some(Response::ReleaseCall),
            _ => None,
        }
    }

    /// Its byte.
    pub fn code(self) -> u8 {
        self as u8
    }
}

/// The number of a set.
#[derive(Clone, Copy, Debug, PartialEq, Eq, PartialOrd, Ord, Hash)]
pub struct SetNumber(pub u16);

/// A rule's place in the listing, counted from 0. It is not a set number.
#[derive(Clone, Copy, Debug, PartialEq, Eq, PartialOrd, Ord, Hash)]
pub struct RulePlace(pub u16);

/// The name of a code, the first code being 1.
fn named(names: &[&'static str], code: u8) -> Option<&'static str> {
    names.get(usize::from(code).checked_sub(1)?).copied()
}

/// The codes of conditioning actions. In a set each stands with a count.
pub mod ca {
    /// Count 1 to 16.
    pub const IGN: u8 = 1;
    /// Count 1 to 3.
    pub const CC: u8 = 2;
    /// Count 1 to 8.
    pub const AC: u8 = 3;
    /// Count 1 to 15.
    pub const SN: u8 = 4;
    /// Count 1 to 15.
    pub const DN: u8 = 5;
    /// Count 1 to 15.
    pub const ZN: u8 = 6;
    /// Count 1 to 8.
    pub const PFXA: u8 = 7;
    /// Count 1 to 8.
    pub const PFXB: u8 = 8;
    /// Count 1 to 8.
    pub const PFXC: u8 = 9;
    /// Count 1 to 8.
    pub const PFXD: u8 = 10;
    /// Count 0.
    pub const SNX: u8 = 11;
    /// Count 0.
    pub const DNX: u8 = 12;
    /// Count 0.
    pub const ZNX: u8 = 13;
    /// Count 0.
    pub const FPFX: u8 = 14;
    /// Count 0.
    pub const CCDEF: u8 = 15;

    /// The name of a code, 1 to 15; none for every other code.
    ///
    /// ```
    /// use npp::ca;
    ///
    /// assert_eq!(ca::name(ca::DNX), Some("DNX"));
    /// assert_eq!((ca::name(0), ca::name(16)), (None, None));
    /// ```
    pub fn name(code: u8) -> Option<&'static str> {
        let names = [
            "IGN", "CC", "AC", "SN", "DN", "ZN", "PFXA", "PFXB", "PFXC", "PFXD", "SNX", "DNX",
            "ZNX", "FPFX", "CCDEF",
        ];
        super::named(&names, code)
    }
}

/// The codes of service actions.
pub mod sa {
    /// Precedence 95.
    pub const INPRTG: u8 = 1;
    /// Precedence 80.
    pub const CDPNNP: u8 = 2;
    /// Precedence 50.
    pub const ASDLKUP: u8 = 3;
    /// Precedence 50.
    pub const GRNLKUP: u8 = 4;
    /// Precedence 20.
    pub const CDIAL: u8 = 5;

    /// The name of a code, 1 to 5; none for every other code.
    ///
    /// ```
    /// use npp::sa;
    ///
    /// assert_eq!(sa::name(sa::CDIAL), Some("CDIAL"));
    /// assert_eq!((sa::name(0), sa::name(6)), (None, None));
    /// ```
    pub fn name(code: u8) -> Option<&'static str> {
        let names = ["INPRTG", "CDPNNP", "ASDLKUP", "GRNLKUP", "CDIAL"];
        super::named(&names, code)
    }
}

/// The codes of formatting actions. 1 to 10 name the values of [`Plan::stretch`](crate::Plan::stretch)
/// too.
pub mod fa {
    /// Needs CC or CCDEF.
    pub const CC: u8 = 1;
    /// Needs AC.
    pub const AC: u8 = 2;
    /// Needs SN or SNX.
    pub const SN: u8 = 3;
    /// Needs DN or DNX.
    pub const DN: u8 = 4;
    /// Needs ZN or ZNX.
    pub const ZN: u8 = 5;
    /// Needs FPFX.
    pub const FPFX: u8 = 6;
    /// Needs PFXA.
    pub const PFXA: u8 = 7;
    /// Needs PFXB.
    pub const PFXB: u8 = 8;
    /// Needs PFXC.
    pub const PFXC: u8 = 9;
    /// Needs PFXD.
    pub const PFXD: u8 = 10;
    /// Needs CDPNNP.
    pub const RN: u8 = 11;
    /// Needs CDPNNP.
    pub const SP: u8 = 12;
    /// Needs ASDLKUP.
    pub const ASD: u8 = 13;
    /// Needs GRNLKUP.
    pub const GRN: u8 = 14;
    /// Needs nothing.
    pub const DELIMITER_A: u8 = 15;
    /// Needs nothing.
    pub const DELIMITER_B: u8 = 16;

    /// The name of a code, 1 to 16; none for every other code.
    ///
    /// ```
    /// use npp::fa;
    ///
    /// assert_eq!(fa::name(fa::DELIMITER_A), Some("delimiter A"));
    /// assert_eq!((fa::name(0), fa::name(17)), (None, None));
    /// ```
    pub fn name(code: u8) -> Option<&'static str> {
        let names = [
            "CC",
            "AC",
            "SN",
            "DN",
            "ZN",
            "FPFX",
            "PFXA",
            "PFXB",
            "PFXC",
            "PFXD",
            "RN",
            "SP",
            "ASD",
            "GRN",
            "delimiter A",
            "delimiter B",
        ];
        super::named(&names, code)
    }
}

/// Digits from text, 0 to 9 and a to f; `-` and the empty text are no digits. None for other text.
///
/// ```
/// use npp::digits_of;
///
/// assert_eq!(digits_of("b33"), Some(vec![11, 3, 3]));
/// assert_eq!(digits_of("-"), Some(vec![]));
/// assert_eq!(digits_of("12x"), None);
/// ```
pub fn digits_of(text: &str) -> Option<Vec<u8>> {
    if text == "-" {
        return Some(Vec::new());
    }
    let digit = |byte| match byte {
        b'0'..=b'9' => Some(byte - b'0'),
        b'a'..=b'f' => Some(byte - b'a' + 10),
        _ => None,
    };
    text.bytes().map(digit).collect()
}

/// Digits as text, 0 to 9 and a to f; `-` for no digits, `?` for a byte that is no digit.
///
/// ```
/// use npp::text_of;
///
/// assert_eq!(text_of(&[11, 3, 3]), "b33");
/// assert_eq!(text_of(&[]), "-");
/// ```
pub fn text_of(digits: &[u8]) -> String {
    if digits.is_empty() {
        return "-".to_string();
    }
    let character = |&digit: &u8| char::from_digit(u32::from(digit), 16).unwrap_or('?');
    digits.iter().map(character).collect()
}

/// A filter's prefix as text, `*` for a wildcard.
pub(crate) fn prefix_text(prefix: &[u8]) -> String {
    match prefix {
        [] => "*".to_string(),
        digits => text_of(digits),
    }
}

/// A filter's length as text, `*` for a wildcard.
pub(crate) fn length_text(length: Option<u8>) -> String {
    length.map_or("*".to_string(), |length| length.to_string())
}
