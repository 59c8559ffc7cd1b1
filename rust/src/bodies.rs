//! The bodies that the calls take, from their fields.
//!
//! A call takes any bytes and says itself what is wrong with them; these functions only spare a caller
//! the places and the widths of the fields. They check nothing but that a digit string or a list is not
//! longer than its field; what is longer has no body, and they give none. Every other check is the
//! library's.

use crate::{Class, Response, SetNumber, AS_INCOMING};

/// The length of an opening.
pub const OPEN_BYTES: usize = 41;
/// The length of a set to add or replace.
pub const SET_BYTES: usize = 47;
/// The length of the body that removes a set, or asks how many rules name it.
pub const SET_NUMBER_BYTES: usize = 2;
/// The length of a rule to add or change.
pub const RULE_BYTES: usize = 21;
/// The length of a filter, the body that removes a rule.
pub const FILTER_BYTES: usize = 19;
/// The length of a number with its lookup.
pub const NUMBER_BYTES: usize = 73;
/// The length of a price.
pub const PRICE_BYTES: usize = 21;
/// The length of a call record.
pub const CALL_BYTES: usize = 87;

/// The kinds of house records: one byte before the body. The first seven provision, and
/// [`Plan::replay`](crate::Plan::replay) takes them; [`Records`](crate::Records) reads all of them.
pub mod record {
    /// [`open`](super::open) follows.
    pub const OPEN: u8 = 0;
    /// [`set`](super::set) follows.
    pub const ADD_SET: u8 = 1;
    /// [`set`](super::set) follows.
    pub const REPLACE_SET: u8 = 2;
    /// [`set_number`](super::set_number) follows.
    pub const REMOVE_SET: u8 = 3;
    /// [`rule`](super::rule) follows.
    pub const ADD_RULE: u8 = 4;
    /// [`rule`](super::rule) follows.
    pub const CHANGE_RULE: u8 = 5;
    /// [`filter`](super::filter) follows.
    pub const REMOVE_RULE: u8 = 6;
    /// [`number`](super::number) follows.
    pub const NUMBER: u8 = 7;
    /// How many rules name a set: [`set_number`](super::set_number) follows.
    pub const REFERRERS: u8 = 8;
    /// The listing: nothing follows.
    pub const LIST: u8 = 9;
    /// [`CallRecord::body`](super::CallRecord::body) follows.
    pub const CALL: u8 = 16;
    /// [`Price::body`](super::Price::body) follows.
    pub const PRICE: u8 = 17;
    /// The losses by district: nothing follows.
    pub const LOSSES: u8 = 18;
}

// Where the fields stand, as in include/npp.h.
pub(crate) const OPEN_SETS: usize = 0;
pub(crate) const OPEN_RULES: usize = 2;
pub(crate) const OPEN_COUNTRY: usize = 4;
pub(crate) const OPEN_DFLTRN: usize = 8;
pub(crate) const OPEN_DELIMITER_A: usize = 24;
pub(crate) const OPEN_DELIMITER_B: usize = 30;
pub(crate) const OPEN_ANSWERS: usize = 36;
pub(crate) const OPEN_ACCEPTING: usize = 40;
pub(crate) const SET_NUMBER: usize = 0;
pub(crate) const SET_CLASS: usize = 2;
pub(crate) const SET_CA: usize = 3;
pub(crate) const SET_SA: usize = 27;
pub(crate) const SET_FA: usize = 35;
pub(crate) const RULE_CLASS: usize = 0;
pub(crate) const RULE_PREFIX: usize = 1;
pub(crate) const RULE_LENGTH: usize = 18;
pub(crate) const RULE_SET: usize = 19;
pub(crate) const NUMBER_CLASS: usize = 0;
pub(crate) const NUMBER_DIGITS: usize = 1;
pub(crate) const NUMBER_LOOKUP: usize = 34;
pub(crate) const NUMBER_ENTITY: usize = 35;
pub(crate) const NUMBER_ASD: usize = 51;
pub(crate) const NUMBER_GRN: usize = 62;
pub(crate) const PRICE_PREFIX: usize = 0;
pub(crate) const PRICE_PRICE: usize = 17;
pub(crate) const CALL_ACCOUNT: usize = 0;
pub(crate) const CALL_DISTRICT: usize = 4;
pub(crate) const CALL_SECONDS: usize = 6;
pub(crate) const CALL_BILLED: usize = 10;
pub(crate) const CALL_NUMBER: usize = 14;

/// A two-byte number, the high byte first.
fn put_word(body: &mut [u8], at: usize, number: u16) {
    body[at..at + 2].copy_from_slice(&number.to_be_bytes());
}

/// A four-byte number, the high byte first.
fn put_quad(body: &mut [u8], at: usize, number: u32) {
    body[at..at + 4].copy_from_slice(&number.to_be_bytes());
}

/// A list at the front of its field, which ends before `end`.
fn put_list(body: &mut [u8], at: usize, end: usize, list: &[u8]) -> Option<()> {
    let field = body.get_mut(at..end)?;
    field.get_mut(..list.len())?.copy_from_slice(list);
    Some(())
}

/// A digit string: its length, then the digits. Its field ends before `end`.
fn put_digits(body: &mut [u8], at: usize, end: usize, digits: &[u8]) -> Option<()> {
    body[at] = u8::try_from(digits.len()).ok()?;
    put_list(body, at + 1, end, digits)
}

/// The settings of an opening.
#[derive(Clone, Copy, Debug, PartialEq, Eq)]
pub struct Settings<'a> {
    /// Default country code, 1 to 3 digits.
    pub country: &'a [u8],
    /// Default routing number, 0 to 15 digits; no digits: not configured.
    pub dfltrn: &'a [u8],
    /// Delimiter A, 0 to 5 digits.
    pub delimiter_a: &'a [u8],
    /// Delimiter B, 0 to 5 digits.
    pub delimiter_b: &'a [u8],
    /// INPRTG's answers for the lookup kinds 0, 1, 2, 3.
    pub answers: [Response; 4],
    /// Whether any record is accepted (C-12): success of CDPNNP on lookup kind 1, with RN and SP empty.
    pub accepting: bool,
}

impl<'a> Settings<'a> {
    /// A country code and nothing else: no DFLTRN, no delimiters, RELAY for every lookup kind, not
    /// accepting.
    pub fn of_country(country: &'a [u8]) -> Settings<'a> {
        Settings {
            country,
            dfltrn: &[],
            delimiter_a: &[],
            delimiter_b: &[],
            answers: [Response::Relay; 4],
            accepting: false,
        }
    }
}

/// The body of an opening: room for so many sets and so many rules, and the settings.
///
/// ```
/// use npp::bodies::{open, Settings};
///
/// let body = open(8, 9, &Settings::of_country(&[5, 5])).unwrap();
/// assert_eq!(body[..8], [0, 8, 0, 9, 2, 5, 5, 0]);
/// assert_eq!(body[36..], [1, 1, 1, 1, 0]);
/// let accepting = Settings { accepting: true, ..Settings::of_country(&[5, 5]) };
/// assert_eq!(open(8, 9, &accepting).unwrap()[36..], [1, 1, 1, 1, 1]);
/// // A country code of four digits has no place in a body.
/// assert_eq!(open(8, 9, &Settings::of_country(&[5, 5, 5, 5])), None);
/// ```
pub fn open(sets: u16, rules: u16, settings: &Settings) -> Option<[u8; OPEN_BYTES]> {
    let mut body = [0; OPEN_BYTES];
    put_word(&mut body, OPEN_SETS, sets);
    put_word(&mut body, OPEN_RULES, rules);
    put_digits(&mut body, OPEN_COUNTRY, OPEN_DFLTRN, settings.country)?;
    put_digits(&mut body, OPEN_DFLTRN, OPEN_DELIMITER_A, settings.dfltrn)?;
    put_digits(
        &mut body,
        OPEN_DELIMITER_A,
        OPEN_DELIMITER_B,
        settings.delimiter_a,
    )?;
    put_digits(
        &mut body,
        OPEN_DELIMITER_B,
        OPEN_ANSWERS,
        settings.delimiter_b,
    )?;
    let answers = settings.answers.map(Response::code);
    put_list(&mut body, OPEN_ANSWERS, OPEN_ACCEPTING, &answers)?;
    body[OPEN_ACCEPTING] = u8::from(settings.accepting);
    Some(body)
}

/// The body of a set to add or replace: its number; its outgoing class, none for "as incoming"; its
/// conditioning actions, each a code and a count; its service actions; its formatting actions.
///
/// ```
/// use npp::bodies::{set, SET_BYTES};
/// use npp::{ca, fa, sa, SetNumber};
///
/// // Document 01's S1: DNX, CCDEF; CDPNNP; RN, DN; class 255.
/// let conditioning = [(ca::DNX, 0), (ca::CCDEF, 0)];
/// let body = set(SetNumber(0), None, &conditioning, &[sa::CDPNNP], &[fa::RN, fa::DN]).unwrap();
/// assert_eq!(body[..7], [0, 0, 255, 12, 0, 15, 0]);
/// // 13 conditioning actions have no place in a body.
/// assert_eq!(set(SetNumber(0), None, &[(ca::IGN, 1); 13], &[], &[]), None);
/// ```
pub fn set(
    number: SetNumber,
    class: Option<Class>,
    conditioning: &[(u8, u8)],
    services: &[u8],
    formatting: &[u8],
) -> Option<[u8; SET_BYTES]> {
    let mut body = [0; SET_BYTES];
    put_word(&mut body, SET_NUMBER, number.0);
    body[SET_CLASS] = class.map_or(AS_INCOMING, Class::code);
    let pairs: Vec<u8> = conditioning
        .iter()
        .flat_map(|&(code, count)| [code, count])
        .collect();
    put_list(&mut body, SET_CA, SET_SA, &pairs)?;
    put_list(&mut body, SET_SA, SET_FA, services)?;
    put_list(&mut body, SET_FA, SET_BYTES, formatting)?;
    Some(body)
}

/// The body that removes a set: its number.
///
/// ```
/// assert_eq!(npp::bodies::set_number(npp::SetNumber(258)), [1, 2]);
/// ```
pub fn set_number(number: SetNumber) -> [u8; SET_NUMBER_BYTES] {
    number.0.to_be_bytes()
}

/// A filter, the body that removes a rule: its class; its prefix, no digits for a wildcard; its length,
/// 0 for a wildcard.
///
/// ```
/// use npp::bodies::filter;
/// use npp::Class;
///
/// let body = filter(Class::UNKNOWN, &[11, 3], 15).unwrap();
/// assert_eq!(body[..5], [2, 2, 11, 3, 0]);
/// assert_eq!(body[18], 15);
/// // A prefix of 17 digits has no place in a body.
/// assert_eq!(filter(Class::UNKNOWN, &[1; 17], 0), None);
/// ```
pub fn filter(class: Class, prefix: &[u8], length: u8) -> Option<[u8; FILTER_BYTES]> {
    let mut body = [0; FILTER_BYTES];
    body[RULE_CLASS] = class.code();
    put_digits(&mut body, RULE_PREFIX, RULE_LENGTH, prefix)?;
    body[RULE_LENGTH] = length;
    Some(body)
}

/// The body of a rule to add or change: its filter, and the set that it names.
///
/// ```
/// use npp::bodies::rule;
/// use npp::{Class, SetNumber};
///
/// let body = rule(Class::NATL, &[], 0, SetNumber(7)).unwrap();
/// assert_eq!(body[0], 1);
/// assert_eq!(body[19..], [0, 7]);
/// ```
pub fn rule(class: Class, prefix: &[u8], length: u8, set: SetNumber) -> Option<[u8; RULE_BYTES]> {
    let mut body = [0; RULE_BYTES];
    body[..FILTER_BYTES].copy_from_slice(&filter(class, prefix, length)?);
    put_word(&mut body, RULE_SET, set.0);
    Some(body)
}

/// What the lookup of a number gave.
///
/// ```
/// use npp::bodies::Lookup;
///
/// let ported = Lookup::rn(&[0, 0, 1, 5]);
/// let with_asd = Lookup { asd: &[7], ..ported };
/// assert_eq!((with_asd.kind, with_asd.entity), (2, &[0, 0, 1, 5][..]));
/// ```
#[derive(Clone, Copy, Debug, PartialEq, Eq)]
pub struct Lookup<'a> {
    /// 0 no record, 1 record without entity, 2 RN, 3 SP.
    pub kind: u8,
    /// 1 to 15 digits for kinds 2 and 3, else none.
    pub entity: &'a [u8],
    /// 0 to 10 digits, none for kind 0.
    pub asd: &'a [u8],
    /// 0 to 10 digits, none for kind 0.
    pub grn: &'a [u8],
}

impl<'a> Lookup<'a> {
    /// Kind 0: no record.
    pub const NO_RECORD: Lookup<'static> = Lookup::of(0, &[]);
    /// Kind 1: a record without entity.
    pub const NO_ENTITY: Lookup<'static> = Lookup::of(1, &[]);

    /// Kind 2: an RN.
    pub const fn rn(entity: &'a [u8]) -> Lookup<'a> {
        Lookup::of(2, entity)
    }

    /// Kind 3: an SP.
    pub const fn sp(entity: &'a [u8]) -> Lookup<'a> {
        Lookup::of(3, entity)
    }

    const fn of(kind: u8, entity: &'a [u8]) -> Lookup<'a> {
        Lookup {
            kind,
            entity,
            asd: &[],
            grn: &[],
        }
    }
}

/// The body of a number: its class, its digits, and the lookup that comes with it.
///
/// ```
/// use npp::bodies::{number, Lookup};
/// use npp::Class;
///
/// let body = number(Class::NATL, &[8, 7], &Lookup::rn(&[0, 0, 1, 5])).unwrap();
/// assert_eq!(body[..5], [1, 2, 8, 7, 0]);
/// assert_eq!(body[34..40], [2, 4, 0, 0, 1, 5]);
/// // 33 digits have no place in a body.
/// assert_eq!(number(Class::NATL, &[1; 33], &Lookup::NO_RECORD), None);
/// ```
pub fn number(class: Class, digits: &[u8], lookup: &Lookup) -> Option<[u8; NUMBER_BYTES]> {
    let mut body = [0; NUMBER_BYTES];
    body[NUMBER_CLASS] = class.code();
    put_digits(&mut body, NUMBER_DIGITS, NUMBER_LOOKUP, digits)?;
    body[NUMBER_LOOKUP] = lookup.kind;
    put_digits(&mut body, NUMBER_ENTITY, NUMBER_ASD, lookup.entity)?;
    put_digits(&mut body, NUMBER_ASD, NUMBER_GRN, lookup.asd)?;
    put_digits(&mut body, NUMBER_GRN, NUMBER_BYTES, lookup.grn)?;
    Some(body)
}

/// A row to add to a price list.
#[derive(Clone, Copy, Debug, PartialEq, Eq)]
pub struct Price<'a> {
    /// What numbers begin with, 0 to 16 digits; no digits: any number.
    pub prefix: &'a [u8],
    /// What a minute costs, in thousandths of a cent, 0 to 1,000,000.
    pub price: u32,
}

impl Price<'_> {
    /// The body that adds the row.
    ///
    /// ```
    /// use npp::Price;
    ///
    /// let body = Price { prefix: &[0, 0, 15], price: 2_500 }.body().unwrap();
    /// assert_eq!(body[..5], [3, 0, 0, 15, 0]);
    /// assert_eq!(body[17..], [0, 0, 9, 196]);
    /// // A prefix of 17 digits has no place in a body.
    /// assert_eq!(Price { prefix: &[1; 17], price: 0 }.body(), None);
    /// ```
    pub fn body(&self) -> Option<[u8; PRICE_BYTES]> {
        let mut body = [0; PRICE_BYTES];
        put_digits(&mut body, PRICE_PREFIX, PRICE_PRICE, self.prefix)?;
        put_quad(&mut body, PRICE_PRICE, self.price);
        Some(body)
    }
}

/// A call, and what was billed for it.
#[derive(Clone, Copy, Debug, PartialEq, Eq)]
pub struct CallRecord {
    /// Any number; no sum is kept by account.
    pub account: u32,
    /// 0 to 511.
    pub district: u16,
    /// How long it took, at most 86,400.
    pub seconds: u32,
    /// In thousandths of a cent, at most 1,440,000,000.
    pub billed: u32,
    /// The number called, with its lookup: the body that [`number`] makes.
    pub number: [u8; NUMBER_BYTES],
}

impl CallRecord {
    /// The body of the record.
    ///
    /// ```
    /// use npp::bodies::{number, Lookup};
    /// use npp::{CallRecord, Class};
    ///
    /// let number = number(Class::NATL, &[8, 7], &Lookup::NO_RECORD).unwrap();
    /// let record = CallRecord { account: 1001, district: 17, seconds: 60, billed: 600, number };
    /// let body = record.body();
    /// assert_eq!(body[..14], [0, 0, 3, 233, 0, 17, 0, 0, 0, 60, 0, 0, 2, 88]);
    /// assert_eq!(body[14..], number);
    /// ```
    pub fn body(&self) -> [u8; CALL_BYTES] {
        let mut body = [0; CALL_BYTES];
        put_quad(&mut body, CALL_ACCOUNT, self.account);
        put_word(&mut body, CALL_DISTRICT, self.district);
        put_quad(&mut body, CALL_SECONDS, self.seconds);
        put_quad(&mut body, CALL_BILLED, self.billed);
        body[CALL_NUMBER..].copy_from_slice(&self.number);
        body
    }
}
