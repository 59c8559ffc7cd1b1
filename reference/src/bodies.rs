//! The bodies of house records (document 01, 'House records', C-11 and C-12):
//! bytes to values with the RANGE check of every field, and values to bytes.

use crate::ledger::District;
use crate::prices::{self, Row};
use crate::rules::*;
use std::ops::RangeInclusive;

/// The kinds of record, by their kind byte.
#[derive(Clone, Copy, Debug, PartialEq, Eq)]
#[repr(u8)]
pub enum Kind {
    Open = 0,
    AddSet = 1,
    ReplaceSet = 2,
    RemoveSet = 3,
    AddRule = 4,
    ChangeRule = 5,
    RemoveRule = 6,
    Number = 7,
    Referrers = 8,
    List = 9,
    Call = 16,
    Price = 17,
    Losses = 18,
}

impl Kind {
    pub const ALL: [Kind; 13] = [
        Kind::Open,
        Kind::AddSet,
        Kind::ReplaceSet,
        Kind::RemoveSet,
        Kind::AddRule,
        Kind::ChangeRule,
        Kind::RemoveRule,
        Kind::Number,
        Kind::Referrers,
        Kind::List,
        Kind::Call,
        Kind::Price,
        Kind::Losses,
    ];

    pub fn from_byte(byte: u8) -> Option<Kind> {
        Kind::ALL.into_iter().find(|kind| kind.byte() == byte)
    }

    pub fn byte(self) -> u8 {
        self as u8
    }

    pub fn body_length(self) -> usize {
        match self {
            Kind::Open => OPENING,
            Kind::AddSet | Kind::ReplaceSet => SET,
            Kind::RemoveSet | Kind::Referrers => 2,
            Kind::AddRule | Kind::ChangeRule => RULE,
            Kind::RemoveRule => FILTER,
            Kind::Number => NUMBER,
            Kind::Call => CALL,
            Kind::Price => PRICE,
            Kind::List | Kind::Losses => 0,
        }
    }

    /// Kinds 0 to 6: opening and the six other provisioning calls.
    pub fn provisions(self) -> bool {
        self.byte() <= Kind::RemoveRule.byte()
    }
}

pub const OPENING: usize = 41;
/// The last byte of an opening.
pub const ACCEPTING_AT: usize = OPENING - 1;
pub const SET: usize = 47;
pub const CONTENT: usize = SET - 2;
pub const RULE: usize = 21;
pub const FILTER: usize = 19;
pub const NUMBER: usize = 73;
/// A row of the price list: prefix 1+16, price 4.
pub const PRICE: usize = 21;
/// A call record: account 4, district 2, seconds 4, billed 4, a number.
pub const CALL: usize = NUMBER_AT + NUMBER;
pub const LONGEST_BODY: usize = CALL;
/// Where the number stands in a call record.
pub const NUMBER_AT: usize = 14;

/// A day.
pub const MOST_SECONDS: u32 = 86_400;
/// In thousandths of a cent.
pub const MOST_BILLED: u32 = 1_440_000_000;

const COUNTRY_CODE: usize = 3;
const ROUTING: usize = 15;
const DELIMITER: usize = 5;
const PREFIX: usize = 16;
const ENTITY: usize = 15;
const SUBSCRIBER_DATA: usize = 10;

/// Takes the fields of a body from its front.  The caller has made sure that
/// the body is as long as its kind says.
struct Fields<'a> {
    rest: &'a [u8],
}

impl<'a> Fields<'a> {
    fn of(body: &'a [u8]) -> Fields<'a> {
        Fields { rest: body }
    }

    fn bytes(&mut self, count: usize) -> &'a [u8] {
        let (taken, rest) = self.rest.split_at(count);
        self.rest = rest;
        taken
    }

    fn byte(&mut self) -> u8 {
        self.bytes(1)[0]
    }

    fn two_bytes(&mut self) -> u16 {
        let bytes = self.bytes(2);
        u16::from_be_bytes([bytes[0], bytes[1]])
    }

    fn two_bytes_within(&mut self, range: RangeInclusive<u16>) -> Checked<u16> {
        let number = self.two_bytes();
        demand(range.contains(&number), Refusal::Range)?;
        Ok(number)
    }

    fn four_bytes(&mut self) -> u32 {
        let bytes = self.bytes(4);
        u32::from_be_bytes([bytes[0], bytes[1], bytes[2], bytes[3]])
    }

    fn four_bytes_within(&mut self, range: RangeInclusive<u32>) -> Checked<u32> {
        let number = self.four_bytes();
        demand(range.contains(&number), Refusal::Range)?;
        Ok(number)
    }

    /// A length byte, then the full width, whose unused bytes are 0.
    fn digits(&mut self, width: usize, lengths: RangeInclusive<usize>) -> Checked<&'a [u8]> {
        let length = usize::from(self.byte());
        let string = self.bytes(width);
        demand(lengths.contains(&length), Refusal::Range)?;
        let (digits, unused) = string.split_at(length);
        demand(are_digits(digits) && all_zero(unused), Refusal::Range)?;
        Ok(digits)
    }

    fn zero_or_one(&mut self) -> Checked<bool> {
        match self.byte() {
            0 => Ok(false),
            1 => Ok(true),
            _ => Err(Refusal::Range),
        }
    }

    fn class(&mut self) -> Checked<Class> {
        Class::from_byte(self.byte()).ok_or(Refusal::Range)
    }

    /// A list of entries of `width` bytes whose first byte is the code.  It
    /// ends at its first code 0; every byte from there on is 0.
    fn list<T>(
        &mut self,
        places: usize,
        width: usize,
        entry: impl Fn(&[u8]) -> Option<T>,
    ) -> Checked<Vec<T>> {
        let bytes = self.bytes(places * width);
        let used = bytes
            .chunks(width)
            .take_while(|chunk| chunk[0] != 0)
            .count();
        let (entries, unused) = bytes.split_at(used * width);
        demand(all_zero(unused), Refusal::Range)?;
        entries
            .chunks(width)
            .map(|chunk| entry(chunk).ok_or(Refusal::Range))
            .collect()
    }
}

pub fn are_digits(bytes: &[u8]) -> bool {
    bytes.iter().all(|&byte| byte <= HIGHEST_DIGIT)
}

pub fn all_zero(bytes: &[u8]) -> bool {
    bytes.iter().all(|&byte| byte == 0)
}

/// The 41 bytes of an opening.
pub fn opening(body: &[u8]) -> Checked<(Rooms, Settings)> {
    let mut fields = Fields::of(body);
    let sets = fields.two_bytes_within(1..=1024)?;
    let rules = fields.two_bytes_within(1..=4096)?;
    let country_code = fields.digits(COUNTRY_CODE, 1..=COUNTRY_CODE)?.to_vec();
    let default_routing = fields.digits(ROUTING, 0..=ROUTING)?.to_vec();
    let delimiter_a = fields.digits(DELIMITER, 0..=DELIMITER)?.to_vec();
    let delimiter_b = fields.digits(DELIMITER, 0..=DELIMITER)?.to_vec();
    let mut answers = [Response::Relay; 4];
    for answer in &mut answers {
        *answer = Response::from_byte(fields.byte()).ok_or(Refusal::Range)?;
    }
    let accepting = fields.zero_or_one()?;
    let settings = Settings {
        country_code,
        default_routing,
        delimiter_a,
        delimiter_b,
        answers,
        accepting,
    };
    Ok((Rooms { sets, rules }, settings))
}

/// A body that is a set's number alone.
pub fn set_number(body: &[u8]) -> SetNumber {
    SetNumber(Fields::of(body).two_bytes())
}

/// The 45 bytes of a set's content.
pub fn content(bytes: &[u8]) -> Checked<ActionSet> {
    let mut fields = Fields::of(bytes);
    let class = OutgoingClass::from_byte(fields.byte()).ok_or(Refusal::Range)?;
    let conditioning = fields.list(MOST_CONDITIONING, 2, |pair| {
        Conditioning::from_code(pair[0], pair[1])
    })?;
    let services = fields.list(MOST_SERVICES, 1, |byte| Service::from_code(byte[0]))?;
    let formatting = fields.list(MOST_FORMATTING, 1, |byte| Formatting::from_code(byte[0]))?;
    Ok(ActionSet {
        class,
        conditioning,
        services,
        formatting,
    })
}

/// The 47 bytes of kinds 1 and 2.
pub fn set(body: &[u8]) -> Checked<(SetNumber, ActionSet)> {
    Ok((set_number(body), content(&body[2..SET])?))
}

/// The 19 bytes of a filter, which are the body of kind 6.
pub fn filter(body: &[u8]) -> Checked<Filter> {
    let mut fields = Fields::of(body);
    let class = fields.class()?;
    let prefix = fields.digits(PREFIX, 0..=PREFIX)?.to_vec();
    let length = match fields.byte() {
        0 => None,
        length => Some(length),
    };
    if let Some(length) = length.map(usize::from) {
        demand(
            length <= LONGEST_NUMBER && prefix.len() <= length,
            Refusal::Range,
        )?;
    }
    Ok(Filter {
        class,
        prefix,
        length,
    })
}

/// The 21 bytes of kinds 4 and 5.
pub fn rule(body: &[u8]) -> Checked<(Filter, SetNumber)> {
    Ok((filter(body)?, set_number(&body[FILTER..])))
}

/// The 73 bytes of a number.
pub fn number(body: &[u8]) -> Checked<Number<'_>> {
    let mut fields = Fields::of(body);
    let class = fields.class()?;
    let digits = fields.digits(LONGEST_NUMBER, 0..=LONGEST_NUMBER)?;
    let kind = LookupKind::from_byte(fields.byte()).ok_or(Refusal::Range)?;
    let (entities, longest_data) = match kind {
        LookupKind::NoRecord => (0..=0, 0),
        LookupKind::NoEntity => (0..=0, SUBSCRIBER_DATA),
        LookupKind::RoutingNumber | LookupKind::ServiceProvider => (1..=ENTITY, SUBSCRIBER_DATA),
    };
    let entity = fields.digits(ENTITY, entities)?;
    let asd = fields.digits(SUBSCRIBER_DATA, 0..=longest_data)?;
    let grn = fields.digits(SUBSCRIBER_DATA, 0..=longest_data)?;
    Ok(Number {
        class,
        digits,
        lookup: Lookup {
            kind,
            entity,
            asd,
            grn,
        },
    })
}

/// The 21 bytes of a row of the price list.
pub fn price_row(body: &[u8]) -> Checked<Row> {
    let mut fields = Fields::of(body);
    let prefix = fields.digits(PREFIX, 0..=PREFIX)?.to_vec();
    let price = fields.four_bytes_within(0..=prices::HIGHEST_PRICE)?;
    Ok(Row { prefix, price })
}

/// What a call record holds.
#[derive(Clone, Copy, Debug, PartialEq, Eq)]
pub struct CallRecord<'a> {
    /// Any account is in range, and none has sums of its own.
    pub account: u32,
    pub district: District,
    pub seconds: u32,
    /// In thousandths of a cent.
    pub billed: u32,
    pub number: Number<'a>,
}

/// The 87 bytes of a call record.
pub fn call(body: &[u8]) -> Checked<CallRecord<'_>> {
    let mut fields = Fields::of(body);
    let account = fields.four_bytes();
    let district = District::from_number(fields.two_bytes()).ok_or(Refusal::Range)?;
    let seconds = fields.four_bytes_within(0..=MOST_SECONDS)?;
    let billed = fields.four_bytes_within(0..=MOST_BILLED)?;
    let number = number(fields.bytes(NUMBER))?;
    Ok(CallRecord {
        account,
        district,
        seconds,
        billed,
        number,
    })
}

// ---------------------------------------------------------------------------
// Values to bytes

fn put_digits(bytes: &mut Vec<u8>, width: usize, digits: &[u8]) {
    bytes.push(digits.len() as u8);
    put_padded(bytes, width, digits);
}

fn put_padded(bytes: &mut Vec<u8>, width: usize, content: &[u8]) {
    let end = bytes.len() + width;
    bytes.extend_from_slice(content);
    bytes.resize(end, 0);
}

pub fn put_opening(bytes: &mut Vec<u8>, rooms: Rooms, settings: &Settings) {
    bytes.extend(rooms.sets.to_be_bytes());
    bytes.extend(rooms.rules.to_be_bytes());
    put_digits(bytes, COUNTRY_CODE, &settings.country_code);
    put_digits(bytes, ROUTING, &settings.default_routing);
    put_digits(bytes, DELIMITER, &settings.delimiter_a);
    put_digits(bytes, DELIMITER, &settings.delimiter_b);
    bytes.extend(settings.answers.iter().map(|&answer| answer as u8));
    bytes.push(u8::from(settings.accepting));
}

pub fn put_set_number(bytes: &mut Vec<u8>, number: SetNumber) {
    bytes.extend(number.0.to_be_bytes());
}

pub fn put_content(bytes: &mut Vec<u8>, set: &ActionSet) {
    let pairs: Vec<u8> = set
        .conditioning
        .iter()
        .flat_map(|action| <[u8; 2]>::from(action.code()))
        .collect();
    let services: Vec<u8> = set.services.iter().map(|action| action.code()).collect();
    let formatting: Vec<u8> = set.formatting.iter().map(|action| action.code()).collect();
    bytes.push(set.class.byte());
    put_padded(bytes, MOST_CONDITIONING * 2, &pairs);
    put_padded(bytes, MOST_SERVICES, &services);
    put_padded(bytes, MOST_FORMATTING, &formatting);
}

pub fn put_set(bytes: &mut Vec<u8>, number: SetNumber, set: &ActionSet) {
    put_set_number(bytes, number);
    put_content(bytes, set);
}

pub fn put_filter(bytes: &mut Vec<u8>, filter: &Filter) {
    bytes.push(filter.class.byte());
    put_digits(bytes, PREFIX, &filter.prefix);
    bytes.push(filter.length.unwrap_or(0));
}

pub fn put_rule(bytes: &mut Vec<u8>, filter: &Filter, set: SetNumber) {
    put_filter(bytes, filter);
    put_set_number(bytes, set);
}

pub fn put_number(bytes: &mut Vec<u8>, number: &Number) {
    bytes.push(number.class.byte());
    put_digits(bytes, LONGEST_NUMBER, number.digits);
    bytes.push(number.lookup.kind as u8);
    put_digits(bytes, ENTITY, number.lookup.entity);
    put_digits(bytes, SUBSCRIBER_DATA, number.lookup.asd);
    put_digits(bytes, SUBSCRIBER_DATA, number.lookup.grn);
}

pub fn put_price_row(bytes: &mut Vec<u8>, row: &Row) {
    put_digits(bytes, PREFIX, &row.prefix);
    bytes.extend(row.price.to_be_bytes());
}
