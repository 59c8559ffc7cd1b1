//! The domain of document 01: classes, settings, filters, action sets, the
//! group rules and the fit of a rule and a set.  Nothing here knows how
//! anything lies in bytes.

/// Refusal numbers (document 01, 'Refusal numbers', and C-11 of document 02).
#[derive(Clone, Copy, Debug, PartialEq, Eq)]
#[repr(u8)]
pub enum Refusal {
    Cut = 1,
    Kind = 2,
    Plan = 3,
    Room = 4,
    Range = 5,
    Groups = 6,
    Taken = 7,
    Absent = 8,
    Misfit = 9,
    Full = 10,
    InUse = 11,
    Short = 12,
    Long = 13,
    NoPrice = 14,
    LedgerFull = 15,
}

impl Refusal {
    pub fn number(self) -> u8 {
        self as u8
    }
}

/// What a check gives: a value, or the refusal that holds.
pub type Checked<T> = Result<T, Refusal>;

/// `Ok` if `holds`, else the refusal.
pub fn demand(holds: bool, otherwise: Refusal) -> Checked<()> {
    if holds {
        Ok(())
    } else {
        Err(otherwise)
    }
}

// ---------------------------------------------------------------------------
// Digits, classes, settings

pub const HIGHEST_DIGIT: u8 = 15;
pub const LONGEST_NUMBER: usize = 32;
/// A country code of 3 digits before a number of 32.
pub const LONGEST_CONDITIONED: usize = 35;

/// The class of a number: INTL, NATL, UNKNOWN or one of three house classes.
#[derive(Clone, Copy, Debug, PartialEq, Eq, PartialOrd, Ord)]
pub struct Class(u8);

impl Class {
    pub const INTL: Class = Class(0);
    pub const NATL: Class = Class(1);
    pub const UNKNOWN: Class = Class(2);
    pub const HOUSE_3: Class = Class(3);
    pub const HOUSE_4: Class = Class(4);
    pub const HOUSE_5: Class = Class(5);

    pub fn from_byte(byte: u8) -> Option<Class> {
        (byte <= Class::HOUSE_5.0).then_some(Class(byte))
    }

    pub fn byte(self) -> u8 {
        self.0
    }
}

/// The class that a set answers.
#[derive(Clone, Copy, Debug, PartialEq, Eq)]
pub enum OutgoingClass {
    AsIncoming,
    Stated(Class),
}

impl OutgoingClass {
    const AS_INCOMING: u8 = 255;

    pub fn from_byte(byte: u8) -> Option<OutgoingClass> {
        if byte == OutgoingClass::AS_INCOMING {
            return Some(OutgoingClass::AsIncoming);
        }
        Class::from_byte(byte).map(OutgoingClass::Stated)
    }

    pub fn byte(self) -> u8 {
        match self {
            OutgoingClass::AsIncoming => OutgoingClass::AS_INCOMING,
            OutgoingClass::Stated(class) => class.byte(),
        }
    }

    pub fn answered(self, incoming: Class) -> Class {
        match self {
            OutgoingClass::AsIncoming => incoming,
            OutgoingClass::Stated(class) => class,
        }
    }
}

/// The number of a set.  Never a rule's place in the listing.
#[derive(Clone, Copy, Debug, PartialEq, Eq, PartialOrd, Ord)]
pub struct SetNumber(pub u16);

/// A rule's place in the listing.  Never the number of a set.
#[derive(Clone, Copy, Debug, PartialEq, Eq, PartialOrd, Ord)]
pub struct RulePlace(pub usize);

/// How many sets and rules a plan can hold, fixed at opening.
#[derive(Clone, Copy, Debug, PartialEq, Eq)]
pub struct Rooms {
    pub sets: u16,
    pub rules: u16,
}

/// INPRTG's answer to a lookup kind.
#[derive(Clone, Copy, Debug, PartialEq, Eq)]
#[repr(u8)]
pub enum Response {
    Relay = 1,
    Connect = 2,
    Continue = 3,
    ReleaseCall = 4,
}

impl Response {
    pub fn from_byte(byte: u8) -> Option<Response> {
        match byte {
            1 => Some(Response::Relay),
            2 => Some(Response::Connect),
            3 => Some(Response::Continue),
            4 => Some(Response::ReleaseCall),
            _ => None,
        }
    }
}

/// The settings, fixed at opening.  An empty DFLTRN is not configured.
#[derive(Clone, Debug, PartialEq, Eq)]
pub struct Settings {
    pub country_code: Vec<u8>,
    pub default_routing: Vec<u8>,
    pub delimiter_a: Vec<u8>,
    pub delimiter_b: Vec<u8>,
    /// In the order of the lookup kinds 0 to 3 (docs/DECISIONS.md).
    pub answers: [Response; 4],
    /// The option that accepts any record (C-12): 0 as before, 1 for success
    /// on kind 1.
    pub accepting: bool,
}

#[derive(Clone, Copy, Debug, PartialEq, Eq)]
#[repr(u8)]
pub enum LookupKind {
    NoRecord = 0,
    NoEntity = 1,
    RoutingNumber = 2,
    ServiceProvider = 3,
}

impl LookupKind {
    pub fn from_byte(byte: u8) -> Option<LookupKind> {
        match byte {
            0 => Some(LookupKind::NoRecord),
            1 => Some(LookupKind::NoEntity),
            2 => Some(LookupKind::RoutingNumber),
            3 => Some(LookupKind::ServiceProvider),
            _ => None,
        }
    }
}

/// The lookup result that stands beside a number.
#[derive(Clone, Copy, Debug, PartialEq, Eq)]
pub struct Lookup<'a> {
    pub kind: LookupKind,
    pub entity: &'a [u8],
    pub asd: &'a [u8],
    pub grn: &'a [u8],
}

/// A called number with its class and its lookup result.
#[derive(Clone, Copy, Debug, PartialEq, Eq)]
pub struct Number<'a> {
    pub class: Class,
    pub digits: &'a [u8],
    pub lookup: Lookup<'a>,
}

// ---------------------------------------------------------------------------
// Filters and the choice

/// A filter.  An empty prefix and an absent length are wildcards.
#[derive(Clone, Debug, PartialEq, Eq)]
pub struct Filter {
    pub class: Class,
    pub prefix: Vec<u8>,
    pub length: Option<u8>,
}

impl Filter {
    pub fn fits(&self, class: Class, digits: &[u8]) -> bool {
        self.class == class
            && self
                .length
                .is_none_or(|length| usize::from(length) == digits.len())
            && digits.starts_with(&self.prefix)
    }

    /// The longest prefix wins; for the same prefix a stated length does.
    /// Two filters that fit one number and weigh the same are one filter.
    pub fn weight(&self) -> (usize, bool) {
        (self.prefix.len(), self.length.is_some())
    }

    /// Stated lengths rising, the wildcard last.
    fn length_order(&self) -> u8 {
        self.length.unwrap_or(u8::MAX)
    }
}

/// Listing order: class, then prefix as digits with the shorter first where
/// one begins the other (the order of byte vectors), then length.
impl Ord for Filter {
    fn cmp(&self, other: &Filter) -> std::cmp::Ordering {
        let by_class = self.class.cmp(&other.class);
        let by_prefix = || self.prefix.cmp(&other.prefix);
        let by_length = || self.length_order().cmp(&other.length_order());
        by_class.then_with(by_prefix).then_with(by_length)
    }
}

impl PartialOrd for Filter {
    fn partial_cmp(&self, other: &Filter) -> Option<std::cmp::Ordering> {
        Some(self.cmp(other))
    }
}

/// The most specific of the filters that fit, if any does.
pub fn choose<'a>(
    rules: impl Iterator<Item = (&'a Filter, SetNumber)>,
    class: Class,
    digits: &[u8],
) -> Option<(&'a Filter, SetNumber)> {
    rules
        .filter(|(filter, _)| filter.fits(class, digits))
        .max_by_key(|(filter, _)| filter.weight())
}

// ---------------------------------------------------------------------------
// Action sets

/// A value that conditioning sets.  Its number is its FA code.
#[derive(Clone, Copy, Debug, PartialEq, Eq)]
#[repr(u8)]
pub enum Value {
    Cc = 1,
    Ac = 2,
    Sn = 3,
    Dn = 4,
    Zn = 5,
    Fpfx = 6,
    PfxA = 7,
    PfxB = 8,
    PfxC = 9,
    PfxD = 10,
}

impl Value {
    pub const ALL: [Value; 10] = [
        Value::Cc,
        Value::Ac,
        Value::Sn,
        Value::Dn,
        Value::Zn,
        Value::Fpfx,
        Value::PfxA,
        Value::PfxB,
        Value::PfxC,
        Value::PfxD,
    ];

    pub fn from_code(code: u8) -> Option<Value> {
        let place = usize::from(code).checked_sub(1)?;
        Value::ALL.get(place).copied()
    }

    /// From 0, for tables with a place for each value.
    pub fn index(self) -> usize {
        self as usize - 1
    }
}

/// A conditioning action (CA).
#[derive(Clone, Copy, Debug, PartialEq, Eq)]
pub enum Conditioning {
    /// IGN
    Ignore(u8),
    /// CC, AC, SN, DN, ZN, PFXA to PFXD with their count
    Take(Value, u8),
    /// SNX, DNX, ZNX
    TakeRest(Value),
    /// FPFX
    TakePrefix,
    /// CCDEF
    DefaultCountry,
}

impl Conditioning {
    /// Codes and counts of document 01, 'Action sets'.
    pub fn from_code(code: u8, count: u8) -> Option<Conditioning> {
        let (action, counts) = match code {
            1 => (Conditioning::Ignore(count), 1..=16),
            2 => (Conditioning::Take(Value::Cc, count), 1..=3),
            3 => (Conditioning::Take(Value::Ac, count), 1..=8),
            4 => (Conditioning::Take(Value::Sn, count), 1..=15),
            5 => (Conditioning::Take(Value::Dn, count), 1..=15),
            6 => (Conditioning::Take(Value::Zn, count), 1..=15),
            7 => (Conditioning::Take(Value::PfxA, count), 1..=8),
            8 => (Conditioning::Take(Value::PfxB, count), 1..=8),
            9 => (Conditioning::Take(Value::PfxC, count), 1..=8),
            10 => (Conditioning::Take(Value::PfxD, count), 1..=8),
            11 => (Conditioning::TakeRest(Value::Sn), 0..=0),
            12 => (Conditioning::TakeRest(Value::Dn), 0..=0),
            13 => (Conditioning::TakeRest(Value::Zn), 0..=0),
            14 => (Conditioning::TakePrefix, 0..=0),
            15 => (Conditioning::DefaultCountry, 0..=0),
            _ => return None,
        };
        counts.contains(&count).then_some(action)
    }

    /// The code and the count.
    pub fn code(self) -> (u8, u8) {
        match self {
            Conditioning::Ignore(count) => (1, count),
            Conditioning::Take(value, count) => (Conditioning::fixed_code(value), count),
            Conditioning::TakeRest(Value::Sn) => (11, 0),
            Conditioning::TakeRest(Value::Dn) => (12, 0),
            Conditioning::TakeRest(_) => (13, 0),
            Conditioning::TakePrefix => (14, 0),
            Conditioning::DefaultCountry => (15, 0),
        }
    }

    /// FA codes and CA codes are two tables.
    fn fixed_code(value: Value) -> u8 {
        match value {
            Value::Cc => 2,
            Value::Ac => 3,
            Value::Sn => 4,
            Value::Dn => 5,
            Value::Zn => 6,
            Value::PfxA => 7,
            Value::PfxB => 8,
            Value::PfxC => 9,
            Value::PfxD => 10,
            Value::Fpfx => 14,
        }
    }

    /// The value that this action sets; IGN sets none.
    pub fn value(self) -> Option<Value> {
        match self {
            Conditioning::Ignore(_) => None,
            Conditioning::Take(value, _) | Conditioning::TakeRest(value) => Some(value),
            Conditioning::TakePrefix => Some(Value::Fpfx),
            Conditioning::DefaultCountry => Some(Value::Cc),
        }
    }

    /// What this action adds to the sum F.
    fn fixed_digits(self, prefix_length: usize) -> usize {
        match self {
            Conditioning::Ignore(count) | Conditioning::Take(_, count) => usize::from(count),
            Conditioning::TakePrefix => prefix_length,
            Conditioning::TakeRest(_) | Conditioning::DefaultCountry => 0,
        }
    }

    fn takes_rest(self) -> bool {
        matches!(self, Conditioning::TakeRest(_))
    }
}

/// A service action (SA).
#[derive(Clone, Copy, Debug, PartialEq, Eq)]
#[repr(u8)]
pub enum Service {
    Inprtg = 1,
    Cdpnnp = 2,
    Asdlkup = 3,
    Grnlkup = 4,
    Cdial = 5,
}

impl Service {
    pub fn from_code(code: u8) -> Option<Service> {
        match code {
            1 => Some(Service::Inprtg),
            2 => Some(Service::Cdpnnp),
            3 => Some(Service::Asdlkup),
            4 => Some(Service::Grnlkup),
            5 => Some(Service::Cdial),
            _ => None,
        }
    }

    pub fn code(self) -> u8 {
        self as u8
    }

    fn precedence(self) -> u8 {
        match self {
            Service::Inprtg => 95,
            Service::Cdpnnp => 80,
            Service::Asdlkup | Service::Grnlkup => 50,
            Service::Cdial => 20,
        }
    }
}

/// A formatting action (FA).
#[derive(Clone, Copy, Debug, PartialEq, Eq)]
pub enum Formatting {
    Conditioned(Value),
    Rn,
    Sp,
    Asd,
    Grn,
    DelimiterA,
    DelimiterB,
}

impl Formatting {
    pub fn from_code(code: u8) -> Option<Formatting> {
        match code {
            11 => Some(Formatting::Rn),
            12 => Some(Formatting::Sp),
            13 => Some(Formatting::Asd),
            14 => Some(Formatting::Grn),
            15 => Some(Formatting::DelimiterA),
            16 => Some(Formatting::DelimiterB),
            _ => Value::from_code(code).map(Formatting::Conditioned),
        }
    }

    pub fn code(self) -> u8 {
        match self {
            Formatting::Conditioned(value) => value as u8,
            Formatting::Rn => 11,
            Formatting::Sp => 12,
            Formatting::Asd => 13,
            Formatting::Grn => 14,
            Formatting::DelimiterA => 15,
            Formatting::DelimiterB => 16,
        }
    }
}

pub const MOST_CONDITIONING: usize = 12;
pub const MOST_SERVICES: usize = 8;
pub const MOST_FORMATTING: usize = 12;

#[derive(Clone, Debug, PartialEq, Eq)]
pub struct ActionSet {
    pub class: OutgoingClass,
    pub conditioning: Vec<Conditioning>,
    pub services: Vec<Service>,
    pub formatting: Vec<Formatting>,
}

impl ActionSet {
    /// With no CA a number escapes.
    pub fn escapes(&self) -> bool {
        self.conditioning.is_empty()
    }

    pub fn sets(&self, value: Value) -> bool {
        self.conditioning
            .iter()
            .any(|action| action.value() == Some(value))
    }

    /// The group rules of document 01, 'Action sets'.
    pub fn keeps_group_rules(&self) -> bool {
        if self.escapes() {
            return self.services.is_empty() && self.formatting.is_empty();
        }
        self.has_one_international_format()
            && self.sets_no_value_twice()
            && self.takes_the_prefix_first()
            && self.takes_the_rest_last()
            && self.services_keep_precedence()
            && self.formatting.iter().all(|&action| self.provides(action))
    }

    fn has_one_international_format(&self) -> bool {
        let [cc, ac, sn, dn, zn] =
            [Value::Cc, Value::Ac, Value::Sn, Value::Dn, Value::Zn].map(|value| self.sets(value));
        let whole = zn && !cc && !ac && !sn && !dn;
        let directory = cc && dn && !zn && !ac && !sn;
        let area = cc && ac && sn && !zn && !dn;
        whole || directory || area
    }

    fn sets_no_value_twice(&self) -> bool {
        Value::ALL.iter().all(|&value| {
            let setters = self
                .conditioning
                .iter()
                .filter(|action| action.value() == Some(value));
            setters.count() <= 1
        })
    }

    fn takes_the_prefix_first(&self) -> bool {
        !self.conditioning[1..].contains(&Conditioning::TakePrefix)
    }

    /// At most one X action; after it only CCDEF.
    fn takes_the_rest_last(&self) -> bool {
        let mut behind = self
            .conditioning
            .iter()
            .skip_while(|action| !action.takes_rest())
            .skip(1);
        behind.all(|&action| action == Conditioning::DefaultCountry)
    }

    fn services_keep_precedence(&self) -> bool {
        let falling = self
            .services
            .windows(2)
            .all(|pair| pair[0].precedence() >= pair[1].precedence());
        let repeats = |place: usize| self.services[..place].contains(&self.services[place]);
        falling && !(0..self.services.len()).any(repeats)
    }

    /// Whether something in the set can give this formatting action a value.
    fn provides(&self, action: Formatting) -> bool {
        match action {
            Formatting::Conditioned(value) => self.sets(value),
            Formatting::Rn | Formatting::Sp => self.services.contains(&Service::Cdpnnp),
            Formatting::Asd => self.services.contains(&Service::Asdlkup),
            Formatting::Grn => self.services.contains(&Service::Grnlkup),
            Formatting::DelimiterA | Formatting::DelimiterB => true,
        }
    }

    pub fn takes_rest(&self) -> bool {
        self.conditioning.iter().any(|action| action.takes_rest())
    }

    /// The sum F of document 01.
    pub fn fixed_digits(&self, prefix_length: usize) -> usize {
        self.conditioning
            .iter()
            .map(|action| action.fixed_digits(prefix_length))
            .sum()
    }

    /// Whether a rule with this filter and this set fit.
    pub fn fits(&self, filter: &Filter) -> bool {
        if self.escapes() {
            return true;
        }
        if self.sets(Value::Fpfx) && filter.prefix.is_empty() {
            return false;
        }
        let fixed = self.fixed_digits(filter.prefix.len());
        match (filter.length.map(usize::from), self.takes_rest()) {
            (Some(length), false) => fixed == length,
            (Some(length), true) => fixed < length,
            (None, false) => false,
            (None, true) => fixed < LONGEST_NUMBER,
        }
    }
}
