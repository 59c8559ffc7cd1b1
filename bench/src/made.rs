//! Plans, numbers, price lists and call records much like an operator's, always
//! the same: sets of eight kinds, prefixes that begin each other, numbers that
//! mostly meet a rule.

use crate::random::Random;
use npp_reference::bodies::{self, Kind};
use npp_reference::ledger::DISTRICTS;
use npp_reference::plan::Plan;
use npp_reference::prices::{Prices, Row};
use npp_reference::rules::*;

const SEED: u64 = 1;
const LONGEST_PREFIX: usize = 8;
/// Numbers whose length is not stated have 8 to 15 digits.
const USUAL_LENGTH: (usize, usize) = (8, 15);
const FROM_A_RULE: usize = 92;

pub struct Made {
    random: Random,
    pub plan: Plan,
    /// In the order in which they were added.
    pub rules: Vec<(Filter, SetNumber)>,
    /// How many of a hundred numbers begin as some rule asks.
    from_a_rule: usize,
}

impl Made {
    /// A plan of these rooms that holds so many sets and rules.
    pub fn of(rooms: Rooms, sets: u16, rules: usize) -> Made {
        let mut random = Random::of(SEED, "bench", rules);
        let mut body = Vec::new();
        bodies::put_opening(&mut body, rooms, &settings());
        let mut plan = Plan::open(&body).expect("rooms in range");
        for number in 0..sets {
            let body = set_body(number, &set(&mut random, usize::from(number)));
            plan.add_set(&body).expect("a set that keeps the rules");
        }
        let mut made = Made {
            random,
            plan,
            rules: Vec::new(),
            from_a_rule: FROM_A_RULE,
        };
        while made.rules.len() < rules {
            made.try_rule();
        }
        made
    }

    pub fn full(sets: u16, rules: u16) -> Made {
        Made::of(Rooms { sets, rules }, sets, usize::from(rules))
    }

    /// A plan of so many sets, with one rule for each class that the numbers
    /// have; it fits any number of that class.
    pub fn any(sets: u16) -> Made {
        Made::fitting(sets, &[Class::INTL, Class::NATL, Class::UNKNOWN])
    }

    /// A plan of so many sets with one rule, and numbers that all meet it: what
    /// is chosen is always the same.
    pub fn same(sets: u16) -> Made {
        let mut made = Made::fitting(sets, &[Class::NATL]);
        made.from_a_rule = 100;
        made
    }

    /// For each of these classes a rule that fits any number of it.
    fn fitting(sets: u16, classes: &[Class]) -> Made {
        let rules = classes.len() as u16;
        let mut made = Made::of(Rooms { sets, rules }, sets, 0);
        for &class in classes {
            while made.rules.iter().all(|(filter, _)| filter.class != class) {
                let filter = Filter {
                    class,
                    prefix: Vec::new(),
                    length: None,
                };
                let number = SetNumber(made.random.below(usize::from(sets)) as u16);
                made.add(filter, number);
            }
        }
        made
    }

    /// A rule that is there already, or does not fit, is not added.
    fn try_rule(&mut self) {
        let number = SetNumber(self.random.below(self.plan.sets.len()) as u16);
        let filter = self.filter(number);
        self.add(filter, number);
    }

    fn add(&mut self, filter: Filter, number: SetNumber) {
        if self.plan.add_rule(&rule_body(&filter, number)).is_ok() {
            self.rules.push((filter, number));
        }
    }

    fn filter(&mut self, number: SetNumber) -> Filter {
        let prefix = self.prefix();
        let set = &self.plan.sets[&number];
        let fixed = set.fixed_digits(prefix.len());
        let stated = match set.takes_rest() || set.escapes() {
            true => self.random.percent(30).then(|| self.random.between(10, 13)),
            false => Some(fixed),
        };
        Filter {
            class: class(&mut self.random),
            prefix,
            length: stated.map(|length| length as u8),
        }
    }

    /// Every second prefix goes on where another one ends.
    fn prefix(&mut self) -> Vec<u8> {
        let mut prefix = match self.rules.is_empty() || self.random.percent(50) {
            true => Vec::new(),
            false => self.random.pick(&self.rules).0.prefix,
        };
        let more = self.random.between(1, 4);
        prefix.extend(digits(&mut self.random, more));
        prefix.truncate(LONGEST_PREFIX);
        prefix
    }

    // -- numbers ------------------------------------------------------------

    /// The body of a next number.
    pub fn number(&mut self) -> Vec<u8> {
        let (class, called) = match self.random.percent(self.from_a_rule) {
            true => self.number_of_a_rule(),
            false => self.any_number(),
        };
        let kind = self.random.weighted(&[(3, 0), (2, 1), (4, 2), (1, 3)]);
        let kind = LookupKind::from_byte(kind).expect("a lookup kind");
        let entity = match kind {
            LookupKind::NoRecord | LookupKind::NoEntity => Vec::new(),
            LookupKind::RoutingNumber | LookupKind::ServiceProvider => self.some_digits(4, 10),
        };
        let (asd, grn) = match kind {
            LookupKind::NoRecord => (Vec::new(), Vec::new()),
            _ => (self.some_digits(0, 4), self.some_digits(0, 4)),
        };
        let mut body = Vec::new();
        let lookup = Lookup {
            kind,
            entity: &entity,
            asd: &asd,
            grn: &grn,
        };
        let number = Number {
            class,
            digits: &called,
            lookup,
        };
        bodies::put_number(&mut body, &number);
        body
    }

    fn number_of_a_rule(&mut self) -> (Class, Vec<u8>) {
        let (filter, set) = self.random.pick(&self.rules);
        let fixed = self.plan.sets[&set].fixed_digits(filter.prefix.len());
        let (low, high) = USUAL_LENGTH;
        let count = match filter.length {
            Some(length) => usize::from(length),
            None => self.random.between(low.max(fixed + 1).min(high), high),
        };
        let mut called = filter.prefix;
        let missing = count.saturating_sub(called.len());
        called.extend(digits(&mut self.random, missing));
        (filter.class, called)
    }

    fn any_number(&mut self) -> (Class, Vec<u8>) {
        let (low, high) = USUAL_LENGTH;
        (class(&mut self.random), self.some_digits(low, high))
    }

    fn some_digits(&mut self, low: usize, high: usize) -> Vec<u8> {
        let count = self.random.between(low, high);
        digits(&mut self.random, count)
    }

    pub fn numbers(&mut self, count: usize) -> Vec<Vec<u8>> {
        (0..count).map(|_| self.number()).collect()
    }

    // -- call records -------------------------------------------------------

    /// A price list with so many rows: the empty prefix, so that every call is
    /// priced, and the beginnings of digits that calls are priced on.
    pub fn prices(&mut self, rows: usize) -> Prices {
        let mut prices = Prices::default();
        prices.rows.insert(Vec::new(), 1_000);
        while prices.rows.len() < rows {
            let digits = self.priced_digits();
            let length = self.random.between(1, LONGEST_PREFIX).min(digits.len());
            let price = self.random.between(0, 5_000) as u32;
            prices.rows.insert(digits[..length].to_vec(), price);
        }
        prices
    }

    /// What a next number is priced on.
    fn priced_digits(&mut self) -> Vec<u8> {
        let body = self.number();
        match self.plan.answer(&body) {
            Ok(answer) if !answer.digits.is_empty() => answer.digits,
            _ => bodies::number(&body).expect("in range").digits.to_vec(),
        }
    }

    /// The body of a next call record: up to half an hour, billed at about the
    /// price of most calls.
    pub fn call(&mut self) -> Vec<u8> {
        let number = self.number();
        let account = self.random.between(1, 100_000) as u32;
        let district = self.random.below(DISTRICTS) as u16;
        let seconds = self.random.between(1, 1_800) as u32;
        let billed = seconds * 1_000 / 60 + self.random.between(0, 500) as u32;
        let mut body = account.to_be_bytes().to_vec();
        body.extend(district.to_be_bytes());
        body.extend(seconds.to_be_bytes());
        body.extend(billed.to_be_bytes());
        body.extend(number);
        body
    }

    pub fn calls(&mut self, count: usize) -> Vec<Vec<u8>> {
        (0..count).map(|_| self.call()).collect()
    }

    // -- records ------------------------------------------------------------

    /// The house records that make the plan.
    pub fn records(&self) -> Vec<u8> {
        let mut bytes = vec![Kind::Open.byte()];
        bodies::put_opening(&mut bytes, self.plan.rooms, &self.plan.settings);
        for (number, set) in &self.plan.sets {
            bytes.push(Kind::AddSet.byte());
            bodies::put_set(&mut bytes, *number, set);
        }
        for (filter, number) in &self.rules {
            bytes.push(Kind::AddRule.byte());
            bodies::put_rule(&mut bytes, filter, *number);
        }
        bytes
    }
}

fn settings() -> Settings {
    Settings {
        country_code: vec![4, 3],
        default_routing: vec![9, 0, 0, 1],
        delimiter_a: vec![13],
        delimiter_b: vec![14],
        answers: [
            Response::Relay,
            Response::Relay,
            Response::Relay,
            Response::Connect,
        ],
        accepting: false,
    }
}

/// National numbers come most.
fn class(random: &mut Random) -> Class {
    random.weighted(&[(5, Class::NATL), (3, Class::INTL), (2, Class::UNKNOWN)])
}

fn digits(random: &mut Random, count: usize) -> Vec<u8> {
    (0..count).map(|_| random.below(10) as u8).collect()
}

/// A set of one of eight kinds; every sixteenth has no action.
pub fn set(random: &mut Random, place: usize) -> ActionSet {
    let mut set = ActionSet {
        class: random.pick(&[
            OutgoingClass::AsIncoming,
            OutgoingClass::Stated(Class::NATL),
        ]),
        conditioning: Vec::new(),
        services: Vec::new(),
        formatting: Vec::new(),
    };
    if place % 16 != 15 {
        set.conditioning = conditioning(place % 8);
        set.services = services(random);
        set.formatting = formatting(&set);
    }
    set
}

fn conditioning(kind: usize) -> Vec<Conditioning> {
    use Conditioning::*;
    match kind {
        0 => vec![TakeRest(Value::Zn)],
        1 => vec![Ignore(1), TakeRest(Value::Zn)],
        2 => vec![DefaultCountry, TakeRest(Value::Dn)],
        3 => vec![DefaultCountry, Take(Value::Ac, 3), TakeRest(Value::Sn)],
        4 => vec![Take(Value::Cc, 2), TakeRest(Value::Dn)],
        5 => vec![TakePrefix, DefaultCountry, TakeRest(Value::Dn)],
        6 => vec![DefaultCountry, Take(Value::Ac, 3), Take(Value::Sn, 7)],
        _ => vec![Take(Value::PfxA, 2), Ignore(1), TakeRest(Value::Zn)],
    }
}

fn services(random: &mut Random) -> Vec<Service> {
    let chances = [
        (15, Service::Inprtg),
        (70, Service::Cdpnnp),
        (30, Service::Asdlkup),
        (30, Service::Grnlkup),
        (10, Service::Cdial),
    ];
    let taken = chances.iter().filter(|(chance, _)| random.percent(*chance));
    taken.map(|&(_, service)| service).collect()
}

/// What the lookups give, before the number itself.
fn formatting(set: &ActionSet) -> Vec<Formatting> {
    let mut actions = Vec::new();
    for service in &set.services {
        match service {
            Service::Cdpnnp => actions.extend([Formatting::DelimiterA, Formatting::Rn]),
            Service::Asdlkup => actions.push(Formatting::Asd),
            Service::Grnlkup => actions.push(Formatting::Grn),
            Service::Inprtg | Service::Cdial => {}
        }
    }
    let parts = [Value::Zn, Value::Cc, Value::Ac, Value::Dn, Value::Sn];
    let parts = parts.iter().filter(|&&value| set.sets(value));
    actions.extend(parts.map(|&value| Formatting::Conditioned(value)));
    actions
}

/// The house records that make a price list.
pub fn price_records(prices: &Prices) -> Vec<u8> {
    let mut bytes = Vec::new();
    for (prefix, &price) in &prices.rows {
        let prefix = prefix.clone();
        bytes.push(Kind::Price.byte());
        bodies::put_price_row(&mut bytes, &Row { prefix, price });
    }
    bytes
}

// ---------------------------------------------------------------------------
// Bodies

pub fn set_body(number: u16, set: &ActionSet) -> Vec<u8> {
    let mut body = Vec::new();
    bodies::put_set(&mut body, SetNumber(number), set);
    body
}

pub fn rule_body(filter: &Filter, number: SetNumber) -> Vec<u8> {
    let mut body = Vec::new();
    bodies::put_rule(&mut body, filter, number);
    body
}
