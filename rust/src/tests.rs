//! The tests of the wrappers. They show that the wrappers and the header pass on what the library
//! gives; what it gives is proved, and is held against the second implementation in agreement/.

mod charging;
mod command;
mod content;
mod differences;
mod header;
mod lent;
mod records;
mod refused;
mod refused_calls;
mod results;

use crate::bodies::{self, record, Lookup, Settings};
use crate::{ca, digits_of, fa, sa, Class, Plan, Response, SetNumber};

/// Digits that are digits.
fn digits(text: &str) -> Vec<u8> {
    digits_of(text).expect("digits")
}

/// An opening with country code 55.
fn open55(sets: u16, rules: u16) -> Vec<u8> {
    let body = bodies::open(sets, rules, &Settings::of_country(&[5, 5]));
    body.expect("fits").to_vec()
}

/// The same, accepting any record (C-12).
fn accepting55(sets: u16, rules: u16) -> Vec<u8> {
    let mut body = open55(sets, rules);
    body[bodies::OPEN_ACCEPTING] = 1;
    body
}

/// A set to add or replace.
fn set(
    number: u16,
    class: Option<Class>,
    conditioning: &[(u8, u8)],
    services: &[u8],
    formatting: &[u8],
) -> Vec<u8> {
    let body = bodies::set(SetNumber(number), class, conditioning, services, formatting);
    body.expect("fits").to_vec()
}

/// Document 01's S1 with a list of service actions.
fn s1_with(number: u16, services: &[u8]) -> Vec<u8> {
    let conditioning = [(ca::DNX, 0), (ca::CCDEF, 0)];
    set(number, None, &conditioning, services, &[fa::RN, fa::DN])
}

/// Document 01's S1.
fn s1(number: u16) -> Vec<u8> {
    s1_with(number, &[sa::CDPNNP])
}

/// Document 01's S2.
fn s2(number: u16) -> Vec<u8> {
    let conditioning = [
        (ca::IGN, 1),
        (ca::AC, 2),
        (ca::PFXA, 4),
        (ca::SNX, 0),
        (ca::CCDEF, 0),
    ];
    let formatting = [fa::PFXA, fa::RN, fa::AC, fa::SN];
    let services = [sa::CDPNNP, sa::CDIAL];
    set(
        number,
        Some(Class::NATL),
        &conditioning,
        &services,
        &formatting,
    )
}

/// A rule to add or change.
fn rule(class: Class, prefix: &str, length: u8, set: u16) -> Vec<u8> {
    let body = bodies::rule(class, &digits(prefix), length, SetNumber(set));
    body.expect("fits").to_vec()
}

/// A rule to remove.
fn filter(class: Class, prefix: &str, length: u8) -> Vec<u8> {
    let body = bodies::filter(class, &digits(prefix), length);
    body.expect("fits").to_vec()
}

/// A number with its lookup.
fn number(class: Class, text: &str, lookup: &Lookup) -> Vec<u8> {
    let body = bodies::number(class, &digits(text), lookup);
    body.expect("fits").to_vec()
}

/// A house record.
fn with_kind(kind: u8, body: &[u8]) -> Vec<u8> {
    [&[kind], body].concat()
}

/// A plan of 8 sets and 8 rules, with sets and rules.
fn plan_with(opening: &[u8], sets: &[Vec<u8>], rules: &[Vec<u8>]) -> Plan {
    let mut plan = Plan::new(8, 8);
    assert_eq!(plan.open(opening), Ok(()));
    for body in sets {
        assert_eq!(plan.add_set(body), Ok(()));
    }
    for body in rules {
        assert_eq!(plan.add_rule(body), Ok(()));
    }
    plan
}

/// Document 01's `N`.
const N: &str = "b33909087654321";

/// INPRTG's answers, one for each lookup kind.
const RELEASE_WITHOUT_RECORD: [Response; 4] = [
    Response::ReleaseCall,
    Response::Relay,
    Response::Relay,
    Response::Relay,
];

/// The kinds of the seven provisioning calls.
const PROVISIONING: [u8; 7] = [
    record::OPEN,
    record::ADD_SET,
    record::REPLACE_SET,
    record::REMOVE_SET,
    record::ADD_RULE,
    record::CHANGE_RULE,
    record::REMOVE_RULE,
];
