//! Two plans side by side (C-20): each sort of difference, what is none, the buffer, and what is refused;
//! and any plans held against their listings and the contents of their sets.

use super::lent::Random;
use super::*;
use crate::{Refusal, Side, CONTENT_BUFFER_BYTES, DIFFERENCE_BYTES, NO_SET};
use std::collections::BTreeMap;

/// A plan of 8 sets and 8 rules.
fn plan(sets: &[Vec<u8>], rules: &[Vec<u8>]) -> Plan {
    plan_with(&open55(8, 8), sets, rules)
}

/// The differences as text.
fn texts(left: &Plan, right: &Plan) -> Vec<String> {
    let mut out = [0; 16 * DIFFERENCE_BYTES];
    let differences = left.compare(right, &mut out).expect("two sound plans");
    differences.map(|one| one.to_string()).collect()
}

/// Each sort of difference, in both orders of the plans.
#[test]
fn sorts() {
    let left = plan(
        &[s1(0), s2(4)],
        &[
            rule(Class::NATL, "7", 8, 0),
            rule(Class::NATL, "21", 8, 0),
            rule(Class::UNKNOWN, "b", 0, 4),
        ],
    );
    let right = plan(
        &[s1(0), s1_with(6, &[sa::INPRTG, sa::CDPNNP]), s2(4)],
        &[
            rule(Class::NATL, "7", 8, 6),
            rule(Class::NATL, "-", 0, 0),
            rule(Class::UNKNOWN, "b", 0, 4),
        ],
    );
    let there = [
        "right only: NATL */*, set 0",
        "left only: NATL 21/8, set 0",
        "both: NATL 7/8, left set 0, right set 6",
    ];
    assert_eq!(texts(&left, &right), there);
    let back = [
        "left only: NATL */*, set 0",
        "right only: NATL 21/8, set 0",
        "both: NATL 7/8, left set 6, right set 0",
    ];
    assert_eq!(texts(&right, &left), back);

    let mut out = [9; 3 * DIFFERENCE_BYTES + 5];
    let mut differences = left.compare(&right, &mut out).expect("two sound plans");
    assert_eq!(
        (differences.len(), differences.size_hint()),
        (3, (3, Some(3)))
    );
    let any = differences.next().expect("a difference");
    assert_eq!(any.side, Side::RightOnly);
    assert_eq!((any.class, any.length), (Class::NATL, None));
    assert_eq!(any.prefix(), []);
    assert_eq!((any.left, any.right), (None, Some(SetNumber(0))));
    assert_eq!(differences.len(), 2);
    let gone = differences.next().expect("a difference");
    assert_eq!((gone.left, gone.right), (Some(SetNumber(0)), None));
    assert_eq!((gone.prefix(), gone.length), (&[2, 1][..], Some(8)));
    let moved = differences.next().expect("a difference");
    assert_eq!(moved.side, Side::Both);
    let sets = (Some(SetNumber(0)), Some(SetNumber(6)));
    assert_eq!((moved.left, moved.right), sets);
    assert_eq!((differences.next(), differences.len()), (None, 0));

    // The entries, byte for byte; what is behind them stays.
    let entry = |side: Side, filter: Vec<u8>, left: u16, right: u16| {
        let sets = [left.to_be_bytes(), right.to_be_bytes()].concat();
        [vec![side.byte()], filter, sets].concat()
    };
    let entries = [
        entry(Side::RightOnly, filter(Class::NATL, "-", 0), NO_SET, 0),
        entry(Side::LeftOnly, filter(Class::NATL, "21", 8), 0, NO_SET),
        entry(Side::Both, filter(Class::NATL, "7", 8), 0, 6),
        vec![9; 5],
    ];
    assert_eq!(out[..], entries.concat());
}

/// A set of one number with another content is a difference, whichever byte of it is another.
#[test]
fn contents() {
    let any = [rule(Class::NATL, "-", 0, 3)];
    let left = plan(&[s2(3)], &any);
    let (class, conditioning) = (
        Some(Class::NATL),
        [(ca::IGN, 1), (ca::DNX, 0), (ca::CCDEF, 0)],
    );
    let content = |class, services: &[u8], formatting: &[u8]| {
        let body = set(3, class, &conditioning, services, formatting);
        plan(&[body], &any)
    };
    let one = content(class, &[sa::CDPNNP], &[fa::RN]);
    for other in [
        left,
        content(None, &[sa::CDPNNP], &[fa::RN]),
        content(class, &[sa::CDPNNP, sa::CDIAL], &[fa::RN]),
        content(class, &[sa::CDPNNP], &[fa::SP]),
        content(class, &[sa::CDPNNP], &[]),
    ] {
        let told = ["both: NATL */*, left set 3, right set 3"];
        assert_eq!(texts(&one, &other), told);
        assert_eq!(texts(&other, &one), told);
    }
}

/// Numbers of sets, sets that no rule names, settings and rooms are no difference; nor is a plan to itself.
#[test]
fn none() {
    let rules = |set| {
        [
            rule(Class::NATL, "1", 0, set),
            rule(Class::INTL, "-", 0, set),
        ]
    };
    let left = plan(&[s1(0)], &rules(0));
    let mut right = Plan::new(16, 9);
    let settings = Settings {
        dfltrn: &[9],
        delimiter_a: &[11],
        answers: RELEASE_WITHOUT_RECORD,
        accepting: true,
        ..Settings::of_country(&[4, 4])
    };
    let opening = bodies::open(16, 9, &settings).expect("fits");
    right.open(&opening).expect("accepted");
    for body in [s1(15), s2(0), s1(3)] {
        right.add_set(&body).expect("accepted");
    }
    for body in rules(15) {
        right.add_rule(&body).expect("accepted");
    }
    let empty = plan(&[s1(0)], &[]);
    for (left, right) in [
        (&left, &right),
        (&right, &left),
        (&left, &left),
        (&right, &right.clone()),
        (&empty, &plan(&[], &[])),
    ] {
        // With no difference any buffer will do, and it stays.
        let mut out = [9; 30];
        for length in [0, 1, 23, 24, 30] {
            let differences = left.compare(right, &mut out[..length]);
            assert_eq!(differences.map(|none| none.len()), Ok(0));
        }
        assert_eq!(out, [9; 30]);
    }
    // A plan with rules against one without.
    assert_eq!(texts(&left, &empty).len(), 2);
    assert_eq!(texts(&empty, &left).len(), 2);
}

/// PLAN of either before ROOM, which is by the byte; a refused call writes nothing.
#[test]
fn refusals() {
    let rules: Vec<Vec<u8>> = (1..=8).map(|n| rule(Class::NATL, "-", n, 0)).collect();
    let (left, right) = (plan(&[s1(0)], &rules), plan(&[], &[]));
    let all = 8 * DIFFERENCE_BYTES;
    let mut out = vec![9; all];
    for length in [0, 1, DIFFERENCE_BYTES, all - DIFFERENCE_BYTES, all - 1] {
        for (left, right) in [(&left, &right), (&right, &left)] {
            let compared = left.compare(right, &mut out[..length]);
            assert_eq!(compared.map(|some| some.len()), Err(Refusal::Room));
        }
    }
    let unsound = Plan::new(8, 8);
    let short = Plan::over(left.memory()[..left.memory().len() - 1].to_vec());
    for other in [&unsound, &short, &Plan::over(Vec::new())] {
        for (left, right) in [(&left, other), (other, &left), (other, other)] {
            for length in [0, all] {
                let compared = left.compare(right, &mut out[..length]);
                assert_eq!(compared.map(|some| some.len()), Err(Refusal::Plan));
            }
        }
    }
    assert_eq!(out, vec![9; all]);
    let compared = left.compare(&right, &mut out).map(|some| some.len());
    assert_eq!(compared, Ok(8));
}

/// Any plan of a few sets and filters, so that two have many in common.
fn any_plan(random: &mut Random) -> Plan {
    let mut plan = plan(&[], &[]);
    for number in 0..8 {
        let with_cdial = s1_with(number, &[sa::CDPNNP, sa::CDIAL]);
        let escape = set(number, None, &[], &[], &[]);
        let content = random.pick(&[s1(number), s2(number), with_cdial, escape]);
        if random.below(4) != 0 {
            plan.add_set(&content).expect("accepted");
        }
    }
    for _ in 0..random.below(12) {
        let class = random.pick(&[Class::NATL, Class::UNKNOWN]);
        let (prefix, length) = random.pick(&[("-", 0), ("-", 12), ("b", 0), ("b3", 0), ("b3", 15)]);
        // What is taken, absent or unfit is left out.
        let _ = plan.add_rule(&rule(class, prefix, length, random.below(8) as u16));
    }
    plan
}

/// A filter, so that filters are in listing order: a wildcard length is behind every stated one.
type Key = (Class, Vec<u8>, u8);
/// The sets that the rules of two plans name.
type Sets = (Option<SetNumber>, Option<SetNumber>);

fn key(class: Class, prefix: &[u8], length: Option<u8>) -> Key {
    (class, prefix.to_vec(), length.unwrap_or(33))
}

/// What two plans differ in, from their listings and the contents of their sets.
fn told_apart(left: &Plan, right: &Plan) -> Vec<(Key, Sets)> {
    let mut held: BTreeMap<Key, Sets> = BTreeMap::new();
    for rule in left.rules().expect("sound") {
        let key = key(rule.class, rule.prefix(), rule.length);
        held.entry(key).or_default().0 = Some(rule.set);
    }
    for rule in right.rules().expect("sound") {
        let key = key(rule.class, rule.prefix(), rule.length);
        held.entry(key).or_default().1 = Some(rule.set);
    }
    let content = |plan: &Plan, set: Option<SetNumber>| {
        let mut out = [0; CONTENT_BUFFER_BYTES];
        let body = plan.set_content(set?, &mut out).expect("a rule names it");
        Some(body[bodies::SET_CLASS..].to_vec())
    };
    held.retain(|_, sets| content(left, sets.0) != content(right, sets.1));
    held.into_iter().collect()
}

#[test]
fn any_plans() {
    let mut random = Random(20);
    let mut sorts = BTreeMap::new();
    for _ in 0..400 {
        let (left, right) = (any_plan(&mut random), any_plan(&mut random));
        let mut out = [0; 16 * DIFFERENCE_BYTES];
        let differences = left.compare(&right, &mut out).expect("sound");
        let fields = differences.map(|one| {
            let side = match (one.left, one.right) {
                (Some(_), Some(_)) => Side::Both,
                (Some(_), None) => Side::LeftOnly,
                _ => Side::RightOnly,
            };
            assert_eq!(one.side, side);
            *sorts.entry(side).or_insert(0) += 1;
            let key = key(one.class, one.prefix(), one.length);
            (key, (one.left, one.right))
        });
        assert_eq!(fields.collect::<Vec<_>>(), told_apart(&left, &right));
    }
    let often = sorts.values().filter(|&&count| count > 100);
    assert_eq!(often.count(), 3, "{sorts:?}");
}
