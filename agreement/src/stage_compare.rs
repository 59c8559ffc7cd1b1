//! Two plans side by side: a plan and another one made from it, both ways round,
//! with buffers of every kind of length; damaged ones.

use crate::bench::{hex, Bench};
use crate::c;
use crate::lent::Lent;
use crate::maker::Maker;
use crate::random::Random;
use npp_reference::bodies;
use npp_reference::comparing::{self, ENTRY};
use npp_reference::layout;
use npp_reference::plan::Plan;
use npp_reference::rules::*;

const STAGE: &str = "compare";

const KINDS: [&str; 3] = [
    "lists with entries of the left only",
    "lists with entries of the right only",
    "lists with entries of both",
];

const ONE_NUMBER: &str = "lists with one set number in both places";
const BACK_AND_FORTH: &str = "lists that go back from right to left";
const OTHER_NUMBERS: &str = "no difference under other set numbers";
const OTHER_SETTINGS: &str = "no difference under other settings";
const OTHER_ROOMS: &str = "no difference in other rooms";

pub fn run(bench: &mut Bench) {
    bench.enter(STAGE, &["compare"], &KINDS);
    let lists = [ONE_NUMBER, BACK_AND_FORTH];
    let none = [OTHER_NUMBERS, OTHER_SETTINGS, OTHER_ROOMS];
    bench.enter(STAGE, &[], &lists);
    bench.enter(STAGE, &[], &none);
    for place in 0..bench.scaled(1500, 150) {
        pair(bench, place);
    }
    for place in 0..bench.scaled(12, 4) {
        every_byte_of_a_content(bench, place);
        every_byte_of_a_filter(bench, place);
    }
    every_length(bench);
    full(bench);
    for place in 0..bench.scaled(4, 1) {
        largest(bench, place);
    }
    bench.demand_numbers(&[0, 3, 4], 2000);
    bench.demand_notes(&KINDS, 2000);
    bench.demand_notes(&lists, 500);
    bench.demand_notes(&none, 500);
}

// ---------------------------------------------------------------------------
// One call on which both agree

fn compare(bench: &mut Bench, left: &Lent, right: &Lent, mut out: Lent) {
    let before = [left.clone(), right.clone(), out.clone()];
    let lines = || {
        let [left, right, out] = before.each_ref().map(|lent| hex(lent.slice()));
        format!("memory {left}\ncompare {right} {out}")
    };
    bench.about_to(lines);
    let mut expected = out.clone();
    let given = comparing::compare(before[0].slice(), before[1].slice(), expected.slice_mut());
    let reference = c::Compared::from(given);
    let library = c::compare(left.slice(), right.slice(), out.slice_mut());
    let lent = [
        ("left plan", left, &before[0]),
        ("right plan", right, &before[1]),
        ("buffer", &out, &expected),
    ];
    bench.agree("compare", lines, &library, &reference, &lent);
    bench.count("compare", reference.refusal);
    if reference.refusal == 0 {
        note_entries(bench, &out.slice()[..ENTRY * reference.differences]);
        if reference.differences == 0 {
            note_none(bench, left, right);
        }
    }
}

fn note_entries(bench: &mut Bench, entries: &[u8]) {
    let kinds: Vec<u8> = entries.chunks(ENTRY).map(|entry| entry[0]).collect();
    for (kind, what) in (1..).zip(KINDS) {
        bench.note(what, u64::from(kinds.contains(&kind)));
    }
    let one_number = |entry: &[u8]| entry[20..22] == entry[22..24];
    let found = entries.chunks(ENTRY).any(one_number);
    bench.note(ONE_NUMBER, u64::from(found));
    let mut behind = kinds.iter().skip_while(|&&kind| kind != 2);
    bench.note(BACK_AND_FORTH, u64::from(behind.any(|&kind| kind == 1)));
}

/// What two plans with some rules and no difference differ in.
fn note_none(bench: &mut Bench, left: &Lent, right: &Lent) {
    let plans = [left, right].map(|memory| layout::decode(memory.slice()).expect("sound"));
    let [left, right] = &plans;
    if left.rules.is_empty() {
        return;
    }
    bench.note(OTHER_NUMBERS, u64::from(left.rules != right.rules));
    bench.note(OTHER_SETTINGS, u64::from(left.settings != right.settings));
    bench.note(OTHER_ROOMS, u64::from(left.rooms != right.rooms));
}

// ---------------------------------------------------------------------------
// What is lent

/// A plan's memory, with some bytes behind it.
fn memory(maker: &mut Maker, plan: &Plan) -> Lent {
    let mut bytes = layout::encode(plan);
    let behind = maker.random.pick(&[0, 0, 5, 24, 48]);
    bytes.extend(maker.random.bytes(behind));
    Lent::new(&bytes, &mut maker.random)
}

/// A buffer of any content; a shorter one has more bytes behind it.
fn buffer(maker: &mut Maker, length: usize) -> Lent {
    if length == 0 && maker.random.percent(50) {
        return Lent::nothing();
    }
    let content = maker.random.bytes(length + 2 * ENTRY);
    Lent::front(&content, length, &mut maker.random)
}

/// The bytes of all entries.
fn needed(left: &Lent, right: &Lent) -> usize {
    match [left, right].map(|memory| layout::decode(memory.slice())) {
        [Some(left), Some(right)] => ENTRY * comparing::differences(&left, &right).len(),
        _ => 0,
    }
}

/// With just enough room, a byte less and a byte more, none, much, and any.
fn with_every_room(bench: &mut Bench, maker: &mut Maker, left: &Lent, right: &Lent) {
    let needed = needed(left, right);
    let any = maker.random.below(needed + 100);
    let less = needed.saturating_sub(maker.random.pick(&[2, ENTRY - 1, ENTRY, ENTRY + 1]));
    let much = needed + maker.random.between(2, 400);
    for length in [
        needed,
        needed.saturating_sub(1),
        needed + 1,
        0,
        less,
        much,
        any,
    ] {
        let out = buffer(maker, length);
        compare(bench, left, right, out);
    }
}

fn with_some_room(bench: &mut Bench, maker: &mut Maker, left: &Lent, right: &Lent) {
    let needed = needed(left, right);
    let any = maker.random.below(200);
    let length = maker
        .random
        .weighted(&[(4, needed), (2, 24), (1, 0), (2, any)]);
    let out = buffer(maker, length);
    compare(bench, left, right, out);
}

// ---------------------------------------------------------------------------
// What is asked

/// A plan and another one.
fn pair(bench: &mut Bench, place: usize) {
    bench.part = format!("pair {place}");
    let mut maker = Maker::new(Random::of(bench.seed, STAGE, place));
    let (sets, rules) = match place % 50 {
        49 => (290, 260),
        47 | 48 => (maker.random.below(4), 0),
        _ => (maker.random.between(1, 8), maker.random.between(1, 20)),
    };
    let rooms = Rooms {
        sets: (sets + maker.random.below(4)).max(1) as u16,
        rules: (rules + maker.random.below(6)).max(1) as u16,
    };
    let plan = maker.plan(rooms, sets, rules);
    let other = other_plan(&mut maker, &plan, sets, rules);
    let left = memory(&mut maker, &plan);
    let right = memory(&mut maker, &other);
    with_every_room(bench, &mut maker, &left, &right);
    with_every_room(bench, &mut maker, &right, &left);
    // With itself: one memory, and two with the same plan.
    with_some_room(bench, &mut maker, &left, &left);
    with_some_room(bench, &mut maker, &right, &right);
    let again = memory(&mut maker, &plan);
    with_some_room(bench, &mut maker, &left, &again);
    for _ in 0..2 {
        damaged(bench, &mut maker, (&left, &plan), (&right, &other));
    }
    part(bench, &mut maker, (&left, &plan), &right);
}

/// Mostly edited, or filled again, or both; else a plan of its own.
fn other_plan(maker: &mut Maker, plan: &Plan, sets: usize, rules: usize) -> Plan {
    let mut other = match maker.random.below(10) {
        0..=4 => plan.clone(),
        5..=7 => return maker.filled_again(plan),
        8 => maker.filled_again(plan),
        _ => return maker.plan(plan.rooms, sets, rules),
    };
    let edits = maker.random.between(1, 12);
    maker.edit(&mut other, edits);
    other
}

/// A copy with some bytes of the plan changed.
fn damage(maker: &mut Maker, memory: &Lent, plan: &Plan) -> Lent {
    let mut damaged = memory.clone();
    let size = layout::size(plan.rooms);
    maker.damage_memory(&mut damaged.slice_mut()[..size]);
    damaged
}

/// The left, the right, and both damaged.
fn damaged(
    bench: &mut Bench,
    maker: &mut Maker,
    (left, plan): (&Lent, &Plan),
    (right, other): (&Lent, &Plan),
) {
    let one = damage(maker, left, plan);
    let two = damage(maker, right, other);
    with_some_room(bench, maker, &one, right);
    with_some_room(bench, maker, left, &two);
    with_some_room(bench, maker, &one, &two);
    with_some_room(bench, maker, &one, &one);
}

/// The front part of a plan as either side; the rest of it stands behind.
fn part(bench: &mut Bench, maker: &mut Maker, (memory, plan): (&Lent, &Plan), other: &Lent) {
    let size = layout::size(plan.rooms);
    let any = maker.random.below(size);
    let mut part = memory.clone();
    part.set_length(maker.random.pick(&[0, 63, 64, size - 1, size, any]));
    with_some_room(bench, maker, &part, other);
    with_some_room(bench, maker, other, &part);
    if maker.random.percent(10) {
        with_some_room(bench, maker, &Lent::nothing(), other);
        with_some_room(bench, maker, other, &Lent::nothing());
    }
}

// ---------------------------------------------------------------------------
// Contents and filters

/// A plan with one rule.
fn plan_of(maker: &mut Maker, number: u16, set: &ActionSet, filter: &Filter) -> Plan {
    let rooms = Rooms { sets: 3, rules: 2 };
    let mut plan = Plan::open(&maker.opening(rooms)).expect("an opening in range");
    plan.sets.insert(SetNumber(number), set.clone());
    plan.rules.insert(filter.clone(), SetNumber(number));
    plan
}

/// Twelve conditioning actions, of which the last takes the rest or a part, and
/// twelve formatting actions.
fn full_set(takes_rest: bool) -> ActionSet {
    let mut conditioning = vec![Conditioning::Ignore(2); MOST_CONDITIONING - 1];
    if takes_rest {
        conditioning.push(Conditioning::TakeRest(Value::Zn));
    } else {
        conditioning[0] = Conditioning::Take(Value::Zn, 1);
        conditioning.push(Conditioning::Take(Value::PfxA, 1));
    }
    ActionSet {
        class: OutgoingClass::AsIncoming,
        conditioning,
        services: [1, 2, 3, 4, 5]
            .map(|code| Service::from_code(code).expect("in range"))
            .to_vec(),
        formatting: vec![Formatting::DelimiterA; MOST_FORMATTING],
    }
}

/// A set, and a filter that it fits.
fn set_and_filter(maker: &mut Maker, place: usize) -> (ActionSet, Filter) {
    loop {
        let set = match place {
            0 => full_set(true),
            1 => full_set(false),
            _ => maker.set(),
        };
        let filter = maker.fitting_filter(None, &set);
        if set.keeps_group_rules() && set.fits(&filter) {
            return (set, filter);
        }
    }
}

/// Contents that differ at one place alone, at every place and by every value
/// that is accepted, mostly under one number.
fn every_byte_of_a_content(bench: &mut Bench, place: usize) {
    bench.part = format!("contents {place}");
    let mut maker = Maker::new(Random::of(bench.seed, "contents", place));
    let (set, filter) = set_and_filter(&mut maker, place);
    let plan = plan_of(&mut maker, 1, &set, &filter);
    let left = memory(&mut maker, &plan);
    let mut content = Vec::new();
    bodies::put_content(&mut content, &set);
    for place in 0..content.len() {
        let old = content[place];
        for value in 0..=255 {
            content[place] = value;
            let other = bodies::content(&content).ok();
            let fits = |set: &ActionSet| set.keeps_group_rules() && set.fits(&filter);
            if let Some(other) = other.filter(fits) {
                let number = maker.random.pick(&[1, 1, 1, 2]);
                let plan = plan_of(&mut maker, number, &other, &filter);
                let right = memory(&mut maker, &plan);
                with_some_room(bench, &mut maker, &left, &right);
                with_some_room(bench, &mut maker, &right, &left);
            }
        }
        content[place] = old;
    }
}

/// Filters that differ at one place alone.
fn every_byte_of_a_filter(bench: &mut Bench, place: usize) {
    bench.part = format!("filters {place}");
    let mut maker = Maker::new(Random::of(bench.seed, "filters", place));
    let escape = ActionSet {
        class: OutgoingClass::AsIncoming,
        conditioning: Vec::new(),
        services: Vec::new(),
        formatting: Vec::new(),
    };
    let filter = maker.fitting_filter(None, &escape);
    let plan = plan_of(&mut maker, 0, &escape, &filter);
    let left = memory(&mut maker, &plan);
    let mut bytes = Vec::new();
    bodies::put_filter(&mut bytes, &filter);
    for place in 0..bytes.len() {
        let old = bytes[place];
        for value in 0..=255 {
            bytes[place] = value;
            if let Ok(other) = bodies::filter(&bytes) {
                let plan = plan_of(&mut maker, 0, &escape, &other);
                let right = memory(&mut maker, &plan);
                with_some_room(bench, &mut maker, &left, &right);
                with_some_room(bench, &mut maker, &right, &left);
            }
        }
        bytes[place] = old;
    }
}

/// Buffers of every length up to a few bytes more than the entries take.
fn every_length(bench: &mut Bench) {
    for place in 0..bench.scaled(12, 3) {
        bench.part = format!("lengths {place}");
        let mut maker = Maker::new(Random::of(bench.seed, "compared lengths", place));
        let rooms = Rooms { sets: 6, rules: 9 };
        let plan = maker.plan(rooms, 5, 8);
        let mut other = plan.clone();
        maker.edit(&mut other, place + 2);
        let left = memory(&mut maker, &plan);
        let right = memory(&mut maker, &other);
        for length in 0..needed(&left, &right) + 30 {
            let out = buffer(&mut maker, length);
            compare(bench, &left, &right, out);
        }
    }
}

// ---------------------------------------------------------------------------
// The limits

/// A plan of the largest rooms with a rule for each prefix of three digits.
fn full_plan(maker: &mut Maker, number: u16, class: OutgoingClass, length: Option<u8>) -> Plan {
    let rooms = Rooms {
        sets: 1024,
        rules: 4096,
    };
    let mut plan = Plan::open(&maker.opening(rooms)).expect("an opening in range");
    let set = ActionSet {
        class,
        conditioning: Vec::new(),
        services: Vec::new(),
        formatting: Vec::new(),
    };
    plan.sets.insert(SetNumber(number), set);
    for place in 0..rooms.rules {
        let prefix = [place >> 8, place >> 4, place].map(|digit| digit as u8 & 15);
        let filter = Filter {
            class: Class::NATL,
            prefix: prefix.to_vec(),
            length,
        };
        plan.rules.insert(filter, SetNumber(number));
    }
    plan
}

/// 4,096 rules against 4,096: all others, which is 8,192 entries; all with other
/// contents; all alike.
fn full(bench: &mut Bench) {
    bench.part = "full plans".to_string();
    let mut maker = Maker::new(Random::of(bench.seed, "full plans", 0));
    let incoming = OutgoingClass::AsIncoming;
    let other = OutgoingClass::Stated(Class::INTL);
    let plan = full_plan(&mut maker, 1023, incoming, None);
    let left = memory(&mut maker, &plan);
    for plan in [
        full_plan(&mut maker, 256, incoming, Some(20)),
        full_plan(&mut maker, 1023, other, None),
        full_plan(&mut maker, 255, incoming, None),
    ] {
        let right = memory(&mut maker, &plan);
        with_every_room(bench, &mut maker, &left, &right);
        with_some_room(bench, &mut maker, &right, &left);
    }
}

/// Plans of the largest rooms by chance, edited and filled again.
fn largest(bench: &mut Bench, place: usize) {
    bench.part = format!("the largest plan {place}");
    let mut maker = Maker::new(Random::of(bench.seed, "largest compared", place));
    let rules = maker.random.pick(&[4096, 4096, 3000]);
    let plan = maker.largest_plan(rules);
    let mut edited = plan.clone();
    maker.edit(&mut edited, 60);
    let again = maker.filled_again(&plan);
    let left = memory(&mut maker, &plan);
    for other in [edited, again] {
        let right = memory(&mut maker, &other);
        with_every_room(bench, &mut maker, &left, &right);
        with_some_room(bench, &mut maker, &right, &left);
        damaged(bench, &mut maker, (&left, &plan), (&right, &other));
    }
    with_some_room(bench, &mut maker, &left, &left);
}
