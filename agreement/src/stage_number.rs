//! Answering a number and the four read calls: every field, the whole of the
//! lent buffer, and the plan, which none of them changes.

use crate::bench::{hex, Bench};
use crate::c;
use crate::lent::Lent;
use crate::maker::Maker;
use crate::random::Random;
use npp_reference::layout;
use npp_reference::plan::Plan;
use npp_reference::rules::{Refusal, Rooms, SetNumber};
use npp_reference::{bodies, calls};

const STAGE: &str = "number";

const CALLS: [&str; 5] = [
    "answer",
    "conditioned",
    "set_content",
    "referrers",
    "stretch",
];

const OUTCOMES: [&str; 5] = [
    "outcome 0 NO RULE",
    "outcome 1 ESCAPED",
    "outcome 2 RESPONDED",
    "outcome 3 UNCHANGED",
    "outcome 4 FORMATTED",
];

const STRETCH: &str = "a stretch with digits";
const DECIDED: &str = "answers that accepting decides";

pub fn run(bench: &mut Bench) {
    bench.enter(STAGE, &CALLS, &OUTCOMES);
    bench.enter(STAGE, &[], &[STRETCH, DECIDED]);
    for place in 0..bench.scaled(1300, 20) {
        plan_by_chance(bench, place);
    }
    for place in 0..bench.scaled(8, 2) {
        every_byte_of_a_number(bench, place);
    }
    for place in 0..bench.scaled(8, 2) {
        every_length_and_value(bench, place);
    }
    largest(bench);
    bench.demand_numbers(&[0, 1, 3, 4, 5, 8, 12, 13], 1000);
    bench.demand_notes(&OUTCOMES, 1000);
    bench.demand_notes(&[STRETCH, DECIDED], 1000);
}

// ---------------------------------------------------------------------------
// One call on which both agree

fn answer(bench: &mut Bench, plan: &Lent, body: &Lent, mut out: Lent) {
    let before = [plan.clone(), body.clone(), out.clone()];
    let lines = || {
        let [plan, body, out] = before.each_ref().map(|lent| hex(lent.slice()));
        format!("memory {plan}\nanswer {body} {out}")
    };
    bench.about_to(lines);
    let mut expected = out.clone();
    let given = calls::answer(before[0].slice(), before[1].slice(), expected.slice_mut());
    let reference = c::Answered::from(given);
    let library = c::answer(plan.slice(), body.slice(), out.slice_mut());
    let lent = [
        ("plan", plan, &before[0]),
        ("body", body, &before[1]),
        ("buffer", &out, &expected),
    ];
    bench.agree("answer", lines, &library, &reference, &lent);
    bench.count("answer", reference.refusal);
    if reference.refusal == 0 {
        bench.note(OUTCOMES[usize::from(reference.outcome)], 1);
    }
    if [0, Refusal::Long.number()].contains(&reference.refusal) {
        // Held against the answer under the other value.
        let mut other = plan.slice().to_vec();
        other[layout::ACCEPTING_AT] ^= 1;
        let otherwise = calls::answer(&other, body.slice(), before[2].clone().slice_mut());
        bench.note(DECIDED, u64::from(otherwise != given));
    }
}

fn conditioned(bench: &mut Bench, plan: &Lent, class: u8, digits: &Lent, mut out: Lent) {
    let before = [plan.clone(), digits.clone(), out.clone()];
    let lines = || {
        let [plan, digits, out] = before.each_ref().map(|lent| hex(lent.slice()));
        format!("memory {plan}\nconditioned {class} {digits} {out}")
    };
    bench.about_to(lines);
    let mut expected = out.clone();
    let (plan_slice, digits_slice) = (before[0].slice(), before[1].slice());
    let given = calls::conditioned(plan_slice, class, digits_slice, expected.slice_mut());
    let reference = c::Written::from(given);
    let library = c::conditioned(plan.slice(), class, digits.slice(), out.slice_mut());
    let lent = [
        ("plan", plan, &before[0]),
        ("digits", digits, &before[1]),
        ("buffer", &out, &expected),
    ];
    bench.agree("conditioned", lines, &library, &reference, &lent);
    bench.count("conditioned", reference.refusal);
}

fn set_content(bench: &mut Bench, plan: &Lent, set: u16, mut out: Lent) {
    let before = [plan.clone(), out.clone()];
    let lines = || {
        let [plan, out] = before.each_ref().map(|lent| hex(lent.slice()));
        format!("memory {plan}\nset_content {set} {out}")
    };
    bench.about_to(lines);
    let mut expected = out.clone();
    let given = calls::set_content(before[0].slice(), SetNumber(set), expected.slice_mut());
    let reference = c::Written::from(given);
    let library = c::set_content(plan.slice(), set, out.slice_mut());
    let lent = [("plan", plan, &before[0]), ("buffer", &out, &expected)];
    bench.agree("set_content", lines, &library, &reference, &lent);
    bench.count("set_content", reference.refusal);
}

fn referrers(bench: &mut Bench, plan: &Lent, set: u16) {
    let before = plan.clone();
    let lines = || format!("memory {}\nreferrers {set}", hex(before.slice()));
    bench.about_to(lines);
    let reference = c::Counted::from(calls::referrers(before.slice(), SetNumber(set)));
    let library = c::referrers(plan.slice(), set);
    let lent = [("plan", plan, &before)];
    bench.agree("referrers", lines, &library, &reference, &lent);
    bench.count("referrers", reference.refusal);
}

fn stretch(bench: &mut Bench, plan: &Lent, class: u8, digits: &Lent, value: u8) {
    let before = [plan.clone(), digits.clone()];
    let lines = || {
        let [plan, digits] = before.each_ref().map(|lent| hex(lent.slice()));
        format!("memory {plan}\nstretch {class} {digits} {value}")
    };
    bench.about_to(lines);
    let given = calls::stretch(before[0].slice(), class, before[1].slice(), value);
    let reference = c::Span::from(given);
    let library = c::stretch(plan.slice(), class, digits.slice(), value);
    let lent = [("plan", plan, &before[0]), ("digits", digits, &before[1])];
    bench.agree("stretch", lines, &library, &reference, &lent);
    bench.count("stretch", 0);
    if reference.count > 0 {
        bench.note(STRETCH, 1);
    }
}

// ---------------------------------------------------------------------------
// What is asked

/// A lent buffer, mostly long enough, with bytes of any content.
fn buffer(maker: &mut Maker) -> Lent {
    let any = maker.random.below(80);
    let lengths = [
        (1, 0),
        (2, 34),
        (10, 35),
        (5, 46),
        (14, 47),
        (6, 64),
        (1, any),
    ];
    let length = maker.random.weighted(&lengths);
    if length == 0 && maker.random.percent(50) {
        return Lent::nothing();
    }
    let content = maker.random.bytes(length);
    Lent::new(&content, &mut maker.random)
}

/// A number's body: mostly as it is; else cut, lengthened or damaged.
fn number(maker: &mut Maker, plan: Option<&Plan>) -> Lent {
    let mut body = maker.number(plan);
    match maker.random.below(40) {
        0 => {
            let length = maker.random.below(body.len());
            Lent::front(&body, length, &mut maker.random)
        }
        1 => Lent::front(&body, body.len() - 1, &mut maker.random),
        2 => {
            let more = maker.random.between(1, 20);
            body.extend(maker.random.bytes(more));
            Lent::new(&body, &mut maker.random)
        }
        3 | 4 => {
            maker.mutate(&mut body);
            Lent::new(&body, &mut maker.random)
        }
        _ => Lent::new(&body, &mut maker.random),
    }
}

/// A class and digits that RANGE may refuse.
fn loose_digits(maker: &mut Maker, plan: Option<&Plan>) -> (u8, Lent) {
    let (mut class, mut digits) = maker.class_and_digits(plan);
    if maker.random.percent(3) {
        class = maker.random.pick(&[6, 7, 128, 255]);
    }
    match maker.random.below(40) {
        0 => digits.resize(33, 1),
        1 => {
            let length = maker.random.between(33, 60);
            digits.resize(length, 2);
        }
        2 if !digits.is_empty() => {
            let place = maker.random.below(digits.len());
            digits[place] = maker.random.pick(&[16, 17, 32, 255]);
        }
        3 if digits.is_empty() => return (class, Lent::nothing()),
        4 if !digits.is_empty() => {
            // The digits go on behind the slice.
            let length = maker.random.below(digits.len());
            return (class, Lent::front(&digits, length, &mut maker.random));
        }
        _ => {}
    }
    (class, Lent::new(&digits, &mut maker.random))
}

/// One call by chance.
fn ask(bench: &mut Bench, maker: &mut Maker, memory: &Lent, plan: Option<&Plan>) {
    match maker.random.below(100) {
        0..=54 => {
            let body = number(maker, plan);
            let out = buffer(maker);
            answer(bench, memory, &body, out);
        }
        55..=69 => {
            let (class, digits) = loose_digits(maker, plan);
            let out = buffer(maker);
            conditioned(bench, memory, class, &digits, out);
        }
        70..=84 => {
            let (class, digits) = loose_digits(maker, plan);
            let value = match maker.random.percent(92) {
                true => maker.random.between(0, 11) as u8,
                false => maker.random.byte(),
            };
            stretch(bench, memory, class, &digits, value);
        }
        85..=92 => {
            let set = maker.set_number(plan, 60);
            let out = buffer(maker);
            set_content(bench, memory, set.0, out);
        }
        _ => {
            let set = maker.set_number(plan, 60);
            referrers(bench, memory, set.0);
        }
    }
}

/// Calls on one plan, on damaged copies of it, and on a part of it.
fn plan_by_chance(bench: &mut Bench, place: usize) {
    bench.part = format!("plan {place}");
    let mut maker = Maker::new(Random::of(bench.seed, STAGE, place));
    let (sets, rules, calls) = match place % 50 {
        // Set numbers and counts that need both their bytes.
        49 => (300, 280, 40),
        48 => (40, 120, 60),
        _ => (maker.random.between(1, 8), maker.random.between(1, 16), 120),
    };
    let rooms = Rooms {
        sets: (sets + maker.random.below(3)) as u16,
        rules: (rules + maker.random.below(3)) as u16,
    };
    let plan = maker.plan(rooms, sets, rules);
    let mut bytes = layout::encode(&plan);
    let size = bytes.len();
    let behind = maker.random.pick(&[0, 1, 24, 100]);
    bytes.extend(maker.random.bytes(behind));
    let memory = Lent::new(&bytes, &mut maker.random);
    for _ in 0..calls {
        match maker.random.below(100) {
            0..=4 => {
                let mut damaged = bytes.clone();
                let end = maker.random.pick(&[64, size, size]);
                maker.damage_memory(&mut damaged[..end]);
                let damaged = Lent::new(&damaged, &mut maker.random);
                ask(bench, &mut maker, &damaged, Some(&plan));
            }
            5 => {
                let length = maker.random.pick(&[0, 63, 64, size - 1, size]);
                let part = Lent::front(&bytes, length, &mut maker.random);
                ask(bench, &mut maker, &part, Some(&plan));
            }
            6 if maker.random.percent(20) => {
                ask(bench, &mut maker, &Lent::nothing(), Some(&plan));
            }
            _ => ask(bench, &mut maker, &memory, Some(&plan)),
        }
    }
}

/// Each byte of a number's body changed, and the body cut at every length.
fn every_byte_of_a_number(bench: &mut Bench, place: usize) {
    bench.part = format!("number {place}");
    let mut maker = Maker::new(Random::of(bench.seed, "number bytes", place));
    let rooms = Rooms { sets: 5, rules: 9 };
    let plan = maker.plan(rooms, 5, 9);
    let memory = Lent::new(&layout::encode(&plan), &mut maker.random);
    for _ in 0..4 {
        let body = maker.number(Some(&plan));
        for place in 0..body.len() {
            for wrong in maker.wrong_values(body[place]) {
                let mut changed = body.clone();
                changed[place] = wrong;
                let changed = Lent::new(&changed, &mut maker.random);
                let out = Lent::new(&[0xa5; 40], &mut maker.random);
                answer(bench, &memory, &changed, out);
            }
        }
        for length in 0..=body.len() {
            let part = Lent::front(&body, length, &mut maker.random);
            let out = Lent::new(&[0x5a; 35], &mut maker.random);
            answer(bench, &memory, &part, out);
        }
    }
}

/// Numbers of every length, buffers of every length, every value and every
/// set number about the room.
fn every_length_and_value(bench: &mut Bench, place: usize) {
    bench.part = format!("lengths and values {place}");
    let mut maker = Maker::new(Random::of(bench.seed, "lengths", place));
    let rooms = Rooms { sets: 6, rules: 12 };
    let plan = maker.plan(rooms, 5, 12);
    let memory = Lent::new(&layout::encode(&plan), &mut maker.random);
    let body = maker.number(Some(&plan));
    let number = bodies::number(&body).expect("a number in range");
    let class = number.class.byte();
    for length in 0..=50 {
        let body = Lent::new(&body, &mut maker.random);
        let digits = Lent::new(number.digits, &mut maker.random);
        let lent = |maker: &mut Maker| {
            let content = maker.random.bytes(length);
            Lent::new(&content, &mut maker.random)
        };
        let out = lent(&mut maker);
        answer(bench, &memory, &body, out);
        let out = lent(&mut maker);
        conditioned(bench, &memory, class, &digits, out);
        for set in 0..8 {
            let out = lent(&mut maker);
            set_content(bench, &memory, set, out);
        }
    }
    for set in (0..20).chain([255, 256, 257, 1023, 1024, 65535]) {
        referrers(bench, &memory, set);
    }
    for filter in plan.rules.keys() {
        for length in 0..=34 {
            let mut digits = filter.prefix.clone();
            digits.resize(length, 3);
            let class = filter.class.byte();
            let digits = Lent::new(&digits, &mut maker.random);
            let out = Lent::new(&[0xc3; 36], &mut maker.random);
            conditioned(bench, &memory, class, &digits, out);
            for value in (0..=12).chain([255]) {
                stretch(bench, &memory, class, &digits, value);
            }
        }
    }
}

/// A few calls on a plan of the largest rooms.
fn largest(bench: &mut Bench) {
    bench.part = "the largest plan".to_string();
    let mut maker = Maker::new(Random::of(bench.seed, "largest number", 0));
    let plan = maker.largest_plan(4096);
    let memory = Lent::new(&layout::encode(&plan), &mut maker.random);
    for _ in 0..bench.scaled(200, 20) {
        ask(bench, &mut maker, &memory, Some(&plan));
    }
}
