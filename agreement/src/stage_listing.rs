//! The listing, and `replay` over files of provisioning calls.

use crate::bench::{hex, Bench};
use crate::c;
use crate::lent::Lent;
use crate::maker::Maker;
use crate::random::Random;
use npp_reference::bodies::Kind;
use npp_reference::rules::{Rooms, RulePlace};
use npp_reference::{calls, layout};

const STAGE: &str = "listing";

const REPLAYED: &str = "calls that replays carried out";
const ENDED_EARLY: &str = "replays that ended before their last byte";

pub fn run(bench: &mut Bench) {
    bench.enter(
        STAGE,
        &["rule_count", "rule_at", "replay"],
        &[REPLAYED, ENDED_EARLY],
    );
    for place in 0..bench.scaled(700, 60) {
        listing(bench, place);
    }
    for place in 0..bench.scaled(2500, 100) {
        replays(bench, place);
    }
    largest(bench);
    bench.demand_numbers(&[0, 3, 5], 1000);
    bench.demand_notes(&[REPLAYED], 10_000);
    bench.demand_notes(&[ENDED_EARLY], 500);
}

// ---------------------------------------------------------------------------
// One call on which both agree

fn rule_count(bench: &mut Bench, plan: &Lent) {
    let before = plan.clone();
    let lines = || format!("memory {}\nrule_count", hex(before.slice()));
    bench.about_to(lines);
    let reference = c::Counted::from(calls::rule_count(before.slice()));
    let library = c::rule_count(plan.slice());
    let lent = [("plan", plan, &before)];
    bench.agree("rule_count", lines, &library, &reference, &lent);
    bench.count("rule_count", reference.refusal);
}

fn rule_at(bench: &mut Bench, plan: &Lent, place: u16) {
    let before = plan.clone();
    let lines = || format!("memory {}\nrule_at {place}", hex(before.slice()));
    bench.about_to(lines);
    let given = calls::rule_at(before.slice(), RulePlace(usize::from(place)));
    let reference = c::Listed::from(given);
    let library = c::rule_at(plan.slice(), place);
    let lent = [("plan", plan, &before)];
    bench.agree("rule_at", lines, &library, &reference, &lent);
    bench.count("rule_at", reference.refusal);
}

fn replay(bench: &mut Bench, memory: &mut Lent, list: &Lent, mut numbers: Lent) {
    let before = [memory.clone(), list.clone(), numbers.clone()];
    let lines = || {
        let [memory, list, numbers] = before.each_ref().map(|lent| hex(lent.slice()));
        format!("memory {memory}\nreplay {list} {numbers}")
    };
    bench.about_to(lines);
    let [mut expected, _, mut expected_numbers] = before.clone();
    let reference = calls::replay(
        expected.slice_mut(),
        before[1].slice(),
        expected_numbers.slice_mut(),
    );
    let library = c::replay(memory.slice_mut(), list.slice(), numbers.slice_mut());
    let lent = [
        ("memory", &*memory, &expected),
        ("calls", list, &before[1]),
        ("numbers", &numbers, &expected_numbers),
    ];
    bench.agree("replay", lines, &library, &reference, &lent);
    bench.count("replay", 0);
    bench.note(REPLAYED, reference as u64);
    if bytes_of(list.slice(), reference) < list.len() {
        bench.note(ENDED_EARLY, 1);
    }
}

/// The bytes that so many records take.
fn bytes_of(list: &[u8], count: usize) -> usize {
    let mut end = 0;
    for _ in 0..count {
        let kind = Kind::from_byte(list[end]).expect("a kind that was carried out");
        end += 1 + kind.body_length();
    }
    end
}

// ---------------------------------------------------------------------------
// What is asked

/// The count and every place of a plan, and of damaged copies.
fn listing(bench: &mut Bench, place: usize) {
    bench.part = format!("plan {place}");
    let mut maker = Maker::new(Random::of(bench.seed, STAGE, place));
    let (sets, rules) = match place % 50 {
        49 => (290, 260),
        47 | 48 => (4, 0),
        _ => (maker.random.between(1, 6), maker.random.between(1, 20)),
    };
    let rooms = Rooms {
        sets: sets as u16,
        rules: (rules + maker.random.below(3)).max(1) as u16,
    };
    let plan = maker.plan(rooms, sets, rules);
    let mut bytes = layout::encode(&plan);
    let size = bytes.len();
    let behind = maker.random.pick(&[0, 5, 24]);
    bytes.extend(maker.random.bytes(behind));
    let memory = Lent::new(&bytes, &mut maker.random);
    let count = plan.rules.len() as u16;
    rule_count(bench, &memory);
    for place in (0..count + 3).chain([256, rooms.rules, 4095, 4096, 65535]) {
        rule_at(bench, &memory, place);
    }
    for _ in 0..6 {
        let mut damaged = bytes.clone();
        maker.damage_memory(&mut damaged[..size]);
        let damaged = Lent::new(&damaged, &mut maker.random);
        rule_count(bench, &damaged);
        let place = maker.random.below(usize::from(count) + 2) as u16;
        rule_at(bench, &damaged, place);
    }
    for length in [0, 63, 64, size - 1, size] {
        let part = Lent::front(&bytes, length, &mut maker.random);
        rule_count(bench, &part);
        rule_at(bench, &part, 0);
    }
    rule_count(bench, &Lent::nothing());
    rule_at(bench, &Lent::nothing(), 0);
}

/// Some replays one behind the other on one memory.
fn replays(bench: &mut Bench, place: usize) {
    bench.part = format!("replays {place}");
    let mut maker = Maker::new(Random::of(bench.seed, "replays", place));
    let rooms = maker.small_rooms();
    let behind = maker.random.pick(&[0, 3, 48]);
    let content = match place % 3 {
        0 => maker.random.bytes(layout::size(rooms) + behind),
        1 => maker.memory_by_calls(rooms, 20, behind),
        _ => {
            // Damaged, or a part.
            let mut content = maker.memory_by_calls(rooms, 20, behind);
            maker.damage_memory(&mut content);
            content
        }
    };
    let mut memory = Lent::new(&content, &mut maker.random);
    for _ in 0..3 {
        let (list, count) = file(&mut maker, memory.slice(), rooms);
        let list = match maker.random.below(12) {
            // The rest of the list stands behind the part that is lent.
            0 => {
                let length = maker.random.below(list.len() + 1);
                Lent::front(&list, length, &mut maker.random)
            }
            1 => Lent::front(&list, list.len().saturating_sub(1), &mut maker.random),
            2 => Lent::nothing(),
            _ => Lent::new(&list, &mut maker.random),
        };
        let short = maker.random.below(count + 1);
        let places = maker
            .random
            .weighted(&[(4, count), (4, count + 5), (3, short), (1, 0)]);
        let numbers = match places {
            0 => Lent::nothing(),
            _ => {
                let content = maker.random.bytes(places);
                Lent::new(&content, &mut maker.random)
            }
        };
        replay(bench, &mut memory, &list, numbers);
    }
}

/// A file of provisioning calls for a memory as it stands, at times with an
/// unknown kind, a kind of another call or any bytes in it; and how many
/// calls were put in.
fn file(maker: &mut Maker, memory: &[u8], rooms: Rooms) -> (Vec<u8>, usize) {
    let mut shadow = memory.to_vec();
    let mut list = Vec::new();
    let count = maker.random.between(0, 24);
    let odd = maker.random.below(30);
    for place in 0..count {
        if place == odd {
            match maker.random.below(4) {
                0 => list.push(maker.random.pick(&[10, 11, 16, 128, 255])),
                1 => {
                    list.push(maker.random.pick(&[7, 8, 9]));
                    let more = maker.random.below(80);
                    list.extend(maker.random.bytes(more));
                }
                2 => list.extend([8, 0, 1]),
                _ => list.push(9),
            }
        }
        let plan = layout::decode(&shadow);
        let kind = maker.next_kind(plan.as_ref(), true);
        let asked = match plan {
            Some(_) => maker.other_rooms(rooms),
            None => rooms,
        };
        let mut body = maker.body(kind, plan.as_ref(), asked);
        if maker.random.percent(5) {
            maker.damage_body(kind, &mut body);
        }
        list.push(kind.byte());
        list.extend(&body);
        let call = calls::provisioning(kind).expect("a provisioning call");
        let _ = call(&mut shadow, &body);
    }
    (list, count)
}

/// The largest rooms there are.
fn largest(bench: &mut Bench) {
    bench.part = "the largest plan".to_string();
    let mut maker = Maker::new(Random::of(bench.seed, "largest listing", 0));
    let plan = maker.largest_plan(4096);
    let memory = Lent::new(&layout::encode(&plan), &mut maker.random);
    rule_count(bench, &memory);
    for _ in 0..bench.scaled(100, 10) {
        let place = maker.random.below(4100) as u16;
        rule_at(bench, &memory, place);
    }
    for place in [0, 1, 255, 256, 257, 4095, 4096, 65535] {
        rule_at(bench, &memory, place);
    }
}
