//! The seven provisioning calls: the number and every byte of the memory,
//! with the bytes behind the plan and around the memory.

use crate::alike::PROVISIONING;
use crate::bench::{hex, Bench};
use crate::lent::Lent;
use crate::maker::Maker;
use crate::random::Random;
use npp_reference::bodies::{self, Kind};
use npp_reference::plan::Plan;
use npp_reference::rules::*;
use npp_reference::{calls, layout};

const STAGE: &str = "provision";

const KINDS: [Kind; 7] = [
    Kind::Open,
    Kind::AddSet,
    Kind::ReplaceSet,
    Kind::RemoveSet,
    Kind::AddRule,
    Kind::ChangeRule,
    Kind::RemoveRule,
];

const NAMES: [&str; 7] = [
    "open",
    "add_set",
    "replace_set",
    "remove_set",
    "add_rule",
    "change_rule",
    "remove_rule",
];

const LIST: usize = 500;

const BY_ACCEPTING: &str = "openings out of range by accepting alone";

pub fn run(bench: &mut Bench) {
    bench.enter(STAGE, &NAMES, &[BY_ACCEPTING]);
    for place in 0..bench.scaled(210, 20) {
        list(bench, place);
    }
    openings(bench);
    small_sets(bench);
    ranges(bench);
    fits(bench);
    for place in 0..bench.scaled(12, 3) {
        every_byte_of_bodies(bench, place);
    }
    for place in 0..bench.scaled(6, 2) {
        memory_lengths(bench, place);
    }
    largest(bench);
    bench.demand_numbers(&[0, 1, 3, 4, 5, 6, 7, 8, 9, 10, 11], 50);
    bench.demand_notes(&[BY_ACCEPTING], 1000);
}

/// One call on which both agree; its number.
pub fn provision(bench: &mut Bench, kind: Kind, memory: &mut Lent, body: &Lent) -> u8 {
    let place = usize::from(kind.byte());
    let name = NAMES[place];
    let before = memory.clone();
    let body_before = body.clone();
    let lines = || {
        let body = hex(body_before.slice());
        format!("memory {}\n{name} {body}", hex(before.slice()))
    };
    bench.about_to(lines);
    let mut expected = memory.clone();
    let call = calls::provisioning(kind).expect("a provisioning call");
    let reference = calls::refusal_number(call(expected.slice_mut(), body_before.slice()));
    let library = PROVISIONING[place](memory.slice_mut(), body.slice());
    let lent = [
        ("memory", &*memory, &expected),
        ("body", body, &body_before),
    ];
    bench.agree(name, lines, &library, &reference, &lent);
    bench.count(name, reference);
    if kind == Kind::Open && reference == Refusal::Range.number() {
        let mut mended = body.slice()[..bodies::OPENING].to_vec();
        mended[bodies::ACCEPTING_AT] = 0;
        bench.note(BY_ACCEPTING, u64::from(bodies::opening(&mended).is_ok()));
    }
    reference
}

/// Mostly the body as it is; else cut with the rest behind it, lengthened,
/// or damaged.
fn loosely(maker: &mut Maker, kind: Kind, mut body: Vec<u8>) -> Lent {
    let random = &mut maker.random;
    match random.below(40) {
        0 => {
            let length = random.below(body.len());
            Lent::front(&body, length, random)
        }
        1 => Lent::front(&body, body.len() - 1, random),
        2 => {
            body.truncate(random.below(body.len()));
            Lent::new(&body, random)
        }
        3 | 4 => {
            let more = random.between(1, 30);
            body.extend(random.bytes(more));
            Lent::new(&body, random)
        }
        5 if random.percent(30) => Lent::nothing(),
        6 => {
            let bytes = random.bytes(body.len());
            Lent::new(&bytes, random)
        }
        7..=9 => {
            maker.damage_body(kind, &mut body);
            Lent::new(&body, &mut maker.random)
        }
        _ => Lent::new(&body, random),
    }
}

/// A random list of calls on one memory.
fn list(bench: &mut Bench, place: usize) {
    bench.part = format!("list {place}");
    let mut maker = Maker::new(Random::of(bench.seed, STAGE, place));
    // Now and then set numbers and counts need both their bytes.
    let wide = place % 30 == 19;
    let rooms = match wide {
        true => Rooms {
            sets: 300,
            rules: 280,
        },
        false => maker.small_rooms(),
    };
    let behind = maker.random.pick(&[0, 1, 24, 48, 200]);
    let content = match place % 4 {
        0 => vec![0; layout::size(rooms) + behind],
        _ => maker.random.bytes(layout::size(rooms) + behind),
    };
    let mut memory = Lent::new(&content, &mut maker.random);
    let mut growing = true;
    let mut plan = None;
    for _ in 0..LIST {
        if maker.random.percent(2) {
            growing = !growing;
        }
        if maker.random.percent(3) {
            damaged(bench, &mut maker, &memory, plan.as_ref(), rooms);
        }
        let kind = maker.next_kind(plan.as_ref(), growing || wide);
        // A wide plan is rarely opened again, so that it fills.
        let kind = match kind {
            Kind::Open if wide && plan.is_some() && maker.random.percent(80) => Kind::AddRule,
            kind => kind,
        };
        let asked = match plan {
            Some(_) => maker.other_rooms(rooms),
            None => rooms,
        };
        let body = maker.body(kind, plan.as_ref(), asked);
        let body = loosely(&mut maker, kind, body);
        if provision(bench, kind, &mut memory, &body) == 0 {
            plan = layout::decode(memory.slice());
            assert!(plan.is_some(), "an accepted call leaves a sound plan");
        }
    }
}

/// Calls over a copy of the memory with some bytes changed.
fn damaged(bench: &mut Bench, maker: &mut Maker, memory: &Lent, plan: Option<&Plan>, rooms: Rooms) {
    let mut memory = memory.clone();
    let end = maker.random.pick(&[64, layout::size(rooms)]);
    maker.damage_memory(&mut memory.slice_mut()[..end]);
    for _ in 0..maker.random.between(1, 3) {
        let kind = maker.random.pick(&KINDS);
        let body = maker.body(kind, plan, rooms);
        let body = loosely(maker, kind, body);
        provision(bench, kind, &mut memory, &body);
    }
}

/// Openings over a plan, with any rooms and wrong values of accepting; then
/// with each of its values.
fn openings(bench: &mut Bench) {
    bench.part = "openings".to_string();
    let mut maker = Maker::new(Random::of(bench.seed, "openings", 0));
    let rooms = Rooms { sets: 4, rules: 6 };
    let bytes = maker.memory_by_calls(rooms, 20, 5);
    for _ in 0..bench.scaled(4000, 400) {
        let asked = maker.other_rooms(rooms);
        let mut body = maker.opening(asked);
        body[bodies::ACCEPTING_AT] = maker.wrong_accepting();
        let body = loosely(&mut maker, Kind::Open, body);
        let mut memory = Lent::new(&bytes, &mut maker.random);
        provision(bench, Kind::Open, &mut memory, &body);
    }
    for value in 0..=255 {
        let mut body = maker.opening(rooms);
        body[bodies::ACCEPTING_AT] = value;
        let body = Lent::new(&body, &mut maker.random);
        let mut memory = Lent::new(&bytes, &mut maker.random);
        provision(bench, Kind::Open, &mut memory, &body);
    }
}

// ---------------------------------------------------------------------------
// Sets and rules in turn

/// An opened memory without sets.
fn opened(maker: &mut Maker, rooms: Rooms, behind: usize) -> Lent {
    let mut memory = maker.random.bytes(layout::size(rooms) + behind);
    let opening = maker.opening(rooms);
    calls::open(&mut memory, &opening).expect("an opening in range, with room");
    Lent::new(&memory, &mut maker.random)
}

const ONE_OF_EACH: Rooms = Rooms { sets: 1, rules: 1 };

/// Adds a set to a copy of the memory.
fn add_set(bench: &mut Bench, maker: &mut Maker, memory: &Lent, content: &[u8]) -> u8 {
    let mut body = vec![0, 0];
    body.extend_from_slice(content);
    let body = Lent::new(&body, &mut maker.random);
    provision(bench, Kind::AddSet, &mut memory.clone(), &body)
}

/// A set's content from its lists.
fn content(class: u8, conditioning: &[(u8, u8)], services: &[u8], formatting: &[u8]) -> Vec<u8> {
    let mut content = vec![0; bodies::CONTENT];
    content[0] = class;
    for (place, &(code, count)) in conditioning.iter().enumerate() {
        content[1 + 2 * place] = code;
        content[2 + 2 * place] = count;
    }
    content[25..25 + services.len()].copy_from_slice(services);
    content[33..33 + formatting.len()].copy_from_slice(formatting);
    content
}

fn counted(code: u8) -> (u8, u8) {
    (code, if code > 10 { 0 } else { 1 })
}

/// Every list of up to three conditioning actions, every list of up to three
/// services, every formatting action behind every way to give it a value.
fn small_sets(bench: &mut Bench) {
    bench.part = "small sets".to_string();
    let mut maker = Maker::new(Random::of(bench.seed, "small sets", 0));
    let memory = opened(&mut maker, ONE_OF_EACH, 5);
    let whole = [(13, 0)];
    for one in 0..=15 {
        for two in 0..=15 {
            for three in 0..=15 {
                let list: Vec<(u8, u8)> = [one, two, three]
                    .into_iter()
                    .filter(|&code| code > 0)
                    .map(counted)
                    .collect();
                add_set(bench, &mut maker, &memory, &content(1, &list, &[], &[]));
                // Two more actions behind them, which ask for the area format.
                let longer: Vec<(u8, u8)> = list.iter().copied().chain([(3, 2), (11, 0)]).collect();
                add_set(bench, &mut maker, &memory, &content(255, &longer, &[], &[]));
            }
        }
    }
    for one in 0..=6 {
        for two in 0..=6 {
            for three in 0..=6 {
                let list = [one, two, three];
                add_set(bench, &mut maker, &memory, &content(2, &whole, &list, &[]));
            }
        }
    }
    for code in 0..=17 {
        for setter in 1..=15 {
            let list = [counted(setter), (13, 0)];
            add_set(bench, &mut maker, &memory, &content(0, &list, &[], &[code]));
            let list = [counted(setter), (12, 0), (15, 0)];
            add_set(
                bench,
                &mut maker,
                &memory,
                &content(0, &list, &[2], &[code]),
            );
            let list = [counted(setter), (3, 1), (11, 0), (15, 0)];
            add_set(
                bench,
                &mut maker,
                &memory,
                &content(0, &list, &[], &[16, code]),
            );
        }
        for services in [
            vec![],
            vec![1],
            vec![2],
            vec![3],
            vec![4],
            vec![5],
            vec![3, 4, 5],
        ] {
            let set = content(3, &whole, &services, &[5, code]);
            add_set(bench, &mut maker, &memory, &set);
            // No conditioning action.
            add_set(
                bench,
                &mut maker,
                &memory,
                &content(3, &[], &services, &[code]),
            );
        }
    }
}

/// Every code and every count about the allowed ones, every class, and a gap
/// at every place of every list.
fn ranges(bench: &mut Bench) {
    bench.part = "ranges of a set".to_string();
    let mut maker = Maker::new(Random::of(bench.seed, "ranges", 0));
    let memory = opened(&mut maker, ONE_OF_EACH, 0);
    for class in 0..=255 {
        add_set(
            bench,
            &mut maker,
            &memory,
            &content(class, &[(13, 0)], &[], &[5]),
        );
        add_set(bench, &mut maker, &memory, &content(class, &[], &[], &[]));
    }
    for code in (0..=18).chain([127, 128, 255]) {
        for count in (0..=18).chain([32, 127, 128, 255]) {
            add_set(
                bench,
                &mut maker,
                &memory,
                &content(1, &[(code, count)], &[], &[]),
            );
            let list = [(code, count), (13, 0)];
            add_set(bench, &mut maker, &memory, &content(1, &list, &[], &[]));
            let list = [(15, 0), (code, count), (3, 1), (11, 0)];
            add_set(bench, &mut maker, &memory, &content(1, &list, &[], &[]));
        }
    }
    for code in 0..=255 {
        add_set(
            bench,
            &mut maker,
            &memory,
            &content(1, &[(13, 0)], &[code], &[]),
        );
        add_set(
            bench,
            &mut maker,
            &memory,
            &content(1, &[(13, 0)], &[2, 3], &[11, 12, code]),
        );
    }
    // Full lists, then a code 0 or another byte at each place.
    let conditioning: Vec<(u8, u8)> = (0..11).map(|_| (1, 2)).chain([(6, 3)]).collect();
    let full = content(255, &conditioning, &[1, 2, 3, 4, 5, 0, 0, 0], &[11; 12]);
    for place in 0..full.len() {
        for value in [0, 1, 5, 11, 16, 17] {
            let mut changed = full.clone();
            changed[place] = value;
            add_set(bench, &mut maker, &memory, &changed);
            if place > 0 {
                changed[place - 1] = 0;
                add_set(bench, &mut maker, &memory, &changed);
            }
        }
    }
}

/// Sets under every prefix length and every length: RANGE, MISFIT or accepted.
fn fits(bench: &mut Bench) {
    for place in 0..bench.scaled(24, 12) {
        bench.part = format!("fit {place}");
        let mut maker = Maker::new(Random::of(bench.seed, "fits", place));
        let set = match place {
            // The sum F of 31 and 32 before an X action, and of 32 without.
            0 => vec![(1, 16), (1, 15), (13, 0)],
            1 => vec![(1, 16), (1, 16), (13, 0)],
            2 => vec![(1, 16), (1, 15), (6, 1)],
            3 => vec![(14, 0), (12, 0), (15, 0)],
            4 => vec![(14, 0), (1, 15), (11, 0), (15, 0)],
            5 => vec![(14, 0), (6, 15)],
            6 => vec![],
            7 => vec![(13, 0)],
            _ => Vec::new(),
        };
        let content = match place {
            0..=3 | 5..=7 => content(1, &set, &[], &[]),
            4 => content(1, &[(14, 0), (1, 15), (3, 1), (11, 0), (15, 0)], &[], &[]),
            _ => {
                let mut bytes = Vec::new();
                bodies::put_content(&mut bytes, &maker.set());
                bytes
            }
        };
        let memory = opened(&mut maker, ONE_OF_EACH, 3);
        let mut memory_with_set = memory.clone();
        let mut body = vec![0, 0];
        body.extend_from_slice(&content);
        let body = Lent::new(&body, &mut maker.random);
        provision(bench, Kind::AddSet, &mut memory_with_set, &body);
        for prefix in 0..=17 {
            for length in 0..=33 {
                let mut rule = vec![0; bodies::RULE];
                rule[0] = 1;
                rule[1] = prefix;
                rule[2..2 + usize::from(prefix.min(16))].fill(7);
                rule[18] = length;
                let rule = Lent::new(&rule, &mut maker.random);
                let mut memory = memory_with_set.clone();
                provision(bench, Kind::AddRule, &mut memory, &rule);
            }
        }
    }
}

/// For each kind a body that is accepted, and each of its bytes changed.
fn every_byte_of_bodies(bench: &mut Bench, place: usize) {
    bench.part = format!("bodies {place}");
    let mut maker = Maker::new(Random::of(bench.seed, "bodies", place));
    let rooms = Rooms { sets: 5, rules: 9 };
    let bytes = layout::encode(&maker.plan(rooms, 4, 7));
    let plan = layout::decode(&bytes);
    let memory = Lent::new(&bytes, &mut maker.random);
    for kind in KINDS {
        let mut body = maker.body(kind, plan.as_ref(), rooms);
        for _ in 0..60 {
            let call = calls::provisioning(kind).expect("a provisioning call");
            if call(&mut bytes.clone(), &body).is_ok() {
                break;
            }
            body = maker.body(kind, plan.as_ref(), rooms);
        }
        for place in 0..body.len() {
            for wrong in maker.wrong_values(body[place]) {
                let mut changed = body.clone();
                changed[place] = wrong;
                let changed = Lent::new(&changed, &mut maker.random);
                provision(bench, kind, &mut memory.clone(), &changed);
            }
        }
        // The front part of the body, of every length, and longer ones.
        body.extend([255, 0, 7]);
        for length in 0..=body.len() {
            let part = Lent::front(&body, length, &mut maker.random);
            provision(bench, kind, &mut memory.clone(), &part);
        }
    }
}

/// Every call over memories of every length up to a few bytes behind the
/// size; the bytes behind the part that is lent are those of the plan.
fn memory_lengths(bench: &mut Bench, place: usize) {
    bench.part = format!("memory lengths {place}");
    let mut maker = Maker::new(Random::of(bench.seed, "memory lengths", place));
    let rooms = maker.small_rooms();
    let size = layout::size(rooms);
    let mut bytes = layout::encode(&maker.plan(rooms, 4, 7));
    let plan = layout::decode(&bytes);
    bytes.extend(maker.random.bytes(3));
    let list: Vec<(Kind, Lent)> = KINDS
        .iter()
        .map(|&kind| {
            let body = maker.body(kind, plan.as_ref(), rooms);
            (kind, Lent::new(&body, &mut maker.random))
        })
        .collect();
    for length in 0..=size + 3 {
        for (kind, body) in &list {
            let mut memory = Lent::front(&bytes, length, &mut maker.random);
            provision(bench, *kind, &mut memory, body);
        }
    }
    for (kind, body) in &list {
        provision(bench, *kind, &mut Lent::nothing(), body);
        provision(bench, *kind, &mut Lent::nothing(), &Lent::nothing());
    }
}

/// The largest rooms there are, with a rule less than the room, so that the
/// calls meet FULL and move many slots.
fn largest(bench: &mut Bench) {
    bench.part = "the largest plan".to_string();
    let mut maker = Maker::new(Random::of(bench.seed, "largest", 0));
    let plan = maker.largest_plan(4095);
    let rooms = plan.rooms;
    let mut bytes = layout::encode(&plan);
    bytes.extend(maker.random.bytes(40));
    let mut memory = Lent::new(&bytes, &mut maker.random);
    let mut plan = Some(plan);
    for turn in 0..bench.scaled(120, 20) {
        let kind = match turn % 8 {
            0..=2 => Kind::AddRule,
            3 => Kind::RemoveRule,
            4 => Kind::ChangeRule,
            5 => Kind::ReplaceSet,
            6 => Kind::RemoveSet,
            _ => Kind::AddSet,
        };
        let body = maker.body(kind, plan.as_ref(), rooms);
        let body = Lent::new(&body, &mut maker.random);
        if provision(bench, kind, &mut memory, &body) == 0 {
            plan = layout::decode(memory.slice());
        }
    }
    // Openings over it: as large, a byte too large, and smaller.
    let opening = maker.opening(rooms);
    let opening = Lent::new(&opening, &mut maker.random);
    let mut short = Lent::front(&bytes, layout::size(rooms) - 1, &mut maker.random);
    provision(bench, Kind::Open, &mut short, &opening);
    provision(bench, Kind::Open, &mut memory, &opening);
    let mut memory = Lent::new(&bytes, &mut maker.random);
    let smaller = maker.opening(Rooms {
        sets: 1000,
        rules: 4000,
    });
    let smaller = Lent::new(&smaller, &mut maker.random);
    provision(bench, Kind::Open, &mut memory, &smaller);
}
