//! The examiner: `npp_sound` and the reference give the same verdict.

use crate::bench::{hex, Bench};
use crate::c;
use crate::lent::Lent;
use crate::maker::{Maker, OLD_MARK};
use crate::random::Random;
use npp_reference::bodies;
use npp_reference::plan::Plan;
use npp_reference::rules::Rooms;
use npp_reference::{calls, layout};

const STAGE: &str = "plan";

const SEVERAL: &str = "plans with several sets and rules";
const SOUND: &str = "sound";
const UNSOUND: &str = "not sound";
const STILL_SOUND: &str = "a byte of the size changed, still sound";
const BY_ACCEPTING: &str = "not sound by accepting alone";

/// Rooms of the plans whose every byte is changed in turn, then others.
const ROOMS: [(u16, u16); 24] = [
    (1, 1),
    (2, 3),
    (3, 6),
    (5, 9),
    (4, 16),
    (8, 8),
    (1, 12),
    (6, 1),
    (2, 2),
    (3, 20),
    (9, 5),
    (7, 13),
    (2, 7),
    (12, 12),
    (5, 30),
    (2, 40),
    (16, 4),
    (20, 20),
    (64, 10),
    (300, 40),
    (10, 300),
    (257, 257),
    (1024, 3),
    (3, 4096),
];

const HEADER: usize = 64;
const OPENING_AT: usize = layout::ACCEPTING_AT - bodies::ACCEPTING_AT;

/// The bytes behind each plan.
const BEHIND: usize = 8;

/// Every byte is changed in the plans that are not larger.
const SWEPT: usize = 1300;

pub fn run(bench: &mut Bench) {
    let notes = [SEVERAL, SOUND, UNSOUND, STILL_SOUND, BY_ACCEPTING];
    bench.enter(STAGE, &["sound"], &notes);
    let plans = bench.scaled(ROOMS.len(), ROOMS.len());
    let mut sweeps = bench.scaled(17, 4);
    for place in 0..plans {
        bench.part = format!("plan {place}");
        let mut maker = Maker::new(Random::of(bench.seed, STAGE, place));
        let (sets, rules) = ROOMS[place % ROOMS.len()];
        let rooms = Rooms { sets, rules };
        let size = layout::size(rooms);
        let count = usize::from(sets.min(24)) * 3 + usize::from(rules.min(24)) * 4;
        let memory = made(bench, &mut maker, rooms, count);
        let lent = Lent::new(&memory, &mut maker.random);
        assert!(verdict(bench, &lent), "a plan made by calls is sound");
        if size <= SWEPT && sweeps > 0 {
            sweeps -= 1;
            every_byte(bench, &mut maker, &lent, size);
            every_length(bench, &mut maker, &memory, size);
        } else {
            some_bytes(bench, &mut maker, &lent, size);
            some_lengths(bench, &mut maker, &memory, size);
        }
        rebuilt(bench, &mut maker, &memory, rooms);
    }
    any_memories(bench);
    bench.demand_notes(&[SOUND, UNSOUND], 1000);
    bench.demand_notes(&[STILL_SOUND, BY_ACCEPTING], 200);
    bench.demand_notes(&[SEVERAL], 20);
}

/// A plan made by calls, with several sets and rules where the rooms allow it.
fn made(bench: &mut Bench, maker: &mut Maker, rooms: Rooms, count: usize) -> Vec<u8> {
    let mut memory = maker.memory_by_calls(rooms, count, BEHIND);
    for _ in 0..20 {
        let plan = layout::decode(&memory).expect("a plan made by calls is sound");
        if plan.sets.len() > 1 && plan.rules.len() > 1 {
            bench.note(SEVERAL, 1);
            break;
        }
        memory = maker.memory_by_calls(rooms, count, BEHIND);
    }
    memory
}

/// The verdict on which both agree.
pub fn verdict(bench: &mut Bench, memory: &Lent) -> bool {
    let before = memory.clone();
    let lines = || format!("memory {}\nsound", hex(before.slice()));
    bench.about_to(lines);
    let reference = u8::from(calls::sound(before.slice()));
    let library = c::sound(memory.slice());
    let lent = [("memory", memory, &before)];
    bench.agree("sound", lines, &library, &reference, &lent);
    bench.count("sound", 0);
    let sound = reference == 1;
    bench.note(if sound { SOUND } else { UNSOUND }, 1);
    let accepting = before.slice().get(layout::ACCEPTING_AT);
    if accepting.is_some_and(|&byte| byte > 1) {
        let mut mended = before.slice().to_vec();
        mended[layout::ACCEPTING_AT] = 0;
        bench.note(BY_ACCEPTING, u64::from(calls::sound(&mended)));
    }
    sound
}

/// Every byte of the size and every one behind it, changed in turn.
fn every_byte(bench: &mut Bench, maker: &mut Maker, memory: &Lent, size: usize) {
    let mut memory = memory.clone();
    for place in 0..memory.len() {
        changed_byte(bench, maker, &mut memory, place, size);
    }
}

/// The whole header, and bytes by chance.
fn some_bytes(bench: &mut Bench, maker: &mut Maker, memory: &Lent, size: usize) {
    let mut memory = memory.clone();
    for place in 0..HEADER {
        changed_byte(bench, maker, &mut memory, place, size);
    }
    for _ in 0..50 {
        let place = maker.random.below(memory.len());
        changed_byte(bench, maker, &mut memory, place, size);
    }
}

fn changed_byte(
    bench: &mut Bench,
    maker: &mut Maker,
    memory: &mut Lent,
    place: usize,
    size: usize,
) {
    let old = memory.slice()[place];
    for wrong in maker.wrong_values(old) {
        memory.slice_mut()[place] = wrong;
        let sound = verdict(bench, memory);
        if place < size && wrong != old && sound {
            bench.note(STILL_SOUND, 1);
        }
    }
    memory.slice_mut()[place] = old;
}

/// The front part of the memory, of every length up to a few bytes behind the
/// size; the bytes behind the part that is lent are those of the plan.
fn every_length(bench: &mut Bench, maker: &mut Maker, memory: &[u8], size: usize) {
    let mut lent = Lent::new(memory, &mut maker.random);
    for length in 0..=size + 3 {
        lent.set_length(length);
        verdict(bench, &lent);
    }
}

fn some_lengths(bench: &mut Bench, maker: &mut Maker, memory: &[u8], size: usize) {
    let mut lent = Lent::new(memory, &mut maker.random);
    let mut lengths = vec![0, 1, 63, 64, 65, size - 1, size, size + 1, size + 3];
    lengths.extend((0..20).map(|_| maker.random.below(size)));
    for length in lengths {
        lent.set_length(length);
        verdict(bench, &lent);
    }
}

/// Changes that keep the shape of a plan: slots exchanged, repeated, cleared
/// or made anew, the count and the rooms moved, other settings, a wrong
/// value of accepting, the mark of the layout before.
fn rebuilt(bench: &mut Bench, maker: &mut Maker, memory: &[u8], rooms: Rooms) {
    let (sets, rules) = (usize::from(rooms.sets), usize::from(rooms.rules));
    let set_at = |number: usize| HEADER + 48 * number;
    let rule_at = |place: usize| HEADER + 48 * sets + 24 * place;
    for _ in 0..250 {
        let mut bytes = memory.to_vec();
        for _ in 0..maker.random.weighted(&[(6, 1), (2, 2)]) {
            let held = usize::from(u16::from_be_bytes([bytes[4], bytes[5]])).min(rules);
            let (one, other) = (
                maker.random.below(held.max(1)),
                maker.random.below(held.max(1)),
            );
            let number = maker.random.below(sets.min(40));
            match maker.random.below(16) {
                0 => exchange(&mut bytes, rule_at(one), rule_at(other), 24),
                1 => bytes.copy_within(rule_at(one)..rule_at(one) + 24, rule_at(other)),
                2 => bytes[rule_at(one)..rule_at(one) + 24].fill(0),
                3 => put_count(&mut bytes, held + 1),
                4 => put_count(&mut bytes, held.saturating_sub(1)),
                5 if held > 0 => {
                    // The last rule goes, and the count with it: sound.
                    bytes[rule_at(held - 1)..rule_at(held)].fill(0);
                    put_count(&mut bytes, held - 1);
                }
                6 if held < rules => {
                    // A copy of the last rule with a longer prefix or length.
                    if held > 0 {
                        bytes.copy_within(rule_at(held - 1)..rule_at(held), rule_at(held));
                        let byte = rule_at(held) + maker.random.below(19);
                        bytes[byte] = bytes[byte].wrapping_add(1);
                    }
                    put_count(&mut bytes, held + 1);
                }
                7 => {
                    let mut set = maker.set();
                    if maker.random.percent(30) {
                        maker.disturb(&mut set);
                    }
                    let mut content = vec![1];
                    bodies::put_content(&mut content, &set);
                    bytes[set_at(number)..set_at(number) + content.len()].copy_from_slice(&content);
                }
                8 => bytes[set_at(number)..set_at(number) + 48].fill(0),
                9 => {
                    let from = set_at(maker.random.below(sets.min(40)));
                    exchange(&mut bytes, from, set_at(number), 48);
                }
                10 => {
                    // Another set's number in a rule.
                    let named = maker.random.pick(&[number, sets, sets - 1, 256 + number]);
                    let at = rule_at(one) + 19;
                    bytes[at..at + 2].copy_from_slice(&(named as u16).to_be_bytes());
                }
                11 => {
                    // A rule that fits a set that is there, or any set.
                    let set = maker.set();
                    let filter = maker.fitting_filter(None, &set);
                    let mut slot = Vec::new();
                    bodies::put_filter(&mut slot, &filter);
                    bytes[rule_at(one)..rule_at(one) + 19].copy_from_slice(&slot);
                }
                12 => {
                    // Other rooms over the same bytes.
                    let at = OPENING_AT + maker.random.below(4);
                    bytes[at] = bytes[at].wrapping_add(maker.random.pick(&[1, 255]));
                }
                13 => bytes[layout::ACCEPTING_AT] = maker.wrong_accepting(),
                14 => bytes[..OLD_MARK.len()].copy_from_slice(OLD_MARK),
                _ => {
                    let opening = maker.opening(rooms);
                    bytes[OPENING_AT..][..opening.len()].copy_from_slice(&opening);
                }
            }
        }
        let lent = Lent::new(&bytes, &mut maker.random);
        verdict(bench, &lent);
    }
}

fn put_count(bytes: &mut [u8], count: usize) {
    bytes[4..6].copy_from_slice(&(count as u16).to_be_bytes());
}

fn exchange(bytes: &mut [u8], one: usize, other: usize, width: usize) {
    for place in 0..width {
        bytes.swap(one + place, other + place);
    }
}

/// Memories of any bytes, some with a header that is in order.
fn any_memories(bench: &mut Bench) {
    bench.part = "memories of any bytes".to_string();
    let mut maker = Maker::new(Random::of(bench.seed, STAGE, usize::MAX));
    verdict(bench, &Lent::nothing());
    for _ in 0..bench.scaled(4000, 1000) {
        let length = maker.random.below(700);
        let mut bytes = match maker.random.below(4) {
            0 => vec![0; length],
            1 => maker.random.bytes(length).iter().map(|b| b % 3).collect(),
            _ => maker.random.bytes(length),
        };
        if bytes.len() >= HEADER && maker.random.percent(70) {
            let rooms = maker.small_rooms();
            let plan = Plan::open(&maker.opening(rooms)).expect("an opening in range");
            bytes[..HEADER].copy_from_slice(&layout::encode(&plan)[..HEADER]);
            if maker.random.percent(30) {
                put_count(&mut bytes, maker.random.below(4));
            }
        }
        let lent = Lent::new(&bytes, &mut maker.random);
        verdict(bench, &lent);
    }
}
