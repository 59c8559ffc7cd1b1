//! Plan memory: round trips, and damage of every single byte of a sound plan.

use super::support::*;
use crate::bodies::{self, Kind};
use crate::calls;
use crate::layout;
use crate::rules::{RulePlace, SetNumber};

const OPEN_SMALL: &str =
    "open sets 3 rules 4 cc 55 dfltrn 0099 a d b ef answers 1 2 3 4 accepting 1";

fn small_plan() -> Bench {
    Bench::new(&[
        OPEN_SMALL,
        "add-set 0 class 255 ca FPFX,CCDEF,DN7 sa INPRTG,CDPNNP,GRNLKUP fa RN,FPFX,DN,GRN",
        "add-set 2 class 4 ca IGN1,AC2,PFXA4,SNX,CCDEF sa CDPNNP,CDIAL fa PFXA,RN,AC,SN",
        "add-rule NATL 060 10 0",
        "add-rule UNKNOWN b 15 2",
        "add-rule UNKNOWN b339090 * 2",
    ])
}

fn small_size() -> usize {
    64 + 48 * 3 + 24 * 4
}

/// The image that the calls make from a memory's own bytes, if all of them
/// are accepted: by document 01 a sound plan is one that calls can make.
fn rebuilt(memory: &[u8]) -> Option<Vec<u8>> {
    let opening = memory.get(8..49)?;
    let (rooms, _) = bodies::opening(opening).ok()?;
    let size = layout::size(rooms);
    let held = memory.get(..size)?;
    let mut made = vec![0; size];
    calls::open(&mut made, opening).ok()?;
    let (set_area, rule_area) = held[64..].split_at(48 * usize::from(rooms.sets));
    for (slot, number) in set_area.chunks(48).zip(0u16..) {
        if slot[0] == 1 {
            let mut body = number.to_be_bytes().to_vec();
            body.extend(&slot[1..46]);
            calls::add_set(&mut made, &body).ok()?;
        }
    }
    let count = usize::from(u16::from_be_bytes([held[4], held[5]]));
    for slot in rule_area.chunks(24).take(count) {
        calls::add_rule(&mut made, &slot[..21]).ok()?;
    }
    Some(made)
}

fn is_what_calls_make(memory: &[u8]) -> bool {
    rebuilt(memory).is_some_and(|made| memory.starts_with(&made))
}

#[test]
fn the_image_is_the_layout_page() {
    let bench = small_plan();
    let memory = &bench.memory;
    assert_eq!(memory[..8], [78, 80, 80, 50, 0, 3, 0, 0]);
    assert_eq!(memory[8..49], body(OPEN_SMALL));
    assert_eq!(memory[49..64], [0; 15]);
    let set =
        body("add-set 2 class 4 ca IGN1,AC2,PFXA4,SNX,CCDEF sa CDPNNP,CDIAL fa PFXA,RN,AC,SN");
    assert_eq!(memory[112..160], [0; 48]);
    assert_eq!(memory[160], 1);
    assert_eq!(memory[161..206], set[2..]);
    assert_eq!(memory[206..208], [0; 2]);
    let rules = ["NATL 060 10 0", "UNKNOWN b 15 2", "UNKNOWN b339090 * 2"];
    for (place, rule) in rules.iter().enumerate() {
        let slot = &memory[208 + 24 * place..][..24];
        assert_eq!(slot[..21], body(&format!("add-rule {rule}")));
        assert_eq!(slot[21..], [0; 3]);
    }
    assert_eq!(memory[280..304], [0; 24]);
    assert!(memory[small_size()..].iter().all(|&byte| byte == FILLING));
}

#[test]
fn decoding_and_encoding_give_the_same_bytes() {
    let bench = small_plan();
    let plan = layout::decode(&bench.memory).expect("a sound plan");
    assert_eq!(layout::encode(&plan), bench.memory[..small_size()]);
    assert_eq!(
        rebuilt(&bench.memory).expect("a sound plan"),
        bench.memory[..small_size()]
    );
}

/// Every value at every place, also behind the size: sound exactly if calls
/// can make the bytes, and then decoding loses nothing.
#[test]
fn damage_of_every_byte() {
    let sound = small_plan();
    let mut damaged = sound.memory[..small_size() + 8].to_vec();
    let mut still_sound = 0;
    for place in 0..damaged.len() {
        let old = damaged[place];
        for value in 0..=255 {
            damaged[place] = value;
            let plan = layout::decode(&damaged);
            assert_eq!(
                plan.is_some(),
                is_what_calls_make(&damaged),
                "place {place}, value {value}"
            );
            if let Some(plan) = plan {
                still_sound += 1;
                assert!(damaged.starts_with(&layout::encode(&plan)));
            }
        }
        damaged[place] = old;
    }
    // Bytes behind the size never matter.
    assert!(still_sound > 8 * 256 && still_sound < damaged.len() * 64);
}

#[test]
fn damage_of_two_bytes() {
    let sound = small_plan();
    let mut damaged = sound.memory[..small_size()].to_vec();
    for first in 0..damaged.len() {
        for second in first + 1..damaged.len() {
            let old = (damaged[first], damaged[second]);
            damaged[first] = old.0.wrapping_add(1);
            damaged[second] = old.1.wrapping_sub(1);
            assert_eq!(
                calls::sound(&damaged),
                is_what_calls_make(&damaged),
                "{first} {second}"
            );
            (damaged[first], damaged[second]) = old;
        }
    }
}

/// Whole slots in wrong places: a filter twice, rules out of order, a rule
/// less or more than the count, a named set that is gone or another.
#[test]
fn damage_of_slots() {
    let sound = small_plan().memory;
    let (set, rule) = (|n: usize| 64 + 48 * n, |n: usize| 208 + 24 * n);
    let damages: [fn(&mut Vec<u8>, usize, usize, usize); 5] = [
        |memory, from, to, width| memory.copy_within(from..from + width, to),
        |memory, from, _, width| memory[from..from + width].fill(0),
        |memory, from, to, width| {
            let first = memory[from..from + width].to_vec();
            memory.copy_within(to..to + width, from);
            memory[to..to + width].copy_from_slice(&first);
        },
        |memory, _, _, _| memory[5] -= 1,
        |memory, _, _, _| memory[5] += 1,
    ];
    let places = [(0, 1), (0, 2), (1, 0), (1, 2), (1, 3), (2, 1), (2, 3)];
    for (number, damage) in damages.iter().enumerate() {
        for (from, to) in places {
            let mut rules = sound.clone();
            damage(&mut rules, rule(from), rule(to), 24);
            assert!(!calls::sound(&rules), "damage {number}, rules {from} {to}");
            assert!(!is_what_calls_make(&rules));
            if from < 3 && to < 3 {
                let mut sets = sound.clone();
                damage(&mut sets, set(from), set(to), 48);
                assert_eq!(calls::sound(&sets), is_what_calls_make(&sets));
            }
        }
    }
}

/// A memory under its size is unsound at every length.
#[test]
fn cut_memory() {
    let bench = small_plan();
    for length in 0..bench.memory.len() {
        assert_eq!(
            calls::sound(&bench.memory[..length]),
            length >= small_size()
        );
    }
}

/// Every call on an unsound memory draws PLAN (3) and changes nothing.
#[test]
fn plan_is_drawn_by_every_call() {
    let mut bench = small_plan();
    bench.memory[63] = 1;
    for line in [
        "add-set 1 class 255 ca - sa - fa -",
        "replace-set 0 class 255 ca - sa - fa -",
        "remove-set 0",
        "add-rule INTL * * 0",
        "change-rule UNKNOWN b 15 2",
        "remove-rule UNKNOWN b 15",
    ] {
        assert_eq!(bench.provision(line), 3, "{line}");
    }
    assert_eq!(
        bench.answer("number NATL 0601234567 NONE - asd - grn -"),
        refused(3)
    );
    assert_eq!(bench.conditioned(1, "0601234567"), (3, String::new()));
    assert_eq!(bench.stretch(1, "0601234567", 4), (0, 0));
    let mut out = [FILLING; 47];
    let written = calls::set_content(&bench.memory, SetNumber(0), &mut out);
    assert_eq!((calls::refusal_number(written), out), (3, [FILLING; 47]));
    assert_eq!(
        calls::refusal_number(calls::referrers(&bench.memory, SetNumber(0))),
        3
    );
    assert_eq!(calls::refusal_number(calls::rule_count(&bench.memory)), 3);
    assert_eq!(
        calls::refusal_number(calls::rule_at(&bench.memory, RulePlace(0))),
        3
    );
    assert_eq!(bench.provision(OPEN), 0);
}

/// PLAN before ROOM and RANGE, in every call that is lent a buffer.
#[test]
fn plan_before_room() {
    let mut bench = small_plan();
    bench.memory[63] = 1;
    for length in [0, 34, 46] {
        let mut out = vec![FILLING; length];
        assert_eq!(
            calls::answer(&bench.memory, &[255; 73], &mut out).refusal,
            3
        );
        let written = calls::conditioned(&bench.memory, 255, &[255], &mut out);
        assert_eq!(calls::refusal_number(written), 3);
        let written = calls::set_content(&bench.memory, SetNumber(65535), &mut out);
        assert_eq!(calls::refusal_number(written), 3);
        assert!(out.iter().all(|&byte| byte == FILLING));
    }
}

/// Set numbers, counts and places over 255, in the largest plan.
#[test]
fn two_byte_numbers() {
    let mut bench = Bench {
        memory: vec![FILLING; 64 + 48 * 1024 + 24 * 4096],
    };
    for line in [
        "open sets 1024 rules 4096 cc 55 dfltrn - a - b - answers 1 1 1 1",
        "add-set 1023 class 255 ca - sa - fa -",
        "add-set 258 class 3 ca ZNX sa - fa ZN",
    ] {
        assert_eq!(bench.provision(line), 0);
    }
    assert_eq!(bench.provision("add-set 1024 class 255 ca - sa - fa -"), 5);
    assert_eq!(bench.provision("add-set 1023 class 255 ca - sa - fa -"), 7);
    assert_eq!(bench.provision("add-rule NATL * * 2"), 8);
    for rule in 0..300 {
        let line = format!("add-rule NATL {rule:04} * {}", [258, 1023][rule % 2]);
        assert_eq!(bench.provision(&line), 0);
    }
    assert_eq!(
        bench.memory[..12],
        [78, 80, 80, 50, 1, 44, 0, 0, 4, 0, 16, 0]
    );
    assert_eq!(bench.memory[64 + 48 * 1023], 1);
    assert_eq!(bench.memory[64 + 48 * 1024 + 19..][..2], [1, 2]);
    assert_eq!(calls::rule_count(&bench.memory), Ok(300));
    let (filter, set) = calls::rule_at(&bench.memory, RulePlace(299)).expect("listed");
    assert_eq!((filter.prefix, set), (digits("0299"), SetNumber(1023)));
    for number in [258, 1023] {
        assert_eq!(calls::referrers(&bench.memory, SetNumber(number)), Ok(150));
    }
    let mut out = [FILLING; 47];
    assert_eq!(
        calls::set_content(&bench.memory, SetNumber(258), &mut out),
        Ok(47)
    );
    assert_eq!(out[..], body("add-set 258 class 3 ca ZNX sa - fa ZN"));
    let number = "number NATL 0298 NONE - asd - grn -";
    assert_eq!(bench.answer(number), answered(4, 3, 0, &[], "0298"));
}

/// CUT before PLAN, and before the contents are looked at.
#[test]
fn cut_bodies() {
    let mut bench = small_plan();
    for sound in [true, false] {
        bench.memory[63] = u8::from(!sound);
        for kind in Kind::ALL.into_iter().filter(|kind| kind.provisions()) {
            for length in 0..kind.body_length() {
                let record = [vec![kind.byte()], vec![255; length]].concat();
                assert_eq!(bench.provision_bytes(&record), 1);
            }
        }
        for length in 0..73 {
            assert_eq!(bench.answer_bytes(&vec![255; length]), refused(1));
        }
    }
}

/// Where `replay` stops, and what it leaves.
#[test]
fn replay_stops() {
    let calls_made = [OPEN, S1, S1, "add-rule NATL * * 0"].map(record).concat();
    let expected = Bench::new(&[OPEN, S1, "add-rule NATL * * 0"]).memory;
    let run = |list: &[u8], places: usize| {
        let mut memory = vec![FILLING; 2000];
        let mut numbers = vec![FILLING; places];
        let done = calls::replay(&mut memory, list, &mut numbers);
        (done, numbers, memory == expected)
    };
    assert_eq!(run(&calls_made, 4), (4, vec![0, 0, 7, 0], true));
    assert_eq!(
        run(&calls_made, 6),
        (4, vec![0, 0, 7, 0, FILLING, FILLING], true)
    );
    assert_eq!(run(&calls_made, 3), (3, vec![0, 0, 7], false));
    assert_eq!(run(&calls_made, 0), (0, vec![], false));
    assert_eq!(run(&calls_made[..calls_made.len() - 1], 4).0, 3);
    let behind = |extra: &[u8]| run(&[&calls_made[..], extra].concat(), 6);
    for extra in [&[7, 1, 2][..], &[9], &[255], &[3], &[3, 0]] {
        assert_eq!(behind(extra), (4, vec![0, 0, 7, 0, FILLING, FILLING], true));
    }
    assert_eq!(behind(&[3, 0, 0]), (5, vec![0, 0, 7, 0, 11, FILLING], true));
    assert_eq!(run(&record(S1), 2), (1, vec![3, FILLING], false));
}
