//! C-20, two plans side by side: a test for each of the request's sentences and
//! for each of its places in docs/DECISIONS.md, then generated plans.

use super::support::*;
use crate::bodies::{self, Kind};
use crate::calls;
use crate::comparing::{compare, ENTRY};
use crate::generate::{self, comparing::renumbered};
use crate::layout;
use crate::plan::Plan;
use crate::records::Run;
use crate::rules::*;
use crate::script::Machine;

/// Contents of sets; these two fit any filter with a wildcard length.
const ZN: &str = "class 255 ca ZNX sa - fa ZN";
const DN: &str = "class 255 ca DNX,CCDEF sa CDPNNP fa RN,DN";
/// These two fit any filter.
const ESCAPE: &str = "class 255 ca - sa - fa -";
const ESCAPE_3: &str = "class 3 ca - sa - fa -";

const NO_SET: u16 = 65_535;

/// A memory with sets of these numbers and contents, and with these rules.
fn plan(sets: &[(u16, &str)], rules: &[&str]) -> Vec<u8> {
    opened(OPEN, sets, rules)
}

fn opened(open: &str, sets: &[(u16, &str)], rules: &[&str]) -> Vec<u8> {
    let mut bench = Bench::new(&[]);
    bench.memory = vec![FILLING; 64 + 48 * 1024 + 24 * 4096];
    let sets = sets.iter().map(|(n, set)| format!("add-set {n} {set}"));
    let rules = rules.iter().map(|rule| format!("add-rule {rule}"));
    for line in [open.to_string()].into_iter().chain(sets).chain(rules) {
        assert_eq!(bench.provision(&line), 0, "{line}");
    }
    bench.memory
}

fn entry(kind: u8, filter: &str, left: u16, right: u16) -> Vec<u8> {
    let mut bytes = vec![kind];
    bytes.extend(body(&format!("remove-rule {filter}")));
    bytes.extend(left.to_be_bytes());
    bytes.extend(right.to_be_bytes());
    bytes
}

/// The entries with left and right exchanged.
fn exchanged(entries: &[u8]) -> Vec<u8> {
    let other = |entry: &[u8]| {
        let kind = [0, 2, 1, 3][usize::from(entry[0])];
        [&[kind], &entry[1..20], &entry[22..], &entry[20..22]].concat()
    };
    entries.chunks(ENTRY).flat_map(other).collect()
}

/// The entries of two sound plans.  The bytes behind them stay.
fn entries(left: &[u8], right: &[u8]) -> Vec<u8> {
    let mut out = vec![FILLING; ENTRY * 8192 + 7];
    let count = compare(left, right, &mut out).expect("two sound plans, and room");
    let behind = out.split_off(ENTRY * count);
    assert!(behind.iter().all(|&byte| byte == FILLING));
    out
}

/// Both ways round.
fn differ_in(left: &[u8], right: &[u8], expected: &[Vec<u8>]) {
    let expected = expected.concat();
    assert_eq!(entries(left, right), expected);
    assert_eq!(entries(right, left), exchanged(&expected));
}

/// C-20.4: any buffer will do then, an empty one too.
fn differ_in_nothing(left: &[u8], right: &[u8]) {
    differ_in(left, right, &[]);
    assert_eq!(compare(left, right, &mut []), Ok(0));
}

// ---------------------------------------------------------------------------
// The list

#[test]
fn the_bytes_of_an_entry() {
    assert_eq!(ENTRY, 24);
    let open = "open sets 300 rules 8 cc 55 dfltrn - a - b - answers 1 1 1 1";
    let left = opened(open, &[(258, ESCAPE)], &["NATL 1f 9 258", "HOUSE5 * * 258"]);
    let right = opened(open, &[(5, ESCAPE_3)], &["NATL 1f 9 5", "INTL 2 * 5"]);
    let only_right = [
        2, 0, 1, 2, 0, 0, 0, 0, 0, 0, 0, 0, 0, 0, 0, 0, 0, 0, 0, 0, 255, 255, 0, 5,
    ];
    let in_both = [
        3, 1, 2, 1, 15, 0, 0, 0, 0, 0, 0, 0, 0, 0, 0, 0, 0, 0, 0, 9, 1, 2, 0, 5,
    ];
    let only_left = [
        1, 5, 0, 0, 0, 0, 0, 0, 0, 0, 0, 0, 0, 0, 0, 0, 0, 0, 0, 0, 1, 2, 255, 255,
    ];
    assert_eq!(
        entries(&left, &right),
        [only_right, in_both, only_left].concat()
    );
}

#[test]
fn a_filter_that_one_of_them_holds() {
    let both = plan(&[(0, ZN)], &["NATL 3 * 0"]);
    let more = plan(&[(0, ZN), (5, DN)], &["NATL 12 * 5", "NATL 3 * 0"]);
    differ_in(&more, &both, &[entry(1, "NATL 12 *", 5, NO_SET)]);
    differ_in(&both, &more, &[entry(2, "NATL 12 *", NO_SET, 5)]);
}

/// The filter stands once, with both sets.
#[test]
fn a_filter_of_both_with_other_contents() {
    let left = plan(&[(1, ZN), (4, DN)], &["NATL 3 * 1", "NATL 4 * 4"]);
    let right = plan(&[(1, ZN), (2, DN)], &["NATL 3 * 1", "NATL 4 * 1"]);
    differ_in(&left, &right, &[entry(3, "NATL 4 *", 4, 1)]);
}

/// Class rising, then prefix with the shorter first, then stated lengths
/// rising with the wildcard last, whichever plan holds the filter.
#[test]
fn in_listing_order() {
    let filters = [
        "INTL 9 *",
        "NATL * 1",
        "NATL * 32",
        "NATL * *",
        "NATL 1 5",
        "NATL 1 *",
        "NATL 10 2",
        "NATL 10 16",
        "NATL 10 *",
        "NATL 1000000000000000 16",
        "NATL 101 *",
        "NATL 2 *",
        "NATL f 3",
        "UNKNOWN * *",
        "HOUSE5 0 *",
    ];
    for pattern in 0..filters.len() {
        let (mut left, mut right) = (Vec::new(), Vec::new());
        let mut expected = Vec::new();
        for (place, filter) in filters.into_iter().enumerate() {
            let rule = format!("{filter} 7");
            match (place * (pattern + 1) + pattern) % 4 {
                0 => {
                    left.push(rule);
                    expected.push(entry(1, filter, 7, NO_SET));
                }
                1 => {
                    right.push(rule);
                    expected.push(entry(2, filter, NO_SET, 7));
                }
                2 => {
                    left.push(format!("{filter} 3"));
                    right.push(rule);
                    expected.push(entry(3, filter, 3, 7));
                }
                _ => {
                    left.push(rule.clone());
                    right.push(rule);
                }
            }
        }
        // Added from the last to the first.
        left.reverse();
        let of = |rules: &[String]| {
            let open = "open sets 8 rules 20 cc 55 dfltrn - a - b - answers 1 1 1 1";
            let rules: Vec<&str> = rules.iter().map(String::as_str).collect();
            opened(open, &[(7, ESCAPE), (3, ESCAPE_3)], &rules)
        };
        differ_in(&of(&left), &of(&right), &expected);
    }
}

/// A filter that the other plan has with another class, prefix or length is
/// another filter.
#[test]
fn near_filters() {
    let one = plan(&[(0, ESCAPE)], &["NATL 12 5 0"]);
    for (filter, before) in [
        ("INTL 12 5", true),
        ("UNKNOWN 12 5", false),
        ("NATL 1 5", true),
        ("NATL 120 5", false),
        ("NATL 13 5", false),
        ("NATL * 5", true),
        ("NATL 12 4", true),
        ("NATL 12 6", false),
        ("NATL 12 *", false),
    ] {
        let other = plan(&[(0, ESCAPE)], &[&format!("{filter} 0")]);
        let mut expected = [
            entry(1, "NATL 12 5", 0, NO_SET),
            entry(2, filter, NO_SET, 0),
        ];
        if before {
            expected.reverse();
        }
        differ_in(&one, &other, &expected);
    }
}

// ---------------------------------------------------------------------------
// What is compared

/// C-20.1: equal contents under other numbers.
#[test]
fn contents_and_not_numbers() {
    let rules = ["NATL 1 * 0", "NATL 2 * 1", "NATL 3 * 0"];
    let moved = ["NATL 1 * 6", "NATL 2 * 0", "NATL 3 * 1"];
    let left = plan(&[(0, ZN), (1, DN)], &rules);
    let right = plan(&[(6, ZN), (0, DN), (1, ZN)], &moved);
    differ_in_nothing(&left, &right);
}

/// C-20.2: the numbers are equal, and the contents are not.
#[test]
fn one_number_with_other_contents() {
    let rules = ["NATL 1 * 0", "NATL 2 * 1"];
    let left = plan(&[(0, ZN), (1, DN)], &rules);
    let right = plan(&[(0, DN), (1, DN)], &rules);
    differ_in(&left, &right, &[entry(3, "NATL 1 *", 0, 0)]);
    let right = plan(&[(0, DN), (1, ZN)], &rules);
    let expected = [entry(3, "NATL 1 *", 0, 0), entry(3, "NATL 2 *", 1, 1)];
    differ_in(&left, &right, &expected);
}

/// C-20.5: the class, and each list from its first action to its last.
#[test]
fn every_part_of_a_content() {
    let contents = [
        "class 255 ca AC3,PFXA2,IGN1,SNX,CCDEF sa CDPNNP,CDIAL fa RN,AC,SN",
        "class 0 ca AC3,PFXA2,IGN1,SNX,CCDEF sa CDPNNP,CDIAL fa RN,AC,SN",
        "class 0 ca AC3,PFXB2,IGN1,SNX,CCDEF sa CDPNNP,CDIAL fa RN,AC,SN",
        "class 0 ca AC2,PFXA2,IGN1,SNX,CCDEF sa CDPNNP,CDIAL fa RN,AC,SN",
        "class 0 ca AC3,PFXA2,IGN1,CCDEF,SNX sa CDPNNP,CDIAL fa RN,AC,SN",
        "class 0 ca AC3,PFXA2,IGN1,SNX,CCDEF sa CDPNNP fa RN,AC,SN",
        "class 0 ca AC3,PFXA2,IGN1,SNX,CCDEF sa CDPNNP,ASDLKUP fa RN,AC,SN",
        "class 0 ca AC3,PFXA2,IGN1,SNX,CCDEF sa INPRTG,CDPNNP,CDIAL fa RN,AC,SN",
        "class 0 ca AC3,PFXA2,IGN1,SNX,CCDEF sa CDPNNP,CDIAL fa RN,AC",
        "class 0 ca AC3,PFXA2,IGN1,SNX,CCDEF sa CDPNNP,CDIAL fa RN,SN,AC",
        "class 0 ca AC3,PFXA2,IGN1,SNX,CCDEF sa CDPNNP,CDIAL fa SP,AC,SN",
        "class 0 ca AC3,PFXA2,IGN1,SNX,CCDEF sa CDPNNP,CDIAL fa RN,AC,SN,AC,SN,AC,SN,AC,SN,AC,SN,AC",
        "class 0 ca AC3,PFXA2,IGN1,SNX,CCDEF sa CDPNNP,CDIAL fa RN,AC,SN,AC,SN,AC,SN,AC,SN,AC,SN,SN",
        ESCAPE,
        ESCAPE_3,
    ];
    for (one, left) in contents.iter().enumerate() {
        for (other, right) in contents.iter().enumerate() {
            let [left, right] = [left, right].map(|set| plan(&[(2, *set)], &["NATL 1 * 2"]));
            match one == other {
                true => differ_in_nothing(&left, &right),
                false => differ_in(&left, &right, &[entry(3, "NATL 1 *", 2, 2)]),
            }
        }
    }
}

/// C-20.1: settings, rooms and sets that no rule names are left aside.
#[test]
fn what_is_left_aside() {
    let rules = ["NATL 1 * 0", "NATL 2 * 1"];
    let left = plan(&[(0, ZN), (1, DN)], &rules);
    for open in [
        "open sets 8 rules 8 cc 1 dfltrn - a - b - answers 1 1 1 1",
        "open sets 8 rules 8 cc 55 dfltrn 0099 a d b ef answers 1 1 1 1",
        "open sets 8 rules 8 cc 55 dfltrn - a - b - answers 4 3 2 1",
        "open sets 8 rules 8 cc 55 dfltrn - a - b - answers 1 1 1 1 accepting 1",
        "open sets 2 rules 2 cc 55 dfltrn - a - b - answers 1 1 1 1",
        "open sets 1024 rules 4096 cc 55 dfltrn - a - b - answers 1 1 1 1",
    ] {
        differ_in_nothing(&left, &opened(open, &[(0, ZN), (1, DN)], &rules));
    }
    let unnamed = plan(&[(0, ZN), (1, DN), (2, ESCAPE), (7, DN)], &rules);
    differ_in_nothing(&left, &unnamed);
    differ_in_nothing(&plan(&[], &[]), &plan(&[(3, ESCAPE)], &[]));
}

#[test]
fn one_memory_as_both() {
    let rules = ["NATL 1 * 0", "NATL 2 * 1"];
    let memory = plan(&[(0, ZN), (1, DN)], &rules);
    differ_in_nothing(&memory, &memory);
    let empty = plan(&[], &[]);
    differ_in_nothing(&empty, &empty);
}

// ---------------------------------------------------------------------------
// Refusals

/// "exactly if the entries don't all fit, and then none is written"
#[test]
fn room_for_every_length() {
    let left = plan(&[(0, ZN)], &["NATL 1 * 0", "NATL 2 * 0"]);
    let right = plan(&[(0, DN)], &["NATL 1 * 0", "NATL 3 * 0"]);
    let expected = entries(&left, &right);
    assert_eq!(expected.len(), 72);
    for length in 0..80 {
        let mut out = vec![FILLING; length];
        let given = compare(&left, &right, &mut out);
        if length < 72 {
            assert_eq!(given, Err(Refusal::Room), "{length}");
            assert!(out.iter().all(|&byte| byte == FILLING));
        } else {
            assert_eq!(given, Ok(3), "{length}");
            assert_eq!(out[..72], expected);
            assert!(out[72..].iter().all(|&byte| byte == FILLING));
        }
    }
}

/// PLAN exactly if one of them is not sound, before ROOM; nothing is written.
#[test]
fn damage_of_every_byte_on_either_side() {
    let open = "open sets 2 rules 3 cc 55 dfltrn - a - b - answers 1 1 1 1";
    let size = 64 + 48 * 2 + 24 * 3;
    let sound = &opened(open, &[(0, ZN)], &["NATL 1 * 0"])[..size];
    let other = &opened(open, &[(1, DN)], &["NATL 1 * 1", "NATL 4 * 1"])[..size];
    let mut damaged = sound.to_vec();
    for place in 0..size {
        for value in [0, 1, 2, 16, 255, sound[place] ^ 1] {
            damaged[place] = value;
            for room in [0, 72] {
                let mut out = vec![FILLING; room];
                let given = [
                    compare(&damaged, other, &mut out.clone()),
                    compare(other, &damaged, &mut out.clone()),
                    compare(&damaged, &damaged, &mut out.clone()),
                ];
                if calls::sound(&damaged) {
                    assert!(!given.contains(&Err(Refusal::Plan)));
                } else {
                    assert_eq!(given, [Err(Refusal::Plan); 3], "place {place}");
                    let _ = compare(&damaged, other, &mut out);
                    let _ = compare(other, &damaged, &mut out);
                    assert!(out.iter().all(|&byte| byte == FILLING));
                }
            }
        }
        damaged[place] = sound[place];
    }
    for length in 0..size {
        let mut out = [FILLING; 72];
        for (left, right) in [(&sound[..length], other), (other, &sound[..length])] {
            assert_eq!(compare(left, right, &mut out), Err(Refusal::Plan));
        }
        assert_eq!(out, [FILLING; 72]);
    }
}

/// Bytes behind the size that the rooms need are not looked at.
#[test]
fn bytes_behind_the_plans() {
    let left = plan(&[(0, ZN)], &["NATL 1 * 0"]);
    let right = plan(&[(0, DN)], &["NATL 1 * 0"]);
    let size = 64 + 48 * 8 + 24 * 8;
    let expected = [entry(3, "NATL 1 *", 0, 0)];
    differ_in(&left[..size], &right, &expected);
    differ_in(&left, &right[..size], &expected);
    differ_in(&left[..size], &right[..size + 1], &expected);
}

// ---------------------------------------------------------------------------
// The limits

/// A plan of the largest rooms with a rule for each prefix of three digits.
fn full_plan(set: u16, content: &str, length: Option<u8>) -> Vec<u8> {
    let open = "open sets 1024 rules 4096 cc 55 dfltrn - a - b - answers 1 1 1 1";
    let memory = opened(open, &[(set, content)], &[]);
    let mut plan = layout::decode(&memory).expect("a sound plan");
    for number in 0..4096u16 {
        let digits = [number >> 8, number >> 4, number].map(|digit| digit as u8 & 15);
        let filter = Filter {
            class: Class::NATL,
            prefix: digits.to_vec(),
            length,
        };
        plan.rules.insert(filter, SetNumber(set));
    }
    assert_eq!(plan.rules.len(), 4096);
    layout::encode(&plan)
}

/// 4,096 rules against 4,096 others: 8,192 entries, which go back and forth.
#[test]
fn at_the_limits() {
    let left = full_plan(1023, ESCAPE, None);
    let right = full_plan(512, ESCAPE, Some(20));
    let mut out = vec![FILLING; ENTRY * 8192];
    assert_eq!(
        compare(&left, &right, &mut out[1..]),
        Err(Refusal::Room),
        "one byte short"
    );
    assert!(out.iter().all(|&byte| byte == FILLING));
    assert_eq!(compare(&left, &right, &mut out), Ok(8192));
    for (place, pair) in out.chunks(2 * ENTRY).enumerate() {
        let prefix = format!("{place:03x}");
        let stated = entry(2, &format!("NATL {prefix} 20"), NO_SET, 512);
        let wildcard = entry(1, &format!("NATL {prefix} *"), 1023, NO_SET);
        assert_eq!(pair, [stated, wildcard].concat());
    }
    let other = full_plan(0, ESCAPE_3, None);
    let in_both = entries(&left, &other);
    assert_eq!(in_both.len(), ENTRY * 4096);
    assert!(in_both.chunks(ENTRY).all(|entry| entry[0] == 3));
    differ_in_nothing(&left, &full_plan(7, ESCAPE, None));
}

// ---------------------------------------------------------------------------
// Generated plans

/// The plan of a generated file after each provisioning record, and its numbers.
fn plans_and_numbers(seed: u64) -> (Vec<Plan>, Vec<Vec<u8>>) {
    let file = generate::record_file(seed, "clean", 150).expect("a kind");
    let (mut run, mut plans, mut numbers) = (Run::default(), Vec::new(), Vec::new());
    let mut rest = &file[..];
    while let Some((&byte, behind)) = rest.split_first() {
        let kind = Kind::from_byte(byte).expect("a kind");
        let (body, behind) = behind.split_at(kind.body_length());
        rest = behind;
        if kind == Kind::Number {
            numbers.push(body.to_vec());
        }
        // A refused record leaves the plan as it was.
        if run.carry_out(kind, body).is_ok() && kind.provisions() {
            plans.extend(run.plan.clone());
        }
    }
    (plans, numbers)
}

/// The filter, the set's number and the content of each rule, by the calls that
/// list and read.
fn listed(memory: &[u8]) -> Vec<(Filter, u16, Vec<u8>)> {
    let count = calls::rule_count(memory).expect("a sound plan");
    let rule = |place| {
        let (filter, set) = calls::rule_at(memory, RulePlace(place)).expect("a rule");
        let mut content = [0; bodies::SET];
        calls::set_content(memory, set, &mut content).expect("a set");
        (filter, set.0, content[2..].to_vec())
    };
    (0..count).map(rule).collect()
}

/// The same entries, each rule held against every rule of the other plan.
fn recounted(left: &[u8], right: &[u8]) -> Vec<u8> {
    let (left, right) = (listed(left), listed(right));
    let mut found: Vec<(Filter, u8, u16, u16)> = Vec::new();
    for (filter, number, content) in &left {
        match right.iter().find(|(other, ..)| other == filter) {
            None => found.push((filter.clone(), 1, *number, NO_SET)),
            Some((_, _, same)) if same == content => {}
            Some((_, other, _)) => found.push((filter.clone(), 3, *number, *other)),
        }
    }
    for (filter, number, _) in &right {
        if left.iter().all(|(other, ..)| other != filter) {
            found.push((filter.clone(), 2, NO_SET, *number));
        }
    }
    found.sort_by(|one, other| one.0.cmp(&other.0));
    let mut entries = Vec::new();
    for (filter, kind, left, right) in found {
        entries.push(kind);
        bodies::put_filter(&mut entries, &filter);
        entries.extend(left.to_be_bytes());
        entries.extend(right.to_be_bytes());
    }
    entries
}

/// A plan beside each of the plans that edits make of it.
#[test]
fn entries_are_those_of_a_recount() {
    let mut kinds = [0; 4];
    for seed in 0..12 {
        let (plans, _) = plans_and_numbers(seed);
        let images: Vec<Vec<u8>> = plans.iter().map(layout::encode).collect();
        for (place, left) in images.iter().enumerate().step_by(5) {
            for right in images[place..].iter().step_by(3) {
                let given = entries(left, right);
                assert_eq!(given, recounted(left, right), "seed {seed}");
                assert_eq!(entries(right, left), exchanged(&given));
                for entry in given.chunks(ENTRY) {
                    kinds[usize::from(entry[0])] += 1;
                }
            }
        }
    }
    assert!(kinds[1..].iter().all(|&count| count > 500), "{kinds:?}");
}

/// "Then, under equal settings, both plans give every number the same answer."
#[test]
fn an_empty_list_means_the_same_answers() {
    let (mut alike, mut answers) = (0, 0);
    for seed in 20..50 {
        let (plans, numbers) = plans_and_numbers(seed);
        let mut others: Vec<Plan> = plans.iter().cloned().map(renumbered).collect();
        others.extend(plans.iter().cloned());
        let last = plans.last().expect("a plan");
        let image = layout::encode(last);
        for mut other in others {
            if !entries(&image, &layout::encode(&other)).is_empty() {
                continue;
            }
            alike += 1;
            other.settings = last.settings.clone();
            for body in &numbers {
                answers += 1;
                assert_eq!(last.answer(body), other.answer(body));
            }
        }
    }
    assert!(alike > 60 && answers > 1000, "{alike}, {answers}");
}

/// Generated scripts compare both ways round: accepted with and without
/// differences of each kind, PLAN and ROOM.
#[test]
fn scripts_compare() {
    let (mut numbers, mut kinds, mut none) = ([0; 5], [0; 4], 0);
    for seed in 0..60 {
        let mut machine = Machine::default();
        for line in generate::call_script(seed, 200).lines() {
            let written = machine.carry_out(line).expect("a call").expect("a line");
            let words: Vec<&str> = written.split(' ').collect();
            if words[0] != "compare" {
                continue;
            }
            numbers[words[1].parse::<usize>().expect("a number")] += 1;
            let count = words[2].parse::<usize>().expect("a count");
            none += usize::from(words[1] == "0" && count == 0);
            for place in 0..count {
                let kind = &words[3][2 * ENTRY * place..][..2];
                kinds[kind.parse::<usize>().expect("a kind")] += 1;
            }
        }
    }
    assert!(none > 20, "{none}");
    assert!([0, 3, 4].iter().all(|&number| numbers[number] > 20));
    assert!(kinds[1..].iter().all(|&count| count > 50), "{kinds:?}");
}
