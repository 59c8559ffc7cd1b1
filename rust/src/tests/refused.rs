//! Every call with empty, short, damaged and random memory: what was lent is held against its copy after
//! each refusal, and what may not change after each accepted call. Each call draws each of its refusals,
//! as the header names them, and no other.

use super::lent::{Lent, Random};
use super::*;
use crate::{accepted, c, Refusal, RulePlace, DIFFERENCE_BYTES};
use std::collections::BTreeMap;

/// Where a plan memory has the byte of C-12 (docs/LAYOUT.md).
const ACCEPTING_AT: usize = 48;

/// All that a call may be given.
#[derive(Clone, PartialEq, Eq)]
struct Arguments {
    plan: Lent,
    /// A body, digits, records, or the plan on the right.
    given: Lent,
    /// A buffer for digits, a set's content, numbers, or differences.
    out: Lent,
    class: u8,
    value: u8,
    /// A set number, or a place.
    number: u16,
}

/// What a call did.
struct Did {
    refusal: u8,
    /// How many bytes it says that it wrote at the front of `out`.
    written: usize,
    /// Every other field is 0.
    zero: bool,
}

impl Did {
    fn number(refusal: u8) -> Did {
        Did {
            refusal,
            written: 0,
            zero: true,
        }
    }

    fn written(given: c::Written) -> Did {
        Did {
            refusal: given.refusal,
            written: given.bytes,
            zero: given.bytes == 0,
        }
    }

    fn counted(given: c::Counted) -> Did {
        Did {
            refusal: given.refusal,
            written: 0,
            zero: given.rules == 0,
        }
    }
}

/// A call: as the library exports it, and as a method of `Plan` (none where the class is no class).
struct Call {
    name: &'static str,
    /// Its refusals, without 0.
    refusals: &'static [u8],
    /// How many bytes of the plan memory it may have changed, by the memory that it leaves.
    may_change: fn(&[u8]) -> usize,
    exported: fn(&mut Arguments) -> Did,
    wrapped: fn(&mut Arguments) -> Option<Result<(), Refusal>>,
}

/// The bytes that the rooms of a plan need.
fn plan_size(memory: &[u8]) -> usize {
    let room = |at| u16::from_be_bytes([memory[at], memory[at + 1]]);
    crate::plan_bytes(room(8), room(10))
}

macro_rules! provisioning {
    ($($name:ident $refusals:expr),*) => {
        [$(Call {
            name: stringify!($name),
            refusals: &$refusals,
            may_change: plan_size,
            exported: |a| Did::number(c::$name(a.plan.slice_mut(), a.given.slice())),
            wrapped: |a| Some(Plan::over(a.plan.slice_mut()).$name(a.given.slice())),
        }),*]
    };
}

const PROVISIONS: [Call; 7] = provisioning!(
    open [1, 4, 5],
    add_set [1, 3, 5, 6, 7],
    replace_set [1, 3, 5, 6, 8, 9],
    remove_set [1, 3, 5, 8, 11],
    add_rule [1, 3, 5, 7, 8, 9, 10],
    change_rule [1, 3, 5, 8, 9],
    remove_rule [1, 3, 5, 8]
);

const OTHERS: [Call; 10] = [
    Call {
        name: "replay",
        refusals: &[],
        may_change: |memory| memory.len(),
        exported: |a| Did {
            refusal: 0,
            written: c::replay(a.plan.slice_mut(), a.given.slice(), a.out.slice_mut()),
            zero: true,
        },
        wrapped: |a| {
            Plan::over(a.plan.slice_mut()).replay(a.given.slice(), a.out.slice_mut());
            Some(Ok(()))
        },
    },
    Call {
        name: "sound",
        refusals: &[],
        may_change: |_| 0,
        exported: |a| {
            c::sound(a.plan.slice());
            Did::number(0)
        },
        wrapped: |a| {
            Plan::over(a.plan.slice()).is_sound();
            Some(Ok(()))
        },
    },
    Call {
        name: "answer",
        refusals: &[1, 3, 4, 5, 12, 13],
        may_change: |_| 0,
        exported: |a| {
            let given = c::answer(a.plan.slice(), a.given.slice(), a.out.slice_mut());
            Did {
                refusal: given.refusal,
                written: given.digits,
                zero: given.outcome == 0
                    && given.class == 0
                    && given.response == 0
                    && given.count == 0
                    && given.actions == [0; 8]
                    && given.digits == 0,
            }
        },
        wrapped: |a| {
            let plan = Plan::over(a.plan.slice());
            Some(plan.answer(a.given.slice(), a.out.slice_mut()).map(|_| ()))
        },
    },
    Call {
        name: "conditioned",
        refusals: &[3, 4, 5, 12],
        may_change: |_| 0,
        exported: |a| {
            let out = a.out.slice_mut();
            Did::written(c::conditioned(
                a.plan.slice(),
                a.class,
                a.given.slice(),
                out,
            ))
        },
        wrapped: |a| {
            let class = Class::of(a.class)?;
            let plan = Plan::over(a.plan.slice());
            let given = plan.conditioned(class, a.given.slice(), a.out.slice_mut());
            Some(given.map(|_| ()))
        },
    },
    Call {
        name: "stretch",
        refusals: &[],
        may_change: |_| 0,
        exported: |a| {
            let digits = a.given.slice();
            let span = c::stretch(a.plan.slice(), a.class, digits, a.value);
            assert!(span.start + span.count <= digits.len());
            Did::number(0)
        },
        wrapped: |a| {
            Plan::over(a.plan.slice()).stretch(Class::of(a.class)?, a.given.slice(), a.value);
            Some(Ok(()))
        },
    },
    Call {
        name: "set_content",
        refusals: &[3, 4, 5, 8],
        may_change: |_| 0,
        exported: |a| Did::written(c::set_content(a.plan.slice(), a.number, a.out.slice_mut())),
        wrapped: |a| {
            let plan = Plan::over(a.plan.slice());
            let given = plan.set_content(SetNumber(a.number), a.out.slice_mut());
            Some(given.map(|_| ()))
        },
    },
    Call {
        name: "referrers",
        refusals: &[3, 5, 8],
        may_change: |_| 0,
        exported: |a| Did::counted(c::referrers(a.plan.slice(), a.number)),
        wrapped: |a| {
            let plan = Plan::over(a.plan.slice());
            Some(plan.referrers(SetNumber(a.number)).map(|_| ()))
        },
    },
    Call {
        name: "rule_count",
        refusals: &[3],
        may_change: |_| 0,
        exported: |a| Did::counted(c::rule_count(a.plan.slice())),
        wrapped: |a| Some(Plan::over(a.plan.slice()).rule_count().map(|_| ())),
    },
    Call {
        name: "rule_at",
        refusals: &[3, 5],
        may_change: |_| 0,
        exported: |a| {
            let given = c::rule_at(a.plan.slice(), a.number);
            Did {
                refusal: given.refusal,
                written: 0,
                zero: given.class == 0
                    && given.digits == 0
                    && given.length == 0
                    && given.prefix == [0; 16]
                    && given.set == 0,
            }
        },
        wrapped: |a| {
            let plan = Plan::over(a.plan.slice());
            Some(plan.rule_at(RulePlace(a.number)).map(|_| ()))
        },
    },
    Call {
        name: "compare",
        refusals: &[3, 4],
        may_change: |_| 0,
        exported: |a| {
            let given = c::compare(a.plan.slice(), a.given.slice(), a.out.slice_mut());
            Did {
                refusal: given.refusal,
                written: DIFFERENCE_BYTES * given.differences,
                zero: given.differences == 0,
            }
        },
        wrapped: |a| {
            let (left, right) = (Plan::over(a.plan.slice()), Plan::over(a.given.slice()));
            let differences = left.compare(&right, a.out.slice_mut());
            Some(differences.map(|differences| differences.for_each(drop)))
        },
    },
];

/// Makes a call twice on copies of the same arguments, exported and wrapped, and holds both against them.
fn compare(call: &Call, arguments: &Arguments) -> u8 {
    let name = call.name;
    let mut after = arguments.clone();
    let did = (call.exported)(&mut after);
    if did.refusal != 0 {
        assert!(
            after == *arguments,
            "{name} is refused, and changes what was lent"
        );
        assert!(did.zero, "{name} is refused, and another field is not 0");
    } else {
        assert!(
            after.given == arguments.given,
            "{name} changes what it reads"
        );
        assert!(
            did.written <= arguments.out.slice().len(),
            "{name} writes too much"
        );
        let same = after.out.same_behind(&arguments.out, did.written);
        assert!(same, "{name} changes what is behind the bytes it writes");
        let may_change = (call.may_change)(after.plan.slice());
        let same = after.plan.same_behind(&arguments.plan, may_change);
        assert!(same, "{name} changes what is not its plan");
    }
    let mut wrapped = arguments.clone();
    if let Some(result) = (call.wrapped)(&mut wrapped) {
        assert_eq!(result, accepted(did.refusal), "{name}");
        assert!(wrapped == after, "{name} differs from what is exported");
    }
    did.refusal
}

/// Room for 4 sets and 3 rules. Set 0 is S1, set 1 is S2, set 2 takes 8 digits, set 3 is absent.
pub(super) fn plans() -> Vec<Vec<u8>> {
    let mut plan = Plan::new(4, 3);
    plan.open(&open55(4, 3)).expect("accepted");
    let fresh = plan.memory().to_vec();
    plan.add_set(&s1(0)).expect("accepted");
    plan.add_set(&s2(1)).expect("accepted");
    plan.add_set(&set(2, None, &[(ca::ZN, 8)], &[], &[fa::ZN]))
        .expect("accepted");
    plan.add_rule(&rule(Class::NATL, "-", 0, 0))
        .expect("accepted");
    plan.add_rule(&rule(Class::UNKNOWN, "b", 15, 1))
        .expect("accepted");
    let with_room = plan.memory().to_vec();
    plan.add_rule(&rule(Class::HOUSE3, "-", 0, 0))
        .expect("accepted");
    vec![fresh, with_room.clone(), with_room, plan.into_memory()]
}

/// What a call may be given, most of it well made.
pub(super) fn given(call: &str) -> Vec<Vec<u8>> {
    let any = |set| rule(Class::NATL, "-", 0, set);
    let no_format = |number| set(number, None, &[(ca::CC, 1)], &[], &[]);
    match call {
        "open" => vec![
            open55(4, 3),
            accepting55(4, 3),
            open55(1, 1),
            open55(4, 4),
            open55(1025, 1),
        ],
        "add_set" => vec![s1(3), s2(3), s1(0), s1(4), no_format(3)],
        "replace_set" => vec![s1(0), s2(0), s1(3), s1(4), no_format(0), {
            set(0, None, &[(ca::ZN, 8)], &[], &[])
        }],
        "remove_set" => vec![vec![0, 0], vec![0, 2], vec![0, 3], vec![0, 4], vec![1, 0]],
        "add_rule" => vec![
            rule(Class::INTL, "-", 0, 0),
            rule(Class::HOUSE5, "12", 8, 2),
            any(0),
            rule(Class::INTL, "-", 0, 3),
            rule(Class::INTL, "-", 0, 4),
            rule(Class::UNKNOWN, "b", 7, 1),
            rule(Class::INTL, "1234", 3, 0),
        ],
        "change_rule" => vec![any(0), any(1), any(2), any(3), any(4), {
            rule(Class::NATL, "9", 0, 0)
        }],
        "remove_rule" => vec![
            filter(Class::NATL, "-", 0),
            filter(Class::UNKNOWN, "b", 15),
            filter(Class::NATL, "9", 0),
            filter(Class::NATL, "1234", 3),
        ],
        "answer" => vec![
            number(Class::NATL, "87654321", &Lookup::rn(&[0, 0, 1, 5])),
            number(Class::NATL, "87654321", &Lookup::NO_RECORD),
            number(Class::NATL, "-", &Lookup::NO_RECORD),
            number(Class::NATL, &"1".repeat(32), &Lookup::rn(&[1])),
            number(Class::UNKNOWN, N, &Lookup::NO_ENTITY),
            number(Class::INTL, "1", &Lookup::sp(&[7, 7])),
            number(
                Class::NATL,
                "1",
                &Lookup {
                    kind: 4,
                    ..Lookup::NO_RECORD
                },
            ),
        ],
        "conditioned" | "stretch" => vec![
            digits("87654321"),
            digits(N),
            Vec::new(),
            vec![1; 32],
            vec![1; 33],
            vec![16],
        ],
        "replay" => {
            let names = PROVISIONS.map(|call| call.name);
            let some = |(name, kind)| {
                given(name)
                    .iter()
                    .flat_map(|b| with_kind(kind, b))
                    .collect()
            };
            let lists: Vec<Vec<u8>> = names.into_iter().zip(PROVISIONING).map(some).collect();
            let opening = lists[0][..1 + bodies::OPEN_BYTES].to_vec();
            let mixed = [opening.clone(), lists[1].clone(), lists[4].clone()].concat();
            let unknown = [opening, vec![7], lists[3].clone()].concat();
            [lists, vec![mixed, unknown]].concat()
        }
        "compare" => plans(),
        _ => vec![Vec::new()],
    }
}

/// The bytes as they are, or cut, lengthened, changed, replaced or empty.
pub(super) fn varied(bytes: &[u8], random: &mut Random) -> Vec<u8> {
    let mut bytes = bytes.to_vec();
    let length = bytes.len();
    match random.below(12) {
        0 => bytes.clear(),
        1 => bytes.truncate(random.below(length + 1)),
        2 => {
            let more = random.below(24);
            bytes.extend(random.bytes(more));
        }
        3 => bytes = random.bytes(length),
        4 => {
            let other = random.below(400);
            bytes = random.bytes(other);
        }
        5 => bytes.fill(0),
        6 if length > 0 => bytes[random.below(length)] = random.byte(),
        7 if length > 0 => bytes[random.below(length)] ^= 1 << random.below(8),
        _ => (),
    }
    bytes
}

fn arguments(plan: &[u8], given: &[u8], random: &mut Random) -> Arguments {
    let length = random.pick(&[0, 1, 34, 35, 46, 47, 64]);
    let out = random.bytes(length);
    Arguments {
        plan: Lent::new(plan, random),
        given: Lent::new(given, random),
        out: Lent::new(&out, random),
        class: random.pick(&[0, 1, 1, 2, 2, 3, 4, 5, 6, 255]),
        value: random.pick(&[0, 1, 2, 3, 4, 5, 6, 7, 8, 10, 11, 255]),
        number: random.pick(&[0, 1, 2, 3, 4, 5, 256, 65535]),
    }
}

#[test]
fn what_was_lent_is_as_before() {
    let mut random = Random(1);
    let plans = plans();
    for call in PROVISIONS.iter().chain(&OTHERS) {
        let pool = given(call.name);
        let mut drawn: BTreeMap<u8, usize> = BTreeMap::new();
        let mut draw = |plan: &[u8], given: &[u8], random: &mut Random| {
            let number = compare(call, &arguments(plan, given, random));
            *drawn.entry(number).or_default() += 1;
        };
        // Memories of every length: cut plans, zeros, any bytes.
        for length in 0..=plans[1].len() {
            let any = random.bytes(length);
            for memory in [&plans[1][..length], &vec![0; length], &any] {
                draw(memory, &random.pick(&pool), &mut random);
            }
        }
        // What is given, at every length.
        for bytes in &pool {
            for length in 0..=bytes.len() {
                draw(&random.pick(&plans), &bytes[..length], &mut random);
            }
        }
        // Every byte of a plan changed.
        for place in 0..plans[3].len() {
            let mut memory = plans[3].clone();
            memory[place] ^= 1 << random.below(8);
            draw(&memory, &random.pick(&pool), &mut random);
        }
        for _ in 0..6000 {
            let memory = varied(&random.pick(&plans), &mut random);
            let bytes = varied(&random.pick(&pool), &mut random);
            draw(&memory, &bytes, &mut random);
        }
        let reached: Vec<u8> = drawn.keys().copied().collect();
        let named = [&[0], call.refusals].concat();
        assert_eq!(reached, named, "the numbers that {} gives", call.name);
    }
}

/// C-12: the byte of an opening is there, and is 0 or 1; else the old plan stays in force.
#[test]
fn openings_with_accepting() {
    let before = Plan::over(plans().swap_remove(3));
    for opening in [open55(4, 3), accepting55(4, 3)] {
        let mut plan = before.clone();
        let cut = &opening[..bodies::OPEN_ACCEPTING];
        assert_eq!(cut.len(), 40);
        assert_eq!(plan.open(cut), Err(Refusal::Cut));
        for value in 2..=255 {
            let mut body = opening.clone();
            body[bodies::OPEN_ACCEPTING] = value;
            assert_eq!(plan.open(&body), Err(Refusal::Range), "{value}");
        }
        assert_eq!(plan, before);
        assert_eq!(plan.open(&opening), Ok(()));
        assert_eq!(plan.rule_count(), Ok(0));
    }
}

/// C-12: a plan memory whose byte is neither 0 nor 1, or that has the mark of the layout before, draws
/// PLAN in every call but an opening.
#[test]
fn memories_with_accepting() {
    let mut random = Random(2);
    let sound = plans().swap_remove(3);
    assert_eq!(sound[..4], *b"NPP2");
    let draws_plan = |memory: &[u8], random: &mut Random| {
        assert!(!Plan::over(memory).is_sound());
        for call in PROVISIONS.iter().chain(&OTHERS) {
            let asks_plan = call.refusals.contains(&3);
            let given = &given(call.name)[0];
            let mut arguments = arguments(memory, given, random);
            arguments.out = Lent::new(&[9; 64], random);
            let number = compare(call, &arguments);
            assert_eq!(number, if asks_plan { 3 } else { 0 }, "{}", call.name);
        }
    };
    for value in 0..=255 {
        let mut memory = sound.clone();
        memory[ACCEPTING_AT] = value;
        match value {
            0 | 1 => assert!(Plan::over(&memory).is_sound()),
            _ => draws_plan(&memory, &mut random),
        }
    }
    let mut memory = sound;
    memory[..4].copy_from_slice(b"NPP1");
    draws_plan(&memory, &mut random);
}

/// A null pointer with length 0 stands for no bytes.
#[test]
#[allow(unsafe_code)]
fn null_pointers() {
    use crate::c::exported::*;
    use std::ptr::{null, null_mut};

    let mut plan = plans().swap_remove(1);
    let before = plan.clone();
    let (p, n) = (plan.as_mut_ptr(), plan.len());
    // SAFETY: every null pointer comes with length 0; the others are of a slice.
    unsafe {
        assert_eq!(npp_sound(null(), 0), 0);
        for call in [
            npp_open,
            npp_add_set,
            npp_replace_set,
            npp_remove_set,
            npp_add_rule,
            npp_change_rule,
            npp_remove_rule,
        ] {
            assert_eq!(call(null_mut(), 0, null(), 0), 1);
            assert_eq!(call(p, n, null(), 0), 1);
        }
        let opening = open55(4, 3);
        assert_eq!(npp_open(null_mut(), 0, opening.as_ptr(), opening.len()), 4);
        assert_eq!(npp_replay(p, n, null(), 0, null_mut(), 0), 0);
        assert_eq!(npp_answer(p, n, null(), 0, null_mut(), 0).refusal, 1);
        let body = number(Class::NATL, "1", &Lookup::NO_RECORD);
        let answered = npp_answer(p, n, body.as_ptr(), body.len(), null_mut(), 0);
        assert_eq!(answered.refusal, 4);
        assert_eq!(
            npp_conditioned(p, n, 1, null(), 0, null_mut(), 0).refusal,
            4
        );
        let mut out = [9; 35];
        let conditioned = npp_conditioned(p, n, 1, null(), 0, out.as_mut_ptr(), 35);
        assert_eq!((conditioned.refusal, out), (12, [9; 35]));
        let span = npp_stretch(p, n, 1, null(), 0, fa::DN);
        assert_eq!((span.start, span.count), (0, 0));
        assert_eq!(npp_set_content(p, n, 0, null_mut(), 0).refusal, 4);
        assert_eq!(npp_referrers(null(), 0, 0).refusal, 3);
        assert_eq!(npp_rule_count(null(), 0).refusal, 3);
        assert_eq!(npp_rule_at(null(), 0, 0).refusal, 3);
        assert_eq!(npp_compare(null(), 0, p, n, null_mut(), 0).refusal, 3);
        assert_eq!(npp_compare(p, n, null(), 0, null_mut(), 0).refusal, 3);
        let itself = npp_compare(p, n, p, n, null_mut(), 0);
        assert_eq!((itself.refusal, itself.differences), (0, 0));
        let fresh = &plans()[0];
        let compared = npp_compare(p, n, fresh.as_ptr(), fresh.len(), null_mut(), 0);
        assert_eq!((compared.refusal, compared.differences), (4, 0));
    }
    assert_eq!(plan, before);
}
