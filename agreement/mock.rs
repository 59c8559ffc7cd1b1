//! A stand-in for the library: the same C interface over the reference, so
//! that the program can be built and tried without the library.  With
//! `--cfg fault_N` it has one fault, which the program must find
//! (agreement/faults).

#[path = "src/alike.rs"]
pub mod alike;
#[path = "../rust/src/c.rs"]
pub mod c;
#[path = "mock/charging.rs"]
pub mod charging;
#[path = "mock/comparing.rs"]
pub mod comparing;

use npp_reference::bodies::{self, Kind};
use npp_reference::calls::{self, Answered};
use npp_reference::plan::Plan;
use npp_reference::process;
use npp_reference::rules::*;
use npp_reference::{layout, rules};

unsafe fn lent<'a>(at: *const u8, count: usize) -> &'a [u8] {
    match count {
        0 => &[],
        _ => std::slice::from_raw_parts(at, count),
    }
}

unsafe fn lent_mut<'a>(at: *mut u8, count: usize) -> &'a mut [u8] {
    match count {
        0 => &mut [],
        _ => std::slice::from_raw_parts_mut(at, count),
    }
}

// ---------------------------------------------------------------------------
// The examiner

/// # Safety
/// The pointer and the length are those of a slice.
#[no_mangle]
pub unsafe extern "C" fn npp_sound(memory: *const u8, n: usize) -> u8 {
    let told = u8::from(sound(lent(memory, n)));
    if cfg!(fault_34) {
        // A sound plan is told by a byte that is no C bool.
        return 2 * told;
    }
    told
}

fn sound(memory: &[u8]) -> bool {
    let mut copy = memory.to_vec();
    if cfg!(fault_1) && copy.len() >= 64 {
        // The unused bytes at the header's end are not looked at.
        copy[layout::ACCEPTING_AT + 1..64].fill(0);
    }
    if cfg!(fault_2) {
        // The size asked is a byte too large.
        return layout::decode(memory).is_some_and(|plan| memory.len() > layout::size(plan.rooms));
    }
    if cfg!(fault_3) && calls::sound(&without_repeated(&copy)) {
        // One filter may stand twice.
        return true;
    }
    if cfg!(fault_4) && copy.len() >= 64 {
        // Any byte but 0 is taken for "held".
        let sets = usize::from(u16::from_be_bytes([copy[8], copy[9]]));
        for at in (0..sets).map(|number| 64 + 48 * number) {
            if copy.get(at).is_some_and(|&held| held > 1) {
                copy[at] = 1;
            }
        }
    }
    if cfg!(fault_38) && copy.get(layout::ACCEPTING_AT) == Some(&2) {
        // 2 is taken for a value of accepting.
        copy[layout::ACCEPTING_AT] = 1;
    }
    if cfg!(fault_42) && copy.starts_with(b"NPP1") {
        // The mark of the layout before is taken.
        copy[..4].copy_from_slice(b"NPP2");
    }
    calls::sound(&copy)
}

/// The memory without a rule whose filter stands in the slot before it.
fn without_repeated(memory: &[u8]) -> Vec<u8> {
    let mut copy = memory.to_vec();
    if copy.len() < 64 {
        return copy;
    }
    let two = |at: usize| usize::from(u16::from_be_bytes([memory[at], memory[at + 1]]));
    let (count, sets, rules) = (two(4), two(8), two(10));
    let start = 64 + 48 * sets;
    let end = start + 24 * rules;
    if end > copy.len() || count > rules {
        return copy;
    }
    for place in 1..count {
        let at = start + 24 * place;
        if copy[at..at + 19] == memory[at - 24..at - 5] {
            copy.copy_within(at + 24..end, at);
            copy[end - 24..end].fill(0);
            copy[4..6].copy_from_slice(&(count as u16 - 1).to_be_bytes());
            return copy;
        }
    }
    copy
}

// ---------------------------------------------------------------------------
// Provisioning

fn store(memory: &mut [u8], plan: &Plan) {
    let image = layout::encode(plan);
    memory[..image.len()].copy_from_slice(&image);
}

fn provision(kind: Kind, memory: &mut [u8], body: &[u8]) -> u8 {
    let call = calls::provisioning(kind).expect("a provisioning call");
    let before = memory.to_vec();
    let whole = body.get(..kind.body_length());
    if cfg!(fault_11) && kind != Kind::Open && !calls::sound(memory) {
        // PLAN before CUT.
        return 3;
    }
    if cfg!(fault_12) && body.len() > kind.body_length() {
        // A longer body is refused.
        return 1;
    }
    if cfg!(fault_43) && kind == Kind::Open && body.len() == bodies::ACCEPTING_AT {
        // An opening without accepting is taken, as before.
        return calls::refusal_number(call(memory, &[body, &[0]].concat()));
    }
    let number = calls::refusal_number(call(memory, body));
    match (kind, number, whole) {
        (Kind::Open, 5, Some(body)) if cfg!(fault_5) => {
            // ROOM before RANGE.
            let two = |at: usize| usize::from(u16::from_be_bytes([body[at], body[at + 1]]));
            if memory.len() < 64 + 48 * two(0) + 24 * two(2) {
                return 4;
            }
        }
        (Kind::Open, 5, Some(body)) if cfg!(fault_37) && body[bodies::ACCEPTING_AT] == 2 => {
            // 2 is taken for a value of accepting.
            let mut body = body.to_vec();
            body[bodies::ACCEPTING_AT] = 1;
            return calls::refusal_number(call(memory, &body));
        }
        (Kind::Open, 0, _) if cfg!(fault_6) => {
            // A byte behind the size is cleared.
            let size = layout::size(layout::decode(memory).expect("sound").rooms);
            if let Some(byte) = memory.get_mut(size) {
                *byte = 0;
            }
        }
        (Kind::AddRule, 7, _) if cfg!(fault_7) => {
            // FULL before TAKEN.
            let plan = layout::decode(memory).expect("sound");
            if plan.rules.len() == usize::from(plan.rooms.rules) {
                return 10;
            }
        }
        (Kind::RemoveSet, 11, Some(body)) if cfg!(fault_8) => {
            // The refused call marks the set as not held.
            memory[64 + 48 * usize::from(bodies::set_number(body).0)] = 0;
        }
        (Kind::ReplaceSet, 9, Some(body)) if cfg!(fault_9) => {
            // Only the first rule that names the set is held against it.
            let mut plan = layout::decode(memory).expect("sound");
            let (named, set) = bodies::set(body).expect("in range");
            let first = plan.rules.iter().find(|(_, &number)| number == named);
            if first.is_some_and(|(filter, _)| set.fits(filter)) {
                plan.sets.insert(named, set);
                store(memory, &plan);
                return 0;
            }
        }
        (Kind::RemoveRule, 0, _) if cfg!(fault_10) => {
            // The freed slot keeps the bytes of the last rule.
            let plan = layout::decode(memory).expect("sound");
            let at = 64 + 48 * usize::from(plan.rooms.sets) + 24 * plan.rules.len();
            memory[at..at + 24].copy_from_slice(&before[at..at + 24]);
        }
        (Kind::AddRule, 5, Some(body)) if cfg!(fault_13) => {
            // A set number at the room is taken for one that is not there.
            let plan = layout::decode(memory).expect("sound");
            let rule = bodies::rule(body);
            if rule.is_ok_and(|(_, set)| set.0 == plan.rooms.sets) {
                return 8;
            }
        }
        (Kind::AddRule, 0, _) if cfg!(fault_14) => {
            // A byte behind the lent memory is written.
            // SAFETY: none; the program lends memory between guard bytes.
            unsafe { *memory.as_mut_ptr().add(memory.len()) ^= 1 };
        }
        (Kind::AddRule, 9, Some(body)) if cfg!(fault_15) => {
            // A wildcard length fits where F is 32.
            let mut plan = layout::decode(memory).expect("sound");
            let (filter, number) = bodies::rule(body).expect("in range");
            let set = &plan.sets[&number];
            let room = plan.rules.len() < usize::from(plan.rooms.rules);
            let fixed = set.fixed_digits(filter.prefix.len());
            if filter.length.is_none() && set.takes_rest() && fixed == 32 && room {
                plan.rules.insert(filter, number);
                store(memory, &plan);
                return 0;
            }
        }
        _ => {}
    }
    number
}

macro_rules! provisioning {
    ($($call:ident $kind:expr),*) => {
        $(
            /// # Safety
            /// Pointers and lengths are those of slices that do not overlap.
            #[no_mangle]
            pub unsafe extern "C" fn $call(
                plan: *mut u8,
                n: usize,
                body: *const u8,
                k: usize,
            ) -> u8 {
                provision($kind, lent_mut(plan, n), lent(body, k))
            }
        )*
    };
}

provisioning!(
    npp_open Kind::Open,
    npp_add_set Kind::AddSet,
    npp_replace_set Kind::ReplaceSet,
    npp_remove_set Kind::RemoveSet,
    npp_add_rule Kind::AddRule,
    npp_change_rule Kind::ChangeRule,
    npp_remove_rule Kind::RemoveRule
);

// ---------------------------------------------------------------------------
// Numbers

/// The rule that a number's class and digits choose.
fn chosen<'a>(plan: &'a Plan, number: &Number) -> Option<(&'a Filter, &'a ActionSet)> {
    let all = plan.rules.iter().map(|(filter, &set)| (filter, set));
    let (filter, set) = rules::choose(all, number.class, number.digits)?;
    Some((filter, &plan.sets[&set]))
}

/// The answer of another plan to another number.
fn answer_of(plan: &Plan, number: &Number, out: &mut [u8]) -> Answered {
    let mut body = Vec::new();
    bodies::put_number(&mut body, number);
    calls::answer(&layout::encode(plan), &body, out)
}

fn answered(plan: &[u8], body: &[u8], out: &mut [u8]) -> Answered {
    let mut copy = plan.to_vec();
    if cfg!(fault_41) && copy.get(layout::ACCEPTING_AT) == Some(&2) {
        // A memory with 2 for accepting is answered.
        copy[layout::ACCEPTING_AT] = 1;
    }
    let plan = &copy[..];
    if cfg!(fault_16) && out.len() == 34 {
        // A buffer of 34 is taken where the digits find room.
        let mut longer = [0; 35];
        longer[..34].copy_from_slice(out);
        let given = calls::answer(plan, body, &mut longer);
        out.copy_from_slice(&longer[..34]);
        return given;
    }
    let before = out.to_vec();
    let given = calls::answer(plan, body, out);
    let whole = body.get(..bodies::NUMBER);
    let (Some(mut plan), Some(mut number)) = (
        layout::decode(plan),
        whole.and_then(|body| bodies::number(body).ok()),
    ) else {
        return given;
    };
    if out.len() < LONGEST_CONDITIONED {
        return given;
    }
    if cfg!(fault_17) {
        // A stated length beats a longer prefix.
        let all = plan.rules.iter();
        let fitting = all.filter(|(filter, _)| filter.fits(number.class, number.digits));
        let first =
            fitting.max_by_key(|(filter, _)| (filter.length.is_some(), filter.prefix.len()));
        if let Some((filter, set)) = first {
            out.copy_from_slice(&before);
            let answer = process::carry_out(&plan.sets[set], filter, &number, &plan.settings);
            if let Ok(answer) = &answer {
                out[..answer.digits.len()].copy_from_slice(&answer.digits);
            }
            return Answered::of(&answer);
        }
    }
    if cfg!(fault_18) && given.refusal == 0 {
        // The buffer is cleared behind the digits.
        out[given.written..].fill(0);
    }
    if cfg!(fault_19) && given.outcome == 2 {
        // The count is that of the set's service actions.
        let services = chosen(&plan, &number).map_or(0, |(_, set)| set.services.len());
        return Answered {
            count: services as u8,
            ..given
        };
    }
    if cfg!(fault_20) && given.outcome == 2 {
        // CDIAL overrides INPRTG's response.
        if chosen(&plan, &number).is_some_and(|(_, set)| set.services.contains(&Service::Cdial)) {
            return Answered {
                outcome: 3,
                ..given
            };
        }
    }
    if cfg!(fault_21) && number.lookup.kind == LookupKind::RoutingNumber {
        // DFLTRN replaces the RN of a kind 2 lookup.
        let routing = &plan.settings.default_routing;
        if !routing.is_empty() {
            out.copy_from_slice(&before);
            let lookup = Lookup {
                entity: routing,
                ..number.lookup
            };
            return answer_of(&plan, &Number { lookup, ..number }, out);
        }
    }
    if cfg!(fault_22) && given.refusal > 0 {
        // A refused answer states the class.
        return Answered {
            class: number.class.byte(),
            ..given
        };
    }
    if cfg!(fault_23) && given.written == 32 {
        // LONG from 32 digits on.
        out.copy_from_slice(&before);
        return Answered {
            refusal: 13,
            ..Answered::default()
        };
    }
    if cfg!(fault_24) && given.refusal == 13 {
        // A refused answer leaves a digit in the buffer.
        out[0] = number.digits[0];
    }
    let kind = number.lookup.kind;
    let settings = &mut plan.settings;
    let routing = settings.default_routing.clone();
    if cfg!(fault_35) && settings.accepting && kind == LookupKind::NoRecord {
        // No record is a success too.
        number.lookup.kind = LookupKind::NoEntity;
        settings.answers[1] = settings.answers[0];
    } else if cfg!(fault_36) {
        // Accepting is ignored.
        settings.accepting = false;
    } else if cfg!(fault_39)
        && settings.accepting
        && kind == LookupKind::NoEntity
        && !routing.is_empty()
    {
        // DFLTRN is sent for a record without entity.
        number.lookup.kind = LookupKind::RoutingNumber;
        number.lookup.entity = &routing;
        settings.answers[2] = settings.answers[1];
    } else if cfg!(fault_40) {
        // Accepting is read a place early: the last of the four answers.
        settings.accepting = settings.answers[3] == Response::Relay;
    } else {
        return given;
    }
    out.copy_from_slice(&before);
    answer_of(&plan, &number, out)
}

/// # Safety
/// Pointers and lengths are those of slices that do not overlap.
#[no_mangle]
pub unsafe extern "C" fn npp_answer(
    plan: *const u8,
    n: usize,
    body: *const u8,
    k: usize,
    out: *mut u8,
    m: usize,
) -> c::Answered {
    answered(lent(plan, n), lent(body, k), lent_mut(out, m)).into()
}

/// # Safety
/// Pointers and lengths are those of slices that do not overlap.
#[no_mangle]
pub unsafe extern "C" fn npp_conditioned(
    plan: *const u8,
    n: usize,
    class: u8,
    digits: *const u8,
    k: usize,
    out: *mut u8,
    m: usize,
) -> c::Written {
    let mut given = calls::conditioned(lent(plan, n), class, lent(digits, k), lent_mut(out, m));
    if cfg!(fault_25) && given == Err(Refusal::Short) {
        // Too few digits give none, and are not refused.
        given = Ok(0);
    }
    given.into()
}

/// # Safety
/// Pointers and lengths are those of slices that do not overlap.
#[no_mangle]
pub unsafe extern "C" fn npp_set_content(
    plan: *const u8,
    n: usize,
    set: u16,
    out: *mut u8,
    m: usize,
) -> c::Written {
    let (plan, out) = (lent(plan, n), lent_mut(out, m));
    if cfg!(fault_26) && (35..47).contains(&m) {
        // The buffer of a number is taken for a set's content.
        let mut longer = [0; 47];
        let given = calls::set_content(plan, SetNumber(set), &mut longer);
        if given.is_ok() {
            out.copy_from_slice(&longer[..m]);
        }
        return given.into();
    }
    calls::set_content(plan, SetNumber(set), out).into()
}

/// # Safety
/// The pointer and the length are those of a slice.
#[no_mangle]
pub unsafe extern "C" fn npp_referrers(plan: *const u8, n: usize, set: u16) -> c::Counted {
    let mut given = calls::referrers(lent(plan, n), SetNumber(set));
    if cfg!(fault_27) && given == Err(Refusal::Absent) {
        // No rule names a set that is not there.
        given = Ok(0);
    }
    given.into()
}

/// # Safety
/// Pointers and lengths are those of slices.
#[no_mangle]
pub unsafe extern "C" fn npp_stretch(
    plan: *const u8,
    n: usize,
    class: u8,
    digits: *const u8,
    k: usize,
    value: u8,
) -> c::Span {
    let digits = lent(digits, k);
    let (mut start, count) = calls::stretch(lent(plan, n), class, digits, value);
    if cfg!(fault_28) && count > 0 {
        // The first place with the same digits.
        let same = &digits[start..start + count];
        start = digits
            .windows(count)
            .position(|part| part == same)
            .unwrap_or(0);
    }
    (start, count).into()
}

// ---------------------------------------------------------------------------
// The listing

/// # Safety
/// The pointer and the length are those of a slice.
#[no_mangle]
pub unsafe extern "C" fn npp_rule_count(plan: *const u8, n: usize) -> c::Counted {
    calls::rule_count(lent(plan, n)).into()
}

/// # Safety
/// The pointer and the length are those of a slice.
#[no_mangle]
pub unsafe extern "C" fn npp_rule_at(plan: *const u8, n: usize, place: u16) -> c::Listed {
    let given = calls::rule_at(lent(plan, n), RulePlace(usize::from(place)));
    let mut listed = c::Listed::from(given);
    if cfg!(fault_29) {
        // Only the low byte of the set's number.
        listed.set &= 255;
    }
    if cfg!(fault_30) && listed.refusal == 5 {
        // A place at the count is taken for an absent rule.
        listed.refusal = 8;
    }
    listed
}

/// # Safety
/// Pointers and lengths are those of slices that do not overlap.
#[no_mangle]
pub unsafe extern "C" fn npp_replay(
    plan: *mut u8,
    n: usize,
    calls_at: *const u8,
    k: usize,
    numbers: *mut u8,
    m: usize,
) -> usize {
    let (plan, list, numbers) = (lent_mut(plan, n), lent(calls_at, k), lent_mut(numbers, m));
    let mut done = calls::replay(plan, list, numbers);
    let mut end = 0;
    for _ in 0..done {
        let kind = Kind::from_byte(list[end]).expect("a kind that was carried out");
        end += 1 + kind.body_length();
    }
    let rest = &list[end..];
    if cfg!(fault_31) {
        // The places behind the last number are cleared.
        numbers[done..].fill(0);
    }
    if cfg!(fault_32) && rest.len() >= 3 && rest[0] == 8 {
        // A count of referrers is passed over.
        done += calls::replay(plan, &rest[3..], &mut numbers[done..]);
    }
    if cfg!(fault_33) && done < m && rest.first().is_some_and(|&kind| kind <= 6) {
        // A cut record is carried out, and draws CUT.
        numbers[done] = 1;
        done += 1;
    }
    done
}
