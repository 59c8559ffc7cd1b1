//! Times the public calls of the library beside the reference's.

#[path = "../../agreement/src/alike.rs"]
mod alike;
#[allow(dead_code)]
#[path = "../../rust/src/c.rs"]
mod c;
#[allow(dead_code)]
#[path = "../../agreement/src/random.rs"]
mod random;

mod clock;
#[allow(dead_code)]
mod made;
mod same;
mod sides;

use alike::PROVISIONING;
use c::{Totals, LEDGER_NUMBERS};
use clock::Clock;
use made::{rule_body, set_body, Made};
use npp_reference::bodies::{self, Kind};
use npp_reference::plan::Plan;
use npp_reference::rules::*;
use npp_reference::{calls, charging, comparing, layout, ledger};
use std::hint::black_box;

/// One provisioning call: its kind and its body.
type Edit = (Kind, Vec<u8>);

fn main() {
    let clock = Clock::from_arguments();
    time_examiner(&clock, 64, 512);
    time_examiner(&clock, 1024, 4096);
    time_answer(&clock);
    time_call_record(&clock);
    for rules in [512, 4096] {
        let plan = Made::full(rules / 8, rules).plan;
        time_comparison(&clock, &plan, &sides::alike(&plan));
        time_comparison(&clock, &plan, &sides::other(&plan));
    }
    time_edits(&clock);
}

fn time_examiner(clock: &Clock, sets: u16, rules: u16) {
    let memory = layout::encode(&Made::full(sets, rules).plan);
    assert!(c::sound(&memory) == 1 && calls::sound(&memory));
    clock.line(
        &format!("sound {sets} {rules}"),
        1,
        || assert!(c::sound(black_box(&memory)) == 1),
        || assert!(calls::sound(black_box(&memory))),
    );
}

/// The public answer, which examines the plan.
fn time_answer(clock: &Clock) {
    let mut made = Made::full(64, 512);
    let memory = layout::encode(&made.plan);
    let bodies = made.numbers(clock.scaled(512));
    same::demand_same(&made.plan, &memory, &bodies, c::answer);
    let (mut our_out, mut their_out) = ([0; same::ROOM], [0; same::ROOM]);
    clock.line(
        "answer 64 512",
        bodies.len(),
        || {
            for body in &bodies {
                black_box(c::answer(&memory, black_box(body), &mut our_out));
            }
        },
        || {
            for body in &bodies {
                black_box(calls::answer(&memory, black_box(body), &mut their_out));
            }
        },
    );
}

/// The public call record, which examines plan, price list and ledger. Each pass
/// begins with an empty ledger.
fn time_call_record(clock: &Clock) {
    let mut made = Made::full(64, 512);
    let memory = layout::encode(&made.plan);
    let prices = made.prices(256).encode();
    let bodies = made.calls(clock.scaled(512));
    let our_pass = || {
        let (mut districts, mut whole) = ([0; LEDGER_NUMBERS], Totals::default());
        let mut given = Vec::with_capacity(bodies.len());
        for body in &bodies {
            let body = black_box(body);
            let mut out = [0; same::ROOM];
            let answer = c::take_call(&memory, &prices, &mut districts, &mut whole, body, &mut out);
            given.push((answer, out));
        }
        (given, districts, whole)
    };
    let their_pass = || {
        let (mut districts, mut whole) = ([0; LEDGER_NUMBERS], ledger::Totals::default());
        let mut given = Vec::with_capacity(bodies.len());
        for body in &bodies {
            let body = black_box(body);
            let mut out = [0; same::ROOM];
            let answer =
                charging::take_call(&memory, &prices, &mut districts, &mut whole, body, &mut out);
            given.push((answer.into(), out));
        }
        (given, districts, Totals::from(whole))
    };
    assert!(our_pass() == their_pass(), "the call records differ");
    clock.line(
        "take 64 512 256",
        bodies.len(),
        || drop(black_box(our_pass())),
        || drop(black_box(their_pass())),
    );
}

/// Two plans of as many rules side by side, both of which are examined.
fn time_comparison(clock: &Clock, left: &Plan, right: &Plan) {
    let rules = left.rules.len();
    assert_eq!(right.rules.len(), rules);
    let [left, right] = [left, right].map(layout::encode);
    let room = comparing::ENTRY * 2 * rules;
    let (mut our_out, mut their_out) = (vec![0; room], vec![0; room]);
    let given = c::compare(&left, &right, &mut our_out);
    let expected = comparing::compare(&left, &right, &mut their_out);
    assert_eq!(given, expected.into(), "the counts of differences differ");
    assert!(our_out == their_out, "the entries differ");
    clock.line(
        &format!("compare {rules} {}", given.differences),
        1,
        || {
            black_box(c::compare(black_box(&left), &right, &mut our_out));
        },
        || {
            let _ = black_box(comparing::compare(black_box(&left), &right, &mut their_out));
        },
    );
}

// ---------------------------------------------------------------------------
// Provisioning

fn time_edits(clock: &Clock) {
    let rooms = Rooms {
        sets: 64,
        rules: 512,
    };
    let made = Made::of(rooms, 32, 256);
    time_edit(clock, "add-remove-set", 1, &made, &added_set(&made));
    time_edit(clock, "replace-set", 2, &made, &replaced_set(&made));
    time_edit(clock, "add-remove-rule", 1, &made, &added_rule(&made));
    time_edit(clock, "change-rule", 2, &made, &changed_rule(&made));
}

/// Each list of edits ends where it began, so that it can be run again.
fn time_edit(clock: &Clock, name: &str, count: usize, made: &Made, edits: &[Edit]) {
    let mut ours = layout::encode(&made.plan);
    let mut theirs = ours.clone();
    for edit in edits {
        our_edit(&mut ours, edit);
        their_edit(&mut theirs, edit);
        assert!(ours == theirs, "the plans differ");
    }
    let before = layout::encode(&made.plan);
    assert!(ours == before, "the edits leave a change");
    clock.line(
        name,
        count,
        || edits.iter().for_each(|edit| our_edit(&mut ours, edit)),
        || edits.iter().for_each(|edit| their_edit(&mut theirs, edit)),
    );
}

fn our_edit(memory: &mut [u8], (kind, body): &Edit) {
    let call = PROVISIONING[usize::from(kind.byte())];
    assert_eq!(call(black_box(memory), black_box(body)), 0, "refused");
}

fn their_edit(memory: &mut [u8], (kind, body): &Edit) {
    let call = calls::provisioning(*kind).expect("a provisioning call");
    assert_eq!(call(black_box(memory), black_box(body)), Ok(()), "refused");
}

fn added_set(made: &Made) -> Vec<Edit> {
    let body = set_body(40, &made.plan.sets[&SetNumber(2)]);
    let number = body[..2].to_vec();
    vec![(Kind::AddSet, body), (Kind::RemoveSet, number)]
}

/// The set that a rule in the middle names, with another class and back.
fn replaced_set(made: &Made) -> Vec<Edit> {
    let (_, number) = &made.rules[made.rules.len() / 2];
    let held = &made.plan.sets[number];
    let mut other = held.clone();
    other.class = OutgoingClass::Stated(Class::HOUSE_3);
    let replacing = |set| (Kind::ReplaceSet, set_body(number.0, set));
    vec![replacing(&other), replacing(held)]
}

/// A rule that comes to stand in the middle of the listing.
fn added_rule(made: &Made) -> Vec<Edit> {
    let (middle, _) = middle_rule(made);
    let mut filter = middle.clone();
    filter.length = Some(32);
    let set = fitting_sets(made, &filter)[0];
    let body = rule_body(&filter, set);
    let removed = body[..bodies::FILTER].to_vec();
    vec![(Kind::AddRule, body), (Kind::RemoveRule, removed)]
}

/// The rule in the middle of the listing, to another set and back.
fn changed_rule(made: &Made) -> Vec<Edit> {
    let (filter, set) = middle_rule(made);
    let fitting = fitting_sets(made, filter);
    let other = fitting.iter().find(|&&number| number != set);
    let other = *other.expect("two sets that fit");
    let changing = |number| (Kind::ChangeRule, rule_body(filter, number));
    vec![changing(other), changing(set)]
}

fn middle_rule(made: &Made) -> (&Filter, SetNumber) {
    let rule = made.plan.rules.iter().nth(made.rules.len() / 2);
    let (filter, &set) = rule.expect("a rule in the middle");
    (filter, set)
}

fn fitting_sets(made: &Made, filter: &Filter) -> Vec<SetNumber> {
    let sets = made.plan.sets.iter().filter(|(_, set)| set.fits(filter));
    sets.map(|(&number, _)| number).collect()
}
