//! Plans beside a plan, for the comparison of two: one without a difference,
//! and one with many.

use npp_reference::plan::Plan;
use npp_reference::rules::*;

/// Of so many rules one has another filter in the other plan, so that either
/// holds one alone, and one, four places behind it, has another content there.
const EACH: usize = 8;
const BEHIND: usize = 4;

/// The same rules, with the same contents under other numbers.
pub fn alike(plan: &Plan) -> Plan {
    let last = plan.rooms.sets - 1;
    let other = |number: SetNumber| SetNumber(last - number.0);
    let sets = plan.sets.iter();
    let rules = plan.rules.iter();
    Plan {
        sets: sets
            .map(|(&number, set)| (other(number), set.clone()))
            .collect(),
        rules: rules
            .map(|(filter, &number)| (filter.clone(), other(number)))
            .collect(),
        ..plan.clone()
    }
}

/// As many rules, with a difference of each kind in every eighth.
pub fn other(plan: &Plan) -> Plan {
    let mut right = alike(plan);
    for (place, filter) in plan.rules.keys().enumerate() {
        match place % EACH {
            0 => replace_filter(&mut right, filter),
            BEHIND => replace_content(&mut right, filter),
            _ => {}
        }
    }
    right
}

/// A filter near by in its place: with another last digit, one that the maker
/// gives no prefix. It fits the same set.
fn replace_filter(plan: &mut Plan, filter: &Filter) {
    let number = plan.rules.remove(filter).expect("a rule of both");
    let mut near = filter.clone();
    let last = near.prefix.pop().expect("a prefix of some digits");
    let digits = (last % 6..6).chain(0..6).map(|digit| 10 + digit);
    for digit in digits {
        near.prefix.push(digit);
        if !plan.rules.contains_key(&near) {
            plan.rules.insert(near, number);
            return;
        }
        near.prefix.pop();
    }
    panic!("no such filter is free");
}

/// A set of another content that fits, in place of the rule's.
fn replace_content(plan: &mut Plan, filter: &Filter) {
    let held = plan.sets[&plan.rules[filter]].clone();
    let mut others = plan.sets.iter().rev();
    let other = others.find(|(_, set)| **set != held && set.fits(filter));
    let (&number, _) = other.expect("another set that fits");
    plan.rules.insert(filter.clone(), number);
}
