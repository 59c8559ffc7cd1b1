//! The call of C-20 of the stand-in, step by step over the reference's parts,
//! so that each fault is at its step.

use crate::{c, lent, lent_mut};
use npp_reference::bodies;
use npp_reference::comparing::{Difference, Held, ENTRY, NO_SET};
use npp_reference::layout;
use npp_reference::plan::Plan;
use npp_reference::rules::*;
use std::collections::{BTreeMap, BTreeSet};

// ---------------------------------------------------------------------------
// The plans

fn plan_in(memory: &[u8], examined: bool) -> Checked<Plan> {
    let plan = layout::decode(memory);
    match examined {
        true => plan.ok_or(Refusal::Plan),
        false => plan.or_else(|| unexamined(memory)).ok_or(Refusal::Plan),
    }
}

/// The sets and rules that can be read in a memory that is no sound plan.
fn unexamined(memory: &[u8]) -> Option<Plan> {
    let two = |at: usize| Some(u16::from_be_bytes([*memory.get(at)?, *memory.get(at + 1)?]));
    let (rooms, settings) = bodies::opening(memory.get(8..64)?).ok()?;
    let slots = memory.get(64..layout::size(rooms))?;
    let (sets, rules) = slots.split_at(48 * usize::from(rooms.sets));
    let mut plan = Plan {
        rooms,
        settings,
        sets: BTreeMap::new(),
        rules: BTreeMap::new(),
    };
    for (slot, number) in sets.chunks(48).zip(0..) {
        if let (1.., Ok(set)) = (slot[0], bodies::content(&slot[1..46])) {
            plan.sets.insert(SetNumber(number), set);
        }
    }
    for slot in rules.chunks(24).take(usize::from(two(4)?)) {
        let (filter, number) = bodies::rule(slot).ok()?;
        plan.sets.get(&number)?;
        plan.rules.insert(filter, number);
    }
    Some(plan)
}

// ---------------------------------------------------------------------------
// The list

/// Whether the sets differ that the two plans name for one filter.
fn differ(left: &Plan, right: &Plan, (number, other): (SetNumber, SetNumber)) -> bool {
    let (one, two) = (&left.sets[&number], &right.sets[&other]);
    if cfg!(fault_84) {
        // Numbers are compared in place of contents.
        return number != other;
    }
    if cfg!(fault_85) {
        // Of a content the class alone.
        return one.class != two.class;
    }
    if cfg!(fault_86) {
        // Of a content the first list alone.
        return one.conditioning != two.conditioning;
    }
    if cfg!(fault_87) {
        // The last byte of a content is not compared.
        let bytes = [one, two].map(|set| {
            let mut bytes = Vec::new();
            bodies::put_content(&mut bytes, set);
            bytes.pop();
            bytes
        });
        return bytes[0] != bytes[1];
    }
    if cfg!(fault_88) && left.settings != right.settings {
        // Under other settings all is taken for different.
        return true;
    }
    if cfg!(fault_89) {
        // The left rule's number is looked up in the right plan.
        return right.sets.get(&number) != Some(one);
    }
    one != two
}

/// What there is to tell of a filter.
fn held(left: &Plan, right: &Plan, filter: &Filter) -> Vec<Held> {
    match (left.rules.get(filter), right.rules.get(filter)) {
        (Some(&number), None) => vec![Held::Left(number)],
        (None, Some(&number)) => vec![Held::Right(number)],
        (Some(&one), Some(&two)) if differ(left, right, (one, two)) => match cfg!(fault_90) {
            // The filter is listed twice.
            true => vec![Held::Left(one), Held::Right(two)],
            false => vec![Held::Both(one, two)],
        },
        _ => Vec::new(),
    }
}

fn differences(left: &Plan, right: &Plan) -> Vec<Difference> {
    let (one, two) = (left.rules.keys(), right.rules.keys());
    let mut filters: BTreeSet<&Filter> = one.clone().chain(two.clone()).collect();
    if cfg!(fault_91) && one.len() != two.len() {
        // The last rule of the longer plan is left out.
        let last = if one.len() > two.len() {
            one.last()
        } else {
            two.last()
        };
        filters.remove(last.expect("a rule"));
    } else if cfg!(fault_92) {
        // The walk ends where one of the plans does.
        let end = one.last().min(two.last());
        filters.retain(|&filter| Some(filter) <= end);
    }
    let mut list = Vec::new();
    for filter in filters {
        for held in held(left, right, filter) {
            let filter = filter.clone();
            list.push(Difference { filter, held });
        }
    }
    if cfg!(fault_93) {
        // What the right one alone holds stands behind all the rest.
        list.sort_by_key(|difference| matches!(difference.held, Held::Right(_)));
    }
    if cfg!(fault_94) {
        // Filters go by their bytes, so that short prefixes stand first.
        list.sort_by_key(|difference| {
            let mut bytes = Vec::new();
            bodies::put_filter(&mut bytes, &difference.filter);
            bytes
        });
    }
    if cfg!(fault_95) {
        // No more entries than a plan has rules.
        list.truncate(4096);
    }
    list
}

fn put_entry(bytes: &mut Vec<u8>, difference: &Difference) {
    let (mut kind, mut left, mut right) = match difference.held {
        Held::Left(number) => (1, number, NO_SET),
        Held::Right(number) => (2, NO_SET, number),
        // The right rule's set in both places.
        Held::Both(_, right) if cfg!(fault_96) => (3, right, right),
        Held::Both(left, right) => (3, left, right),
    };
    if cfg!(fault_97) {
        // Left and right are exchanged.
        kind = [0, 2, 1, 3][kind];
        (left, right) = (right, left);
    }
    if cfg!(fault_98) && kind != 3 {
        // "None" stands on the other side.
        (left, right) = (right, left);
    }
    if cfg!(fault_99) {
        // Numbers have the low byte first.
        [left, right] = [left, right].map(|number| SetNumber(number.0.swap_bytes()));
    }
    bytes.push(kind as u8);
    bodies::put_filter(bytes, &difference.filter);
    bodies::put_set_number(bytes, left);
    bodies::put_set_number(bytes, right);
}

// ---------------------------------------------------------------------------
// The call

/// The entries of two plans.
fn entries(left: &[u8], right: &[u8]) -> Checked<Vec<u8>> {
    // One of the two is not examined.
    let left = plan_in(left, !cfg!(fault_100))?;
    let right = plan_in(right, !cfg!(fault_101))?;
    // Plans of other rooms are refused.
    demand(!cfg!(fault_102) || left.rooms == right.rooms, Refusal::Plan)?;
    let mut entries = Vec::new();
    for difference in differences(&left, &right) {
        put_entry(&mut entries, &difference);
    }
    Ok(entries)
}

fn has_room(out: &[u8], entries: &[u8]) -> bool {
    if cfg!(fault_103) {
        // A buffer of just the bytes of the entries is refused.
        return out.len() > entries.len();
    }
    if cfg!(fault_104) {
        // Room for an entry is asked where there is none.
        return out.len() >= entries.len().max(ENTRY);
    }
    out.len() >= entries.len()
}

fn compare(left: &[u8], right: &[u8], out: &mut [u8]) -> c::Compared {
    let entries = match entries(left, right) {
        Ok(entries) => entries,
        Err(refusal) => return Err(refusal).into(),
    };
    let count = entries.len() / ENTRY;
    if !has_room(out, &entries) {
        let mut refused = c::Compared::from(Err(Refusal::Room));
        if cfg!(fault_105) {
            // Entries are written as long as there is room.
            let fitting = out.len().min(entries.len()) / ENTRY * ENTRY;
            out[..fitting].copy_from_slice(&entries[..fitting]);
        }
        if cfg!(fault_106) {
            // The refused call tells how many there are.
            refused.differences = count;
        }
        return refused;
    }
    let (front, behind) = out.split_at_mut(entries.len());
    front.copy_from_slice(&entries);
    if cfg!(fault_107) {
        // The buffer is cleared behind the entries.
        behind.fill(0);
    }
    match cfg!(fault_108) {
        // The count is that of the bytes written.
        true => Ok(entries.len()).into(),
        false => Ok(count).into(),
    }
}

/// # Safety
/// Pointers and lengths are those of slices, and the one that is written
/// overlaps no other.
#[no_mangle]
pub unsafe extern "C" fn npp_compare(
    left: *const u8,
    n: usize,
    right: *const u8,
    k: usize,
    out: *mut u8,
    m: usize,
) -> c::Compared {
    compare(lent(left, n), lent(right, k), lent_mut(out, m))
}
