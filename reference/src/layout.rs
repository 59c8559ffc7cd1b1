//! Plan memory, from docs/LAYOUT.md alone: the exact soundness test, and a
//! plan's image.

use crate::bodies::{self, all_zero};
use crate::plan::Plan;
use crate::rules::*;
use std::collections::BTreeMap;

const MARK: [u8; 4] = *b"NPP2";
const HEADER: usize = 64;
const OPENING_AT: usize = 8;
const OPENING_END: usize = OPENING_AT + bodies::OPENING;
pub const ACCEPTING_AT: usize = OPENING_AT + bodies::ACCEPTING_AT;
const SET_SLOT: usize = 48;
const SET_USED: usize = 1 + bodies::CONTENT;
const RULE_SLOT: usize = 24;

/// The bytes that a plan with these rooms takes.
pub fn size(rooms: Rooms) -> usize {
    HEADER + SET_SLOT * usize::from(rooms.sets) + RULE_SLOT * usize::from(rooms.rules)
}

/// The plan in a memory, if the memory is a sound plan of this build.  Bytes
/// behind the size that its rooms need are not looked at.
pub fn decode(memory: &[u8]) -> Option<Plan> {
    let header = memory.get(..HEADER)?;
    let (rooms, settings) = decode_opening(header)?;
    let body = memory.get(HEADER..size(rooms))?;
    let (set_area, rule_area) = body.split_at(SET_SLOT * usize::from(rooms.sets));
    let count = usize::from(u16::from_be_bytes([header[4], header[5]]));
    let sets = decode_sets(set_area)?;
    let rules = decode_rules(rule_area, count, &sets)?;
    Some(Plan {
        rooms,
        settings,
        sets,
        rules,
    })
}

fn decode_opening(header: &[u8]) -> Option<(Rooms, Settings)> {
    let unused = all_zero(&header[6..OPENING_AT]) && all_zero(&header[OPENING_END..]);
    if !header.starts_with(&MARK) || !unused {
        return None;
    }
    bodies::opening(&header[OPENING_AT..OPENING_END]).ok()
}

fn decode_sets(area: &[u8]) -> Option<BTreeMap<SetNumber, ActionSet>> {
    let mut sets = BTreeMap::new();
    for (slot, number) in area.chunks(SET_SLOT).zip(0..) {
        if !all_zero(slot) {
            sets.insert(SetNumber(number), decode_set(slot)?);
        }
    }
    Some(sets)
}

fn decode_set(slot: &[u8]) -> Option<ActionSet> {
    if slot[0] != 1 || !all_zero(&slot[SET_USED..]) {
        return None;
    }
    let set = bodies::content(&slot[1..SET_USED]).ok()?;
    set.keeps_group_rules().then_some(set)
}

fn decode_rules(
    area: &[u8],
    count: usize,
    sets: &BTreeMap<SetNumber, ActionSet>,
) -> Option<BTreeMap<Filter, SetNumber>> {
    let used = area.get(..RULE_SLOT * count)?;
    if !all_zero(&area[used.len()..]) {
        return None;
    }
    let mut rules = BTreeMap::new();
    for slot in used.chunks(RULE_SLOT) {
        let (filter, number) = decode_rule(slot, sets)?;
        let rises = rules
            .last_key_value()
            .is_none_or(|(last, _)| *last < filter);
        if !rises {
            return None;
        }
        rules.insert(filter, number);
    }
    Some(rules)
}

fn decode_rule(slot: &[u8], sets: &BTreeMap<SetNumber, ActionSet>) -> Option<(Filter, SetNumber)> {
    let (filter, number) = bodies::rule(&slot[..bodies::RULE]).ok()?;
    // A set that is held has a number under the room.
    let fits = sets.get(&number)?.fits(&filter);
    (fits && all_zero(&slot[bodies::RULE..])).then_some((filter, number))
}

/// The image of a plan: exactly `size(plan.rooms)` bytes.
pub fn encode(plan: &Plan) -> Vec<u8> {
    let mut image = Vec::with_capacity(size(plan.rooms));
    image.extend(MARK);
    image.extend((plan.rules.len() as u16).to_be_bytes());
    image.resize(OPENING_AT, 0);
    bodies::put_opening(&mut image, plan.rooms, &plan.settings);
    image.resize(HEADER, 0);
    for number in (0..plan.rooms.sets).map(SetNumber) {
        let end = image.len() + SET_SLOT;
        if let Some(set) = plan.sets.get(&number) {
            image.push(1);
            bodies::put_content(&mut image, set);
        }
        image.resize(end, 0);
    }
    for (filter, &number) in &plan.rules {
        let end = image.len() + RULE_SLOT;
        bodies::put_rule(&mut image, filter, number);
        image.resize(end, 0);
    }
    image.resize(size(plan.rooms), 0);
    image
}
