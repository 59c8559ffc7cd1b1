//! Two plans side by side (C-20): what differs between two maps from filters to
//! contents, and the library call over lent memory.

use crate::bodies;
use crate::calls;
use crate::plan::Plan;
use crate::rules::*;
use std::collections::{BTreeMap, BTreeSet};

/// The bytes of an entry: which plan holds the filter 1, the filter 19, the
/// left and the right set 2 each.
pub const ENTRY: usize = 1 + bodies::FILTER + 2 + 2;

/// Stands for the set of a plan that does not hold the filter.
pub const NO_SET: SetNumber = SetNumber(65_535);

/// Which plans hold a filter that is listed, with the sets that they name for
/// it.
#[derive(Clone, Copy, Debug, PartialEq, Eq)]
pub enum Held {
    Left(SetNumber),
    Right(SetNumber),
    /// The contents of the two sets differ; the numbers may be equal.
    Both(SetNumber, SetNumber),
}

/// A filter with which the two plans do not do the same.
#[derive(Clone, Debug, PartialEq, Eq)]
pub struct Difference {
    pub filter: Filter,
    pub held: Held,
}

/// What a plan holds for a filter: its set, by number and by content.
type Named<'a> = (SetNumber, &'a ActionSet);

/// Settings, rooms and sets that no rule names have no part in it.
fn contents(plan: &Plan) -> BTreeMap<&Filter, Named<'_>> {
    let rules = plan.rules.iter();
    rules
        .map(|(filter, number)| (filter, (*number, &plan.sets[number])))
        .collect()
}

/// In listing order, each filter once.
pub fn differences(left: &Plan, right: &Plan) -> Vec<Difference> {
    let (left, right) = (contents(left), contents(right));
    let filters: BTreeSet<&Filter> = left.keys().chain(right.keys()).copied().collect();
    let mut differences = Vec::new();
    for filter in filters {
        if let Some(held) = held(left.get(filter), right.get(filter)) {
            let filter = filter.clone();
            differences.push(Difference { filter, held });
        }
    }
    differences
}

/// None where both hold the filter with equal contents.
fn held(left: Option<&Named>, right: Option<&Named>) -> Option<Held> {
    match (left, right) {
        (Some(&(number, _)), None) => Some(Held::Left(number)),
        (None, Some(&(number, _))) => Some(Held::Right(number)),
        (Some(&(left, one)), Some(&(right, other))) => {
            (one != other).then_some(Held::Both(left, right))
        }
        (None, None) => None,
    }
}

fn put_entry(bytes: &mut Vec<u8>, difference: &Difference) {
    let (kind, left, right) = match difference.held {
        Held::Left(number) => (1, number, NO_SET),
        Held::Right(number) => (2, NO_SET, number),
        Held::Both(left, right) => (3, left, right),
    };
    bytes.push(kind);
    bodies::put_filter(bytes, &difference.filter);
    bodies::put_set_number(bytes, left);
    bodies::put_set_number(bytes, right);
}

/// Writes an entry for each difference at the front of `out` and gives their
/// count: PLAN if either memory is no sound plan, ROOM if not all entries fit.
pub fn compare(left: &[u8], right: &[u8], out: &mut [u8]) -> Checked<usize> {
    let (left, right) = (calls::plan_in(left)?, calls::plan_in(right)?);
    let differences = differences(&left, &right);
    let mut entries = Vec::with_capacity(ENTRY * differences.len());
    for difference in &differences {
        put_entry(&mut entries, difference);
    }
    demand(out.len() >= entries.len(), Refusal::Room)?;
    calls::write_front(out, &entries);
    Ok(differences.len())
}
