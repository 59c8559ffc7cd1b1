//! So that the two can be held against each other: the reference's answers and
//! totals as the library has them, and the library's provisioning calls by kind.

use crate::c;
use npp_reference::calls;
use npp_reference::charging::LossRead;
use npp_reference::ledger::Totals;
use npp_reference::rules::{Checked, Filter, SetNumber};

impl From<calls::Answered> for c::Answered {
    fn from(given: calls::Answered) -> c::Answered {
        c::Answered {
            refusal: given.refusal,
            outcome: given.outcome,
            class: given.class,
            response: given.response,
            count: given.count,
            actions: given.actions,
            digits: given.written,
        }
    }
}

impl From<Checked<usize>> for c::Written {
    fn from(given: Checked<usize>) -> c::Written {
        c::Written {
            refusal: calls::refusal_number(given),
            bytes: given.unwrap_or(0),
        }
    }
}

impl From<Checked<usize>> for c::Counted {
    fn from(given: Checked<usize>) -> c::Counted {
        c::Counted {
            refusal: calls::refusal_number(given),
            rules: given.unwrap_or(0),
        }
    }
}

impl From<Checked<usize>> for c::Compared {
    fn from(given: Checked<usize>) -> c::Compared {
        c::Compared {
            refusal: calls::refusal_number(given),
            differences: given.unwrap_or(0),
        }
    }
}

impl From<(usize, usize)> for c::Span {
    fn from((start, count): (usize, usize)) -> c::Span {
        c::Span { start, count }
    }
}

impl From<Checked<(Filter, SetNumber)>> for c::Listed {
    fn from(given: Checked<(Filter, SetNumber)>) -> c::Listed {
        let mut listed = c::Listed::default();
        match given {
            Ok((filter, set)) => {
                listed.class = filter.class.byte();
                listed.digits = filter.prefix.len() as u8;
                listed.length = filter.length.unwrap_or(0);
                listed.prefix[..filter.prefix.len()].copy_from_slice(&filter.prefix);
                listed.set = set.0;
            }
            Err(refusal) => listed.refusal = refusal.number(),
        }
        listed
    }
}

impl From<Totals> for c::Totals {
    fn from(Totals { count, due, billed }: Totals) -> c::Totals {
        c::Totals { count, due, billed }
    }
}

impl From<c::Totals> for Totals {
    fn from(lent: c::Totals) -> Totals {
        Totals {
            count: lent.count,
            due: lent.due,
            billed: lent.billed,
        }
    }
}

impl From<LossRead> for c::Loss {
    fn from(given: LossRead) -> c::Loss {
        c::Loss {
            refusal: given.refusal,
            held: given.held,
            units: given.units,
            cents: given.cents,
        }
    }
}

/// A provisioning call: plan and body in, the refusal number out.
pub type Provision = fn(&mut [u8], &[u8]) -> u8;

/// By their kinds, 0 to 6.
pub const PROVISIONING: [Provision; 7] = [
    c::open,
    c::add_set,
    c::replace_set,
    c::remove_set,
    c::add_rule,
    c::change_rule,
    c::remove_rule,
];
