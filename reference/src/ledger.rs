//! The month's ledger of C-11: sums by district and for the whole, the loss
//! that is worked out from them, and the memory of docs/LAYOUT.md.
//!
//! Due, billed and loss are in units: sixtieths of a thousandth of a cent.

use crate::rules::*;
use std::collections::BTreeMap;

/// The records that a ledger takes.
pub const MOST_RECORDS: i64 = 10_000_000;
/// What one record can be due or billed at most: 86,400 seconds at the highest
/// price, or the most billed times 60.
pub const MOST_UNITS: i64 = 86_400_000_000;
pub const UNITS_IN_A_CENT: i128 = 60_000;

pub const DISTRICTS: usize = 512;
/// The count, due and billed of each district.
pub const MEMORY: usize = 3 * DISTRICTS;

/// The number of a district, 0 to 511.
#[derive(Clone, Copy, Debug, PartialEq, Eq, PartialOrd, Ord)]
pub struct District(u16);

impl District {
    pub fn from_number(number: u16) -> Option<District> {
        (usize::from(number) < DISTRICTS).then_some(District(number))
    }

    pub fn number(self) -> u16 {
        self.0
    }
}

/// The whole's count, due and billed, as they are lent.
#[derive(Clone, Copy, Debug, Default, PartialEq, Eq)]
pub struct Totals {
    pub count: i64,
    pub due: i64,
    pub billed: i64,
}

/// The sums over some records.
#[derive(Clone, Copy, Debug, Default, PartialEq, Eq)]
pub struct Sums {
    pub count: i128,
    pub due: i128,
    pub billed: i128,
}

impl Sums {
    /// Below zero where we were overcharged.
    pub fn loss(self) -> i128 {
        self.due - self.billed
    }

    fn enter(&mut self, due: i128, billed: i128) {
        self.count += 1;
        self.due += due;
        self.billed += billed;
    }

    /// Each sum within what so many records can come to.  Under a count below
    /// zero none is.
    fn in_range(self, most: i128) -> bool {
        let bound = self.count * i128::from(MOST_UNITS);
        let within = |sum: i128| sum >= 0 && sum <= bound;
        self.count <= most && within(self.due) && within(self.billed)
    }
}

impl From<Totals> for Sums {
    fn from(totals: Totals) -> Sums {
        Sums {
            count: i128::from(totals.count),
            due: i128::from(totals.due),
            billed: i128::from(totals.billed),
        }
    }
}

impl From<Sums> for Totals {
    /// Sums in range are far below the ends of 64 bits.
    fn from(sums: Sums) -> Totals {
        let lent = |sum: i128| i64::try_from(sum).expect("a sum in range");
        Totals {
            count: lent(sums.count),
            due: lent(sums.due),
            billed: lent(sums.billed),
        }
    }
}

/// A loss to whole cents, halves away from zero.
pub fn cents(units: i128) -> i128 {
    let away = (units.abs() + UNITS_IN_A_CENT / 2) / UNITS_IN_A_CENT;
    away * units.signum()
}

#[derive(Clone, Debug, Default, PartialEq, Eq)]
pub struct Ledger {
    /// The districts with records.
    pub districts: BTreeMap<District, Sums>,
    pub whole: Sums,
}

impl Ledger {
    /// Enters one accepted record; LEDGER FULL at the limit.
    pub fn enter(&mut self, district: District, due: i128, billed: i128) -> Checked<()> {
        let full = self.whole.count >= i128::from(MOST_RECORDS);
        demand(!full, Refusal::LedgerFull)?;
        let sums = self.districts.entry(district).or_default();
        sums.enter(due, billed);
        self.whole.enter(due, billed);
        Ok(())
    }

    /// The ledger in a memory; none if a sum or a count is out of range.  A
    /// district without records has sums of nothing then.
    pub fn decode(districts: &[i64; MEMORY], whole: Totals) -> Option<Ledger> {
        let whole = Sums::from(whole);
        if !whole.in_range(i128::from(MOST_RECORDS)) {
            return None;
        }
        let mut held = BTreeMap::new();
        for (numbers, district) in districts.chunks(3).zip(0..) {
            let sums = Sums::from(Totals {
                count: numbers[0],
                due: numbers[1],
                billed: numbers[2],
            });
            if !sums.in_range(whole.count) {
                return None;
            }
            if sums.count > 0 {
                held.insert(District(district), sums);
            }
        }
        Some(Ledger {
            districts: held,
            whole,
        })
    }

    pub fn encode(&self) -> ([i64; MEMORY], Totals) {
        let mut districts = [0; MEMORY];
        for (district, &sums) in &self.districts {
            let totals = Totals::from(sums);
            let place = 3 * usize::from(district.0);
            districts[place..place + 3].copy_from_slice(&[totals.count, totals.due, totals.billed]);
        }
        (districts, self.whole.into())
    }
}
