//! The ledger of a month, and the losses in it.

use crate::c::{self, Totals, LEDGER_NUMBERS};
use crate::{accepted, Refusal};
use std::borrow::{Borrow, BorrowMut};

/// The districts of a ledger: they are 0 to 511.
pub const DISTRICTS: u16 = 512;
/// The records that a ledger takes.
pub const LEDGER_RECORDS: i64 = 10_000_000;
/// The units of a cent: a unit is a sixtieth of a thousandth of a cent.
pub const UNITS_A_CENT: i64 = 60_000;

/// The ledger of a month (C-11): count, due and billed of its records by district, and of the whole.
/// [`Plan::take_call`](crate::Plan::take_call) enters records into it where it stands. The 1,536 numbers
/// of the districts are owned (an array, a box) or borrowed (`&mut [i64; 1536]`; `&[i64; 1536]` to read
/// alone).
///
/// It may hold any numbers: each call examines it, and is refused with [`Refusal::Range`] where it is out of
/// range (docs/LAYOUT.md). One that begins as [`Ledger::new`] never is. A ledger belongs to no plan, and an
/// opening leaves it.
///
/// Three accounts that lose 24,000 units each come to 1 cent, where each alone would be 0:
///
/// ```
/// use npp::bodies::{self, Lookup, Settings};
/// use npp::{CallRecord, Class, Ledger, Loss, Plan, Price, PriceList, DIGIT_BUFFER_BYTES};
///
/// let mut plan = Plan::new(1, 1);
/// plan.open(&bodies::open(1, 1, &Settings::of_country(&[5, 5])).unwrap())?;
/// // 1 cent a minute, whatever the number.
/// let mut prices = PriceList::new();
/// prices.add(&Price { prefix: &[], price: 1_000 })?;
///
/// // A minute each, for which 0.6 cents were billed.
/// let number = bodies::number(Class::NATL, &[8, 7, 6, 5], &Lookup::NO_RECORD).unwrap();
/// let mut ledger = Ledger::new();
/// for account in [1001, 1002, 1003] {
///     let record = CallRecord { account, district: 17, seconds: 60, billed: 600, number };
///     plan.take_call(&prices, &mut ledger, &record, &mut [0; DIGIT_BUFFER_BYTES])?;
/// }
/// assert_eq!(ledger.district_loss(17), Ok(Some(Loss { units: 72_000, cents: 1 })));
/// assert_eq!(ledger.total_loss(), Ok(Loss { units: 72_000, cents: 1 }));
/// # Ok::<(), npp::Refusal>(())
/// ```
#[derive(Clone, Debug, PartialEq, Eq)]
pub struct Ledger<D = Box<[i64; LEDGER_NUMBERS]>> {
    districts: D,
    whole: Totals,
}

/// What records are due, less what was billed for them.
#[derive(Clone, Copy, Debug, PartialEq, Eq)]
pub struct Loss {
    /// In units, not rounded; below zero where we were overcharged.
    pub units: i64,
    /// In whole cents, rounded once, a half away from zero.
    pub cents: i64,
}

impl Loss {
    fn of(given: c::Loss) -> Loss {
        Loss {
            units: given.units,
            cents: given.cents,
        }
    }
}

impl Ledger {
    /// The empty ledger, all numbers 0, in a memory of its own.
    ///
    /// ```
    /// use npp::{Ledger, Loss};
    ///
    /// let ledger = Ledger::new();
    /// assert_eq!(ledger.district_loss(0), Ok(None));
    /// assert_eq!(ledger.total_loss(), Ok(Loss { units: 0, cents: 0 }));
    /// ```
    pub fn new() -> Ledger {
        Ledger::over(Box::new([0; LEDGER_NUMBERS]), Totals::default())
    }
}

impl Default for Ledger {
    fn default() -> Ledger {
        Ledger::new()
    }
}

impl<D: Borrow<[i64; LEDGER_NUMBERS]>> Ledger<D> {
    /// The ledger with these numbers of the districts, count, due and billed of district d from 3 d on,
    /// and these of the whole.
    ///
    /// ```
    /// use npp::{Ledger, Loss, Refusal, Totals};
    ///
    /// // District 17 has one record, which was overcharged by half a cent.
    /// let mut districts = [0; npp::LEDGER_NUMBERS];
    /// districts[3 * 17..][..3].copy_from_slice(&[1, 0, 30_000]);
    /// let ledger = Ledger::over(&districts, Totals { count: 1, due: 0, billed: 30_000 });
    /// assert_eq!(ledger.district_loss(17), Ok(Some(Loss { units: -30_000, cents: -1 })));
    ///
    /// // A district with more records than the whole has.
    /// let ledger = Ledger::over(&districts, Totals::default());
    /// assert_eq!(ledger.total_loss(), Err(Refusal::Range));
    /// ```
    pub fn over(districts: D, whole: Totals) -> Ledger<D> {
        Ledger { districts, whole }
    }

    /// The numbers of the districts: count, due and billed of district d stand from 3 d on.
    pub fn districts(&self) -> &[i64; LEDGER_NUMBERS] {
        self.districts.borrow()
    }

    /// The same three over all districts.
    pub fn whole(&self) -> Totals {
        self.whole
    }

    /// Gives the numbers back.
    pub fn into_numbers(self) -> (D, Totals) {
        (self.districts, self.whole)
    }

    /// The loss of a district: `npp_district_loss`. None where it has no records.
    ///
    /// Refusals: RANGE, the ledger is out of range or the district is over 511.
    ///
    /// ```
    /// use npp::{Ledger, Refusal};
    ///
    /// let ledger = Ledger::new();
    /// assert_eq!(ledger.district_loss(511), Ok(None));
    /// assert_eq!(ledger.district_loss(512), Err(Refusal::Range));
    /// ```
    pub fn district_loss(&self, district: u16) -> Result<Option<Loss>, Refusal> {
        let given = c::district_loss(self.districts(), self.whole, district);
        accepted(given.refusal)?;
        Ok((given.held == 1).then(|| Loss::of(given)))
    }

    /// The loss over all districts: `npp_total_loss`. It is rounded once, and not added up from the
    /// districts' cents.
    ///
    /// Refusals: RANGE, the ledger is out of range.
    pub fn total_loss(&self) -> Result<Loss, Refusal> {
        let given = c::total_loss(self.districts(), self.whole);
        accepted(given.refusal)?;
        Ok(Loss::of(given))
    }
}

impl<D: BorrowMut<[i64; LEDGER_NUMBERS]>> Ledger<D> {
    /// What a call record is entered into.
    pub(crate) fn numbers_mut(&mut self) -> (&mut [i64; LEDGER_NUMBERS], &mut Totals) {
        (self.districts.borrow_mut(), &mut self.whole)
    }
}
