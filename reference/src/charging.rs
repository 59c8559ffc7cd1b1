//! What a call record is due (C-11), and the library calls of C-11 over lent
//! memory: a refused call changes nothing lent.

use crate::bodies::{self, CallRecord, Kind};
use crate::calls::{self, Answered};
use crate::ledger::{self, cents, District, Ledger, Sums, Totals};
use crate::plan::Plan;
use crate::prices::{self, Prices};
use crate::process::{Answer, Outcome};
use crate::rules::*;

/// The digits that a call is priced on; none for a responded one, which is due
/// nothing.
fn priced_on<'a>(answer: &'a Answer, call: &CallRecord<'a>) -> Option<&'a [u8]> {
    match answer.outcome {
        Outcome::Formatted => Some(&answer.digits),
        Outcome::NoRule | Outcome::Escaped | Outcome::Unchanged => Some(call.number.digits),
        Outcome::Responded => None,
    }
}

/// Seconds times the price of a minute are sixtieths.
fn due(prices: &Prices, answer: &Answer, call: &CallRecord) -> Checked<i128> {
    match priced_on(answer, call) {
        None => Ok(0),
        Some(digits) => {
            let price = prices.price_of(digits).ok_or(Refusal::NoPrice)?;
            Ok(i128::from(call.seconds) * i128::from(price))
        }
    }
}

/// Takes a whole body into a ledger: RANGE, SHORT, LONG, NO PRICE, LEDGER FULL.
/// A refused one leaves the ledger as it is.
pub fn take(plan: &Plan, prices: &Prices, ledger: &mut Ledger, body: &[u8]) -> Checked<Answer> {
    let call = bodies::call(body)?;
    let answer = plan.answer(&body[bodies::NUMBER_AT..])?;
    let due = due(prices, &answer, &call)?;
    ledger.enter(call.district, due, i128::from(call.billed) * 60)?;
    Ok(answer)
}

// ---------------------------------------------------------------------------
// The calls

/// Adds a row: CUT, RANGE (the body or the lent list), TAKEN, FULL.
pub fn add_price(prices: &mut [u8; prices::MEMORY], body: &[u8]) -> Checked<()> {
    let body = calls::whole(Kind::Price, body)?;
    let mut rows = Prices::decode(prices).ok_or(Refusal::Range)?;
    rows.add(body)?;
    *prices = rows.encode();
    Ok(())
}

/// Answers the number of a call record and enters the record into the ledger.
pub fn take_call(
    plan: &[u8],
    prices: &[u8; prices::MEMORY],
    districts: &mut [i64; ledger::MEMORY],
    whole: &mut Totals,
    body: &[u8],
    out: &mut [u8],
) -> Answered {
    let result = try_take(plan, prices, (districts, *whole), body, out.len());
    if let Ok((answer, after)) = &result {
        (*districts, *whole) = after.encode();
        calls::write_front(out, &answer.digits);
    }
    Answered::of(&result.map(|(answer, _)| answer))
}

/// CUT, PLAN, ROOM, RANGE (the ledger, the list or the body), then as `take`.
/// The ledger behind the record is a new one.
fn try_take(
    plan: &[u8],
    prices: &[u8; prices::MEMORY],
    (districts, whole): (&[i64; ledger::MEMORY], Totals),
    body: &[u8],
    room: usize,
) -> Checked<(Answer, Ledger)> {
    let body = calls::whole(Kind::Call, body)?;
    let plan = calls::plan_in(plan)?;
    demand(room >= LONGEST_CONDITIONED, Refusal::Room)?;
    let prices = Prices::decode(prices).ok_or(Refusal::Range)?;
    let mut ledger = Ledger::decode(districts, whole).ok_or(Refusal::Range)?;
    let answer = take(&plan, &prices, &mut ledger, body)?;
    Ok((answer, ledger))
}

/// A loss in units and in whole cents.  Where `refusal` is not 0, or nothing
/// is held, all others are 0.
#[derive(Clone, Copy, Debug, Default, PartialEq, Eq)]
pub struct LossRead {
    pub refusal: u8,
    /// 1 if the district has records; for the total 1 always.
    pub held: u8,
    pub units: i64,
    pub cents: i64,
}

impl LossRead {
    fn of(sums: Checked<Option<Sums>>) -> LossRead {
        match sums {
            Err(refusal) => LossRead {
                refusal: refusal.number(),
                ..LossRead::default()
            },
            Ok(None) => LossRead::default(),
            Ok(Some(sums)) => LossRead {
                refusal: 0,
                held: 1,
                units: sums.loss() as i64,
                cents: cents(sums.loss()) as i64,
            },
        }
    }
}

/// RANGE for a ledger out of range and for a district over 511.
pub fn district_loss(districts: &[i64; ledger::MEMORY], whole: Totals, district: u16) -> LossRead {
    let ledger = Ledger::decode(districts, whole).ok_or(Refusal::Range);
    let district = District::from_number(district).ok_or(Refusal::Range);
    LossRead::of(ledger.and_then(|ledger| {
        let district = district?;
        Ok(ledger.districts.get(&district).copied())
    }))
}

/// RANGE for a ledger out of range.
pub fn total_loss(districts: &[i64; ledger::MEMORY], whole: Totals) -> LossRead {
    let ledger = Ledger::decode(districts, whole).ok_or(Refusal::Range);
    LossRead::of(ledger.map(|ledger| Some(ledger.whole)))
}
