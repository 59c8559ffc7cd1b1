//! The calls of C-11 of the stand-in, step by step over the reference's parts,
//! so that each fault is at its step.

use crate::{c, lent, lent_mut};
use npp_reference::bodies::{self, CallRecord};
use npp_reference::calls::{self, Answered};
use npp_reference::layout;
use npp_reference::ledger::{self, District, Ledger, Sums, Totals, MOST_RECORDS, MOST_UNITS};
use npp_reference::prices::{self, Prices, Row, MOST_ROWS, SLOT, SLOTS_AT};
use npp_reference::process::{Answer, Outcome};
use npp_reference::rules::*;

type List = [u8; prices::MEMORY];
type Districts = [i64; ledger::MEMORY];

// ---------------------------------------------------------------------------
// Price lists

/// The rows of a lent list.
fn rows_in(list: &List) -> Checked<Prices> {
    let mut copy = *list;
    let count = usize::from(u16::from_be_bytes([copy[0], copy[1]]));
    let used = SLOTS_AT + SLOT * count.min(MOST_ROWS);
    if cfg!(fault_44) {
        // What stands behind the rows is not looked at.
        copy[used..].fill(0);
    }
    if cfg!(fault_45) {
        // The last byte of a row is not looked at.
        let slots = copy[SLOTS_AT..used].chunks_mut(SLOT);
        slots.for_each(|slot| slot[SLOT - 1] = 0);
    }
    if cfg!(fault_46) {
        // Rows may stand in any order.
        let mut slots: Vec<Vec<u8>> = copy[SLOTS_AT..used]
            .chunks(SLOT)
            .map(<[u8]>::to_vec)
            .collect();
        slots.sort_by_key(|slot| slot[2..2 + usize::from(slot[1].min(16))].to_vec());
        copy[SLOTS_AT..used].copy_from_slice(&slots.concat());
    }
    if cfg!(fault_47) {
        // A price may be one over the highest.
        for slot in copy[SLOTS_AT..used].chunks_mut(SLOT) {
            if slot[19..23] == (prices::HIGHEST_PRICE + 1).to_be_bytes() {
                slot[19..23].fill(0);
            }
        }
    }
    if cfg!(fault_48) && count == MOST_ROWS + 1 {
        // The count may be one over the rows that there are.
        copy[..SLOTS_AT].copy_from_slice(&(MOST_ROWS as u16).to_be_bytes());
    }
    Prices::decode(&copy).ok_or(Refusal::Range)
}

fn add_price(list: &mut List, body: &[u8]) -> Checked<()> {
    let body = body.get(..bodies::PRICE).ok_or(Refusal::Cut)?;
    let mut rows = rows_in(list)?;
    let mut row = bodies::price_row(body)?;
    if cfg!(fault_49) {
        // The price is put in with the low byte first.
        row.price = row.price.swap_bytes();
    }
    let most = match cfg!(fault_50) {
        // A list takes one row less.
        true => MOST_ROWS - 1,
        false => MOST_ROWS,
    };
    if cfg!(fault_51) {
        // FULL before TAKEN.
        demand(rows.rows.len() < most, Refusal::Full)?;
    }
    demand(!rows.rows.contains_key(&row.prefix), Refusal::Taken)?;
    demand(rows.rows.len() < most, Refusal::Full)?;
    if cfg!(fault_52) {
        put_last(list, &row);
        return Ok(());
    }
    rows.rows.insert(row.prefix, row.price);
    *list = rows.encode();
    Ok(())
}

/// The row stands behind the others, and not at its place.
fn put_last(list: &mut List, row: &Row) {
    let mut alone = Prices::default();
    alone.rows.insert(row.prefix.clone(), row.price);
    let slot = &alone.encode()[SLOTS_AT..SLOTS_AT + SLOT];
    let count = u16::from_be_bytes([list[0], list[1]]);
    list[SLOTS_AT + SLOT * usize::from(count)..][..SLOT].copy_from_slice(slot);
    list[..SLOTS_AT].copy_from_slice(&(count + 1).to_be_bytes());
}

/// # Safety
/// The first pointer is to a price list, the second and the length are those of
/// a slice that it does not overlap.
#[no_mangle]
pub unsafe extern "C" fn npp_add_price(prices: *mut u8, body: *const u8, k: usize) -> u8 {
    calls::refusal_number(add_price(&mut *prices.cast::<List>(), lent(body, k)))
}

// ---------------------------------------------------------------------------
// Ledgers

/// The ledger that is lent.
fn ledger_in(districts: &Districts, mut whole: Totals) -> Checked<Ledger> {
    let mut copy = *districts;
    for numbers in copy.chunks_mut(3) {
        let count = numbers[0];
        let bound = count.clamp(0, MOST_RECORDS) * MOST_UNITS;
        for sum in &mut numbers[1..] {
            if cfg!(fault_53) && count >= 0 {
                // A district's sum may be over its bound.
                *sum = (*sum).min(bound);
            }
            if cfg!(fault_54) {
                // A sum may be below zero.
                *sum = (*sum).max(0);
            }
        }
        if cfg!(fault_55) {
            // A district's count may be over the whole's.
            numbers[0] = count.min(whole.count);
        }
    }
    if cfg!(fault_56) && whole.count == MOST_RECORDS + 1 {
        // The whole's count may be one over the limit.
        whole.count = MOST_RECORDS;
    }
    if cfg!(fault_57) && (0..=MOST_RECORDS).contains(&whole.count) {
        // The whole's sums may be over their bound.
        whole.due = whole.due.min(whole.count * MOST_UNITS);
        whole.billed = whole.billed.min(whole.count * MOST_UNITS);
    }
    Ledger::decode(&copy, whole).ok_or(Refusal::Range)
}

/// Whether the ledger takes no record more.
fn is_full(ledger: &Ledger) -> bool {
    let mut limit = i128::from(MOST_RECORDS);
    if cfg!(fault_58) {
        // The limit is held by < where it is <=.
        limit -= 1;
    }
    if cfg!(fault_59) {
        // The limit is held by <= where it is <.
        limit += 1;
    }
    ledger.whole.count >= limit
}

fn enter(ledger: &mut Ledger, call: &CallRecord, due: i128) {
    let mut district = call.district;
    if cfg!(fault_60) {
        // Only the low byte of the district.
        let low = district.number() & 255;
        district = District::from_number(low).expect("a district");
    }
    let minutes = match cfg!(fault_61) {
        // Billed is not taken times 60.
        true => 1,
        false => 60,
    };
    let (mut due, mut billed) = (due, i128::from(call.billed) * minutes);
    if cfg!(fault_62) {
        // Each record is rounded to whole cents.
        due = cents(due) * ledger::UNITS_IN_A_CENT;
        billed = cents(billed) * ledger::UNITS_IN_A_CENT;
    }
    let sums = ledger.districts.entry(district).or_default();
    add(&mut ledger.whole, due, billed);
    match cfg!(fault_63) {
        // The district's due and billed are exchanged.
        true => add(sums, billed, due),
        false => add(sums, due, billed),
    }
}

fn add(sums: &mut Sums, due: i128, billed: i128) {
    sums.count += 1;
    sums.due += due;
    sums.billed += billed;
}

// ---------------------------------------------------------------------------
// Call records

fn price_of(rows: &Prices, digits: &[u8]) -> Option<u32> {
    if cfg!(fault_64) {
        // The shortest prefix that fits wins.
        let mut fitting = rows
            .rows
            .iter()
            .filter(|(prefix, _)| digits.starts_with(prefix));
        return fitting.next().map(|(_, &price)| price);
    }
    rows.price_of(digits)
}

fn due(rows: &Prices, answer: &Answer, call: &CallRecord) -> Checked<i128> {
    let digits = match answer.outcome {
        // The incoming digits are priced in outcome 4 too.
        Outcome::Formatted if cfg!(fault_65) => call.number.digits,
        Outcome::Formatted => &answer.digits,
        // What is left unchanged is due nothing.
        Outcome::Unchanged if cfg!(fault_66) => return Ok(0),
        // A responded call needs a price.
        Outcome::Responded if cfg!(fault_67) => call.number.digits,
        Outcome::Responded => return Ok(0),
        _ => call.number.digits,
    };
    let price = price_of(rows, digits).ok_or(Refusal::NoPrice)?;
    Ok(i128::from(call.seconds) * i128::from(price))
}

fn take(
    plan: &[u8],
    list: &List,
    (districts, whole): (&Districts, Totals),
    body: &[u8],
    room: usize,
) -> Checked<(Answer, Ledger)> {
    let has_room = room >= LONGEST_CONDITIONED;
    if cfg!(fault_68) {
        // RANGE of the ledger before PLAN.
        demand(body.len() >= bodies::CALL, Refusal::Cut)?;
        ledger_in(districts, whole)?;
    }
    if cfg!(fault_69) {
        // PLAN before CUT.
        demand(calls::sound(plan), Refusal::Plan)?;
    }
    let body = body.get(..bodies::CALL).ok_or(Refusal::Cut)?;
    let plan = layout::decode(plan).ok_or(Refusal::Plan)?;
    demand(has_room || cfg!(fault_70), Refusal::Room)?;
    let rows = rows_in(list)?;
    let mut ledger = ledger_in(districts, whole)?;
    let call = bodies::call(body)?;
    // RANGE before ROOM.
    demand(has_room || !cfg!(fault_70), Refusal::Room)?;
    // A day is refused.
    let long = cfg!(fault_71) && call.seconds == bodies::MOST_SECONDS;
    demand(!long, Refusal::Range)?;
    let answer = plan.answer(&body[bodies::NUMBER_AT..])?;
    // LEDGER FULL before NO PRICE.
    demand(!cfg!(fault_72) || !is_full(&ledger), Refusal::LedgerFull)?;
    let due = due(&rows, &answer, &call)?;
    demand(!is_full(&ledger), Refusal::LedgerFull)?;
    enter(&mut ledger, &call, due);
    Ok((answer, ledger))
}

fn take_call(
    plan: &[u8],
    list: &List,
    districts: &mut Districts,
    whole: &mut Totals,
    body: &[u8],
    out: &mut [u8],
) -> Answered {
    let result = take(plan, list, (districts, *whole), body, out.len());
    match &result {
        Ok((answer, after)) => {
            (*districts, *whole) = after.encode();
            let (digits, behind) = out.split_at_mut(answer.digits.len());
            digits.copy_from_slice(&answer.digits);
            if cfg!(fault_73) {
                // The buffer is cleared behind the digits.
                behind.fill(0);
            }
        }
        Err(Refusal::NoPrice) if cfg!(fault_74) => {
            // A record without a price adds to the whole's count.
            whole.count += 1;
        }
        Err(Refusal::NoPrice | Refusal::LedgerFull) if cfg!(fault_75) => {
            // A refused record leaves its outgoing digits in the buffer.
            calls::answer(plan, &body[bodies::NUMBER_AT..], out);
        }
        Err(_) => {}
    }
    Answered::of(&result.map(|(answer, _)| answer))
}

/// # Safety
/// Pointers are those of slices of the lengths behind them, of a price list, of
/// the districts and the whole of a ledger, which do not overlap.
#[no_mangle]
pub unsafe extern "C" fn npp_take_call(
    plan: *const u8,
    n: usize,
    prices: *const u8,
    districts: *mut i64,
    whole: *mut c::Totals,
    body: *const u8,
    k: usize,
    out: *mut u8,
    m: usize,
) -> c::Answered {
    let mut after = Totals::from(*whole);
    let given = take_call(
        lent(plan, n),
        &*prices.cast::<List>(),
        &mut *districts.cast::<Districts>(),
        &mut after,
        lent(body, k),
        lent_mut(out, m),
    );
    *whole = after.into();
    given.into()
}

// ---------------------------------------------------------------------------
// Losses

fn cents(units: i128) -> i128 {
    let cent = ledger::UNITS_IN_A_CENT;
    if cfg!(fault_76) {
        // Halves go towards zero.
        return (units.abs() + cent / 2 - 1) / cent * units.signum();
    }
    if cfg!(fault_77) {
        // Halves go up, below zero too.
        return (units + cent / 2).div_euclid(cent);
    }
    ledger::cents(units)
}

/// A loss is read of these sums; of none there is nothing to tell.
fn loss_of(sums: Checked<Option<Sums>>) -> c::Loss {
    let mut loss = c::Loss::default();
    match sums {
        Err(refusal) => loss.refusal = refusal.number(),
        // A district without records is told as one with a loss of nothing.
        Ok(None) => loss.held = u8::from(cfg!(fault_78)),
        Ok(Some(sums)) => {
            let units = match cfg!(fault_79) {
                // Billed less due.
                true => -sums.loss(),
                false => sums.loss(),
            };
            // A district whose loss is nothing is told as one without records.
            loss.held = u8::from(!cfg!(fault_80) || units != 0);
            loss.units = units as i64;
            loss.cents = cents(units) as i64;
        }
    }
    loss
}

/// # Safety
/// The pointer is to the districts of a ledger.
#[no_mangle]
pub unsafe extern "C" fn npp_district_loss(
    districts: *const i64,
    whole: c::Totals,
    district: u16,
) -> c::Loss {
    let ledger = ledger_in(&*districts.cast::<Districts>(), whole.into());
    loss_of(
        ledger.and_then(|ledger| match District::from_number(district) {
            Some(district) => Ok(ledger.districts.get(&district).copied()),
            // A district that is not there is told as one without records.
            None if cfg!(fault_81) => Ok(None),
            None => Err(Refusal::Range),
        }),
    )
}

/// # Safety
/// The pointer is to the districts of a ledger.
#[no_mangle]
pub unsafe extern "C" fn npp_total_loss(districts: *const i64, whole: c::Totals) -> c::Loss {
    let ledger = ledger_in(&*districts.cast::<Districts>(), whole.into());
    let mut loss = loss_of(
        ledger
            .as_ref()
            .map(|ledger| Some(ledger.whole))
            .map_err(|&r| r),
    );
    let sums = ledger.iter().flat_map(|ledger| ledger.districts.values());
    if cfg!(fault_82) && loss.refusal == 0 {
        // The total is added up from the districts' sums.
        loss.units = sums.clone().map(|sums| sums.loss()).sum::<i128>() as i64;
        loss.cents = cents(i128::from(loss.units)) as i64;
    }
    if cfg!(fault_83) && loss.refusal == 0 {
        // The total is added up from the districts' cents.
        loss.cents = sums.map(|sums| cents(sums.loss())).sum::<i128>() as i64;
    }
    loss
}
