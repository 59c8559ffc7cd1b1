//! Times call records on a plan, a price list and a ledger that are known to be
//! in order: the library's inner call beside the reference's over its maps, and
//! beside the library's answers to the same numbers alone.

#[allow(dead_code)]
#[path = "../../agreement/src/alike.rs"]
mod alike;
#[allow(dead_code)]
#[path = "../../rust/src/c.rs"]
mod c;
#[allow(dead_code)]
#[path = "../../agreement/src/random.rs"]
mod random;

mod clock;
#[allow(dead_code)]
mod known;
#[allow(dead_code)]
mod made;

use c::{Totals, LEDGER_NUMBERS, PRICES_BYTES};
use clock::Clock;
use made::Made;
use npp_reference::ledger::Ledger;
use npp_reference::plan::Plan;
use npp_reference::prices::Prices;
use npp_reference::{bodies, charging, layout};
use std::hint::black_box;

const SETS: u16 = 64;
const RULES: u16 = 512;
const ROWS: [usize; 3] = [1, 16, 256];
const RECORDS: usize = 4096;
/// The bytes of a buffer for digits.
const ROOM: usize = 35;

fn main() {
    let clock = Clock::from_arguments();
    for rows in ROWS {
        time_records(&clock, rows);
    }
}

/// What our call is given; each pass begins with an empty ledger, which takes
/// no more than 10,000,000 records.
struct Ours {
    plan: Vec<u8>,
    prices: [u8; PRICES_BYTES],
    districts: [i64; LEDGER_NUMBERS],
    whole: Totals,
    records: Vec<u8>,
}

impl Ours {
    fn pass(&mut self) -> u64 {
        self.districts.fill(0);
        self.whole = Totals::default();
        let ledger = (&mut self.districts, &mut self.whole);
        known::take_calls(&self.plan, &self.prices, ledger, black_box(&self.records))
    }
}

/// The same by the reference: the sum of the outcomes, and the ledger.
fn their_pass(plan: &Plan, prices: &Prices, records: &[u8]) -> (u64, Ledger) {
    let mut ledger = Ledger::default();
    let mut sum = 0;
    for body in records.chunks(bodies::CALL) {
        if let Ok(answer) = charging::take(plan, prices, &mut ledger, black_box(body)) {
            sum += answer.outcome as u64;
        }
    }
    (sum, ledger)
}

/// Ends the program where the two differ.
fn demand_same(ours: &mut Ours, plan: &Plan, prices: &Prices) {
    let sum = ours.pass();
    let (expected, ledger) = their_pass(plan, prices, &ours.records);
    assert_eq!(sum, expected, "the sums of the outcomes differ");
    let (districts, whole) = ledger.encode();
    assert!(ours.districts == districts, "the districts differ");
    assert_eq!(ours.whole, whole.into(), "the wholes differ");
    assert!(whole.count > 0, "no record is accepted");
}

fn time_records(clock: &Clock, rows: usize) {
    let mut made = Made::full(SETS, RULES);
    let prices = made.prices(rows);
    let records = made.calls(clock.scaled(RECORDS)).concat();
    let count = records.len() / bodies::CALL;
    let mut ours = Ours {
        plan: layout::encode(&made.plan),
        prices: prices.encode(),
        districts: [0; LEDGER_NUMBERS],
        whole: Totals::default(),
        records: records.clone(),
    };
    demand_same(&mut ours, &made.plan, &prices);
    clock.line(
        &format!("charged {rows}"),
        count,
        || {
            black_box(ours.pass());
        },
        || {
            black_box(their_pass(&made.plan, &prices, &records));
        },
    );
    let plan = ours.plan.clone();
    let mut out = [0; ROOM];
    clock.line(
        &format!("beside {rows}"),
        count,
        || {
            black_box(ours.pass());
        },
        || {
            for body in records.chunks(bodies::CALL) {
                let number = black_box(&body[bodies::NUMBER_AT..]);
                black_box(known::answer(&plan, number, &mut out));
            }
        },
    );
}
