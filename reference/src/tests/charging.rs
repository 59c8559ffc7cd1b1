//! C-11, the loss by district: the request's own example, what each outcome is
//! priced on, every bound, the order of refusals, and the two memories.

use super::support::*;
use crate::calls::{self, Answered};
use crate::charging::{self, LossRead};
use crate::ledger::{self, cents, Ledger, Totals};
use crate::prices::{self, Prices};
use crate::text;

/// The body of a row: prefix 1+16, price 4.
fn row(prefix: &str, price: u32) -> Vec<u8> {
    let mut body = vec![prefix.len() as u8];
    body.extend(digits(prefix));
    body.resize(17, 0);
    body.extend(price.to_be_bytes());
    body
}

/// The body of a call record: account 4, district 2, seconds 4, billed 4, a
/// number.
fn call(account: u32, district: u16, seconds: u32, billed: u32, number: &str) -> Vec<u8> {
    let mut body = account.to_be_bytes().to_vec();
    body.extend(district.to_be_bytes());
    body.extend(seconds.to_be_bytes());
    body.extend(billed.to_be_bytes());
    body.extend(self::body(&format!("number {number} asd - grn -")));
    body
}

/// A plan, a price list and a ledger, with the calls of C-11 on them.
#[derive(Clone)]
struct Month {
    plan: Vec<u8>,
    prices: [u8; prices::MEMORY],
    districts: [i64; ledger::MEMORY],
    whole: Totals,
}

impl Month {
    /// An empty ledger, beside a plan and rows that are accepted.
    fn new(plan: &[&str], rows: &[(&str, u32)]) -> Month {
        let mut month = Month {
            plan: Bench::new(plan).memory,
            prices: [0; prices::MEMORY],
            districts: [0; ledger::MEMORY],
            whole: Totals::default(),
        };
        for &(prefix, price) in rows {
            assert_eq!(month.add_price(&row(prefix, price)), 0, "{prefix}");
        }
        month
    }

    /// The refusal number; a refused row leaves the list as it was.
    fn add_price(&mut self, body: &[u8]) -> u8 {
        let before = self.prices;
        let number = calls::refusal_number(charging::add_price(&mut self.prices, body));
        assert!(number == 0 || self.prices == before);
        number
    }

    fn take(&mut self, body: &[u8]) -> (Answered, String) {
        self.take_into(body, 40)
    }

    /// Takes a record with a buffer of that length.  A refused one leaves the
    /// ledger and the buffer as they were; bytes behind the digits stay.
    fn take_into(&mut self, body: &[u8], room: usize) -> (Answered, String) {
        let (districts, whole) = (self.districts, self.whole);
        let mut out = vec![FILLING; room];
        let answered = charging::take_call(
            &self.plan,
            &self.prices,
            &mut self.districts,
            &mut self.whole,
            body,
            &mut out,
        );
        let unchanged = (self.districts, self.whole) == (districts, whole);
        assert_eq!(answered.refusal != 0, unchanged);
        assert!(out[answered.written..].iter().all(|&byte| byte == FILLING));
        (answered, in_text(&out[..answered.written]))
    }

    /// The refusal number of a record, 0 if it is accepted.
    fn refusal(&mut self, body: &[u8]) -> u8 {
        self.take(body).0.refusal
    }

    /// Units and cents of a district that has records.
    fn loss(&self, district: u16) -> (i64, i64) {
        held(charging::district_loss(
            &self.districts,
            self.whole,
            district,
        ))
    }

    fn total(&self) -> (i64, i64) {
        held(charging::total_loss(&self.districts, self.whole))
    }

    fn sums(&self, district: usize) -> [i64; 3] {
        let numbers = &self.districts[3 * district..3 * district + 3];
        numbers.try_into().expect("three numbers")
    }

    fn whole_sums(&self) -> [i64; 3] {
        [self.whole.count, self.whole.due, self.whole.billed]
    }
}

fn held(loss: LossRead) -> (i64, i64) {
    assert_eq!((loss.refusal, loss.held), (0, 1));
    (loss.units, loss.cents)
}

/// A loss that is refused with RANGE.
const OUT_OF_RANGE: LossRead = LossRead {
    refusal: 5,
    held: 0,
    units: 0,
    cents: 0,
};

/// S1 under NATL */*: 87654321 with RN 0015 goes out as 001587654321.
const PLAN: [&str; 3] = [OPEN, S1, "add-rule NATL * * 0"];
const NUMBER: &str = "NATL 87654321 RN 0015";

/// One record: 60 seconds at 1,000 thousandths of a cent a minute are due
/// 60 * 1,000 = 60,000 units, 600 thousandths billed are 600 * 60 = 36,000, and
/// 60,000 - 36,000 = 24,000 are lost.  Three of them lose 72,000, which is 1.2
/// cents of 60,000 units: 1.  One alone loses 0.4 cents: 0.
#[test]
fn the_requests_three_accounts() {
    let mut month = Month::new(&PLAN, &[("", 1_000)]);
    for account in 1..=3 {
        let taken = month.take(&call(account, 17, 60, 600, NUMBER));
        assert_eq!(taken, answered(4, 1, 0, &[2], "001587654321"));
    }
    assert_eq!(month.sums(17), [3, 180_000, 108_000]);
    assert_eq!(month.loss(17), (72_000, 1));
    assert_eq!(month.total(), (72_000, 1));
    // Each in a district of its own: 0, 0, 0, and the total of the sums is 1.
    let mut apart = Month::new(&PLAN, &[("", 1_000)]);
    for district in 0..3 {
        let taken = apart.refusal(&call(9, district, 60, 600, NUMBER));
        assert_eq!((taken, apart.loss(district)), (0, (24_000, 0)));
    }
    assert_eq!(apart.total(), (72_000, 1));
}

/// 1 cent is 60,000 units, half of one 30,000.
#[test]
fn halves_are_rounded_away_from_zero() {
    let rounded = [
        (0, 0),
        (1, 0),
        (24_000, 0),
        (29_999, 0),
        (30_000, 1),
        (60_000, 1),
        (72_000, 1),
        (89_999, 1),
        (90_000, 2),
        // 10,000,000 records of 86,400,000,000 units: 864 * 10^15 / 60,000.
        (864_000_000_000_000_000, 14_400_000_000_000),
    ];
    for (units, whole) in rounded {
        assert_eq!(cents(units), whole, "{units}");
        assert_eq!(cents(-units), -whole, "-{units}");
    }
}

/// The same through records.  A minute at 1 thousandth is 60 units, a second at
/// 29,999 is 29,999; 500 billed are 30,000.
#[test]
fn halves_in_a_ledger() {
    for (price, seconds, billed, loss) in [
        (29_999, 1, 0, (29_999, 0)),
        (30_000, 1, 0, (30_000, 1)),
        (1, 1, 500, (1 - 30_000, 0)),
        (0, 60, 500, (-30_000, -1)),
        (30_000, 3, 0, (90_000, 2)),
        (0, 60, 1_500, (-90_000, -2)),
    ] {
        let mut month = Month::new(&PLAN, &[("0015", price)]);
        assert_eq!(month.refusal(&call(0, 17, seconds, billed, NUMBER)), 0);
        assert_eq!((month.loss(17), month.total()), (loss, loss));
    }
}

/// Outcome 4 is priced on the outgoing digits, 0, 1 and 3 on the incoming ones,
/// and 2 is due nothing.
#[test]
fn what_each_outcome_is_priced_on() {
    let plan = [
        "open sets 8 rules 8 cc 55 dfltrn - a - b - answers 1 4 1 1",
        S1,
        "add-set 1 class 3 ca - sa - fa -",
        "add-set 2 class 255 ca DNX,CCDEF sa INPRTG,CDPNNP fa RN,DN",
        "add-rule NATL * * 0",
        "add-rule UNKNOWN * * 1",
        "add-rule HOUSE3 * * 2",
    ];
    let rows = [("8", 100), ("00", 7)];
    // 10 seconds each: 10 * 7 = 70 outgoing, 10 * 100 = 1,000 incoming.
    for (number, outcome, due) in [
        ("NATL 87654321 RN 0015", 4, 70),
        ("INTL 87654321 RN 0015", 0, 1_000),
        ("UNKNOWN 87654321 RN 0015", 1, 1_000),
        ("HOUSE3 87654321 NOENTITY -", 2, 0),
        ("NATL 87654321 NONE -", 3, 1_000),
    ] {
        let mut month = Month::new(&plan, &rows);
        let taken = month.take(&call(1, 5, 10, 2, number)).0;
        assert_eq!((taken.refusal, taken.outcome), (0, outcome), "{number}");
        // Billed 2 * 60 = 120.
        assert_eq!(month.sums(5), [1, due, 120], "{number}");
        assert_eq!(month.whole_sums(), [1, due, 120], "{number}");
        // No row for what the outcome is priced on; outcome 2 needs none.
        for (rows, priced) in [(&rows[..1], outcome != 4), (&rows[1..], outcome == 4)] {
            let mut month = Month::new(&plan, rows);
            let number = month.refusal(&call(1, 5, 10, 2, number));
            let accepted = priced || outcome == 2;
            assert_eq!(number, if accepted { 0 } else { 14 });
        }
        // A full ledger takes none of them.
        let mut full = Month::new(&plan, &rows);
        full.whole.count = 10_000_000;
        assert_eq!(full.refusal(&call(1, 5, 10, 2, number)), 15);
        let mut without = Month::new(&plan, &[]);
        let number = without.refusal(&call(1, 5, 10, 2, number));
        assert_eq!(number, if outcome == 2 { 0 } else { 14 });
    }
}

/// The longest prefix that begins the digits wins, in whatever order the rows
/// came; one longer than the number does not fit it.
#[test]
fn the_longest_prefix_wins() {
    let long = "8765432187654321";
    let mut rows = vec![
        ("87", 3),
        ("", 1),
        ("876543210", 9),
        (long, 16),
        ("8", 2),
        ("9", 5),
        ("87654321", 8),
        ("88", 4),
    ];
    for _ in 0..2 {
        rows.reverse();
        let prices = Prices::decode(&Month::new(&PLAN, &rows).prices).expect("in range");
        for (number, price) in [
            ("87654321", 8),
            ("876543210", 9),
            ("87654320", 3),
            ("8", 2),
            ("87", 3),
            ("89", 2),
            ("88", 4),
            ("98", 5),
            ("7", 1),
            ("", 1),
            (long, 16),
            ("876543218765432112345678", 16),
        ] {
            assert_eq!(prices.price_of(&digits(number)), Some(price), "{number}");
        }
    }
    let prices = Prices::decode(&Month::new(&PLAN, &rows[..1]).prices).expect("in range");
    assert_eq!(prices.price_of(&digits("77654321")), None);
    assert_eq!(prices.price_of(&[]), None);
}

/// No digits are priced by the empty prefix alone: incoming ones in outcomes 0
/// and 1, outgoing ones in outcome 4.
#[test]
fn no_digits() {
    let plan = [
        "open sets 8 rules 8 cc 55 dfltrn - a - b - answers 1 1 1 1 accepting 1",
        "add-set 0 class 255 ca DNX,CCDEF sa CDPNNP fa RN,SP",
        "add-set 1 class 255 ca - sa - fa -",
        "add-rule NATL * * 0",
        "add-rule INTL * * 1",
    ];
    let every: Vec<String> = (0..16).map(|digit| format!("{digit:x}")).collect();
    let every: Vec<(&str, u32)> = every.iter().map(|prefix| (&prefix[..], 1)).collect();
    for (number, outcome) in [
        ("NATL 87654321 NOENTITY -", 4),
        ("INTL - NONE -", 1),
        ("UNKNOWN - NONE -", 0),
    ] {
        let mut month = Month::new(&plan, &every);
        assert_eq!(month.refusal(&call(1, 0, 60, 0, number)), 14, "{number}");
        assert_eq!(month.add_price(&row("", 2)), 0);
        let taken = month.take(&call(1, 0, 60, 0, number));
        assert_eq!((taken.0.outcome, &taken.1[..]), (outcome, ""));
        // 60 seconds at 2.
        assert_eq!(month.sums(0), [1, 120, 0]);
    }
}

/// Each record is priced as the rows then stood.
#[test]
fn rows_that_come_later() {
    let mut month = Month::new(&PLAN, &[("", 1_000)]);
    let record = call(1, 2, 30, 0, NUMBER);
    assert_eq!(month.refusal(&record), 0);
    assert_eq!(month.add_price(&row("0015", 10)), 0);
    assert_eq!(month.refusal(&record), 0);
    // 30 * 1,000 and 30 * 10.
    assert_eq!(month.sums(2), [2, 30_300, 0]);
}

/// The records of one district do not touch another; the whole has all.
#[test]
fn districts_are_apart() {
    let mut month = Month::new(&PLAN, &[("", 1_000)]);
    for (district, seconds, billed) in [(511, 60, 0), (0, 30, 1_000), (511, 1, 1), (0, 0, 0)] {
        assert_eq!(
            month.refusal(&call(7, district, seconds, billed, NUMBER)),
            0
        );
    }
    // 60 * 1,000 + 1 * 1,000 due and 1 * 60 billed; 30 * 1,000 and 1,000 * 60.
    assert_eq!(month.sums(511), [2, 61_000, 60]);
    assert_eq!(month.sums(0), [2, 30_000, 60_000]);
    assert_eq!(month.whole_sums(), [4, 91_000, 60_060]);
    assert_eq!(
        (month.loss(511), month.loss(0)),
        ((60_940, 1), (-30_000, -1))
    );
    assert_eq!(month.total(), (30_940, 1));
    for district in 1..511 {
        assert_eq!(month.sums(usize::from(district)), [0; 3]);
        let loss = charging::district_loss(&month.districts, month.whole, district);
        assert_eq!(loss, LossRead::default());
    }
}

/// Every field of a call record at and over its limit.
#[test]
fn fields_of_a_call_record() {
    for (account, district, seconds, billed, number) in [
        (0, 0, 0, 0, 0),
        (u32::MAX, 511, 86_400, 1_440_000_000, 0),
        (0, 512, 0, 0, 5),
        (0, 65_535, 0, 0, 5),
        (0, 0, 86_401, 0, 5),
        (0, 0, u32::MAX, 0, 5),
        (0, 0, 0, 1_440_000_001, 5),
        (0, 0, 0, u32::MAX, 5),
    ] {
        let mut month = Month::new(&PLAN, &[("", 1_000_000)]);
        let record = call(account, district, seconds, billed, NUMBER);
        assert_eq!(month.refusal(&record), number);
    }
    // 86,400 * 1,000,000 = 1,440,000,000 * 60 = 86,400,000,000: a loss of 0.
    let mut month = Month::new(&PLAN, &[("", 1_000_000)]);
    assert_eq!(month.refusal(&call(0, 1, 86_400, 1_440_000_000, NUMBER)), 0);
    assert_eq!(month.sums(1), [1, 86_400_000_000, 86_400_000_000]);
    assert_eq!((month.loss(1), month.total()), ((0, 0), (0, 0)));
}

/// Every place of a row at and over its limit.
#[test]
fn fields_of_a_row() {
    let accepted = |body: &[u8]| Month::new(&PLAN, &[]).add_price(body);
    assert_eq!(accepted(&row("", 0)), 0);
    assert_eq!(accepted(&row("ffffffffffffffff", 1_000_000)), 0);
    assert_eq!(accepted(&row("1", 1_000_001)), 5);
    assert_eq!(accepted(&row("1", u32::MAX)), 5);
    let mut body = row("12", 5);
    for (place, value, number) in [
        (0, 1, 5),
        (0, 3, 0),
        (0, 17, 5),
        (2, 16, 5),
        (3, 1, 5),
        (16, 1, 5),
    ] {
        let old = std::mem::replace(&mut body[place], value);
        assert_eq!(accepted(&body), number, "place {place}");
        body[place] = old;
    }
}

/// Everything is wrong at first, and is made good from the first refusal to
/// the last.
#[test]
fn the_refusals_of_a_record_in_order() {
    let plan = [OPEN, S1, "add-rule NATL * * 0"];
    let sound = Month::new(&plan, &[]);
    let mut month = sound.clone();
    month.plan[63] = 1;
    month.prices[23] = 1;
    month.whole.count = 10_000_001;
    let outside = call(0, 512, 60, 0, "NATL - NONE -");
    assert_eq!(month.take_into(&outside[..86], 34), refused(1));
    assert_eq!(month.take_into(&outside, 34), refused(3));
    month.plan = sound.plan;
    assert_eq!(month.take_into(&outside, 34), refused(4));
    assert_eq!(month.take_into(&outside, 35), refused(5));
    // The body, the list and the ledger: each alone is RANGE.
    let short = call(0, 17, 60, 0, "NATL - NONE -");
    assert_eq!(month.refusal(&short), 5);
    month.prices[23] = 0;
    assert_eq!(month.refusal(&short), 5);
    month.whole.count = 10_000_000;
    month.prices[23] = 1;
    assert_eq!(month.refusal(&short), 5);
    month.prices[23] = 0;
    assert_eq!(month.refusal(&outside), 5);
    // SHORT and LONG, NO PRICE and LEDGER FULL.
    assert_eq!(month.refusal(&short), 12);
    let long = call(0, 17, 60, 0, &format!("NATL {} RN 0015", "7".repeat(32)));
    assert_eq!(month.refusal(&long), 13);
    let record = call(0, 17, 60, 0, NUMBER);
    assert_eq!(month.refusal(&record), 14);
    assert_eq!(month.add_price(&row("0", 1)), 0);
    assert_eq!(month.refusal(&record), 15);
    month.whole.count = 9_999_999;
    assert_eq!(month.refusal(&record), 0);
    assert_eq!(month.whole.count, 10_000_000);
    assert_eq!(month.refusal(&record), 15);
}

/// Bytes behind a body are not looked at; under its length it is CUT.
#[test]
fn lengths_of_bodies() {
    let mut month = Month::new(&PLAN, &[("", 1)]);
    let (record, price) = (call(1, 1, 60, 0, NUMBER), row("1", 1));
    for length in 0..87 {
        assert_eq!(month.take(&record[..length]), refused(1));
    }
    for length in 0..21 {
        assert_eq!(month.add_price(&price[..length]), 1);
    }
    assert_eq!(month.refusal(&[&record[..], &[255, 7]].concat()), 0);
    assert_eq!(month.add_price(&[&price[..], &[255, 7]].concat()), 0);
    assert_eq!(month.add_price(&price), 7);
}

#[test]
fn the_refusals_of_a_row_in_order() {
    let rows: Vec<String> = (0..256).map(|place| format!("{place:02x}")).collect();
    let rows: Vec<(&str, u32)> = rows.iter().map(|prefix| (&prefix[..], 1)).collect();
    let mut month = Month::new(&PLAN, &rows[..255]);
    assert_eq!(month.add_price(&row("00", 2)), 7);
    assert_eq!(month.add_price(&row(rows[255].0, 1)), 0);
    assert_eq!(month.prices[..2], [1, 0]);
    // Full, and the prefix held: TAKEN is before FULL.
    assert_eq!(month.add_price(&row("00", 2)), 7);
    assert_eq!(month.add_price(&row("0", 2)), 10);
    assert_eq!(month.add_price(&row("00", 1_000_001)), 5);
    // A list out of range: CUT, then RANGE for any body.
    month.prices[2] = 1;
    assert_eq!(month.add_price(&row("00", 2)[..20]), 1);
    assert_eq!(month.add_price(&row("00", 2)), 5);
    assert_eq!(month.add_price(&row("0", 2)), 5);
}

// ---------------------------------------------------------------------------
// The memories

/// 1, 1a and 12 stand as 1, 12, 1a.
#[test]
fn the_list_is_the_layout_page() {
    let month = Month::new(&PLAN, &[("1a", 1_000_000), ("1", 258), ("12", 0)]);
    let list = &month.prices;
    assert_eq!(list.len(), 6_146);
    assert_eq!(list[..2], [0, 3]);
    for (place, (prefix, price)) in [("1", 258), ("12", 0), ("1a", 1_000_000)]
        .iter()
        .enumerate()
    {
        let slot = &list[2 + 24 * place..][..24];
        let body = row(prefix, *price);
        assert_eq!([slot[0], slot[18], slot[23]], [0; 3]);
        assert_eq!((&slot[1..18], &slot[19..23]), (&body[..17], &body[17..]));
    }
    assert_eq!(list[2 + 24..][19..23], [0, 0, 0, 0]);
    assert_eq!(list[2 + 48..][19..23], [0, 15, 66, 64]);
    assert!(list[2 + 72..].iter().all(|&byte| byte == 0));
    let rows = Prices::decode(list).expect("in range");
    assert_eq!(rows.encode(), *list);
}

/// The list that calls make from a list's own rows, if they accept them all.
fn rebuilt(list: &[u8; prices::MEMORY]) -> Option<[u8; prices::MEMORY]> {
    let mut made = [0; prices::MEMORY];
    let count = usize::from(u16::from_be_bytes([list[0], list[1]]));
    for slot in list[2..].chunks(24).take(count) {
        charging::add_price(&mut made, &[&slot[1..18], &slot[19..23]].concat()).ok()?;
    }
    Some(made)
}

fn is_what_calls_make(list: &[u8; prices::MEMORY]) -> bool {
    rebuilt(list).is_some_and(|made| made == *list)
}

/// Every value at every place of the count, of the rows and of the slot behind
/// them, and at the last slot: in range exactly if calls can make it.
#[test]
fn damage_of_every_byte_of_a_list() {
    let month = Month::new(
        &PLAN,
        &[("", 5), ("12", 1_000_000), ("1234567890abcdef", 70_000)],
    );
    let mut list = month.prices;
    let mut in_range = 0;
    for place in (0..2 + 24 * 4).chain(prices::MEMORY - 24..prices::MEMORY) {
        let old = list[place];
        for value in 0..=255 {
            list[place] = value;
            let rows = Prices::decode(&list);
            assert_eq!(
                rows.is_some(),
                is_what_calls_make(&list),
                "place {place}, value {value}"
            );
            if let Some(rows) = rows {
                in_range += 1;
                assert_eq!(rows.encode(), list);
            }
        }
        list[place] = old;
    }
    assert!(in_range > 256 && in_range < 256 * 24);
}

/// Rows out of order, a prefix twice, one row less or more than the count, and
/// a count over 256 behind which nothing else is wrong.
#[test]
fn damage_of_slots_of_a_list() {
    let rows: Vec<String> = (0..256).map(|place| format!("{place:02x}")).collect();
    let rows: Vec<(&str, u32)> = rows.iter().map(|prefix| (&prefix[..], 1)).collect();
    for count in [2, 3, 256] {
        let list = Month::new(&PLAN, &rows[..count]).prices;
        let out_of_range = |damage: &dyn Fn(&mut [u8; prices::MEMORY])| {
            let mut damaged = list;
            damage(&mut damaged);
            assert!(Prices::decode(&damaged).is_none());
            assert_eq!(
                charging::add_price(&mut damaged, &row("", 0)),
                Err(crate::rules::Refusal::Range)
            );
        };
        out_of_range(&|list| list[2..50].rotate_left(24));
        out_of_range(&|list| list.copy_within(2..26, 26));
        out_of_range(&|list| list[..2].copy_from_slice(&(count as u16 - 1).to_be_bytes()));
        out_of_range(&|list| list[..2].copy_from_slice(&(count as u16 + 1).to_be_bytes()));
        out_of_range(&|list| list[..2].copy_from_slice(&[255, 255]));
        out_of_range(&|list| list[26..50].fill(0));
    }
    // All bytes 0 is the empty list.
    assert_eq!(
        Prices::decode(&[0; prices::MEMORY]),
        Some(Prices::default())
    );
}

/// Whether a ledger with these numbers of district 17 is in range, by all that
/// read it.
fn in_range(whole: [i64; 3], district: [i64; 3]) -> bool {
    let mut month = Month::new(&PLAN, &[("", 0)]);
    month.districts[51..54].copy_from_slice(&district);
    let [count, due, billed] = whole;
    month.whole = Totals { count, due, billed };
    let in_range = Ledger::decode(&month.districts, month.whole).is_some();
    let losses = [
        charging::district_loss(&month.districts, month.whole, 17),
        charging::district_loss(&month.districts, month.whole, 0),
        charging::total_loss(&month.districts, month.whole),
    ];
    for loss in losses {
        assert_eq!(loss == OUT_OF_RANGE, !in_range);
    }
    let number = month.refusal(&call(0, 17, 0, 0, NUMBER));
    let expected = match (in_range, whole[0]) {
        (false, _) => 5,
        (true, 10_000_000) => 15,
        (true, _) => 0,
    };
    assert_eq!(number, expected);
    in_range
}

/// What one record can come to at most.
const MOST: i64 = 86_400_000_000;

#[test]
fn a_ledger_at_every_bound() {
    let none = [0, 0, 0];
    assert!(in_range(none, none));
    // The whole's count.
    assert!(in_range([10_000_000, 0, 0], none));
    for count in [10_000_001, -1, i64::MAX, i64::MIN] {
        assert!(!in_range([count, 0, 0], none), "{count}");
    }
    // Each sum beside its count, of the whole and of a district.
    for count in [0, 1, 2, 10_000_000] {
        for (sum, fits) in [
            (0, true),
            (count * MOST, true),
            (count * MOST + 1, false),
            (-1, false),
            (i64::MAX, false),
            (i64::MIN, false),
        ] {
            let [due, billed] = [[count, sum, 0], [count, 0, sum]];
            assert_eq!(in_range(due, none), fits, "{due:?}");
            assert_eq!(in_range(billed, none), fits, "{billed:?}");
            assert_eq!(in_range([10_000_000, 0, 0], due), fits, "{due:?}");
            assert_eq!(in_range([10_000_000, 0, 0], billed), fits, "{billed:?}");
        }
    }
    // A district's count beside the whole's; a count below zero with any sums.
    for (whole, count, fits) in [
        (5, 5, true),
        (5, 6, false),
        (0, 1, false),
        (5, i64::MAX, false),
    ] {
        assert_eq!(in_range([whole, 0, 0], [count, 0, 0]), fits);
    }
    for count in [-1, i64::MIN] {
        for sum in [0, 1, -1, count, i64::MIN] {
            assert!(!in_range([5, 0, 0], [count, sum, sum]));
            assert!(!in_range([count, sum, sum], none));
        }
    }
    // The districts need not add up to the whole.
    assert!(in_range([5, 0, 0], [5, MOST, MOST]));
    assert!(in_range([5, MOST, MOST], [0, 0, 0]));
}

/// The places of the first and the last district are theirs alone.
#[test]
fn every_number_of_the_districts_is_held_to_its_bound() {
    let mut districts = [0; ledger::MEMORY];
    let whole = Totals {
        count: 7,
        due: 0,
        billed: 0,
    };
    for place in 0..ledger::MEMORY {
        districts[place] = -1;
        assert!(Ledger::decode(&districts, whole).is_none(), "{place}");
        districts[place] = if place % 3 == 0 { 8 } else { 1 };
        assert!(Ledger::decode(&districts, whole).is_none(), "{place}");
        districts[place] = 0;
    }
}

/// A district over 511 is RANGE, with records or without; none is no refusal.
#[test]
fn losses_of_a_district() {
    let mut month = Month::new(&PLAN, &[("", 1)]);
    for _ in 0..2 {
        for district in [512, 513, 65_535] {
            let loss = charging::district_loss(&month.districts, month.whole, district);
            assert_eq!(loss, OUT_OF_RANGE);
        }
        let loss = charging::district_loss(&month.districts, month.whole, 511);
        assert_eq!(loss, LossRead::default());
        assert_eq!(month.refusal(&call(1, 510, 60, 1, NUMBER)), 0);
    }
    // Two records of 60 * 1 due and 1 * 60 billed: held, and a loss of 0.
    assert_eq!(month.loss(510), (0, 0));
    let empty = charging::total_loss(&[0; ledger::MEMORY], Totals::default());
    assert_eq!(held(empty), (0, 0));
}

// ---------------------------------------------------------------------------
// The program

#[test]
fn readable_records_of_charging() {
    assert_eq!(record("price * 1000"), [vec![17], row("", 1_000)].concat());
    let long = "1234567890abcdef";
    let written = record(&format!("price {long} 4294967295"));
    assert_eq!(written, [vec![17], row(long, u32::MAX)].concat());
    let written = record("call 4294967295 65535 86401 258 NATL 87654321 RN 0015 asd - grn -");
    let bytes = call(u32::MAX, 65_535, 86_401, 258, NUMBER);
    assert_eq!(written, [vec![16], bytes].concat());
    assert_eq!((written.len(), written[1..15].len()), (88, 14));
    assert_eq!(written[7..15], [0, 1, 81, 129, 0, 0, 1, 2]);
    assert_eq!(record("losses"), [18]);
    for fault in [
        "price 1",
        "price - 1",
        "price 12345678901234567 1",
        "price * 4294967296",
        "price * -1",
        "price * 1 1",
        "call 1 65536 1 1 NATL 8 NONE - asd - grn -",
        "call 1 1 1 NATL 8 NONE - asd - grn -",
        "call 1 1 1 1 NATL 8 NONE - asd -",
        "losses 1",
    ] {
        assert!(text::record(fault).is_err(), "{fault}");
    }
}

/// Kinds 16 and 17 are cut at every length under theirs, after an opening and
/// before; the kinds around them are unknown.
#[test]
fn cut_and_unknown_records() {
    let [open, record] = [record(OPEN), [vec![16], call(1, 2, 3, 4, NUMBER)].concat()];
    let price = [vec![17], row("1", 1)].concat();
    for (whole, line) in [(&record, "no 14\n"), (&price, "ok\n")] {
        for length in 1..whole.len() {
            assert_eq!(lines(&whole[..length]), "no 1\n");
            let behind = [&open, &whole[..length]].concat();
            assert_eq!(lines(&behind), "ok\nno 1\n");
        }
        assert_eq!(lines(&[&open[..], whole].concat()), format!("ok\n{line}"));
    }
    for kind in (10..16).chain(19..=255) {
        assert_eq!(lines(&[18, kind, 18]), "total 0\nno 2\n", "{kind}");
    }
}

/// Rows and ledger are there before any opening and stay through refused and
/// accepted ones.  60 seconds at 1,000 are a cent.
#[test]
fn an_opening_leaves_rows_and_ledger() {
    let call = "call 1 7 60 0 NATL 87654321 RN 0015 asd - grn -";
    let refused = "open sets 65 rules 8 cc 55 dfltrn - a - b - answers 1 1 1 1";
    let outside = "open sets 0 rules 8 cc 55 dfltrn - a - b - answers 1 1 1 1";
    let plan = [OPEN, S1, "add-rule NATL * * 0"];
    let written = lines_of(
        &[
            &["losses", "price 0 1000", call, "losses"][..],
            &plan,
            &[call, "losses", OPEN, "losses", call, "price 0 1"],
            &[refused, outside, "losses", "price 8 1000", call, "losses"],
        ]
        .concat(),
    );
    let expected = [
        "total 0\nok\nno 3\ntotal 0\n",
        "ok\nok\nok\n4 1 0 1 001587654321\n7 1\ntotal 1\n",
        // The new plan is empty: outcome 0, and 8 has no row yet.
        "ok\n7 1\ntotal 1\nno 14\nno 7\nno 4\nno 5\n7 1\ntotal 1\n",
        "ok\n0 1 0 0 -\n7 2\ntotal 2\n",
    ];
    assert_eq!(written, expected.concat());
}
