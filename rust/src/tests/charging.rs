//! Prices, call records and losses (C-11): the paper's example, what each outcome is priced on, what is
//! refused, and the sample of a month.

use super::*;
use crate::c::{Totals, LEDGER_NUMBERS, PRICES_BYTES};
use crate::{CallRecord, Kind, Ledger, Loss, Outcome, Price, PriceList, Records, Refusal};
use crate::{DIGIT_BUFFER_BYTES, DISTRICTS, LEDGER_RECORDS, PRICE_ROWS};

/// What a record can be due, or billed, at most.
pub(super) const MOST_UNITS: i64 = 86_400_000_000;

fn number_body(text: &str, lookup: &Lookup) -> [u8; bodies::NUMBER_BYTES] {
    bodies::number(Class::NATL, &digits(text), lookup).expect("fits")
}

/// A call of a national number without a record.
pub(super) fn call(district: u16, seconds: u32, billed: u32, text: &str) -> CallRecord {
    CallRecord {
        account: 1001,
        district,
        seconds,
        billed,
        number: number_body(text, &Lookup::NO_RECORD),
    }
}

pub(super) fn list(rows: &[(&str, u32)]) -> PriceList {
    let mut prices = PriceList::new();
    for &(prefix, price) in rows {
        let prefix = &digits(prefix);
        assert_eq!(prices.add(&Price { prefix, price }), Ok(()));
    }
    prices
}

/// A plan with no rule: every number is priced as it came.
pub(super) fn no_rules() -> Plan {
    plan_with(&open55(8, 8), &[], &[])
}

/// Document 01's S1 under every national number.
fn s1_plan() -> Plan {
    plan_with(&open55(8, 8), &[s1(0)], &[rule(Class::NATL, "-", 0, 0)])
}

fn take(plan: &Plan, prices: &PriceList, ledger: &mut Ledger, record: &CallRecord) {
    let mut out = [0; DIGIT_BUFFER_BYTES];
    let taken = plan.take_call(prices, ledger, record, &mut out);
    taken.expect("accepted");
}

fn loss(units: i64, cents: i64) -> Loss {
    Loss { units, cents }
}

/// Three accounts that lose 24,000 units each print as 1 cent; each alone prints as 0.
#[test]
fn three_accounts() {
    let (plan, prices) = (no_rules(), list(&[("8", 1_000)]));
    let record = call(17, 60, 600, "87654321");
    let mut together = Ledger::new();
    let mut apart = Ledger::new();
    for (district, account) in [1001, 1002, 1003].into_iter().enumerate() {
        let record = CallRecord { account, ..record };
        let mut alone = Ledger::new();
        take(&plan, &prices, &mut alone, &record);
        assert_eq!(alone.district_loss(17), Ok(Some(loss(24_000, 0))));
        assert_eq!(alone.total_loss(), Ok(loss(24_000, 0)));
        take(&plan, &prices, &mut together, &record);
        let district = district as u16;
        take(
            &plan,
            &prices,
            &mut apart,
            &CallRecord { district, ..record },
        );
        assert_eq!(apart.district_loss(district), Ok(Some(loss(24_000, 0))));
    }
    assert_eq!(together.district_loss(17), Ok(Some(loss(72_000, 1))));
    // The total is rounded from the whole, and not added up from cents of 0.
    for ledger in [&together, &apart] {
        assert_eq!(ledger.total_loss(), Ok(loss(72_000, 1)));
        let whole = Totals {
            count: 3,
            due: 180_000,
            billed: 108_000,
        };
        assert_eq!(ledger.whole(), whole);
    }
    assert_eq!(together.districts()[51..54], [3, 180_000, 108_000]);
    let districts = (0..DISTRICTS).filter(|&d| together.district_loss(d) != Ok(None));
    assert_eq!(districts.collect::<Vec<u16>>(), [17]);
}

/// A district is below zero where we were overcharged, and its total with others need not be.
#[test]
fn overcharged() {
    let (plan, prices) = (no_rules(), list(&[("-", 1_000)]));
    let mut ledger = Ledger::new();
    take(&plan, &prices, &mut ledger, &call(0, 120, 3_500, "1"));
    take(&plan, &prices, &mut ledger, &call(511, 600, 7_500, "1"));
    assert_eq!(ledger.district_loss(0), Ok(Some(loss(-90_000, -2))));
    assert_eq!(ledger.district_loss(511), Ok(Some(loss(150_000, 3))));
    assert_eq!(ledger.total_loss(), Ok(loss(60_000, 1)));
    // The most that a call can be due and be billed.
    let dear = list(&[("-", 1_000_000)]);
    take(&plan, &dear, &mut ledger, &call(1, 86_400, 0, "1"));
    take(&plan, &dear, &mut ledger, &call(2, 0, 1_440_000_000, "1"));
    assert_eq!(
        ledger.district_loss(1),
        Ok(Some(loss(MOST_UNITS, 1_440_000)))
    );
    assert_eq!(
        ledger.district_loss(2),
        Ok(Some(loss(-MOST_UNITS, -1_440_000)))
    );
}

/// Halves go away from zero, and what is nearer to nothing is 0.
#[test]
fn halves() {
    for (units, cents) in [
        (0, 0),
        (29_999, 0),
        (30_000, 1),
        (30_001, 1),
        (89_999, 1),
        (90_000, 2),
    ] {
        for (due, billed, sign) in [(units, 0, 1), (0, units, -1)] {
            let mut districts = [0; LEDGER_NUMBERS];
            districts[..3].copy_from_slice(&[1, due, billed]);
            let count = 1;
            let ledger = Ledger::over(&districts, Totals { count, due, billed });
            let loss = loss(sign * units, sign * cents);
            assert_eq!(ledger.district_loss(0), Ok(Some(loss)));
            assert_eq!(ledger.total_loss(), Ok(loss));
        }
    }
}

/// What a call of a minute is due in a ledger of its own, and its outcome.
fn due(plan: &Plan, prices: &PriceList, text: &str, lookup: &Lookup) -> (Outcome, i64) {
    let mut ledger = Ledger::new();
    let record = CallRecord {
        number: number_body(text, lookup),
        ..call(3, 60, 0, text)
    };
    let mut out = [0; DIGIT_BUFFER_BYTES];
    let answer = plan.take_call(prices, &mut ledger, &record, &mut out);
    let outcome = answer.expect("accepted").outcome;
    assert_eq!(ledger.districts()[9..12], [1, ledger.whole().due, 0]);
    (outcome, ledger.whole().due)
}

/// Outcome 4 is priced on the outgoing digits; 0, 1 and 3 on the incoming; 2 is due nothing.
#[test]
fn priced_on() {
    let prices = list(&[("8", 1_000), ("00", 2_000)]);
    let (rn, none) = (Lookup::rn(&[0, 0, 1, 5]), Lookup::NO_RECORD);
    let number = "87654321";
    assert_eq!(
        due(&no_rules(), &prices, number, &none),
        (Outcome::NoRule, 60_000)
    );
    let escape = set(0, None, &[], &[], &[]);
    let any = [rule(Class::NATL, "-", 0, 0)];
    let escaping = plan_with(&open55(8, 8), &[escape], &any);
    assert_eq!(
        due(&escaping, &prices, number, &none),
        (Outcome::Escaped, 60_000)
    );
    let s1 = s1_plan();
    assert_eq!(
        due(&s1, &prices, number, &none),
        (Outcome::Unchanged, 60_000)
    );
    assert_eq!(
        due(&s1, &prices, number, &rn),
        (Outcome::Formatted, 120_000)
    );
    let settings = Settings {
        answers: RELEASE_WITHOUT_RECORD,
        ..Settings::of_country(&[5, 5])
    };
    let opening = bodies::open(8, 8, &settings).expect("fits");
    let services = s1_with(0, &[sa::INPRTG, sa::CDPNNP]);
    let responding = plan_with(&opening, &[services], &any);
    let empty = PriceList::new();
    assert_eq!(
        due(&responding, &empty, number, &none),
        (Outcome::Responded, 0)
    );
}

/// The longest prefix that fits wins, whatever the order in which the rows came; a number without digits
/// meets the empty prefix alone.
#[test]
fn longest_prefix() {
    let mut rows = [
        ("-", 1),
        ("8", 2),
        ("87", 4),
        ("8765432", 8),
        ("876543210", 16),
    ];
    for _ in 0..rows.len() {
        rows.rotate_left(1);
        let prices = list(&rows);
        for (number, price) in [
            ("-", 1),
            ("1", 1),
            ("8", 2),
            ("88", 2),
            ("876", 4),
            ("87654321", 8),
            ("8765432109", 16),
        ] {
            let (_, due) = due(&no_rules(), &prices, number, &Lookup::NO_RECORD);
            assert_eq!(due, 60 * price, "{number}");
        }
    }
    let prices = list(&rows[1..]);
    let mut out = [0; DIGIT_BUFFER_BYTES];
    let record = call(0, 60, 0, "-");
    let taken = no_rules().take_call(&prices, &mut Ledger::new(), &record, &mut out);
    assert_eq!(taken, Err(Refusal::NoPrice));
}

/// Rows stand in prefix order in the memory, whatever the order in which they came.
#[test]
fn rows_in_order() {
    let long = "0123456789abcdef";
    let mut prices = list(&[("9", 1_000_000), (long, 258), ("-", 0), ("91", 1)]);
    let memory = prices.memory();
    assert_eq!(memory[..2], [0, 4]);
    let mut slots = memory[2..].chunks(24);
    let mut slot = |prefix: &str, price: u32| {
        let prefix = digits(prefix);
        let mut expected = [0; 24];
        expected[1] = prefix.len() as u8;
        expected[2..][..prefix.len()].copy_from_slice(&prefix);
        expected[19..23].copy_from_slice(&price.to_be_bytes());
        assert_eq!(slots.next(), Some(&expected[..]));
    };
    slot("-", 0);
    slot(long, 258);
    slot("9", 1_000_000);
    slot("91", 1);
    assert!(slots.flatten().all(|&byte| byte == 0));

    let before = prices.clone();
    for (prefix, price, refusal) in [
        (&digits("91")[..], 7, Refusal::Taken),
        (&[][..], 0, Refusal::Taken),
        (&[1], 1_000_001, Refusal::Range),
        (&[16], 0, Refusal::Range),
        (&[1; 17], 0, Refusal::Range),
        (&[1; 300], 0, Refusal::Range),
    ] {
        assert_eq!(prices.add(&Price { prefix, price }), Err(refusal));
    }
    assert_eq!(prices, before);
}

/// A list takes 256 rows, and a prefix that it has is TAKEN even then.
#[test]
fn full_list() {
    let mut prices = full();
    let before = prices.clone();
    let price = 1;
    let more = Price {
        prefix: &[1],
        price,
    };
    assert_eq!(prices.add(&more), Err(Refusal::Full));
    let held = Price {
        prefix: &[0, 0],
        price,
    };
    assert_eq!(prices.add(&held), Err(Refusal::Taken));
    assert_eq!(prices, before);
}

/// Every prefix of two digits.
pub(super) fn full() -> PriceList {
    let mut prices = PriceList::new();
    for number in (0..PRICE_ROWS).rev() {
        let prefix = &[(number / 16) as u8, (number % 16) as u8];
        let price = number as u32;
        assert_eq!(prices.add(&Price { prefix, price }), Ok(()));
    }
    prices
}

/// The last record that a ledger takes; behind it NO PRICE is drawn before LEDGER FULL.
#[test]
fn limit() {
    let (plan, prices) = (no_rules(), list(&[("8", 1_000)]));
    let nearly = Totals {
        count: LEDGER_RECORDS - 1,
        ..Totals::default()
    };
    let mut ledger = Ledger::over([0; LEDGER_NUMBERS], nearly);
    let mut out = [0; DIGIT_BUFFER_BYTES];
    let mut take = |ledger: &mut Ledger<_>, number| {
        let taken = plan.take_call(&prices, ledger, &call(0, 60, 0, number), &mut out);
        taken.map(|answer| answer.outcome)
    };
    assert_eq!(take(&mut ledger, "8"), Ok(Outcome::NoRule));
    assert_eq!(ledger.whole().count, LEDGER_RECORDS);
    let before = ledger.clone();
    assert_eq!(take(&mut ledger, "8"), Err(Refusal::LedgerFull));
    assert_eq!(take(&mut ledger, "9"), Err(Refusal::NoPrice));
    assert_eq!(ledger, before);
    assert_eq!(ledger.total_loss(), Ok(loss(60_000, 1)));
}

/// A call of a minute in district 5.
fn minute(text: &str, lookup: Lookup) -> CallRecord {
    CallRecord {
        number: number_body(text, &lookup),
        ..call(5, 60, 600, text)
    }
}

/// Records that document 01's S1 and a price for 8 refuse, with the length of the buffer and the refusal.
fn refused_by_s1() -> Vec<(CallRecord, usize, Refusal)> {
    let good = minute("87654321", Lookup::NO_RECORD);
    let of = |change: fn(&mut CallRecord)| {
        let mut record = good;
        change(&mut record);
        record
    };
    let far = of(|record| record.district = 512);
    let long = of(|record| record.seconds = 86_401);
    let dear = of(|record| record.billed = 1_440_000_001);
    let no_number = of(|record| record.number = [255; 73]);
    let ones = "1".repeat(32);
    vec![
        (far, 34, Refusal::Room),
        (far, 35, Refusal::Range),
        (long, 35, Refusal::Range),
        (dear, 35, Refusal::Range),
        (no_number, 35, Refusal::Range),
        (minute("-", Lookup::NO_RECORD), 35, Refusal::Short),
        (minute(&ones, Lookup::rn(&[1])), 35, Refusal::Long),
        (minute("87654321", Lookup::rn(&[1])), 35, Refusal::NoPrice),
    ]
}

/// A record that is refused changes neither ledger nor buffer.
#[test]
fn refused_records() {
    let (plan, prices) = (s1_plan(), list(&[("8", 1_000)]));
    let mut ledger = Ledger::new();
    let good = minute("87654321", Lookup::NO_RECORD);
    take(&plan, &prices, &mut ledger, &good);
    let before = ledger.clone();
    let mut out = [9; 48];
    for (record, room, refusal) in refused_by_s1() {
        let taken = plan.take_call(&prices, &mut ledger, &record, &mut out[..room]);
        assert_eq!(taken, Err(refusal));
        let no_plan = Plan::new(8, 8);
        let taken = no_plan.take_call(&prices, &mut ledger, &record, &mut out[..room]);
        assert_eq!(taken, Err(Refusal::Plan));
        let body = &record.body()[..86];
        let taken = no_plan.take_call_body(&prices, &mut ledger, body, &mut out[..room]);
        assert_eq!(taken, Err(Refusal::Cut));
    }
    assert_eq!((out, &ledger), ([9; 48], &before));
    // What stands behind a body is not looked at.
    let longer = [&good.body()[..], &[255; 9]].concat();
    let taken = plan.take_call_body(&prices, &mut ledger, &longer, &mut out);
    assert_eq!(taken.map(|answer| answer.outcome), Ok(Outcome::Unchanged));
    assert_eq!(ledger.districts()[15..18], [2, 120_000, 72_000]);
}

/// Owned and borrowed memories; what is borrowed is changed where it stands.
#[test]
fn memories() {
    let (plan, mut bytes) = (no_rules(), [0; PRICES_BYTES]);
    let price = 1_000;
    let row = Price { prefix: &[], price };
    assert_eq!(PriceList::over(&mut bytes).add(&row), Ok(()));
    let owned = list(&[("-", 1_000)]);
    assert_eq!(owned.memory(), &bytes);
    assert_eq!(PriceList::over(bytes).into_memory(), *owned.into_memory());

    let mut districts = [0; LEDGER_NUMBERS];
    let mut ledger = Ledger::over(&mut districts, Totals::default());
    let mut out = [0; DIGIT_BUFFER_BYTES];
    let record = call(7, 60, 0, "1");
    let prices = PriceList::over(&bytes);
    let taken = plan.take_call(&prices, &mut ledger, &record, &mut out);
    assert!(taken.is_ok());
    let (_, whole) = ledger.into_numbers();
    assert_eq!(districts[21..24], [1, 60_000, 0]);
    let again = Ledger::over(&districts, whole);
    assert_eq!(again.district_loss(7), Ok(Some(loss(60_000, 1))));
    assert_eq!(PriceList::default(), PriceList::new());
    assert_eq!(Ledger::default(), Ledger::new());
}

/// The lines that the program writes for `samples/loss` are those of these calls.
#[test]
fn sample_of_losses() {
    let (mut plan, mut prices, mut ledger) = (Plan::new(64, 512), PriceList::new(), Ledger::new());
    let mut lines = Vec::new();
    let done = |result: Result<(), Refusal>| match result {
        Ok(()) => "ok".to_string(),
        Err(refusal) => format!("no {}", refusal.number()),
    };
    for record in Records::of(include_bytes!("../../../samples/loss")) {
        let record = record.expect("a record");
        let body = record.body;
        match record.kind {
            Kind::Call => {
                let mut out = [0; DIGIT_BUFFER_BYTES];
                let taken = plan.take_call_body(&prices, &mut ledger, body, &mut out);
                lines.push(match taken {
                    Ok(answer) => answer.to_string(),
                    Err(refusal) => done(Err(refusal)),
                });
            }
            Kind::Price => lines.push(done(prices.add_body(body))),
            Kind::Losses => {
                for district in 0..DISTRICTS {
                    let loss = ledger.district_loss(district).expect("in range");
                    lines.extend(loss.map(|loss| format!("{district} {}", loss.cents)));
                }
                let total = ledger.total_loss().expect("in range");
                lines.push(format!("total {}", total.cents));
            }
            _ => lines.push(done(plan.carry_out(&record).expect("it provisions"))),
        }
    }
    let text = include_str!("../../../samples/loss.txt");
    let expected = text.lines().filter_map(|line| line.strip_prefix("#= "));
    assert_eq!(lines, expected.collect::<Vec<&str>>());
}
