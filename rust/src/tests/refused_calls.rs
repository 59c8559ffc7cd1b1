//! The calls of C-11 with damaged and random memory: what was lent is held against its copy after each
//! refusal, and what may not change after each accepted call. Each call draws each of its refusals, as the
//! header names them, and no other.

use super::charging::{call, full, list, no_rules, MOST_UNITS};
use super::lent::{Lent, Random};
use super::refused;
use super::*;
use crate::c::{self, Totals, LEDGER_NUMBERS, PRICES_BYTES};
use crate::{accepted, CallRecord, Ledger, Price, PriceList, Refusal, LEDGER_RECORDS};
use std::collections::BTreeSet;

/// All that the four calls may be given; the numbers stand between guards.
#[derive(Clone, PartialEq)]
struct Lot {
    plan: Lent,
    prices: Lent,
    numbers: Vec<i64>,
    totals: [Totals; 3],
    body: Lent,
    out: Lent,
    district: u16,
}

/// The guards before and behind the districts.
const GUARD: usize = 5;

impl Lot {
    fn prices_mut(&mut self) -> &mut [u8; PRICES_BYTES] {
        self.prices.slice_mut().try_into().expect("a list")
    }

    fn districts(&self) -> &[i64; LEDGER_NUMBERS] {
        let numbers = &self.numbers[GUARD..][..LEDGER_NUMBERS];
        numbers.try_into().expect("the districts")
    }

    fn ledger(&self) -> Ledger<&[i64; LEDGER_NUMBERS]> {
        Ledger::over(self.districts(), self.totals[1])
    }
}

/// A call: its refusals without 0; as the library exports it, with whether every other field is 0 and how
/// many digits it wrote; and as a method.
struct Call {
    name: &'static str,
    refusals: &'static [u8],
    exported: fn(&mut Lot) -> (u8, bool, usize),
    wrapped: fn(&mut Lot) -> Result<(), Refusal>,
}

fn lost(given: c::Loss) -> (u8, bool, usize) {
    let zero = given.held == 0 && given.units == 0 && given.cents == 0;
    (given.refusal, zero, 0)
}

const CALLS: [Call; 4] = [
    Call {
        name: "add_price",
        refusals: &[1, 5, 7, 10],
        exported: |lot| {
            let body = lot.body.clone();
            (c::add_price(lot.prices_mut(), body.slice()), true, 0)
        },
        wrapped: |lot| {
            let body = lot.body.clone();
            PriceList::over(lot.prices_mut()).add_body(body.slice())
        },
    },
    Call {
        name: "take_call",
        refusals: &[1, 3, 4, 5, 12, 13, 14, 15],
        exported: |lot| {
            let districts = &mut lot.numbers[GUARD..][..LEDGER_NUMBERS];
            let given = c::take_call(
                lot.plan.slice(),
                lot.prices.slice().try_into().expect("a list"),
                districts.try_into().expect("the districts"),
                &mut lot.totals[1],
                lot.body.slice(),
                lot.out.slice_mut(),
            );
            let refused = c::Answered {
                refusal: given.refusal,
                ..NOTHING
            };
            (given.refusal, given == refused, given.digits)
        },
        wrapped: |lot| {
            let districts = &mut lot.numbers[GUARD..][..LEDGER_NUMBERS];
            let districts = <&mut [i64; LEDGER_NUMBERS]>::try_from(districts);
            let mut ledger = Ledger::over(districts.expect("the districts"), lot.totals[1]);
            let prices = PriceList::over(lot.prices.slice().try_into().expect("a list"));
            let plan = Plan::over(lot.plan.slice());
            let (body, out) = (lot.body.slice(), lot.out.slice_mut());
            let taken =
                plan.take_call_body::<&[u8; PRICES_BYTES], _>(&prices, &mut ledger, body, out);
            let taken = taken.map(|_| ());
            lot.totals[1] = ledger.whole();
            taken
        },
    },
    Call {
        name: "district_loss",
        refusals: &[5],
        exported: |lot| {
            lost(c::district_loss(
                lot.districts(),
                lot.totals[1],
                lot.district,
            ))
        },
        wrapped: |lot| lot.ledger().district_loss(lot.district).map(|_| ()),
    },
    Call {
        name: "total_loss",
        refusals: &[5],
        exported: |lot| lost(c::total_loss(lot.districts(), lot.totals[1])),
        wrapped: |lot| lot.ledger().total_loss().map(|_| ()),
    },
];

const NOTHING: c::Answered = c::Answered {
    refusal: 0,
    outcome: 0,
    class: 0,
    response: 0,
    count: 0,
    actions: [0; 8],
    digits: 0,
};

/// Makes a call twice on copies of the same lot, exported and wrapped, and holds both against it.
fn compare(call: &Call, lot: &Lot) -> u8 {
    let name = call.name;
    let mut after = lot.clone();
    let (refusal, zero, digits) = (call.exported)(&mut after);
    if refusal != 0 {
        assert!(
            after == *lot,
            "{name} is refused, and changes what was lent"
        );
        assert!(zero, "{name} is refused, and another field is not 0");
    } else {
        let guards = [0, 2].map(|place| after.totals[place] == lot.totals[place]);
        assert_eq!(guards, [true; 2], "{name} changes what is not its whole");
        let untouched = after.plan == lot.plan && after.body == lot.body;
        assert!(untouched, "{name} changes what it reads");
        let same = after.out.same_behind(&lot.out, digits);
        assert!(same, "{name} changes what is behind the digits");
        let changed = changed_districts(&after, lot);
        let one = changed.len() == usize::from(name == "take_call");
        assert!(one, "{name} changes the districts {changed:?}");
        let list = name == "add_price" || after.prices == lot.prices;
        assert!(list, "{name} changes the price list");
    }
    let mut wrapped = lot.clone();
    let result = (call.wrapped)(&mut wrapped);
    assert_eq!(result, accepted(refusal), "{name}");
    assert!(wrapped == after, "{name} differs from what is exported");
    refusal
}

/// The districts with another number; a guard counts as one that is far away.
fn changed_districts(after: &Lot, before: &Lot) -> BTreeSet<usize> {
    let numbers = after.numbers.iter().zip(&before.numbers).enumerate();
    let changed = numbers.filter(|(_, (one, other))| one != other);
    changed
        .map(|(place, _)| place.wrapping_sub(GUARD) / 3)
        .collect()
}

fn lists() -> Vec<Vec<u8>> {
    let [full, any, few] = [
        full(),
        list(&[("-", 1_000)]),
        list(&[("87", 1_000), ("0", 5)]),
    ];
    let memory = |list: PriceList| list.memory().to_vec();
    vec![
        memory(PriceList::new()),
        memory(full),
        memory(any.clone()),
        memory(any),
        memory(few),
    ]
}

/// Bodies for the calls, most of them well made.
fn given(call: &str) -> Vec<Vec<u8>> {
    let number = |body: Vec<u8>| body.try_into().expect("a number");
    let record = |body| CallRecord {
        number: number(body),
        ..call_in_any()
    };
    match call {
        "add_price" => ["-", "87", "00", "0123456789abcdef", "1"]
            .iter()
            .map(|prefix| {
                let (prefix, price) = (&digits(prefix)[..], 77);
                Price { prefix, price }.body().expect("fits").to_vec()
            })
            .collect(),
        _ => refused::given("answer")
            .into_iter()
            .map(|body| record(body).body().to_vec())
            .collect(),
    }
}

fn call_in_any() -> CallRecord {
    call(300, 90, 1_000, "1")
}

/// A ledger in range, or with one number that mostly is not.
fn put_ledger(lot: &mut Lot, random: &mut Random) {
    let count = random.pick(&[0, 1, 7, LEDGER_RECORDS - 1, LEDGER_RECORDS, LEDGER_RECORDS]);
    let most = count * MOST_UNITS;
    lot.totals[1] = Totals {
        count,
        due: most,
        billed: most / 2,
    };
    let place = GUARD + random.below(LEDGER_NUMBERS);
    let value = random.pick(&[0, 1, most, most + 1, -1, count + 1, i64::MAX, i64::MIN]);
    match random.below(8) {
        0 | 1 => lot.numbers[place] = value,
        2 => lot.totals[1].count = value,
        3 => lot.totals[1].due = value,
        _ => (),
    }
}

fn lot(call: &Call, plans: &[Vec<u8>], lists: &[Vec<u8>], random: &mut Random) -> Lot {
    let (mut plan, mut list) = (random.pick(plans), random.pick(lists));
    if random.below(6) == 0 {
        plan = refused::varied(&plan, random);
    }
    if random.below(4) == 0 {
        let (in_front, any) = (random.below(2 + 24 * 3), random.below(PRICES_BYTES));
        let place = random.pick(&[0, 1, 2, in_front, any]);
        list[place] = random.byte();
    }
    let body = refused::varied(&random.pick(&given(call.name)), random);
    let length = random.pick(&[0, 34, 35, 35, 35, 36, 64]);
    let out = random.bytes(length);
    let mut numbers: Vec<i64> = (0..2 * GUARD).map(|_| random.next() as i64).collect();
    numbers.splice(GUARD..GUARD, [0; LEDGER_NUMBERS]);
    let guard = |random: &mut Random| Totals {
        count: random.next() as i64,
        due: random.next() as i64,
        billed: random.next() as i64,
    };
    let mut lot = Lot {
        plan: Lent::new(&plan, random),
        prices: Lent::new(&list, random),
        numbers,
        totals: [guard(random), Totals::default(), guard(random)],
        body: Lent::new(&body, random),
        out: Lent::new(&out, random),
        district: random.pick(&[0, 17, 511, 512, 65_535]),
    };
    put_ledger(&mut lot, random);
    lot
}

#[test]
fn what_was_lent_is_as_before() {
    let mut random = Random(3);
    let (plans, lists) = (refused::plans(), lists());
    for call in &CALLS {
        let mut drawn = BTreeSet::new();
        for _ in 0..6_000 {
            let lot = lot(call, &plans, &lists, &mut random);
            drawn.insert(compare(call, &lot));
        }
        let named = [&[0], call.refusals].concat();
        let drawn: Vec<u8> = drawn.into_iter().collect();
        assert_eq!(drawn, named, "the numbers that {} gives", call.name);
    }
}

/// A null pointer with length 0 stands for no bytes.
#[test]
#[allow(unsafe_code)]
fn null_pointers() {
    use crate::c::exported::{npp_add_price, npp_take_call};
    use std::ptr::{null, null_mut};

    let (mut prices, mut districts) = ([0; PRICES_BYTES], [0; LEDGER_NUMBERS]);
    let (mut whole, body) = (Totals::default(), call_in_any().body());
    let plan = no_rules();
    let (p, n) = (plan.memory().as_ptr(), plan.memory().len());
    let d = districts.as_mut_ptr();
    // SAFETY: every null pointer comes with length 0; the others are of a slice, an array or a struct.
    unsafe {
        assert_eq!(npp_add_price(prices.as_mut_ptr(), null(), 0), 1);
        let list = prices.as_ptr();
        let (b, k) = (body.as_ptr(), body.len());
        let cut = npp_take_call(null(), 0, list, d, &mut whole, null(), 0, null_mut(), 0);
        assert_eq!(cut.refusal, 1);
        let no_plan = npp_take_call(null(), 0, list, d, &mut whole, b, k, null_mut(), 0);
        assert_eq!(no_plan.refusal, 3);
        let no_room = npp_take_call(p, n, list, d, &mut whole, b, k, null_mut(), 0);
        assert_eq!(no_room.refusal, 4);
    }
    assert_eq!((whole, districts), (Totals::default(), [0; LEDGER_NUMBERS]));
}
