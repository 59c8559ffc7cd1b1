//! The loss by district: prices, call records and losses, and every byte and
//! number of what is lent.

use crate::bench::{hex, Bench};
use crate::c;
use crate::lent::{Item, Lent};
use crate::maker::charges::{count_at, Districts, DISTRICT_AT};
use crate::maker::Maker;
use crate::random::Random;
use npp_reference::ledger::{self, Ledger, Totals, DISTRICTS, MOST_RECORDS, MOST_UNITS};
use npp_reference::plan::Plan;
use npp_reference::prices::{self, Prices, MOST_ROWS, SLOT, SLOTS_AT};
use npp_reference::rules::{Refusal, Rooms};
use npp_reference::script::list_hex;
use npp_reference::{bodies, calls, charging, layout};

const STAGE: &str = "loss";

const CALLS: [&str; 4] = ["add_price", "take_call", "district_loss", "total_loss"];

const OUTCOMES: [&str; 5] = [
    "records accepted in outcome 0",
    "records accepted in outcome 1",
    "records accepted in outcome 2",
    "records accepted in outcome 3",
    "records accepted in outcome 4",
];

const OUTGOING: &str = "records that the outgoing digits decide";
const SEVERAL: &str = "records that several rows fit";
const LISTS: &str = "damaged price lists";
const LEDGERS: &str = "damaged ledgers";
const OVERCHARGED: &str = "losses below zero";
const HALVES: &str = "losses at a half of a cent";

pub fn run(bench: &mut Bench) {
    bench.enter(STAGE, &CALLS, &OUTCOMES);
    let notes = [OUTGOING, SEVERAL, LISTS, LEDGERS, OVERCHARGED, HALVES];
    bench.enter(STAGE, &[], &notes);
    for place in 0..bench.scaled(1500, 150) {
        month(bench, place);
    }
    for place in 0..bench.scaled(120, 18) {
        list(bench, place);
    }
    for place in 0..bench.scaled(6, 2) {
        every_byte_of_a_list(bench, place);
        every_byte_of_bodies(bench, place);
    }
    full_lists(bench);
    ledger_bounds(bench);
    every_district(bench);
    limit(bench);
    halves(bench);
    largest(bench);
    bench.demand_numbers(&[0, 1, 3, 4, 5, 7, 10, 12, 13, 14, 15], 500);
    bench.demand_notes(&OUTCOMES, 1000);
    bench.demand_notes(&[OUTGOING, SEVERAL, LISTS, LEDGERS, OVERCHARGED], 1000);
    bench.demand_notes(&[HALVES], 500);
}

// ---------------------------------------------------------------------------
// What is lent

/// What a call record is taken with.
#[derive(Clone)]
struct Month {
    plan: Lent,
    prices: Lent,
    districts: Lent<i64>,
    whole: Lent<c::Totals>,
}

impl Month {
    fn new(maker: &mut Maker, plan: &Plan, rows: &Prices, ledger: (Totals, Districts)) -> Month {
        let (whole, districts) = ledger;
        Month {
            plan: Lent::new(&layout::encode(plan), &mut maker.random),
            prices: Lent::new(&rows.encode(), &mut maker.random),
            districts: Lent::new(&districts, &mut maker.random),
            whole: Lent::new(&[whole.into()], &mut maker.random),
        }
    }

    fn whole(&self) -> c::Totals {
        self.whole.slice()[0]
    }

    fn set_ledger(&mut self, whole: Totals, districts: &Districts) {
        self.whole.slice_mut()[0] = whole.into();
        self.districts.slice_mut().copy_from_slice(districts);
    }

    fn rows(&self) -> Option<Prices> {
        Prices::decode(self.prices.array())
    }

    fn ledger(&self) -> Option<Ledger> {
        Ledger::decode(self.districts.array(), self.whole().into())
    }

    fn ledger_line(&self) -> String {
        ledger_line(&self.districts, self.whole())
    }

    fn taken_by_library(&mut self, body: &Lent, out: &mut Lent) -> c::Answered {
        c::take_call(
            self.plan.slice(),
            self.prices.array(),
            self.districts.array_mut(),
            &mut self.whole.slice_mut()[0],
            body.slice(),
            out.slice_mut(),
        )
    }

    fn taken_by_reference(&mut self, body: &Lent, out: &mut Lent) -> c::Answered {
        let mut whole = Totals::from(self.whole());
        let given = charging::take_call(
            self.plan.slice(),
            self.prices.array(),
            self.districts.array_mut(),
            &mut whole,
            body.slice(),
            out.slice_mut(),
        );
        self.whole.slice_mut()[0] = whole.into();
        given.into()
    }
}

const EMPTY: (Totals, Districts) = (
    Totals {
        count: 0,
        due: 0,
        billed: 0,
    },
    [0; ledger::MEMORY],
);

fn ledger_line(districts: &Lent<i64>, whole: c::Totals) -> String {
    let whole = c::Totals::shown(&[whole]);
    format!("ledger {whole} {}", i64::shown(districts.slice()))
}

// ---------------------------------------------------------------------------
// One call on which both agree

/// Its number.
fn add_price(bench: &mut Bench, prices: &mut Lent, body: &Lent) -> u8 {
    let before = [prices.clone(), body.clone()];
    let lines = || {
        let list = list_hex(before[0].slice());
        format!("prices {list}\nadd_price {}", hex(before[1].slice()))
    };
    bench.about_to(lines);
    let mut expected = prices.clone();
    let given = charging::add_price(expected.array_mut(), before[1].slice());
    let reference = calls::refusal_number(given);
    let library = c::add_price(prices.array_mut(), body.slice());
    let lent = [("prices", &*prices, &expected), ("body", body, &before[1])];
    bench.agree("add_price", lines, &library, &reference, &lent);
    bench.count("add_price", reference);
    if reference == Refusal::Range.number() {
        let damaged = Prices::decode(prices.array()).is_none();
        bench.note(LISTS, u64::from(damaged));
    }
    reference
}

/// Its number.
fn take_call(bench: &mut Bench, month: &mut Month, body: &Lent, mut out: Lent) -> u8 {
    let before = (month.clone(), body.clone(), out.clone());
    let lines = || call_lines(&before.0, &before.1, &before.2);
    bench.about_to(lines);
    let (mut expected, mut expected_out) = (month.clone(), out.clone());
    let reference = expected.taken_by_reference(&before.1, &mut expected_out);
    let library = month.taken_by_library(body, &mut out);
    bench.agree_in_all(
        "take_call",
        lines,
        &library,
        &reference,
        &[
            &("plan", &month.plan, &expected.plan),
            &("prices", &month.prices, &expected.prices),
            &("districts", &month.districts, &expected.districts),
            &("whole", &month.whole, &expected.whole),
            &("body", body, &before.1),
            &("buffer", &out, &expected_out),
        ],
    );
    bench.count("take_call", reference.refusal);
    note_call(bench, &before.0, body, &reference, &out);
    reference.refusal
}

fn call_lines(month: &Month, body: &Lent, out: &Lent) -> String {
    let (plan, prices) = (hex(month.plan.slice()), list_hex(month.prices.slice()));
    let (body, out) = (hex(body.slice()), hex(out.slice()));
    let ledger = month.ledger_line();
    format!("memory {plan}\nprices {prices}\n{ledger}\ntake_call {body} {out}")
}

/// Counts what a call on the month met.
fn note_call(bench: &mut Bench, month: &Month, body: &Lent, given: &c::Answered, out: &Lent) {
    if given.refusal == Refusal::Range.number() {
        bench.note(LISTS, u64::from(month.rows().is_none()));
        bench.note(LEDGERS, u64::from(month.ledger().is_none()));
    }
    if given.refusal != 0 {
        return;
    }
    bench.note(OUTCOMES[usize::from(given.outcome)], 1);
    let rows = month.rows().expect("a list in range");
    let incoming = bodies::call(body.slice()).expect("in range").number.digits;
    let outgoing = &out.slice()[..given.digits];
    let digits = match given.outcome {
        2 => return,
        4 => {
            let decide = rows.price_of(outgoing) != rows.price_of(incoming);
            bench.note(OUTGOING, u64::from(decide));
            outgoing
        }
        _ => incoming,
    };
    let fitting = rows
        .rows
        .keys()
        .filter(|&prefix| digits.starts_with(prefix));
    bench.note(SEVERAL, u64::from(fitting.count() > 1));
}

fn district_loss(bench: &mut Bench, month: &Month, district: u16) {
    let whole = month.whole();
    let before = month.districts.clone();
    let lines = || format!("{}\ndistrict_loss {district}", ledger_line(&before, whole));
    bench.about_to(lines);
    let given = charging::district_loss(before.array(), whole.into(), district);
    let reference = c::Loss::from(given);
    let library = c::district_loss(month.districts.array(), whole, district);
    let left = ("districts", &month.districts, &before);
    bench.agree_in_all("district_loss", lines, &library, &reference, &[&left]);
    bench.count("district_loss", reference.refusal);
    note_loss(bench, month, &reference);
}

fn total_loss(bench: &mut Bench, month: &Month) {
    let whole = month.whole();
    let before = month.districts.clone();
    let lines = || format!("{}\ntotal_loss", ledger_line(&before, whole));
    bench.about_to(lines);
    let reference = c::Loss::from(charging::total_loss(before.array(), whole.into()));
    let library = c::total_loss(month.districts.array(), whole);
    let left = ("districts", &month.districts, &before);
    bench.agree_in_all("total_loss", lines, &library, &reference, &[&left]);
    bench.count("total_loss", reference.refusal);
    note_loss(bench, month, &reference);
}

fn note_loss(bench: &mut Bench, month: &Month, given: &c::Loss) {
    if given.refusal != 0 {
        bench.note(LEDGERS, u64::from(month.ledger().is_none()));
    }
    let cent = ledger::UNITS_IN_A_CENT as i64;
    bench.note(OVERCHARGED, u64::from(given.units < 0));
    bench.note(HALVES, u64::from(given.units.abs() % cent == cent / 2));
}

/// Of a district, and of the whole.
fn losses(bench: &mut Bench, month: &Month, district: u16) {
    district_loss(bench, month, district);
    total_loss(bench, month);
}

// ---------------------------------------------------------------------------
// What is asked

/// Mostly the body as it is; else cut with the rest behind it, lengthened, or
/// damaged.
fn loosely(maker: &mut Maker, mut body: Vec<u8>) -> Lent {
    match maker.random.below(40) {
        0 => {
            let length = maker.random.below(body.len());
            Lent::front(&body, length, &mut maker.random)
        }
        1 => Lent::front(&body, body.len() - 1, &mut maker.random),
        2 => {
            let more = maker.random.between(1, 20);
            body.extend(maker.random.bytes(more));
            Lent::new(&body, &mut maker.random)
        }
        3 if maker.random.percent(20) => Lent::nothing(),
        4 | 5 => {
            maker.mutate(&mut body);
            Lent::new(&body, &mut maker.random)
        }
        _ => Lent::new(&body, &mut maker.random),
    }
}

/// A buffer for digits, mostly long enough; a shorter one has more bytes behind
/// it.
fn buffer(maker: &mut Maker) -> Lent {
    let any = maker.random.below(80);
    let lengths = [(1, 0), (3, 34), (30, 35), (6, 36), (6, 64), (1, any)];
    let length = maker.random.weighted(&lengths);
    if length == 0 && maker.random.percent(50) {
        return Lent::nothing();
    }
    let content = maker.random.bytes(80);
    Lent::front(&content, length, &mut maker.random)
}

fn record(bench: &mut Bench, maker: &mut Maker, month: &mut Month, plan: &Plan) -> u8 {
    let body = maker.call(Some(plan));
    let body = loosely(maker, body);
    let out = buffer(maker);
    take_call(bench, month, &body, out)
}

/// A row for the list as it stands, at times one that it has.
fn row(bench: &mut Bench, maker: &mut Maker, prices: &mut Lent) -> u8 {
    let held = Prices::decode(prices.array()).unwrap_or_default();
    let prefix = match held.rows.is_empty() || maker.random.percent(85) {
        true => maker.price_prefix(&held),
        false => maker
            .random
            .pick(&held.rows.into_keys().collect::<Vec<_>>()),
    };
    let mut body = maker.price_body(prefix);
    if maker.random.percent(5) {
        // A price at or over its bound.
        let price = maker.random.pick(&[1_000_000, 1_000_001, u32::MAX]);
        body[bodies::PRICE - 4..].copy_from_slice(&price.to_be_bytes());
    }
    let body = loosely(maker, body);
    add_price(bench, prices, &body)
}

/// Call records, rows and losses on one ledger, with calls on damaged copies
/// in between.
fn month(bench: &mut Bench, place: usize) {
    bench.part = format!("month {place}");
    let mut maker = Maker::new(Random::of(bench.seed, STAGE, place));
    let rooms = Rooms {
        sets: maker.random.between(1, 6) as u16,
        rules: maker.random.between(1, 12) as u16,
    };
    let plan = maker.plan(rooms, 6, 12);
    let rows = maker.random.weighted(&[(2, 0), (6, 4), (6, 12), (2, 60)]);
    let rows = maker.rows_for(&plan, rows);
    let ledger = match place % 2 {
        0 => EMPTY,
        _ => maker.ledger(),
    };
    let mut month = Month::new(&mut maker, &plan, &rows, ledger);
    for _ in 0..60 {
        match maker.random.below(100) {
            0..=9 => {
                row(bench, &mut maker, &mut month.prices);
            }
            10..=17 => {
                let district = maker.district();
                losses(bench, &month, district);
            }
            18..=29 => damaged(bench, &mut maker, &month, &plan),
            _ => {
                record(bench, &mut maker, &mut month, &plan);
            }
        }
    }
}

/// Calls on a copy with a damaged plan, price list or ledger, or two of them.
fn damaged(bench: &mut Bench, maker: &mut Maker, month: &Month, plan: &Plan) {
    let mut month = month.clone();
    for _ in 0..maker.random.weighted(&[(5, 1), (1, 2)]) {
        match maker.random.below(8) {
            0 | 1 => maker.damage_memory(month.plan.slice_mut()),
            2..=4 => damage_list(maker, month.prices.array_mut()),
            _ => damage_ledger(maker, &mut month),
        }
    }
    record(bench, maker, &mut month, plan);
    let district = maker.district();
    losses(bench, &month, district);
    row(bench, maker, &mut month.prices);
}

// ---------------------------------------------------------------------------
// Price lists

fn held_rows(list: &[u8; prices::MEMORY]) -> usize {
    usize::from(u16::from_be_bytes([list[0], list[1]])).min(MOST_ROWS)
}

fn put_count(list: &mut [u8; prices::MEMORY], count: usize) {
    list[..SLOTS_AT].copy_from_slice(&(count as u16).to_be_bytes());
}

fn slot_at(place: usize) -> usize {
    SLOTS_AT + SLOT * place
}

/// A byte of a slot changed, two slots exchanged or alike, or another count.
fn damage_list(maker: &mut Maker, list: &mut [u8; prices::MEMORY]) {
    let count = held_rows(list);
    let (one, other) = (
        maker.random.below(count.max(1)),
        maker.random.below(count.max(1)),
    );
    match maker.random.below(12) {
        0 => {
            let (low, high) = (slot_at(one.min(other)), slot_at(one.max(other)));
            let (front, back) = list.split_at_mut(high);
            if low < high {
                front[low..low + SLOT].swap_with_slice(&mut back[..SLOT]);
            }
        }
        1 => list.copy_within(slot_at(one)..slot_at(one + 1), slot_at(other)),
        2 => list[slot_at(one)..slot_at(one + 1)].fill(0),
        3 => {
            let counts = [count + 1, count.saturating_sub(1), 257, 256, 65_535];
            put_count(list, maker.random.pick(&counts));
        }
        _ => {
            // In a row, in the first free slot, or in the last one.
            let free = count.min(MOST_ROWS - 1);
            let slot = maker.random.pick(&[one, one, one, free, MOST_ROWS - 1]);
            let byte = slot_at(slot) + maker.random.below(SLOT);
            let wrong = maker.wrong_values(list[byte]);
            list[byte] = maker.random.pick(&wrong);
        }
    }
}

/// Rows added one behind the other, from the empty list or from one that is
/// nearly full, with calls on damaged copies in between.
fn list(bench: &mut Bench, place: usize) {
    bench.part = format!("list {place}");
    let mut maker = Maker::new(Random::of(bench.seed, "lists", place));
    let (held, count) = match place % 6 {
        0 => (0, 80),
        1 => (MOST_ROWS - 1, 20),
        2 => (MOST_ROWS, 20),
        3 => (MOST_ROWS - 20, 80),
        _ => (maker.random.below(40), 40),
    };
    let rows = maker.rows(held);
    let mut prices = Lent::new(&rows.encode(), &mut maker.random);
    for _ in 0..count {
        if maker.random.percent(15) {
            let mut damaged = prices.clone();
            damage_list(&mut maker, damaged.array_mut());
            row(bench, &mut maker, &mut damaged);
        }
        row(bench, &mut maker, &mut prices);
    }
}

/// A list with the shortest and the longest prefix, the lowest and the highest
/// price, and so many rows more.
fn edged_rows(maker: &mut Maker, more: usize) -> Prices {
    let mut rows = maker.rows(more);
    rows.rows.insert(Vec::new(), prices::HIGHEST_PRICE);
    rows.rows.insert(vec![15; 16], 0);
    rows.rows.insert(vec![15; 15], prices::HIGHEST_PRICE - 1);
    rows
}

/// Each byte of the count, of every row, of the slot behind them and of the last
/// one changed, and some others.
fn every_byte_of_a_list(bench: &mut Bench, place: usize) {
    bench.part = format!("bytes of a list {place}");
    let mut maker = Maker::new(Random::of(bench.seed, "list bytes", place));
    let plan = maker.plan(Rooms { sets: 4, rules: 6 }, 4, 6);
    let rows = edged_rows(&mut maker, place % 4);
    let mut month = Month::new(&mut maker, &plan, &rows, EMPTY);
    let body = accepted_call(&mut maker, &plan, &rows);
    let added = maker.price_body(vec![1, 2, 3, 4, 5, 6, 7, 8, 9]);
    let used = slot_at(rows.rows.len() + 1);
    let mut places: Vec<usize> = (0..used)
        .chain(slot_at(MOST_ROWS - 1)..prices::MEMORY)
        .collect();
    places.extend((0..40).map(|_| maker.random.between(used, prices::MEMORY - 1)));
    for place in places {
        let old = month.prices.slice()[place];
        for wrong in maker.wrong_values(old) {
            month.prices.slice_mut()[place] = wrong;
            let added = Lent::new(&added, &mut maker.random);
            add_price(bench, &mut month.prices.clone(), &added);
            let body = Lent::new(&body, &mut maker.random);
            let out = buffer(&mut maker);
            take_call(bench, &mut month, &body, out);
        }
        month.prices.slice_mut()[place] = old;
    }
}

/// Lists of 254 to 256 rows, and one that says it has 257; prefixes that they
/// have and lack, prices at and over the bound.
fn full_lists(bench: &mut Bench) {
    bench.part = "full lists".to_string();
    let mut maker = Maker::new(Random::of(bench.seed, "full lists", 0));
    let plan = maker.plan(Rooms { sets: 4, rules: 6 }, 4, 6);
    for count in [MOST_ROWS - 2, MOST_ROWS - 1, MOST_ROWS, MOST_ROWS + 1] {
        let mut rows = edged_rows(&mut maker, count.min(MOST_ROWS) - 3);
        while rows.rows.len() < count.min(MOST_ROWS) {
            let prefix = maker.price_prefix(&rows);
            rows.rows.entry(prefix).or_insert(1);
        }
        let mut month = Month::new(&mut maker, &plan, &rows, EMPTY);
        put_count(month.prices.array_mut(), count);
        for _ in 0..bench.scaled(60, 20) {
            row(bench, &mut maker, &mut month.prices.clone());
            record(bench, &mut maker, &mut month, &plan);
        }
        for _ in 0..3 {
            row(bench, &mut maker, &mut month.prices);
        }
    }
}

// ---------------------------------------------------------------------------
// Bodies

/// A call record that is accepted with these rows, where one is found.
fn accepted_call(maker: &mut Maker, plan: &Plan, rows: &Prices) -> Vec<u8> {
    let mut body = maker.call(Some(plan));
    for _ in 0..100 {
        if charging::take(plan, rows, &mut Ledger::default(), &body).is_ok() {
            break;
        }
        body = maker.call(Some(plan));
    }
    body
}

/// Each byte of a row and of a call record changed, both at every length up to
/// a few bytes more, and buffers of every length.
fn every_byte_of_bodies(bench: &mut Bench, place: usize) {
    bench.part = format!("bodies {place}");
    let mut maker = Maker::new(Random::of(bench.seed, "loss bodies", place));
    let plan = maker.plan(Rooms { sets: 5, rules: 9 }, 5, 9);
    let rows = edged_rows(&mut maker, 6);
    let mut month = Month::new(&mut maker, &plan, &rows, EMPTY);
    let added = maker.price_body(vec![15; 14]);
    for body in changed_bodies(&mut maker, &added) {
        add_price(bench, &mut month.prices.clone(), &body);
    }
    let taken = accepted_call(&mut maker, &plan, &rows);
    for body in changed_bodies(&mut maker, &taken) {
        let out = buffer(&mut maker);
        take_call(bench, &mut month, &body, out);
    }
    for length in 0..=50 {
        let body = Lent::new(&taken, &mut maker.random);
        let out = Lent::front(&[0xa5; 60], length, &mut maker.random);
        take_call(bench, &mut month, &body, out);
    }
}

fn changed_bodies(maker: &mut Maker, body: &[u8]) -> Vec<Lent> {
    let mut bodies = Vec::new();
    for place in 0..body.len() {
        for wrong in maker.wrong_values(body[place]) {
            let mut changed = body.to_vec();
            changed[place] = wrong;
            bodies.push(Lent::new(&changed, &mut maker.random));
        }
    }
    let longer = [body, &[255, 0, 7]].concat();
    for length in 0..=longer.len() {
        bodies.push(Lent::front(&longer, length, &mut maker.random));
    }
    bodies
}

// ---------------------------------------------------------------------------
// Ledgers

/// Values at and about the bounds of a count, where the most is `bound`.
fn counts_about(bound: i64) -> [i64; 8] {
    [
        bound - 1,
        bound,
        bound + 1,
        0,
        -1,
        MOST_RECORDS + 1,
        i64::MAX,
        i64::MIN,
    ]
}

/// Values at and about the bounds of a sum beside a count.
fn sums_about(count: i64) -> [i64; 8] {
    let most = count.clamp(-1, MOST_RECORDS) * MOST_UNITS;
    [-1, 0, 1, most - 1, most, most + 1, i64::MAX, i64::MIN]
}

/// Puts one number of the ledger at or about a bound.
fn damage_ledger(maker: &mut Maker, month: &mut Month) {
    let (mut whole, mut districts) = maker.ledger();
    let at = count_at(maker.district() % DISTRICTS as u16);
    let counts = counts_about(whole.count);
    match maker.random.below(6) {
        0 => whole.count = maker.random.pick(&counts_about(MOST_RECORDS)),
        1 => whole.due = maker.random.pick(&sums_about(whole.count)),
        2 => whole.billed = maker.random.pick(&sums_about(whole.count)),
        3 => districts[at] = maker.random.pick(&counts),
        4 => districts[at + 1] = maker.random.pick(&sums_about(districts[at])),
        _ => districts[at + 2] = maker.random.pick(&sums_about(districts[at])),
    }
    month.set_ledger(whole, &districts);
}

/// A month whose calls are accepted while there is room, and such a call.
fn plain_month(maker: &mut Maker) -> (Month, Vec<u8>) {
    let plan = maker.plan(Rooms { sets: 3, rules: 4 }, 3, 4);
    let rows = edged_rows(maker, 2);
    let body = accepted_call(maker, &plan, &rows);
    (Month::new(maker, &plan, &rows, EMPTY), body)
}

/// The same call in another district.
fn in_district(body: &[u8], district: u16) -> Vec<u8> {
    let mut body = body.to_vec();
    body[DISTRICT_AT..][..2].copy_from_slice(&district.to_be_bytes());
    body
}

/// Each number of a ledger at and about each of its bounds.
fn ledger_bounds(bench: &mut Bench) {
    bench.part = "bounds of a ledger".to_string();
    let mut maker = Maker::new(Random::of(bench.seed, "ledgers", 0));
    let (mut month, body) = plain_month(&mut maker);
    for count in [0, 1, 2, 1_000, MOST_RECORDS - 1, MOST_RECORDS] {
        for district in [0, 1, 255, 256, 510, 511] {
            let body = in_district(&body, district);
            for (whole, districts) in ledgers_about(count, district) {
                month.set_ledger(whole, &districts);
                losses(bench, &month, district);
                let body = Lent::new(&body, &mut maker.random);
                let out = Lent::new(&[0x5a; 35], &mut maker.random);
                take_call(bench, &mut month, &body, out);
            }
        }
    }
}

/// A ledger with sums at their bounds, and one number of it at each value about
/// its own.
fn ledgers_about(count: i64, district: u16) -> Vec<(Totals, Districts)> {
    let most = count * MOST_UNITS;
    // The whole's three numbers, then the district's.
    let at_bounds = [count, most, 0, count, 0, most];
    let mut ledgers = Vec::new();
    for (count, sum) in counts_about(count).into_iter().zip(sums_about(count)) {
        for (place, value) in [count, sum, sum, count, sum, sum].into_iter().enumerate() {
            let mut numbers = at_bounds;
            numbers[place] = value;
            ledgers.push(numbers);
        }
        // Without sums, so that the district's count alone decides.
        let [whole, due, billed, ..] = at_bounds;
        ledgers.push([whole, due, billed, count, 0, 0]);
    }
    ledgers
        .into_iter()
        .map(|numbers| ledger_of(district, numbers))
        .collect()
}

fn ledger_of(district: u16, numbers: [i64; 6]) -> (Totals, Districts) {
    let [count, due, billed, ..] = numbers;
    let mut districts = [0; ledger::MEMORY];
    districts[count_at(district)..][..3].copy_from_slice(&numbers[3..]);
    (Totals { count, due, billed }, districts)
}

/// Records of every district, where every third has some already, and of
/// districts that are not there.
fn every_district(bench: &mut Bench) {
    bench.part = "every district".to_string();
    let mut maker = Maker::new(Random::of(bench.seed, "districts", 0));
    let (mut month, body) = plain_month(&mut maker);
    let mut districts = [0; ledger::MEMORY];
    for district in (0..DISTRICTS as u16).step_by(3) {
        let (due, billed) = maker.sums_about_a_cent();
        let count = maker.random.between(1, 9) as i64;
        districts[count_at(district)..][..3].copy_from_slice(&[count, due, billed]);
    }
    let whole = Totals {
        count: 1_000,
        due: 7,
        billed: 30_007,
    };
    month.set_ledger(whole, &districts);
    for district in (0..DISTRICTS as u16 + 8).chain([1_023, 1_024, 32_768, 65_535]) {
        losses(bench, &month, district);
        let body = in_district(&body, district);
        let body = Lent::new(&body, &mut maker.random);
        let out = buffer(&mut maker);
        take_call(bench, &mut month, &body, out);
        losses(bench, &month, district);
    }
}

/// The last records that a ledger takes, and records of every kind behind them.
fn limit(bench: &mut Bench) {
    for place in 0..bench.scaled(60, 10) {
        bench.part = format!("limit {place}");
        let mut maker = Maker::new(Random::of(bench.seed, "limit", place));
        let plan = maker.plan(Rooms { sets: 4, rules: 8 }, 4, 8);
        let rows = match place % 3 {
            // Without the empty prefix: NO PRICE is drawn before LEDGER FULL.
            0 => maker.rows_for(&plan, 3),
            _ => edged_rows(&mut maker, 5),
        };
        let (mut whole, districts) = EMPTY;
        whole.count = MOST_RECORDS - maker.random.between(0, 3) as i64;
        let mut month = Month::new(&mut maker, &plan, &rows, (whole, districts));
        for _ in 0..20 {
            record(bench, &mut maker, &mut month, &plan);
        }
        total_loss(bench, &month);
    }
}

/// Losses at and beside a half of a cent, on both sides of zero.
fn halves(bench: &mut Bench) {
    bench.part = "halves of a cent".to_string();
    let mut maker = Maker::new(Random::of(bench.seed, "halves", 0));
    let (mut month, _) = plain_month(&mut maker);
    for _ in 0..bench.scaled(1_500, 300) {
        let district = maker.random.below(DISTRICTS) as u16;
        let mut districts = [0; ledger::MEMORY];
        let (due, billed) = maker.sums_about_a_cent();
        districts[count_at(district)..][..3].copy_from_slice(&[1, due, billed]);
        let (due, billed) = maker.sums_about_a_cent();
        let count = 1;
        month.set_ledger(Totals { count, due, billed }, &districts);
        losses(bench, &month, district);
    }
}

/// A few records with a plan of the largest rooms and a full list.
fn largest(bench: &mut Bench) {
    bench.part = "the largest plan".to_string();
    let mut maker = Maker::new(Random::of(bench.seed, "largest loss", 0));
    let plan = maker.largest_plan(4096);
    let rows = maker.rows(MOST_ROWS);
    let ledger = maker.ledger();
    let mut month = Month::new(&mut maker, &plan, &rows, ledger);
    for _ in 0..bench.scaled(100, 10) {
        record(bench, &mut maker, &mut month, &plan);
    }
}
