//! Price rows, call records, price lists and ledgers (C-11), at and over
//! every bound that they have.

use super::{Maker, Script};
use crate::bodies;
use crate::ledger::{self, Ledger, Totals, MOST_RECORDS, MOST_UNITS};
use crate::plan::Plan;
use crate::prices::{self, Prices, Row};
use crate::rules::LONGEST_CONDITIONED;
use crate::script::{list_hex, numbers_hex, to_hex};

// ---------------------------------------------------------------------------
// Bodies

impl Maker {
    /// The body of a row: at times a prefix that is held.
    pub(super) fn price_body(&mut self, prices: &Prices) -> Vec<u8> {
        let held = self.random.percent(12);
        let prefix = match prices.rows.len() {
            count if count > 0 && held => {
                let place = self.random.below(count);
                prices.rows.keys().nth(place).expect("a held row").clone()
            }
            _ => self.price_prefix(),
        };
        let price = self.price();
        let mut body = Vec::new();
        bodies::put_price_row(&mut body, &Row { prefix, price });
        self.spoil(&mut body);
        body
    }

    /// Mostly short, since numbers must meet it.
    fn price_prefix(&mut self) -> Vec<u8> {
        let length = self.prefix_length(0, 16);
        self.digits(length)
    }

    fn price(&mut self) -> u32 {
        if self.cents && self.random.percent(90) {
            return self.random.pick(&[1, 500, 1_000, 29_999, 30_000, 30_001]);
        }
        let highest = prices::HIGHEST_PRICE;
        let any = self.random.below(highest as usize) as u32;
        let round = self.random.pick(&[500, 1_000, 2_000]);
        self.random.weighted(&[
            (10, any),
            (10, round),
            (3, highest),
            (2, 0),
            (2, 1),
            (1, highest + 1),
            (1, u32::MAX),
        ])
    }

    /// The body of a call record, in or out of range.
    pub(super) fn call_body(&mut self, plan: Option<&Plan>) -> Vec<u8> {
        let any = self.random.byte();
        let account = self.random.pick(&[0, 1, u32::from(any), u32::MAX]);
        let district = self.district();
        let seconds = self.seconds();
        let billed = self.billed();
        let mut body = Vec::with_capacity(bodies::CALL);
        body.extend(account.to_be_bytes());
        body.extend(district.to_be_bytes());
        body.extend(seconds.to_be_bytes());
        body.extend(billed.to_be_bytes());
        self.put_number(&mut body, plan);
        self.spoil(&mut body);
        body
    }

    /// The bodies of as many rows as a list takes, or a few less.
    pub(super) fn many_rows(&mut self) -> Vec<Vec<u8>> {
        let count = prices::MOST_ROWS - self.random.below(4);
        let rows = self.rows(count).rows.into_iter();
        let mut bodies: Vec<Vec<u8>> = rows
            .map(|(prefix, price)| {
                let mut body = Vec::new();
                bodies::put_price_row(&mut body, &Row { prefix, price });
                body
            })
            .collect();
        self.random.shuffle(&mut bodies);
        bodies
    }

    /// Changes a byte or two in as many bodies as `mutated` says.
    pub(super) fn spoil(&mut self, body: &mut [u8]) {
        if self.random.percent(self.mutated) {
            self.mutate(body);
        }
    }

    /// Few districts, so that sums grow.
    pub(super) fn district(&mut self) -> u16 {
        let any = self.random.below(ledger::DISTRICTS) as u16;
        self.random.weighted(&[
            (25, 0),
            (25, 1),
            (15, 17),
            (1, 255),
            (1, 256),
            (3, 511),
            (1, any),
            (2, 512),
            (1, 65_535),
        ])
    }

    fn seconds(&mut self) -> u32 {
        if self.cents && self.random.percent(90) {
            return self.random.pick(&[0, 1, 1, 3, 30, 60]);
        }
        let most = bodies::MOST_SECONDS;
        let any = self.random.below(most as usize) as u32;
        let round = self.random.pick(&[30, 60, 90]);
        self.random.weighted(&[
            (20, any),
            (25, round),
            (6, most),
            (4, 0),
            (3, 1),
            (1, most + 1),
            (1, u32::MAX),
        ])
    }

    /// Often little, so that halves of a cent come up; else mostly more than
    /// is due.
    fn billed(&mut self) -> u32 {
        if self.cents && self.random.percent(90) {
            return self.random.pick(&[0, 1, 499, 500, 501, 1_000]);
        }
        let most = bodies::MOST_BILLED;
        let any = self.random.below(most as usize) as u32;
        let round = self.random.pick(&[500, 1_000, 1_500, 2_500]);
        self.random.weighted(&[
            (16, any),
            (25, round),
            (12, any % 100_000),
            (4, most),
            (8, 0),
            (3, 1),
            (1, most + 1),
            (1, u32::MAX),
        ])
    }

    // -- lists and ledgers --------------------------------------------------

    /// A list with so many rows.
    fn rows(&mut self, count: usize) -> Prices {
        let mut prices = Prices::default();
        let mut length = 0;
        while prices.rows.len() < count {
            // Longer and longer, so that there are enough of them.
            let prefix = self.digits(length.min(16));
            length = (length + 1) % 19;
            let price = self.price().min(prices::HIGHEST_PRICE);
            prices.rows.insert(prefix, price);
        }
        prices
    }

    /// A ledger in range.  Its districts need not add up to the whole.
    fn numbers(&mut self) -> (Totals, [i64; ledger::MEMORY]) {
        let count = self.random.weighted(&[
            (4, 0),
            (4, 3),
            (3, 1_000),
            (4, MOST_RECORDS - 1),
            (6, MOST_RECORDS),
        ]);
        let mut districts = [0; ledger::MEMORY];
        for _ in 0..self.random.below(4) {
            let place = 3 * (usize::from(self.district()) % ledger::DISTRICTS);
            let held = self.random.pick(&[count, count.min(1), count / 2]);
            districts[place..place + 3].copy_from_slice(&[held, self.sum(held), self.sum(held)]);
        }
        let (due, billed) = (self.sum(count), self.sum(count));
        (Totals { count, due, billed }, districts)
    }

    /// A sum that so many records can come to.
    fn sum(&mut self, count: i64) -> i64 {
        let most = count * MOST_UNITS;
        let any = self.random.below(most as usize + 1) as i64;
        self.random.pick(&[0, any, any / 1_000_000, most])
    }

    /// A count around its bound, or far from it.
    fn loose_count(&mut self, bound: i64) -> i64 {
        self.random
            .pick(&[bound, bound + 1, bound - 1, 0, -1, i64::MAX, i64::MIN])
    }

    /// A sum around the bounds that its count gives it.
    fn loose_sum(&mut self, count: i64) -> i64 {
        let most = count.saturating_mul(MOST_UNITS);
        let over = most.saturating_add(1);
        self.random
            .pick(&[0, -1, most, over, over, i64::MAX, i64::MIN])
    }
}

// ---------------------------------------------------------------------------
// Calls

impl Script {
    /// A step with the price list and the ledger.
    pub(super) fn charge(&mut self) {
        match self.maker.random.below(32) {
            0..=6 => self.add_price(),
            7..=23 => self.take_call(),
            24..=25 => self.losses(),
            26..=27 => self.damage_list(),
            28..=29 => self.damage_ledger(),
            30 => self.new_list(),
            _ => self.new_ledger(),
        }
    }

    fn add_price(&mut self) {
        let rows = Prices::decode(&self.shadow.prices).unwrap_or_default();
        let mut body = self.maker.price_body(&rows);
        self.cut_or_lengthen(&mut body);
        self.add(format!("add_price {}", to_hex(&body)));
    }

    fn take_call(&mut self) {
        let plan = self.plan();
        let mut body = self.maker.call_body(plan.as_ref());
        self.cut_or_lengthen(&mut body);
        let out = self.buffer(LONGEST_CONDITIONED);
        self.add(format!("take_call {} {out}", to_hex(&body)));
    }

    /// The losses of a district with records, if there is one, of any other,
    /// and of the whole.
    fn losses(&mut self) {
        let ledger = Ledger::decode(&self.shadow.districts, self.shadow.whole);
        let held = ledger.and_then(|ledger| ledger.districts.keys().next().copied());
        if let Some(district) = held {
            self.add(format!("district_loss {}", district.number()));
        }
        let district = self.maker.district();
        self.add(format!("district_loss {district}"));
        self.add("total_loss".to_string());
    }

    fn set_list(&mut self, list: &[u8]) {
        self.add(format!("prices {}", list_hex(list)));
    }

    fn set_ledger(&mut self, whole: Totals, districts: &[i64]) {
        let whole = numbers_hex(&[whole.count, whole.due, whole.billed]);
        self.add(format!("ledger {whole} {}", numbers_hex(districts)));
    }

    /// A list in range: now and then one that is full, or takes one row more.
    fn new_list(&mut self) {
        let few = self.maker.random.below(12);
        let full = prices::MOST_ROWS;
        let count = self
            .maker
            .random
            .weighted(&[(12, few), (2, 0), (2, full - 1), (4, full)]);
        let list = self.maker.rows(count).encode();
        self.set_list(&list);
        for _ in 0..2 {
            self.add_price();
        }
    }

    fn new_ledger(&mut self) {
        let (whole, districts) = match self.maker.random.percent(30) {
            true => (Totals::default(), [0; ledger::MEMORY]),
            false => self.maker.numbers(),
        };
        self.set_ledger(whole, &districts);
        self.losses();
    }

    /// A list that is mostly out of range, some calls on it, and mostly the
    /// list as it was.
    fn damage_list(&mut self) {
        let before = self.shadow.prices;
        match self.maker.random.below(8) {
            0..=2 => self.damage_slots(),
            3 => {
                // One row more than there can be, with nothing else wrong.
                let mut list = self.maker.rows(prices::MOST_ROWS).encode();
                list[..2].copy_from_slice(&257u16.to_be_bytes());
                self.set_list(&list);
            }
            _ => self.damage_byte(),
        }
        for _ in 0..self.maker.random.between(1, 3) {
            match self.maker.random.percent(50) {
                true => self.add_price(),
                false => self.take_call(),
            }
        }
        if self.maker.random.percent(90) {
            self.set_list(&before);
        }
    }

    /// Two rows exchanged, a prefix twice, or a row or its count gone.
    fn damage_slots(&mut self) {
        let count = self.maker.random.between(2, 9);
        let mut list = self.maker.rows(count).encode();
        let slot = |place: usize| prices::SLOTS_AT + prices::SLOT * place;
        let first = self.maker.random.below(count - 1);
        let (low, middle, high) = (slot(first), slot(first + 1), slot(first + 2));
        match self.maker.random.below(4) {
            0 => list[low..high].rotate_left(prices::SLOT),
            1 => list.copy_within(low..middle, middle),
            2 => list[low..middle].fill(0),
            _ => {
                list[1] = self
                    .maker
                    .random
                    .pick(&[0, count as u8 - 1, count as u8 + 1])
            }
        }
        self.set_list(&list);
    }

    /// One byte of the count, of a row that is held, or behind the rows.
    fn damage_byte(&mut self) {
        let in_count = self.maker.random.below(prices::SLOTS_AT);
        let in_slot = self.place_in_slot();
        let place = self.maker.random.weighted(&[(12, in_slot), (1, in_count)]);
        let old = self.shadow.prices[place];
        let random = self.maker.random.byte();
        let near = [old.wrapping_add(1), old.wrapping_sub(1), 0, 16, 17, random];
        let value = self.maker.random.pick(&near);
        self.add(format!("poke_price {place} {value}"));
    }

    /// Every field and every unused byte of a slot comes up.
    fn place_in_slot(&mut self) -> usize {
        let random = &mut self.maker.random;
        let list = &self.shadow.prices;
        let last = prices::MOST_ROWS - 1;
        let count = usize::from(u16::from_be_bytes([list[0], list[1]])).min(last);
        let (held, any_slot) = (random.below(count + 1), random.below(last));
        let slot = random.weighted(&[(6, held), (2, count), (1, any_slot), (1, last)]);
        let digit = prices::PREFIX_AT + 1 + random.below(16);
        let price = prices::PRICE_AT + random.below(4);
        let any = random.below(prices::SLOT);
        let byte = random.pick(&[0, prices::PREFIX_AT, digit, digit, 18, price, 23, any]);
        prices::SLOTS_AT + prices::SLOT * slot + byte
    }

    /// Ledgers with one number at or over a bound, and mostly one in range
    /// behind them.
    fn damage_ledger(&mut self) {
        for _ in 0..self.maker.random.between(2, 5) {
            self.damage_number();
        }
        if self.maker.random.percent(85) {
            self.new_ledger();
        }
    }

    fn damage_number(&mut self) {
        let (mut whole, mut districts) = self.maker.numbers();
        let district = self.maker.district() % ledger::DISTRICTS as u16;
        let place = 3 * usize::from(district);
        let maker = &mut self.maker;
        // With records, mostly, so that a sum has a bound to be over.
        if districts[place] == 0 && maker.random.percent(70) {
            districts[place] = maker.random.pick(&[whole.count, whole.count / 2]);
        }
        match maker.random.below(6) {
            0 => whole.count = maker.loose_count(MOST_RECORDS),
            1 => whole.due = maker.loose_sum(whole.count),
            2 => whole.billed = maker.loose_sum(whole.count),
            3 => districts[place] = maker.loose_count(whole.count),
            4 => districts[place + 1] = maker.loose_sum(districts[place]),
            _ => districts[place + 2] = maker.loose_sum(districts[place]),
        }
        self.set_ledger(whole, &districts);
        self.add(format!("district_loss {district}"));
        self.add("total_loss".to_string());
        self.take_call();
    }
}
