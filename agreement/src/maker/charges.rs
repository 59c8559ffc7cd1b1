//! Prices, price lists, call records and ledgers, often at a bound.

use super::Maker;
use npp_reference::bodies::{self, MOST_BILLED, MOST_SECONDS};
use npp_reference::ledger::{self, Totals, DISTRICTS, MOST_RECORDS, MOST_UNITS, UNITS_IN_A_CENT};
use npp_reference::plan::Plan;
use npp_reference::prices::{Prices, Row, HIGHEST_PRICE};

/// Where the district of a call record stands, behind the account.
pub const DISTRICT_AT: usize = 4;

/// The numbers of the districts.
pub type Districts = [i64; ledger::MEMORY];

/// Where the count of a district stands; its due and its billed are behind it.
pub fn count_at(district: u16) -> usize {
    3 * usize::from(district)
}

impl Maker {
    // -- prices -------------------------------------------------------------

    fn price(&mut self) -> u32 {
        let highest = HIGHEST_PRICE as usize;
        let any = self.random.between(0, highest);
        let edge = self.random.pick(&[0, 1, 59, 60, highest - 1, highest]);
        self.random.weighted(&[(6, any), (4, 1_000), (5, edge)]) as u32
    }

    /// The body of a row.
    pub fn price_body(&mut self, prefix: Vec<u8>) -> Vec<u8> {
        let price = self.price();
        let mut body = Vec::new();
        bodies::put_price_row(&mut body, &Row { prefix, price });
        body
    }

    /// A prefix of 0 to 16 digits: mostly one that goes on where a held one
    /// ends, or is cut from it, so that several fit one number.
    pub fn price_prefix(&mut self, held: &Prices) -> Vec<u8> {
        let near = match held.rows.len() {
            0 => None,
            count => held.rows.keys().nth(self.random.below(count)),
        };
        let mut prefix = match near {
            Some(near) if self.random.percent(50) => near.clone(),
            _ => {
                let count = self.random.edged(0, 16);
                self.digits(count)
            }
        };
        match self.random.below(4) {
            0 => prefix.truncate(self.random.between(0, prefix.len())),
            1 => prefix.truncate(prefix.len().saturating_sub(1)),
            _ => prefix.push(self.digit()),
        }
        prefix.truncate(16);
        prefix
    }

    /// A list with so many rows.
    pub fn rows(&mut self, count: usize) -> Prices {
        let mut prices = Prices::default();
        while prices.rows.len() < count {
            let prefix = self.price_prefix(&prices);
            prices.rows.insert(prefix, self.price());
        }
        prices
    }

    /// A list with about so many rows for the calls of a plan: prefixes of
    /// the digits that they are priced on, and of those that they are not.
    pub fn rows_for(&mut self, plan: &Plan, count: usize) -> Prices {
        let mut prices = Prices::default();
        for _ in 0..count {
            let body = self.number(Some(plan));
            let incoming = bodies::number(&body).expect("in range").digits;
            let outgoing = match plan.answer(&body) {
                Ok(answer) => answer.digits,
                Err(_) => Vec::new(),
            };
            let digits = match outgoing.is_empty() || self.random.percent(30) {
                true => incoming,
                false => &outgoing[..],
            };
            let length = self.random.between(0, digits.len().min(16));
            let length = self.random.pick(&[length, length.min(2)]);
            prices.rows.insert(digits[..length].to_vec(), self.price());
        }
        if self.random.percent(35) {
            prices.rows.insert(Vec::new(), self.price());
        }
        prices
    }

    // -- call records -------------------------------------------------------

    /// The body of a call record.
    pub fn call(&mut self, plan: Option<&Plan>) -> Vec<u8> {
        let mut body = self.random.bytes(DISTRICT_AT);
        body.extend(self.district().to_be_bytes());
        body.extend(self.amount(MOST_SECONDS, &[1, 30, 60]).to_be_bytes());
        body.extend(self.amount(MOST_BILLED, &[500, 600, 1_000]).to_be_bytes());
        body.extend(self.number(plan));
        body
    }

    /// Few districts, so that their sums grow; at times one that is not there.
    pub fn district(&mut self) -> u16 {
        let any = self.random.below(DISTRICTS) as u16;
        let edge = self.random.pick(&[255, 256, 257, 511]);
        let beyond = self.random.pick(&[512, 513, 1_024, 65_535]);
        self.random
            .weighted(&[(30, 0), (30, 17), (10, edge), (10, any), (3, beyond)])
    }

    /// From 0 to the most, at times one more, and often a usual one.
    fn amount(&mut self, most: u32, usual: &[u32]) -> u32 {
        let any = self.random.between(0, most as usize) as u32;
        let usual = self.random.pick(usual);
        let beyond = self.random.pick(&[most + 1, u32::MAX]);
        self.random
            .weighted(&[(30, any), (40, usual), (10, most), (5, 0), (2, beyond)])
    }

    // -- ledgers ------------------------------------------------------------

    /// A ledger in range, whose districts need not add up to the whole.
    pub fn ledger(&mut self) -> (Totals, Districts) {
        let few = self.random.between(0, 3) as i64;
        let count = self.random.weighted(&[
            (3, 0),
            (3, few),
            (3, 1_000),
            (3, MOST_RECORDS - 1),
            (2, MOST_RECORDS),
        ]);
        let mut districts = [0; ledger::MEMORY];
        for _ in 0..self.random.between(0, 6) {
            let district = self.district() % DISTRICTS as u16;
            let held = self.random.pick(&[count, count.min(1), count / 2]);
            let sums = [held, self.sum(held), self.sum(held)];
            districts[count_at(district)..][..3].copy_from_slice(&sums);
        }
        let (due, billed) = (self.sum(count), self.sum(count));
        (Totals { count, due, billed }, districts)
    }

    /// A sum that so many records can come to.
    fn sum(&mut self, count: i64) -> i64 {
        let most = count * MOST_UNITS;
        let any = self.random.between(0, most as usize) as i64;
        self.random.pick(&[0, any, any / 1_000_000, most])
    }

    /// Two sums whose loss is at or beside a half, or a whole, cent.
    pub fn sums_about_a_cent(&mut self) -> (i64, i64) {
        let cent = UNITS_IN_A_CENT as i64;
        let cents = self.random.below(4) as i64 * cent;
        let half = self.random.pick(&[0, cent / 2]);
        let beside = self.random.pick(&[1, 0, -1]);
        let loss = (cents + half + beside).max(0);
        let common = self.random.below(MOST_UNITS as usize / 2) as i64;
        match self.random.percent(50) {
            true => (common + loss, common),
            false => (common, common + loss),
        }
    }
}
