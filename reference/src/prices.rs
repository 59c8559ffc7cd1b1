//! The price list of C-11: its rows as a plain map, and its memory as
//! docs/LAYOUT.md has it.

use crate::bodies::{self, all_zero};
use crate::rules::*;
use std::collections::BTreeMap;

pub const MOST_ROWS: usize = 256;
/// In thousandths of a cent, for a minute.
pub const HIGHEST_PRICE: u32 = 1_000_000;

/// The bytes of a price list.
pub const MEMORY: usize = SLOTS_AT + SLOT * MOST_ROWS;
pub const SLOTS_AT: usize = 2;
pub const SLOT: usize = 24;
/// A row's prefix, 1+16, and its price, 4, in its slot.
pub const PREFIX_AT: usize = 1;
const PREFIX_END: usize = 18;
pub const PRICE_AT: usize = 19;
const PRICE_END: usize = 23;

#[derive(Clone, Debug, PartialEq, Eq)]
pub struct Row {
    pub prefix: Vec<u8>,
    /// Of a minute, in thousandths of a cent.
    pub price: u32,
}

/// The price of each prefix.  The order of byte vectors is prefix order: as
/// digits, the shorter first where one begins the other.
#[derive(Clone, Debug, Default, PartialEq, Eq)]
pub struct Prices {
    pub rows: BTreeMap<Vec<u8>, u32>,
}

impl Prices {
    /// Adds the row of a whole body: TAKEN for a prefix held, FULL at 256.
    pub fn add(&mut self, body: &[u8]) -> Checked<()> {
        let row = bodies::price_row(body)?;
        demand(!self.rows.contains_key(&row.prefix), Refusal::Taken)?;
        demand(self.rows.len() < MOST_ROWS, Refusal::Full)?;
        self.rows.insert(row.prefix, row.price);
        Ok(())
    }

    /// The price of the longest prefix that begins the digits, none if no
    /// row fits.  The empty prefix begins any digits, no digits too.
    pub fn price_of(&self, digits: &[u8]) -> Option<u32> {
        let mut best: Option<(usize, u32)> = None;
        for (prefix, &price) in &self.rows {
            let longer = best.is_none_or(|(length, _)| prefix.len() > length);
            if digits.starts_with(prefix) && longer {
                best = Some((prefix.len(), price));
            }
        }
        best.map(|(_, price)| price)
    }

    /// The rows in a memory; none if a field is out of range, a prefix stands
    /// twice or out of order, or an unused byte is not 0.
    pub fn decode(memory: &[u8; MEMORY]) -> Option<Prices> {
        let (count, slots) = memory.split_at(SLOTS_AT);
        let count = usize::from(u16::from_be_bytes([count[0], count[1]]));
        let used = slots.get(..SLOT * count)?;
        if !all_zero(&slots[used.len()..]) {
            return None;
        }
        let mut rows: BTreeMap<Vec<u8>, u32> = BTreeMap::new();
        for slot in used.chunks(SLOT) {
            let row = decode_row(slot)?;
            let rises = rows
                .last_key_value()
                .is_none_or(|(last, _)| *last < row.prefix);
            if !rises {
                return None;
            }
            rows.insert(row.prefix, row.price);
        }
        Some(Prices { rows })
    }

    /// The one memory that holds these rows.
    pub fn encode(&self) -> [u8; MEMORY] {
        let mut image = [0; MEMORY];
        image[..SLOTS_AT].copy_from_slice(&(self.rows.len() as u16).to_be_bytes());
        let slots = image[SLOTS_AT..].chunks_mut(SLOT);
        for (slot, (prefix, &price)) in slots.zip(&self.rows) {
            slot[PREFIX_AT] = prefix.len() as u8;
            slot[PREFIX_AT + 1..][..prefix.len()].copy_from_slice(prefix);
            slot[PRICE_AT..PRICE_END].copy_from_slice(&price.to_be_bytes());
        }
        image
    }
}

/// A slot is a record's row with a byte before it, between its two fields and
/// behind it, each of them 0.
fn decode_row(slot: &[u8]) -> Option<Row> {
    let (prefix, price) = (&slot[PREFIX_AT..PREFIX_END], &slot[PRICE_AT..PRICE_END]);
    let unused = [slot[0], slot[PREFIX_END], slot[PRICE_END]];
    let row = bodies::price_row(&[prefix, price].concat()).ok()?;
    all_zero(&unused).then_some(row)
}
