//! A price list in its memory, and the call on it.

use crate::bodies::Price;
use crate::c::{self, PRICES_BYTES};
use crate::{accepted, Refusal};
use std::borrow::{Borrow, BorrowMut};

/// The rows that a price list takes.
pub const PRICE_ROWS: usize = 256;

/// A price list (C-11): up to 256 rows, each a prefix and the price of a minute. Its memory of 6,146
/// bytes is owned (an array, a box) or borrowed (`&mut [u8; 6146]`; `&[u8; 6146]` to read alone).
///
/// The memory may hold anything: each call examines it, and is refused with [`Refusal::Range`] where it is
/// not a list in range (docs/LAYOUT.md). One that begins as [`PriceList::new`] always is. A list belongs to
/// no plan, and an opening leaves it.
#[derive(Clone, Debug, PartialEq, Eq)]
pub struct PriceList<M = Box<[u8; PRICES_BYTES]>> {
    memory: M,
}

impl PriceList {
    /// The empty list, all bytes 0, in a memory of its own.
    ///
    /// ```
    /// use npp::{Price, PriceList};
    ///
    /// let mut prices = PriceList::new();
    /// assert_eq!(prices.memory(), &[0; npp::PRICES_BYTES]);
    /// // Numbers that begin with 49 cost 2 cents a minute.
    /// prices.add(&Price { prefix: &[4, 9], price: 2_000 })?;
    /// assert_eq!(prices.memory()[..6], [0, 1, 0, 2, 4, 9]);
    /// # Ok::<(), npp::Refusal>(())
    /// ```
    pub fn new() -> PriceList {
        PriceList::over(Box::new([0; PRICES_BYTES]))
    }
}

impl Default for PriceList {
    fn default() -> PriceList {
        PriceList::new()
    }
}

impl<M: Borrow<[u8; PRICES_BYTES]>> PriceList<M> {
    /// The list, if there is one, in a memory.
    ///
    /// ```
    /// use npp::{Price, PriceList, Refusal};
    ///
    /// let mut memory = [0; npp::PRICES_BYTES];
    /// PriceList::over(&mut memory).add(&Price { prefix: &[], price: 1_000 })?;
    ///
    /// // As it was left, it can be stored and lent again.
    /// let stored = memory.to_vec();
    /// let mut again = PriceList::over(<[u8; npp::PRICES_BYTES]>::try_from(stored).unwrap());
    /// assert_eq!(again.add(&Price { prefix: &[], price: 1_000 }), Err(Refusal::Taken));
    /// # Ok::<(), Refusal>(())
    /// ```
    pub fn over(memory: M) -> PriceList<M> {
        PriceList { memory }
    }

    /// The memory.
    pub fn memory(&self) -> &[u8; PRICES_BYTES] {
        self.memory.borrow()
    }

    /// Gives the memory back.
    pub fn into_memory(self) -> M {
        self.memory
    }
}

/// A refused call leaves every byte of the memory as it was. An accepted one leaves the list with the row
/// at its place among the others, in prefix order.
impl<M: BorrowMut<[u8; PRICES_BYTES]>> PriceList<M> {
    /// Adds a row: `npp_add_price`.
    ///
    /// Refusals, in order: RANGE, the prefix has over 16 digits or one over 15, the price is over
    /// 1,000,000, or the list is out of range; TAKEN, the prefix; FULL, 256 rows are held.
    ///
    /// ```
    /// use npp::{Price, PriceList, Refusal};
    ///
    /// let mut prices = PriceList::new();
    /// let abroad = Price { prefix: &[0, 0], price: 1_000_000 };
    /// assert_eq!(prices.add(&abroad), Ok(()));
    /// assert_eq!(prices.add(&abroad), Err(Refusal::Taken));
    /// assert_eq!(prices.add(&Price { prefix: &[1], price: 1_000_001 }), Err(Refusal::Range));
    /// assert_eq!(prices.add(&Price { prefix: &[1; 17], price: 0 }), Err(Refusal::Range));
    /// ```
    pub fn add(&mut self, price: &Price) -> Result<(), Refusal> {
        // A prefix that no body has room for is out of range, whatever the list is.
        self.add_body(&price.body().ok_or(Refusal::Range)?)
    }

    /// Adds the row of a body ([`Price::body`]), which may be any bytes: `npp_add_price`.
    ///
    /// Refusals, in order: CUT, the body is under 21 bytes; then those of [`add`](PriceList::add).
    ///
    /// ```
    /// use npp::{Price, PriceList, Refusal};
    ///
    /// let body = Price { prefix: &[4, 9], price: 2_000 }.body().unwrap();
    /// let mut prices = PriceList::new();
    /// assert_eq!(prices.add_body(&body[..20]), Err(Refusal::Cut));
    /// assert_eq!(prices.add_body(&body), Ok(()));
    /// ```
    pub fn add_body(&mut self, body: &[u8]) -> Result<(), Refusal> {
        accepted(c::add_price(self.memory.borrow_mut(), body))
    }
}
