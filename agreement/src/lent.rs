//! What is lent to a call: bytes, the numbers of a ledger, its whole.

use crate::bench::hex;
use crate::c::Totals;
use crate::random::Random;
use std::fmt::Debug;

/// What lies in lent memory.
pub trait Item: Copy + PartialEq + Debug {
    /// Any value, for a guard.
    fn any(random: &mut Random) -> Self;

    /// As the reference's `calls` mode reads them.
    fn shown(items: &[Self]) -> String;
}

impl Item for u8 {
    fn any(random: &mut Random) -> u8 {
        random.byte()
    }

    fn shown(items: &[u8]) -> String {
        hex(items)
    }
}

impl Item for i64 {
    fn any(random: &mut Random) -> i64 {
        random.next() as i64
    }

    fn shown(items: &[i64]) -> String {
        npp_reference::script::numbers_hex(items)
    }
}

impl Item for Totals {
    fn any(random: &mut Random) -> Totals {
        let [count, due, billed] = [(); 3].map(|()| i64::any(random));
        Totals { count, due, billed }
    }

    fn shown(items: &[Totals]) -> String {
        let numbers = items.iter().flat_map(|t| [t.count, t.due, t.billed]);
        i64::shown(&numbers.collect::<Vec<i64>>())
    }
}

/// The slice that is lent stands between guards of any content, so that one
/// written outside it shows, and one read outside it mostly does.
#[derive(Clone, PartialEq, Eq)]
pub struct Lent<T = u8> {
    items: Vec<T>,
    start: usize,
    length: usize,
}

const GUARD: usize = 24;

impl<T: Item> Lent<T> {
    pub fn new(content: &[T], random: &mut Random) -> Lent<T> {
        Lent::front(content, content.len(), random)
    }

    /// Lends the first `length` of `content`; the others stand behind the
    /// slice, where a call must not look.
    pub fn front(content: &[T], length: usize, random: &mut Random) -> Lent<T> {
        assert!(length <= content.len());
        // Bytes at any alignment.
        let start = random.between(1, GUARD);
        let mut items: Vec<T> = (0..start).map(|_| T::any(random)).collect();
        items.extend_from_slice(content);
        items.extend((0..GUARD).map(|_| T::any(random)));
        Lent {
            items,
            start,
            length,
        }
    }

    /// The empty slice whose pointer leads nowhere.
    pub fn nothing() -> Lent<T> {
        Lent {
            items: Vec::new(),
            start: 0,
            length: 0,
        }
    }

    /// Lends more or less of the same.
    pub fn set_length(&mut self, length: usize) {
        assert!(self.start + length <= self.items.len());
        self.length = length;
    }

    pub fn slice(&self) -> &[T] {
        &self.items[self.start..self.start + self.length]
    }

    pub fn slice_mut(&mut self) -> &mut [T] {
        &mut self.items[self.start..self.start + self.length]
    }

    /// What is lent at a length that its call knows.
    pub fn array<const N: usize>(&self) -> &[T; N] {
        self.slice().try_into().expect("of that length")
    }

    pub fn array_mut<const N: usize>(&mut self) -> &mut [T; N] {
        self.slice_mut().try_into().expect("of that length")
    }

    pub fn len(&self) -> usize {
        self.length
    }

    /// The place of the first one that is not the same, counted from the
    /// slice's first one, and what stands there in both.
    fn first_difference(&self, other: &Lent<T>) -> Option<(isize, T, T)> {
        let pairs = self.items.iter().zip(&other.items);
        let place = pairs.clone().position(|(one, two)| one != two)?;
        let from_start = place as isize - self.start as isize;
        Some((from_start, self.items[place], other.items[place]))
    }
}

/// What was lent, as the library's call and the reference's leave it.
pub trait Left {
    fn same(&self) -> bool;

    /// Both in full, and the first difference.
    fn account(&self) -> String;
}

impl<T: Item> Left for (&str, &Lent<T>, &Lent<T>) {
    fn same(&self) -> bool {
        self.1 == self.2
    }

    fn account(&self) -> String {
        let (name, one, two) = self;
        let difference = match one.first_difference(two) {
            Some((place, library, reference)) => {
                let inside = (0..one.len() as isize).contains(&place);
                let outside = if inside {
                    ""
                } else {
                    " (outside what was lent)"
                };
                format!(
                    "the first difference is at place {place} of {}: library {library:?}, reference {reference:?}{outside}",
                    one.len()
                )
            }
            None => "the same".to_string(),
        };
        format!(
            "{name} behind the library's call:\n{}\n{name} behind the reference's:\n{}\n{difference}",
            T::shown(one.slice()),
            T::shown(two.slice())
        )
    }
}
