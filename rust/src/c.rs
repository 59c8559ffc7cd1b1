//! The calls as the library exports them (include/npp.h), over slices. This is the only file with
//! unsafe code. A slice passes as a pointer and then a length; structs come back by value.
//!
//! Every call here is safe for any slices: the library looks at the lengths itself, a Rust slice is
//! memory that may be lent, and a `&mut` overlaps nothing else. A price list and a ledger are arrays by
//! type: no length goes with them.
//!
//! agreement/ and bench/ have this file as a module of theirs. Which library is linked is said where a
//! program is built, and a program that leaves out some of the calls links without their functions.

/// The bytes of a price list.
pub const PRICES_BYTES: usize = 6146;
/// The numbers of a ledger's districts: the count, due and billed of each of 512.
pub const LEDGER_NUMBERS: usize = 1536;

/// What `npp_answer` and `npp_take_call` give.
#[repr(C)]
#[derive(Clone, Copy, Debug, PartialEq, Eq)]
pub struct Answered {
    pub refusal: u8,
    pub outcome: u8,
    pub class: u8,
    pub response: u8,
    pub count: u8,
    pub actions: [u8; 8],
    pub digits: usize,
}

/// What `npp_conditioned` and `npp_set_content` give.
#[repr(C)]
#[derive(Clone, Copy, Debug, PartialEq, Eq)]
pub struct Written {
    pub refusal: u8,
    pub bytes: usize,
}

/// What `npp_referrers` and `npp_rule_count` give.
#[repr(C)]
#[derive(Clone, Copy, Debug, PartialEq, Eq)]
pub struct Counted {
    pub refusal: u8,
    pub rules: usize,
}

/// What `npp_stretch` gives.
#[repr(C)]
#[derive(Clone, Copy, Debug, PartialEq, Eq)]
pub struct Span {
    pub start: usize,
    pub count: usize,
}

/// What `npp_rule_at` gives.
#[repr(C)]
#[derive(Clone, Copy, Debug, Default, PartialEq, Eq)]
pub struct Listed {
    pub refusal: u8,
    pub class: u8,
    pub digits: u8,
    pub length: u8,
    pub prefix: [u8; 16],
    pub set: u16,
}

/// The whole of a ledger, over all its districts.
#[repr(C)]
#[derive(Clone, Copy, Debug, Default, PartialEq, Eq)]
pub struct Totals {
    /// How many records were taken.
    pub count: i64,
    /// What they are due, in units.
    pub due: i64,
    /// What was billed for them, in units.
    pub billed: i64,
}

/// What `npp_district_loss` and `npp_total_loss` give.
#[repr(C)]
#[derive(Clone, Copy, Debug, Default, PartialEq, Eq)]
pub struct Loss {
    pub refusal: u8,
    pub held: u8,
    pub units: i64,
    pub cents: i64,
}

/// What `npp_compare` gives.
#[repr(C)]
#[derive(Clone, Copy, Debug, PartialEq, Eq)]
pub struct Compared {
    pub refusal: u8,
    pub differences: usize,
}

pub mod exported {
    use super::{Answered, Compared, Counted, Listed, Loss, Span, Totals, Written};

    extern "C" {
        // A C bool, read as the byte that it is: 0 or 1 by the promise, and any other can be told.
        pub fn npp_sound(memory: *const u8, n: usize) -> u8;
        pub fn npp_open(plan: *mut u8, n: usize, body: *const u8, k: usize) -> u8;
        pub fn npp_add_set(plan: *mut u8, n: usize, body: *const u8, k: usize) -> u8;
        pub fn npp_replace_set(plan: *mut u8, n: usize, body: *const u8, k: usize) -> u8;
        pub fn npp_remove_set(plan: *mut u8, n: usize, body: *const u8, k: usize) -> u8;
        pub fn npp_add_rule(plan: *mut u8, n: usize, body: *const u8, k: usize) -> u8;
        pub fn npp_change_rule(plan: *mut u8, n: usize, body: *const u8, k: usize) -> u8;
        pub fn npp_remove_rule(plan: *mut u8, n: usize, body: *const u8, k: usize) -> u8;
        pub fn npp_replay(
            plan: *mut u8,
            n: usize,
            calls: *const u8,
            k: usize,
            numbers: *mut u8,
            m: usize,
        ) -> usize;
        pub fn npp_answer(
            plan: *const u8,
            n: usize,
            body: *const u8,
            k: usize,
            out: *mut u8,
            m: usize,
        ) -> Answered;
        pub fn npp_conditioned(
            plan: *const u8,
            n: usize,
            class: u8,
            digits: *const u8,
            k: usize,
            out: *mut u8,
            m: usize,
        ) -> Written;
        pub fn npp_stretch(
            plan: *const u8,
            n: usize,
            class: u8,
            digits: *const u8,
            k: usize,
            value: u8,
        ) -> Span;
        pub fn npp_set_content(
            plan: *const u8,
            n: usize,
            set: u16,
            out: *mut u8,
            m: usize,
        ) -> Written;
        pub fn npp_referrers(plan: *const u8, n: usize, set: u16) -> Counted;
        pub fn npp_rule_count(plan: *const u8, n: usize) -> Counted;
        pub fn npp_rule_at(plan: *const u8, n: usize, place: u16) -> Listed;
        pub fn npp_add_price(prices: *mut u8, body: *const u8, k: usize) -> u8;
        pub fn npp_take_call(
            plan: *const u8,
            n: usize,
            prices: *const u8,
            districts: *mut i64,
            whole: *mut Totals,
            body: *const u8,
            k: usize,
            out: *mut u8,
            m: usize,
        ) -> Answered;
        pub fn npp_district_loss(districts: *const i64, whole: Totals, district: u16) -> Loss;
        pub fn npp_total_loss(districts: *const i64, whole: Totals) -> Loss;
        pub fn npp_compare(
            left: *const u8,
            n: usize,
            right: *const u8,
            k: usize,
            out: *mut u8,
            m: usize,
        ) -> Compared;
    }
}

pub fn sound(memory: &[u8]) -> u8 {
    // SAFETY: the pointer and the length are those of a slice.
    unsafe { exported::npp_sound(memory.as_ptr(), memory.len()) }
}

macro_rules! provisioning {
    ($($call:ident as $name:ident),* $(,)?) => {
        $(pub fn $name(plan: &mut [u8], body: &[u8]) -> u8 {
            // SAFETY: pointers and lengths are those of two slices, and the one that is written does
            // not overlap the other.
            unsafe { exported::$call(plan.as_mut_ptr(), plan.len(), body.as_ptr(), body.len()) }
        })*
    };
}

provisioning!(
    npp_open as open,
    npp_add_set as add_set,
    npp_replace_set as replace_set,
    npp_remove_set as remove_set,
    npp_add_rule as add_rule,
    npp_change_rule as change_rule,
    npp_remove_rule as remove_rule,
);

pub fn replay(plan: &mut [u8], calls: &[u8], numbers: &mut [u8]) -> usize {
    // SAFETY: pointers and lengths are those of three slices, and the two that are written overlap
    // nothing.
    unsafe {
        exported::npp_replay(
            plan.as_mut_ptr(),
            plan.len(),
            calls.as_ptr(),
            calls.len(),
            numbers.as_mut_ptr(),
            numbers.len(),
        )
    }
}

pub fn answer(plan: &[u8], body: &[u8], out: &mut [u8]) -> Answered {
    // SAFETY: pointers and lengths are those of three slices, and the one that is written overlaps
    // nothing.
    unsafe {
        exported::npp_answer(
            plan.as_ptr(),
            plan.len(),
            body.as_ptr(),
            body.len(),
            out.as_mut_ptr(),
            out.len(),
        )
    }
}

pub fn conditioned(plan: &[u8], class: u8, digits: &[u8], out: &mut [u8]) -> Written {
    // SAFETY: as in `answer`.
    unsafe {
        exported::npp_conditioned(
            plan.as_ptr(),
            plan.len(),
            class,
            digits.as_ptr(),
            digits.len(),
            out.as_mut_ptr(),
            out.len(),
        )
    }
}

pub fn stretch(plan: &[u8], class: u8, digits: &[u8], value: u8) -> Span {
    // SAFETY: pointers and lengths are those of two slices, and nothing is written.
    unsafe {
        exported::npp_stretch(
            plan.as_ptr(),
            plan.len(),
            class,
            digits.as_ptr(),
            digits.len(),
            value,
        )
    }
}

pub fn set_content(plan: &[u8], set: u16, out: &mut [u8]) -> Written {
    // SAFETY: pointers and lengths are those of two slices, and the one that is written does not
    // overlap the other.
    unsafe {
        exported::npp_set_content(plan.as_ptr(), plan.len(), set, out.as_mut_ptr(), out.len())
    }
}

pub fn referrers(plan: &[u8], set: u16) -> Counted {
    // SAFETY: the pointer and the length are those of a slice.
    unsafe { exported::npp_referrers(plan.as_ptr(), plan.len(), set) }
}

pub fn rule_count(plan: &[u8]) -> Counted {
    // SAFETY: the pointer and the length are those of a slice.
    unsafe { exported::npp_rule_count(plan.as_ptr(), plan.len()) }
}

pub fn rule_at(plan: &[u8], place: u16) -> Listed {
    // SAFETY: the pointer and the length are those of a slice.
    unsafe { exported::npp_rule_at(plan.as_ptr(), plan.len(), place) }
}

pub fn add_price(prices: &mut [u8; PRICES_BYTES], body: &[u8]) -> u8 {
    // SAFETY: a pointer to an array of the size that the call asks for, and pointer and length of a
    // slice that it does not overlap.
    unsafe { exported::npp_add_price(prices.as_mut_ptr(), body.as_ptr(), body.len()) }
}

pub fn take_call(
    plan: &[u8],
    prices: &[u8; PRICES_BYTES],
    districts: &mut [i64; LEDGER_NUMBERS],
    whole: &mut Totals,
    body: &[u8],
    out: &mut [u8],
) -> Answered {
    // SAFETY: pointers to arrays of the sizes that the call asks for and to one struct, pointers and
    // lengths of three slices; the three that are written overlap nothing.
    unsafe {
        exported::npp_take_call(
            plan.as_ptr(),
            plan.len(),
            prices.as_ptr(),
            districts.as_mut_ptr(),
            whole,
            body.as_ptr(),
            body.len(),
            out.as_mut_ptr(),
            out.len(),
        )
    }
}

pub fn district_loss(districts: &[i64; LEDGER_NUMBERS], whole: Totals, district: u16) -> Loss {
    // SAFETY: a pointer to an array of the size that the call asks for.
    unsafe { exported::npp_district_loss(districts.as_ptr(), whole, district) }
}

pub fn total_loss(districts: &[i64; LEDGER_NUMBERS], whole: Totals) -> Loss {
    // SAFETY: a pointer to an array of the size that the call asks for.
    unsafe { exported::npp_total_loss(districts.as_ptr(), whole) }
}

pub fn compare(left: &[u8], right: &[u8], out: &mut [u8]) -> Compared {
    // SAFETY: pointers and lengths are those of three slices, and the one that is written overlaps
    // nothing; the two that are read may be one.
    unsafe {
        exported::npp_compare(
            left.as_ptr(),
            left.len(),
            right.as_ptr(),
            right.len(),
            out.as_mut_ptr(),
            out.len(),
        )
    }
}
