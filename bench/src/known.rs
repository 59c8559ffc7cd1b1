//! The inner calls of the benchmark's own library, crates/bench. No other
//! program may make them: what is lent is not examined. Every plan, price list,
//! ledger and body here is the maker's: sound, and in range.

use crate::c::{Answered, Totals, LEDGER_NUMBERS, PRICES_BYTES};
use npp_reference::bodies;
use npp_reference::rules::Number;

/// The outcome of a call record, and the whole's totals behind it.
#[repr(C)]
struct Charged {
    outcome: u8,
    whole: Totals,
}

extern "C" {
    fn npp_answer_known(
        plan: *const u8,
        n: usize,
        body: *const u8,
        k: usize,
        out: *mut u8,
        m: usize,
    ) -> Answered;

    fn npp_chosen_known(plan: *const u8, n: usize, class: u8, digits: *const u8, k: usize)
        -> usize;

    fn npp_charge_known(
        plan: *const u8,
        n: usize,
        prices: *const u8,
        p: usize,
        districts: *mut i64,
        whole: Totals,
        body: *const u8,
        k: usize,
        out: *mut u8,
        m: usize,
    ) -> Charged;
}

pub fn answer(plan: &[u8], body: &[u8], out: &mut [u8]) -> Answered {
    // SAFETY: pointers and lengths are those of three slices, and the one that
    // is written overlaps no other.
    unsafe {
        npp_answer_known(
            plan.as_ptr(),
            plan.len(),
            body.as_ptr(),
            body.len(),
            out.as_mut_ptr(),
            out.len(),
        )
    }
}

/// The place of the rule that is chosen.
pub fn chosen(plan: &[u8], number: &Number) -> usize {
    let digits = number.digits;
    // SAFETY: pointers and lengths are those of two slices.
    unsafe {
        npp_chosen_known(
            plan.as_ptr(),
            plan.len(),
            number.class.byte(),
            digits.as_ptr(),
            digits.len(),
        )
    }
}

/// Takes call records, the bodies one behind the other; gives the sum of their
/// outcomes.
pub fn take_calls(
    plan: &[u8],
    prices: &[u8; PRICES_BYTES],
    (districts, whole): (&mut [i64; LEDGER_NUMBERS], &mut Totals),
    records: &[u8],
) -> u64 {
    assert_eq!(records.len() % bodies::CALL, 0);
    let mut out = [0u8; 64];
    let mut outcomes = 0;
    for body in records.chunks_exact(bodies::CALL) {
        // SAFETY: a pointer to an array of the size that the call asks for, and
        // pointers and lengths of slices; the two that are written overlap
        // nothing.
        let charged = unsafe {
            npp_charge_known(
                plan.as_ptr(),
                plan.len(),
                prices.as_ptr(),
                prices.len(),
                districts.as_mut_ptr(),
                *whole,
                body.as_ptr(),
                body.len(),
                out.as_mut_ptr(),
                out.len(),
            )
        };
        *whole = charged.whole;
        outcomes += u64::from(charged.outcome);
    }
    outcomes
}
