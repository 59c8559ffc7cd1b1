//! What is timed must answer alike: the answers to numbers, held against those
//! of the reference.

use crate::c::Answered;
use npp_reference::calls;
use npp_reference::plan::Plan;

pub const ROOM: usize = 35;
const UNTOUCHED: u8 = 77;

/// Ends the program where the two differ.
pub fn demand_same(
    plan: &Plan,
    memory: &[u8],
    bodies: &[Vec<u8>],
    answer: impl Fn(&[u8], &[u8], &mut [u8]) -> Answered,
) {
    for body in bodies {
        let (mut out, mut expected_out) = ([UNTOUCHED; ROOM], [UNTOUCHED; ROOM]);
        let given = answer(memory, body, &mut out);
        let result = plan.answer(body);
        if let Ok(answer) = &result {
            expected_out[..answer.digits.len()].copy_from_slice(&answer.digits);
        }
        let expected = Answered::from(calls::Answered::of(&result));
        assert_eq!(given, expected, "an answer differs");
        assert_eq!(out, expected_out, "the digits of an answer differ");
    }
}
