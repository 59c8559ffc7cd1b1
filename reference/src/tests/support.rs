//! What the tests share: calls on one memory, written as readable records.

use crate::bodies::Kind;
use crate::calls::{self, Answered};
use crate::{records, text};

pub const FILLING: u8 = 0xee;

/// A sound opening of document 01's examples.
pub const OPEN: &str = "open sets 8 rules 8 cc 55 dfltrn - a - b - answers 1 1 1 1";
/// The sets S1 and S2 of document 01, as sets 0 and 1.
pub const S1: &str = "add-set 0 class 255 ca DNX,CCDEF sa CDPNNP fa RN,DN";
pub const S2: &str =
    "add-set 1 class 1 ca IGN1,AC2,PFXA4,SNX,CCDEF sa CDPNNP,CDIAL fa PFXA,RN,AC,SN";

/// The bytes of a readable record, with the kind byte first.
pub fn record(line: &str) -> Vec<u8> {
    text::record(line).expect(line)
}

/// The body of a readable record.
pub fn body(line: &str) -> Vec<u8> {
    record(line)[1..].to_vec()
}

/// The lines that records write.
pub fn lines(bytes: &[u8]) -> String {
    let mut output = Vec::new();
    records::write_lines(&mut &bytes[..], &mut output).expect("no fault in memory");
    String::from_utf8(output).expect("text")
}

/// The lines that readable records write.
pub fn lines_of(text: &[&str]) -> String {
    lines(
        &text
            .iter()
            .flat_map(|line| record(line))
            .collect::<Vec<u8>>(),
    )
}

/// Digits in text to digits in bytes.
pub fn digits(text: &str) -> Vec<u8> {
    text.chars()
        .map(|digit| digit.to_digit(16).expect("a digit") as u8)
        .collect()
}

pub fn in_text(digits: &[u8]) -> String {
    digits
        .iter()
        .map(|&digit| char::from_digit(u32::from(digit), 16).expect("a digit"))
        .collect()
}

/// A plan memory with the library calls on it.
#[derive(Clone)]
pub struct Bench {
    pub memory: Vec<u8>,
}

impl Bench {
    /// A memory on which all these records are accepted.
    pub fn new(accepted: &[&str]) -> Bench {
        let mut bench = Bench {
            memory: vec![FILLING; 2000],
        };
        for line in accepted {
            assert_eq!(bench.provision(line), 0, "{line}");
        }
        bench
    }

    /// The refusal number of a provisioning record, 0 if it is accepted.  A
    /// refused one leaves the memory as it was.
    pub fn provision(&mut self, line: &str) -> u8 {
        self.provision_bytes(&record(line))
    }

    pub fn provision_bytes(&mut self, record: &[u8]) -> u8 {
        let before = self.memory.clone();
        let kind = Kind::from_byte(record[0]).expect("a kind");
        let call = calls::provisioning(kind).expect("a provisioning kind");
        let number = calls::refusal_number(call(&mut self.memory, &record[1..]));
        assert!(
            number == 0 || self.memory == before,
            "a refused call changes nothing"
        );
        number
    }

    /// Every field of the answer, and the digits written.  The bytes behind
    /// them stay.
    pub fn answer(&self, line: &str) -> (Answered, String) {
        self.answer_bytes(&body(line))
    }

    pub fn answer_bytes(&self, body: &[u8]) -> (Answered, String) {
        let mut out = [FILLING; 40];
        let answered = calls::answer(&self.memory, body, &mut out);
        assert!(out[answered.written..].iter().all(|&byte| byte == FILLING));
        (answered, in_text(&out[..answered.written]))
    }

    /// The refusal number and the conditioned digits.
    pub fn conditioned(&self, class: u8, number: &str) -> (u8, String) {
        let mut out = [FILLING; 40];
        let written = calls::conditioned(&self.memory, class, &digits(number), &mut out);
        let count = written.unwrap_or(0);
        assert!(out[count..].iter().all(|&byte| byte == FILLING));
        (calls::refusal_number(written), in_text(&out[..count]))
    }

    pub fn stretch(&self, class: u8, number: &str, value: u8) -> (usize, usize) {
        calls::stretch(&self.memory, class, &digits(number), value)
    }
}

/// An answer that is refused: every other field 0.
pub fn refused(number: u8) -> (Answered, String) {
    (
        Answered {
            refusal: number,
            ..Answered::default()
        },
        String::new(),
    )
}

/// An answer that is accepted.
pub fn answered(
    outcome: u8,
    class: u8,
    response: u8,
    actions: &[u8],
    digits: &str,
) -> (Answered, String) {
    let mut places = [0; 8];
    places[..actions.len()].copy_from_slice(actions);
    let answered = Answered {
        refusal: 0,
        outcome,
        class,
        response,
        count: actions.len() as u8,
        actions: places,
        written: digits.len(),
    };
    (answered, digits.to_string())
}
