//! Writes a file of house records: a plan of 64 sets and RULES rules, then
//! NUMBERS numbers. For RULES `any` each class that the numbers have has one
//! rule, which fits any number. For `same` all numbers have one class, and one
//! rule fits them all: what is chosen is always the same. With ROWS there are a
//! price list of so many rows and call records in place of the numbers, and
//! the losses behind them.
//!
//!     file RULES NUMBERS [ROWS] >FILE

#[allow(dead_code)]
#[path = "../../agreement/src/random.rs"]
mod random;

#[allow(dead_code)]
mod made;

use made::Made;
use npp_reference::bodies::Kind;
use std::io::{self, Write};

const SETS: u16 = 64;

fn main() -> io::Result<()> {
    let rules = argument(1);
    let numbers = number(&argument(2));
    let mut made = match rules.as_str() {
        "any" => Made::any(SETS),
        "same" => Made::same(SETS),
        rules => Made::full(SETS, number(rules) as u16),
    };
    let mut records = made.records();
    match std::env::args().nth(3) {
        None => {
            for _ in 0..numbers {
                records.push(Kind::Number.byte());
                records.extend(made.number());
            }
        }
        Some(rows) => {
            records.extend(made::price_records(&made.prices(number(&rows))));
            for _ in 0..numbers {
                records.push(Kind::Call.byte());
                records.extend(made.call());
            }
            records.push(Kind::Losses.byte());
        }
    }
    // At once: a file that is written in small parts lies in small pages of the
    // system's cache, and is read more slowly.
    io::stdout().lock().write_all(&records)?;
    io::stdout().flush()
}

const USAGE: &str = "usage: file RULES NUMBERS [ROWS]";

fn argument(place: usize) -> String {
    std::env::args().nth(place).expect(USAGE)
}

fn number(word: &str) -> usize {
    word.parse().expect(USAGE)
}
