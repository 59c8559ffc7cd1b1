//! How often each refusal number and each outcome is reached, and how many
//! lines with a loss are written.

use crate::ledger::cents;
use crate::records::{self, Reply};
use crate::script;
use std::fmt;
use std::io::{self, BufRead, Read};

#[derive(Clone, Debug, Default, PartialEq, Eq)]
pub struct Reached {
    pub accepted: u64,
    /// By refusal number; place 0 is unused.
    pub refusals: [u64; 16],
    pub outcomes: [u64; 5],
    /// Losses of districts, and those of them that are below zero.
    pub losses: u64,
    pub overcharged: u64,
    pub totals: u64,
}

impl Reached {
    /// Counts the results of a file of records.
    pub fn count_records(&mut self, input: &mut impl Read) -> io::Result<()> {
        records::go_through(input, |result| {
            match result {
                Err(refusal) => self.refusals[usize::from(refusal.number())] += 1,
                Ok(Reply::Answered(answer)) => {
                    self.accepted += 1;
                    self.outcomes[answer.outcome as usize] += 1;
                }
                Ok(Reply::Losses(ledger)) => {
                    self.accepted += 1;
                    self.totals += 1;
                    for sums in ledger.districts.values() {
                        self.count_loss(cents(sums.loss()) < 0);
                    }
                }
                Ok(_) => self.accepted += 1,
            }
            Ok(())
        })
    }

    fn count_loss(&mut self, overcharged: bool) {
        self.losses += 1;
        self.overcharged += u64::from(overcharged);
    }

    /// Counts the results of a script of calls.  A replay counts for the
    /// numbers that it writes.
    pub fn count_calls(&mut self, input: impl BufRead) -> io::Result<()> {
        script::run(input, |line| {
            self.count_line(line);
            Ok(())
        })
    }

    fn count_line(&mut self, line: &str) {
        let words: Vec<&str> = line.split(' ').collect();
        match words[0] {
            "memory" | "fill" | "poke" | "show" | "sound" | "stretch" => self.accepted += 1,
            "prices" | "poke_price" | "ledger" => self.accepted += 1,
            "replay" => {
                let numbers = script::from_hex(words[2]).unwrap_or_default();
                let done = words[1].parse().unwrap_or(0);
                numbers
                    .iter()
                    .take(done)
                    .for_each(|&number| self.count_number(number));
            }
            name => {
                let number = words[1].parse().unwrap_or(0);
                self.count_number(number);
                if number == 0 {
                    self.count_answer(name, &words[2..]);
                }
            }
        }
    }

    /// The words behind the 0 of an accepted call.
    fn count_answer(&mut self, name: &str, words: &[&str]) {
        match name {
            "answer" | "take_call" => self.outcomes[words[0].parse().unwrap_or(0)] += 1,
            "district_loss" if words[0] == "1" => self.count_loss(words[2].starts_with('-')),
            "total_loss" => self.totals += 1,
            _ => {}
        }
    }

    fn count_number(&mut self, number: u8) {
        match number {
            0 => self.accepted += 1,
            number => self.refusals[usize::from(number)] += 1,
        }
    }

    /// The refusal numbers that nothing has drawn.
    pub fn refusals_missed(&self) -> Vec<usize> {
        (1..self.refusals.len())
            .filter(|&number| self.refusals[number] == 0)
            .collect()
    }

    pub fn reaches_every_line(&self) -> bool {
        let losses = [self.losses, self.overcharged, self.totals];
        self.outcomes.iter().chain(&losses).all(|&count| count > 0)
    }
}

impl fmt::Display for Reached {
    fn fmt(&self, text: &mut fmt::Formatter) -> fmt::Result {
        writeln!(text, "accepted {}", self.accepted)?;
        for (number, count) in self.refusals.iter().enumerate().skip(1) {
            writeln!(text, "refusal {number} {count}")?;
        }
        for (outcome, count) in self.outcomes.iter().enumerate() {
            writeln!(text, "outcome {outcome} {count}")?;
        }
        writeln!(text, "losses {}", self.losses)?;
        writeln!(text, "overcharged {}", self.overcharged)?;
        writeln!(text, "totals {}", self.totals)
    }
}
