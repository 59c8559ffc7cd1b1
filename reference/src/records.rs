//! The program over a file of house records (document 01, 'House records',
//! and C-11): records in, lines out, one record at a time.

use crate::bodies::{self, Kind};
use crate::charging;
use crate::ledger::{cents, Ledger};
use crate::plan::Plan;
use crate::prices::Prices;
use crate::process::Answer;
use crate::rules::*;
use std::io::{self, Read, Write};

/// The limits of a program run; more of either is ROOM (docs/DECISIONS.md).
pub const MOST_SETS: u16 = 64;
pub const MOST_RULES: u16 = 512;

/// What an accepted record gives.
pub enum Reply<'a> {
    Provisioned,
    Answered(Answer),
    Referrers(usize),
    Listing(&'a Plan),
    Losses(&'a Ledger),
}

#[derive(Default)]
pub struct Run {
    /// The plan in force, if an opening was accepted.
    pub plan: Option<Plan>,
    /// An opening leaves rows and ledger.
    pub prices: Prices,
    pub ledger: Ledger,
}

impl Run {
    /// Carries out a record whose body is whole.
    pub fn carry_out(&mut self, kind: Kind, body: &[u8]) -> Checked<Reply<'_>> {
        match kind {
            Kind::Open => {
                self.plan = Some(open(body)?);
                Ok(Reply::Provisioned)
            }
            Kind::Price => self.prices.add(body).map(|()| Reply::Provisioned),
            Kind::Losses => Ok(Reply::Losses(&self.ledger)),
            _ => self.with_the_plan(kind, body),
        }
    }

    /// The kinds that draw PLAN before an opening is accepted.
    fn with_the_plan(&mut self, kind: Kind, body: &[u8]) -> Checked<Reply<'_>> {
        let plan = self.plan.as_mut().ok_or(Refusal::Plan)?;
        match kind {
            Kind::Call => {
                let answer = charging::take(plan, &self.prices, &mut self.ledger, body)?;
                return Ok(Reply::Answered(answer));
            }
            Kind::Number => return plan.answer(body).map(Reply::Answered),
            Kind::Referrers => {
                return plan
                    .referrers(bodies::set_number(body))
                    .map(Reply::Referrers)
            }
            Kind::List => return Ok(Reply::Listing(plan)),
            Kind::AddSet => plan.add_set(body)?,
            Kind::ReplaceSet => plan.replace_set(body)?,
            Kind::RemoveSet => plan.remove_set(body)?,
            Kind::AddRule => plan.add_rule(body)?,
            Kind::ChangeRule => plan.change_rule(body)?,
            Kind::RemoveRule => plan.remove_rule(body)?,
            Kind::Open | Kind::Price | Kind::Losses => unreachable!("these need no plan"),
        }
        Ok(Reply::Provisioned)
    }
}

/// A refused opening leaves the old plan in force.
fn open(body: &[u8]) -> Checked<Plan> {
    let plan = Plan::open(body)?;
    let within = plan.rooms.sets <= MOST_SETS && plan.rooms.rules <= MOST_RULES;
    demand(within, Refusal::Room)?;
    Ok(plan)
}

/// Goes through the records of `input` and hands each result to `each`.
/// After KIND or CUT reading ends.
pub fn go_through(
    input: &mut impl Read,
    mut each: impl FnMut(Checked<Reply>) -> io::Result<()>,
) -> io::Result<()> {
    let mut run = Run::default();
    let mut space = [0; bodies::LONGEST_BODY];
    loop {
        let mut byte = [0];
        if read_up_to(input, &mut byte)? == 0 {
            return Ok(());
        }
        let Some(kind) = Kind::from_byte(byte[0]) else {
            return each(Err(Refusal::Kind));
        };
        let body = &mut space[..kind.body_length()];
        if read_up_to(input, body)? < body.len() {
            return each(Err(Refusal::Cut));
        }
        each(run.carry_out(kind, body))?;
    }
}

/// Reads until `space` is full or the input ends; gives the bytes read.
fn read_up_to(input: &mut impl Read, space: &mut [u8]) -> io::Result<usize> {
    let mut filled = 0;
    while filled < space.len() {
        match input.read(&mut space[filled..]) {
            Ok(0) => break,
            Ok(count) => filled += count,
            Err(error) if error.kind() == io::ErrorKind::Interrupted => {}
            Err(error) => return Err(error),
        }
    }
    Ok(filled)
}

/// Writes the lines of a file of records.
pub fn write_lines(input: &mut impl Read, output: &mut impl Write) -> io::Result<()> {
    let mut lines = Vec::new();
    go_through(input, |result| {
        lines.clear();
        put_result(&mut lines, result);
        output.write_all(&lines)
    })
}

fn put_result(lines: &mut Vec<u8>, result: Checked<Reply>) {
    match result {
        Ok(Reply::Provisioned) => lines.extend(b"ok\n"),
        Ok(Reply::Answered(answer)) => put_answer(lines, &answer),
        Ok(Reply::Referrers(count)) => put_words(lines, b"refs ", count),
        Ok(Reply::Listing(plan)) => put_listing(lines, plan),
        Ok(Reply::Losses(ledger)) => put_losses(lines, ledger),
        Err(refusal) => put_words(lines, b"no ", usize::from(refusal.number())),
    }
}

fn put_words(lines: &mut Vec<u8>, word: &[u8], number: usize) {
    lines.extend(word);
    put_decimal(lines, number);
    lines.push(b'\n');
}

/// Outcome, class, response, action count, digits.
fn put_answer(lines: &mut Vec<u8>, answer: &Answer) {
    let response = answer.response.map_or(0, |response| response as u8);
    for small in [answer.outcome as u8, answer.class.byte(), response] {
        put_decimal(lines, usize::from(small));
        lines.push(b' ');
    }
    put_decimal(lines, answer.carried_out.len());
    lines.push(b' ');
    put_digits(lines, &answer.digits, b'-');
    lines.push(b'\n');
}

fn put_listing(lines: &mut Vec<u8>, plan: &Plan) {
    for (filter, set) in &plan.rules {
        put_decimal(lines, usize::from(filter.class.byte()));
        lines.push(b' ');
        put_digits(lines, &filter.prefix, b'*');
        lines.push(b' ');
        match filter.length {
            Some(length) => put_decimal(lines, usize::from(length)),
            None => lines.push(b'*'),
        }
        put_words(lines, b" ", usize::from(set.0));
    }
    put_words(lines, b"end ", plan.rule_count());
}

/// A line for each district with records, rising, then the total.  Each is
/// rounded from its own sum.
fn put_losses(lines: &mut Vec<u8>, ledger: &Ledger) {
    for (district, sums) in &ledger.districts {
        put_decimal(lines, usize::from(district.number()));
        lines.push(b' ');
        put_signed_line(lines, cents(sums.loss()));
    }
    lines.extend(b"total ");
    put_signed_line(lines, cents(ledger.whole.loss()));
}

fn put_signed_line(lines: &mut Vec<u8>, number: i128) {
    lines.extend(number.to_string().bytes());
    lines.push(b'\n');
}

fn put_digits(lines: &mut Vec<u8>, digits: &[u8], none: u8) {
    if digits.is_empty() {
        lines.push(none);
    }
    lines.extend(
        digits
            .iter()
            .map(|&digit| b"0123456789abcdef"[usize::from(digit)]),
    );
}

fn put_decimal(lines: &mut Vec<u8>, number: usize) {
    if number >= 10 {
        put_decimal(lines, number / 10);
    }
    lines.push(b'0' + (number % 10) as u8);
}
