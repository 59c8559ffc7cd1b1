//! The `calls` mode: library calls in text, one a line, with hex bytes for
//! memory and buffers (the format is in README.md).

use crate::bodies::Kind;
use crate::calls;
use crate::charging::{self, LossRead};
use crate::comparing;
use crate::ledger::{self, Totals};
use crate::prices;
use crate::rules::*;
use std::fmt::Write;
use std::io::{self, BufRead};
use std::str::FromStr;

/// What the calls work on: plan memory, price list and ledger.
pub struct Machine {
    pub memory: Vec<u8>,
    pub prices: [u8; prices::MEMORY],
    pub districts: [i64; ledger::MEMORY],
    pub whole: Totals,
}

/// No memory, the empty list and the empty ledger.
impl Default for Machine {
    fn default() -> Machine {
        Machine {
            memory: Vec::new(),
            prices: [0; prices::MEMORY],
            districts: [0; ledger::MEMORY],
            whole: Totals::default(),
        }
    }
}

/// The name of each provisioning call.
pub const PROVISIONING: [(&str, Kind); 7] = [
    ("open", Kind::Open),
    ("add_set", Kind::AddSet),
    ("replace_set", Kind::ReplaceSet),
    ("remove_set", Kind::RemoveSet),
    ("add_rule", Kind::AddRule),
    ("change_rule", Kind::ChangeRule),
    ("remove_rule", Kind::RemoveRule),
];

/// The words behind a line's name, taken one by one.
struct Words<'a> {
    rest: std::str::SplitWhitespace<'a>,
}

impl<'a> Words<'a> {
    fn next(&mut self) -> Result<&'a str, String> {
        self.rest
            .next()
            .ok_or_else(|| "a word is missing".to_string())
    }

    fn number<T: FromStr>(&mut self) -> Result<T, String> {
        let word = self.next()?;
        word.parse()
            .map_err(|_| format!("not a number of its range: {word}"))
    }

    fn bytes(&mut self) -> Result<Vec<u8>, String> {
        from_hex(self.next()?)
    }

    /// The bytes of a price list.
    fn list(&mut self) -> Result<[u8; prices::MEMORY], String> {
        let bytes = self.bytes()?;
        let mut list = [0; prices::MEMORY];
        let given = list.get_mut(..bytes.len()).ok_or("a list too long")?;
        given.copy_from_slice(&bytes);
        Ok(list)
    }

    /// `N` numbers of a ledger.
    fn numbers<const N: usize>(&mut self) -> Result<[i64; N], String> {
        let bytes = self.bytes()?;
        let mut numbers = [0; N];
        if bytes.len() % 8 != 0 || bytes.len() > 8 * N {
            return Err(format!("not up to {N} numbers of eight bytes"));
        }
        for (number, eight) in numbers.iter_mut().zip(bytes.chunks(8)) {
            *number = i64::from_be_bytes(eight.try_into().expect("eight bytes"));
        }
        Ok(numbers)
    }

    fn end(mut self) -> Result<(), String> {
        self.rest
            .next()
            .map_or(Ok(()), |word| Err(format!("a word too many: {word}")))
    }
}

impl Machine {
    /// Carries out one line and gives the line to write.  Blank lines and
    /// lines that begin with `#` give none.
    pub fn carry_out(&mut self, line: &str) -> Result<Option<String>, String> {
        let mut rest = line.split_whitespace();
        let name = match rest.next() {
            None => return Ok(None),
            Some(word) if word.starts_with('#') => return Ok(None),
            Some(word) => word,
        };
        let result = self.call(name, Words { rest })?;
        Ok(Some(format!("{name} {result}")))
    }

    fn call(&mut self, name: &str, mut words: Words) -> Result<String, String> {
        if let Some(&(_, kind)) = PROVISIONING.iter().find(|(known, _)| *known == name) {
            let body = words.bytes()?;
            words.end()?;
            return Ok(self.provision(kind, &body));
        }
        match name {
            "memory" => {
                let memory = words.bytes()?;
                words.end()?;
                self.memory = memory;
                Ok(self.memory.len().to_string())
            }
            "fill" => {
                let (length, value): (usize, u8) = (words.number()?, words.number()?);
                words.end()?;
                self.memory = vec![value; length];
                Ok(length.to_string())
            }
            "poke" => poke(&mut self.memory, words),
            "show" => words.end().map(|()| to_hex(&self.memory)),
            "sound" => words
                .end()
                .map(|()| u8::from(calls::sound(&self.memory)).to_string()),
            "replay" => {
                let (list, mut numbers) = (words.bytes()?, words.bytes()?);
                words.end()?;
                let done = calls::replay(&mut self.memory, &list, &mut numbers);
                Ok(format!(
                    "{done} {} {}",
                    to_hex(&numbers),
                    to_hex(&self.memory)
                ))
            }
            _ => self.charging_call(name, words),
        }
    }

    /// The words of C-11.
    fn charging_call(&mut self, name: &str, mut words: Words) -> Result<String, String> {
        match name {
            "prices" => {
                let list = words.list()?;
                words.end()?;
                self.prices = list;
                Ok(list_hex(&self.prices))
            }
            "poke_price" => poke(&mut self.prices, words),
            "ledger" => {
                let ([count, due, billed], districts) = (words.numbers()?, words.numbers()?);
                words.end()?;
                self.whole = Totals { count, due, billed };
                self.districts = districts;
                Ok(self.ledger_hex())
            }
            "add_price" => {
                let body = words.bytes()?;
                words.end()?;
                let number = calls::refusal_number(charging::add_price(&mut self.prices, &body));
                Ok(format!("{number} {}", list_hex(&self.prices)))
            }
            "take_call" => {
                let (body, mut out) = (words.bytes()?, words.bytes()?);
                words.end()?;
                let answered = self.take_call(&body, &mut out);
                let ledger = self.ledger_hex();
                Ok(format!("{} {ledger}", answer_line(&answered, &out)))
            }
            _ => self.read_call(name, words),
        }
    }

    fn take_call(&mut self, body: &[u8], out: &mut [u8]) -> calls::Answered {
        let (districts, whole) = (&mut self.districts, &mut self.whole);
        charging::take_call(&self.memory, &self.prices, districts, whole, body, out)
    }

    /// The whole's numbers, then the districts'.
    fn ledger_hex(&self) -> String {
        let Totals { count, due, billed } = self.whole;
        let whole = numbers_hex(&[count, due, billed]);
        format!("{whole} {}", numbers_hex(&self.districts))
    }

    fn provision(&mut self, kind: Kind, body: &[u8]) -> String {
        let call = calls::provisioning(kind).expect("a provisioning kind");
        let number = calls::refusal_number(call(&mut self.memory, body));
        format!("{number} {}", to_hex(&self.memory))
    }

    /// The calls that only read what is lent.
    fn read_call(&self, name: &str, mut words: Words) -> Result<String, String> {
        let memory = &self.memory;
        match name {
            "answer" => {
                let (body, mut out) = (words.bytes()?, words.bytes()?);
                words.end()?;
                Ok(answer_line(&calls::answer(memory, &body, &mut out), &out))
            }
            "conditioned" => {
                let (class, digits, mut out) = (words.number()?, words.bytes()?, words.bytes()?);
                words.end()?;
                Ok(written_line(
                    calls::conditioned(memory, class, &digits, &mut out),
                    &out,
                ))
            }
            "set_content" => {
                let (number, mut out) = (SetNumber(words.number()?), words.bytes()?);
                words.end()?;
                Ok(written_line(
                    calls::set_content(memory, number, &mut out),
                    &out,
                ))
            }
            "referrers" => {
                let number = SetNumber(words.number()?);
                words.end()?;
                Ok(count_line(calls::referrers(memory, number)))
            }
            "stretch" => {
                let (class, digits, value) = (words.number()?, words.bytes()?, words.number()?);
                words.end()?;
                let (start, count) = calls::stretch(memory, class, &digits, value);
                Ok(format!("{start} {count}"))
            }
            "rule_count" => words.end().map(|()| count_line(calls::rule_count(memory))),
            "rule_at" => {
                let place = RulePlace(words.number()?);
                words.end()?;
                Ok(rule_line(calls::rule_at(memory, place)))
            }
            // The memory is the left plan.
            "compare" => {
                let (right, mut out) = (words.bytes()?, words.bytes()?);
                words.end()?;
                let count = comparing::compare(memory, &right, &mut out);
                Ok(written_line(count, &out))
            }
            _ => self.loss_call(name, words),
        }
    }

    fn loss_call(&self, name: &str, mut words: Words) -> Result<String, String> {
        let (districts, whole) = (&self.districts, self.whole);
        let loss = match name {
            "district_loss" => charging::district_loss(districts, whole, words.number()?),
            "total_loss" => charging::total_loss(districts, whole),
            _ => return Err(format!("no such call: {name}")),
        };
        words.end().map(|()| loss_line(loss))
    }
}

/// Changes one byte of what is lent.
fn poke(lent: &mut [u8], mut words: Words) -> Result<String, String> {
    let (place, value): (usize, u8) = (words.number()?, words.number()?);
    words.end()?;
    let byte = lent.get_mut(place).ok_or("no such place in the memory")?;
    *byte = value;
    Ok(format!("{place} {value}"))
}

fn answer_line(answered: &calls::Answered, out: &[u8]) -> String {
    format!(
        "{} {} {} {} {} {} {} {}",
        answered.refusal,
        answered.outcome,
        answered.class,
        answered.response,
        answered.count,
        to_hex(&answered.actions),
        answered.written,
        to_hex(out)
    )
}

fn written_line(written: Checked<usize>, out: &[u8]) -> String {
    format!("{} {}", count_line(written), to_hex(out))
}

fn count_line(count: Checked<usize>) -> String {
    format!("{} {}", calls::refusal_number(count), count.unwrap_or(0))
}

fn rule_line(rule: Checked<(Filter, SetNumber)>) -> String {
    match rule {
        Ok((filter, set)) => {
            let (class, length) = (filter.class.byte(), filter.length.unwrap_or(0));
            format!("0 {class} {} {length} {}", to_hex(&filter.prefix), set.0)
        }
        Err(refusal) => format!("{} 0 - 0 0", refusal.number()),
    }
}

fn loss_line(loss: LossRead) -> String {
    let LossRead {
        refusal,
        held,
        units,
        cents,
    } = loss;
    format!("{refusal} {held} {units} {cents}")
}

/// A price list up to its last byte that is not 0.
pub fn list_hex(list: &[u8]) -> String {
    let end = list.iter().rposition(|&byte| byte != 0);
    to_hex(&list[..end.map_or(0, |last| last + 1)])
}

/// Eight bytes a number, up to the last number that is not 0.
pub fn numbers_hex(numbers: &[i64]) -> String {
    let end = numbers.iter().rposition(|&number| number != 0);
    let bytes = numbers[..end.map_or(0, |last| last + 1)]
        .iter()
        .flat_map(|number| number.to_be_bytes());
    to_hex(&bytes.collect::<Vec<u8>>())
}

/// Two small hex digits a byte; `-` for no bytes.
pub fn to_hex(bytes: &[u8]) -> String {
    if bytes.is_empty() {
        return "-".to_string();
    }
    let mut text = String::with_capacity(bytes.len() * 2);
    for byte in bytes {
        write!(text, "{byte:02x}").expect("writing to a string");
    }
    text
}

pub fn from_hex(text: &str) -> Result<Vec<u8>, String> {
    if text == "-" {
        return Ok(Vec::new());
    }
    let digits: Option<Vec<u32>> = text.chars().map(|digit| digit.to_digit(16)).collect();
    match digits {
        Some(digits) if digits.len() % 2 == 0 => Ok(digits
            .chunks(2)
            .map(|pair| (pair[0] * 16 + pair[1]) as u8)
            .collect()),
        _ => Err(format!("not hex bytes: {text}")),
    }
}

/// Carries out a whole script.  A line that is no call ends it with an error.
pub fn run(input: impl BufRead, mut each: impl FnMut(&str) -> io::Result<()>) -> io::Result<()> {
    let mut machine = Machine::default();
    for (place, line) in input.lines().enumerate() {
        let result = machine.carry_out(&line?);
        let result =
            result.map_err(|fault| io::Error::other(format!("line {}: {fault}", place + 1)))?;
        if let Some(text) = result {
            each(&text)?;
        }
    }
    Ok(())
}
