//! House records in readable text, one a line (the format is in README.md).
//! Fields may be written out of range, so bytes are put down as they stand
//! and not by way of the checked types.

use crate::bodies::Kind;
use crate::script::from_hex;
use std::str::SplitWhitespace;

const CLASSES: [&str; 6] = ["INTL", "NATL", "UNKNOWN", "HOUSE3", "HOUSE4", "HOUSE5"];
const LOOKUPS: [&str; 4] = ["NONE", "NOENTITY", "RN", "SP"];
const SERVICES: [&str; 5] = ["INPRTG", "CDPNNP", "ASDLKUP", "GRNLKUP", "CDIAL"];
const CONDITIONING: [&str; 15] = [
    "IGN", "CC", "AC", "SN", "DN", "ZN", "PFXA", "PFXB", "PFXC", "PFXD", "SNX", "DNX", "ZNX",
    "FPFX", "CCDEF",
];
const FORMATTING: [&str; 16] = [
    "CC", "AC", "SN", "DN", "ZN", "FPFX", "PFXA", "PFXB", "PFXC", "PFXD", "RN", "SP", "ASD", "GRN",
    "DLMA", "DLMB",
];

type Written<T> = Result<T, String>;

/// The bytes of one line's record; none for blank lines and comments.
pub fn record(line: &str) -> Written<Vec<u8>> {
    let mut words = Words {
        rest: line.split_whitespace(),
    };
    let bytes = match words.rest.next() {
        None => return Ok(Vec::new()),
        Some(word) if word.starts_with('#') => return Ok(Vec::new()),
        Some("open") => opening(&mut words),
        Some("add-set") => set(Kind::AddSet, &mut words),
        Some("replace-set") => set(Kind::ReplaceSet, &mut words),
        Some("remove-set") => set_number(Kind::RemoveSet, &mut words),
        Some("add-rule") => rule(Kind::AddRule, &mut words),
        Some("change-rule") => rule(Kind::ChangeRule, &mut words),
        Some("remove-rule") => remove_rule(&mut words),
        Some("number") => number(&mut words),
        Some("call") => call(&mut words),
        Some("price") => price(&mut words),
        Some("losses") => Ok(vec![Kind::Losses.byte()]),
        Some("refs") => set_number(Kind::Referrers, &mut words),
        Some("list") => Ok(vec![Kind::List.byte()]),
        Some("bytes") => from_hex(words.next()?),
        Some(word) => Err(format!("no such record: {word}")),
    }?;
    words
        .rest
        .next()
        .map_or(Ok(bytes), |word| Err(format!("a word too many: {word}")))
}

/// The bytes of a whole text.
pub fn records(text: &str) -> Written<Vec<u8>> {
    let mut bytes = Vec::new();
    for (place, line) in text.lines().enumerate() {
        bytes.extend(record(line).map_err(|fault| format!("line {}: {fault}", place + 1))?);
    }
    Ok(bytes)
}

/// The lines that a text says its records must write: those behind `#= `.
pub fn expected(text: &str) -> String {
    let lines = text.lines().filter_map(|line| line.strip_prefix("#= "));
    lines.map(|line| format!("{line}\n")).collect()
}

struct Words<'a> {
    rest: SplitWhitespace<'a>,
}

impl<'a> Words<'a> {
    fn next(&mut self) -> Written<&'a str> {
        self.rest
            .next()
            .ok_or_else(|| "a word is missing".to_string())
    }

    /// The word that names the field that follows.
    fn label(&mut self, label: &str) -> Written<()> {
        match self.next()? {
            word if word == label => Ok(()),
            word => Err(format!("{label} is expected, not {word}")),
        }
    }

    fn byte(&mut self) -> Written<u8> {
        let word = self.next()?;
        word.parse().map_err(|_| format!("not a byte: {word}"))
    }

    /// A last field that may be left out, label and all: then it is 0.
    fn optional_byte(&mut self, label: &str) -> Written<u8> {
        if self.rest.clone().next().is_none() {
            return Ok(0);
        }
        self.label(label)?;
        self.byte()
    }

    fn two_bytes(&mut self) -> Written<[u8; 2]> {
        let word = self.next()?;
        let number: u16 = word.parse().map_err(|_| format!("not two bytes: {word}"))?;
        Ok(number.to_be_bytes())
    }

    fn four_bytes(&mut self) -> Written<[u8; 4]> {
        let word = self.next()?;
        let number: u32 = word
            .parse()
            .map_err(|_| format!("not four bytes: {word}"))?;
        Ok(number.to_be_bytes())
    }

    /// A name with its place in `names` as its number, or the number itself.
    fn name(&mut self, names: &[&str]) -> Written<u8> {
        let word = self.next()?;
        let named = names
            .iter()
            .position(|name| *name == word)
            .map(|place| place as u8);
        named
            .or(word.parse().ok())
            .ok_or_else(|| format!("no such name: {word}"))
    }

    /// A length byte and the full width; `none` stands for no digits.
    fn digits(&mut self, width: usize, none: &str) -> Written<Vec<u8>> {
        let word = self.next()?;
        let text = if word == none { "" } else { word };
        let digits: Option<Vec<u8>> = text
            .chars()
            .map(|digit| digit.to_digit(16).map(|digit| digit as u8))
            .collect();
        match digits {
            Some(digits) if digits.len() <= width => {
                let mut bytes = vec![digits.len() as u8];
                bytes.extend(&digits);
                bytes.resize(1 + width, 0);
                Ok(bytes)
            }
            _ => Err(format!("not 0 to {width} digits: {word}")),
        }
    }

    /// A list with commas, filled up with 0; `-` stands for the empty list.
    fn list(&mut self, width: usize, entry: impl Fn(&str) -> Written<Vec<u8>>) -> Written<Vec<u8>> {
        let word = self.next()?;
        let mut bytes = Vec::new();
        for name in word.split(',').filter(|name| *name != "-") {
            bytes.extend(entry(name)?);
        }
        if bytes.len() > width {
            return Err(format!("too many actions: {word}"));
        }
        bytes.resize(width, 0);
        Ok(bytes)
    }
}

fn opening(words: &mut Words) -> Written<Vec<u8>> {
    let mut bytes = vec![Kind::Open.byte()];
    words.label("sets")?;
    bytes.extend(words.two_bytes()?);
    words.label("rules")?;
    bytes.extend(words.two_bytes()?);
    for (label, width) in [("cc", 3), ("dfltrn", 15), ("a", 5), ("b", 5)] {
        words.label(label)?;
        bytes.extend(words.digits(width, "-")?);
    }
    words.label("answers")?;
    for _ in 0..4 {
        bytes.push(words.byte()?);
    }
    bytes.push(words.optional_byte("accepting")?);
    Ok(bytes)
}

fn set(kind: Kind, words: &mut Words) -> Written<Vec<u8>> {
    let mut bytes = vec![kind.byte()];
    bytes.extend(words.two_bytes()?);
    words.label("class")?;
    bytes.push(words.name(&CLASSES)?);
    words.label("ca")?;
    bytes.extend(words.list(24, conditioning)?);
    words.label("sa")?;
    bytes.extend(words.list(8, |name| code(name, &SERVICES))?);
    words.label("fa")?;
    bytes.extend(words.list(12, |name| code(name, &FORMATTING))?);
    Ok(bytes)
}

/// A name with its count, as `AC2`, or `code:count` as it stands.
fn conditioning(name: &str) -> Written<Vec<u8>> {
    let no_such = || format!("no such conditioning action: {name}");
    if let Some((code, count)) = name.split_once(':') {
        let pair = code.parse().ok().zip(count.parse().ok());
        return pair
            .map(|(code, count)| vec![code, count])
            .ok_or_else(no_such);
    }
    let letters = name.trim_end_matches(|digit: char| digit.is_ascii_digit());
    let count = match &name[letters.len()..] {
        "" => 0,
        digits => digits.parse().map_err(|_| no_such())?,
    };
    let place = CONDITIONING
        .iter()
        .position(|known| *known == letters)
        .ok_or_else(no_such)?;
    Ok(vec![place as u8 + 1, count])
}

fn code(name: &str, names: &[&str]) -> Written<Vec<u8>> {
    let named = names
        .iter()
        .position(|known| *known == name)
        .map(|place| place as u8 + 1);
    let code = named
        .or(name.parse().ok())
        .ok_or_else(|| format!("no such action: {name}"))?;
    Ok(vec![code])
}

fn set_number(kind: Kind, words: &mut Words) -> Written<Vec<u8>> {
    let mut bytes = vec![kind.byte()];
    bytes.extend(words.two_bytes()?);
    Ok(bytes)
}

fn filter(words: &mut Words) -> Written<Vec<u8>> {
    let mut bytes = vec![words.name(&CLASSES)?];
    bytes.extend(words.digits(16, "*")?);
    bytes.push(match words.next()? {
        "*" => 0,
        word => word.parse().map_err(|_| format!("not a length: {word}"))?,
    });
    Ok(bytes)
}

fn rule(kind: Kind, words: &mut Words) -> Written<Vec<u8>> {
    let mut bytes = vec![kind.byte()];
    bytes.extend(filter(words)?);
    bytes.extend(words.two_bytes()?);
    Ok(bytes)
}

fn remove_rule(words: &mut Words) -> Written<Vec<u8>> {
    let mut bytes = vec![Kind::RemoveRule.byte()];
    bytes.extend(filter(words)?);
    Ok(bytes)
}

fn number(words: &mut Words) -> Written<Vec<u8>> {
    let mut bytes = vec![Kind::Number.byte()];
    bytes.extend(number_body(words)?);
    Ok(bytes)
}

fn call(words: &mut Words) -> Written<Vec<u8>> {
    let mut bytes = vec![Kind::Call.byte()];
    bytes.extend(words.four_bytes()?);
    bytes.extend(words.two_bytes()?);
    bytes.extend(words.four_bytes()?);
    bytes.extend(words.four_bytes()?);
    bytes.extend(number_body(words)?);
    Ok(bytes)
}

fn price(words: &mut Words) -> Written<Vec<u8>> {
    let mut bytes = vec![Kind::Price.byte()];
    bytes.extend(words.digits(16, "*")?);
    bytes.extend(words.four_bytes()?);
    Ok(bytes)
}

fn number_body(words: &mut Words) -> Written<Vec<u8>> {
    let mut bytes = vec![words.name(&CLASSES)?];
    bytes.extend(words.digits(32, "-")?);
    bytes.push(words.name(&LOOKUPS)?);
    bytes.extend(words.digits(15, "-")?);
    words.label("asd")?;
    bytes.extend(words.digits(10, "-")?);
    words.label("grn")?;
    bytes.extend(words.digits(10, "-")?);
    Ok(bytes)
}
