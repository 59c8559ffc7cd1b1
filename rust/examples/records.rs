//! Holds the reader of house records against the program npp: for each pair of a file and the lines that the
//! program writes for it, every record that is read must have its lines, of the form that its kind writes.
//!
//!     records FILE LINES [FILE LINES]...
//!
//! It tells the first disagreement and ends with 1, or tells how many records were read. Every kind, and both
//! faults, must come up. The script agreement/records runs it; `rust/build` builds it.

use npp::{Fault, Kind, Place, Records, Refusal};
use std::collections::BTreeMap;
use std::process::ExitCode;
use std::slice::Iter;
use std::{env, fs};

/// What was read of all files.
#[derive(Default)]
struct Seen {
    files: usize,
    kinds: BTreeMap<Kind, usize>,
    faults: BTreeMap<Refusal, usize>,
}

/// The number that a line says behind a word, as in `end 3`.
fn number_behind(word: &str, line: &str) -> Option<i64> {
    let number = line.strip_prefix(word)?.strip_prefix(' ')?;
    number.parse().ok()
}

/// Whether a line has so many words.
fn has_words(line: &str, count: usize) -> bool {
    line.split(' ').count() == count
}

/// Takes the lines of a listing up to `end N`; whether N rules were listed.
fn takes_listing(first: &str, lines: &mut Iter<&str>) -> bool {
    let (mut line, mut rules) = (first, 0);
    loop {
        if let Some(count) = number_behind("end", line) {
            return count == rules;
        }
        rules += 1;
        match lines.next() {
            Some(next) if has_words(line, 4) => line = next,
            _ => return false,
        }
    }
}

/// Takes the lines of the losses up to `total N`; whether the districts rise.
fn takes_losses(first: &str, lines: &mut Iter<&str>) -> bool {
    let (mut line, mut last) = (first, -1);
    while number_behind("total", line).is_none() {
        let district = line.split(' ').next().and_then(|word| word.parse().ok());
        match (district, lines.next()) {
            (Some(district), Some(next)) if has_words(line, 2) && district > last => {
                (line, last) = (next, district);
            }
            _ => return false,
        }
    }
    true
}

/// Takes the lines of a record, and tells whether they are of its kind.
fn takes_lines(kind: Kind, lines: &mut Iter<&str>) -> bool {
    let Some(&first) = lines.next() else {
        return false;
    };
    // A record that was read whole is refused for what is in it, and not for its kind or its length.
    if let Some(number) = number_behind("no", first) {
        return number > 2 && kind != Kind::Losses;
    }
    match kind {
        Kind::Number | Kind::Call => has_words(first, 5),
        Kind::Referrers => number_behind("refs", first).is_some(),
        Kind::List => takes_listing(first, lines),
        Kind::Losses => takes_losses(first, lines),
        _ => first == "ok",
    }
}

/// Takes the last line, of what ended the reading.
fn takes_fault(fault: &Fault, lines: &mut Iter<&str>) -> bool {
    let line = lines.next().and_then(|line| number_behind("no", line));
    line == Some(i64::from(fault.refusal().number()))
}

/// Holds the records of a file against the program's lines. What is wrong is told by where it is.
fn hold(file: &[u8], text: &str, seen: &mut Seen) -> Result<(), String> {
    let lines: Vec<&str> = text.lines().collect();
    let mut lines = lines.iter();
    let (mut joined, mut end) = (Vec::new(), file.len());
    for (at, record) in Records::of(file).enumerate() {
        let (number, byte) = (at + 1, joined.len());
        let expected = Place { number, byte };
        let (place, agrees) = match record {
            Ok(record) => {
                joined.push(record.kind.byte());
                joined.extend_from_slice(record.body);
                *seen.kinds.entry(record.kind).or_default() += 1;
                (record.place, takes_lines(record.kind, &mut lines))
            }
            Err(fault) => {
                end = fault.place().byte;
                *seen.faults.entry(fault.refusal()).or_default() += 1;
                (fault.place(), takes_fault(&fault, &mut lines))
            }
        };
        if place != expected {
            return Err(format!("{place}: it must be {expected}"));
        }
        if !agrees {
            return Err(format!("{place}: the lines are not of this record"));
        }
    }
    if lines.next().is_some() {
        return Err("there are lines behind those of the last record".to_string());
    }
    if joined != file[..end] {
        return Err("the records are not the bytes of the file".to_string());
    }
    seen.files += 1;
    Ok(())
}

/// Holds every pair of files; all kinds and both faults must be among them.
fn hold_all(names: &[String]) -> Result<Seen, String> {
    let mut seen = Seen::default();
    for pair in names.chunks(2) {
        let [file, lines] = pair else {
            return Err("usage: records FILE LINES [FILE LINES]...".to_string());
        };
        let fault = |name: &str, what: &dyn std::fmt::Display| format!("{name}: {what}");
        let bytes = fs::read(file).map_err(|error| fault(file, &error))?;
        let text = fs::read_to_string(lines).map_err(|error| fault(lines, &error))?;
        hold(&bytes, &text, &mut seen).map_err(|error| fault(file, &error))?;
    }
    let unread = Kind::ALL
        .into_iter()
        .find(|kind| !seen.kinds.contains_key(kind));
    match (unread, seen.faults.len()) {
        (Some(kind), _) => Err(format!("no record of kind {} was read", kind.byte())),
        (None, 2) => Ok(seen),
        _ => Err("KIND and CUT did not both come up".to_string()),
    }
}

fn main() -> ExitCode {
    let names: Vec<String> = env::args().skip(1).collect();
    match hold_all(&names) {
        Err(fault) => {
            eprintln!("{fault}");
            ExitCode::FAILURE
        }
        Ok(Seen {
            files,
            kinds,
            faults,
        }) => {
            let records: usize = kinds.values().sum();
            let [kind, cut] = [Refusal::Kind, Refusal::Cut].map(|fault| faults[&fault]);
            println!("{files} files, {records} records of every kind, {kind} ended by KIND, {cut} by CUT");
            ExitCode::SUCCESS
        }
    }
}
