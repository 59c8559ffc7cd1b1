//! Compares two plan files of house records, for a clerk: a line for each filter that the two plans differ
//! in, or `no difference`. The script npp-compare at the repository's root runs it; `rust/build` builds it.
//!
//! Of each file the records that open and provision a plan are carried out, and the other kinds are passed
//! over. A call that is refused changes nothing: it is told on standard error, and the plans are compared
//! all the same. Where a file cannot be read to its end, or no opening is accepted, nothing is compared.
//!
//! Ends with 0 where there is no difference, 1 where there is some, 2 after a fault or a refused call.

use npp::{Content, Difference, Plan, Records, Refusal, SetNumber};
use npp::{CONTENT_BUFFER_BYTES, DIFFERENCE_BYTES, MOST_DIFFERENCES, MOST_RULES, MOST_SETS};
use std::collections::BTreeMap;
use std::env;
use std::ffi::{OsStr, OsString};
use std::fmt::Display;
use std::fs;
use std::io::{self, BufWriter, Write};
use std::process::ExitCode;

const NO_DIFFERENCE: u8 = 0;
const SOME_DIFFERENCE: u8 = 1;
const FAULT: u8 = 2;

/// A line on standard error. Where it cannot be written, there is no other place to tell it.
fn tell(line: impl Display) {
    let _ = io::stderr().write_all(format!("{line}\n").as_bytes());
}

/// A file's name with what a terminal would not print, or would take for a command, escaped.
fn shown(name: &OsStr) -> String {
    let mut text = String::new();
    for chunk in name.as_encoded_bytes().utf8_chunks() {
        for character in chunk.valid().chars() {
            match character {
                '\'' | '"' => text.push(character),
                _ => text.extend(character.escape_debug()),
            }
        }
        let bytes = chunk.invalid().iter();
        text.extend(bytes.map(|byte| format!("\\x{byte:02x}")));
    }
    text
}

/// What a file put in.
struct Loaded {
    plan: Plan,
    /// Whether every call was accepted.
    accepted: bool,
}

/// The plan that a file puts in; none where it cannot be read to its end, or opens none. What is wrong is
/// told.
fn load(name: &OsStr) -> Option<Loaded> {
    let shown = shown(name);
    let file = fs::read(name).map_err(|fault| tell(format!("{shown}: {fault}")));
    let (mut plan, mut accepted) = (Plan::new(MOST_SETS, MOST_RULES), true);
    for record in Records::of(&file.ok()?) {
        let record = record.map_err(|fault| tell(format!("{shown}: {fault}")));
        let record = record.ok()?;
        if let Some(Err(refusal)) = plan.carry_out(&record) {
            let (place, kind) = (record.place, record.kind);
            tell(format!("{shown}: {place}: {kind}: refused, {refusal}"));
            accepted = false;
        }
    }
    if !plan.is_sound() {
        tell(format!(
            "{shown}: {}, no opening is accepted",
            Refusal::Plan
        ));
        return None;
    }
    Some(Loaded { plan, accepted })
}

/// The sets of a plan, each read when it is first asked for: every reading examines the whole plan.
struct Sets<'p> {
    plan: &'p Plan,
    read: BTreeMap<SetNumber, Content>,
}

impl<'p> Sets<'p> {
    fn of(plan: &'p Plan) -> Sets<'p> {
        let read = BTreeMap::new();
        Sets { plan, read }
    }

    /// The content of a set that a rule names.
    fn content(&mut self, set: SetNumber) -> &Content {
        self.read.entry(set).or_insert_with(|| {
            let mut out = [0; CONTENT_BUFFER_BYTES];
            let body = self.plan.set_content(set, &mut out);
            Content::of(body.expect("a rule names the set")).expect("its class is in range")
        })
    }
}

/// What a side that holds the filter alone does with it, or what differs between the two.
fn words(difference: &Difference, left: &mut Sets, right: &mut Sets) -> String {
    let left = difference.left.map(|set| left.content(set));
    let right = difference.right.map(|set| right.content(set));
    match (left, right) {
        (Some(left), Some(right)) => left.changes(right).join("; "),
        (one, other) => one.or(other).map_or(String::new(), Content::to_string),
    }
}

/// Writes the differences to standard output, and gives how many there are.
fn write_differences(left: &Plan, right: &Plan) -> io::Result<usize> {
    let mut out = vec![0; MOST_DIFFERENCES * DIFFERENCE_BYTES];
    let differences = left.compare(right, &mut out);
    let differences = differences.expect("two sound plans, and room for all");
    let (count, mut lines) = (differences.len(), BufWriter::new(io::stdout().lock()));
    let (mut left, mut right) = (Sets::of(left), Sets::of(right));
    for difference in differences {
        let words = words(&difference, &mut left, &mut right);
        writeln!(lines, "{difference}: {words}")?;
    }
    if count == 0 {
        writeln!(lines, "no difference")?;
    }
    lines.flush()?;
    Ok(count)
}

/// Compares the plans of two files, and gives what the program ends with.
fn compare(left: &OsStr, right: &OsStr) -> u8 {
    let (Some(left), Some(right)) = (load(left), load(right)) else {
        tell("nothing is compared");
        return FAULT;
    };
    match write_differences(&left.plan, &right.plan) {
        Err(fault) => {
            tell(format!("standard output: {fault}"));
            FAULT
        }
        Ok(_) if !left.accepted || !right.accepted => FAULT,
        Ok(0) => NO_DIFFERENCE,
        Ok(_) => SOME_DIFFERENCE,
    }
}

fn main() -> ExitCode {
    let names: Vec<OsString> = env::args_os().skip(1).collect();
    ExitCode::from(match &names[..] {
        [left, right] => compare(left, right),
        _ => {
            tell("usage: npp-compare LEFT RIGHT");
            FAULT
        }
    })
}
