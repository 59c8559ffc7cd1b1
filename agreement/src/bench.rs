//! Where two results of one call are held against each other: the count of
//! what was compared, and the account of a difference.

use crate::lent::{Left, Lent};
use std::fmt::Debug;
use std::process::exit;

/// One more than the highest refusal number.
const NUMBERS: usize = 16;

/// How often a call was compared, by the refusal number that it drew.
struct Row {
    stage: &'static str,
    call: &'static str,
    numbers: [u64; NUMBERS],
}

/// How often something else came up.
struct Note {
    stage: &'static str,
    what: &'static str,
    times: u64,
}

pub struct Bench {
    pub seed: u64,
    size: f64,
    /// Whether each call is written out before it is made.
    trace: bool,
    stage: &'static str,
    /// What the calls are made on, for the account.
    pub part: String,
    rows: Vec<Row>,
    notes: Vec<Note>,
}

impl Bench {
    pub fn new(seed: u64, size: f64, trace: bool) -> Bench {
        Bench {
            seed,
            size,
            trace,
            stage: "",
            part: String::new(),
            rows: Vec::new(),
            notes: Vec::new(),
        }
    }

    /// Begins a stage with its calls and what else it counts, in the order in
    /// which the table has them.
    pub fn enter(&mut self, stage: &'static str, calls: &[&'static str], notes: &[&'static str]) {
        self.stage = stage;
        self.rows.extend(calls.iter().map(|&call| Row {
            stage,
            call,
            numbers: [0; NUMBERS],
        }));
        self.notes.extend(notes.iter().map(|&what| Note {
            stage,
            what,
            times: 0,
        }));
    }

    /// So many at size 1, never under `least`.
    pub fn scaled(&self, count: usize, least: usize) -> usize {
        ((count as f64 * self.size) as usize).max(least)
    }

    // -- counting -----------------------------------------------------------

    pub fn count(&mut self, call: &'static str, number: u8) {
        let stage = self.stage;
        let mut rows = self.rows.iter_mut();
        let row = rows.find(|row| row.stage == stage && row.call == call);
        row.expect("a call of the stage").numbers[usize::from(number)] += 1;
    }

    pub fn note(&mut self, what: &'static str, times: u64) {
        let stage = self.stage;
        let mut notes = self.notes.iter_mut();
        let note = notes.find(|note| note.stage == stage && note.what == what);
        note.expect("what the stage counts").times += times;
    }

    fn noted(&self, what: &str) -> u64 {
        let notes = self.notes.iter().filter(|note| note.stage == self.stage);
        notes
            .filter(|note| note.what == what)
            .map(|note| note.times)
            .sum()
    }

    fn least(&self, least: u64) -> u64 {
        (least as f64 * self.size.min(1.0)).ceil() as u64
    }

    /// Ends the run if the present stage met one of these refusal numbers too
    /// seldom: then too little was compared.
    pub fn demand_numbers(&self, numbers: &[u8], least: u64) {
        let least = self.least(least);
        for &number in numbers {
            let rows = self.rows.iter().filter(|row| row.stage == self.stage);
            let times: u64 = rows.map(|row| row.numbers[usize::from(number)]).sum();
            self.demand(times, least, &format!("refusal number {number}"));
        }
    }

    pub fn demand_notes(&self, notes: &[&str], least: u64) {
        let least = self.least(least);
        for what in notes {
            self.demand(self.noted(what), least, what);
        }
    }

    fn demand(&self, times: u64, least: u64, what: &str) {
        if times < least {
            println!("{}", self.table());
            eprintln!(
                "agreement: too little compared in stage {}: {what} came up {times} times, at least {least} are asked",
                self.stage
            );
            exit(1);
        }
    }

    pub fn compared(&self) -> u64 {
        self.rows.iter().flat_map(|row| row.numbers).sum()
    }

    /// A line for each call, a column for each refusal number that came up.
    pub fn table(&self) -> String {
        let came_up = |&number: &usize| self.rows.iter().any(|row| row.numbers[number] > 0);
        let columns: Vec<usize> = (0..NUMBERS).filter(came_up).collect();
        let mut text = format!("{:<10}{:<13}{:>9}", "stage", "call", "compared");
        for number in &columns {
            text.push_str(&format!("{number:>8}"));
        }
        for row in &self.rows {
            let total: u64 = row.numbers.iter().sum();
            text.push_str(&format!("\n{:<10}{:<13}{total:>9}", row.stage, row.call));
            for &number in &columns {
                text.push_str(&match row.numbers[number] {
                    0 => format!("{:>8}", "."),
                    times => format!("{times:>8}"),
                });
            }
        }
        text.push('\n');
        for note in &self.notes {
            text.push_str(&format!(
                "\n{:<10}{:<40}{:>9}",
                note.stage, note.what, note.times
            ));
        }
        text
    }

    // -- comparing ----------------------------------------------------------

    /// Named before each call: where the program dies within a call, the last
    /// one that a traced run names is the one.
    pub fn about_to(&self, lines: impl Fn() -> String) {
        if self.trace {
            eprintln!("{}", lines());
        }
    }

    /// Two results of one call, and for everything that was lent its bytes
    /// behind the library's call and behind the reference's.  The first
    /// difference ends the run.
    pub fn agree<R: PartialEq + Debug>(
        &mut self,
        call: &str,
        lines: impl Fn() -> String,
        library: &R,
        reference: &R,
        lent: &[(&str, &Lent, &Lent)],
    ) {
        let left: Vec<&dyn Left> = lent.iter().map(|lent| lent as &dyn Left).collect();
        self.agree_in_all(call, lines, library, reference, &left);
    }

    /// The same, where not all that was lent are bytes.
    pub fn agree_in_all<R: PartialEq + Debug>(
        &mut self,
        call: &str,
        lines: impl Fn() -> String,
        library: &R,
        reference: &R,
        left: &[&dyn Left],
    ) {
        if library == reference && left.iter().all(|left| left.same()) {
            return;
        }
        eprintln!("agreement: a difference in {call}");
        eprintln!(
            "stage {}, {}, seed {}, size {}, behind {} calls that agreed",
            self.stage,
            self.part,
            self.seed,
            self.size,
            self.compared()
        );
        eprintln!(
            "\nthe call, as lines for `npp-reference calls`:\n{}",
            lines()
        );
        eprintln!("\nlibrary:   {library:?}\nreference: {reference:?}");
        for left in left {
            eprintln!("\n{}", left.account());
        }
        exit(1);
    }
}

/// Bytes as the reference's `calls` mode reads them.
pub fn hex(bytes: &[u8]) -> String {
    if bytes.is_empty() {
        return "-".to_string();
    }
    bytes.iter().map(|byte| format!("{byte:02x}")).collect()
}
