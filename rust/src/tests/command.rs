//! The command that compares two plan files (rust/examples/compare_plans.rs), as a program of its own: its
//! lines, what it tells on standard error, and what it ends with.

use super::*;
use crate::{Kind, MOST_RULES, MOST_SETS};
use std::ffi::{OsStr, OsString};
use std::fs::{self, File};
use std::os::unix::ffi::OsStringExt;
use std::path::PathBuf;
use std::process::{Command, Output, Stdio};
use std::sync::atomic::{AtomicUsize, Ordering};

const QUARTER_1: &[u8] = include_bytes!("../../../samples/quarter1");
const QUARTER_2: &[u8] = include_bytes!("../../../samples/quarter2");

/// The program, beside the tests where rust/build leaves it, or where cargo does.
fn program() -> PathBuf {
    let tests = std::env::current_exe().expect("the tests are a file");
    let folder = tests.parent().expect("a file is in a folder");
    let places = [
        folder.join("compare_plans"),
        folder.join("../examples/compare_plans"),
    ];
    let mut places = places.into_iter().filter(|place| place.exists());
    places.next().expect("rust/build builds compare_plans")
}

/// A folder with files for a test, removed behind it.
struct Folder(PathBuf);

impl Folder {
    fn new() -> Folder {
        static COUNT: AtomicUsize = AtomicUsize::new(0);
        let count = COUNT.fetch_add(1, Ordering::Relaxed);
        let name = format!("npp-compare-{}-{count}", std::process::id());
        let path = std::env::temp_dir().join(name);
        fs::create_dir_all(&path).expect("a folder");
        Folder(path)
    }

    /// A folder with these files as `left` and `right`.
    fn with(left: &[u8], right: &[u8]) -> Folder {
        let folder = Folder::new();
        folder.put("left", left);
        folder.put("right", right);
        folder
    }

    fn put(&self, name: impl AsRef<OsStr>, bytes: &[u8]) {
        fs::write(self.0.join(name.as_ref()), bytes).expect("a file");
    }

    /// The program in this folder.
    fn command<S: AsRef<OsStr>>(&self, names: &[S]) -> Command {
        let mut command = Command::new(program());
        command.current_dir(&self.0).args(names);
        command.stdin(Stdio::null());
        command
    }

    /// What it ends with, writes and tells.
    fn run<S: AsRef<OsStr>>(&self, names: &[S]) -> (i32, String, String) {
        ended(self.command(names).output().expect("it runs"))
    }
}

impl Drop for Folder {
    fn drop(&mut self) {
        let _ = fs::remove_dir_all(&self.0);
    }
}

fn ended(output: Output) -> (i32, String, String) {
    let text = |bytes| String::from_utf8(bytes).expect("text");
    let status = output.status.code().expect("no signal ended it");
    (status, text(output.stdout), text(output.stderr))
}

/// What the program does with two files, `left` and `right`.
fn compared(left: &[u8], right: &[u8]) -> (i32, String, String) {
    Folder::with(left, right).run(&["left", "right"])
}

/// What it must end with, write and tell; lines without the last newline.
fn outcome(status: i32, lines: &[&str], told: &[&str]) -> (i32, String, String) {
    let text = |lines: &[&str]| lines.iter().map(|line| format!("{line}\n")).collect();
    (status, text(lines), text(told))
}

/// A file: an opening with the most room, and records.
fn file(records: &[(Kind, Vec<u8>)]) -> Vec<u8> {
    let opening = [(Kind::Open, open55(MOST_SETS, MOST_RULES))];
    unopened(&[&opening[..], records].concat())
}

/// A file of records.
fn unopened(records: &[(Kind, Vec<u8>)]) -> Vec<u8> {
    let records = records.iter();
    let bytes = records.map(|(kind, body)| with_kind(kind.byte(), body));
    bytes.collect::<Vec<Vec<u8>>>().concat()
}

/// Document 01's S1 as a set of this number, and a rule for every national number.
fn s1_file(set: u16) -> Vec<u8> {
    file(&[
        (Kind::AddSet, s1(set)),
        (Kind::AddRule, rule(Class::NATL, "-", 0, set)),
    ])
}

/// The sample of two quarters writes the lines that samples/README.md explains.
#[test]
fn the_sample() {
    let page = include_str!("../../../samples/README.md");
    let (_, behind) = page
        .split_once("\n## quarter1 and quarter2\n")
        .expect("its section");
    let (_, table) = behind.split_once("| Writes |").expect("its lines");
    let (table, _) = table.split_once("\n\n").expect("their end");
    let rows = table.lines().filter_map(|row| row.strip_prefix("| `"));
    let lines: Vec<&str> = rows.filter_map(|row| row.split('`').next()).collect();
    assert_eq!(lines.len(), 6);
    assert_eq!(compared(QUARTER_1, QUARTER_2), outcome(1, &lines, &[]));

    let (status, back, told) = compared(QUARTER_2, QUARTER_1);
    assert_eq!((status, &told[..]), (1, ""));
    let sides = |line: &str| line.split(',').next().map(str::to_string);
    let swapped = lines.iter().map(|line| match line.split_once(" only:") {
        Some(("left", behind)) => sides(&format!("right only:{behind}")),
        Some((_, behind)) => sides(&format!("left only:{behind}")),
        None => sides(line),
    });
    assert!(back.lines().map(sides).eq(swapped));
    let moved = "both: NATL 7/8, left set 6, right set 0: service action INPRTG dropped";
    assert!(back.lines().any(|line| line == moved));
}

/// Every sort of line, with wildcards and house classes, in listing order.
#[test]
fn lines() {
    let left = file(&[
        (Kind::AddSet, s1(0)),
        (Kind::AddSet, s2(1023)),
        (Kind::AddRule, rule(Class::HOUSE5, "-", 8, 0)),
        (Kind::AddRule, rule(Class::UNKNOWN, "b339090", 0, 1023)),
        (Kind::AddRule, rule(Class::NATL, "7", 8, 0)),
        (Kind::AddRule, rule(Class::INTL, "-", 0, 0)),
    ]);
    let right = file(&[
        (Kind::AddSet, s1_with(6, &[sa::INPRTG, sa::CDPNNP])),
        (Kind::AddSet, set(0, Some(Class::UNKNOWN), &[], &[], &[])),
        (Kind::AddRule, rule(Class::NATL, "7", 8, 6)),
        (Kind::AddRule, rule(Class::NATL, "-", 0, 0)),
        (Kind::AddRule, rule(Class::INTL, "-", 0, 0)),
    ]);
    let there = [
        "both: INTL */*, left set 0, right set 0: outgoing class changed from \"as incoming\" to UNKNOWN; \
         no conditioning action is left, the number escapes; conditioning actions DNX, CCDEF dropped; \
         service action CDPNNP dropped; formatting actions RN, DN dropped",
        "right only: NATL */*, set 0: outgoing class UNKNOWN; no conditioning action, the number escapes",
        "both: NATL 7/8, left set 0, right set 6: service action INPRTG added before CDPNNP",
        "left only: UNKNOWN b339090/*, set 1023: outgoing class NATL; conditioning IGN 1, AC 2, PFXA 4, SNX, \
         CCDEF; service CDPNNP, CDIAL; formatting PFXA, RN, AC, SN",
        "left only: HOUSE5 */8, set 0: outgoing class as incoming; conditioning DNX, CCDEF; service CDPNNP; \
         formatting RN, DN",
    ];
    assert_eq!(compared(&left, &right), outcome(1, &there, &[]));
}

/// One file twice, and files that differ in the numbers of sets, in settings and in what is no plan.
#[test]
fn no_difference() {
    let none = outcome(0, &["no difference"], &[]);
    let folder = Folder::with(QUARTER_1, &s1_file(0));
    assert_eq!(folder.run(&["left", "left"]), none);
    assert_eq!(folder.run(&["right", "right"]), none);
    assert_eq!(compared(&s1_file(0), &s1_file(1023)), none);

    let number = number(Class::NATL, "87654321", &Lookup::NO_RECORD);
    let others = [
        (Kind::Open, accepting55(16, 8)),
        (Kind::Number, number.clone()),
        (Kind::AddSet, s2(0)),
        (Kind::AddSet, s1(9)),
        (Kind::Referrers, vec![0, 77]),
        (Kind::AddRule, rule(Class::NATL, "-", 0, 9)),
        (Kind::List, Vec::new()),
        (Kind::Price, vec![255; bodies::PRICE_BYTES]),
        (Kind::Call, vec![255; bodies::CALL_BYTES]),
        (Kind::Losses, Vec::new()),
        (Kind::Number, number),
    ];
    assert_eq!(compared(&s1_file(0), &unopened(&others)), none);
    assert_eq!(compared(&unopened(&others), &s1_file(0)), none);
    // An opening starts afresh.
    let anew = [s1_file(1), file(&[])].concat();
    assert_eq!(compared(&anew, &file(&[])), none);
    // Edits that come to the same.
    let edited = file(&[
        (Kind::AddSet, s2(0)),
        (Kind::AddSet, s1(5)),
        (Kind::AddRule, rule(Class::NATL, "-", 0, 0)),
        (Kind::AddRule, rule(Class::INTL, "-", 0, 0)),
        (Kind::ChangeRule, rule(Class::NATL, "-", 0, 5)),
        (Kind::RemoveRule, filter(Class::INTL, "-", 0)),
        (Kind::RemoveSet, vec![0, 0]),
        (Kind::AddSet, s2(7)),
        (Kind::ReplaceSet, s1(7)),
        (Kind::ChangeRule, rule(Class::NATL, "-", 0, 7)),
    ]);
    assert_eq!(compared(&edited, &s1_file(0)), none);
}

/// A refused call is told and changes nothing; the plans are compared, and the end is 2.
#[test]
fn refused_calls() {
    let refused = [
        s1_file(0),
        unopened(&[
            (Kind::AddSet, s2(0)),
            (Kind::List, Vec::new()),
            (Kind::AddRule, rule(Class::INTL, "-", 0, 9)),
            (Kind::RemoveSet, vec![0, 0]),
            (Kind::RemoveRule, filter(Class::INTL, "-", 0)),
            (Kind::ReplaceSet, set(0, None, &[(ca::ZN, 8)], &[], &[])),
            (Kind::ChangeRule, rule(Class::NATL, "-", 0, 2000)),
            (Kind::Open, open55(1025, 1)),
        ]),
    ]
    .concat();
    let told = |name: &str| {
        [
            "record 4, byte 112: add set: refused, 7 TAKEN",
            "record 6, byte 161: add rule: refused, 8 ABSENT",
            "record 7, byte 183: remove set: refused, 11 IN USE",
            "record 8, byte 186: remove rule: refused, 8 ABSENT",
            "record 9, byte 206: replace set: refused, 9 MISFIT",
            "record 10, byte 254: change rule: refused, 5 RANGE",
            "record 11, byte 276: open: refused, 5 RANGE",
        ]
        .map(|line| format!("{name}: {line}"))
    };
    let (left, right) = (told("left"), told("right"));
    let lines = |told: &[String]| outcome(2, &["no difference"], &strs(told));
    assert_eq!(compared(&refused, &s1_file(3)), lines(&left));
    assert_eq!(compared(&s1_file(3), &refused), lines(&right));
    let both = [left.clone(), right].concat();
    assert_eq!(compared(&refused, &refused), lines(&both));

    // With a difference too.
    let (status, lines, said) = compared(&refused, QUARTER_1);
    assert_eq!((status, said), (2, left.map(|line| line + "\n").concat()));
    assert_eq!(lines.lines().count(), 9);
}

fn strs(lines: &[String]) -> Vec<&str> {
    lines.iter().map(String::as_str).collect()
}

/// KIND and CUT: the rest of the file is not read, and nothing is compared.
#[test]
fn faults_of_a_file() {
    let good = s1_file(0);
    let unknown = [&good[..], &[10], &good].concat();
    let cut = [&good[..], &[1, 0, 0]].concat();
    let kind = "record 4, byte 112: 2 KIND, there is no kind 10";
    let short = "record 4, byte 112: 1 CUT, add set, bytes missing: 45";
    for (bad, fault) in [(&unknown, kind), (&cut, short)] {
        for (left, right, name) in [(bad, &good, "left"), (&good, bad, "right")] {
            let told = [&format!("{name}: {fault}")[..], "nothing is compared"];
            assert_eq!(compared(left, right), outcome(2, &[], &told));
        }
    }
    // Both are named, and what is refused before them.
    let refused = [&good[..], &[1], &s1(0), &[255]].concat();
    let told = [
        &format!("left: {short}")[..],
        "right: record 4, byte 112: add set: refused, 7 TAKEN",
        "right: record 5, byte 160: 2 KIND, there is no kind 255",
        "nothing is compared",
    ];
    assert_eq!(compared(&cut, &refused), outcome(2, &[], &told));
    // A record that is passed over is not to be cut either.
    let cut = [&good[..], &[7]].concat();
    let told = [
        "left: record 4, byte 112: 1 CUT, number, bytes missing: 73",
        "nothing is compared",
    ];
    assert_eq!(compared(&cut, &good), outcome(2, &[], &told));
}

/// A file that opens no plan: an empty one, one without an opening, one whose opening is refused.
#[test]
fn no_opening() {
    let good = s1_file(0);
    let no_plan = |name: &str| format!("{name}: 3 PLAN, no opening is accepted");
    for (left, right, name) in [(&[][..], &good[..], "left"), (&good, &[], "right")] {
        let told = [&no_plan(name)[..], "nothing is compared"];
        assert_eq!(compared(left, right), outcome(2, &[], &told));
    }
    let told = [
        &no_plan("left")[..],
        &no_plan("right"),
        "nothing is compared",
    ];
    assert_eq!(compared(&[9], &[18]), outcome(2, &[], &told));
    let refused = unopened(&[(Kind::Open, open55(0, 1)), (Kind::AddSet, s1(0))]);
    let told = [
        "left: record 1, byte 0: open: refused, 5 RANGE",
        "left: record 2, byte 42: add set: refused, 3 PLAN",
        &no_plan("left"),
        "nothing is compared",
    ];
    assert_eq!(compared(&refused, &good), outcome(2, &[], &told));
}

/// What is not there, or is a folder.
#[test]
fn what_cannot_be_read() {
    let folder = Folder::with(QUARTER_1, QUARTER_2);
    let absent = "none: No such file or directory (os error 2)";
    let is_folder = ".: Is a directory (os error 21)";
    for (names, faults) in [
        (["left", "none"], &[absent][..]),
        (["none", "right"], &[absent]),
        ([".", "right"], &[is_folder]),
        ([".", "none"], &[is_folder, absent]),
    ] {
        let told = [faults, &["nothing is compared"]].concat();
        assert_eq!(folder.run(&names), outcome(2, &[], &told));
    }
}

/// Two names are asked for.
#[test]
fn usage() {
    let folder = Folder::with(QUARTER_1, QUARTER_2);
    let told = outcome(2, &[], &["usage: npp-compare LEFT RIGHT"]);
    for names in [&[][..], &["left"], &["left", "right", "right"]] {
        assert_eq!(folder.run(names), told);
    }
}

/// What a terminal would take for a command is escaped in a name; what it prints is not.
#[test]
fn names() {
    let folder = Folder::with(&[], QUARTER_2);
    let told = |name: Vec<u8>| {
        let name = OsString::from_vec(name);
        folder.put(&name, &[]);
        let (status, lines, told) = folder.run(&[&name, OsStr::new("right")]);
        assert_eq!((status, &lines[..]), (2, ""));
        assert!(told.chars().all(|one| one == '\n' || !one.is_control()));
        let end = told.find(": 3 PLAN").expect("the name, and what is wrong");
        told[..end].to_string()
    };
    assert_eq!(told(b"\x1b[2J\x07\n\t\\".to_vec()), r"\u{1b}[2J\u{7}\n\t\\");
    assert_eq!(told(b"an 'old' \"plan\"".to_vec()), "an 'old' \"plan\"");
    assert_eq!(told(b"plan \xff\xc2".to_vec()), r"plan \xff\xc2");
    assert_eq!(told("\u{202e}\u{9b}".into()), r"\u{202e}\u{9b}");
    assert_eq!(told("plan de numérotation".into()), "plan de numérotation");
}

/// A full plan: every prefix of three digits.
fn full(class: Class, set: u16, body: Vec<u8>) -> Vec<u8> {
    let mut records = vec![(Kind::AddSet, body)];
    for number in 0..MOST_RULES {
        let prefix = format!("{number:03x}");
        records.push((Kind::AddRule, rule(class, &prefix, 8, set)));
    }
    file(&records)
}

/// The largest plans, and what nobody reads of their 8,192 lines.
#[test]
fn full_plans() {
    let left = full(Class::NATL, 0, s1(0));
    let folder = Folder::with(&left, &full(Class::UNKNOWN, 1023, s1(1023)));
    let (status, lines, told) = folder.run(&["left", "right"]);
    assert_eq!((status, &told[..], lines.lines().count()), (1, "", 8192));
    let content = content_of_s1();
    for (at, line) in lines.lines().enumerate() {
        let start = match at / 4096 {
            0 => format!("left only: NATL {at:03x}/8, set 0"),
            _ => format!("right only: UNKNOWN {:03x}/8, set 1023", at - 4096),
        };
        assert_eq!(line, format!("{start}: {content}"));
    }

    // One rule more than the room is refused.
    let more = unopened(&[(Kind::AddRule, rule(Class::NATL, "-", 0, 0))]);
    folder.put("more", &[&left[..], &more].concat());
    let told = ["more: record 4099, byte 90202: add rule: refused, 10 FULL"];
    let same = outcome(2, &["no difference"], &told);
    assert_eq!(folder.run(&["more", "left"]), same);

    // The lines do not all fit into a pipe, so that the program writes on when nobody reads any more.
    let mut command = folder.command(&["left", "right"]);
    command.stdout(Stdio::piped()).stderr(Stdio::piped());
    let mut child = command.spawn().expect("it runs");
    drop(child.stdout.take());
    let told = ["standard output: Broken pipe (os error 32)"];
    let ended = ended(child.wait_with_output().expect("it ends"));
    assert_eq!(ended, outcome(2, &[], &told));
}

fn content_of_s1() -> String {
    crate::Content::of(&s1(0)).expect("in range").to_string()
}

/// A full device as standard output, and as standard error too.
#[test]
fn a_full_device() {
    let full = || File::options().write(true).open("/dev/full");
    let folder = Folder::with(QUARTER_1, QUARTER_2);
    let told = ["standard output: No space left on device (os error 28)"];
    for names in [["left", "left"], ["left", "right"]] {
        let mut command = folder.command(&names);
        command.stdout(full().expect("/dev/full"));
        let output = command.output().expect("it runs");
        assert_eq!(ended(output), outcome(2, &[], &told));
    }
    for names in [&["left"][..], &["left", "none"], &["left", "right"]] {
        let mut command = folder.command(names);
        command.stdout(full().expect("/dev/full"));
        command.stderr(full().expect("/dev/full"));
        let status = command.status().expect("it runs");
        assert_eq!(status.code(), Some(2));
    }
}
