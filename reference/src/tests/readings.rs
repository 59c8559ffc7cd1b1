//! One test for each of the places 1 to 42 of docs/DECISIONS.md that bytes can
//! show.  The numbers are those of that page.

use super::support::*;
use crate::calls;
use crate::layout;
use crate::rules::{Rooms, RulePlace, SetNumber};

const NUMBER: &str = "number NATL 87654321 NONE - asd - grn -";
const ESCAPING: &str = "add-set 2 class 255 ca - sa - fa -";

/// Provisions line by line and compares each refusal number.
fn steps(bench: &mut Bench, expected: &[(&str, u8)]) {
    for (line, number) in expected {
        assert_eq!(bench.provision(line), *number, "{line}");
    }
}

fn set_content(bench: &Bench, number: u16, length: usize) -> (u8, usize) {
    let mut out = vec![FILLING; length];
    let written = calls::set_content(&bench.memory, SetNumber(number), &mut out);
    let count = written.unwrap_or(0);
    assert!(out[count..].iter().all(|&byte| byte == FILLING));
    (calls::refusal_number(written), count)
}

fn referrers(bench: &Bench, number: u16) -> (u8, usize) {
    let count = calls::referrers(&bench.memory, SetNumber(number));
    (calls::refusal_number(count), count.unwrap_or(0))
}

#[test]
fn r01_the_programs_limits() {
    let open = |sets, rules| {
        lines_of(&[&format!(
            "open sets {sets} rules {rules} cc 5 dfltrn - a - b - answers 1 1 1 1"
        )])
    };
    assert_eq!(open(64, 512), "ok\n");
    assert_eq!(open(65, 1), "no 4\n");
    assert_eq!(open(1, 513), "no 4\n");
    assert_eq!(open(1024, 4096), "no 4\n");
    assert_eq!(open(1025, 1), "no 5\n");
    assert_eq!(open(65, 4097), "no 5\n");
    assert_eq!(open(0, 1), "no 5\n");
    assert_eq!(open(1, 0), "no 5\n");
}

#[test]
fn r02_answers_by_lookup_kind() {
    let bench = Bench::new(&[
        "open sets 1 rules 1 cc 5 dfltrn - a - b - answers 4 3 2 1",
        "add-set 0 class 5 ca ZNX sa INPRTG fa ZN",
        "add-rule NATL * * 0",
    ]);
    let number = |lookup: &str| bench.answer(&format!("number NATL 12 {lookup} asd - grn -"));
    assert_eq!(number("NONE -"), answered(2, 1, 4, &[1], ""));
    assert_eq!(number("NOENTITY -"), answered(2, 1, 3, &[1], ""));
    assert_eq!(number("RN 1"), answered(2, 1, 2, &[1], ""));
    assert_eq!(number("SP 1"), answered(4, 5, 1, &[1], "12"));
}

#[test]
fn r03_referrers_and_content() {
    let bench = Bench::new(&[OPEN, S1, "add-rule NATL * * 0", "add-rule NATL 1 * 0"]);
    assert_eq!(referrers(&bench, 0), (0, 2));
    assert_eq!(referrers(&bench, 7), (8, 0));
    assert_eq!(referrers(&bench, 8), (5, 0));
    assert_eq!(referrers(&bench, 65535), (5, 0));
    assert_eq!(set_content(&bench, 0, 47), (0, 47));
    assert_eq!(set_content(&bench, 7, 47), (8, 0));
    assert_eq!(set_content(&bench, 8, 47), (5, 0));
    assert_eq!(set_content(&bench, 8, 46), (4, 0));
    let mut out = [0; 47];
    calls::set_content(&bench.memory, SetNumber(0), &mut out).expect("held");
    assert_eq!(out[..], body(S1));
}

#[test]
fn r04_refused_openings() {
    let bad = "open sets 65 rules 1 cc 5 dfltrn - a - b - answers 1 1 1 1";
    let before = [
        NUMBER,
        "list",
        "refs 0",
        "remove-set 0",
        "remove-rule NATL * *",
        S1,
        bad,
        "list",
    ];
    assert_eq!(
        lines_of(&before),
        "no 3\nno 3\nno 3\nno 3\nno 3\nno 3\nno 4\nno 3\n"
    );
    assert_eq!(
        lines_of(&[OPEN, S1, bad, "refs 0"]),
        "ok\nok\nno 4\nrefs 0\n"
    );
    assert_eq!(lines_of(&[OPEN, S1, OPEN, "refs 0"]), "ok\nok\nok\nno 8\n");
}

#[test]
fn r05_every_line_ends_with_a_newline() {
    assert_eq!(lines_of(&[OPEN, "list"]), "ok\nend 0\n");
    assert_eq!(lines(&[]), "");
}

#[test]
fn r07_r08_kind_cut_plan() {
    assert_eq!(lines(&[10]), "no 2\n");
    assert_eq!(lines(&[255, 9, 9]), "no 2\n");
    assert_eq!(lines(&[3, 255]), "no 1\n");
    assert_eq!(lines(&[7]), "no 1\n");
    assert_eq!(lines(&[3, 255, 255]), "no 3\n");
    let cut = [record(OPEN), vec![0; 20]].concat();
    assert_eq!(lines(&cut), "ok\nno 1\n");
    let unknown = [record(OPEN), vec![10], record("list")].concat();
    assert_eq!(lines(&unknown), "ok\nno 2\n");
}

#[test]
fn r09_range_first() {
    let mut bench = Bench::new(&[OPEN, S1, "add-rule NATL * * 0"]);
    steps(
        &mut bench,
        &[
            ("add-rule NATL * * 8", 5),
            ("add-rule NATL * * 7", 7),
            ("add-set 8 class 255 ca DNX sa - fa -", 5),
            ("add-set 7 class 255 ca DNX sa - fa -", 6),
            ("add-set 0 class 6 ca DNX sa - fa -", 5),
        ],
    );
    let mut number = body("number INTL 87654321 NONE - asd - grn -");
    assert_eq!(bench.answer_bytes(&number), answered(0, 0, 0, &[], ""));
    number[34] = 4;
    assert_eq!(bench.answer_bytes(&number), refused(5));
}

#[test]
fn r10_prefix_longer_than_the_length() {
    let mut bench = Bench::new(&[OPEN, ESCAPING]);
    steps(
        &mut bench,
        &[
            ("add-rule NATL 123 2 2", 5),
            ("change-rule NATL 123 2 2", 5),
            ("remove-rule NATL 123 2", 5),
            ("add-rule NATL 123 3 2", 0),
            ("add-rule NATL 123 33 2", 5),
            ("add-rule NATL 123 32 2", 0),
        ],
    );
}

#[test]
fn r11_order_of_rule_checks() {
    let open = "open sets 4 rules 1 cc 55 dfltrn - a - b - answers 1 1 1 1";
    let set = "add-set 1 class 255 ca ZN3 sa - fa -";
    let mut bench = Bench::new(&[open, S1, set, "add-rule NATL * * 0"]);
    steps(
        &mut bench,
        &[
            ("add-rule NATL * * 3", 7),
            ("add-rule NATL 1 * 3", 8),
            ("add-rule NATL 1 * 1", 9),
            ("add-rule NATL 1 * 0", 10),
            ("change-rule NATL 1 * 0", 8),
            ("change-rule NATL * * 3", 8),
            ("change-rule NATL * * 1", 9),
            ("change-rule NATL * * 0", 0),
            ("change-rule NATL * * 4", 5),
            ("remove-rule NATL 1 *", 8),
            ("remove-rule NATL * *", 0),
            ("remove-rule NATL * *", 8),
            // Freed room is used again.
            ("add-rule NATL 1 * 0", 0),
        ],
    );
}

#[test]
fn r12_order_of_set_checks() {
    let mut bench = Bench::new(&[OPEN, S1, "add-rule NATL * * 0", "add-rule NATL 1 9 0"]);
    steps(
        &mut bench,
        &[
            ("add-set 0 class 255 ca DNX sa - fa -", 6),
            (S1, 7),
            ("replace-set 3 class 255 ca DNX sa - fa -", 6),
            ("replace-set 3 class 255 ca ZNX sa - fa -", 8),
            // Fits the first rule that names it, not the second.
            ("replace-set 0 class 255 ca IGN9,ZNX sa - fa -", 9),
            ("replace-set 0 class 255 ca IGN8,ZNX sa - fa -", 0),
            ("remove-set 8", 5),
            ("remove-set 3", 8),
            ("remove-set 0", 11),
            ("remove-rule NATL * *", 0),
            ("remove-set 0", 11),
            ("remove-rule NATL 1 9", 0),
            ("remove-set 0", 0),
            ("remove-set 0", 8),
        ],
    );
}

#[test]
fn r13_order_of_number_checks() {
    let set = "add-set 0 class 255 ca IGN2,ZNX sa INPRTG,CDPNNP fa RN,ZN,ZN";
    let open = "open sets 8 rules 8 cc 55 dfltrn - a - b - answers 4 1 1 1";
    let bench = Bench::new(&[open, set, "add-rule NATL * * 0"]);
    let mut out = [FILLING; 34];
    let room = calls::answer(&bench.memory, &[255; 73], &mut out);
    assert_eq!((room.refusal, out), (4, [FILLING; 34]));
    assert_eq!(bench.answer_bytes(&[255; 73]), refused(5));
    // SHORT although INPRTG would respond; no LONG where it does.
    assert_eq!(
        bench.answer("number NATL 12 NONE - asd - grn -"),
        refused(12)
    );
    let long = "7".repeat(32);
    let number = |lookup: &str| bench.answer(&format!("number NATL {long} {lookup} asd - grn -"));
    assert_eq!(number("NONE -"), answered(2, 1, 4, &[1], ""));
    assert_eq!(number("NOENTITY -"), answered(3, 1, 1, &[1, 2], ""));
    assert_eq!(number("RN 1"), refused(13));
}

#[test]
fn r14_slices_of_digits() {
    let bench = Bench::new(&[OPEN, S1, "add-rule NATL * * 0"]);
    let conditioned = |class, digits: &[u8]| {
        let mut out = [FILLING; 35];
        calls::refusal_number(calls::conditioned(&bench.memory, class, digits, &mut out))
    };
    assert_eq!(conditioned(1, &[7; 32]), 0);
    assert_eq!(conditioned(1, &[7; 33]), 5);
    assert_eq!(conditioned(1, &[7, 16]), 5);
    assert_eq!(conditioned(6, &[7]), 5);
    assert_eq!(conditioned(255, &[7]), 5);
    assert_eq!(conditioned(5, &[7]), 0);
    assert_eq!(conditioned(1, &[]), 12);
    let stretch = |class, digits: &[u8]| calls::stretch(&bench.memory, class, digits, 4);
    assert_eq!(stretch(1, &[7; 32]), (0, 32));
    assert_eq!(stretch(1, &[7; 33]), (0, 0));
    assert_eq!(stretch(1, &[7, 16]), (0, 0));
    assert_eq!(stretch(6, &[7]), (0, 0));
}

#[test]
fn r15_empty_stretches() {
    let set = "add-set 0 class 255 ca FPFX,IGN1,AC2,SNX,CCDEF sa - fa -";
    let rules = ["add-rule NATL 12 * 0", "add-rule NATL 9 * 2"];
    let bench = Bench::new(&[OPEN, set, ESCAPING, rules[0], rules[1]]);
    let number = "120340";
    for value in 0..=255 {
        let expected = match value {
            2 => (3, 2),
            3 => (5, 1),
            6 => (0, 2),
            _ => (0, 0),
        };
        assert_eq!(bench.stretch(1, number, value), expected, "value {value}");
        assert_eq!(bench.stretch(2, number, value), (0, 0));
        assert_eq!(bench.stretch(1, "912", value), (0, 0));
        assert_eq!(bench.stretch(1, "12034", value), (0, 0));
    }
}

#[test]
fn r16_places_in_the_listing() {
    let mut bench = Bench::new(&[OPEN, S1, "add-rule NATL * * 0", "add-rule INTL 1 2 0"]);
    let number = |bench: &Bench, place| {
        calls::refusal_number(calls::rule_at(&bench.memory, RulePlace(place)))
    };
    assert_eq!(bench.provision("add-rule INTL 1 * 0"), 0);
    for (place, expected) in [(0, 0), (1, 0), (2, 0), (3, 5), (8, 5), (usize::MAX, 5)] {
        assert_eq!(number(&bench, place), expected);
    }
    let (filter, set) = calls::rule_at(&bench.memory, RulePlace(0)).expect("listed");
    assert_eq!(
        (filter.class.byte(), filter.prefix, filter.length, set.0),
        (0, vec![1], Some(2), 0)
    );
    bench.memory[0] = 0;
    assert_eq!(number(&bench, 3), 3);
}

#[test]
fn r17_long_bodies() {
    let mut bench = Bench::new(&[]);
    for line in [OPEN, S1, "add-rule NATL * * 0"] {
        let long = [record(line), vec![255; 3]].concat();
        assert_eq!(bench.provision_bytes(&long), 0);
    }
    let long = [body(NUMBER), vec![255; 3]].concat();
    assert_eq!(bench.answer_bytes(&long), answered(3, 1, 0, &[2], ""));
    assert_eq!(bench.answer_bytes(&[]), refused(1));
    assert_eq!(bench.provision_bytes(&[0]), 1);
}

#[test]
fn r18_memory_sizes() {
    let rooms = Rooms { sets: 8, rules: 8 };
    assert_eq!(layout::size(rooms), 64 + 48 * 8 + 24 * 8);
    for (length, expected) in [(0, 4), (63, 4), (64, 4), (639, 4), (640, 0), (641, 0)] {
        let mut memory = vec![FILLING; length];
        let number = calls::refusal_number(calls::open(&mut memory, &body(OPEN)));
        assert_eq!(number, expected, "length {length}");
        let mut bad = body(OPEN);
        bad[0] = 255;
        assert_eq!(calls::refusal_number(calls::open(&mut memory, &bad)), 5);
    }
    // A smaller opening over an old plan leaves the bytes behind its size.
    let mut bench = Bench::new(&[OPEN, S1, "add-rule NATL * * 0"]);
    let old = bench.memory.clone();
    let small = "open sets 1 rules 1 cc 5 dfltrn - a - b - answers 1 1 1 1";
    assert_eq!(bench.provision(small), 0);
    assert_eq!(bench.memory[136..], old[136..]);
    assert_eq!(bench.memory[64..136], [0; 72]);
}

#[test]
fn r19_buffers() {
    let bench = Bench::new(&[OPEN, S1, "add-rule NATL * * 0"]);
    for length in 0..60 {
        let mut out = vec![FILLING; length];
        let room = if length < 35 { 4 } else { 0 };
        // Nothing would be written: no rule for the class.
        let answered = calls::answer(
            &bench.memory,
            &body("number INTL 1 NONE - asd - grn -"),
            &mut out,
        );
        assert_eq!(answered.refusal, room);
        let written = calls::conditioned(&bench.memory, 0, &[1], &mut out);
        assert_eq!(calls::refusal_number(written), room);
        let written = calls::conditioned(&bench.memory, 6, &[1], &mut out);
        assert_eq!(
            calls::refusal_number(written),
            if room == 0 { 5 } else { 4 }
        );
        assert!(out.iter().all(|&byte| byte == FILLING));
        assert_eq!(
            set_content(&bench, 0, length).0,
            if length < 47 { 4 } else { 0 }
        );
    }
}

/// Sets a byte of a record that is accepted and gives the refusal number.
fn with_byte(bench: &Bench, record: &[u8], place: usize, value: u8) -> u8 {
    let mut changed = record.to_vec();
    changed[1 + place] = value;
    bench.clone().provision_bytes(&changed)
}

#[test]
fn r22_unused_bytes() {
    let bench = Bench::new(&[OPEN]);
    // cc 55: one unused byte; no DFLTRN, no delimiters.
    let opening = record(OPEN);
    let unused = (7..=7).chain(9..24).chain(25..30).chain(31..36);
    for place in unused {
        assert_eq!(
            with_byte(&bench, &opening, place, 1),
            5,
            "opening, place {place}"
        );
    }
    // Two CA, one SA, two FA: all behind the first code 0 is unused, the count
    // beside it too.
    let set = record(S1);
    for place in (8..27).chain(29..35).chain(38..47) {
        assert_eq!(with_byte(&bench, &set, place, 1), 5, "set, place {place}");
    }
    // A gap is RANGE, never GROUPS.
    assert_eq!(with_byte(&bench, &set, 3, 0), 5);
    assert_eq!(with_byte(&bench, &set, 35, 0), 5);
    let bench = Bench::new(&[OPEN, ESCAPING]);
    let rule = record("add-rule NATL 12 * 2");
    for place in 4..18 {
        assert_eq!(with_byte(&bench, &rule, place, 1), 5, "rule, place {place}");
    }
}

#[test]
fn r22_full_lists() {
    let ignored = vec!["IGN1"; 11].join(",");
    let many = vec!["ZN"; 12].join(",");
    let set = format!("add-set 0 class 255 ca {ignored},ZNX sa - fa {many}");
    let bench = Bench::new(&[OPEN, &set, "add-rule NATL * * 0"]);
    let number = "number NATL 1234567890123 NONE - asd - grn -";
    assert_eq!(
        bench.answer(number),
        answered(4, 1, 0, &[], &"23".repeat(12))
    );
    // A service list of eight is in range; a repeat breaks a group rule.
    let mut bench = Bench::new(&[OPEN]);
    let set =
        "add-set 0 class 255 ca ZNX sa INPRTG,CDPNNP,ASDLKUP,GRNLKUP,CDIAL,CDIAL,CDIAL,CDIAL fa -";
    assert_eq!(bench.provision(set), 6);
}

#[test]
fn r23_lookups() {
    let bench = Bench::new(&[OPEN]);
    let entity = |count: usize| {
        if count == 0 {
            "-".to_string()
        } else {
            "1".repeat(count)
        }
    };
    let number = |kind: u8, lengths: [usize; 3]| {
        let [entity, asd, grn] = lengths.map(entity);
        bench
            .answer(&format!(
                "number NATL 1 {kind} {entity} asd {asd} grn {grn}"
            ))
            .0
            .refusal
    };
    for (kind, lengths, expected) in [
        (0, [0, 0, 0], 0),
        (0, [1, 0, 0], 5),
        (0, [0, 1, 0], 5),
        (0, [0, 0, 1], 5),
        (1, [0, 10, 10], 0),
        (1, [1, 0, 0], 5),
        (2, [0, 0, 0], 5),
        (2, [1, 0, 0], 0),
        (2, [15, 10, 10], 0),
        (3, [0, 0, 0], 5),
        (3, [15, 0, 10], 0),
        (4, [1, 0, 0], 5),
        (255, [0, 0, 0], 5),
    ] {
        assert_eq!(
            number(kind, lengths),
            expected,
            "kind {kind}, lengths {lengths:?}"
        );
    }
    // Unused entity bytes under kinds 0 and 1, and lengths over the width.
    for kind in ["NONE", "NOENTITY"] {
        for place in 36..51 {
            let mut body = body(&format!("number NATL 1 {kind} - asd - grn -"));
            body[place] = 1;
            assert_eq!(bench.answer_bytes(&body), refused(5));
        }
    }
    for (place, length) in [(1, 33), (35, 16), (51, 11), (62, 11)] {
        let mut body = body("number NATL 1 RN 1 asd - grn -");
        body[place] = length;
        assert_eq!(bench.answer_bytes(&body), refused(5));
    }
    assert_eq!(
        bench
            .answer(&format!("number NATL {} RN 1 asd - grn -", "1".repeat(32)))
            .0
            .refusal,
        0
    );
}

/// The highest count of each CA code of document 01; codes 11 to 15 have 0.
const HIGHEST: [u8; 16] = [0, 16, 3, 8, 15, 15, 15, 8, 8, 8, 8, 0, 0, 0, 0, 0];

#[test]
fn r24_codes_counts_and_classes() {
    let bench = Bench::new(&[OPEN]);
    // The pair stands first before ZNX; in range it is accepted or GROUPS.
    let set = record("add-set 0 class 255 ca IGN1,ZNX sa CDPNNP fa ZN");
    for code in 1..=255u8 {
        for count in 0..=255 {
            let mut changed = set.clone();
            (changed[4], changed[5]) = (code, count);
            let highest = HIGHEST.get(usize::from(code)).copied();
            let in_range = highest.is_some_and(|highest| match highest {
                0 => count == 0,
                highest => (1..=highest).contains(&count),
            });
            let number = bench.clone().provision_bytes(&changed);
            assert_eq!(number == 5, !in_range, "code {code}, count {count}");
        }
    }
    for code in 0..=255 {
        assert_eq!(
            with_byte(&bench, &set, 27, code) == 5,
            code > 5,
            "SA {code}"
        );
        assert_eq!(
            with_byte(&bench, &set, 35, code) == 5,
            code > 16,
            "FA {code}"
        );
        assert_eq!(
            with_byte(&bench, &set, 2, code),
            if code > 5 && code < 255 { 5 } else { 0 }
        );
    }
    let bench = Bench::new(&[OPEN, ESCAPING]);
    let rule = record("add-rule NATL * * 2");
    for value in 0..=255 {
        assert_eq!(
            with_byte(&bench, &rule, 0, value),
            if value > 5 { 5 } else { 0 }
        );
        assert_eq!(
            with_byte(&bench, &rule, 18, value),
            if value > 32 { 5 } else { 0 }
        );
        assert_eq!(
            with_byte(&bench, &rule, 1, value),
            if value > 16 { 5 } else { 0 }
        );
        let prefixed = record("add-rule NATL 1 * 2");
        assert_eq!(
            with_byte(&bench, &prefixed, 2, value),
            if value > 15 { 5 } else { 0 }
        );
        let mut number = body(NUMBER);
        number[0] = value;
        assert_eq!(
            bench.answer_bytes(&number).0.refusal,
            if value > 5 { 5 } else { 0 }
        );
        let opening = record(OPEN);
        assert_eq!(
            with_byte(&bench, &opening, 36, value),
            if (1..=4).contains(&value) { 0 } else { 5 }
        );
        assert_eq!(
            with_byte(&bench, &opening, 4, value),
            if (2..=3).contains(&value) { 0 } else { 5 }
        );
    }
}

#[test]
fn r25_the_room_of_the_opening_in_force() {
    let mut bench = Bench::new(&[OPEN]);
    steps(
        &mut bench,
        &[
            (
                "open sets 2 rules 1 cc 5 dfltrn - a - b - answers 1 1 1 0",
                5,
            ),
            ("add-set 7 class 255 ca - sa - fa -", 0),
            (
                "open sets 2 rules 1 cc 5 dfltrn - a - b - answers 1 1 1 1",
                0,
            ),
            ("add-set 7 class 255 ca - sa - fa -", 5),
            ("add-set 1 class 255 ca - sa - fa -", 0),
        ],
    );
}

#[test]
fn r26_r31_classes_answered() {
    for class in [0, 1, 2, 3, 4, 5, 255] {
        let escaping = format!("add-set 0 class {class} ca - sa - fa -");
        let formatting = format!("add-set 1 class {class} ca ZNX sa CDPNNP fa ZN");
        let bench = Bench::new(&[
            OPEN,
            &escaping,
            &formatting,
            "add-rule NATL * * 0",
            "add-rule NATL 7 * 1",
        ]);
        let expected = if class == 255 { 1 } else { class };
        assert_eq!(
            bench.answer("number NATL - NONE - asd - grn -"),
            answered(1, expected, 0, &[], "")
        );
        assert_eq!(
            bench.answer("number NATL 7 RN 1 asd - grn -"),
            answered(4, expected, 0, &[2], "7")
        );
        assert_eq!(
            bench.answer("number NATL 7 NONE - asd - grn -"),
            answered(3, 1, 0, &[2], "")
        );
        assert_eq!(
            bench.answer("number HOUSE5 7 NONE - asd - grn -"),
            answered(0, 5, 0, &[], "")
        );
    }
}

/// Sets and whether they keep the group rules.
#[test]
fn r27_to_r30_group_rules() {
    let sets = [
        // no CA
        ("- sa - fa -", true),
        ("- sa CDIAL fa -", false),
        ("- sa - fa DLMA", false),
        // formats
        ("ZN1 sa - fa -", true),
        ("ZNX sa - fa -", true),
        ("ZN1,CCDEF sa - fa -", false),
        ("CC1 sa - fa -", false),
        ("DNX sa - fa -", false),
        ("CC1,DNX sa - fa -", true),
        ("CC1,AC1,SNX sa - fa -", true),
        ("CC1,SNX sa - fa -", false),
        ("AC1,SNX sa - fa -", false),
        ("CC1,AC1,DNX sa - fa -", false),
        ("CC1,AC1,SN1,DNX sa - fa -", false),
        ("IGN1 sa - fa -", false),
        ("PFXA1,PFXB1,PFXC1,PFXD1,ZNX sa - fa -", true),
        // one setter each
        ("CCDEF,CC1,DNX sa - fa -", false),
        ("CCDEF,CCDEF,DNX sa - fa -", false),
        ("CCDEF,DN1,DN1 sa - fa -", false),
        ("PFXC1,PFXC1,ZNX sa - fa -", false),
        ("ZN1,ZNX sa - fa -", false),
        ("IGN1,IGN1,IGN1,ZNX,IGN1 sa - fa -", false),
        // FPFX first
        ("FPFX,ZNX sa - fa FPFX", true),
        ("CCDEF,FPFX,DNX sa - fa -", false),
        ("FPFX,CCDEF,DNX sa - fa -", true),
        ("FPFX,FPFX,ZNX sa - fa -", false),
        // X last but for CCDEF
        ("CCDEF,DNX sa - fa -", true),
        ("DNX,CCDEF sa - fa -", true),
        ("DNX,CC1 sa - fa -", false),
        ("DNX,PFXA1,CCDEF sa - fa -", false),
        ("DNX,SNX,AC1,CCDEF sa - fa -", false),
        ("AC1,CCDEF,SN1,PFXA2 sa - fa -", true),
        // services
        ("ZNX sa INPRTG,CDPNNP,ASDLKUP,GRNLKUP,CDIAL fa -", true),
        ("ZNX sa INPRTG,CDPNNP,GRNLKUP,ASDLKUP,CDIAL fa -", true),
        ("ZNX sa CDPNNP,INPRTG fa -", false),
        ("ZNX sa CDIAL,ASDLKUP fa -", false),
        ("ZNX sa ASDLKUP,ASDLKUP fa -", false),
        ("ZNX sa ASDLKUP,GRNLKUP,ASDLKUP fa -", false),
        // formatting
        ("ZNX sa - fa ZN,ZN,DLMA,DLMB,DLMA", true),
        ("ZNX sa - fa RN", false),
        ("ZNX sa CDPNNP fa RN,SP", true),
        ("ZNX sa - fa SP", false),
        ("ZNX sa CDPNNP fa ASD", false),
        ("ZNX sa ASDLKUP fa ASD", true),
        ("ZNX sa ASDLKUP fa GRN", false),
        ("ZNX sa GRNLKUP fa GRN", true),
        ("CCDEF,DNX sa - fa CC,DN", true),
        ("CC1,DNX sa - fa CC", true),
    ];
    let mut bench = Bench::new(&[OPEN]);
    for (content, keeps) in sets {
        let number = bench.provision(&format!("add-set 0 class 255 ca {content}"));
        assert_eq!(number, if keeps { 0 } else { 6 }, "{content}");
        if keeps {
            assert_eq!(bench.provision("remove-set 0"), 0);
        }
    }
}

/// FA codes and CA codes are two tables: the CA that each FA from 1 to 10 needs.
#[test]
fn r29_what_formatting_needs() {
    let all = "FPFX,CC1,AC1,PFXA1,PFXB1,PFXC1,PFXD1,SNX sa - fa";
    let directory = "CC1,DNX sa - fa";
    let whole = "ZNX sa - fa";
    for (set, served) in [
        (all, &[1, 2, 3, 6, 7, 8, 9, 10][..]),
        (directory, &[1, 4]),
        (whole, &[5]),
    ] {
        for code in 1..=10 {
            let number =
                Bench::new(&[OPEN]).provision(&format!("add-set 0 class 255 ca {set} {code}"));
            assert_eq!(
                number,
                if served.contains(&code) { 0 } else { 6 },
                "{set} {code}"
            );
        }
    }
}

/// F and fit: a set with F = 7 (and the prefix for FPFX), with and without X.
#[test]
fn fit_of_rule_and_set() {
    let fixed = "IGN1,AC2,PFXA1,CCDEF,SN3";
    let rest = "IGN1,AC2,PFXA4,SNX,CCDEF";
    let fits = |ca: &str, rule: &str| {
        let mut bench = Bench::new(&[OPEN, &format!("add-set 0 class 255 ca {ca} sa - fa -")]);
        match bench.provision(&format!("add-rule NATL {rule} 0")) {
            0 => true,
            9 => false,
            number => panic!("{number} for {rule}"),
        }
    };
    for length in 1..=32 {
        assert_eq!(fits(fixed, &format!("* {length}")), length == 7);
        assert_eq!(fits(rest, &format!("* {length}")), length > 7);
        assert!(!fits(&format!("FPFX,{fixed}"), &format!("* {length}")));
    }
    for length in 3..=32 {
        assert_eq!(
            fits(&format!("FPFX,{fixed}"), &format!("123 {length}")),
            length == 10
        );
        assert_eq!(
            fits(&format!("FPFX,{rest}"), &format!("123 {length}")),
            length > 10
        );
    }
    assert!(fits(rest, "* *") && fits(rest, "123 *") && !fits(fixed, "* *") && !fits(fixed, "1 *"));
    assert!(!fits(&format!("FPFX,{rest}"), "* *") && fits(&format!("FPFX,{rest}"), "1 *"));
    // A wildcard length takes F up to 31.
    assert!(fits("IGN16,IGN15,ZNX", "* *") && !fits("IGN16,IGN16,ZNX", "* *"));
    assert!(fits("IGN16,IGN15,ZNX", "* 32") && !fits("IGN16,IGN16,ZNX", "* 32"));
    let long = "1234567890123456";
    assert!(fits("FPFX,IGN15,ZNX", &format!("{long} *")));
    assert!(!fits("FPFX,IGN16,ZNX", &format!("{long} *")));
    // A set without CA fits every rule.
    assert!(fits("-", "* *") && fits("-", "* 1") && fits("-", &format!("{long} 16")));
}

#[test]
fn r32_to_r35_services() {
    let open = "open sets 8 rules 8 cc 55 dfltrn 0099 a aa b - answers 1 1 1 1";
    let number = |set: &str, lookup: &str| {
        let set = format!("add-set 0 class 3 ca DNX,CCDEF {set}");
        let bench = Bench::new(&[open, &set, "add-rule NATL * * 0"]);
        bench.answer(&format!("number NATL 7 {lookup}"))
    };
    let none = "NONE - asd - grn -";
    let data = "NOENTITY - asd 1 grn 2";
    // No SA: nothing withholds.  No FA: outcome 4 with no digits.
    assert_eq!(
        number("sa - fa CC,DN,DLMB,DLMA", none),
        answered(4, 3, 0, &[], "557aa")
    );
    assert_eq!(number("sa - fa -", none), answered(4, 3, 0, &[], ""));
    // RELAY is the response in outcomes 3 and 4.
    assert_eq!(
        number("sa INPRTG fa DN", none),
        answered(4, 3, 1, &[1], "7")
    );
    assert_eq!(
        number("sa INPRTG,CDPNNP fa DN", none),
        answered(3, 1, 1, &[1, 2], "")
    );
    // Actions behind an unsuccessful CDPNNP are carried out too.
    let all = "sa CDPNNP,GRNLKUP,ASDLKUP fa ASD,GRN,RN,SP,DN";
    assert_eq!(number(all, data), answered(3, 1, 0, &[2, 4, 3], ""));
    let all = "sa CDPNNP,ASDLKUP,GRNLKUP,CDIAL fa ASD,GRN,RN,SP,DN";
    assert_eq!(number(all, data), answered(4, 3, 0, &[2, 3, 4, 5], "127"));
    assert_eq!(number(all, none), answered(4, 3, 0, &[2, 3, 4, 5], "7"));
    // DFLTRN serves kind 3 alone, SP stays, and only where the FAs have RN.
    assert_eq!(
        number("sa CDPNNP fa RN,DLMA,SP", "SP 88 asd - grn -"),
        answered(4, 3, 0, &[2], "0099aa88")
    );
    assert_eq!(
        number("sa CDPNNP fa SP,DN", "SP 88 asd - grn -"),
        answered(4, 3, 0, &[2], "887")
    );
    assert_eq!(
        number("sa CDPNNP fa RN,DLMA,SP", "RN 88 asd - grn -"),
        answered(4, 3, 0, &[2], "88aa")
    );
    // CDIAL does not override a response; without CDPNNP nothing is withheld.
    let open = "open sets 8 rules 8 cc 55 dfltrn - a - b - answers 2 2 2 2";
    let set = "add-set 0 class 3 ca DNX,CCDEF sa INPRTG,CDPNNP,CDIAL fa DN";
    let bench = Bench::new(&[open, set, "add-rule NATL * * 0"]);
    assert_eq!(
        bench.answer("number NATL 7 RN 1 asd - grn -"),
        answered(2, 1, 2, &[1], "")
    );
    assert_eq!(
        number("sa ASDLKUP fa ASD,DN", none),
        answered(4, 3, 0, &[3], "7")
    );
}

#[test]
fn r36_r37_the_listing() {
    let rules = [
        "2 * *", "1 2 *", "1 1a *", "1 * 3", "1 * *", "1 19 9", "1 1 *", "1 19 *", "1 * 20",
        "0 f *", "1 19 10",
    ];
    let mut text = vec!["open sets 1 rules 11 cc 5 dfltrn - a - b - answers 1 1 1 1".to_string()];
    text.push("add-set 0 class 255 ca - sa - fa -".to_string());
    text.extend(rules.iter().map(|rule| format!("add-rule {rule} 0")));
    text.push("list".to_string());
    let text: Vec<&str> = text.iter().map(String::as_str).collect();
    let listed = "0 f * 0\n1 * 3 0\n1 * 20 0\n1 * * 0\n1 1 * 0\n1 19 9 0\n1 19 10 0\n1 19 * 0\n1 1a * 0\n1 2 * 0\n2 * * 0\nend 11\n";
    assert_eq!(lines_of(&text), "ok\n".repeat(13) + listed);
}

/// The longest conditioned number: three digits before 32.
#[test]
fn thirty_five_digits() {
    let open = "open sets 8 rules 8 cc 551 dfltrn - a - b - answers 1 1 1 1";
    let bench = Bench::new(&[open, S1, "add-rule NATL * * 0"]);
    let long = "7".repeat(32);
    assert_eq!(bench.conditioned(1, &long), (0, format!("551{long}")));
}
