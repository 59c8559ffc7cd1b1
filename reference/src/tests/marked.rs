//! Document 01's marked examples M1 to M12, all fields, and its run given whole.

use super::support::*;
use crate::layout;
use crate::rules::{choose, Class};

const NUMBER: &str = "b33909087654321";

/// The prefix and the length of the filter that is chosen.
fn chosen(bench: &Bench, class: Class, number: &str) -> Option<(String, Option<u8>)> {
    let plan = layout::decode(&bench.memory).expect("a sound plan");
    let rules = plan.rules.iter().map(|(filter, &set)| (filter, set));
    let filter = choose(rules, class, &digits(number)).map(|(filter, _)| filter)?;
    Some((in_text(&filter.prefix), filter.length))
}

#[test]
fn the_run_given_whole() {
    let expected =
        "ok\nok\nok\n4 1 0 1 001587654321\n3 1 0 1 -\n0 0 0 0 -\nno 11\n1 * * 0\nend 1\n";
    let written = lines_of(&[
        "open sets 4 rules 8 cc 55 dfltrn - a - b - answers 1 1 1 1",
        S1,
        "add-rule NATL * * 0",
        "number NATL 87654321 RN 0015 asd - grn -",
        "number NATL 87654321 NONE - asd - grn -",
        "number INTL 87654321 NONE - asd - grn -",
        "remove-set 0",
        "list",
    ]);
    assert_eq!(written, expected);
}

#[test]
fn m1_m2_m3_the_choice() {
    let mut bench = Bench::new(&[
        OPEN,
        S2,
        "add-rule UNKNOWN b 15 1",
        "add-rule UNKNOWN b339090 * 1",
    ]);
    assert_eq!(
        chosen(&bench, Class::UNKNOWN, NUMBER),
        Some(("b339090".to_string(), None))
    );
    assert_eq!(bench.provision("add-rule UNKNOWN b339090 15 1"), 0);
    assert_eq!(
        chosen(&bench, Class::UNKNOWN, NUMBER),
        Some(("b339090".to_string(), Some(15)))
    );
    assert_eq!(chosen(&bench, Class::NATL, NUMBER), None);
    let number = format!("number NATL {NUMBER} NONE - asd - grn -");
    assert_eq!(bench.answer(&number), answered(0, 1, 0, &[], ""));
}

#[test]
fn m4_short() {
    let bench = Bench::new(&[OPEN, S1, "add-rule NATL * * 0"]);
    assert_eq!(
        bench.answer("number NATL - NONE - asd - grn -"),
        refused(12)
    );
    assert_eq!(bench.conditioned(1, ""), (12, String::new()));
}

#[test]
fn m5_m6_collect_call() {
    let bench = Bench::new(&[OPEN, S2, "add-rule UNKNOWN * * 1"]);
    assert_eq!(
        bench.conditioned(2, NUMBER),
        (0, "553387654321".to_string())
    );
    let number = format!("number UNKNOWN {NUMBER} NONE - asd - grn -");
    assert_eq!(
        bench.answer(&number),
        answered(4, 1, 0, &[2, 5], "90903387654321")
    );
}

#[test]
fn m7_m8_service_provider() {
    let number = "number NATL 87654321 SP 77 asd - grn -";
    let bench = Bench::new(&[OPEN, S1, "add-rule NATL * * 0"]);
    assert_eq!(bench.answer(number), answered(4, 1, 0, &[2], "87654321"));
    let open = "open sets 8 rules 8 cc 55 dfltrn 0099 a - b - answers 1 1 1 1";
    let bench = Bench::new(&[open, S1, "add-rule NATL * * 0"]);
    assert_eq!(
        bench.answer(number),
        answered(4, 1, 0, &[2], "009987654321")
    );
}

#[test]
fn m9_long() {
    let bench = Bench::new(&[OPEN, S1, "add-rule NATL * * 0"]);
    let number = format!("number NATL {} RN 1 asd - grn -", "7".repeat(32));
    assert_eq!(bench.answer(&number), refused(13));
    let number = format!("number NATL {} RN 1 asd - grn -", "7".repeat(31));
    assert_eq!(
        bench.answer(&number),
        answered(4, 1, 0, &[2], &format!("1{}", "7".repeat(31)))
    );
}

#[test]
fn m10_groups() {
    let mut bench = Bench::new(&[OPEN]);
    let set = "add-set 0 class 255 ca DNX,CCDEF sa ASDLKUP,CDPNNP fa RN,DN";
    assert_eq!(bench.provision(set), 6);
}

#[test]
fn m11_misfit() {
    let mut bench = Bench::new(&[OPEN, S2]);
    assert_eq!(bench.provision("add-rule UNKNOWN b 7 1"), 9);
    assert_eq!(bench.provision("add-rule UNKNOWN b 8 1"), 0);
}

#[test]
fn m12_responded() {
    let bench = Bench::new(&[
        "open sets 8 rules 8 cc 55 dfltrn - a - b - answers 4 1 1 1",
        "add-set 0 class 255 ca DNX,CCDEF sa INPRTG,CDPNNP fa RN,DN",
        "add-rule NATL * * 0",
    ]);
    let number = "number NATL 87654321 NONE - asd - grn -";
    assert_eq!(bench.answer(number), answered(2, 1, 4, &[1], ""));
}
