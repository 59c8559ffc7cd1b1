//! C-12, a subscriber without entity is still ours: the request's own example,
//! and one test for each of its places in docs/DECISIONS.md.

use super::support::*;
use crate::bodies;
use crate::calls::{self, Answered};
use crate::rules::{RulePlace, SetNumber};
use crate::text;

/// Every lookup kind, in the order of the kinds.
const LOOKUPS: [&str; 4] = ["NONE -", "NOENTITY -", "RN 0015", "SP 77"];

/// An opening whose settings a test varies.
fn opening(dfltrn: &str, answers: &str, accepting: u8) -> String {
    format!(
        "open sets 8 rules 8 cc 55 dfltrn {dfltrn} a d b - answers {answers} accepting {accepting}"
    )
}

/// 87654321 under one set with this content and the rule NATL */*.
struct Case {
    bench: Bench,
}

impl Case {
    fn new(opening: &str, content: &str) -> Case {
        let set = format!("add-set 0 {content}");
        let bench = Bench::new(&[opening, &set, "add-rule NATL * * 0"]);
        Case { bench }
    }

    fn answer(&self, lookup: &str) -> (Answered, String) {
        self.answer_with(lookup, "asd - grn -")
    }

    fn answer_with(&self, lookup: &str, data: &str) -> (Answered, String) {
        self.bench
            .answer(&format!("number NATL 87654321 {lookup} {data}"))
    }
}

/// UNCHANGED, with the incoming class and no digits.
fn withheld(response: u8, actions: &[u8]) -> (Answered, String) {
    answered(3, 1, response, actions, "")
}

fn formatted(response: u8, actions: &[u8], digits: &str) -> (Answered, String) {
    answered(4, 1, response, actions, digits)
}

/// S1 with 87654321 and kind 1, as any class.
#[test]
fn the_requests_example() {
    let open = "open sets 8 rules 8 cc 55 dfltrn - a - b - answers 1 1 1 1 accepting 1";
    for class in 0..=5 {
        let rule = format!("add-rule {class} * * 0");
        let bench = Bench::new(&[open, S1, &rule]);
        assert_eq!(
            bench.answer(&format!("number {class} 87654321 NOENTITY - asd - grn -")),
            answered(4, class, 0, &[2], "87654321")
        );
    }
}

#[test]
fn c12_1_the_values_of_the_byte() {
    let sound = Bench::new(&[OPEN, S1, "add-rule NATL * * 0"]);
    for value in 0..=255 {
        let in_range = value <= 1;
        let open = opening("-", "1 1 1 1", value);
        let (number, line, without_room) = match in_range {
            true => (0, "ok\n", 4),
            false => (5, "no 5\n", 5),
        };
        assert_eq!(sound.clone().provision(&open), number, "{open}");
        assert_eq!(lines_of(&[&open]), line, "{open}");
        let opened = calls::open(&mut [], &body(&open));
        assert_eq!(calls::refusal_number(opened), without_room, "{open}");
        let mut held = sound.clone();
        held.memory[48] = value;
        assert_eq!(calls::sound(&held.memory), in_range, "held {value}");
        if !in_range {
            draws_plan(&mut held);
        }
    }
}

/// Every call draws PLAN but an opening.
fn draws_plan(bench: &mut Bench) {
    for line in [
        S2,
        "replace-set 0 class 255 ca - sa - fa -",
        "remove-set 0",
        "add-rule INTL * * 0",
        "change-rule NATL * * 0",
        "remove-rule NATL * *",
    ] {
        assert_eq!(bench.provision(line), 3, "{line}");
    }
    assert_eq!(
        bench.answer("number NATL 87654321 NOENTITY - asd - grn -"),
        refused(3)
    );
    assert_eq!(bench.conditioned(1, "87654321"), (3, String::new()));
    assert_eq!(bench.stretch(1, "87654321", 4), (0, 0));
    let mut out = [FILLING; 47];
    let (memory, set) = (&bench.memory, SetNumber(0));
    let numbers = [
        calls::refusal_number(calls::set_content(memory, set, &mut out)),
        calls::refusal_number(calls::referrers(memory, set)),
        calls::refusal_number(calls::rule_count(memory)),
        calls::refusal_number(calls::rule_at(memory, RulePlace(0))),
    ];
    assert_eq!((numbers, out), ([3; 4], [FILLING; 47]));
    assert_eq!(bench.provision(OPEN), 0);
}

#[test]
fn c12_1_a_body_of_40_bytes_is_cut() {
    let record = record(&opening("-", "1 1 1 1", 1));
    assert_eq!(record.len(), 1 + bodies::OPENING);
    assert_eq!(bodies::OPENING, 41);
    let mut bench = Bench::new(&[]);
    assert_eq!(bench.provision_bytes(&record[..41]), 1);
    assert_eq!(bench.provision_bytes(&record), 0);
    assert_eq!(lines(&record[..41]), "no 1\n");
    assert_eq!(lines(&record), "ok\n");
    // Short, although a byte is out of range.
    let outside = [&[0, 255], &record[2..41]].concat();
    assert_eq!(bench.provision_bytes(&outside), 1);
}

/// No record is unsuccessful under both values; kind 1 goes by the byte; kinds
/// 2 and 3 succeed under both.
#[test]
fn c12_2_the_four_lookup_kinds() {
    for (dfltrn, default) in [("-", ""), ("0099", "0099")] {
        for accepting in [0, 1] {
            let open = opening(dfltrn, "1 1 1 1", accepting);
            let case = Case::new(&open, "class 255 ca DNX,CCDEF sa CDPNNP fa RN,DN");
            let without_entity = match accepting {
                0 => withheld(0, &[2]),
                _ => formatted(0, &[2], "87654321"),
            };
            let expected = [
                withheld(0, &[2]),
                without_entity,
                formatted(0, &[2], "001587654321"),
                formatted(0, &[2], &format!("{default}87654321")),
            ];
            assert_eq!(LOOKUPS.map(|lookup| case.answer(lookup)), expected);
        }
    }
}

/// Each answer of INPRTG for each lookup kind: the response is the same under
/// both values, and CDPNNP is carried out behind RELAY alone.
#[test]
fn c12_3_inprtg_is_not_touched() {
    for accepting in [0, 1] {
        for (kind, lookup) in LOOKUPS.iter().enumerate() {
            for response in 1..=4 {
                let mut answers = ["1"; 4];
                let digit = response.to_string();
                answers[kind] = &digit;
                let open = opening("0099", &answers.join(" "), accepting);
                let case = Case::new(&open, "class 255 ca DNX,CCDEF sa INPRTG,CDPNNP fa SP,DN");
                let expected = match (response, kind, accepting) {
                    (2..=4, _, _) => answered(2, 1, response, &[1], ""),
                    (_, 0, _) | (_, 1, 0) => withheld(1, &[1, 2]),
                    (_, 3, _) => formatted(1, &[1, 2], "7787654321"),
                    _ => formatted(1, &[1, 2], "87654321"),
                };
                assert_eq!(case.answer(lookup), expected, "{open}, {lookup}");
            }
        }
    }
}

/// RN and SP add nothing for kind 1, whether DFLTRN is configured or not; the
/// other kinds keep theirs.
#[test]
fn c12_4_rn_and_sp_are_empty() {
    for (dfltrn, default) in [("-", ""), ("0099", "0099")] {
        for accepting in [0, 1] {
            let open = opening(dfltrn, "1 1 1 1", accepting);
            let case = Case::new(
                &open,
                "class 255 ca DNX,CCDEF sa CDPNNP fa RN,DLMA,SP,RN,DN",
            );
            let without_entity = match accepting {
                0 => withheld(0, &[2]),
                _ => formatted(0, &[2], "d87654321"),
            };
            let expected = [
                withheld(0, &[2]),
                without_entity,
                formatted(0, &[2], "0015d001587654321"),
                formatted(0, &[2], &format!("{default}d77{default}87654321")),
            ];
            assert_eq!(LOOKUPS.map(|lookup| case.answer(lookup)), expected);
            // Nothing but RN and SP to send: FORMATTED with no digits.
            let case = Case::new(&open, "class 255 ca DNX,CCDEF sa CDPNNP fa RN,SP");
            let expected = match accepting {
                0 => withheld(0, &[2]),
                _ => formatted(0, &[2], ""),
            };
            assert_eq!(case.answer("NOENTITY -"), expected);
        }
    }
}

/// ASD and GRN are set under both values: seen where nothing is withheld.
#[test]
fn c12_5_asd_and_grn() {
    let content = |services: &str| format!("class 255 ca DNX,CCDEF sa {services} fa ASD,DN,GRN");
    let data = "asd 12 grn 34";
    for accepting in [0, 1] {
        let open = opening("0099", "1 1 1 1", accepting);
        // Without CDPNNP, and with CDIAL, the byte decides nothing.
        let looked_up = Case::new(&open, &content("ASDLKUP,GRNLKUP"));
        let lifted = Case::new(&open, &content("CDPNNP,GRNLKUP,ASDLKUP,CDIAL"));
        for lookup in &LOOKUPS[1..] {
            assert_eq!(
                looked_up.answer_with(lookup, data),
                formatted(0, &[3, 4], "128765432134")
            );
            assert_eq!(
                lifted.answer_with(lookup, data),
                formatted(0, &[2, 4, 3, 5], "128765432134")
            );
        }
        assert_eq!(
            looked_up.answer("NONE -"),
            formatted(0, &[3, 4], "87654321")
        );
        assert_eq!(
            lifted.answer("NONE -"),
            formatted(0, &[2, 4, 3, 5], "87654321")
        );
        let ported = Case::new(&open, &content("CDPNNP,ASDLKUP,GRNLKUP"));
        let expected = match accepting {
            0 => withheld(0, &[2, 3, 4]),
            _ => formatted(0, &[2, 3, 4], "128765432134"),
        };
        assert_eq!(ported.answer_with("NOENTITY -", data), expected);
        // A record without entity may have no data either.
        let expected = match accepting {
            0 => withheld(0, &[2, 3, 4]),
            _ => formatted(0, &[2, 3, 4], "87654321"),
        };
        assert_eq!(ported.answer("NOENTITY -"), expected);
    }
}

/// CDIAL lifts the withholding of kinds 0 and 1 under both values.
#[test]
fn cdial_formats_under_both_values() {
    let all = ["87654321", "87654321", "001587654321", "009987654321"];
    for accepting in [0, 1] {
        let open = opening("0099", "1 1 1 1", accepting);
        let case = Case::new(&open, "class 255 ca DNX,CCDEF sa CDPNNP,CDIAL fa RN,DN");
        for (lookup, digits) in LOOKUPS.iter().zip(all) {
            assert_eq!(case.answer(lookup), formatted(0, &[2, 5], digits));
        }
    }
}

/// What formatting brings with it comes to kind 1 too: the set's class, and
/// LONG.  Conditioning comes before: SHORT under both values.
#[test]
fn kind_1_is_formatted_like_the_others() {
    let content = "class HOUSE3 ca IGN1,DNX,CCDEF sa CDPNNP fa DLMA,DLMA,RN,DN";
    for accepting in [0, 1] {
        let bench = Case::new(&opening("-", "1 1 1 1", accepting), content).bench;
        let number = |count: usize| {
            bench.answer(&format!(
                "number NATL {} NOENTITY - asd - grn -",
                "7".repeat(count)
            ))
        };
        assert_eq!(number(1), refused(12));
        let sent = format!("dd{}", "7".repeat(30));
        if accepting == 0 {
            assert_eq!(
                [number(31), number(32)],
                [(); 2].map(|()| withheld(0, &[2]))
            );
        } else {
            assert_eq!(number(31), answered(4, 3, 0, &[2], &sent));
            assert_eq!(number(32), refused(13));
        }
        assert_eq!(bench.conditioned(1, "7777"), (0, "55777".to_string()));
    }
}

/// A sound plan of this build but for the mark of the one before.
#[test]
fn c12_6_the_mark_of_the_layout_before() {
    for accepting in [0, 1] {
        let open = opening("-", "1 1 1 1", accepting);
        let mut bench = Bench::new(&[&open, S1, "add-rule NATL * * 0"]);
        assert_eq!(bench.memory[..4], *b"NPP2");
        assert_eq!(bench.memory[48], accepting);
        assert!(calls::sound(&bench.memory));
        bench.memory[3] = b'1';
        assert!(!calls::sound(&bench.memory));
        draws_plan(&mut bench);
        assert_eq!(bench.memory[..4], *b"NPP2");
    }
}

/// Behind an opening of 40 bytes the next record's kind byte is taken for the
/// 41st.
#[test]
fn c12_7_files_of_the_build_before() {
    let old = &record(OPEN)[..41];
    assert_eq!(lines(&[old, &record("list")].concat()), "no 5\n");
    // The kind byte 1 is in range; reading goes on within that record's body.
    let taken = lines(&[old, &record(S1)].concat());
    assert!(taken.starts_with("ok\n") && taken != "ok\nok\n");
}

/// An opening takes the place of the settings too; a refused one does not.
#[test]
fn the_opening_in_force() {
    let number = "number NATL 87654321 NOENTITY - asd - grn -";
    let open = |accepting| opening("-", "1 1 1 1", accepting);
    let plan = [S1, "add-rule NATL * * 0", number];
    let written = lines_of(
        &[
            &[&open(1)[..]][..],
            &plan,
            &[&open(2), number, &open(0)],
            &plan,
            &[&open(255), number],
        ]
        .concat(),
    );
    let (formatted, unchanged) = ("4 1 0 1 87654321\n", "3 1 0 1 -\n");
    let expected = [
        "ok\nok\nok\n",
        formatted,
        "no 5\n",
        formatted,
        "ok\nok\nok\n",
        unchanged,
        "no 5\n",
        unchanged,
    ];
    assert_eq!(written, expected.concat());
}

#[test]
fn accepting_in_readable_records() {
    let left_out = "open sets 8 rules 8 cc 55 dfltrn - a - b - answers 1 1 1 1";
    for value in 0..=255 {
        let bytes = record(&format!("{left_out} accepting {value}"));
        assert_eq!(bytes.len(), 42);
        assert_eq!(bytes[41], value);
        assert_eq!(bytes[..41], record(left_out)[..41]);
    }
    assert_eq!(record(left_out), record(&format!("{left_out} accepting 0")));
    for behind in ["1", "accepting", "accepting 256", "accepting 1 1", "b 1"] {
        assert!(text::record(&format!("{left_out} {behind}")).is_err());
    }
}
