//! The example files: each holds the result that its paper expects.  Beside
//! them what a record cannot show: the order of actions, the stretches.

use super::support::*;
use crate::text;
use std::fs;

fn examples() -> Vec<(String, String)> {
    let folder = fs::read_dir("examples").expect("the tests run in reference/");
    let mut files: Vec<_> = folder
        .map(|entry| entry.expect("an entry").path())
        .collect();
    files.sort();
    let content = |path: &std::path::PathBuf| {
        (
            path.display().to_string(),
            fs::read_to_string(path).expect("a readable file"),
        )
    };
    files.iter().map(content).collect()
}

#[test]
fn every_example_file_gives_what_its_paper_says() {
    let examples = examples();
    assert_eq!(examples.len(), 35);
    for (name, content) in examples {
        assert!(content.starts_with("# "), "{name} says where it is from");
        let bytes = text::records(&content).expect(&name);
        assert_eq!(lines(&bytes), text::expected(&content), "{name}");
    }
}

/// 001, table 4-4: actions of equal precedence are carried out in list order.
#[test]
fn table_4_4_order_of_actions() {
    let groups: [(&str, &[u8]); 4] = [
        ("INPRTG,ASDLKUP,GRNLKUP,CDIAL", &[1, 3, 4, 5]),
        ("INPRTG,GRNLKUP,ASDLKUP,CDIAL", &[1, 4, 3, 5]),
        ("ASDLKUP,GRNLKUP", &[3, 4]),
        ("GRNLKUP,ASDLKUP", &[4, 3]),
    ];
    for (services, codes) in groups {
        let set = format!("add-set 0 class 255 ca ZNX sa {services} fa ZN");
        let bench = Bench::new(&[OPEN, &set, "add-rule INTL * * 0"]);
        let response = u8::from(codes[0] == 1);
        let number = "number INTL 449 NOENTITY - asd a5d grn a5d";
        assert_eq!(bench.answer(number), answered(4, 0, response, codes, "449"));
    }
}

/// 001, table 4-2: where each value stands in b33909087654321.
#[test]
fn table_4_2_stretches() {
    let bench = Bench::new(&[OPEN, S2, "add-rule UNKNOWN b 15 1"]);
    let number = "b33909087654321";
    let expected = [
        (1, (0, 0)),
        (2, (1, 2)),
        (3, (7, 8)),
        (4, (0, 0)),
        (7, (3, 4)),
    ];
    for (value, stretch) in expected {
        assert_eq!(bench.stretch(2, number, value), stretch, "value {value}");
    }
    assert_eq!(
        bench.conditioned(2, number),
        (0, "553387654321".to_string())
    );
}

/// 001, conditioning example 1.
#[test]
fn conditioning_example_1() {
    let bench = Bench::new(&[OPEN, S1, "add-rule NATL * * 0"]);
    assert_eq!(
        bench.conditioned(1, "87654321"),
        (0, "5587654321".to_string())
    );
}

/// 001, conditioning example 2: an escaped number has no conditioned one.
#[test]
fn conditioning_example_2() {
    let set = "add-set 0 class 255 ca - sa - fa -";
    let bench = Bench::new(&[OPEN, set, "add-rule INTL 011 * 0"]);
    assert_eq!(bench.conditioned(0, "011449192252645"), (0, String::new()));
    assert_eq!(bench.conditioned(0, "449192252645"), (0, String::new()));
}

/// 000, NPPT scenarios 1 and 2: the conditioned digits.
#[test]
fn nppt_scenarios() {
    let set = "add-set 0 class INTL ca IGN4,CC2,DN10 sa CDPNNP fa CC,RN,DN";
    let bench = Bench::new(&[OPEN, set, "add-rule INTL 9090 16 0"]);
    assert_eq!(
        bench.conditioned(0, "9090920292252645"),
        (0, "920292252645".to_string())
    );
    let open = "open sets 8 rules 8 cc 98 dfltrn - a - b - answers 1 1 1 1";
    let set = "add-set 0 class NATL ca CCDEF,IGN3,DN10 sa CDPNNP fa RN,SP";
    let bench = Bench::new(&[open, set, "add-rule NATL 060 13 0"]);
    assert_eq!(
        bench.conditioned(1, "0609192252645"),
        (0, "989192252645".to_string())
    );
}
