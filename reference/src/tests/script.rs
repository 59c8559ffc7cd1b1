//! The `calls` mode: the form of every line, and faults in a script.

use super::support::*;
use crate::script::{self, from_hex, to_hex, Machine};

fn line(machine: &mut Machine, call: &str) -> String {
    machine.carry_out(call).expect(call).expect("a line")
}

#[test]
fn the_form_of_every_line() {
    let mut machine = Machine::default();
    let mut bench = Bench::new(&[]);
    bench.memory = vec![7; 136];
    let out = "ee".repeat(36);
    assert_eq!(line(&mut machine, "show"), "show -");
    assert_eq!(line(&mut machine, "fill 136 7"), "fill 136");
    assert_eq!(line(&mut machine, "sound"), "sound 0");
    assert_eq!(line(&mut machine, "rule_count"), "rule_count 3 0");
    let open = "open sets 1 rules 1 cc 55 dfltrn - a - b - answers 1 1 1 1";
    for (name, record) in [
        ("open", open),
        ("add_set", S1),
        ("add_rule", "add-rule NATL 87 * 0"),
    ] {
        assert_eq!(bench.provision(record), 0);
        let written = line(&mut machine, &format!("{name} {}", to_hex(&body(record))));
        assert_eq!(written, format!("{name} 0 {}", to_hex(&bench.memory)));
    }
    assert_eq!(line(&mut machine, "sound"), "sound 1");
    assert_eq!(line(&mut machine, "rule_count"), "rule_count 0 1");
    assert_eq!(line(&mut machine, "rule_at 0"), "rule_at 0 1 0807 0 0");
    assert_eq!(line(&mut machine, "rule_at 1"), "rule_at 5 0 - 0 0");
    assert_eq!(line(&mut machine, "referrers 0"), "referrers 0 1");
    assert_eq!(line(&mut machine, "referrers 1"), "referrers 5 0");
    assert_eq!(line(&mut machine, "stretch 1 080706 4"), "stretch 0 3");
    assert_eq!(line(&mut machine, "stretch 1 - 4"), "stretch 0 0");
    let number = to_hex(&body("number NATL 876 RN 15 asd - grn -"));
    let digits = "0105080706";
    assert_eq!(
        line(&mut machine, &format!("answer {number} {out}")),
        format!("answer 0 4 1 0 1 0200000000000000 5 {digits}{}", &out[10..])
    );
    assert_eq!(
        line(&mut machine, &format!("answer {number} ee")),
        "answer 4 0 0 0 0 0000000000000000 0 ee"
    );
    assert_eq!(
        line(&mut machine, &format!("conditioned 1 080706 {out}")),
        format!("conditioned 0 5 0505080706{}", &out[10..])
    );
    assert_eq!(
        line(&mut machine, "conditioned 1 080706 -"),
        "conditioned 4 0 -"
    );
    let content = to_hex(&body(S1));
    assert_eq!(
        line(&mut machine, &format!("set_content 0 {}", "ee".repeat(48))),
        format!("set_content 0 47 {content}ee")
    );
    assert_eq!(line(&mut machine, "poke 63 1"), "poke 63 1");
    assert_eq!(line(&mut machine, "sound"), "sound 0");
    bench.memory[63] = 1;
    let memory = to_hex(&bench.memory);
    assert_eq!(
        line(&mut machine, "remove_set 0000"),
        format!("remove_set 3 {memory}")
    );
    assert_eq!(
        line(&mut machine, "replay 03000003 eeee"),
        format!("replay 1 03ee {memory}")
    );
    assert_eq!(line(&mut machine, "memory 0102"), "memory 2");
    assert_eq!(line(&mut machine, "show"), "show 0102");
}

/// One row of 1,000 (3e8) for every number, as a body and as a list.
const ROW: &str = "0000000000000000000000000000000000000003e8";
const LIST: &str = "000100000000000000000000000000000000000000000003e8";

#[test]
fn the_form_of_the_lines_with_prices() {
    let mut machine = Machine::default();
    let add = format!("add_price {ROW}");
    assert_eq!(line(&mut machine, "prices -"), "prices -");
    assert_eq!(line(&mut machine, &add), format!("add_price 0 {LIST}"));
    assert_eq!(line(&mut machine, &add), format!("add_price 7 {LIST}"));
    assert_eq!(
        line(&mut machine, "add_price 00"),
        format!("add_price 1 {LIST}")
    );
    assert_eq!(line(&mut machine, "poke_price 6145 1"), "poke_price 6145 1");
    assert!(line(&mut machine, &add).starts_with("add_price 5 "));
    let set = format!("prices {LIST}");
    assert_eq!(line(&mut machine, &format!("{set}0000")), set);
    assert_eq!(line(&mut machine, &add), format!("add_price 7 {LIST}"));
    for fault in [
        "poke_price 6146 0",
        "poke_price 0 256",
        "add_price",
        &format!("prices {}", "00".repeat(6147)),
    ] {
        assert!(machine.carry_out(fault).is_err(), "{fault}");
    }
}

/// 60 seconds (3c) at 1,000 are 60,000 (ea60) units, and 600 (258) billed are
/// 36,000 (8ca0): a loss of 24,000.
#[test]
fn the_form_of_the_lines_with_a_ledger() {
    let mut machine = Machine::default();
    machine.memory = Bench::new(&[OPEN, S1, "add-rule NATL * * 0"]).memory;
    line(&mut machine, &format!("add_price {ROW}"));
    assert_eq!(line(&mut machine, "ledger - -"), "ledger - -");
    let written = ["district_loss 1", "total_loss"].map(|call| line(&mut machine, call));
    assert_eq!(written, ["district_loss 0 0 0 0", "total_loss 0 1 0 0"]);
    let out = "ee".repeat(36);
    let number = to_hex(&body("number NATL 876 RN 15 asd - grn -"));
    let call = format!("take_call 0000000900010000003c00000258{number} {out}");
    let sums = "0000000000000001000000000000ea600000000000008ca0";
    let answer = format!("0 4 1 0 1 0200000000000000 5 0105080706{}", &out[10..]);
    let ledger = format!("{sums} {}{sums}", "00".repeat(24));
    assert_eq!(
        line(&mut machine, &call),
        format!("take_call {answer} {ledger}")
    );
    let losses = ["district_loss 1", "total_loss", "district_loss 512"];
    assert_eq!(
        losses.map(|call| line(&mut machine, call)),
        [
            "district_loss 0 1 24000 0",
            "total_loss 0 1 24000 0",
            "district_loss 5 0 0 0"
        ]
    );
    // One record over the limit of 10,000,000 (989680), and below zero.
    for whole in ["0000000000989681", "ffffffffffffffff"] {
        let set = format!("ledger {whole} -");
        assert_eq!(line(&mut machine, &set), set);
        let refused = format!("5 0 0 0 0 0000000000000000 0 {out} {whole} -");
        assert_eq!(line(&mut machine, &call), format!("take_call {refused}"));
        assert_eq!(line(&mut machine, "total_loss"), "total_loss 5 0 0 0");
    }
}

#[test]
fn faults_in_the_lines_with_a_ledger() {
    for fault in [
        "ledger - 00",
        "ledger -",
        &format!("ledger {} -", "00".repeat(32)),
        &format!("ledger - {}", "00".repeat(8 * 1537)),
        "district_loss 65536",
        "district_loss",
        "total_loss 1",
        "take_call -",
    ] {
        assert!(Machine::default().carry_out(fault).is_err(), "{fault}");
    }
}

/// The memory is the left plan; the right one stands in the line.
#[test]
fn the_form_of_a_line_that_compares() {
    let mut machine = Machine::default();
    let right = to_hex(&Bench::new(&[OPEN, S1, "add-rule NATL * * 0"]).memory);
    machine.memory = Bench::new(&[OPEN]).memory;
    let entry = format!("0201{}ffff0000", "00".repeat(18));
    let calls = [
        (
            format!("compare {right} {}", "ee".repeat(25)),
            format!("0 1 {entry}ee"),
        ),
        (
            format!("compare {right} {}", "ee".repeat(24)),
            format!("0 1 {entry}"),
        ),
        (
            format!("compare {right} {}", "ee".repeat(23)),
            format!("4 0 {}", "ee".repeat(23)),
        ),
        (
            format!("compare {} -", to_hex(&machine.memory)),
            "0 0 -".to_string(),
        ),
        ("compare 00 -".to_string(), "3 0 -".to_string()),
    ];
    for (call, written) in calls {
        assert_eq!(line(&mut machine, &call), format!("compare {written}"));
    }
    for fault in ["compare", "compare -", "compare - - -", "compare 0 -"] {
        assert!(machine.carry_out(fault).is_err(), "{fault}");
    }
}

#[test]
fn lines_that_are_passed_over_and_faults() {
    let mut machine = Machine::default();
    assert_eq!(machine.carry_out(""), Ok(None));
    assert_eq!(machine.carry_out("# open"), Ok(None));
    for fault in [
        "nonsense",
        "open",
        "open 0",
        "open 0g",
        "open - -",
        "poke 0 0",
        "fill 1 256",
        "referrers 65536",
        "stretch 256 - 1",
        "rule_count 1",
        "answer -",
    ] {
        assert!(machine.carry_out(fault).is_err(), "{fault}");
    }
    let mut written = Vec::new();
    let result = script::run("fill 1 0\nnonsense\nshow\n".as_bytes(), |line| {
        written.push(line.to_string());
        Ok(())
    });
    assert!(result.is_err_and(|fault| fault.to_string().starts_with("line 2: ")));
    assert_eq!(written, ["fill 1"]);
}

#[test]
fn hex_bytes() {
    assert_eq!(from_hex("00ffA0"), Ok(vec![0, 255, 160]));
    assert_eq!(from_hex("-"), Ok(vec![]));
    assert_eq!(to_hex(&[0, 255, 160]), "00ffa0");
}
