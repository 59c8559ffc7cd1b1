//! Opens a plan, adds a set and a rule, answers a number, lists the rules, and shows a removal that is
//! refused. It writes what include/example.c writes. `rust/build` builds it.

use npp::bodies::{self, Lookup, Settings};
use npp::{ca, digits_of, fa, sa, text_of};
use npp::{Class, Plan, Refusal, Response, SetNumber, DIGIT_BUFFER_BYTES};

const SETS: u16 = 8;
const RULES: u16 = 8;

fn main() -> Result<(), Refusal> {
    // Country code 55, no DFLTRN, no delimiters, RELAY for every lookup kind, accepting 0.
    let settings = Settings::of_country(&[5, 5]);
    let opening = bodies::open(SETS, RULES, &settings).expect("a country code of 1 to 3 digits");
    let mut plan = Plan::new(SETS, RULES);
    plan.open(&opening)?;
    println!("open: ok");

    // Set 0, document 01's S1: DNX, CCDEF; CDPNNP; RN, DN; class 255.
    let s1 = SetNumber(0);
    let conditioning = [(ca::DNX, 0), (ca::CCDEF, 0)];
    let set = bodies::set(s1, None, &conditioning, &[sa::CDPNNP], &[fa::RN, fa::DN]);
    plan.add_set(&set.expect("at most 12, 8 and 12 actions"))?;
    println!("add set 0: ok");

    // NATL, both wildcards, set 0.
    let rule = bodies::rule(Class::NATL, &[], 0, s1).expect("a prefix of at most 16 digits");
    plan.add_rule(&rule)?;
    println!("add rule 1 * * 0: ok");

    // NATL 87654321, with RN 0015.
    let digits = digits_of("87654321").expect("digits");
    let rn = digits_of("0015").expect("digits");
    let number = bodies::number(Class::NATL, &digits, &Lookup::rn(&rn)).expect("few digits");
    let mut out = [0; DIGIT_BUFFER_BYTES];
    let answer = plan.answer(&number, &mut out)?;
    println!("number 87654321, RN 0015: ok");
    println!(
        "outcome {}, class {}, response {}, actions {}, digits {}",
        answer.outcome.code(),
        answer.class.code(),
        answer.response.map_or(0, Response::code),
        answer.count,
        text_of(answer.digits)
    );

    // A line for each rule: class, prefix, length and set, "*" for a wildcard.
    let rules = plan.rules()?;
    println!("list: ok");
    for rule in rules {
        println!("{rule}");
    }
    println!("end {}", plan.rule_count()?);

    // A rule names set 0, so that it stays: IN USE.
    match plan.remove_set(&bodies::set_number(s1)) {
        Ok(()) => println!("remove set 0: ok"),
        Err(refusal) => println!("remove set 0: no {}", refusal.number()),
    }
    Ok(())
}
