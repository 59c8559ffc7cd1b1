//! Holds the library against the second implementation, call by call: see
//! README.md.

// Parts of the shared modules serve stages that may be left out.
#![cfg_attr(
    not(all(
        stage_plan,
        stage_provision,
        stage_number,
        stage_listing,
        stage_loss,
        stage_compare
    )),
    allow(dead_code)
)]

mod alike;
mod bench;
#[path = "../../rust/src/c.rs"]
mod c;
mod lent;
mod maker;
mod random;
#[cfg(stage_compare)]
mod stage_compare;
#[cfg(stage_listing)]
mod stage_listing;
#[cfg(stage_loss)]
mod stage_loss;
#[cfg(stage_number)]
mod stage_number;
#[cfg(stage_plan)]
mod stage_plan;
#[cfg(stage_provision)]
mod stage_provision;

use bench::Bench;
use std::process::exit;

type Stage = (&'static str, fn(&mut Bench));

const STAGES: &[Stage] = &[
    #[cfg(stage_plan)]
    ("plan", stage_plan::run),
    #[cfg(stage_provision)]
    ("provision", stage_provision::run),
    #[cfg(stage_number)]
    ("number", stage_number::run),
    #[cfg(stage_listing)]
    ("listing", stage_listing::run),
    #[cfg(stage_loss)]
    ("loss", stage_loss::run),
    #[cfg(stage_compare)]
    ("compare", stage_compare::run),
];

fn main() {
    let mut words: Vec<String> = std::env::args().skip(1).collect();
    let trace = words.first().is_some_and(|word| word == "--trace");
    if trace {
        words.remove(0);
    }
    let seed = words.first().map_or(Some(1), |word| word.parse().ok());
    let size = words.get(1).map_or(Some(1.0), |word| word.parse().ok());
    let (Some(seed), Some(size)) = (seed, size) else {
        usage()
    };
    if words.len() > 2 || !(0.0..=10_000.0).contains(&size) {
        usage();
    }
    let mut bench = Bench::new(seed, size, trace);
    for (_, stage) in STAGES {
        stage(&mut bench);
    }
    println!("{}", bench.table());
    let names: Vec<&str> = STAGES.iter().map(|(name, _)| *name).collect();
    println!(
        "\nagreement: {} calls compared, no difference (seed {seed}, size {size}, stages: {})",
        bench.compared(),
        names.join(", ")
    );
}

fn usage() -> ! {
    eprintln!("usage: agreement [--trace] [SEED] [SIZE]");
    exit(2);
}
