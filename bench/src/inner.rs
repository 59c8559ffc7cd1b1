//! Times one answer and one choice on a plan that is known to be sound: the
//! library's inner calls beside the reference's over its plan in maps.

#[allow(dead_code)]
#[path = "../../agreement/src/alike.rs"]
mod alike;
#[allow(dead_code)]
#[path = "../../rust/src/c.rs"]
mod c;
#[allow(dead_code)]
#[path = "../../agreement/src/random.rs"]
mod random;

mod clock;
#[allow(dead_code)]
mod known;
#[allow(dead_code)]
mod made;
mod same;

use clock::Clock;
use made::Made;
use npp_reference::bodies;
use npp_reference::layout;
use npp_reference::plan::Plan;
use npp_reference::rules::{self, Filter, Number};
use std::hint::black_box;

const SETS: u16 = 64;
const RULES: [u16; 5] = [1, 8, 64, 512, 4096];
const NUMBERS: usize = 4096;
/// So many that no processor learns by heart what is chosen for each.
const CHOICES: usize = 65_536;
/// What the inner call gives for no rule.
const NO_PLACE: usize = 65_535;

/// The filter that the reference chooses.
fn chosen<'a>(plan: &'a Plan, number: &Number) -> Option<&'a Filter> {
    let rules = plan.rules.iter().map(|(filter, &set)| (filter, set));
    rules::choose(rules, number.class, number.digits).map(|(filter, _)| filter)
}

fn main() {
    let clock = Clock::from_arguments();
    for rules in RULES {
        time_answer(&clock, rules);
    }
    time_choice(&clock, "same", Made::same(SETS));
    time_choice(&clock, "any", Made::any(SETS));
    for rules in RULES {
        time_choice(&clock, &rules.to_string(), Made::full(SETS, rules));
    }
}

fn time_answer(clock: &Clock, rules: u16) {
    let mut made = Made::full(SETS, rules);
    let memory = layout::encode(&made.plan);
    let bodies = made.numbers(clock.scaled(NUMBERS));
    same::demand_same(&made.plan, &memory, &bodies, known::answer);
    let mut out = [0; same::ROOM];
    clock.line(
        &format!("known {rules}"),
        bodies.len(),
        || {
            for body in &bodies {
                black_box(known::answer(&memory, black_box(body), &mut out));
            }
        },
        || {
            for body in &bodies {
                let _ = black_box(made.plan.answer(black_box(body)));
            }
        },
    );
}

fn time_choice(clock: &Clock, rules: &str, mut made: Made) {
    let memory = layout::encode(&made.plan);
    let bodies = made.numbers(clock.scaled(CHOICES / made.plan.rules.len().max(512) * 512));
    let numbers: Vec<Number> = bodies
        .iter()
        .map(|body| bodies::number(body).expect("a number in range"))
        .collect();
    for number in &numbers {
        let expected = chosen(&made.plan, number).map_or(NO_PLACE, |filter| {
            made.plan.rules.range(..filter).count()
        });
        assert_eq!(known::chosen(&memory, number), expected, "a choice differs");
    }
    clock.line(
        &format!("chosen {rules}"),
        numbers.len(),
        || {
            for number in &numbers {
                black_box(known::chosen(&memory, black_box(number)));
            }
        },
        || {
            for number in &numbers {
                black_box(chosen(&made.plan, black_box(number)));
            }
        },
    );
}
