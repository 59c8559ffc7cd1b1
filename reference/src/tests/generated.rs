//! Generated files and scripts: they reach everything; the plan of plain maps
//! and the plan in memory agree; demand 3 holds on them.

use super::support::*;
use crate::bodies::{self, Kind};
use crate::calls;
use crate::charging;
use crate::generate;
use crate::layout;
use crate::ledger::{self, Ledger, Totals};
use crate::plan::Plan;
use crate::prices::{self, Prices};
use crate::process::{Answer, Outcome};
use crate::reached::Reached;
use crate::records::{Reply, Run};
use crate::rules::*;
use crate::script::{from_hex, Machine};
use std::collections::{BTreeMap, BTreeSet};

/// A file that draws LEDGER FULL has more than 10,000,000 records.
#[test]
fn record_files_reach_everything() {
    let mut reached = Reached::default();
    for kind in ["clean", "mutated", "cut", "unknown", "wild", "mixed"] {
        for seed in 0..6 {
            let file = generate::record_file(seed, kind, 200).expect("a kind");
            reached.count_records(&mut &file[..]).expect("no fault");
        }
    }
    assert_eq!(reached.refusals_missed(), [15], "{reached}");
    assert!(reached.reaches_every_line(), "{reached}");
}

#[test]
fn call_scripts_reach_everything_but_kind() {
    let mut reached = Reached::default();
    for seed in 0..25 {
        let script = generate::call_script(seed, 200);
        reached
            .count_calls(script.as_bytes())
            .expect("a script without fault");
    }
    // KIND is the program's alone.
    assert_eq!(reached.refusals_missed(), [2], "{reached}");
    assert!(reached.reaches_every_line(), "{reached}");
}

#[test]
fn the_same_seed_gives_the_same_file() {
    assert_eq!(
        generate::record_file(7, "mixed", 50),
        generate::record_file(7, "mixed", 50)
    );
    assert_ne!(
        generate::record_file(7, "clean", 50),
        generate::record_file(8, "clean", 50)
    );
    assert_eq!(generate::call_script(7, 50), generate::call_script(7, 50));
}

/// C-12's byte is 0 and 1 about as often, and at times out of range: in the
/// openings of files and of scripts, and poked into the memory of scripts.
#[test]
fn both_values_of_accepting_and_others() {
    let [mut in_files, mut in_scripts, mut poked] = [[0; 256]; 3];
    for seed in 0..300 {
        let file = generate::record_file(seed, "clean", 100).expect("a kind");
        for (_, body) in split(&file).iter().filter(|(kind, _)| *kind == Kind::Open) {
            in_files[usize::from(body[40])] += 1;
        }
        for line in generate::call_script(seed, 100).lines() {
            let opening = line
                .strip_prefix("open ")
                .and_then(|hex| from_hex(hex).ok());
            // A body that is cut has no such byte.
            if let Some(&byte) = opening.iter().flatten().nth(40) {
                in_scripts[usize::from(byte)] += 1;
            }
            if let Some(value) = line.strip_prefix("poke 48 ") {
                poked[value.parse::<usize>().expect("a byte")] += 1;
            }
        }
    }
    for seen in [in_files, in_scripts] {
        assert!(seen[0] > 100 && seen[0] < 2 * seen[1] && seen[1] < 2 * seen[0]);
    }
    for seen in [in_files, in_scripts, poked] {
        assert!([0, 1, 2, 255].iter().all(|&value| seen[value] > 5));
    }
}

/// The openings of the benchmark's files do not accept.
#[test]
fn number_files_do_not_accept() {
    for seed in 0..4 {
        let file = generate::record_file(seed, "numbers", 1).expect("a kind");
        assert_eq!((file[0], file[41]), (Kind::Open.byte(), 0));
    }
}

/// The records of a file, as long as they are whole.
fn split(file: &[u8]) -> Vec<(Kind, Vec<u8>)> {
    let mut records = Vec::new();
    let mut rest = file;
    while let Some((&byte, behind)) = rest.split_first() {
        let Some(kind) = Kind::from_byte(byte) else {
            break;
        };
        let Some((body, behind)) = behind.split_at_checked(kind.body_length()) else {
            break;
        };
        records.push((kind, body.to_vec()));
        rest = behind;
    }
    records
}

/// What a run of the program keeps, as memory.  The plan's has the size of the
/// program's largest plan; no opening here asks for more.
struct Lent {
    plan: Vec<u8>,
    prices: [u8; prices::MEMORY],
    districts: [i64; ledger::MEMORY],
    whole: Totals,
}

impl Lent {
    fn new() -> Lent {
        let rooms = Rooms {
            sets: 64,
            rules: 512,
        };
        Lent {
            plan: vec![FILLING; layout::size(rooms)],
            prices: [0; prices::MEMORY],
            districts: [0; ledger::MEMORY],
            whole: Totals::default(),
        }
    }

    /// The lines of a record by the library calls over memory.
    fn lines(&mut self, kind: Kind, body: &[u8]) -> String {
        let mut out = [0; 35];
        match kind {
            Kind::Number => number_line(&calls::answer(&self.plan, body, &mut out), &out),
            Kind::Call => number_line(&self.take_call(body, &mut out), &out),
            Kind::Referrers => match calls::referrers(&self.plan, bodies::set_number(body)) {
                Ok(count) => format!("refs {count}\n"),
                Err(refusal) => format!("no {}\n", refusal.number()),
            },
            Kind::List => listing_by_calls(&self.plan),
            Kind::Losses => self.losses(),
            Kind::Price => ok_line(charging::add_price(&mut self.prices, body)),
            _ => {
                let call = calls::provisioning(kind).expect("a provisioning kind");
                ok_line(call(&mut self.plan, body))
            }
        }
    }

    fn take_call(&mut self, body: &[u8], out: &mut [u8]) -> calls::Answered {
        let (districts, whole) = (&mut self.districts, &mut self.whole);
        charging::take_call(&self.plan, &self.prices, districts, whole, body, out)
    }

    fn losses(&self) -> String {
        let mut lines = String::new();
        for district in 0..512 {
            let loss = charging::district_loss(&self.districts, self.whole, district);
            assert_eq!(loss.refusal, 0);
            if loss.held == 1 {
                lines += &format!("{district} {}\n", loss.cents);
            }
        }
        let total = charging::total_loss(&self.districts, self.whole);
        assert_eq!((total.refusal, total.held), (0, 1));
        lines + &format!("total {}\n", total.cents)
    }
}

fn ok_line(result: Checked<()>) -> String {
    match result {
        Ok(()) => "ok\n".to_string(),
        Err(refusal) => format!("no {}\n", refusal.number()),
    }
}

fn number_line(answered: &calls::Answered, out: &[u8]) -> String {
    if answered.refusal != 0 {
        return format!("no {}\n", answered.refusal);
    }
    let digits = match answered.written {
        0 => "-".to_string(),
        count => in_text(&out[..count]),
    };
    let calls::Answered {
        outcome,
        class,
        response,
        count,
        ..
    } = answered;
    format!("{outcome} {class} {response} {count} {digits}\n")
}

fn listing_by_calls(memory: &[u8]) -> String {
    let count = match calls::rule_count(memory) {
        Ok(count) => count,
        Err(refusal) => return format!("no {}\n", refusal.number()),
    };
    let mut lines = String::new();
    for place in (0..count).map(RulePlace) {
        let (filter, set) = calls::rule_at(memory, place).expect("a place under the count");
        let prefix = if filter.prefix.is_empty() {
            "*".to_string()
        } else {
            in_text(&filter.prefix)
        };
        let length = filter
            .length
            .map_or("*".to_string(), |length| length.to_string());
        lines += &format!("{} {prefix} {length} {}\n", filter.class.byte(), set.0);
    }
    lines + &format!("end {count}\n")
}

#[test]
fn maps_and_memory_agree() {
    for (seed, mutated) in (0..12).flat_map(|seed| [(seed, "clean"), (seed, "mutated")]) {
        let file = generate::record_file(seed, mutated, 150).expect("a kind");
        let mut lent = Lent::new();
        let mut opened = false;
        let mut by_calls = String::new();
        for (kind, body) in split(&file) {
            // The program's limits are its own: 65 sets may find room here.
            let rooms = if kind == Kind::Open {
                bodies::opening(&body).ok()
            } else {
                None
            };
            let beyond = rooms.is_some_and(|(rooms, _)| rooms.sets > 64 || rooms.rules > 512);
            let lines = match beyond {
                true => "no 4\n".to_string(),
                false => lent.lines(kind, &body),
            };
            // From the first accepted opening on the plan is sound.
            opened |= kind == Kind::Open && lines == "ok\n";
            assert_eq!(calls::sound(&lent.plan), opened);
            by_calls += &lines;
        }
        assert_eq!(by_calls, lines(&file), "seed {seed}");
    }
}

/// Demand 3 on a plan that accepted calls have made.
fn check_plan(plan: &Plan) {
    let filters: Vec<&Filter> = plan.rules.keys().collect();
    assert!(filters.windows(2).all(|pair| pair[0] < pair[1]));
    assert!(plan
        .rules
        .iter()
        .all(|(filter, set)| plan.sets[set].fits(filter)));
    assert!(plan.rules.len() <= usize::from(plan.rooms.rules));
    for (&number, set) in &plan.sets {
        assert!(set.keeps_group_rules());
        let naming = plan
            .rules
            .values()
            .filter(|&&named| named == number)
            .count();
        assert_eq!(plan.referrers(number), Ok(naming));
        let mut body = Vec::new();
        bodies::put_set_number(&mut body, number);
        let removed = plan.clone().remove_set(&body);
        assert_eq!(removed, demand(naming == 0, Refusal::InUse));
    }
}

/// Demand 3 on one number: the only refusal in conditioning is SHORT, exactly
/// under a wildcard length and with no more digits than F; else the stretches
/// taken and ignored are the incoming digits.
fn check_number(plan: &Plan, class: Class, digits: &[u8]) {
    let rules = plan.rules.iter().map(|(filter, &set)| (filter, set));
    let Some((filter, number)) = choose(rules, class, digits) else {
        return assert_eq!(plan.conditioned(class.byte(), digits), Ok(Vec::new()));
    };
    let set = &plan.sets[&number];
    if set.escapes() {
        return assert_eq!(plan.conditioned(class.byte(), digits), Ok(Vec::new()));
    }
    let fixed = set.fixed_digits(filter.prefix.len());
    let short = filter.length.is_none() && digits.len() <= fixed;
    let conditioned = plan.conditioned(class.byte(), digits);
    assert_eq!(conditioned.as_ref().err(), short.then_some(&Refusal::Short));
    if short {
        return;
    }
    assert!(conditioned.is_ok_and(|conditioned| conditioned.len() <= 35));
    let mut place = 0;
    for &action in &set.conditioning {
        let (start, count) = match action {
            Conditioning::Ignore(count) => (place, usize::from(count)),
            Conditioning::DefaultCountry => (place, 0),
            _ => plan.stretch(class.byte(), digits, action.value().expect("a value") as u8),
        };
        assert_eq!(start, place);
        match action {
            Conditioning::Take(_, fixed) => assert_eq!(count, usize::from(fixed)),
            Conditioning::TakePrefix => assert_eq!(digits[start..start + count], filter.prefix),
            Conditioning::TakeRest(_) => assert!(count > 0 && start + count == digits.len()),
            Conditioning::Ignore(_) | Conditioning::DefaultCountry => {}
        }
        place += count;
    }
    assert_eq!(place, digits.len());
}

#[test]
fn demand_3_on_generated_lists() {
    for seed in 100..130 {
        let mut run = Run::default();
        let file = generate::record_file(seed, "mutated", 200).expect("a kind");
        for (kind, body) in split(&file) {
            // The refusal itself is tested elsewhere.
            let _ = run.carry_out(kind, &body);
            let Some(plan) = &run.plan else { continue };
            if kind == Kind::Number {
                if let Ok(number) = bodies::number(&body) {
                    check_number(plan, number.class, number.digits);
                }
            } else {
                check_plan(plan);
            }
        }
    }
}

/// An answer never carries what its outcome has not.
#[test]
fn outcomes_keep_their_shape() {
    for seed in 200..220 {
        let mut run = Run::default();
        let file = generate::record_file(seed, "clean", 200).expect("a kind");
        for (kind, body) in split(&file) {
            let Ok(Reply::Answered(answer)) = run.carry_out(kind, &body) else {
                continue;
            };
            let formatted = answer.outcome == Outcome::Formatted;
            assert!(formatted || answer.digits.is_empty());
            assert!(answer.digits.len() <= 32);
            let keeps_class = !formatted && answer.outcome != Outcome::Escaped;
            let at = if kind == Kind::Call {
                bodies::NUMBER_AT
            } else {
                0
            };
            assert!(!keeps_class || answer.class.byte() == body[at]);
            let inprtg = answer.carried_out.first() == Some(&Service::Inprtg);
            assert_eq!(answer.response.is_some(), inprtg);
        }
    }
}

/// C-12: the byte decides numbers of lookup kind 1 alone, from withheld to
/// formatted, and does so for more than one number in twenty.
#[test]
fn accepting_decides_kind_1_alone() {
    let (mut numbers, mut decided) = (0, 0);
    for seed in 300..330 {
        let mut run = Run::default();
        let file = generate::record_file(seed, "clean", 200).expect("a kind");
        for (kind, body) in split(&file) {
            let _ = run.carry_out(kind, &body);
            let (Kind::Number, Some(plan)) = (kind, &run.plan) else {
                continue;
            };
            let [without, with] = [false, true].map(|accepting| {
                let mut plan = plan.clone();
                plan.settings.accepting = accepting;
                plan.answer(&body)
            });
            numbers += 1;
            if without != with {
                decided += 1;
                let number = bodies::number(&body).expect("in range");
                assert_eq!(number.lookup.kind, LookupKind::NoEntity);
                assert!(without.is_ok_and(|answer| answer.outcome == Outcome::Unchanged));
                assert!(match with {
                    Ok(answer) => answer.outcome == Outcome::Formatted,
                    Err(refusal) => refusal == Refusal::Long,
                });
            }
        }
    }
    assert!(decided * 20 > numbers, "{decided} of {numbers}");
}

// ---------------------------------------------------------------------------
// C-11

/// How often records of one kind drew each refusal, by its number (0:
/// accepted), and each outcome.
fn drawn(kind: Kind) -> ([usize; 16], [usize; 5]) {
    let (mut numbers, mut outcomes) = ([0; 16], [0; 5]);
    for seed in 0..60 {
        let file = generate::record_file(seed, "clean", 200).expect("a kind");
        let mut run = Run::default();
        for (found, body) in split(&file) {
            let result = run.carry_out(found, &body);
            if found != kind {
                continue;
            }
            if let Ok(Reply::Answered(answer)) = &result {
                outcomes[answer.outcome as usize] += 1;
            }
            numbers[usize::from(calls::refusal_number(result))] += 1;
        }
    }
    (numbers, outcomes)
}

/// The refusals that at least ten records drew, and whether no others did.
fn drawn_often(numbers: [usize; 16]) -> Vec<usize> {
    let any = (1..16).filter(|&number| numbers[number] > 0);
    let often = any.clone().filter(|&number| numbers[number] >= 10);
    assert!(any.eq(often.clone()), "{numbers:?}");
    often.collect()
}

#[test]
fn call_records_and_rows_draw_what_they_can() {
    let (numbers, outcomes) = drawn(Kind::Call);
    assert_eq!(drawn_often(numbers), [3, 5, 12, 13, 14]);
    assert!(outcomes.iter().all(|&count| count >= 10), "{outcomes:?}");
    // More than a third is accepted.
    assert!(3 * numbers[0] > numbers.iter().sum(), "{numbers:?}");
    assert_eq!(drawn_often(drawn(Kind::Price).0), [5, 7, 10]);
}

/// Of each usual kind at least every third file has rows, call records and
/// losses, the last also before its end; `cut` ends within each of them.
#[test]
fn files_with_charging() {
    for kind in ["clean", "mutated", "cut", "unknown", "mixed"] {
        let files = (0..30).filter(|&seed| {
            let file = generate::record_file(seed, kind, 200).expect("a kind");
            let kinds: Vec<Kind> = split(&file).iter().map(|(kind, _)| *kind).collect();
            let count = |kind| kinds.iter().filter(|&&found| found == kind).count();
            count(Kind::Call) > 20 && count(Kind::Price) > 5 && count(Kind::Losses) > 1
        });
        assert!(files.count() >= 10, "{kind}");
    }
    let mut cut = [0; 2];
    for seed in 0..60 {
        let file = generate::record_file(seed, "cut", 10).expect("a kind");
        let whole: usize = split(&file).iter().map(|(_, body)| 1 + body.len()).sum();
        cut[0] += usize::from(file[whole] == Kind::Call.byte());
        cut[1] += usize::from(file[whole] == Kind::Price.byte());
    }
    assert!(cut.iter().all(|&count| count > 0), "{cut:?}");
}

/// Every field at and over its limit.
#[test]
fn edges_of_call_records_and_rows() {
    let mut fields: [BTreeSet<u32>; 4] = Default::default();
    for seed in 0..60 {
        let file = generate::record_file(seed, "clean", 200).expect("a kind");
        for (kind, body) in split(&file) {
            let two = |place| u32::from(u16::from_be_bytes([body[place], body[place + 1]]));
            let four = |place| two(place) << 16 | two(place + 2);
            match kind {
                Kind::Call => {
                    fields[0].insert(two(4));
                    fields[1].insert(four(6));
                    fields[2].insert(four(10));
                }
                Kind::Price => drop(fields[3].insert(four(17))),
                _ => {}
            }
        }
    }
    for (field, most) in fields.iter().zip([511, 86_400, 1_440_000_000, 1_000_000]) {
        assert!([0, 1, most, most + 1]
            .iter()
            .all(|edge| field.contains(edge)));
    }
}

/// The sums of some records: count, due, billed.
type Recount = (i64, i64, i64);

/// A recount of a file from its records and what became of each.
#[derive(Default)]
struct Recounted {
    rows: Vec<(Vec<u8>, i64)>,
    districts: BTreeMap<u16, Recount>,
    whole: Recount,
}

impl Recounted {
    fn add_row(&mut self, body: &[u8]) {
        let price = u32::from_be_bytes([body[17], body[18], body[19], body[20]]);
        let prefix = body[1..][..usize::from(body[0])].to_vec();
        self.rows.push((prefix, i64::from(price)));
    }

    fn add_call(&mut self, body: &[u8], answer: &Answer) {
        let four = |place| {
            let bytes = [
                body[place],
                body[place + 1],
                body[place + 2],
                body[place + 3],
            ];
            i64::from(u32::from_be_bytes(bytes))
        };
        let incoming = &body[16..][..usize::from(body[15])];
        let price = match answer.outcome {
            Outcome::Responded => 0,
            Outcome::Formatted => self.price(&answer.digits),
            _ => self.price(incoming),
        };
        let (due, billed) = (four(6) * price, four(10) * 60);
        let district = u16::from_be_bytes([body[4], body[5]]);
        for sums in [self.districts.entry(district).or_default(), &mut self.whole] {
            *sums = (sums.0 + 1, sums.1 + due, sums.2 + billed);
        }
    }

    fn price(&self, digits: &[u8]) -> i64 {
        let fitting = self
            .rows
            .iter()
            .filter(|(prefix, _)| digits.starts_with(prefix));
        let longest = fitting.max_by_key(|(prefix, _)| prefix.len());
        longest.expect("an accepted record has a row").1
    }

    /// Doubles round halves away from zero too, and these sums are far from
    /// where a double is no longer exact.
    fn lines(&self) -> String {
        let cents = |sums: &Recount| ((sums.1 - sums.2) as f64 / 60_000.0).round() as i64;
        let line = |(district, sums)| format!("{district} {}\n", cents(sums));
        let lines: String = self.districts.iter().map(line).collect();
        lines + &format!("total {}\n", cents(&self.whole))
    }
}

/// C-11's claim: at each kind 18 the lines are those of the accepted records
/// before it, each priced as the rows then stood.  Refused ones, rows, edits
/// and openings between them add to nothing.
#[test]
fn losses_are_those_of_the_accepted_records() {
    let mut compared = 0;
    for (seed, kind) in (0..40).flat_map(|seed| [(seed, "clean"), (seed, "mutated")]) {
        let file = generate::record_file(seed, kind, 200).expect("a kind");
        let (mut run, mut recounted) = (Run::default(), Recounted::default());
        let mut before = Vec::new();
        for (kind, body) in split(&file) {
            before.push(kind.byte());
            before.extend(&body);
            match run.carry_out(kind, &body) {
                Ok(Reply::Provisioned) if kind == Kind::Price => recounted.add_row(&body),
                Ok(Reply::Answered(answer)) if kind == Kind::Call => {
                    recounted.add_call(&body, &answer);
                }
                Ok(Reply::Losses(_)) => {
                    assert!(lines(&before).ends_with(&recounted.lines()));
                    compared += recounted.districts.len();
                }
                _ => {}
            }
            let sums = run.ledger.whole;
            let whole = (sums.count as i64, sums.due as i64, sums.billed as i64);
            assert_eq!(whole, recounted.whole);
        }
    }
    assert!(compared > 300, "{compared}");
}

/// Scripts hold lists and ledgers in range and out of it, and numbers at and
/// one over every bound of a ledger.
#[test]
fn lists_and_ledgers_of_scripts() {
    let (mut lists, mut ledgers) = ([0; 2], [0; 2]);
    let mut numbers = BTreeSet::new();
    for seed in 0..100 {
        let mut machine = Machine::default();
        for line in generate::call_script(seed, 200).lines() {
            machine.carry_out(line).expect("a call");
            let in_range = Prices::decode(&machine.prices).is_some();
            lists[usize::from(in_range)] += 1;
            if line.starts_with("ledger ") {
                let (districts, whole) = (&machine.districts, machine.whole);
                let in_range = Ledger::decode(districts, whole).is_some();
                ledgers[usize::from(in_range)] += 1;
                let all = [whole.count, whole.due, whole.billed];
                numbers.extend(all.iter().chain(districts).copied());
            }
        }
    }
    assert!(lists.iter().all(|&count| count > 500), "{lists:?}");
    assert!(ledgers.iter().all(|&count| count > 100), "{ledgers:?}");
    // The most that 3, 1,000 and 10,000,000 records can come to.
    let mosts = [3, 1_000, 10_000_000].map(|count| count * 86_400_000_000);
    let counts = [3, 1_000, 9_999_999, 10_000_000];
    for bound in mosts.iter().chain(&counts) {
        assert!(numbers.contains(bound), "{bound}");
        assert!(numbers.contains(&(bound + 1)), "{bound} and 1");
    }
    let outside = [-1, i64::MIN, i64::MAX];
    assert!(outside.iter().all(|number| numbers.contains(number)));
}
