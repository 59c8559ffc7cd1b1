//! What the wrappers give: document 01's run and marked examples, C-12's example, and every kind of
//! memory.

use super::*;
use crate::{
    accepted, text_of, Outcome, Refusal, RulePlace, CONTENT_BUFFER_BYTES, DIGIT_BUFFER_BYTES,
};

/// Document 01's run, given whole, as its lines.
#[test]
fn the_run_given_whole() {
    let rn = digits("0015");
    let mut plan = Plan::new(8, 8);
    let mut lines = Vec::new();
    let done = |result: Result<(), Refusal>| match result {
        Ok(()) => "ok".to_string(),
        Err(refusal) => format!("no {}", refusal.number()),
    };
    lines.push(done(plan.open(&open55(8, 8))));
    lines.push(done(plan.add_set(&s1(0))));
    lines.push(done(plan.add_rule(&rule(Class::NATL, "-", 0, 0))));
    for body in [
        number(Class::NATL, "87654321", &Lookup::rn(&rn)),
        number(Class::NATL, "87654321", &Lookup::NO_RECORD),
        number(Class::INTL, "87654321", &Lookup::NO_RECORD),
    ] {
        let mut out = [0; DIGIT_BUFFER_BYTES];
        lines.push(plan.answer(&body, &mut out).expect("an answer").to_string());
    }
    lines.push(done(plan.remove_set(&[0, 0])));
    let rules: Vec<String> = plan
        .rules()
        .expect("a listing")
        .map(|rule| rule.to_string())
        .collect();
    let count = rules.len();
    lines.extend(rules);
    lines.push(format!("end {count}"));
    let expected = "ok\nok\nok\n4 1 0 1 001587654321\n3 1 0 1 -\n0 0 0 0 -\nno 11\n1 * * 0\nend 1";
    assert_eq!(lines.join("\n"), expected);
}

/// M1 to M3: the rule chosen shows in the stretch of FPFX, or in the set named.
#[test]
fn marked_choice() {
    let sets = [s2(0), s2(1), s2(2)];
    let mut rules = vec![
        rule(Class::UNKNOWN, "b", 15, 0),
        rule(Class::UNKNOWN, "b339090", 0, 1),
    ];
    let escape = |number| set(number, Some(Class::HOUSE3), &[], &[], &[]);
    let chosen = |rules: &[Vec<u8>], class| {
        // The set named by the rule that is chosen escapes into a class of its own.
        (0..rules.len()).find(|&place| {
            let mut plan = plan_with(&open55(8, 8), &sets, rules);
            plan.replace_set(&escape(place as u16)).expect("accepted");
            let mut out = [0; DIGIT_BUFFER_BYTES];
            let body = number(class, N, &Lookup::NO_RECORD);
            plan.answer(&body, &mut out).expect("an answer").class == Class::HOUSE3
        })
    };
    assert_eq!(chosen(&rules, Class::UNKNOWN), Some(1));
    rules.push(rule(Class::UNKNOWN, "b339090", 15, 2));
    assert_eq!(chosen(&rules, Class::UNKNOWN), Some(2));
    assert_eq!(chosen(&rules, Class::NATL), None);
}

/// M4 to M9 and M12, with every field.
#[test]
fn marked_answers() {
    let under = |class| [rule(class, "-", 0, 0)];
    let s1_plan = plan_with(&open55(8, 8), &[s1(0)], &under(Class::NATL));
    let s2_plan = plan_with(&open55(8, 8), &[s2(0)], &under(Class::UNKNOWN));
    let mut out = [0; DIGIT_BUFFER_BYTES];

    // M4
    let empty = number(Class::NATL, "-", &Lookup::NO_RECORD);
    assert_eq!(s1_plan.answer(&empty, &mut out), Err(Refusal::Short));
    // M5
    let conditioned = s2_plan.conditioned(Class::UNKNOWN, &digits(N), &mut out);
    assert_eq!(conditioned.map(text_of), Ok("553387654321".to_string()));
    // M6
    let body = number(Class::UNKNOWN, N, &Lookup::NO_RECORD);
    let answer = s2_plan.answer(&body, &mut out).expect("an answer");
    assert_eq!(answer.to_string(), "4 1 0 2 90903387654321");
    assert_eq!(answer.carried_out(), [sa::CDPNNP, sa::CDIAL]);
    assert_eq!(answer.actions, [2, 5, 0, 0, 0, 0, 0, 0]);
    // M7
    let body = number(Class::NATL, "87654321", &Lookup::sp(&[7, 7]));
    let answer = s1_plan.answer(&body, &mut out).expect("an answer");
    assert_eq!(answer.to_string(), "4 1 0 1 87654321");
    // M8
    let settings = Settings {
        dfltrn: &[0, 0, 9, 9],
        ..Settings::of_country(&[5, 5])
    };
    let opening = bodies::open(8, 8, &settings).expect("fits");
    let plan = plan_with(&opening, &[s1(0)], &under(Class::NATL));
    let answer = plan.answer(&body, &mut out).expect("an answer");
    assert_eq!(answer.to_string(), "4 1 0 1 009987654321");
    // M9
    let long = number(Class::NATL, &"1".repeat(32), &Lookup::rn(&[1]));
    assert_eq!(s1_plan.answer(&long, &mut out), Err(Refusal::Long));
    // M12
    let settings = Settings {
        answers: RELEASE_WITHOUT_RECORD,
        ..Settings::of_country(&[5, 5])
    };
    let opening = bodies::open(8, 8, &settings).expect("fits");
    let s1 = s1_with(0, &[sa::INPRTG, sa::CDPNNP]);
    let plan = plan_with(&opening, &[s1], &under(Class::NATL));
    let body = number(Class::NATL, "87654321", &Lookup::NO_RECORD);
    let answer = plan.answer(&body, &mut out).expect("an answer");
    assert_eq!(answer.outcome, Outcome::Responded);
    assert_eq!(answer.response, Some(Response::ReleaseCall));
    assert_eq!(answer.carried_out(), [sa::INPRTG]);
    assert_eq!(answer.to_string(), "2 1 4 1 -");
}

/// C-12's example, S1 with 87654321 and lookup kind 1; no record is unsuccessful under both values. DFLTRN
/// is not sent.
#[test]
fn accepting() {
    for dfltrn in [&[][..], &[0, 0, 9, 9]] {
        for (accepting, line) in [(true, "4 1 0 1 87654321"), (false, "3 1 0 1 -")] {
            let settings = Settings {
                dfltrn,
                accepting,
                ..Settings::of_country(&[5, 5])
            };
            let opening = bodies::open(8, 8, &settings).expect("fits");
            let plan = plan_with(&opening, &[s1(0)], &[rule(Class::NATL, "-", 0, 0)]);
            let mut out = [0; DIGIT_BUFFER_BYTES];
            let body = number(Class::NATL, "87654321", &Lookup::NO_ENTITY);
            let answer = plan.answer(&body, &mut out).expect("an answer");
            assert_eq!(answer.to_string(), line);
            let body = number(Class::NATL, "87654321", &Lookup::NO_RECORD);
            let answer = plan.answer(&body, &mut out).expect("an answer");
            assert_eq!(answer.to_string(), "3 1 0 1 -");
        }
    }
}

/// M10 and M11.
#[test]
fn marked_refusals() {
    let mut plan = plan_with(&open55(8, 8), &[s2(0)], &[]);
    let rises = s1_with(1, &[sa::ASDLKUP, sa::CDPNNP]);
    assert_eq!(plan.add_set(&rises), Err(Refusal::Groups));
    let seven = rule(Class::UNKNOWN, "b", 7, 0);
    assert_eq!(plan.add_rule(&seven), Err(Refusal::Misfit));
    let eight = rule(Class::UNKNOWN, "b", 8, 0);
    assert_eq!(plan.add_rule(&eight), Ok(()));
}

/// A stretch is the very part of the caller's digits; joined in the order of the actions, with what is
/// ignored, they are the number.
#[test]
fn stretches() {
    let plan = plan_with(&open55(8, 8), &[s2(0)], &[rule(Class::UNKNOWN, "b", 15, 0)]);
    let digits = digits(N);
    let stretch = |value| plan.stretch(Class::UNKNOWN, &digits, value);
    let at = |value| stretch(value).as_ptr() as usize - digits.as_ptr() as usize;
    for (value, start, text) in [
        (fa::AC, 1, "33"),
        (fa::PFXA, 3, "9090"),
        (fa::SN, 7, "87654321"),
    ] {
        assert_eq!(text_of(stretch(value)), text);
        assert_eq!(at(value), start);
    }
    for value in [0, fa::CC, fa::DN, fa::ZN, fa::FPFX, fa::PFXB, fa::RN, 255] {
        assert_eq!(stretch(value), []);
        assert_eq!(at(value), 0);
    }
    assert_eq!(plan.stretch(Class::NATL, &digits, fa::AC), []);
    assert_eq!(plan.stretch(Class::UNKNOWN, &[16; 15], fa::AC), []);
    // Digits that stand in the plan's own memory, which is only read.
    let plan = plan_with(&open55(8, 8), &[s1(0)], &[rule(Class::NATL, "-", 0, 0)]);
    let unused = &plan.memory()[49..64];
    let stretch = plan.stretch(Class::NATL, unused, fa::DN);
    assert_eq!((stretch.as_ptr(), stretch.len()), (unused.as_ptr(), 15));
}

/// A rule with a full prefix, and places that are not there.
#[test]
fn the_listing() {
    let escape = set(300, None, &[], &[], &[]);
    let mut plan = Plan::new(301, 2);
    plan.open(&open55(301, 2)).expect("accepted");
    plan.add_set(&escape).expect("accepted");
    let long = "0123456789abcdef";
    plan.add_rule(&rule(Class::HOUSE5, long, 16, 300))
        .expect("accepted");
    plan.add_rule(&rule(Class::HOUSE5, "0", 0, 300))
        .expect("accepted");
    let listed = |place| plan.rule_at(RulePlace(place)).map(|rule| rule.to_string());
    assert_eq!(listed(0), Ok("5 0 * 300".to_string()));
    assert_eq!(listed(1), Ok(format!("5 {long} 16 300")));
    assert_eq!(listed(2), Err(Refusal::Range));
    assert_eq!(listed(u16::MAX), Err(Refusal::Range));
    assert_eq!(plan.referrers(SetNumber(300)), Ok(2));
}

/// Owned and borrowed memories, and arrays; the bytes behind a plan stay.
#[test]
fn memories() {
    let size = crate::plan_bytes(1, 1);
    let mut bytes = vec![7; size + 5];
    {
        let mut plan = Plan::over(&mut bytes[..]);
        plan.open(&open55(1, 1)).expect("accepted");
        plan.add_set(&s1(0)).expect("accepted");
    }
    assert_eq!(bytes[size..], [7; 5]);
    let mut owned = Plan::new(1, 1);
    owned.open(&open55(1, 1)).expect("accepted");
    owned.add_set(&s1(0)).expect("accepted");
    assert_eq!(owned.memory(), &bytes[..size]);
    let mut array = Plan::over([0; crate::plan_bytes(1, 1)]);
    array.open(&open55(1, 1)).expect("accepted");
    array.add_set(&s1(0)).expect("accepted");
    assert_eq!(array.into_memory(), bytes[..size]);

    let read = Plan::over(&bytes[..]);
    assert!(read.is_sound());
    let mut out = [0; CONTENT_BUFFER_BYTES];
    assert_eq!(read.set_content(SetNumber(0), &mut out), Ok(&s1(0)[..]));
    assert!(!Plan::over(&bytes[..size - 1]).is_sound());
}

/// The edges that the header names: exact sizes, a longer body, RANGE before ROOM at opening.
#[test]
fn edges() {
    let mut plan = Plan::new(1, 1);
    assert_eq!(plan.open(&[open55(1, 1), vec![9]].concat()), Ok(()));
    assert_eq!(plan.add_set(&[s1(0), vec![9]].concat()), Ok(()));
    let any = rule(Class::NATL, "-", 0, 0);
    assert_eq!(plan.add_rule(&[any, vec![9]].concat()), Ok(()));
    assert!(plan.is_sound());
    assert_eq!(plan.open(&open55(1, 2)), Err(Refusal::Room));
    assert_eq!(plan.open(&open55(1, 4097)), Err(Refusal::Range));

    let body = number(Class::NATL, &"1".repeat(31), &Lookup::rn(&[2]));
    let mut out = [9; 48];
    let answer = plan
        .answer(&body, &mut out[..35])
        .map(|answer| answer.digits.len());
    assert_eq!(answer, Ok(32));
    assert_eq!(
        out[31..],
        [1, 9, 9, 9, 9, 9, 9, 9, 9, 9, 9, 9, 9, 9, 9, 9, 9]
    );
    let mut out = [9; 48];
    assert_eq!(plan.answer(&body, &mut out[..34]), Err(Refusal::Room));
    let digits = [1; 32];
    let conditioned = plan.conditioned(Class::NATL, &digits, &mut out[..34]);
    assert_eq!(conditioned, Err(Refusal::Room));
    let content = plan.set_content(SetNumber(0), &mut out[..46]);
    assert_eq!(content, Err(Refusal::Room));
    assert_eq!(out, [9; 48]);
    let conditioned = plan.conditioned(Class::NATL, &digits, &mut out[..35]);
    assert_eq!(conditioned.map(<[u8]>::len), Ok(34));
    assert_eq!(out[34..], [9; 14]);
    let content = plan.set_content(SetNumber(0), &mut out[..47]);
    assert_eq!(content, Ok(&s1(0)[..]));
    assert_eq!(out[47], 9);
}

/// A list of calls does what they do one by one.
#[test]
fn replayed() {
    let calls = [
        with_kind(record::OPEN, &open55(4, 3)),
        with_kind(record::ADD_SET, &s1(0)),
        with_kind(record::ADD_SET, &s1(0)),
        with_kind(record::ADD_RULE, &rule(Class::NATL, "-", 0, 0)),
        with_kind(record::CHANGE_RULE, &rule(Class::NATL, "1", 0, 0)),
        with_kind(record::REPLACE_SET, &s2(0)),
        with_kind(record::REMOVE_SET, &[0, 0]),
        with_kind(record::REMOVE_RULE, &filter(Class::NATL, "-", 0)),
        with_kind(record::REMOVE_SET, &[0, 0]),
    ];
    let expected = [0, 0, 7, 0, 8, 0, 11, 0, 0];
    let mut one_by_one = Plan::new(4, 3);
    for (call, expected) in calls.iter().zip(expected) {
        let body = &call[1..];
        let result = match call[0] {
            record::OPEN => one_by_one.open(body),
            record::ADD_SET => one_by_one.add_set(body),
            record::REPLACE_SET => one_by_one.replace_set(body),
            record::REMOVE_SET => one_by_one.remove_set(body),
            record::ADD_RULE => one_by_one.add_rule(body),
            record::CHANGE_RULE => one_by_one.change_rule(body),
            _ => one_by_one.remove_rule(body),
        };
        assert_eq!(result, accepted(expected));
    }
    let mut plan = Plan::new(4, 3);
    let mut numbers = [99; 12];
    assert_eq!(plan.replay(&calls.concat(), &mut numbers), expected);
    assert_eq!(numbers[9..], [99; 3]);
    assert_eq!(plan, one_by_one);

    // It ends where the numbers are full, at another kind and at a cut record.
    assert_eq!(plan.replay(&calls.concat(), &mut [99; 2]).len(), 2);
    assert_eq!(plan.replay(&calls.concat(), &mut []).len(), 0);
    let list = [calls[0].clone(), vec![9], calls[1].clone()].concat();
    assert_eq!(plan.replay(&list, &mut numbers).len(), 1);
    let cut = &calls.concat()[..1 + bodies::OPEN_BYTES + bodies::SET_BYTES];
    assert_eq!(plan.replay(cut, &mut numbers).len(), 1);
}

#[test]
fn numbers_of_refusals() {
    for number in 0..=255 {
        let refusal = Refusal::of(number);
        assert_eq!(refusal.is_some(), (1..=15).contains(&number));
        assert!(refusal.map_or(true, |refusal| refusal.number() == number));
    }
    assert_eq!(Refusal::ALL.map(Refusal::number)[..3], [1, 2, 3]);
}
