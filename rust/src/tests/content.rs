//! What a set does and what differs between two, in words.

use super::lent::Random;
use super::*;
use crate::Content;
use std::collections::BTreeMap;

fn content(body: &[u8]) -> Content {
    Content::of(body).expect("in range")
}

/// A content with formatting actions alone.
fn formatting(actions: &[u8]) -> Content {
    Content {
        class: None,
        conditioning: Vec::new(),
        services: Vec::new(),
        formatting: actions.to_vec(),
    }
}

fn changes(left: &[u8], right: &[u8]) -> String {
    formatting(left).changes(&formatting(right)).join("; ")
}

#[test]
fn in_words() {
    assert_eq!(
        content(&s1(0)).to_string(),
        "outgoing class as incoming; conditioning DNX, CCDEF; service CDPNNP; formatting RN, DN"
    );
    assert_eq!(
        content(&s2(7)).to_string(),
        "outgoing class NATL; conditioning IGN 1, AC 2, PFXA 4, SNX, CCDEF; service CDPNNP, CDIAL; \
         formatting PFXA, RN, AC, SN"
    );
    let escapes = set(0, Some(Class::HOUSE5), &[], &[], &[]);
    assert_eq!(
        content(&escapes).to_string(),
        "outgoing class HOUSE5; no conditioning action, the number escapes"
    );
    let no_services = set(0, None, &[(ca::ZN, 15)], &[], &[fa::ZN, fa::DELIMITER_B]);
    assert_eq!(
        content(&no_services).to_string(),
        "outgoing class as incoming; conditioning ZN 15; formatting ZN, delimiter B"
    );
    assert_eq!(Content::of(&no_services[..46]), None);
    let mut body = no_services;
    body[bodies::SET_CLASS] = 6;
    assert_eq!(Content::of(&body), None);
}

/// Full lists, and codes that have no name.
#[test]
fn any_fields() {
    let body = set(0, None, &[(99, 7); 12], &[99; 8], &[99; 12]);
    let full = content(&body);
    let (pairs, codes) = (full.conditioning.len(), full.services.len());
    assert_eq!((pairs, codes, full.formatting.len()), (12, 8, 12));
    assert_eq!(full.conditioning[11], (99, 7));
    assert_eq!(
        changes(&[99], &[1]),
        "formatting action code 99 changed to CC"
    );
}

/// S1 to S2, and back.
#[test]
fn from_one_set_to_another() {
    let (s1, s2) = (content(&s1(0)), content(&s2(1)));
    assert_eq!(
        s1.changes(&s2),
        [
            "outgoing class changed from \"as incoming\" to NATL",
            "conditioning action DNX changed to IGN 1",
            "conditioning actions AC 2, PFXA 4, SNX added before CCDEF",
            "service action CDIAL added behind CDPNNP",
            "formatting action PFXA added before RN",
            "formatting action DN changed to AC",
            "formatting action SN added behind AC",
        ]
    );
    assert_eq!(
        s2.changes(&s1),
        [
            "outgoing class changed from NATL to \"as incoming\"",
            "conditioning action IGN 1 changed to DNX",
            "conditioning actions AC 2, PFXA 4, SNX dropped",
            "service action CDIAL dropped",
            "formatting action PFXA dropped",
            "formatting action AC changed to DN",
            "formatting action SN dropped",
        ]
    );
    assert!(s1.changes(&s1).is_empty());
    let with = |class| content(&set(0, Some(class), &[], &[], &[]));
    assert_eq!(
        with(Class::INTL).changes(&with(Class::HOUSE3)),
        ["outgoing class changed from INTL to HOUSE3"]
    );
}

/// A number that escapes where it did not, and one that no longer does.
#[test]
fn escapes() {
    let (s1, escape) = (content(&s1(0)), formatting(&[fa::RN, fa::DN]));
    assert_eq!(
        s1.changes(&escape),
        [
            "no conditioning action is left, the number escapes",
            "conditioning actions DNX, CCDEF dropped",
            "service action CDPNNP dropped",
        ]
    );
    assert_eq!(
        escape.changes(&s1),
        [
            "the number no longer escapes",
            "conditioning actions DNX, CCDEF added",
            "service action CDPNNP added",
        ]
    );
    // One that escapes as before.
    assert_eq!(
        escape.changes(&formatting(&[fa::RN])),
        ["formatting action DN dropped"]
    );
}

/// One action put in, taken out or changed is one change, wherever it stands in a full list.
#[test]
fn one_change_is_one() {
    use fa::*;
    let eleven = [CC, AC, SN, DN, ZN, FPFX, PFXA, PFXB, PFXC, PFXD, RN];
    for place in 0..=eleven.len() {
        let mut more = eleven.to_vec();
        more.insert(place, GRN);
        let by = match eleven.get(place) {
            Some(&behind) => format!("before {}", fa::name(behind).expect("a name")),
            None => "behind RN".to_string(),
        };
        let added = format!("formatting action GRN added {by}");
        assert_eq!(changes(&eleven, &more), added);
        assert_eq!(changes(&more, &eleven), "formatting action GRN dropped");
        if place < eleven.len() {
            let mut other = eleven;
            let before = std::mem::replace(&mut other[place], GRN);
            let name = fa::name(before).expect("a name");
            let changed = format!("formatting action {name} changed to GRN");
            assert_eq!(changes(&eleven, &other), changed);
        }
    }
    assert_eq!(changes(&[], &[RN]), "formatting action RN added");
    assert_eq!(changes(&[], &[RN, DN]), "formatting actions RN, DN added");
    assert_eq!(changes(&[RN, DN], &[]), "formatting actions RN, DN dropped");
    // An action that went elsewhere.
    assert_eq!(
        changes(&[RN, AC, SN], &[AC, SN, RN]),
        "formatting action RN dropped; formatting action RN added behind SN"
    );
}

/// A count that is another is told with its action, and not with one beside it.
#[test]
fn counts() {
    let with = |conditioning: &[(u8, u8)]| content(&set(0, None, conditioning, &[], &[]));
    let before = with(&[(ca::PFXA, 4), (ca::IGN, 2), (ca::ZNX, 0)]);
    let after = with(&[(ca::CC, 2), (ca::PFXA, 3), (ca::ZNX, 0)]);
    assert_eq!(
        before.changes(&after),
        [
            "conditioning action CC 2 added before PFXA 3",
            "conditioning action PFXA 4 changed to PFXA 3",
            "conditioning action IGN 2 dropped",
        ]
    );
}

/// Where an action stands in a list twice, the place is told: names alone would not say which one it is.
#[test]
fn repeated_actions() {
    use fa::*;
    let twice = [DELIMITER_A, RN, DELIMITER_A, DN];
    assert_eq!(
        changes(&twice, &[DELIMITER_A, RN, DN]),
        "formatting action delimiter A dropped from place 3"
    );
    assert_eq!(
        changes(&twice, &[DELIMITER_A, RN, SP, DN]),
        "formatting action delimiter A at place 3 changed to SP"
    );
    assert_eq!(
        changes(&twice, &[DELIMITER_A, RN, SP, DELIMITER_A, DN]),
        "formatting action SP added at place 3"
    );
    assert_eq!(
        changes(&twice, &[DELIMITER_A, RN, SP, AC, DELIMITER_A, DN]),
        "formatting actions SP, AC added at places 3 to 4"
    );
    assert_eq!(
        changes(&[RN, RN, RN], &[RN]),
        "formatting actions RN, RN dropped from places 2 to 3"
    );
    // The first of a run stands there once, but not the second.
    assert_eq!(
        changes(&[DN, RN, AC, RN], &[AC, RN]),
        "formatting actions DN, RN dropped from places 1 to 2"
    );
    // At the end, behind an action that stands there twice.
    assert_eq!(
        changes(&twice[..3], &twice),
        "formatting action DN added at place 4"
    );
    assert_eq!(
        changes(&[RN], &[RN, RN]),
        "formatting action RN added at place 2"
    );
}

/// The longest list that two have in common, by trying all of the shorter one's.
fn common(left: &[u8], right: &[u8]) -> usize {
    let holds = |chosen: u32| {
        let wanted = (0..left.len()).filter(|at| chosen >> at & 1 == 1);
        let mut rest = right.iter();
        wanted.clone().all(|at| rest.any(|&one| one == left[at]))
    };
    let lists = (0..1_u32 << left.len()).filter(|&chosen| holds(chosen));
    lists.map(u32::count_ones).max().unwrap_or(0) as usize
}

/// How many actions a text tells as dropped, as added and as changed.
fn counted(texts: &[String]) -> [usize; 3] {
    let mut counts = [0; 3];
    for text in texts {
        let names = text.split(", ").count();
        for (count, word) in counts
            .iter_mut()
            .zip([" dropped", " added", " changed to "])
        {
            *count += if text.contains(word) { names } else { 0 };
        }
    }
    counts
}

/// Of any two lists as many actions are kept as they have in common, and of the others as few are told as
/// can be.
#[test]
fn any_lists() {
    let mut random = Random(5);
    for _ in 0..2000 {
        let mut list = || {
            let length = random.below(8);
            (0..length).map(|_| 1 + random.below(4) as u8).collect()
        };
        let (left, right): (Vec<u8>, Vec<u8>) = (list(), list());
        let told = formatting(&left).changes(&formatting(&right));
        let [dropped, added, changed] = counted(&told);
        let kept = common(&left, &right);
        assert_eq!(dropped + changed, left.len() - kept, "{left:?} {right:?}");
        assert_eq!(added + changed, right.len() - kept, "{left:?} {right:?}");
        assert_eq!(told.is_empty(), left == right);
    }
}

/// A content as it is told.
#[derive(Clone, Debug, PartialEq)]
struct Told {
    class: String,
    escapes: bool,
    lists: BTreeMap<String, Vec<String>>,
}

fn names_in(text: &str) -> Vec<String> {
    text.split(", ").map(str::to_string).collect()
}

impl Told {
    /// As the text of a content has it.
    fn of(content: &Content) -> Told {
        let (mut class, mut escapes, mut lists) = (String::new(), false, BTreeMap::new());
        for part in content.to_string().split("; ") {
            if let Some(told) = part.strip_prefix("outgoing class ") {
                class = told.to_string();
            } else if part == "no conditioning action, the number escapes" {
                escapes = true;
            } else {
                let (list, names) = part.split_once(' ').expect("a list and its actions");
                lists.insert(list.to_string(), names_in(names));
            }
        }
        Told {
            class,
            escapes,
            lists,
        }
    }

    /// Carries out what is told to differ.
    fn carry_out(&mut self, changes: &[String]) {
        let mut of_lists: BTreeMap<&str, Vec<&str>> = BTreeMap::new();
        for change in changes {
            let classes = change.strip_prefix("outgoing class changed from ");
            if let Some((from, to)) = classes.and_then(|both| both.split_once(" to ")) {
                assert_eq!(self.class, from.trim_matches('"'));
                self.class = to.trim_matches('"').to_string();
            } else if change == "no conditioning action is left, the number escapes" {
                assert!(!std::mem::replace(&mut self.escapes, true));
            } else if change == "the number no longer escapes" {
                assert!(std::mem::replace(&mut self.escapes, false));
            } else {
                let (list, behind) = change.split_once(" action").expect("a list");
                let (_, change) = behind.split_once(' ').expect("a change");
                of_lists.entry(list).or_default().push(change);
            }
        }
        for (list, changes) in of_lists {
            let before = self.lists.remove(list).unwrap_or_default();
            let after = list_after(&before, &changes);
            if !after.is_empty() {
                self.lists.insert(list.to_string(), after);
            }
        }
    }
}

/// The place of an action that a name alone tells: it stands in the list once.
fn only(list: &[String], name: &str) -> usize {
    let mut places = (0..list.len()).filter(|&place| list[place] == name);
    let (place, other) = (places.next(), places.next());
    assert_eq!(
        other, None,
        "{name} alone does not tell which one of {list:?}"
    );
    place.expect("an action of the list")
}

/// Places as they are told, `place 3` or `places 3 to 4`, counted from 0.
fn places_in(text: &str) -> std::ops::Range<usize> {
    let mut numbers = text.split(' ').filter_map(|word| word.parse().ok());
    let first: usize = numbers.next().expect("a place");
    first - 1..numbers.next().unwrap_or(first)
}

/// Where the actions are that these words mean: by their places if they are told, else each by its name.
fn meant(list: &[String], names: &str, places: &str) -> Vec<usize> {
    let names = names_in(names);
    let meant: Vec<usize> = match places {
        "" => names.iter().map(|name| only(list, name)).collect(),
        _ => places_in(places).collect(),
    };
    assert!(meant.iter().map(|&place| &list[place]).eq(&names));
    meant
}

/// A list with its changes carried out. Dropped and changed actions are told by the list as it was, added
/// ones by the list as it becomes.
fn list_after(before: &[String], changes: &[&str]) -> Vec<String> {
    let mut left: Vec<Option<String>> = before.iter().cloned().map(Some).collect();
    let mut added = Vec::new();
    for change in changes {
        if let Some((from, to)) = change.split_once(" changed to ") {
            let (name, place) = from.split_once(" at ").unwrap_or((from, ""));
            left[meant(before, name, place)[0]] = Some(to.to_string());
        } else if let Some((names, places)) = change.split_once(" dropped") {
            for place in meant(before, names, places) {
                assert_ne!(left[place].take(), None);
            }
        } else {
            let (names, by) = change.split_once(" added").expect("a change");
            added.push((names_in(names), by.trim_start().split_once(' ')));
        }
    }
    let mut after: Vec<String> = left.into_iter().flatten().collect();
    let mut neighbours = Vec::new();
    for (names, by) in added {
        let place = match by {
            Some(("at", places)) => places_in(places).start,
            Some((word, name)) => {
                neighbours.push(name);
                only(&after, name) + usize::from(word == "behind")
            }
            None => after.len(),
        };
        assert!(by.is_some() || after.is_empty());
        after.splice(place..place, names);
    }
    for name in neighbours {
        only(&after, name);
    }
    after
}

/// A list of a few actions, often with one twice; or another list with some put in, taken out or changed.
fn any_list<T: Clone>(random: &mut Random, from: &[T], other: Option<&[T]>) -> Vec<T> {
    let Some(other) = other.filter(|_| random.below(3) != 0) else {
        let length = random.below(8);
        return (0..length).map(|_| random.pick(from)).collect();
    };
    let mut list = other.to_vec();
    for _ in 0..random.below(4) {
        let place = random.below(list.len() + 1);
        let taken = random.below(2).min(list.len() - place);
        let put = (0..random.below(2)).map(|_| random.pick(from));
        list.splice(place..place + taken, put.collect::<Vec<T>>());
    }
    list
}

/// A content, or another one with some changes.
fn any_content(random: &mut Random, other: Option<&Content>) -> Content {
    let conditioning = [(ca::IGN, 1), (ca::IGN, 2), (ca::PFXA, 1), (ca::DNX, 0)];
    let services = [sa::INPRTG, sa::CDPNNP, sa::CDIAL];
    let formatting = [fa::RN, fa::DN, fa::DELIMITER_A, fa::DELIMITER_B];
    Content {
        class: random.pick(&[None, None, Some(Class::INTL), Some(Class::NATL)]),
        conditioning: any_list(
            random,
            &conditioning,
            other.map(|one| &one.conditioning[..]),
        ),
        services: any_list(random, &services, other.map(|one| &one.services[..])),
        formatting: any_list(random, &formatting, other.map(|one| &one.formatting[..])),
    }
}

/// Whoever carries out what is told of any two contents makes the one of the other, and never has to guess.
#[test]
fn carried_out() {
    let mut random = Random(20);
    for _ in 0..4000 {
        let left = any_content(&mut random, None);
        let right = any_content(&mut random, Some(&left));
        for (one, other) in [(&left, &right), (&right, &left)] {
            let changes = one.changes(other);
            let mut told = Told::of(one);
            told.carry_out(&changes);
            assert_eq!(told, Told::of(other), "{one}\n{changes:#?}");
        }
    }
}
