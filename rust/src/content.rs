//! What a set does, in words, and what differs between two sets, action by action.

use crate::bodies::{SET_BYTES, SET_CA, SET_CLASS, SET_FA, SET_SA};
use crate::{ca, fa, sa, Class, AS_INCOMING};
use std::fmt;

/// What a set does: the fields of its body but its number.
///
/// As text it is as `outgoing class as incoming; conditioning DNX, CCDEF; service CDPNNP; formatting RN,
/// DN`, by the documents' names; a list without actions is left out, and a set without conditioning
/// actions says that the number escapes.
#[derive(Clone, Debug, PartialEq, Eq)]
pub struct Content {
    /// The outgoing class, none for "as incoming".
    pub class: Option<Class>,
    /// The conditioning actions, each a code and a count.
    pub conditioning: Vec<(u8, u8)>,
    /// The service actions.
    pub services: Vec<u8>,
    /// The formatting actions.
    pub formatting: Vec<u8>,
}

impl Content {
    /// The content in a set's body, as [`Plan::set_content`](crate::Plan::set_content) gives it. None
    /// where the body is under 47 bytes, or the byte of its outgoing class is no class.
    ///
    /// ```
    /// use npp::{bodies, ca, fa, sa, Class, Content, SetNumber};
    ///
    /// let conditioning = [(ca::IGN, 1), (ca::ZNX, 0)];
    /// let body = bodies::set(SetNumber(7), Some(Class::INTL), &conditioning, &[sa::CDIAL], &[fa::ZN]);
    /// let content = Content::of(&body.unwrap()).unwrap();
    /// assert_eq!(content.conditioning, conditioning);
    /// assert_eq!(
    ///     content.to_string(),
    ///     "outgoing class INTL; conditioning IGN 1, ZNX; service CDIAL; formatting ZN"
    /// );
    /// assert_eq!(Content::of(&[0; 46]), None);
    /// ```
    pub fn of(body: &[u8]) -> Option<Content> {
        let body = body.get(..SET_BYTES)?;
        let class = match body[SET_CLASS] {
            AS_INCOMING => None,
            byte => Some(Class::of(byte)?),
        };
        let pairs = body[SET_CA..SET_SA].chunks_exact(2);
        let pairs = pairs.map(|pair| (pair[0], pair[1]));
        // A list ends at its first code 0.
        let codes = |list: &[u8]| list.iter().copied().take_while(|&code| code != 0).collect();
        Some(Content {
            class,
            conditioning: pairs.take_while(|&(code, _)| code != 0).collect(),
            services: codes(&body[SET_SA..SET_FA]),
            formatting: codes(&body[SET_FA..]),
        })
    }

    /// What differs from this content to another, in words: the outgoing class; where one of the two alone
    /// has conditioning actions, that the number escapes or no longer does; then each action that was
    /// dropped, added or changed, list by list. Of each list as many actions as can be are taken for kept,
    /// so that one that was put in between is one that was added. Equal contents give nothing.
    ///
    /// Where an action stands in its list twice, so that its name alone does not tell which one is meant,
    /// a place is told, counted from 1: of a dropped or changed action in this content, of an added one in
    /// the other.
    ///
    /// ```
    /// use npp::{ca, fa, sa, Class, Content};
    ///
    /// let before = Content {
    ///     class: None,
    ///     conditioning: vec![(ca::IGN, 1), (ca::DNX, 0), (ca::CCDEF, 0)],
    ///     services: vec![sa::CDPNNP],
    ///     formatting: vec![fa::RN, fa::DN],
    /// };
    /// let after = Content {
    ///     class: Some(Class::NATL),
    ///     conditioning: vec![(ca::IGN, 2), (ca::DNX, 0), (ca::CCDEF, 0)],
    ///     services: vec![sa::INPRTG, sa::CDPNNP],
    ///     formatting: vec![fa::DN],
    /// };
    /// assert_eq!(before.changes(&after), [
    ///     "outgoing class changed from \"as incoming\" to NATL",
    ///     "conditioning action IGN 1 changed to IGN 2",
    ///     "service action INPRTG added before CDPNNP",
    ///     "formatting action RN dropped",
    /// ]);
    /// assert!(after.changes(&after).is_empty());
    /// ```
    pub fn changes(&self, after: &Content) -> Vec<String> {
        let mut changes = Vec::new();
        if self.class != after.class {
            let name = |class: Option<Class>| class.map_or("\"as incoming\"", Class::name);
            let (left, right) = (name(self.class), name(after.class));
            changes.push(format!("outgoing class changed from {left} to {right}"));
        }
        let escape = match (self.escapes(), after.escapes()) {
            (false, true) => Some("no conditioning action is left, the number escapes"),
            (true, false) => Some("the number no longer escapes"),
            _ => None,
        };
        changes.extend(escape.map(str::to_string));
        let lists = self.lists().into_iter().zip(after.lists());
        for ((name, left), (_, right)) in lists {
            changes.extend(list_changes(name, &left, &right));
        }
        changes
    }

    /// Whether numbers escape.
    fn escapes(&self) -> bool {
        self.conditioning.is_empty()
    }

    /// The three lists by their names.
    fn lists(&self) -> [(&'static str, Vec<Action>); 3] {
        let services = self.services.iter();
        let formatting = self.formatting.iter();
        [
            (
                "conditioning",
                self.conditioning.iter().map(conditioning).collect(),
            ),
            (
                "service",
                services.map(|&code| plain(code, sa::name)).collect(),
            ),
            (
                "formatting",
                formatting.map(|&code| plain(code, fa::name)).collect(),
            ),
        ]
    }
}

impl fmt::Display for Content {
    fn fmt(&self, f: &mut fmt::Formatter<'_>) -> fmt::Result {
        write!(f, "outgoing class {}", class_text(self.class))?;
        if self.escapes() {
            f.write_str("; no conditioning action, the number escapes")?;
        }
        for (name, list) in self.lists() {
            if !list.is_empty() {
                write!(f, "; {name} {}", names_of(&list))?;
            }
        }
        Ok(())
    }
}

/// An outgoing class in words.
fn class_text(class: Option<Class>) -> &'static str {
    class.map_or("as incoming", Class::name)
}

/// An action of a list: its code, and its name with its count.
#[derive(Clone, Debug, PartialEq, Eq)]
struct Action {
    code: u8,
    name: String,
}

/// A conditioning action.
fn conditioning(&(code, count): &(u8, u8)) -> Action {
    let mut action = plain(code, ca::name);
    if count != 0 {
        action.name = format!("{} {count}", action.name);
    }
    action
}

/// An action without a count; a code that has no name is told as a number.
fn plain(code: u8, name: fn(u8) -> Option<&'static str>) -> Action {
    let name = name(code).map_or(format!("code {code}"), str::to_string);
    Action { code, name }
}

/// Actions by their names.
fn names_of(actions: &[Action]) -> String {
    let names: Vec<&str> = actions.iter().map(|action| &action.name[..]).collect();
    names.join(", ")
}

/// How the next actions of two lists are told.
#[derive(Clone, Copy, Debug, PartialEq, Eq)]
enum Step {
    Kept,
    Changed,
    Dropped,
    Added,
}

impl Step {
    /// How many actions of the left and of the right list it takes.
    fn takes(self) -> (usize, usize) {
        match self {
            Step::Kept | Step::Changed => (1, 1),
            Step::Dropped => (1, 0),
            Step::Added => (0, 1),
        }
    }

    /// What it counts for at the front of what is left of two lists, none where it is not for it. A kept
    /// action counts for more than any list of changed ones, and a changed count for more than changed
    /// codes: lists have at most 12 actions.
    fn worth(self, left: &[Action], right: &[Action]) -> Option<u32> {
        match (self, left.first(), right.first()) {
            (Step::Kept, Some(one), Some(other)) => (one == other).then_some(10_000),
            (Step::Changed, Some(one), Some(other)) if one == other => None,
            (Step::Changed, Some(one), Some(other)) if one.code == other.code => Some(100),
            (Step::Changed, Some(_), Some(_)) => Some(1),
            (Step::Dropped, Some(_), _) | (Step::Added, _, Some(_)) => Some(0),
            _ => None,
        }
    }
}

/// The steps from one list to another that are worth most; of those that are worth the same the first.
fn align(left: &[Action], right: &[Action]) -> Vec<Step> {
    let (rows, columns) = (left.len(), right.len());
    // From a place of each list to the ends of both: the worth, and the first step.
    let mut best = vec![vec![(0, None); columns + 1]; rows + 1];
    for row in (0..=rows).rev() {
        for column in (0..=columns).rev() {
            for step in [Step::Kept, Step::Changed, Step::Dropped, Step::Added] {
                let Some(worth) = step.worth(&left[row..], &right[column..]) else {
                    continue;
                };
                let (down, along) = step.takes();
                let worth = worth + best[row + down][column + along].0;
                if best[row][column].1.is_none() || worth > best[row][column].0 {
                    best[row][column] = (worth, Some(step));
                }
            }
        }
    }
    let (mut row, mut column, mut steps) = (0, 0, Vec::new());
    while let (_, Some(step)) = best[row][column] {
        let (down, along) = step.takes();
        (row, column) = (row + down, column + along);
        steps.push(step);
    }
    steps
}

/// What differs from one list to another, in words. Actions that were dropped or added one behind the
/// other are told together.
fn list_changes(list: &str, left: &[Action], right: &[Action]) -> Vec<String> {
    let (mut row, mut column, mut changes) = (0, 0, Vec::new());
    for run in align(left, right).chunk_by(|one, next| one == next && *one != Step::Changed) {
        let (down, along) = run[0].takes();
        let from = Part::of(left, row, down * run.len());
        let to = Part::of(right, column, along * run.len());
        let told = match run[0] {
            Step::Kept => None,
            Step::Changed => Some(format!(
                "{}{} changed to {to}",
                from,
                from.told_apart(" at")
            )),
            Step::Dropped => Some(format!("{from} dropped{}", from.told_apart(" from"))),
            Step::Added => Some(format!("{to} added{}", to.neighbour())),
        };
        let actions = if run.len() == 1 { "action" } else { "actions" };
        changes.extend(told.map(|told| format!("{list} {actions} {told}")));
        (row, column) = (from.end, to.end);
    }
    changes
}

/// Actions of a list that stand one behind the other, from a place to before another. As text it is their
/// names.
struct Part<'l> {
    list: &'l [Action],
    start: usize,
    end: usize,
}

impl<'l> Part<'l> {
    fn of(list: &'l [Action], start: usize, count: usize) -> Part<'l> {
        let end = start + count;
        Part { list, start, end }
    }

    fn actions(&self) -> &'l [Action] {
        &self.list[self.start..self.end]
    }

    /// Whether an action stands in the list more than once.
    fn repeats(&self, action: &Action) -> bool {
        self.list.iter().filter(|&other| other == action).count() > 1
    }

    /// Their places, counted from 1, behind a word.
    fn places(&self, word: &str) -> String {
        match self.end - self.start {
            1 => format!("{word} place {}", self.end),
            _ => format!("{word} places {} to {}", self.start + 1, self.end),
        }
    }

    /// Their places where the names alone do not tell which actions of the list they are.
    fn told_apart(&self, word: &str) -> String {
        match self.actions().iter().any(|action| self.repeats(action)) {
            true => self.places(word),
            false => String::new(),
        }
    }

    /// Where they stand, by the action behind them or else before them, or by their places where that one
    /// stands in the list more than once; nothing where they are the whole list.
    fn neighbour(&self) -> String {
        let behind = self.list.get(self.end).map(|action| ("before", action));
        let before = self.list[..self.start].last();
        match behind.or(before.map(|action| ("behind", action))) {
            Some((_, action)) if self.repeats(action) => self.places(" at"),
            Some((word, action)) => format!(" {word} {}", action.name),
            None => String::new(),
        }
    }
}

impl fmt::Display for Part<'_> {
    fn fmt(&self, f: &mut fmt::Formatter<'_>) -> fmt::Result {
        f.write_str(&names_of(self.actions()))
    }
}
