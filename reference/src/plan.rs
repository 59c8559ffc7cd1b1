//! A plan as plain maps, with what every call does to it once the body is
//! whole (CUT) and the plan is there (PLAN).  Each function makes its checks
//! in the order of document 01, 'Refusal numbers'.

use crate::bodies;
use crate::process::{self, Answer, Outcome, Values};
use crate::rules::*;
use std::collections::BTreeMap;

#[derive(Clone, Debug, PartialEq, Eq)]
pub struct Plan {
    pub rooms: Rooms,
    pub settings: Settings,
    pub sets: BTreeMap<SetNumber, ActionSet>,
    /// In listing order, which is the order of filters.
    pub rules: BTreeMap<Filter, SetNumber>,
}

/// What the rules say of a number's class and digits.
enum Choice<'a> {
    NoRule,
    Rule {
        filter: &'a Filter,
        set: &'a ActionSet,
    },
}

impl Plan {
    /// RANGE over the whole body.  ROOM is the caller's: it depends on where
    /// the plan is to stand.
    pub fn open(body: &[u8]) -> Checked<Plan> {
        let (rooms, settings) = bodies::opening(body)?;
        Ok(Plan {
            rooms,
            settings,
            sets: BTreeMap::new(),
            rules: BTreeMap::new(),
        })
    }

    // -- provisioning -------------------------------------------------------

    pub fn add_set(&mut self, body: &[u8]) -> Checked<()> {
        let (number, set) = self.set_in_range(body)?;
        demand(set.keeps_group_rules(), Refusal::Groups)?;
        demand(!self.sets.contains_key(&number), Refusal::Taken)?;
        self.sets.insert(number, set);
        Ok(())
    }

    pub fn replace_set(&mut self, body: &[u8]) -> Checked<()> {
        let (number, set) = self.set_in_range(body)?;
        demand(set.keeps_group_rules(), Refusal::Groups)?;
        self.named_set(number)?;
        let all_fit = self.filters_naming(number).all(|filter| set.fits(filter));
        demand(all_fit, Refusal::Misfit)?;
        self.sets.insert(number, set);
        Ok(())
    }

    pub fn remove_set(&mut self, body: &[u8]) -> Checked<()> {
        let number = bodies::set_number(body);
        self.number_in_range(number)?;
        self.named_set(number)?;
        demand(self.filters_naming(number).next().is_none(), Refusal::InUse)?;
        self.sets.remove(&number);
        Ok(())
    }

    pub fn add_rule(&mut self, body: &[u8]) -> Checked<()> {
        let (filter, number) = self.rule_in_range(body)?;
        demand(!self.rules.contains_key(&filter), Refusal::Taken)?;
        demand(self.named_set(number)?.fits(&filter), Refusal::Misfit)?;
        demand(
            self.rules.len() < usize::from(self.rooms.rules),
            Refusal::Full,
        )?;
        self.rules.insert(filter, number);
        Ok(())
    }

    pub fn change_rule(&mut self, body: &[u8]) -> Checked<()> {
        let (filter, number) = self.rule_in_range(body)?;
        demand(self.rules.contains_key(&filter), Refusal::Absent)?;
        demand(self.named_set(number)?.fits(&filter), Refusal::Misfit)?;
        self.rules.insert(filter, number);
        Ok(())
    }

    pub fn remove_rule(&mut self, body: &[u8]) -> Checked<()> {
        let filter = bodies::filter(body)?;
        self.rules
            .remove(&filter)
            .map(|_| ())
            .ok_or(Refusal::Absent)
    }

    fn set_in_range(&self, body: &[u8]) -> Checked<(SetNumber, ActionSet)> {
        let (number, set) = bodies::set(body)?;
        self.number_in_range(number)?;
        Ok((number, set))
    }

    fn rule_in_range(&self, body: &[u8]) -> Checked<(Filter, SetNumber)> {
        let (filter, number) = bodies::rule(body)?;
        self.number_in_range(number)?;
        Ok((filter, number))
    }

    fn number_in_range(&self, number: SetNumber) -> Checked<()> {
        demand(number.0 < self.rooms.sets, Refusal::Range)
    }

    fn named_set(&self, number: SetNumber) -> Checked<&ActionSet> {
        self.sets.get(&number).ok_or(Refusal::Absent)
    }

    fn filters_naming(&self, number: SetNumber) -> impl Iterator<Item = &Filter> {
        let naming = move |(filter, &set): (_, &SetNumber)| (set == number).then_some(filter);
        self.rules.iter().filter_map(naming)
    }

    // -- answering ----------------------------------------------------------

    pub fn answer(&self, body: &[u8]) -> Checked<Answer> {
        let number = bodies::number(body)?;
        match self.choose(number.class, number.digits) {
            Choice::NoRule => Ok(Answer::plain(Outcome::NoRule, number.class)),
            Choice::Rule { filter, set } => {
                process::carry_out(set, filter, &number, &self.settings)
            }
        }
    }

    fn choose(&self, class: Class, digits: &[u8]) -> Choice<'_> {
        let rules = self.rules.iter().map(|(filter, &set)| (filter, set));
        match choose(rules, class, digits) {
            None => Choice::NoRule,
            // Every rule names a set that is there.
            Some((filter, number)) => Choice::Rule {
                filter,
                set: &self.sets[&number],
            },
        }
    }

    // -- the four read calls ------------------------------------------------

    /// The conditioned number; outcomes 0 and 1 give none.
    pub fn conditioned(&self, class: u8, digits: &[u8]) -> Checked<Vec<u8>> {
        let values = self.values(class, digits)?;
        Ok(values.map_or_else(Vec::new, |values| values.conditioned()))
    }

    /// Conditions a number; outcomes 0 and 1 have no values.
    fn values<'a>(&'a self, class: u8, digits: &'a [u8]) -> Checked<Option<Values<'a>>> {
        let class = Class::from_byte(class).ok_or(Refusal::Range)?;
        demand(
            digits.len() <= LONGEST_NUMBER && bodies::are_digits(digits),
            Refusal::Range,
        )?;
        match self.choose(class, digits) {
            Choice::Rule { filter, set } if !set.escapes() => {
                process::condition(set, filter, digits, &self.settings).map(Some)
            }
            _ => Ok(None),
        }
    }

    /// The 47 bytes of a kind 1 body.
    pub fn set_content(&self, number: SetNumber) -> Checked<Vec<u8>> {
        self.number_in_range(number)?;
        let set = self.named_set(number)?;
        let mut bytes = Vec::with_capacity(bodies::SET);
        bodies::put_set(&mut bytes, number, set);
        Ok(bytes)
    }

    /// How many rules name a set.
    pub fn referrers(&self, number: SetNumber) -> Checked<usize> {
        self.number_in_range(number)?;
        self.named_set(number)?;
        Ok(self.filters_naming(number).count())
    }

    /// The start and count of the stretch that a value covers, (0, 0) if it
    /// is empty.  No refusal number.
    pub fn stretch(&self, class: u8, digits: &[u8], value: u8) -> (usize, usize) {
        let Some(value) = Value::from_code(value) else {
            return (0, 0);
        };
        match self.values(class, digits) {
            Ok(Some(values)) => values.stretch(value),
            Ok(None) | Err(_) => (0, 0),
        }
    }

    // -- the listing --------------------------------------------------------

    pub fn rule_count(&self) -> usize {
        self.rules.len()
    }

    /// A place at or over the count draws RANGE (docs/DECISIONS.md).
    pub fn rule_at(&self, place: RulePlace) -> Checked<(&Filter, SetNumber)> {
        let (filter, &set) = self.rules.iter().nth(place.0).ok_or(Refusal::Range)?;
        Ok((filter, set))
    }
}
