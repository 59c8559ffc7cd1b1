//! Other plans made from a plan (C-20): edited by provisioning calls, or filled
//! again with the same rules.

use super::Maker;
use npp_reference::bodies::{self, Kind};
use npp_reference::plan::Plan;
use npp_reference::rules::*;

/// How often a change of a set is tried until one is accepted.
const TRIES: usize = 8;

fn set_body(number: SetNumber, set: &ActionSet) -> Vec<u8> {
    let mut body = Vec::new();
    bodies::put_set(&mut body, number, set);
    body
}

fn rule_body(filter: &Filter, number: SetNumber) -> Vec<u8> {
    let mut body = Vec::new();
    bodies::put_rule(&mut body, filter, number);
    body
}

impl Maker {
    /// So many edits; most of their calls are accepted.
    pub fn edit(&mut self, plan: &mut Plan, count: usize) {
        for _ in 0..count {
            match self.random.below(12) {
                0..=5 => self.any_call(plan),
                6 | 7 => self.change_a_content(plan),
                8 | 9 => self.copy_a_set(plan, 50),
                _ => self.copy_a_set(plan, 100),
            }
        }
    }

    /// A provisioning call but an opening.
    fn any_call(&mut self, plan: &mut Plan) {
        let kind = self.random.weighted(&[
            (2, Kind::AddSet),
            (4, Kind::ReplaceSet),
            (1, Kind::RemoveSet),
            (5, Kind::AddRule),
            (4, Kind::ChangeRule),
            (4, Kind::RemoveRule),
        ]);
        let body = self.body(kind, Some(plan), plan.rooms);
        // A refused call is as good as an accepted one.
        let _ = match kind {
            Kind::AddSet => plan.add_set(&body),
            Kind::ReplaceSet => plan.replace_set(&body),
            Kind::RemoveSet => plan.remove_set(&body),
            Kind::AddRule => plan.add_rule(&body),
            Kind::ChangeRule => plan.change_rule(&body),
            _ => plan.remove_rule(&body),
        };
    }

    /// Replaces the set of a rule by a content that is a little different.
    fn change_a_content(&mut self, plan: &mut Plan) {
        let Some(filter) = self.held_filter(plan) else {
            return;
        };
        let number = plan.rules[&filter];
        for _ in 0..TRIES {
            let mut set = plan.sets[&number].clone();
            match self.random.percent(20) {
                true => set.class = self.outgoing_class(),
                false => self.disturb(&mut set),
            }
            if set != plan.sets[&number] && plan.replace_set(&set_body(number, &set)).is_ok() {
                return;
            }
        }
    }

    /// Adds a set under a free number with the content of one that is held, and
    /// changes each rule of that one to the copy, with that chance.  A set that
    /// no rule names then is removed.
    fn copy_a_set(&mut self, plan: &mut Plan, chance: usize) {
        let free = SetNumber(self.random.below(usize::from(plan.rooms.sets)) as u16);
        let Some(number) = self.held_set(plan) else {
            return;
        };
        if plan.add_set(&set_body(free, &plan.sets[&number])).is_err() {
            return;
        }
        let naming = plan.rules.iter().filter(|(_, &set)| set == number);
        let filters: Vec<Filter> = naming.map(|(filter, _)| filter.clone()).collect();
        for filter in filters {
            if self.random.percent(chance) {
                let changed = plan.change_rule(&rule_body(&filter, free));
                changed.expect("a set of the same content fits");
            }
        }
        // IN USE where a rule still names it.
        let _ = plan.remove_set(&number.0.to_be_bytes());
    }

    /// A plan that is opened anew, mostly with other settings and rooms, and
    /// holds the same rules with the same contents, mostly under other numbers.
    pub fn filled_again(&mut self, plan: &Plan) -> Plan {
        let kept = self.random.percent(30);
        let rooms = match kept {
            true => plan.rooms,
            false => Rooms {
                sets: self.room_for(plan.sets.len(), 1024),
                rules: self.room_for(plan.rules.len(), 4096),
            },
        };
        let mut opening = Vec::new();
        let settings = match self.random.percent(70) {
            true => self.settings(),
            false => plan.settings.clone(),
        };
        bodies::put_opening(&mut opening, rooms, &settings);
        let mut other = Plan::open(&opening).expect("an opening in range");
        let mut numbers: Vec<SetNumber> = (0..rooms.sets).map(SetNumber).collect();
        self.random.shuffle(&mut numbers);
        if kept {
            numbers = plan.sets.keys().copied().collect();
        }
        for ((old, set), &new) in plan.sets.iter().zip(&numbers) {
            let added = other.add_set(&set_body(new, set));
            added.expect("a number that is free");
            for (filter, _) in plan.rules.iter().filter(|(_, number)| *number == old) {
                let added = other.add_rule(&rule_body(filter, new));
                added.expect("a rule that there is room for");
            }
        }
        other
    }

    /// Room for so many, mostly for some more.
    fn room_for(&mut self, held: usize, most: usize) -> u16 {
        (held + self.random.below(5)).clamp(1, most) as u16
    }
}
