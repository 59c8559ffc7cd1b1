//! Plans side by side (C-20): the memory and a copy of it that is edited, holds
//! the same under other numbers or other settings, or is damaged.

use super::{Maker, Script};
use crate::calls;
use crate::comparing::{self, ENTRY};
use crate::layout;
use crate::plan::Plan;
use crate::rules::SetNumber;
use crate::script::to_hex;

impl Maker {
    /// Some provisioning calls; a refused one is as good as an accepted one.
    fn edit(&mut self, memory: &mut [u8]) {
        self.memory = memory.len();
        for _ in 0..self.random.between(1, 8) {
            let plan = layout::decode(memory);
            let kind = self.next_kind(plan.as_ref());
            if let Some(call) = calls::provisioning(kind) {
                let body = self.body(kind, plan.as_ref());
                let _ = call(memory, &body);
            }
        }
    }

    fn with_other_settings(&mut self, mut plan: Plan) -> Plan {
        let accepting = self.random.percent(50);
        plan.settings = self.settings(accepting);
        plan
    }
}

/// The same contents under numbers that count from the other end.
pub fn renumbered(mut plan: Plan) -> Plan {
    let last = plan.rooms.sets - 1;
    let other = |number: SetNumber| SetNumber(last - number.0);
    let sets = plan.sets.into_iter();
    plan.sets = sets.map(|(number, set)| (other(number), set)).collect();
    for number in plan.rules.values_mut() {
        *number = other(*number);
    }
    plan
}

impl Script {
    /// The memory beside another one, and mostly the other way round too.
    pub(super) fn compare(&mut self) {
        let memory = self.shadow.memory.clone();
        let other = self.other_memory();
        self.compare_with(&other);
        if self.maker.random.percent(70) {
            self.add(format!("memory {}", to_hex(&other)));
            self.compare_with(&memory);
            self.add(format!("memory {}", to_hex(&memory)));
        }
    }

    fn compare_with(&mut self, right: &[u8]) {
        let differences = match (self.plan(), layout::decode(right)) {
            (Some(left), Some(right)) => comparing::differences(&left, &right).len(),
            _ => 0,
        };
        let out = self.buffer(ENTRY * differences);
        self.add(format!("compare {} {out}", to_hex(right)));
    }

    /// A copy of the memory, mostly with another plan in it.
    fn other_memory(&mut self) -> Vec<u8> {
        let mut memory = self.shadow.memory.clone();
        match (self.plan(), self.maker.random.below(10)) {
            (None, _) | (_, 0) => {}
            (Some(plan), 1 | 2) => calls::store(&mut memory, &renumbered(plan)),
            (Some(plan), 3) => calls::store(&mut memory, &self.maker.with_other_settings(plan)),
            _ => self.maker.edit(&mut memory),
        }
        if self.maker.random.percent(12) {
            self.maker.mutate(&mut memory);
        }
        memory
    }
}
