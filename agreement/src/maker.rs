//! Makes settings, sets, filters, numbers, bodies and whole plans.  What it
//! makes mostly fits the plan that is there, and often stands at an edge of
//! what is allowed.

use crate::random::Random;
use npp_reference::bodies::{self, Kind};
use npp_reference::plan::Plan;
use npp_reference::rules::*;
use npp_reference::{calls, layout};

pub mod charges;
mod edits;

pub struct Maker {
    pub random: Random,
    /// Few digits and few classes, so that filters and numbers meet.
    alphabet: Vec<u8>,
    classes: Vec<u8>,
}

/// The wrong values that a byte is changed to.
pub const WRONG: usize = 7;

/// The mark of the layout before.
pub const OLD_MARK: &[u8] = b"NPP1";

impl Maker {
    pub fn new(mut random: Random) -> Maker {
        let digits = random.between(2, 4);
        let alphabet = (0..digits).map(|_| random.below(16) as u8).collect();
        let count = random.between(1, 3);
        let classes = (0..count).map(|_| random.below(6) as u8).collect();
        Maker {
            random,
            alphabet,
            classes,
        }
    }

    fn digit(&mut self) -> u8 {
        match self.random.percent(88) {
            true => self.random.pick(&self.alphabet),
            false => self.random.below(16) as u8,
        }
    }

    fn digits(&mut self, count: usize) -> Vec<u8> {
        (0..count).map(|_| self.digit()).collect()
    }

    fn class(&mut self) -> Class {
        let byte = match self.random.percent(88) {
            true => self.random.pick(&self.classes),
            false => self.random.below(6) as u8,
        };
        Class::from_byte(byte).expect("a class")
    }

    // -- openings -----------------------------------------------------------

    fn digits_or_none(&mut self, chance: usize, most: usize) -> Vec<u8> {
        let count = match self.random.percent(chance) {
            true => self.random.edged(1, most),
            false => 0,
        };
        self.digits(count)
    }

    fn settings(&mut self) -> Settings {
        let country = self.random.between(1, 3);
        let answers = [1, 1, 1, 2, 3, 4];
        Settings {
            country_code: self.digits(country),
            default_routing: self.digits_or_none(60, 15),
            delimiter_a: self.digits_or_none(60, 5),
            delimiter_b: self.digits_or_none(60, 5),
            answers: [(); 4]
                .map(|()| Response::from_byte(self.random.pick(&answers)).expect("an answer")),
            accepting: self.random.percent(50),
        }
    }

    pub fn opening(&mut self, rooms: Rooms) -> Vec<u8> {
        let mut body = Vec::new();
        bodies::put_opening(&mut body, rooms, &self.settings());
        body
    }

    pub fn small_rooms(&mut self) -> Rooms {
        Rooms {
            sets: self.random.edged(1, 6) as u16,
            rules: self.random.edged(1, 9) as u16,
        }
    }

    // -- sets ---------------------------------------------------------------

    fn outgoing_class(&mut self) -> OutgoingClass {
        match self.random.percent(40) {
            true => OutgoingClass::AsIncoming,
            false => OutgoingClass::Stated(self.class()),
        }
    }

    /// A set that keeps the group rules.
    pub fn set(&mut self) -> ActionSet {
        let mut set = ActionSet {
            class: self.outgoing_class(),
            conditioning: Vec::new(),
            services: Vec::new(),
            formatting: Vec::new(),
        };
        if self.random.percent(90) {
            set.conditioning = self.conditioning();
            set.services = self.services();
            set.formatting = self.formatting(&set);
        }
        set
    }

    fn count(&mut self, most: usize) -> u8 {
        let most = match self.random.percent(80) {
            true => most.min(3),
            false => most,
        };
        self.random.edged(1, most) as u8
    }

    fn conditioning(&mut self) -> Vec<Conditioning> {
        let main = self.random.pick(&[Value::Zn, Value::Dn, Value::Sn]);
        let takes_rest = self.random.percent(65);
        let default_country = main != Value::Zn && self.random.percent(60);
        let prefix_first = self.random.percent(30);
        let mut actions = Vec::new();
        if !takes_rest {
            actions.push(Conditioning::Take(main, self.count(15)));
        }
        if main == Value::Sn {
            actions.push(Conditioning::Take(Value::Ac, self.count(8)));
        }
        if main != Value::Zn && !default_country {
            actions.push(Conditioning::Take(Value::Cc, self.count(3)));
        }
        for value in [Value::PfxA, Value::PfxB, Value::PfxC, Value::PfxD] {
            if self.random.percent(22) {
                actions.push(Conditioning::Take(value, self.count(8)));
            }
        }
        let ignored = self.random.weighted(&[(10, 0), (6, 1), (3, 2), (1, 12)]);
        let others = [takes_rest, default_country, prefix_first];
        let places = MOST_CONDITIONING - others.iter().filter(|&&one| one).count();
        for _ in 0..ignored.min(places - actions.len()) {
            actions.push(Conditioning::Ignore(self.count(16)));
        }
        self.random.shuffle(&mut actions);
        if takes_rest {
            actions.push(Conditioning::TakeRest(main));
        }
        if default_country {
            let place = self.random.between(0, actions.len());
            actions.insert(place, Conditioning::DefaultCountry);
        }
        if prefix_first {
            actions.insert(0, Conditioning::TakePrefix);
        }
        actions
    }

    fn services(&mut self) -> Vec<Service> {
        let mut middle = [Service::Asdlkup, Service::Grnlkup];
        self.random.shuffle(&mut middle);
        let chances = [
            (30, Service::Inprtg),
            (60, Service::Cdpnnp),
            (40, middle[0]),
            (40, middle[1]),
            (35, Service::Cdial),
        ];
        let taken = chances
            .iter()
            .filter(|(chance, _)| self.random.percent(*chance));
        taken.map(|(_, service)| *service).collect()
    }

    fn formatting(&mut self, set: &ActionSet) -> Vec<Formatting> {
        let values = Value::ALL.iter().filter(|&&value| set.sets(value));
        let mut known: Vec<Formatting> = values.map(|&v| Formatting::Conditioned(v)).collect();
        known.extend([Formatting::DelimiterA, Formatting::DelimiterB]);
        for service in &set.services {
            match service {
                Service::Cdpnnp => known.extend([Formatting::Rn, Formatting::Rn, Formatting::Sp]),
                Service::Asdlkup => known.push(Formatting::Asd),
                Service::Grnlkup => known.push(Formatting::Grn),
                Service::Inprtg | Service::Cdial => {}
            }
        }
        let counts = [(1, 0), (3, 1), (6, 2), (6, 3), (4, 4), (2, 6), (1, 12)];
        let count = self.random.weighted(&counts);
        (0..count).map(|_| self.random.pick(&known)).collect()
    }

    /// Changes a set within range, so that it often breaks a group rule.
    pub fn disturb(&mut self, set: &mut ActionSet) {
        let code = self.random.between(1, 15) as u8;
        let counted = if code > 10 { 0 } else { 1 };
        let action = Conditioning::from_code(code, counted).expect("in range");
        let service = Service::from_code(self.random.between(1, 5) as u8).expect("in range");
        let format = Formatting::from_code(self.random.between(1, 16) as u8).expect("in range");
        match self.random.below(10) {
            0 => set.conditioning.clear(),
            1 => {
                set.conditioning.clear();
                set.services.clear();
            }
            2 => {
                let place = self.random.between(0, set.conditioning.len());
                set.conditioning.insert(place, action);
            }
            3 if !set.conditioning.is_empty() => {
                let place = self.random.below(set.conditioning.len());
                set.conditioning.remove(place);
            }
            4 => self.random.shuffle(&mut set.conditioning),
            5 => self.random.shuffle(&mut set.services),
            6 => {
                let place = self.random.between(0, set.services.len());
                set.services.insert(place, service);
            }
            7 if !set.services.is_empty() => {
                let place = self.random.below(set.services.len());
                set.services.remove(place);
            }
            8 => set.conditioning.push(action),
            _ => {
                let place = self.random.between(0, set.formatting.len());
                set.formatting.insert(place, format);
            }
        }
        set.conditioning.truncate(MOST_CONDITIONING);
        set.services.truncate(MOST_SERVICES);
        set.formatting.truncate(MOST_FORMATTING);
    }

    /// The same conditioning with other services, formatting and class: it
    /// fits whatever rules name the set.
    fn like(&mut self, held: &ActionSet) -> ActionSet {
        let mut set = held.clone();
        set.class = self.outgoing_class();
        if !set.escapes() {
            set.services = self.services();
            set.formatting = self.formatting(&set);
        }
        set
    }

    // -- filters ------------------------------------------------------------

    /// A prefix of its own, or one near the prefixes that the plan has.
    fn prefix(&mut self, plan: Option<&Plan>, least: usize, most: usize) -> Vec<u8> {
        let near = plan.and_then(|plan| self.held_filter(plan));
        let mut prefix = match near {
            Some(filter) if self.random.percent(40) => filter.prefix,
            _ => {
                let count = match self.random.percent(85) {
                    true => self.random.between(least, most.min(least + 3)),
                    false => self.random.edged(least, most),
                };
                self.digits(count)
            }
        };
        if self.random.percent(30) {
            prefix.push(self.digit());
        }
        prefix.truncate(most);
        while prefix.len() < least {
            prefix.push(self.digit());
        }
        prefix
    }

    /// A filter that fits the set, where one is found.
    pub fn fitting_filter(&mut self, plan: Option<&Plan>, set: &ActionSet) -> Filter {
        let least = usize::from(set.sets(Value::Fpfx));
        let free = set.fixed_digits(0);
        let most = match set.takes_rest() || set.escapes() || least == 1 {
            true => 16,
            false => free.min(16),
        };
        let prefix = self.prefix(plan, least, most);
        let fixed = set.fixed_digits(prefix.len());
        let shortest = prefix.len().max(1);
        let length = if set.escapes() {
            let stated = self.random.percent(50);
            stated.then(|| self.random.edged(shortest, 32))
        } else if set.takes_rest() {
            let stated = self.random.percent(40);
            stated.then(|| self.random.edged(shortest.max(fixed + 1).min(32), 32))
        } else {
            Some(fixed.clamp(shortest, 32))
        };
        Filter {
            class: self.class(),
            prefix,
            length: length.map(|length| length as u8),
        }
    }

    /// Any filter that is in range.
    fn any_filter(&mut self) -> Filter {
        let prefix = self.prefix(None, 0, 16);
        let stated = self.random.percent(50);
        let length = stated.then(|| self.random.edged(prefix.len().max(1), 32) as u8);
        Filter {
            class: self.class(),
            prefix,
            length,
        }
    }

    fn held_filter(&mut self, plan: &Plan) -> Option<Filter> {
        if plan.rules.is_empty() {
            return None;
        }
        let place = self.random.below(plan.rules.len());
        plan.rules.keys().nth(place).cloned()
    }

    // -- set numbers --------------------------------------------------------

    fn held_set(&mut self, plan: &Plan) -> Option<SetNumber> {
        if plan.sets.is_empty() {
            return None;
        }
        let place = self.random.below(plan.sets.len());
        plan.sets.keys().nth(place).copied()
    }

    /// A held set's number with that chance, else one under the room, or at
    /// or over it.
    pub fn set_number(&mut self, plan: Option<&Plan>, held: usize) -> SetNumber {
        let Some(plan) = plan else {
            return SetNumber(self.random.below(5) as u16);
        };
        let room = plan.rooms.sets;
        if self.random.percent(held) {
            if let Some(number) = self.held_set(plan) {
                return number;
            }
        }
        match self.random.percent(12) {
            true => SetNumber(self.random.pick(&[room, room, room + 1, 256, 1024, 65535])),
            false => SetNumber(self.random.below(usize::from(room)) as u16),
        }
    }

    // -- provisioning -------------------------------------------------------

    /// The body of a provisioning call that mostly fits the plan.
    pub fn body(&mut self, kind: Kind, plan: Option<&Plan>, rooms: Rooms) -> Vec<u8> {
        let mut body = Vec::new();
        match kind {
            Kind::Open => body = self.opening(rooms),
            Kind::AddSet | Kind::ReplaceSet => {
                let held = if kind == Kind::AddSet { 10 } else { 85 };
                let number = self.set_number(plan, held);
                let old = plan.and_then(|plan| plan.sets.get(&number));
                let mut set = match old {
                    Some(old) if self.random.percent(50) => self.like(old),
                    _ => self.set(),
                };
                if self.random.percent(12) {
                    self.disturb(&mut set);
                }
                bodies::put_set(&mut body, number, &set);
            }
            Kind::RemoveSet | Kind::Referrers => {
                let number = self.set_number(plan, 75);
                bodies::put_set_number(&mut body, number);
            }
            Kind::AddRule => {
                let number = self.set_number(plan, 88);
                let set = plan.and_then(|plan| plan.sets.get(&number));
                let held = plan.and_then(|plan| self.held_filter(plan));
                let filter = match (set, held) {
                    (_, Some(held)) if self.random.percent(8) => held,
                    (Some(set), _) if self.random.percent(90) => self.fitting_filter(plan, set),
                    _ => self.any_filter(),
                };
                bodies::put_rule(&mut body, &filter, number);
            }
            Kind::ChangeRule => {
                let held = plan.and_then(|plan| self.held_filter(plan));
                let filter = match held {
                    Some(held) if self.random.percent(85) => held,
                    _ => self.any_filter(),
                };
                let fitting = plan.and_then(|plan| self.fitting_set(plan, &filter));
                let number = match fitting {
                    Some(number) if self.random.percent(60) => number,
                    _ => self.set_number(plan, 80),
                };
                bodies::put_rule(&mut body, &filter, number);
            }
            Kind::RemoveRule => {
                let held = plan.and_then(|plan| self.held_filter(plan));
                let mut filter = match held {
                    Some(held) if self.random.percent(92) => held,
                    _ => self.any_filter(),
                };
                if self.random.percent(8) {
                    // The same prefix under the other kind of length.
                    filter.length = match filter.length {
                        Some(_) => None,
                        None => Some(self.random.edged(filter.prefix.len().max(1), 32) as u8),
                    };
                }
                bodies::put_filter(&mut body, &filter);
            }
            Kind::Number | Kind::List | Kind::Call | Kind::Price | Kind::Losses => {
                unreachable!("a provisioning call")
            }
        }
        body
    }

    fn fitting_set(&mut self, plan: &Plan, filter: &Filter) -> Option<SetNumber> {
        let fitting = plan.sets.iter().filter(|(_, set)| set.fits(filter));
        let numbers: Vec<SetNumber> = fitting.map(|(&number, _)| number).collect();
        (!numbers.is_empty()).then(|| self.random.pick(&numbers))
    }

    /// The kind of a next provisioning call: what an empty plan lacks comes
    /// first, and a plan either grows or shrinks.
    pub fn next_kind(&mut self, plan: Option<&Plan>, growing: bool) -> Kind {
        if self.random.percent(70) {
            match plan {
                None => return Kind::Open,
                Some(plan) if plan.sets.is_empty() => return Kind::AddSet,
                Some(plan) if plan.rules.is_empty() => return Kind::AddRule,
                Some(_) => {}
            }
        }
        let (adding, removing) = if growing { (4, 1) } else { (1, 3) };
        self.random.weighted(&[
            (2, Kind::Open),
            (5 * adding, Kind::AddSet),
            (10, Kind::ReplaceSet),
            (5 * removing, Kind::RemoveSet),
            (8 * adding, Kind::AddRule),
            (10, Kind::ChangeRule),
            (6 * removing, Kind::RemoveRule),
        ])
    }

    /// The rooms of an opening: mostly those asked for, at times larger or
    /// smaller ones, or such as RANGE refuses.
    pub fn other_rooms(&mut self, rooms: Rooms) -> Rooms {
        let other = self.small_rooms();
        let sets = self.random.pick(&[0, 1, 255, 256, 1024, 1025, 65535]);
        let rules = self.random.pick(&[0, 1, 255, 256, 4096, 4097, 65535]);
        self.random.weighted(&[
            (8, rooms),
            (6, other),
            (2, Rooms { sets, ..rooms }),
            (2, Rooms { rules, ..rooms }),
            (1, Rooms { sets, rules }),
            (
                2,
                Rooms {
                    sets: rooms.sets + 1,
                    rules: rooms.rules,
                },
            ),
            (
                2,
                Rooms {
                    sets: rooms.sets,
                    rules: rooms.rules + 1,
                },
            ),
        ])
    }

    /// Changes some bytes of a body, or puts a wrong value of accepting into an
    /// opening.
    pub fn damage_body(&mut self, kind: Kind, body: &mut [u8]) {
        match kind {
            Kind::Open if self.random.percent(70) => {
                body[bodies::ACCEPTING_AT] = self.wrong_accepting();
            }
            _ => self.mutate(body),
        }
    }

    /// Changes some bytes of a plan's memory, or puts a wrong value of
    /// accepting or the mark of the layout before into it.
    pub fn damage_memory(&mut self, memory: &mut [u8]) {
        match self.random.below(10) {
            0..=2 => memory[layout::ACCEPTING_AT] = self.wrong_accepting(),
            3 => memory[..OLD_MARK.len()].copy_from_slice(OLD_MARK),
            _ => self.mutate(memory),
        }
    }

    /// Neither 0 nor 1.
    pub fn wrong_accepting(&mut self) -> u8 {
        let any = self.random.between(2, 255) as u8;
        self.random.weighted(&[(3, 2), (3, 255), (2, any)])
    }

    /// Changes one or two bytes.
    pub fn mutate(&mut self, bytes: &mut [u8]) {
        if bytes.is_empty() {
            return;
        }
        for _ in 0..self.random.between(1, 2) {
            let place = self.random.below(bytes.len());
            let wrong = self.wrong_values(bytes[place]);
            let edges = [0, 1, 2, 5, 6, 11, 15, 16, 17, 32, 33, 255];
            bytes[place] = match self.random.percent(60) {
                true => self.random.pick(&wrong),
                false => self.random.pick(&edges),
            };
        }
    }

    pub fn wrong_values(&mut self, byte: u8) -> [u8; WRONG] {
        [
            0,
            1,
            255,
            byte.wrapping_add(1),
            byte.wrapping_sub(1),
            byte ^ 16,
            self.random.byte(),
        ]
    }

    // -- plans --------------------------------------------------------------

    /// A memory that the reference's calls have made: an opening, then so
    /// many provisioning calls, with `behind` bytes of any content behind it.
    pub fn memory_by_calls(&mut self, rooms: Rooms, count: usize, behind: usize) -> Vec<u8> {
        let mut memory = self.random.bytes(layout::size(rooms) + behind);
        let opening = self.opening(rooms);
        calls::open(&mut memory, &opening).expect("an opening in range, with room");
        for _ in 0..count {
            let plan = layout::decode(&memory);
            let kind = match self.next_kind(plan.as_ref(), true) {
                Kind::Open => Kind::AddRule,
                kind => kind,
            };
            let body = self.body(kind, plan.as_ref(), rooms);
            let call = calls::provisioning(kind).expect("a provisioning call");
            // A refused call is as good as an accepted one.
            let _ = call(&mut memory, &body);
        }
        memory
    }

    /// A plan with about so many sets and rules.
    pub fn plan(&mut self, rooms: Rooms, sets: usize, rules: usize) -> Plan {
        let opening = self.opening(rooms);
        let mut plan = Plan::open(&opening).expect("an opening in range");
        let sets = sets.min(usize::from(rooms.sets));
        for _ in 0..2 * sets {
            if plan.sets.len() < sets {
                let body = self.body(Kind::AddSet, Some(&plan), rooms);
                let _ = plan.add_set(&body);
            }
        }
        let rules = rules.min(usize::from(rooms.rules));
        for _ in 0..3 * rules {
            if plan.rules.len() < rules {
                let body = self.body(Kind::AddRule, Some(&plan), rooms);
                let _ = plan.add_rule(&body);
            }
        }
        plan
    }

    /// The largest rooms there are, with so many rules.
    pub fn largest_plan(&mut self, rules: usize) -> Plan {
        let rooms = Rooms {
            sets: 1024,
            rules: 4096,
        };
        let opening = self.opening(rooms);
        let mut plan = Plan::open(&opening).expect("an opening in range");
        for number in (0..rooms.sets).map(SetNumber) {
            let set = self.set();
            if number.0 % 7 != 3 && set.keeps_group_rules() {
                plan.sets.insert(number, set);
            }
        }
        let numbers: Vec<SetNumber> = plan.sets.keys().copied().collect();
        while plan.rules.len() < rules {
            let number = self.random.pick(&numbers);
            let set = plan.sets[&number].clone();
            let mut filter = self.fitting_filter(None, &set);
            for digit in &mut filter.prefix {
                *digit = self.random.below(16) as u8;
            }
            if set.fits(&filter) {
                plan.rules.insert(filter, number);
            }
        }
        plan
    }

    // -- numbers ------------------------------------------------------------

    /// A class and digits in range: mostly as some rule asks, with a length
    /// at an edge of what its set takes.
    pub fn class_and_digits(&mut self, plan: Option<&Plan>) -> (u8, Vec<u8>) {
        let rule = plan.and_then(|plan| {
            let filter = self.held_filter(plan)?;
            let set = &plan.sets[&plan.rules[&filter]];
            Some((filter, set))
        });
        let Some((filter, set)) = rule.filter(|_| self.random.percent(92)) else {
            let count = self.random.edged(0, 32);
            return (self.class().byte(), self.digits(count));
        };
        let class = match self.random.percent(95) {
            true => filter.class,
            false => self.class(),
        };
        let fixed = set.fixed_digits(filter.prefix.len());
        let count = match filter.length.map(usize::from) {
            Some(length) if self.random.percent(80) => length,
            Some(length) => self.random.pick(&[length - 1, length + 1]),
            None if self.random.percent(55) => self.random.between((fixed + 1).min(32), 32),
            None => {
                let short = self.random.between(0, fixed);
                let edges = [fixed, fixed + 1, fixed.saturating_sub(1), short, 31, 32];
                self.random.pick(&edges)
            }
        };
        let mut digits = filter.prefix;
        let missing = count.min(32).saturating_sub(digits.len());
        digits.extend(self.digits(missing));
        if self.random.percent(3) && !digits.is_empty() {
            let place = self.random.below(digits.len());
            digits[place] = self.random.below(16) as u8;
        }
        (class.byte(), digits)
    }

    /// The body of a number.
    pub fn number(&mut self, plan: Option<&Plan>) -> Vec<u8> {
        let (class, digits) = self.class_and_digits(plan);
        let kinds = [(3, 0), (5, 1), (4, 2), (4, 3)];
        let kind = LookupKind::from_byte(self.random.weighted(&kinds)).expect("a lookup kind");
        let entity = match kind {
            LookupKind::NoRecord | LookupKind::NoEntity => Vec::new(),
            LookupKind::RoutingNumber | LookupKind::ServiceProvider => {
                let most = self.random.pick(&[4, 15]);
                let count = self.random.edged(1, most);
                self.digits(count)
            }
        };
        let data = if kind == LookupKind::NoRecord { 0 } else { 55 };
        let asd = self.digits_or_none(data, 10);
        let grn = self.digits_or_none(data, 10);
        let mut body = Vec::new();
        let number = Number {
            class: Class::from_byte(class).expect("a class"),
            digits: &digits,
            lookup: Lookup {
                kind,
                entity: &entity,
                asd: &asd,
                grn: &grn,
            },
        };
        bodies::put_number(&mut body, &number);
        body
    }
}
