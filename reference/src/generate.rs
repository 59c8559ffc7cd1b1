//! Seeded random record files and call scripts.  A shadow of the plan is kept,
//! so that most records fit what is there and the interesting edges (taken,
//! full, in use, too short by one digit) come up often.

use crate::bodies::{self, Kind};
use crate::layout;
use crate::plan::Plan;
use crate::records::Run;
use crate::rules::*;
use crate::script::{to_hex, Machine, PROVISIONING};

mod charging;
pub mod comparing;

/// The splitmix64 generator.
pub struct Random {
    state: u64,
}

impl Random {
    pub fn new(seed: u64) -> Random {
        Random { state: seed }
    }

    fn next(&mut self) -> u64 {
        self.state = self.state.wrapping_add(0x9e37_79b9_7f4a_7c15);
        let mut mixed = self.state;
        mixed = (mixed ^ (mixed >> 30)).wrapping_mul(0xbf58_476d_1ce4_e5b9);
        mixed = (mixed ^ (mixed >> 27)).wrapping_mul(0x94d0_49bb_1331_11eb);
        mixed ^ (mixed >> 31)
    }

    fn below(&mut self, end: usize) -> usize {
        (self.next() % end as u64) as usize
    }

    fn between(&mut self, low: usize, high: usize) -> usize {
        low + self.below(high + 1 - low)
    }

    fn percent(&mut self, chance: usize) -> bool {
        self.below(100) < chance
    }

    fn byte(&mut self) -> u8 {
        self.next() as u8
    }

    fn pick<T: Clone>(&mut self, from: &[T]) -> T {
        from[self.below(from.len())].clone()
    }

    /// One of the entries, each as often as its weight says.
    fn weighted<T: Copy>(&mut self, entries: &[(usize, T)]) -> T {
        let total = entries.iter().map(|(weight, _)| weight).sum();
        let mut place = self.below(total);
        for &(weight, entry) in entries {
            if place < weight {
                return entry;
            }
            place -= weight;
        }
        unreachable!("the place is below the total")
    }

    fn shuffle<T>(&mut self, items: &mut [T]) {
        for end in (1..items.len()).rev() {
            items.swap(end, self.below(end + 1));
        }
    }
}

/// The digits of a lookup, which a `Number` borrows.
struct LookupDigits {
    kind: LookupKind,
    entity: Vec<u8>,
    asd: Vec<u8>,
    grn: Vec<u8>,
}

/// Makes bodies for a plan as it stands.
struct Maker {
    random: Random,
    /// Few digits, so that prefixes and numbers meet.
    alphabet: Vec<u8>,
    /// How often, in percent, a body gets a byte changed.
    mutated: usize,
    most_sets: usize,
    most_rules: usize,
    /// How often, in percent, an opening asks for a few sets and rules only.
    small: usize,
    /// The bytes that an opening's rooms should mostly find room in.
    memory: usize,
    /// How often each lookup kind comes up.
    lookups: [(usize, LookupKind); 4],
    /// Whether rows, call records and losses come up among the records.
    charges: bool,
    /// Whether amounts are about a cent, so that sums often are at a half.
    cents: bool,
}

impl Maker {
    fn new(seed: u64, mutated: usize) -> Maker {
        let mut random = Random::new(seed);
        let count = random.between(2, 4);
        let alphabet = (0..count).map(|_| random.below(16) as u8).collect();
        Maker {
            random,
            alphabet,
            mutated,
            most_sets: 64,
            most_rules: 512,
            small: 80,
            memory: usize::MAX,
            lookups: [
                (3, LookupKind::NoRecord),
                (5, LookupKind::NoEntity),
                (4, LookupKind::RoutingNumber),
                (4, LookupKind::ServiceProvider),
            ],
            charges: false,
            cents: false,
        }
    }

    fn digit(&mut self) -> u8 {
        match self.random.percent(85) {
            true => self.random.pick(&self.alphabet),
            false => self.random.below(16) as u8,
        }
    }

    fn digits(&mut self, count: usize) -> Vec<u8> {
        (0..count).map(|_| self.digit()).collect()
    }

    /// A count between two bounds that is often a bound itself.
    fn edged(&mut self, low: usize, high: usize) -> usize {
        match self.random.below(6) {
            0 => low,
            1 => high,
            _ => self.random.between(low, high),
        }
    }

    fn class(&mut self) -> Class {
        let byte = self
            .random
            .weighted(&[(4, 1), (3, 2), (2, 0), (1, 3), (1, 4), (1, 5)]);
        Class::from_byte(byte).expect("a class")
    }

    // -- bodies -------------------------------------------------------------

    /// The body of a record of kinds 0 to 9.
    fn body(&mut self, kind: Kind, plan: Option<&Plan>) -> Vec<u8> {
        let mut body = Vec::new();
        match kind {
            Kind::Open => self.put_opening(&mut body),
            Kind::AddSet | Kind::ReplaceSet => self.put_set(&mut body, kind, plan),
            Kind::RemoveSet | Kind::Referrers => {
                let number = self.set_number(plan, 75);
                bodies::put_set_number(&mut body, number);
            }
            Kind::AddRule => self.put_new_rule(&mut body, plan),
            Kind::ChangeRule => self.put_changed_rule(&mut body, plan),
            Kind::RemoveRule => {
                let filter = self.held_filter(plan, 80);
                bodies::put_filter(&mut body, &filter);
            }
            Kind::Number => self.put_number(&mut body, plan),
            Kind::List => {}
            Kind::Call | Kind::Price | Kind::Losses => unreachable!("a kind of C-11"),
        }
        self.spoil(&mut body);
        body
    }

    /// Changes one or two bytes, often to a value at an edge.
    fn mutate(&mut self, body: &mut [u8]) {
        if body.is_empty() {
            return;
        }
        for _ in 0..self.random.between(1, 2) {
            let place = self.random.below(body.len());
            let near = [
                body[place].wrapping_add(1),
                body[place].wrapping_sub(1),
                self.random.byte(),
            ];
            let edges = [0, 1, 2, 5, 6, 11, 15, 16, 17, 32, 33, 255];
            body[place] = match self.random.percent(60) {
                true => self.random.pick(&near),
                false => self.random.pick(&edges),
            };
        }
    }

    fn put_opening(&mut self, body: &mut Vec<u8>) {
        let (most_sets, most_rules) = (self.most_sets, self.most_rules);
        let small = self.random.percent(self.small);
        let sets = if small {
            self.random.between(1, 6)
        } else {
            self.edged(1, most_sets)
        };
        let rules = if small {
            self.random.between(1, 9)
        } else {
            self.edged(1, most_rules)
        };
        let mut rooms = Rooms {
            sets: sets.min(most_sets) as u16,
            rules: rules.min(most_rules) as u16,
        };
        if self.random.percent(90) {
            self.shrink(&mut rooms);
        }
        let beyond = self.random.below(12);
        let rooms = match beyond {
            0 => Rooms {
                sets: self.random.pick(&[65, 1024, 1025, 0]),
                ..rooms
            },
            1 => Rooms {
                rules: self.random.pick(&[513, 4096, 4097, 0]),
                ..rooms
            },
            _ => rooms,
        };
        let accepting = self.random.percent(50);
        let settings = self.settings(accepting);
        bodies::put_opening(body, rooms, &settings);
        if beyond == 2 {
            body[bodies::ACCEPTING_AT] = self.random.pick(&[2, 3, 128, 255]);
        }
    }

    fn shrink(&self, rooms: &mut Rooms) {
        while layout::size(*rooms) > self.memory && (rooms.sets > 1 || rooms.rules > 1) {
            rooms.rules = (rooms.rules - 1).max(1);
            rooms.sets = (rooms.sets - 1).max(1);
        }
    }

    fn settings(&mut self, accepting: bool) -> Settings {
        let length = self.random.between(1, 3);
        let country_code = self.digits(length);
        let default_routing = self.digits_or_none(60, 15);
        let delimiter_a = self.digits_or_none(60, 5);
        let delimiter_b = self.digits_or_none(60, 5);
        let responses = [
            Response::Relay,
            Response::Relay,
            Response::Connect,
            Response::Continue,
            Response::ReleaseCall,
        ];
        let answers = [(); 4].map(|()| self.random.pick(&responses));
        Settings {
            country_code,
            default_routing,
            delimiter_a,
            delimiter_b,
            answers,
            accepting,
        }
    }

    fn digits_or_none(&mut self, chance: usize, most: usize) -> Vec<u8> {
        let count = if self.random.percent(chance) {
            self.edged(1, most)
        } else {
            0
        };
        self.digits(count)
    }

    /// A held set's number with that chance, else any that is about the room.
    fn set_number(&mut self, plan: Option<&Plan>, held: usize) -> SetNumber {
        let Some(plan) = plan else {
            return SetNumber(self.random.below(4) as u16);
        };
        if !plan.sets.is_empty() && self.random.percent(held) {
            let place = self.random.below(plan.sets.len());
            return *plan.sets.keys().nth(place).expect("a held set");
        }
        if self.random.percent(4) {
            return SetNumber(self.random.pick(&[
                plan.rooms.sets,
                plan.rooms.sets + 1,
                1024,
                65535,
            ]));
        }
        SetNumber(self.random.below(usize::from(plan.rooms.sets)) as u16)
    }

    fn put_set(&mut self, body: &mut Vec<u8>, kind: Kind, plan: Option<&Plan>) {
        let held = if kind == Kind::AddSet { 10 } else { 85 };
        let number = self.set_number(plan, held);
        let mut set = self.set();
        if kind == Kind::ReplaceSet && self.random.percent(50) {
            set = self.like_the_held(plan, number).unwrap_or(set);
        }
        if self.random.percent(15) {
            self.disturb(&mut set);
        }
        bodies::put_set(body, number, &set);
    }

    /// The set of that number with other formatting and class, which fits
    /// the rules that name it.
    fn like_the_held(&mut self, plan: Option<&Plan>, number: SetNumber) -> Option<ActionSet> {
        let mut set = plan?.sets.get(&number)?.clone();
        set.class = self.outgoing_class();
        if !set.escapes() {
            set.services = self.services();
            set.formatting = self.formatting(&set);
        }
        Some(set)
    }

    fn outgoing_class(&mut self) -> OutgoingClass {
        match self.random.percent(40) {
            true => OutgoingClass::AsIncoming,
            false => OutgoingClass::Stated(self.class()),
        }
    }

    // -- sets ---------------------------------------------------------------

    /// A set that keeps the group rules.
    fn set(&mut self) -> ActionSet {
        let mut set = ActionSet {
            class: self.outgoing_class(),
            conditioning: Vec::new(),
            services: Vec::new(),
            formatting: Vec::new(),
        };
        if self.random.percent(90) {
            set.conditioning = self.conditioning();
            set.services = self.services();
            set.formatting = self.formatting(&set);
        }
        set
    }

    fn conditioning(&mut self) -> Vec<Conditioning> {
        let main = self.random.pick(&[Value::Zn, Value::Dn, Value::Sn]);
        let rest = self.random.percent(70);
        let mut actions = Vec::new();
        if !rest {
            let count = self.edged(1, 15);
            actions.push(Conditioning::Take(main, count as u8));
        }
        if main == Value::Sn {
            actions.push(self.take(Value::Ac, 8));
        }
        let default_country = main != Value::Zn && self.random.percent(70);
        if main != Value::Zn && !default_country {
            actions.push(self.take(Value::Cc, 3));
        }
        for value in [Value::PfxA, Value::PfxB, Value::PfxC, Value::PfxD] {
            if self.random.percent(20) {
                actions.push(self.take(value, 8));
            }
        }
        for _ in 0..self.random.weighted(&[(10, 0), (5, 1), (3, 2), (1, 7)]) {
            let most = self.random.pick(&[1, 2, 4, 16]);
            let count = self.random.between(1, most);
            actions.push(Conditioning::Ignore(count as u8));
        }
        actions.truncate(MOST_CONDITIONING - 3);
        self.random.shuffle(&mut actions);
        if rest {
            actions.push(Conditioning::TakeRest(main));
        }
        let prefix_first = self.random.percent(25);
        if default_country {
            let place = self.random.between(0, actions.len());
            actions.insert(place, Conditioning::DefaultCountry);
        }
        if prefix_first {
            actions.insert(0, Conditioning::TakePrefix);
        }
        actions
    }

    /// Counts are mostly small, so that stated lengths stay in reach.
    fn take(&mut self, value: Value, most: usize) -> Conditioning {
        let most = if self.random.percent(80) {
            most.min(3)
        } else {
            most
        };
        Conditioning::Take(value, self.random.between(1, most) as u8)
    }

    fn services(&mut self) -> Vec<Service> {
        let mut lookups = [Service::Asdlkup, Service::Grnlkup];
        self.random.shuffle(&mut lookups);
        let chances = [
            (25, Service::Inprtg),
            (65, Service::Cdpnnp),
            (40, lookups[0]),
            (40, lookups[1]),
            (30, Service::Cdial),
        ];
        chances
            .iter()
            .filter(|(chance, _)| self.random.percent(*chance))
            .map(|(_, service)| *service)
            .collect()
    }

    fn formatting(&mut self, set: &ActionSet) -> Vec<Formatting> {
        let values = Value::ALL.iter().filter(|&&value| set.sets(value));
        let mut known: Vec<Formatting> = values
            .map(|&value| Formatting::Conditioned(value))
            .collect();
        known.extend([Formatting::DelimiterA, Formatting::DelimiterB]);
        for service in &set.services {
            match service {
                Service::Cdpnnp => known.extend([Formatting::Rn, Formatting::Rn, Formatting::Sp]),
                Service::Asdlkup => known.push(Formatting::Asd),
                Service::Grnlkup => known.push(Formatting::Grn),
                Service::Inprtg | Service::Cdial => {}
            }
        }
        let count =
            self.random
                .weighted(&[(1, 0), (3, 1), (6, 2), (6, 3), (4, 4), (2, 6), (1, 12)]);
        (0..count).map(|_| self.random.pick(&known)).collect()
    }

    /// Changes a set within range so that it often breaks a group rule.
    fn disturb(&mut self, set: &mut ActionSet) {
        let any_code = self.random.between(1, 15) as u8;
        let any =
            Conditioning::from_code(any_code, if any_code > 10 { 0 } else { 1 }).expect("in range");
        match self.random.below(8) {
            0 => set.conditioning.clear(),
            1 => set.conditioning.push(any),
            2 => self.random.shuffle(&mut set.conditioning),
            3 => set.conditioning.truncate(1),
            4 => set.services.reverse(),
            5 => set
                .services
                .push(Service::from_code(self.random.between(1, 5) as u8).expect("in range")),
            6 => set
                .formatting
                .push(Formatting::from_code(self.random.between(1, 16) as u8).expect("in range")),
            _ => set.conditioning.insert(0, any),
        }
        set.conditioning.truncate(MOST_CONDITIONING);
        set.formatting.truncate(MOST_FORMATTING);
    }

    // -- rules --------------------------------------------------------------

    fn put_new_rule(&mut self, body: &mut Vec<u8>, plan: Option<&Plan>) {
        let number = self.set_number(plan, 92);
        let filter = match plan.and_then(|plan| plan.sets.get(&number)) {
            Some(set) if self.random.percent(85) => self.fitting_filter(set),
            _ => self.held_filter(plan, 30),
        };
        bodies::put_rule(body, &filter, number);
    }

    fn put_changed_rule(&mut self, body: &mut Vec<u8>, plan: Option<&Plan>) {
        let filter = self.held_filter(plan, 90);
        let fitting = plan.and_then(|plan| self.fitting_set(plan, &filter));
        let number = match fitting {
            Some(number) if self.random.percent(60) => number,
            _ => self.set_number(plan, 85),
        };
        bodies::put_rule(body, &filter, number);
    }

    fn fitting_set(&mut self, plan: &Plan, filter: &Filter) -> Option<SetNumber> {
        let fitting = plan.sets.iter().filter(|(_, set)| set.fits(filter));
        let numbers: Vec<SetNumber> = fitting.map(|(&number, _)| number).collect();
        (!numbers.is_empty()).then(|| self.random.pick(&numbers))
    }

    /// A filter that the plan holds, with that chance, else any filter.
    fn held_filter(&mut self, plan: Option<&Plan>, held: usize) -> Filter {
        if let Some(plan) = plan {
            if !plan.rules.is_empty() && self.random.percent(held) {
                let place = self.random.below(plan.rules.len());
                return plan.rules.keys().nth(place).expect("a held rule").clone();
            }
        }
        let prefix_length = self.prefix_length(0, 16);
        let class = self.class();
        let prefix = self.digits(prefix_length);
        let length = self
            .random
            .percent(50)
            .then(|| self.edged(prefix_length.max(1), 32) as u8);
        Filter {
            class,
            prefix,
            length,
        }
    }

    /// Mostly short.
    fn prefix_length(&mut self, low: usize, high: usize) -> usize {
        let high = if self.random.percent(85) {
            high.min(low + 3)
        } else {
            high
        };
        self.random.between(low, high)
    }

    /// A filter that fits the set where one can be found, with a length at an
    /// edge of what fits now and then.
    fn fitting_filter(&mut self, set: &ActionSet) -> Filter {
        let class = self.class();
        let least = usize::from(set.sets(Value::Fpfx));
        let free = set.fixed_digits(0);
        let most = if set.takes_rest() || least == 1 {
            16
        } else {
            free.clamp(least, 16)
        };
        let prefix_length = self.prefix_length(least, most);
        let fixed = set.fixed_digits(prefix_length);
        let lowest = prefix_length.max(1);
        let length = if set.escapes() || set.takes_rest() {
            let lowest = lowest.max(fixed + 1).min(32);
            (!self.random.percent(60)).then(|| self.edged(lowest, 32))
        } else {
            Some(fixed.clamp(lowest, 32))
        };
        Filter {
            class,
            prefix: self.digits(prefix_length),
            length: length.map(|length| length as u8),
        }
    }

    // -- numbers ------------------------------------------------------------

    fn put_number(&mut self, body: &mut Vec<u8>, plan: Option<&Plan>) {
        let (class, digits) = self.class_and_digits(plan);
        let lookup = self.lookup();
        let lookup = Lookup {
            kind: lookup.kind,
            entity: &lookup.entity,
            asd: &lookup.asd,
            grn: &lookup.grn,
        };
        bodies::put_number(
            body,
            &Number {
                class,
                digits: &digits,
                lookup,
            },
        );
    }

    /// A number that mostly begins as some rule asks, with a length at an
    /// edge of what its set can take.
    fn class_and_digits(&mut self, plan: Option<&Plan>) -> (Class, Vec<u8>) {
        let rule = plan.and_then(|plan| self.any_rule(plan));
        let Some((filter, set)) = rule.filter(|_| self.random.percent(90)) else {
            let count = self.edged(0, 32);
            return (self.class(), self.digits(count));
        };
        let class = if self.random.percent(95) {
            filter.class
        } else {
            self.class()
        };
        let fixed = set.fixed_digits(filter.prefix.len());
        let count = match filter.length.map(usize::from) {
            Some(length) if self.random.percent(85) => length,
            Some(length) => self.random.pick(&[length - 1, length + 1]),
            None => {
                let longer = self.random.between((fixed + 1).min(32), 32);
                let edges = [fixed, fixed + 1, fixed.saturating_sub(1), 31, 32];
                if self.random.percent(65) {
                    longer
                } else {
                    self.random.pick(&edges)
                }
            }
        };
        let mut digits = filter.prefix.clone();
        let missing = count.min(32).saturating_sub(digits.len());
        digits.extend(self.digits(missing));
        (class, digits)
    }

    fn any_rule<'a>(&mut self, plan: &'a Plan) -> Option<(&'a Filter, &'a ActionSet)> {
        if plan.rules.is_empty() {
            return None;
        }
        let place = self.random.below(plan.rules.len());
        let (filter, number) = plan.rules.iter().nth(place)?;
        Some((filter, &plan.sets[number]))
    }

    fn lookup(&mut self) -> LookupDigits {
        let kind = self.random.weighted(&self.lookups);
        let entity = match kind {
            LookupKind::NoRecord | LookupKind::NoEntity => Vec::new(),
            LookupKind::RoutingNumber | LookupKind::ServiceProvider => {
                let most = self.random.pick(&[4, 15]);
                let count = self.edged(1, most);
                self.digits(count)
            }
        };
        let data = if kind == LookupKind::NoRecord { 0 } else { 50 };
        let asd = self.digits_or_none(data, 10);
        let grn = self.digits_or_none(data, 10);
        LookupDigits {
            kind,
            entity,
            asd,
            grn,
        }
    }

    /// The kind of a next record: what an empty plan lacks comes first.
    fn next_kind(&mut self, plan: Option<&Plan>) -> Kind {
        if self.charges && self.random.percent(40) {
            return self
                .random
                .weighted(&[(30, Kind::Call), (8, Kind::Price), (2, Kind::Losses)]);
        }
        if self.random.percent(75) {
            match plan {
                None => return Kind::Open,
                Some(plan) if plan.sets.is_empty() => return Kind::AddSet,
                Some(plan) if plan.rules.is_empty() => return Kind::AddRule,
                Some(_) => {}
            }
        }
        self.random.weighted(&[
            (1, Kind::Open),
            (16, Kind::AddSet),
            (8, Kind::ReplaceSet),
            (6, Kind::RemoveSet),
            (26, Kind::AddRule),
            (6, Kind::ChangeRule),
            (6, Kind::RemoveRule),
            (40, Kind::Number),
            (4, Kind::Referrers),
            (2, Kind::List),
        ])
    }
}

// ---------------------------------------------------------------------------
// Record files

pub const FILE_KINDS: [&str; 7] = [
    "clean", "mutated", "cut", "unknown", "wild", "numbers", "mixed",
];

/// A record file of a kind, with about `size` records; none for a kind that
/// isn't there.
pub fn record_file(seed: u64, kind: &str, size: usize) -> Option<Vec<u8>> {
    match kind {
        "clean" => Some(records(seed, 0, size)),
        "mutated" => Some(records(seed, 12, size)),
        "cut" => Some(cut_file(seed, size)),
        "unknown" => Some(unknown_file(seed, size)),
        "wild" => Some(wild_file(seed, size)),
        "numbers" => Some(number_file(seed, size)),
        "mixed" => {
            let place = Random::new(seed).below(5);
            record_file(seed, FILE_KINDS[place], size)
        }
        _ => None,
    }
}

/// Writes records and keeps the shadow of the plan that they make.
struct File {
    bytes: Vec<u8>,
    shadow: Run,
}

impl File {
    fn new() -> File {
        File {
            bytes: Vec::new(),
            shadow: Run::default(),
        }
    }

    fn add(&mut self, maker: &mut Maker, kind: Kind) {
        let plan = self.shadow.plan.as_ref();
        let body = match kind {
            Kind::Call => maker.call_body(plan),
            Kind::Price => maker.price_body(&self.shadow.prices),
            Kind::Losses => Vec::new(),
            _ => maker.body(kind, plan),
        };
        self.add_body(kind, &body);
    }

    fn add_body(&mut self, kind: Kind, body: &[u8]) {
        self.bytes.push(kind.byte());
        self.bytes.extend(body);
        // A refused record is as good as an accepted one.
        let _ = self.shadow.carry_out(kind, body);
    }
}

/// Records of all kinds.  Those of C-11 come up under odd seeds, and the
/// losses are the last record then; in one of eight files the price list is
/// full, or nearly so, from the first.
fn records(seed: u64, mutated: usize, size: usize) -> Vec<u8> {
    let mut maker = Maker::new(seed, mutated);
    maker.charges = seed % 2 == 1;
    maker.cents = seed % 4 == 3;
    let mut file = File::new();
    if seed % 8 == 5 {
        for body in maker.many_rows() {
            file.add_body(Kind::Price, &body);
        }
    }
    for _ in 0..size {
        let kind = maker.next_kind(file.shadow.plan.as_ref());
        file.add(&mut maker, kind);
    }
    if maker.charges {
        file.add(&mut maker, Kind::Losses);
    }
    file.bytes
}

/// Ends within a record's body, or behind a kind byte.
fn cut_file(seed: u64, size: usize) -> Vec<u8> {
    let mut bytes = records(seed, 4, size);
    let mut random = Random::new(!seed);
    let with_body = Kind::ALL.into_iter().filter(|kind| kind.body_length() > 0);
    let kind = random.pick(&with_body.collect::<Vec<Kind>>());
    bytes.push(kind.byte());
    let left = random.below(kind.body_length());
    bytes.extend((0..left).map(|_| random.byte()));
    bytes
}

/// An unknown kind byte within the file, or as its last byte.
fn unknown_file(seed: u64, size: usize) -> Vec<u8> {
    let mut bytes = records(seed, 4, size);
    let mut random = Random::new(!seed);
    bytes.push(random.pick(&[10, 11, 15, 19, 128, 255]));
    if random.percent(50) {
        bytes.extend(records(seed ^ 1, 0, 3));
    }
    bytes
}

/// Known kinds before bodies of any bytes.
fn wild_file(seed: u64, size: usize) -> Vec<u8> {
    let mut random = Random::new(seed);
    let mut bytes = if random.percent(50) {
        records(seed, 0, 5)
    } else {
        Vec::new()
    };
    for _ in 0..size {
        let kind = random.pick(&Kind::ALL);
        let low = random.percent(70);
        bytes.push(kind.byte());
        bytes.extend((0..kind.body_length()).map(|_| {
            if low {
                random.byte() % 4
            } else {
                random.byte()
            }
        }));
    }
    bytes
}

/// A plan with as much as a program run takes, then `size` numbers.  The
/// benchmark compares builds over these files, so what they draw stays as it is.
fn number_file(seed: u64, size: usize) -> Vec<u8> {
    let mut maker = Maker::new(seed, 0);
    maker.lookups = [
        (3, LookupKind::NoRecord),
        (2, LookupKind::NoEntity),
        (5, LookupKind::RoutingNumber),
        (5, LookupKind::ServiceProvider),
    ];
    let mut file = File::new();
    let settings = maker.settings(false);
    let mut body = Vec::new();
    bodies::put_opening(
        &mut body,
        Rooms {
            sets: 64,
            rules: 512,
        },
        &settings,
    );
    file.add_body(Kind::Open, &body);
    for _ in 0..200 {
        file.add(&mut maker, Kind::AddSet);
    }
    for _ in 0..1500 {
        file.add(&mut maker, Kind::AddRule);
    }
    for _ in 0..size {
        file.add(&mut maker, Kind::Number);
    }
    file.bytes
}

// ---------------------------------------------------------------------------
// Call scripts

/// Writes calls and carries them out on a shadow of the memory.
struct Script {
    maker: Maker,
    shadow: Machine,
    lines: String,
}

/// A script of about `size` calls for the `calls` mode.  Small rooms keep its
/// lines short; in every sixteenth seed set numbers need both their bytes.
pub fn call_script(seed: u64, size: usize) -> String {
    let mut maker = Maker::new(seed, 6);
    (maker.most_sets, maker.most_rules, maker.small) = match seed % 16 {
        0 => (300, 300, 0),
        _ => (5, 9, 80),
    };
    maker.cents = seed % 2 == 1;
    let mut script = Script {
        maker,
        shadow: Machine::default(),
        lines: String::new(),
    };
    script.new_memory();
    for _ in 0..size {
        script.step();
    }
    script.lines
}

impl Script {
    fn add(&mut self, line: String) {
        self.shadow
            .carry_out(&line)
            .expect("a call that the script mode knows");
        self.lines.push_str(&line);
        self.lines.push('\n');
    }

    fn plan(&self) -> Option<Plan> {
        layout::decode(&self.shadow.memory)
    }

    fn step(&mut self) {
        match self.maker.random.below(130) {
            0..=59 => {
                let plan = self.plan();
                let kind = self.maker.next_kind(plan.as_ref());
                if kind.provisions() {
                    self.provision(kind);
                } else {
                    self.read();
                }
            }
            60..=87 => self.read(),
            88..=94 => self.damage(),
            95..=97 => self.replay(),
            98..=99 => self.new_memory(),
            100..=124 => self.charge(),
            _ => self.compare(),
        }
    }

    /// Under, at and over the size that common rooms need.
    fn new_memory(&mut self) {
        let rooms = Rooms {
            sets: self.maker.edged(1, self.maker.most_sets) as u16,
            rules: self.maker.edged(1, self.maker.most_rules) as u16,
        };
        let size = layout::size(rooms);
        let length = self.maker.random.weighted(&[
            (20, size + 60),
            (8, size),
            (3, size - 1),
            (1, 64),
            (1, 63),
            (1, 0),
        ]);
        let value = self.maker.random.byte();
        self.add(format!("fill {length} {value}"));
    }

    fn provision(&mut self, kind: Kind) {
        let (name, _) = PROVISIONING[usize::from(kind.byte())];
        let plan = self.plan();
        self.maker.memory = self.shadow.memory.len();
        let mut body = self.maker.body(kind, plan.as_ref());
        self.cut_or_lengthen(&mut body);
        self.add(format!("{name} {}", to_hex(&body)));
    }

    fn cut_or_lengthen(&mut self, body: &mut Vec<u8>) {
        match self.maker.random.below(25) {
            0 => body.truncate(self.maker.random.below(body.len())),
            1 => body.truncate(body.len() - 1),
            2 => body.extend([self.maker.random.byte(), 7]),
            _ => {}
        }
    }

    /// A lent buffer, mostly just long enough, with bytes that would show.
    fn buffer(&mut self, needed: usize) -> String {
        let any = self.maker.random.below(60);
        let length = self.maker.random.weighted(&[
            (6, needed),
            (6, needed + 3),
            (1, needed.saturating_sub(1)),
            (1, 0),
            (1, any),
        ]);
        let first = self.maker.random.byte() | 0x80;
        let bytes: Vec<u8> = (0..length)
            .map(|place| first.wrapping_add(place as u8))
            .collect();
        to_hex(&bytes)
    }

    fn read(&mut self) {
        let plan = self.plan();
        let line = match self.maker.random.below(16) {
            0..=5 => {
                let mut body = self.maker.body(Kind::Number, plan.as_ref());
                self.cut_or_lengthen(&mut body);
                format!(
                    "answer {} {}",
                    to_hex(&body),
                    self.buffer(LONGEST_CONDITIONED)
                )
            }
            6..=8 => {
                let (class, digits) = self.loose_number(plan.as_ref());
                format!(
                    "conditioned {class} {} {}",
                    to_hex(&digits),
                    self.buffer(LONGEST_CONDITIONED)
                )
            }
            9..=11 => return self.stretches(plan.as_ref()),
            12 => {
                let number = self.maker.set_number(plan.as_ref(), 75);
                format!("set_content {} {}", number.0, self.buffer(bodies::SET))
            }
            13 => {
                let number = self.maker.set_number(plan.as_ref(), 75);
                format!("referrers {}", number.0)
            }
            14 => format!("rule_at {}", self.place(plan.as_ref())),
            _ => self.maker.random.pick(&["rule_count", "sound"]).to_string(),
        };
        self.add(line);
    }

    /// Every value of one number, or one value that may be none.
    fn stretches(&mut self, plan: Option<&Plan>) {
        let (class, digits) = self.loose_number(plan);
        let values = match self.maker.random.percent(40) {
            true => (0..=11).collect(),
            false => vec![self.maker.random.byte() % 12, self.maker.random.byte()],
        };
        for value in values {
            self.add(format!("stretch {class} {} {value}", to_hex(&digits)));
        }
    }

    fn place(&mut self, plan: Option<&Plan>) -> usize {
        let count = plan.map_or(2, Plan::rule_count);
        match self.maker.random.percent(70) {
            true => self.maker.random.below(count + 1),
            false => self.maker.random.pick(&[0, count, count + 1, 4096]),
        }
    }

    /// A class and digits that RANGE may refuse.
    fn loose_number(&mut self, plan: Option<&Plan>) -> (u8, Vec<u8>) {
        let (class, mut digits) = self.maker.class_and_digits(plan);
        let class = if self.maker.random.percent(3) {
            self.maker.random.pick(&[6, 255])
        } else {
            class.byte()
        };
        match self.maker.random.below(40) {
            0 => digits.resize(33, 1),
            1 => digits.push(16),
            _ => {}
        }
        (class, digits)
    }

    /// Changes a byte of the memory, reads, and mostly puts the byte back.
    fn damage(&mut self) {
        let memory = &self.shadow.memory;
        if memory.is_empty() {
            return self.new_memory();
        }
        let length = self
            .maker
            .random
            .pick(&[memory.len(), memory.len().min(64)]);
        let place = match self.maker.random.percent(10) {
            true => layout::ACCEPTING_AT.min(memory.len() - 1),
            false => self.maker.random.below(length),
        };
        let old = memory[place];
        let near = [
            old.wrapping_add(1),
            old.wrapping_sub(1),
            0,
            self.maker.random.byte(),
        ];
        let value = self.maker.random.pick(&near);
        self.add(format!("poke {place} {value}"));
        self.add("sound".to_string());
        for _ in 0..self.maker.random.between(1, 3) {
            match self.maker.random.percent(60) {
                true => self.read(),
                false => self.provision(Kind::AddRule),
            }
        }
        if self.maker.random.percent(90) && place < self.shadow.memory.len() {
            self.add(format!("poke {place} {old}"));
        }
    }

    /// A list of provisioning records, at times cut, with another kind behind
    /// it, or with too few places for its numbers.
    fn replay(&mut self) {
        self.maker.memory = self.shadow.memory.len();
        let mut file = File {
            bytes: Vec::new(),
            shadow: Run {
                plan: self.plan(),
                ..Run::default()
            },
        };
        let mut count = 0;
        if file.shadow.plan.is_none() || self.maker.random.percent(50) {
            file.add(&mut self.maker, Kind::Open);
            count += 1;
        }
        for _ in 0..self.maker.random.between(0, 12) {
            let kind = self.maker.next_kind(file.shadow.plan.as_ref());
            if kind.provisions() {
                file.add(&mut self.maker, kind);
                count += 1;
            }
        }
        let mut calls = file.bytes;
        match self.maker.random.below(6) {
            0 => calls.truncate(calls.len().saturating_sub(self.maker.random.between(1, 30))),
            1 => calls.extend([7, 1, 2, 3]),
            2 => calls.push(255),
            _ => {}
        }
        let places: usize = self.maker.random.pick(&[count, count + 2, count / 2, 0]);
        let numbers = vec![self.maker.random.byte() | 0x80; places];
        self.add(format!("replay {} {}", to_hex(&calls), to_hex(&numbers)));
    }
}
