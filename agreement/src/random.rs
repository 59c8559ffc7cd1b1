//! Seeded random numbers (splitmix64).

pub struct Random {
    state: u64,
}

impl Random {
    /// A stream of its own for each place of each stage.
    pub fn of(seed: u64, stage: &str, place: usize) -> Random {
        let mut random = Random { state: seed };
        for byte in stage.bytes() {
            random.state = random.next() ^ u64::from(byte);
        }
        random.state = random.next() ^ place as u64;
        random.state = random.next();
        random
    }

    pub fn next(&mut self) -> u64 {
        self.state = self.state.wrapping_add(0x9e37_79b9_7f4a_7c15);
        let mut mixed = self.state;
        mixed = (mixed ^ (mixed >> 30)).wrapping_mul(0xbf58_476d_1ce4_e5b9);
        mixed = (mixed ^ (mixed >> 27)).wrapping_mul(0x94d0_49bb_1331_11eb);
        mixed ^ (mixed >> 31)
    }

    pub fn below(&mut self, end: usize) -> usize {
        (self.next() % end as u64) as usize
    }

    /// Both bounds may come.
    pub fn between(&mut self, low: usize, high: usize) -> usize {
        low + self.below(high + 1 - low)
    }

    /// Between two bounds, and often a bound itself.
    pub fn edged(&mut self, low: usize, high: usize) -> usize {
        match self.below(5) {
            0 => low,
            1 => high,
            _ => self.between(low, high),
        }
    }

    pub fn percent(&mut self, chance: usize) -> bool {
        self.below(100) < chance
    }

    pub fn byte(&mut self) -> u8 {
        (self.next() >> 24) as u8
    }

    pub fn bytes(&mut self, count: usize) -> Vec<u8> {
        (0..count).map(|_| self.byte()).collect()
    }

    pub fn pick<T: Clone>(&mut self, from: &[T]) -> T {
        from[self.below(from.len())].clone()
    }

    /// One of the entries, each as often as its weight says.
    pub fn weighted<T: Copy>(&mut self, entries: &[(usize, T)]) -> T {
        let total = entries.iter().map(|(weight, _)| weight).sum();
        let mut place = self.below(total);
        for &(weight, entry) in entries {
            if place < weight {
                return entry;
            }
            place -= weight;
        }
        unreachable!("the place is below the total")
    }

    pub fn shuffle<T>(&mut self, items: &mut [T]) {
        for end in (1..items.len()).rev() {
            items.swap(end, self.below(end + 1));
        }
    }
}
