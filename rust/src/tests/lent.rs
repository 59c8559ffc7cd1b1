//! Random numbers, and bytes that are lent to a call.

/// Seeded random numbers (splitmix64).
pub struct Random(pub u64);

impl Random {
    pub fn next(&mut self) -> u64 {
        self.0 = self.0.wrapping_add(0x9e37_79b9_7f4a_7c15);
        let mut mixed = self.0;
        mixed = (mixed ^ (mixed >> 30)).wrapping_mul(0xbf58_476d_1ce4_e5b9);
        mixed = (mixed ^ (mixed >> 27)).wrapping_mul(0x94d0_49bb_1331_11eb);
        mixed ^ (mixed >> 31)
    }

    pub fn below(&mut self, end: usize) -> usize {
        (self.next() % end as u64) as usize
    }

    pub fn byte(&mut self) -> u8 {
        (self.next() >> 24) as u8
    }

    pub fn bytes(&mut self, count: usize) -> Vec<u8> {
        (0..count).map(|_| self.byte()).collect()
    }

    pub fn pick<T: Clone>(&mut self, from: &[T]) -> T {
        from[self.below(from.len())].clone()
    }
}

/// Lent bytes between guard bytes, at any alignment.
#[derive(Clone, PartialEq, Eq)]
pub struct Lent {
    bytes: Vec<u8>,
    start: usize,
    length: usize,
}

impl Lent {
    pub fn new(content: &[u8], random: &mut Random) -> Lent {
        let start = 1 + random.below(16);
        let mut bytes = random.bytes(start);
        bytes.extend_from_slice(content);
        bytes.extend(random.bytes(16));
        let length = content.len();
        Lent {
            bytes,
            start,
            length,
        }
    }

    pub fn slice(&self) -> &[u8] {
        &self.bytes[self.start..][..self.length]
    }

    pub fn slice_mut(&mut self) -> &mut [u8] {
        &mut self.bytes[self.start..][..self.length]
    }

    /// The same but for the first `written` bytes of the slice.
    pub fn same_behind(&self, other: &Lent, written: usize) -> bool {
        let place = self.start + written;
        self.bytes[..self.start] == other.bytes[..other.start]
            && self.bytes[place..] == other.bytes[place..]
    }
}
