/// Numbers from a seed, by xorshift64*: the same lines come everywhere.
pub(super) struct Random {
    state: u64,
    /// One field in so many of the present line is odd; none if it is 0.
    odd_in: usize,
}

impl Random {
    /// The numbers of one block of a seed's lines.
    pub(super) fn new(seed: u64, block: u64) -> Self {
        // The state may not be 0, and near seeds and blocks are to start far apart.
        let state = mixed(mixed(seed).wrapping_add(block)) | 1;
        Random { state, odd_in: 0 }
    }

    fn next(&mut self) -> u64 {
        self.state ^= self.state >> 12;
        self.state ^= self.state << 25;
        self.state ^= self.state >> 27;
        // The high bits are the better ones.
        self.state.wrapping_mul(0x2545_F491_4F6C_DD1D) >> 32
    }

    /// A number below the bound.
    pub(super) fn below(&mut self, bound: usize) -> usize {
        ((self.next() * bound as u64) >> 32) as usize
    }

    /// A number from the first to the last.
    pub(super) fn between(&mut self, first: usize, last: usize) -> usize {
        first + self.below(last - first + 1)
    }

    /// A byte from the first to the last.
    pub(super) fn byte(&mut self, first: u8, last: u8) -> u8 {
        self.between(first.into(), last.into()) as u8
    }

    pub(super) fn one_in(&mut self, count: usize) -> bool {
        self.below(count) == 0
    }

    pub(super) fn pick<T: Copy>(&mut self, items: &[T]) -> T {
        items[self.below(items.len())]
    }

    /// Chooses how odd the next line's fields are. A line with many odd ones
    /// is refused at its first, so that most lines have few or none.
    pub(super) fn choose_oddness(&mut self) {
        self.odd_in = self.pick(&[0, 0, 60, 25, 25, 12, 6, 2]);
    }

    /// Whether the next field is odd.
    pub(super) fn odd(&mut self) -> bool {
        self.odd_in > 0 && self.one_in(self.odd_in)
    }
}

/// A number whose bits all hang on all of the given one's, by splitmix64.
fn mixed(number: u64) -> u64 {
    let number = number.wrapping_add(0x9E37_79B9_7F4A_7C15);
    let number = (number ^ number >> 30).wrapping_mul(0xBF58_476D_1CE4_E5B9);
    let number = (number ^ number >> 27).wrapping_mul(0x94D0_49BB_1331_11EB);
    number ^ number >> 31
}
