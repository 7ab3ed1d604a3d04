//! A small generator of random numbers (splitmix64), so that a seed gives the same run on
//! every machine.

pub struct Random(u64);

/// Numbers that a cut to fewer bits, a wrong sign or a wrapped sum would mistake for others.
pub const HOSTILE: [u64; 19] = [
    0,
    1,
    5,
    7,
    13,
    16,
    255,
    258,
    256 + 12,
    (1 << 16) + 3,
    (1 << 16) + 14,
    (1 << 32) + 2,
    (1 << 32) + 4,
    (1 << 32) + 12,
    (1 << 61) + 2,
    1 << 63,
    (1 << 63) + 3,
    u64::MAX - 1,
    u64::MAX,
];

impl Random {
    pub fn new(seed: u64) -> Random {
        Random(seed)
    }

    pub fn number(&mut self) -> u64 {
        self.0 = self.0.wrapping_add(0x9E37_79B9_7F4A_7C15);
        let mut mixed = self.0;
        mixed = (mixed ^ mixed >> 30).wrapping_mul(0xBF58_476D_1CE4_E5B9);
        mixed = (mixed ^ mixed >> 27).wrapping_mul(0x94D0_49BB_1331_11EB);
        mixed ^ mixed >> 31
    }

    /// A number from 0 up to but not including `end`; 0 if there is none.
    pub fn below(&mut self, end: u64) -> u64 {
        self.number() % end.max(1)
    }

    pub fn index(&mut self, end: usize) -> usize {
        self.below(end as u64) as usize
    }

    /// True once in `times`.
    pub fn once_in(&mut self, times: u64) -> bool {
        self.below(times) == 0
    }

    pub fn pick<T: Copy>(&mut self, from: &[T]) -> T {
        from[self.index(from.len())]
    }

    pub fn hostile(&mut self) -> u64 {
        if self.once_in(4) {
            return self.number();
        }
        self.pick(&HOSTILE)
    }

    /// A number at a border, one off it, below it, or hostile.
    pub fn near(&mut self, border: u64) -> u64 {
        match self.below(6) {
            0 => border.wrapping_sub(1),
            1 | 2 => border,
            3 => border.wrapping_add(1),
            4 => self.below(border),
            _ => self.hostile(),
        }
    }

    pub fn digit(&mut self) -> u8 {
        (self.number() >> 63) as u8
    }

    pub fn digits(&mut self, count: usize) -> Vec<u8> {
        (0..count).map(|_| self.digit()).collect()
    }

    pub fn bytes(&mut self, count: usize) -> Vec<u8> {
        (0..count).map(|_| self.number() as u8).collect()
    }

    /// Bytes of one of several kinds: random, all digits 0, all 1, or alternating.
    pub fn filled(&mut self, count: usize) -> Vec<u8> {
        match self.below(6) {
            0 => vec![0; count],
            1 => vec![0xFF; count],
            2 => vec![0xAA; count],
            _ => self.bytes(count),
        }
    }
}
