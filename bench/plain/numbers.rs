// Numbers at random, and sums by which lists are told apart.

// No reading, time or place.
pub const NONE: u32 = u32::MAX;

// Numbers that look random: xorshift.
pub struct Random(u64);

impl Random {
    pub fn seeded(seed: u64) -> Random {
        Random(seed | 1)
    }

    pub fn next(&mut self) -> u64 {
        self.0 ^= self.0 << 13;
        self.0 ^= self.0 >> 7;
        self.0 ^= self.0 << 17;
        self.0
    }

    pub fn below(&mut self, bound: u32) -> u32 {
        (self.next() % bound as u64) as u32
    }
}

// A sum of numbers that tells their order too.
#[derive(Default)]
pub struct Sum(pub u64);

impl Sum {
    pub fn add(&mut self, number: u32) {
        self.0 = self.0.wrapping_mul(31).wrapping_add(number as u64);
    }

    pub fn of(list: &[u32]) -> Sum {
        let mut sum = Sum::default();
        list.iter().for_each(|number| sum.add(*number));
        sum
    }
}
