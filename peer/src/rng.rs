//! A small seeded source of numbers (splitmix64), and damage done with it.

pub struct Rng(u64);

impl Rng {
    pub fn new(seed: u64) -> Rng {
        Rng(seed)
    }

    /// A source of its own for each case, whatever the number of cases.
    pub fn for_case(seed: u64, case: u64) -> Rng {
        let mut first = Rng(seed);
        let mut second = Rng(first.next() ^ case.wrapping_mul(0xd1b5_4a32_d192_ed03));
        Rng(second.next())
    }

    pub fn next(&mut self) -> u64 {
        self.0 = self.0.wrapping_add(0x9e37_79b9_7f4a_7c15);
        let mut z = self.0;
        z = (z ^ (z >> 30)).wrapping_mul(0xbf58_476d_1ce4_e5b9);
        z = (z ^ (z >> 27)).wrapping_mul(0x94d0_49bb_1331_11eb);
        z ^ (z >> 31)
    }

    /// 0 to `end` - 1.
    pub fn below(&mut self, end: usize) -> usize {
        (self.next() % end as u64) as usize
    }

    /// Both ends included.
    pub fn between(&mut self, low: usize, high: usize) -> usize {
        low + self.below(high - low + 1)
    }

    pub fn one_in(&mut self, many: usize) -> bool {
        self.below(many) == 0
    }

    pub fn pick<T: Copy>(&mut self, from: &[T]) -> T {
        from[self.below(from.len())]
    }

    pub fn byte(&mut self) -> u8 {
        self.next() as u8
    }

    pub fn shuffle<T>(&mut self, list: &mut [T]) {
        for i in (1..list.len()).rev() {
            list.swap(i, self.below(i + 1));
        }
    }

    /// The numbers below `end` in random order.
    pub fn order(&mut self, end: usize) -> Vec<usize> {
        let mut list: Vec<usize> = (0..end).collect();
        self.shuffle(&mut list);
        list
    }
}

/// Changes, inserts, appends, takes out or cuts.
pub fn damage(rng: &mut Rng, bytes: &mut Vec<u8>) {
    let length = bytes.len();
    match rng.below(8) {
        0..=2 if length > 0 => {
            for _ in 0..rng.between(1, 3) {
                let at = rng.below(length);
                bytes[at] = new_byte(rng, bytes[at]);
            }
        }
        3 if length > 0 => {
            bytes.remove(rng.below(length));
        }
        4 => {
            let byte = rng.byte();
            bytes.insert(rng.below(length + 1), byte);
        }
        5 => {
            for _ in 0..rng.between(1, 3) {
                let byte = new_byte(rng, 0);
                bytes.push(byte);
            }
        }
        _ => bytes.truncate(rng.below(length + 1)),
    }
}

/// Any byte, or one near the old one.
fn new_byte(rng: &mut Rng, old: u8) -> u8 {
    match rng.below(3) {
        0 => old.wrapping_add(1),
        1 => old ^ (1 << rng.below(8)),
        _ => rng.byte(),
    }
}
