//! Inputs from a seed: sections, fields, queues, messages and shelves as document 01 and the header want them, and ways to damage them.

pub mod damage;
pub mod filings;
pub mod messages;
pub mod queues;
pub mod sections;
pub mod shelves;

/// splitmix64: each number is a scrambled count, so that every seed is as good as another.
pub struct Rng(u64);

const STEP: u64 = 0x9e37_79b9_7f4a_7c15;

fn scrambled(mut x: u64) -> u64 {
    x = (x ^ (x >> 30)).wrapping_mul(0xbf58_476d_1ce4_e5b9);
    x = (x ^ (x >> 27)).wrapping_mul(0x94d0_49bb_1331_11eb);
    x ^ (x >> 31)
}

impl Rng {
    /// The generator of one input, so that each can be made again without those before it.
    pub fn of_input(seed: u64, input: u64) -> Rng {
        Rng(scrambled(seed ^ scrambled(input.wrapping_add(STEP))))
    }

    /// Any number of 64 bits.
    pub fn any(&mut self) -> u64 {
        self.0 = self.0.wrapping_add(STEP);
        scrambled(self.0)
    }

    /// From 0 to below `bound`, which is not 0. That it leans to small numbers by a hair is no harm here.
    pub fn below(&mut self, bound: usize) -> usize {
        (self.any() % bound as u64) as usize
    }

    /// From the one to the other.
    pub fn within(&mut self, least: usize, most: usize) -> usize {
        least + self.below(most - least + 1)
    }

    /// So often in a hundred.
    pub fn percent(&mut self, chance: usize) -> bool {
        self.below(100) < chance
    }

    pub fn pick<T: Copy>(&mut self, choices: &[T]) -> T {
        choices[self.below(choices.len())]
    }

    pub fn octet(&mut self) -> u8 {
        match self.below(8) {
            0 => self.pick(&[0, 1, 0x7f, 0x80, 0x81, 0xfe, 0xff]),
            _ => self.any() as u8,
        }
    }

    pub fn octets(&mut self, count: usize) -> Vec<u8> {
        // Now and then all alike: runs of ones and zeros are edges too.
        if self.percent(10) {
            return vec![self.pick(&[0, 0xff, 0x80]); count];
        }
        let mut octets: Vec<u8> = (0..count.div_ceil(8))
            .flat_map(|_| self.any().to_be_bytes())
            .collect();
        octets.truncate(count);
        octets
    }
}
