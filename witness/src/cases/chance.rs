//! Chance that repeats: the same seed gives the same cases on every machine.

use crate::set::Set;

/// The splitmix64 sequence.
pub struct Chance {
    state: u64,
}

impl Chance {
    pub fn new(seed: u64) -> Chance {
        Chance { state: seed }
    }

    pub fn word(&mut self) -> u64 {
        self.state = self.state.wrapping_add(0x9e37_79b9_7f4a_7c15);
        let mut z = self.state;
        z = (z ^ (z >> 30)).wrapping_mul(0xbf58_476d_1ce4_e5b9);
        z = (z ^ (z >> 27)).wrapping_mul(0x94d0_49bb_1331_11eb);
        z ^ (z >> 31)
    }

    pub fn below(&mut self, n: usize) -> usize {
        (self.word() % n as u64) as usize
    }

    /// A number from the lowest to the highest, both included.
    pub fn between(&mut self, lowest: usize, highest: usize) -> usize {
        lowest + self.below(highest - lowest + 1)
    }

    pub fn percent(&mut self, share: usize) -> bool {
        self.below(100) < share
    }

    pub fn permille(&mut self, share: usize) -> bool {
        self.below(1000) < share
    }

    pub fn pick<T: Copy>(&mut self, list: &[T]) -> T {
        list[self.below(list.len())]
    }

    /// The numbers 0 to 63 in some order.
    pub fn shuffled(&mut self) -> Vec<usize> {
        let mut numbers: Vec<usize> = (0..64).collect();
        for i in (1..64).rev() {
            numbers.swap(i, self.below(i + 1));
        }
        numbers
    }

    /// So many different numbers, the edges 0 and 63 more often than the others.
    pub fn some_numbers(&mut self, count: usize) -> Vec<usize> {
        let mut numbers = self.shuffled();
        for edge in [0, 63] {
            if self.percent(50) {
                let place = numbers.iter().position(|&n| n == edge).expect("all numbers are there");
                numbers.swap(place, self.below(count));
            }
        }
        numbers.truncate(count);
        numbers
    }

    /// Each of the given numbers with the given share.
    pub fn part_of(&mut self, numbers: &[usize], permille: usize) -> Set {
        let mut part = Set::empty();
        for &n in numbers {
            if self.permille(permille) {
                part.put(n);
            }
        }
        part
    }
}
