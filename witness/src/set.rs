//! Sets of the numbers 0 to 63, kept as one yes or no for each number.

/// "Bit i of a mask stands for number i, 0 to 63."
pub fn bit(mask: u64, i: usize) -> bool {
    (mask >> i) % 2 == 1
}

/// A set of tasks, of roles or of subjects.
#[derive(Clone, Copy, PartialEq, Eq, Debug)]
pub struct Set([bool; 64]);

impl Set {
    pub fn empty() -> Set {
        Set([false; 64])
    }

    pub fn of(members: &[usize]) -> Set {
        let mut set = Set::empty();
        for &i in members {
            set.put(i);
        }
        set
    }

    pub fn from_mask(mask: u64) -> Set {
        let mut set = Set::empty();
        for i in 0..64 {
            set.0[i] = bit(mask, i);
        }
        set
    }

    pub fn mask(&self) -> u64 {
        let mut mask = 0;
        for i in self.members() {
            mask += 1u64 << i;
        }
        mask
    }

    pub fn has(&self, i: usize) -> bool {
        self.0[i]
    }

    pub fn put(&mut self, i: usize) {
        self.0[i] = true;
    }

    pub fn take(&mut self, i: usize) {
        self.0[i] = false;
    }

    pub fn is_empty(&self) -> bool {
        self.members().next().is_none()
    }

    /// The members from the lowest to the highest, so that the first one found is the lowest.
    pub fn members(&self) -> impl Iterator<Item = usize> + '_ {
        (0..64).filter(|&i| self.0[i])
    }

    /// What lies in this set or in the other.
    pub fn or(&self, other: &Set) -> Set {
        let mut both = *self;
        for i in other.members() {
            both.put(i);
        }
        both
    }

    /// What lies in this set and in the other.
    pub fn and(&self, other: &Set) -> Set {
        let mut shared = Set::empty();
        for i in self.members().filter(|&i| other.has(i)) {
            shared.put(i);
        }
        shared
    }
}
