//! "The words of the book": where each thing stands, which words are bad, and the book they spell.

use crate::set::{bit, Set};

/// A book has exactly this many words.
pub const WORDS: usize = 4676;

/// A set for each of the numbers 0 to 63.
pub type Table = Vec<Set>;

/// The cell of a task in an order: who executes it, as far as that is settled.
#[derive(Clone, Copy, PartialEq, Eq, Debug)]
pub struct Cell {
    pub role: Option<usize>,
    pub subject: Option<usize>,
}

pub const EMPTY_CELL: Cell = Cell { role: None, subject: None };

/// A well-formed book, spelled out.
#[derive(Clone, PartialEq, Eq, Debug)]
pub struct Book {
    pub tasks: Set,
    pub roles: Set,
    pub subjects: Set,
    pub sme: Table,
    pub dme: Table,
    pub rb: Table,
    pub sb: Table,
    pub juniors: Table,
    pub tasks_of_role: Table,
    pub roles_of_subject: Table,
    pub active: Vec<Option<usize>>,
    pub orders: Table,
    pub cells: Vec<Vec<Cell>>,
}

impl Book {
    /// The blank book: all zeros.
    pub fn blank() -> Book {
        Book::read(&vec![0; WORDS])
    }

    /// Spells out the words of a well-formed book.
    pub fn read(words: &[u64]) -> Book {
        let table = |first: usize| (first..first + 64).map(|i| Set::from_mask(words[i])).collect();
        Book {
            tasks: Set::from_mask(words[0]),
            roles: Set::from_mask(words[1]),
            subjects: Set::from_mask(words[2]),
            sme: table(4),
            dme: table(68),
            rb: table(132),
            sb: table(196),
            juniors: table(260),
            tasks_of_role: table(324),
            roles_of_subject: table(388),
            active: (0..64).map(|s| number_in(words[452 + s])).collect(),
            orders: table(516),
            cells: (0..64).map(|p| (0..64).map(|t| read_cell(words[580 + 64 * p + t])).collect()).collect(),
        }
    }

    /// The words that spell this book.
    pub fn words(&self) -> Vec<u64> {
        let mut words = vec![self.tasks.mask(), self.roles.mask(), self.subjects.mask(), 0];
        for table in
            [&self.sme, &self.dme, &self.rb, &self.sb, &self.juniors, &self.tasks_of_role, &self.roles_of_subject]
        {
            words.extend(table.iter().map(Set::mask));
        }
        words.extend(self.active.iter().map(|&role| word_for(role)));
        words.extend(self.orders.iter().map(Set::mask));
        for order in &self.cells {
            words.extend(order.iter().map(write_cell));
        }
        words
    }

    /// The four pair tables: SME, DME, RB, SB.
    pub fn pair_tables(&self) -> [&Table; 4] {
        [&self.sme, &self.dme, &self.rb, &self.sb]
    }

    pub fn pair_tables_mut(&mut self) -> [&mut Table; 4] {
        [&mut self.sme, &mut self.dme, &mut self.rb, &mut self.sb]
    }

    /// "0 means the order isn't open."
    pub fn is_open(&self, order: usize) -> bool {
        !self.orders[order].is_empty()
    }
}

/// "0 for none, else role + 1": the same for active roles and for both halves of a cell.
fn number_in(word: u64) -> Option<usize> {
    match word {
        0 => None,
        _ => Some((word - 1) as usize),
    }
}

fn word_for(number: Option<usize>) -> u64 {
    match number {
        None => 0,
        Some(number) => number as u64 + 1,
    }
}

/// "A cell is 128E + S with S below 128."
fn read_cell(word: u64) -> Cell {
    Cell { role: number_in(word / 128), subject: number_in(word % 128) }
}

fn write_cell(cell: &Cell) -> u64 {
    128 * word_for(cell.role) + word_for(cell.subject)
}

/// The lowest index of a bad word, in a slice of the right length.
pub fn lowest_bad_word(words: &[u64]) -> Option<usize> {
    (0..WORDS).find(|&index| is_bad(words, index))
}

fn is_bad(words: &[u64], index: usize) -> bool {
    let word = words[index];
    let (tasks, roles, subjects) = (words[0], words[1], words[2]);
    match index {
        0..=2 => false,
        3 => word != 0,
        4..=67 => is_bad_row(word, tasks, index - 4, tasks),
        68..=131 => is_bad_row(word, tasks, index - 68, tasks),
        132..=195 => is_bad_row(word, tasks, index - 132, tasks),
        196..=259 => is_bad_row(word, tasks, index - 196, tasks),
        260..=323 => is_bad_row(word, roles, index - 260, roles),
        324..=387 => is_bad_row(word, roles, index - 324, tasks),
        388..=451 => is_bad_row(word, subjects, index - 388, roles),
        452..=515 => word != 0 && (!bit(subjects, index - 452) || is_no_number(word, roles)),
        516..=579 => names_undefined(word, tasks),
        _ => {
            let (order, task) = ((index - 580) / 64, (index - 580) % 64);
            is_bad_cell(word, bit(words[516 + order], task), roles, subjects)
        }
    }
}

/// A row is bad where its owner is undefined and it is not 0, or where it names something undefined.
fn is_bad_row(word: u64, owners: u64, owner: usize, named: u64) -> bool {
    (word != 0 && !bit(owners, owner)) || names_undefined(word, named)
}

fn names_undefined(mask: u64, defined: u64) -> bool {
    (0..64).any(|i| bit(mask, i) && !bit(defined, i))
}

/// A "number + 1" that is above 64, or whose number is not defined; 0 says nothing and is fine.
fn is_no_number(word: u64, defined: u64) -> bool {
    word > 64 || (word > 0 && !bit(defined, (word - 1) as usize))
}

fn is_bad_cell(word: u64, in_order: bool, roles: u64, subjects: u64) -> bool {
    let (e, s) = (word / 128, word % 128);
    (!in_order && word != 0) || is_no_number(e, roles) || is_no_number(s, subjects) || (s > 0 && e == 0)
}
