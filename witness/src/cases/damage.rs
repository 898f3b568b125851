//! Words made bad: every region of the book, and every way in which a word can be bad.

use super::chance::Chance;
use crate::set::{bit, Set};

/// Where the tables of masks begin, with the words that say whose rows they are and what they name.
const MASK_TABLES: [(usize, usize, usize); 7] =
    [(4, 0, 0), (68, 0, 0), (132, 0, 0), (196, 0, 0), (260, 1, 1), (324, 1, 0), (388, 2, 1)];

/// The first and last word of each region, and of the first and last rows of cells.
const EDGES: [usize; 23] =
    [3, 4, 67, 68, 131, 132, 195, 196, 259, 260, 323, 324, 387, 388, 451, 452, 515, 516, 579, 580, 643, 644, 4675];

/// How many ways of damage there are.
pub const WAYS: usize = 16;

/// Makes some word bad in the given way, where the book leaves room for it.
pub fn damage(chance: &mut Chance, words: &mut [u64], way: usize) {
    let (roles, subjects) = (words[1], words[2]);
    match way {
        0 => words[3] = chance.pick(&[1, 1 << 63, u64::MAX]),
        1 => row_of_undefined(chance, words),
        2 => mask_naming_undefined(chance, words),
        3 => {
            let place = 516 + chance.below(64);
            words[place] |= 1 << some_outside(chance, words[0]);
        }
        4 => words[452 + some_inside(chance, subjects)] = chance.pick(&[65, 66, 128, 1 << 32, (1 << 32) + 1, u64::MAX]),
        5 => words[452 + some_inside(chance, subjects)] = some_outside(chance, roles) as u64 + 1,
        6 => words[452 + some_outside(chance, subjects)] = some_inside(chance, roles) as u64 + 1,
        7 => words[chance.pick(&EDGES)] = chance.word(),
        8 => {
            let index = chance.between(3, 4675);
            words[index] = chance.word();
        }
        // What was defined is no longer: every word that named it turns bad at once.
        9 => {
            let sort = chance.below(3);
            words[sort] &= !(1 << some_inside(chance, words[sort]));
        }
        _ => damage_cell(chance, words, way - 10),
    }
}

/// A number in the mask; any number where the mask is empty.
fn some_inside(chance: &mut Chance, mask: u64) -> usize {
    let members: Vec<usize> = Set::from_mask(mask).members().collect();
    match members.is_empty() {
        true => chance.below(64),
        false => chance.pick(&members),
    }
}

/// A number not in the mask; any number where the mask is full.
fn some_outside(chance: &mut Chance, mask: u64) -> usize {
    some_inside(chance, !mask)
}

fn row_of_undefined(chance: &mut Chance, words: &mut [u64]) {
    let (first, owners, named) = chance.pick(&MASK_TABLES);
    let row = some_outside(chance, words[owners]);
    words[first + row] = match chance.percent(70) {
        true => 1 << some_inside(chance, words[named]),
        false => words[named],
    };
}

fn mask_naming_undefined(chance: &mut Chance, words: &mut [u64]) {
    let (first, owners, named) = chance.pick(&MASK_TABLES);
    let row = some_inside(chance, words[owners]);
    words[first + row] |= 1 << some_outside(chance, words[named]);
}

/// Six ways: outside the order, E or S above 64, E or S undefined, S without E.
fn damage_cell(chance: &mut Chance, words: &mut [u64], way: usize) {
    let (order, task) = some_place(chance, words, way != 0);
    let (role, subject) = (some_inside(chance, words[1]) as u64 + 1, some_inside(chance, words[2]) as u64 + 1);
    let (no_role, no_subject) = (some_outside(chance, words[1]) as u64 + 1, some_outside(chance, words[2]) as u64 + 1);
    let above = chance.pick(&[65, 66, 127]);
    let far_above = chance.pick(&[65, 66, 128, 1 << 32, (1 << 57) - 1]);
    let subject_or_none = chance.pick(&[0, subject]);
    words[580 + 64 * order + task] = match way {
        0 => 128 * role + subject_or_none,
        1 => 128 * far_above + subject_or_none,
        2 => 128 * role + above,
        3 => 128 * no_role + subject_or_none,
        4 => 128 * role + no_subject,
        _ => subject,
    };
}

/// A task inside an open order, or one outside an order, open or not.
fn some_place(chance: &mut Chance, words: &[u64], inside: bool) -> (usize, usize) {
    let places: Vec<(usize, usize)> = (0..64)
        .flat_map(|p| (0..64).map(move |t| (p, t)))
        .filter(|&(p, t)| bit(words[516 + p], t) == inside && (inside || words[516 + p] != 0 || t % 7 == p % 7))
        .collect();
    match places.is_empty() {
        true => (chance.below(64), chance.below(64)),
        false => chance.pick(&places),
    }
}
