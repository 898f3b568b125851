//! "Edges to run as tests", and the other edges of the document.

mod common;

use common::{accept, ask, blank, book_b, cell, defined};
use witness::audit::audit;

const MAX: u64 = u64::MAX;

#[test]
fn number_63_is_accepted_and_64_refused() {
    let mut words = blank();
    for kind in 1..=3 {
        assert_eq!(ask(&mut words, kind, 64, 0, 0), (4, 1, 0, 0));
        accept(&mut words, &[(kind, 63, MAX, MAX)]);
        assert_eq!(ask(&mut words, kind, 63, 0, 0), (5, 0, 0, 0));
    }
    assert_eq!(words[..4], [1 << 63, 1 << 63, 1 << 63, 0]);
    assert_eq!(ask(&mut words, 12, 64, 0, 1 << 63), (4, 1, 0, 0));
    accept(&mut words, &[(8, 63, 63, MAX), (10, 63, 63, MAX), (11, 63, 63, MAX), (12, 63, MAX, 1 << 63)]);
    assert_eq!(ask(&mut words, 13, 63, 64, 63), (4, 2, 0, 0));
    assert_eq!(ask(&mut words, 13, 63, 63, 64), (4, 3, 0, 0));
    accept(&mut words, &[(13, 63, 63, 63)]);
    assert_eq!(words[4675], 8256);
    assert_eq!(ask(&mut words, 14, 64, 0, 0), (4, 1, 0, 0));
    accept(&mut words, &[(14, 63, MAX, MAX)]);
    assert_eq!((words[579], words[4675]), (0, 0));
}

/// Each pair table from its first row to its last: tasks 0 and 63 are joined, and parted again in either direction.
#[test]
fn the_pair_of_0_and_63() {
    let words = defined(64, 0, 0);
    for (kind, back, row) in [(4, 18, 4), (5, 19, 68), (6, 20, 132), (7, 21, 196)] {
        for (a, b) in [(0, 63), (63, 0)] {
            let mut joined = words.clone();
            accept(&mut joined, &[(kind, 0, 63, MAX)]);
            assert_eq!((joined[row], joined[row + 63]), (1 << 63, 1));
            assert_eq!(ask(&mut joined, back, a, 64, 0), (4, 2, 0, 0));
            accept(&mut joined, &[(back, a, b, MAX)]);
            assert!(joined == words);
            assert_eq!(ask(&mut joined, back, a, b, 0), (6, 0, 0, 0));
        }
    }
}

/// M-104 with the greatest numbers: what is held in order 63 counts in order 0 and the other way, also where all orders
/// are open. Of the two tasks the greater is held, so that x is 63.
#[test]
fn hands_in_orders_0_and_63() {
    let mut words = defined(64, 64, 64);
    accept(&mut words, &[(4, 0, 63, 0), (8, 63, 63, 0), (8, 0, 0, 0)]);
    (0..64).for_each(|order| accept(&mut words, &[(12, order, 0, MAX)]));
    accept(&mut words, &[(10, 63, 63, 0), (11, 63, 63, 0)]);
    for held_in in [0, 63] {
        let mut words = words.clone();
        accept(&mut words, &[(13, 63, held_in, 63), (17, 63, 63, 0), (10, 0, 63, 0), (11, 0, 63, 0)]);
        for order in [0, 1, 62, 63] {
            assert_eq!(ask(&mut words, 13, 0, order, 63), (33, 63, 0, held_in));
        }
        accept(&mut words, &[(14, held_in, 0, 0), (13, 0, 63 - held_in, 63)]);
        assert_eq!(audit(&words), (0, 0, 0));
    }
}

/// M-105 with the greatest numbers: the mask has task 63 alone, then all tasks but 0, and on an unsound book all 64.
#[test]
fn clashes_up_to_task_63() {
    let mut words = defined(64, 64, 64);
    (1..64).for_each(|task| accept(&mut words, &[(4, 0, task, 0)]));
    accept(&mut words, &[(8, 0, 5, 0), (8, 63, 62, 0), (9, 62, 63, 0), (10, 63, 63, 0)]);
    let told = |words: &mut [u64], clash| {
        assert_eq!(ask(words, 8, 0, 63, 0), (31, 63, clash, 0));
        assert_eq!(ask(words, 9, 5, 63, 0), (31, 63, clash, 0));
        assert_eq!(ask(words, 10, 5, 63, 0), (32, 63, clash, 0));
    };
    told(&mut words, 1 << 63);
    (1..63).for_each(|task| accept(&mut words, &[(8, task, 62, 0)]));
    assert_eq!(audit(&words), (0, 0, 0));
    told(&mut words, MAX - 1);
    // Role 62 has task 0 too, which is SME to itself.
    (words[4], words[324 + 62]) = (MAX, MAX);
    told(&mut words, MAX);
}

#[test]
fn other_lengths_are_refused() {
    for length in [0, 1, 3, 580, 4675, 4677, 4700] {
        for kind in [0, 1, 13, 21, 22, MAX] {
            assert_eq!(ask(&mut vec![0; length], kind, MAX, MAX, MAX), (1, 0, 0, 0));
            assert_eq!(ask(&mut vec![MAX; length], kind, 0, 0, 0), (1, 0, 0, 0));
        }
        assert_eq!(audit(&vec![MAX; length]), (1, 0, 0));
    }
}

#[test]
fn kinds_0_and_22_are_refused() {
    for kind in [0, 22, 23, 256 + 1, (1 << 32) + 1, MAX] {
        assert_eq!(ask(&mut blank(), kind, MAX, MAX, MAX), (3, 0, 0, 0));
    }
    let mut words = blank();
    words[3] = 1;
    assert_eq!(ask(&mut words, 0, 0, 0, 0), (2, 3, 0, 0));
}

#[test]
fn the_mask_of_an_order() {
    let mut words = defined(2, 0, 0);
    assert_eq!(ask(&mut words, 12, 0, 0, 0), (4, 3, 0, 0));
    assert_eq!(ask(&mut words, 12, 0, 0, 0b111), (4, 3, 0, 0));
    assert_eq!(ask(&mut words, 12, 0, 0, MAX), (4, 3, 0, 0));
    assert_eq!(ask(&mut words, 12, 64, 0, 0), (4, 1, 0, 0));
    accept(&mut words, &[(12, 0, MAX, 0b10)]);
    assert_eq!(ask(&mut words, 12, 0, 0, 0b01), (5, 0, 0, 0));
    let mut words = defined(64, 0, 0);
    accept(&mut words, &[(12, 5, 0, MAX)]);
    assert_eq!(words[521], MAX);
}

#[test]
fn cells_8256_and_8257() {
    let mut words = blank();
    (words[0], words[1], words[2], words[516 + 2]) = (0b10, 1 << 63, 1 << 63, 0b10);
    words[cell(2, 1)] = 8256;
    assert_eq!(audit(&words), (0, 0, 0));
    words[cell(2, 1)] = 8257;
    assert_eq!(audit(&words), (2, cell(2, 1) as u64, 0));
    assert_eq!(ask(&mut words, 1, 0, 0, 0), (2, cell(2, 1) as u64, 0, 0));
    words[cell(2, 1)] = 8256;
    words[2] = 1;
    assert_eq!(audit(&words), (2, cell(2, 1) as u64, 0));
}

#[test]
fn the_greatest_number_in_every_place() {
    for kind in 1..=21 {
        assert_eq!(ask(&mut book_b(), kind, MAX, MAX, MAX), (4, 1, 0, 0));
    }
    for kind in (4..=11).chain(15..=21) {
        assert_eq!(ask(&mut book_b(), kind, 0, MAX, MAX), (4, 2, 0, 0));
    }
    let mut words = book_b();
    accept(&mut words, &[(12, 3, MAX, 1)]);
    assert_eq!(ask(&mut words, 13, 0, MAX, MAX), (4, 2, 0, 0));
    assert_eq!(ask(&mut words, 13, 0, 3, MAX), (4, 3, 0, 0));
    assert_eq!(ask(&mut words, 12, 3, MAX, MAX), (4, 3, 0, 0));
}

/// Each way in which a word can be bad, alone on an otherwise good book.
#[test]
fn every_bad_word() {
    let good = good_book();
    assert_eq!(audit(&good), (0, 0, 0));
    for &(index, value) in BAD {
        let mut words = good.clone();
        words[index] = value;
        assert_eq!(audit(&words), (2, index as u64, 0), "word {index} as {value}");
        assert_eq!(ask(&mut words, 0, MAX, MAX, MAX), (2, index as u64, 0, 0));
    }
    for &(index, value) in FINE {
        let mut words = good.clone();
        words[index] = value;
        assert_ne!(audit(&words).0, 2, "word {index} as {value}");
    }
}

/// Tasks 0 and 1, role 0, subject 0, and order 0 with task 0.
fn good_book() -> Vec<u64> {
    let mut words = defined(2, 1, 1);
    accept(&mut words, &[(12, 0, 0, 1)]);
    words
}

#[rustfmt::skip]
const BAD: &[(usize, u64)] = &[
    (3, 1), (3, MAX),
    (4, 4), (5, 1 << 63), (6, 1), (67, 2), (68, 4), (70, 1), (131, 1),
    (132, 4), (134, 1), (195, 1), (196, 4), (198, 1), (259, 1),
    (260, 2), (261, 1), (323, 1), (324, 4), (325, 1), (387, 1), (388, 2), (389, 1), (451, 1),
    (452, 2), (452, 64), (452, 65), (452, MAX), (453, 1), (515, 1),
    (516, 4), (516, 5), (517, 1 << 63), (579, 4),
    (580, 1), (580, 2), (580, 127), (580, 128 + 2), (580, 128 + 64), (580, 128 + 65),
    (580, 256), (580, 64 * 128), (580, 65 * 128),
    (580, MAX), (580, 1 << 63), (581, 128), (582, 1), (644, 128), (4675, 1), (4675, 128),
];

#[rustfmt::skip]
const FINE: &[(usize, u64)] = &[
    (4, 3), (5, 1), (68, 2), (132, 1), (196, 2), (260, 1), (324, 3), (388, 1), (452, 1),
    (516, 3), (517, 2), (579, 3), (580, 128), (580, 129),
];

#[test]
fn the_lowest_bad_word_is_told() {
    let mut words = good_book();
    (words[4675], words[580], words[452], words[6]) = (1, 1, 99, 1);
    assert_eq!(audit(&words), (2, 6, 0));
    words[6] = 0;
    assert_eq!(audit(&words), (2, 452, 0));
    words[452] = 0;
    assert_eq!(audit(&words), (2, 580, 0));
    words[580] = 0;
    assert_eq!(audit(&words), (2, 4675, 0));
}

/// Undefined things in words 0 to 2 show where they are named: those three words are never bad.
#[test]
fn words_0_to_2_are_never_bad() {
    let mut words = blank();
    (words[0], words[1], words[2]) = (MAX, MAX, MAX);
    assert_eq!(audit(&words), (0, 0, 0));
    let mut words = book_b();
    words[0] = 0;
    assert_eq!(audit(&words), (2, 4, 0));
}
