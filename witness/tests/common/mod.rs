//! What the tests share: the blank book, Book B, and a short way to ask.

#![allow(dead_code)]

use witness::book::WORDS;
use witness::request::request;
use witness::Answer;

/// The blank book.
pub fn blank() -> Vec<u64> {
    vec![0; WORDS]
}

/// Asks, and sees to it that any answer but 0 leaves the book untouched.
pub fn ask(words: &mut [u64], kind: u64, a: u64, b: u64, c: u64) -> Answer {
    let before = words.to_vec();
    let answer = request(words, kind, a, b, c);
    if answer.0 != 0 {
        assert!(words == before, "kind {kind} answered {answer:?} and changed the book");
    }
    answer
}

/// Asks each of these in turn; all have to be accepted.
pub fn accept(words: &mut [u64], asks: &[(u64, u64, u64, u64)]) {
    for &(kind, a, b, c) in asks {
        assert_eq!(ask(words, kind, a, b, c), (0, 0, 0, 0), "kind {kind} with {a}, {b}, {c}");
    }
}

/// The blank book with tasks, roles and subjects from 0 up to (not including) these numbers.
pub fn defined(tasks: u64, roles: u64, subjects: u64) -> Vec<u64> {
    let mut words = blank();
    (0..tasks).for_each(|t| accept(&mut words, &[(1, t, 0, 0)]));
    (0..roles).for_each(|r| accept(&mut words, &[(2, r, 0, 0)]));
    (0..subjects).for_each(|s| accept(&mut words, &[(3, s, 0, 0)]));
    words
}

/// Book B, reached by requests: each subject activates the role it has.
pub fn book_b() -> Vec<u64> {
    let mut words = defined(6, 4, 3);
    accept(&mut words, &[(4, 0, 1, 0), (5, 2, 4, 0), (7, 2, 3, 0), (6, 3, 5, 0)]);
    accept(&mut words, &[(8, 0, 0, 0), (8, 1, 1, 0), (8, 2, 2, 0), (8, 3, 2, 0), (8, 4, 3, 0), (8, 5, 3, 0)]);
    accept(&mut words, &[(9, 2, 3, 0), (10, 0, 0, 0), (10, 3, 1, 0), (10, 3, 2, 0)]);
    accept(&mut words, &[(11, 0, 0, 0), (11, 3, 1, 0), (11, 3, 2, 0)]);
    words
}

/// The place of the cell of a task in an order.
pub fn cell(order: usize, task: usize) -> usize {
    580 + 64 * order + task
}
