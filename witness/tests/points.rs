//! "Numbers to check by": P1 to P14, word for word, with the z of M-104 and the masks of M-105, and what becomes of some
//! of them when a pair is taken back, nothing is activated, there are several orders, or more tasks exclude each other.

mod common;

use common::{accept, ask, blank, book_b, cell, defined};
use witness::audit::audit;

/// Book B written down by hand from the table of words.
#[test]
fn book_b_has_these_words() {
    let mut words = blank();
    (words[0], words[1], words[2]) = (0b111111, 0b1111, 0b111);
    (words[4], words[4 + 1]) = (0b10, 0b01);
    (words[68 + 2], words[68 + 4]) = (0b10000, 0b100);
    (words[132 + 3], words[132 + 5]) = (0b100000, 0b1000);
    (words[196 + 2], words[196 + 3]) = (0b1000, 0b100);
    words[260 + 3] = 0b100;
    (words[324], words[325], words[326], words[327]) = (0b1, 0b10, 0b1100, 0b110000);
    (words[388], words[389], words[390]) = (0b1, 0b1000, 0b1000);
    (words[452], words[453], words[454]) = (1, 4, 4);
    assert!(words == book_b());
    assert_eq!(audit(&words), (0, 0, 0));
}

#[test]
fn p1_to_p4() {
    assert_eq!(ask(&mut book_b(), 5, 0, 1, 0), (22, 0, 0, 0));
    assert_eq!(ask(&mut book_b(), 4, 2, 3, 0), (23, 0, 0, 0));
    assert_eq!(ask(&mut book_b(), 4, 2, 5, 0), (24, 0, 0, 0));
    assert_eq!(ask(&mut book_b(), 4, 4, 5, 0), (25, 3, 0, 0));
}

#[test]
fn p5_to_p7() {
    assert_eq!(ask(&mut book_b(), 7, 3, 4, 0), (28, 2, 4, 0));
    assert_eq!(ask(&mut book_b(), 10, 1, 0, 0), (32, 0, 1, 0));
    assert_eq!(ask(&mut book_b(), 8, 1, 0, 0), (31, 0, 1, 0));
}

#[test]
fn p8_and_p9() {
    assert_eq!(ask(&mut book_b(), 9, 3, 2, 0), (30, 0, 0, 0));
    assert_eq!(ask(&mut book_b(), 9, 0, 1, 0), (31, 1, 2, 0));
}

/// M-105: P6, P7 and P9 with task 1 SME to 2 and 4 as well, both of which role 3 owns, one of them through role 2.
#[test]
fn p6_p7_and_p9_with_several_tasks() {
    let mut words = book_b();
    accept(&mut words, &[(4, 1, 2, 0), (4, 4, 1, 0)]);
    assert_eq!(ask(&mut words, 10, 1, 1, 0), (32, 1, 0b10100, 0));
    assert_eq!(ask(&mut words, 8, 1, 3, 0), (31, 3, 0b10100, 0));
    assert_eq!(ask(&mut words, 8, 1, 2, 0), (31, 2, 0b00100, 0));
    assert_eq!(ask(&mut words, 9, 1, 3, 0), (31, 3, 0b10100, 0));
    assert_eq!(ask(&mut words, 9, 3, 1, 0), (31, 1, 0b00010, 0));
}

#[test]
fn p10_to_p12() {
    let mut words = book_b();
    accept(&mut words, &[(12, 0, 0, 60), (13, 2, 0, 1)]);
    assert_eq!(words[cell(0, 2)..=cell(0, 5)], [514, 514, 0, 512]);
    assert_eq!(ask(&mut words, 13, 4, 0, 1), (34, 2, 4, 0));
    accept(&mut words, &[(13, 4, 0, 2)]);
    assert_eq!(words[cell(0, 4)], 515);
    assert_eq!(ask(&mut words, 13, 3, 0, 2), (9, 1, 0, 0));
    accept(&mut words, &[(13, 5, 0, 2)]);
    assert_eq!(words[cell(0, 5)], 515);
    assert_eq!(ask(&mut words, 4, 0, 2, 0), (7, 0, 0, 0));
    let mut expected = book_b();
    expected[516] = 60;
    expected[cell(0, 2)..=cell(0, 5)].copy_from_slice(&[514, 514, 515, 515]);
    assert!(words == expected);
}

#[test]
fn p13() {
    let mut words = defined(4, 0, 0);
    accept(&mut words, &[(7, 0, 1, 0), (7, 2, 3, 0), (4, 1, 3, 0)]);
    assert_eq!(ask(&mut words, 7, 0, 2, 0), (27, 1, 3, 0));
}

/// The book of P14, up to the assignment of role 1.
fn book_of_p14() -> Vec<u64> {
    let mut words = defined(2, 2, 1);
    accept(&mut words, &[(4, 0, 1, 0), (8, 0, 0, 0), (8, 1, 1, 0), (10, 0, 0, 0), (11, 0, 0, 0)]);
    accept(&mut words, &[(12, 0, 0, 3), (13, 0, 0, 0), (17, 0, 0, 0), (10, 1, 0, 0)]);
    words
}

#[test]
fn p14() {
    let mut words = book_of_p14();
    assert_eq!(ask(&mut words, 13, 1, 0, 0), (8, 0, 0, 0));
    accept(&mut words, &[(11, 1, 0, 0)]);
    assert_eq!(ask(&mut words, 13, 1, 0, 0), (33, 0, 1, 0));
}

/// M-104: P11 in an order other than 0 names that order, and the DME partner in another order changes nothing.
#[test]
fn p11_in_other_orders() {
    let mut words = book_b();
    accept(&mut words, &[(12, 5, 0, 60), (12, 3, 0, 60), (13, 2, 5, 1)]);
    assert_eq!(ask(&mut words, 13, 4, 5, 1), (34, 2, 4, 5));
    accept(&mut words, &[(13, 4, 3, 1)]);
    assert_eq!((words[cell(3, 4)], audit(&words)), (514, (0, 0, 0)));
    assert_eq!(ask(&mut words, 13, 2, 3, 1), (34, 4, 2, 3));
}

/// M-104: P14 with task 0 held in one order and task 1 asked for in another, below or above; and again when the order
/// of task 0 is closed.
#[test]
fn p14_in_other_orders() {
    for (held_in, asked_in) in [(4, 9), (9, 4)] {
        let mut words = defined(2, 2, 1);
        accept(&mut words, &[(4, 0, 1, 0), (8, 0, 0, 0), (8, 1, 1, 0), (10, 0, 0, 0), (11, 0, 0, 0)]);
        accept(&mut words, &[(12, held_in, 0, 1), (12, asked_in, 0, 2), (13, 0, held_in, 0), (17, 0, 0, 0)]);
        accept(&mut words, &[(10, 1, 0, 0)]);
        assert_eq!(ask(&mut words, 13, 1, asked_in, 0), (8, 0, 0, 0));
        accept(&mut words, &[(11, 1, 0, 0)]);
        assert_eq!(ask(&mut words, 13, 1, asked_in, 0), (33, 0, 1, held_in));
        accept(&mut words, &[(14, held_in, 0, 0), (13, 1, asked_in, 0)]);
    }
}

/// M-101: Book B and the book of P14 say who activated what. Without that their first allocations get 8.
#[test]
fn without_activating() {
    let mut words = book_b();
    words[452..=454].fill(0);
    accept(&mut words, &[(12, 0, 0, 60)]);
    assert_eq!(ask(&mut words, 13, 2, 0, 1), (8, 0, 0, 0));
    accept(&mut words, &[(11, 3, 1, 0), (13, 2, 0, 1)]);
    let mut words = defined(2, 2, 1);
    accept(&mut words, &[(4, 0, 1, 0), (8, 0, 0, 0), (8, 1, 1, 0), (10, 0, 0, 0), (12, 0, 0, 3)]);
    assert_eq!(ask(&mut words, 13, 0, 0, 0), (8, 0, 0, 0));
}

/// P1, P2, P3, P5 and P13 after the pair that they met was taken back: accepted, or the next conflict of the kind.
#[test]
fn without_the_pair_they_met() {
    let after = |back: (u64, u64, u64, u64), kind, a, b| {
        let mut words = book_b();
        accept(&mut words, &[back]);
        ask(&mut words, kind, a, b, 0)
    };
    assert_eq!(after((18, 0, 1, 0), 5, 0, 1), (0, 0, 0, 0));
    assert_eq!(after((21, 2, 3, 0), 4, 2, 3), (25, 2, 0, 0));
    assert_eq!(after((20, 3, 5, 0), 4, 2, 5), (25, 3, 0, 0));
    assert_eq!(after((19, 4, 2, 0), 7, 3, 4), (0, 0, 0, 0));
    let mut words = defined(4, 0, 0);
    accept(&mut words, &[(7, 0, 1, 0), (7, 2, 3, 0), (4, 1, 3, 0), (18, 1, 3, 0), (7, 0, 2, 0)]);
}
