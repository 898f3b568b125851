//! "Slips we have seen": each one as a case that the slip would get wrong.

mod common;

use common::{accept, ask, book_b, cell, defined};

/// Excluded tasks of a and b tried against the other's group: that accepts P13 and its turned forms.
#[test]
fn members_of_the_two_groups_are_tried_against_each_other() {
    let mut words = defined(4, 0, 0);
    accept(&mut words, &[(7, 0, 1, 0), (7, 2, 3, 0), (4, 1, 3, 0)]);
    assert_eq!(ask(&mut words, 7, 0, 2, 0), (27, 1, 3, 0));
    assert_eq!(ask(&mut words, 7, 2, 0, 0), (27, 3, 1, 0));
    assert_eq!(ask(&mut words, 6, 0, 2, 0), (27, 1, 3, 0));
}

/// A role-bound task of a subject-bound task needs the role too.
#[test]
fn the_role_spreads_along_both_bindings() {
    let mut words = book_b();
    accept(&mut words, &[(12, 0, 0, 60), (13, 2, 0, 1)]);
    assert_eq!(words[cell(0, 5)], 512);
    let mut words = book_b();
    accept(&mut words, &[(15, 5, 3, 0), (12, 0, 0, 60)]);
    assert_eq!(ask(&mut words, 13, 2, 0, 1), (11, 5, 0, 0));
}

/// A senior of the role that gets the task is looked at too, over any number of steps.
#[test]
fn seniors_are_looked_at() {
    let mut words = defined(2, 3, 0);
    accept(&mut words, &[(4, 0, 1, 0), (9, 0, 1, 0), (9, 1, 2, 0), (8, 0, 2, 0)]);
    assert_eq!(ask(&mut words, 8, 1, 0, 0), (31, 2, 1, 0));
    let mut words = defined(2, 4, 0);
    accept(&mut words, &[(4, 0, 1, 0), (9, 0, 1, 0), (9, 1, 2, 0), (8, 0, 2, 0), (8, 1, 3, 0)]);
    assert_eq!(ask(&mut words, 9, 3, 0, 0), (31, 2, 1, 0));
}

/// P14: the assignments move while the order runs, and what a subject has done stays done.
#[test]
fn assignments_do_not_stand_still() {
    let mut words = defined(2, 2, 1);
    accept(&mut words, &[(4, 0, 1, 0), (8, 0, 0, 0), (8, 1, 1, 0), (10, 0, 0, 0), (11, 0, 0, 0)]);
    accept(&mut words, &[(12, 0, 0, 3), (13, 0, 0, 0), (17, 0, 0, 0)]);
    assert_eq!(ask(&mut words, 13, 1, 0, 0), (8, 0, 0, 0));
    accept(&mut words, &[(10, 1, 0, 0), (11, 1, 0, 0)]);
    assert_eq!(ask(&mut words, 13, 1, 0, 0), (33, 0, 1, 0));
}

/// A closed order leaves nothing behind: its number comes back with empty cells.
#[test]
fn a_closed_order_leaves_no_cells() {
    let mut words = book_b();
    accept(&mut words, &[(12, 0, 0, 60), (13, 2, 0, 1), (14, 0, 0, 0)]);
    assert!(words == book_b());
    accept(&mut words, &[(12, 0, 0, 63)]);
    assert!(words[cell(0, 0)..=cell(0, 63)].iter().all(|&word| word == 0));
    accept(&mut words, &[(13, 2, 0, 2)]);
    assert_eq!(words[cell(0, 2)], 515);
}

/// What was held in a closed order excludes nothing, also when its number comes back (M-104).
#[test]
fn a_closed_order_excludes_nothing() {
    let mut words = defined(2, 2, 1);
    accept(&mut words, &[(4, 0, 1, 0), (8, 0, 0, 0), (8, 1, 1, 0), (10, 0, 0, 0), (11, 0, 0, 0)]);
    accept(&mut words, &[(12, 2, 0, 3), (12, 7, 0, 3), (13, 0, 2, 0), (13, 0, 7, 0), (17, 0, 0, 0)]);
    accept(&mut words, &[(10, 1, 0, 0), (11, 1, 0, 0)]);
    assert_eq!(ask(&mut words, 13, 1, 7, 0), (33, 0, 1, 2));
    accept(&mut words, &[(14, 2, 0, 0)]);
    assert_eq!(ask(&mut words, 13, 1, 7, 0), (33, 0, 1, 7));
    accept(&mut words, &[(12, 2, 0, 3)]);
    assert_eq!(ask(&mut words, 13, 1, 2, 0), (33, 0, 1, 7));
    accept(&mut words, &[(14, 7, 0, 0), (13, 1, 2, 0)]);
}
