//! Places where two careful readers could differ: one case for each reading, most on books
//! that are well-formed but that no run of requests reaches.

mod common;

use common::{accept, ask, book_b, cell, defined};
use witness::audit::{audit, rule_holds};
use witness::book::{Book, Cell};
use witness::set::Set;
use witness::Answer;

/// A book with tasks, roles and subjects from 0 up to (not including) these numbers.
fn plain(tasks: u64, roles: u64, subjects: u64) -> Book {
    Book::read(&defined(tasks, roles, subjects))
}

fn asked(book: &Book, kind: u64, a: u64, b: u64, c: u64) -> Answer {
    ask(&mut book.words(), kind, a, b, c)
}

fn cell_of(role: usize, subject: usize) -> Cell {
    Cell { role: Some(role), subject: Some(subject) }
}

/// Number 4: all three arguments first, then whether the task is in the order.
#[test]
fn arguments_before_membership() {
    let mut words = book_b();
    accept(&mut words, &[(12, 0, 0, 0b1)]);
    assert_eq!(ask(&mut words, 13, 1, 0, 9), (4, 3, 0, 0));
    assert_eq!(ask(&mut words, 13, 1, 1, 9), (4, 2, 0, 0));
    assert_eq!(ask(&mut words, 13, 1, 0, 0), (4, 1, 0, 0));
    assert_eq!(ask(&mut words, 12, 0, 0, 0), (4, 3, 0, 0));
}

/// Number 5 asks the bit itself: for kind 10 not the active word, for kinds 4 to 7 not the other row.
#[test]
fn already_set_is_the_bit_itself() {
    let mut book = plain(2, 2, 1);
    book.active[0] = Some(1);
    let mut words = book.words();
    accept(&mut words, &[(10, 1, 0, 0)]);
    assert_eq!(words[452], 2);
    accept(&mut words, &[(10, 0, 0, 0)]);
    assert_eq!(words[452], 2);
    book.sb[1].put(0);
    let mut words = book.words();
    assert_eq!(ask(&mut words, 7, 1, 0, 0), (5, 0, 0, 0));
    accept(&mut words, &[(7, 0, 1, 0)]);
    assert_eq!((words[196], words[197]), (0b10, 0b01));
}

/// A role as its own junior: 5 where the bit stands, else 29, also on a cycle.
#[test]
fn own_junior() {
    let mut book = plain(0, 2, 0);
    assert_eq!(asked(&book, 9, 0, 0, 0), (29, 0, 0, 0));
    book.juniors[0].put(1);
    book.juniors[1].put(0);
    assert_eq!(asked(&book, 9, 0, 0, 0), (29, 0, 0, 0));
    book.juniors[0].put(0);
    assert_eq!(asked(&book, 9, 0, 0, 0), (5, 0, 0, 0));
}

/// 5 and 6 ask what is directly there, 8 asks what is owned.
#[test]
fn directly_there_or_owned() {
    let mut words = defined(1, 3, 1);
    accept(&mut words, &[(9, 1, 0, 0), (9, 2, 1, 0), (8, 0, 2, 0), (10, 0, 0, 0)]);
    assert_eq!(ask(&mut words, 15, 0, 0, 0), (6, 0, 0, 0));
    assert_eq!(ask(&mut words, 16, 2, 0, 0), (6, 0, 0, 0));
    assert_eq!(ask(&mut words, 17, 2, 0, 0), (6, 0, 0, 0));
    accept(&mut words, &[(11, 2, 0, 0), (9, 2, 0, 0), (8, 0, 0, 0), (10, 2, 0, 0), (17, 0, 0, 0)]);
    assert_eq!(ask(&mut words, 11, 0, 0, 0), (8, 0, 0, 0));
    accept(&mut words, &[(11, 2, 0, 0)]);
}

/// M-100: 6 asks bit b of row a alone, and both bits are cleared, also where only one is there. A task that is paired
/// with itself is parted from itself. In each case nothing else changes.
#[test]
fn both_bits_of_a_pair_are_taken() {
    for (kind, row) in (18..=21).zip([4, 68, 132, 196]) {
        let mut words = defined(3, 0, 0);
        words[row..row + 3].copy_from_slice(&[0b110, 0b100, 0b111]);
        assert_eq!(ask(&mut words, kind, 1, 0, 0), (6, 0, 0, 0));
        let mut expected = words.clone();
        for (a, b, rows) in [(0, 1, [0b100, 0b100, 0b111]), (2, 0, [0, 0b100, 0b110]), (2, 2, [0, 0b100, 0b010])] {
            accept(&mut words, &[(kind, a, b, u64::MAX)]);
            expected[row..row + 3].copy_from_slice(&rows);
            assert!(words == expected);
        }
    }
}

/// M-100: the pair has to be in the table of the kind; no other table, and no chain, stands for it.
#[test]
fn only_the_own_table_counts() {
    let tables = [4, 68, 132, 196];
    for (kind, own) in (18..=21).zip(tables) {
        let mut words = defined(3, 0, 0);
        for row in tables.into_iter().filter(|&row| row != own) {
            (words[row], words[row + 1]) = (0b010, 0b001);
        }
        (words[own], words[own + 2]) = (0b100, 0b010);
        assert_eq!(ask(&mut words, kind, 0, 1, 0), (6, 0, 0, 0));
    }
}

/// M-100: 4 before 6, 6 before 7, and 7 names the lowest open order.
#[test]
fn what_comes_first_when_a_pair_is_taken() {
    for (add, back) in (4..=7).zip(18..=21) {
        let mut words = defined(3, 0, 0);
        accept(&mut words, &[(add, 0, 1, 0), (12, 40, 0, 1), (12, 7, 0, 1)]);
        assert_eq!(ask(&mut words, back, 3, 3, 0), (4, 1, 0, 0));
        assert_eq!(ask(&mut words, back, 0, 3, 0), (4, 2, 0, 0));
        assert_eq!(ask(&mut words, back, 0, 2, 0), (6, 0, 0, 0));
        assert_eq!(ask(&mut words, back, 0, 0, 0), (6, 0, 0, 0));
        assert_eq!(ask(&mut words, back, 1, 0, 0), (7, 7, 0, 0));
        accept(&mut words, &[(14, 7, 0, 0)]);
        assert_eq!(ask(&mut words, back, 0, 1, 0), (7, 40, 0, 0));
        accept(&mut words, &[(14, 40, 0, 0), (back, 0, 1, 0)]);
        assert!(words == defined(3, 0, 0));
    }
}

/// Number 7 comes after 5 and before every conflict.
#[test]
fn open_orders_come_before_conflicts() {
    let mut words = book_b();
    accept(&mut words, &[(12, 40, 0, 1), (12, 7, 0, 1)]);
    assert_eq!(ask(&mut words, 4, 0, 0, 0), (7, 7, 0, 0));
    assert_eq!(ask(&mut words, 4, 0, 1, 0), (5, 0, 0, 0));
}

/// M-101: kind 10 sets the assignment bit and nothing else, whether the subject acts in no role, in another or in this.
#[test]
fn assigning_activates_nothing() {
    for active in [None, Some(0), Some(1)] {
        let mut book = plain(0, 2, 2);
        book.active[1] = active;
        let mut words = book.words();
        accept(&mut words, &[(10, 1, 1, 0)]);
        book.roles_of_subject[1].put(1);
        assert!(words == book.words());
    }
}

/// M-101: the active word is what the last kind 11 made it. Assigning, taking back and assigning again leave it.
#[test]
fn only_activating_changes_the_active_word() {
    let mut words = defined(0, 2, 1);
    let before = [(10, 0, 0), (10, 1, 0), (11, 1, 2), (17, 0, 2), (17, 1, 2)];
    let after = [(10, 0, 2), (11, 0, 1), (10, 1, 1), (17, 0, 1)];
    for (kind, role, active) in before.into_iter().chain(after) {
        accept(&mut words, &[(kind, role, 0, 0)]);
        assert_eq!(words[452], active, "after kind {kind} with role {role}");
    }
}

/// M-101, "without that, allocating gets number 8": with no role or with one, where none was activated, and where the
/// active one is not owned now, though another is. It is owned again through a senior as well as by itself.
#[test]
fn allocating_needs_a_role_activated_and_owned() {
    let mut words = defined(1, 2, 1);
    accept(&mut words, &[(8, 0, 0, 0), (12, 0, 0, 1)]);
    for asks in [&[][..], &[(10, 0, 0, 0)], &[(10, 1, 0, 0)]] {
        accept(&mut words, asks);
        assert_eq!(ask(&mut words, 13, 0, 0, 0), (8, 0, 0, 0));
    }
    accept(&mut words, &[(11, 0, 0, 0)]);
    assert_eq!(ask(&mut words.clone(), 13, 0, 0, 0), (0, 0, 0, 0));
    for step in [(17, 0, 0, 0), (17, 1, 0, 0), (10, 1, 0, 0)] {
        accept(&mut words, &[step]);
        assert_eq!(ask(&mut words, 13, 0, 0, 0), (8, 0, 0, 0));
    }
    for step in [(9, 0, 1, 0), (10, 0, 0, 0)] {
        let mut again = words.clone();
        accept(&mut again, &[step, (13, 0, 0, 0)]);
        assert_eq!(again[cell(0, 0)], 129);
    }
}

/// M-101: 8 comes before 9, 10 and 11, so an active word of 0 is told first whatever stands in the cell.
#[test]
fn no_active_role_is_told_before_the_cell() {
    let mut book = Book::read(&book_b());
    book.orders[0] = Set::of(&[0, 2]);
    (book.cells[0][0], book.cells[0][2]) = (cell_of(0, 0), Cell { role: Some(2), subject: None });
    for (task, told) in [(0, (9, 0, 0, 0)), (2, (10, 2, 0, 0))] {
        book.active[1] = Some(3);
        assert_eq!(asked(&book, 13, task, 0, 1), told);
        book.active[1] = None;
        assert_eq!(asked(&book, 13, task, 0, 1), (8, 0, 0, 0));
    }
}

/// 9 and 10 look at the cell of task a alone; 10 needs another role than the active one.
#[test]
fn the_cell_of_the_task_alone() {
    let mut book = Book::read(&book_b());
    book.orders[0] = Set::of(&[2, 3, 5]);
    book.cells[0][3] = cell_of(0, 0);
    assert_eq!(asked(&book, 13, 2, 0, 1), (0, 0, 0, 0));
    book.cells[0][2] = Cell { role: Some(2), subject: None };
    assert_eq!(asked(&book, 13, 2, 0, 1), (10, 2, 0, 0));
    book.cells[0][2] = Cell { role: Some(3), subject: None };
    assert_eq!(asked(&book, 13, 2, 0, 1), (0, 0, 0, 0));
    book.cells[0][2] = cell_of(0, 2);
    assert_eq!(asked(&book, 13, 2, 0, 1), (9, 2, 0, 0));
}

/// The change of kind 13 goes over what stands in the cells; outside the subject group S is kept.
#[test]
fn what_an_allocation_writes() {
    let mut book = Book::read(&book_b());
    book.orders[0] = Set::of(&[0, 2, 3, 5]);
    (book.cells[0][0], book.cells[0][3], book.cells[0][5]) = (cell_of(0, 0), cell_of(0, 0), cell_of(1, 2));
    let mut words = book.words();
    accept(&mut words, &[(13, 2, 0, 1)]);
    assert_eq!(words[cell(0, 0)..=cell(0, 5)], [129, 0, 514, 514, 0, 515]);
}

/// 21 to 24 go one way: b in a's row, b in the group of a along rows.
#[test]
fn pairs_have_a_direction() {
    let mut book = plain(3, 0, 0);
    book.dme[0].put(1);
    assert_eq!((asked(&book, 4, 0, 1, 0), asked(&book, 4, 1, 0, 0)), ((21, 0, 0, 0), (0, 0, 0, 0)));
    let mut book = plain(3, 0, 0);
    book.sme[0].put(1);
    assert_eq!((asked(&book, 5, 0, 1, 0), asked(&book, 5, 1, 0, 0)), ((22, 0, 0, 0), (0, 0, 0, 0)));
    let mut book = plain(3, 0, 0);
    book.sb[0].put(1);
    book.sb[1].put(2);
    assert_eq!((asked(&book, 5, 0, 2, 0), asked(&book, 5, 2, 0, 0)), ((23, 0, 0, 0), (0, 0, 0, 0)));
    book.sb[1].take(2);
    book.rb[1].put(2);
    assert_eq!((asked(&book, 4, 0, 2, 0), asked(&book, 4, 2, 0, 0)), ((24, 0, 0, 0), (0, 0, 0, 0)));
}

/// 27 and 28: y in x's row, x of a's group and y of b's. A request turned round may be accepted.
#[test]
fn excluding_groups_have_a_direction() {
    let mut book = plain(6, 0, 0);
    book.sb[0].put(4);
    book.sb[1].put(3);
    book.dme[4].put(3);
    assert_eq!((asked(&book, 7, 0, 1, 0), asked(&book, 7, 1, 0, 0)), ((28, 4, 3, 0), (0, 0, 0, 0)));
    book.sme[4].put(1);
    book.sme[0].put(3);
    assert_eq!((asked(&book, 7, 0, 1, 0), asked(&book, 7, 1, 0, 0)), ((27, 0, 3, 0), (0, 0, 0, 0)));
    assert_eq!(asked(&book, 6, 0, 1, 0), (27, 0, 3, 0));
}

/// 31: the gained task stands in the owned task's row, and not the other way.
#[test]
fn gaining_has_a_direction() {
    let mut book = plain(2, 1, 1);
    book.tasks_of_role[0].put(0);
    book.sme[1].put(0);
    assert_eq!(asked(&book, 8, 1, 0, 0), (0, 0, 0, 0));
    book.sme[1].take(0);
    book.sme[0].put(1);
    assert_eq!(asked(&book, 8, 1, 0, 0), (31, 0, 0b1, 0));
}

/// 31: on a cycle b may be its own senior, and a gained task may be one already owned.
#[test]
fn gaining_on_an_unsound_book() {
    let mut book = plain(3, 4, 1);
    book.juniors[2].put(3);
    book.juniors[3].put(2);
    book.tasks_of_role[2] = Set::of(&[1, 2]);
    book.sme[2].put(1);
    book.juniors[0].put(2);
    // Role 3 owns 1 and 2 through the cycle; so does role 0 above it. Role 1 would bring task 1 again.
    book.tasks_of_role[1].put(1);
    assert_eq!(asked(&book, 9, 1, 3, 0), (31, 0, 0b100, 0));
    assert_eq!(asked(&book, 9, 3, 1, 0), (0, 0, 0, 0));
    // A task SME to itself is owned and gained at once.
    book.sme[1].put(1);
    assert_eq!(asked(&book, 9, 3, 1, 0), (31, 1, 0b10, 0));
    assert_eq!(asked(&book, 9, 2, 3, 0), (5, 0, 0, 0));
}

/// 32: kinds 8 and 9 ask the subjects that own role b, assigned or reached; kind 10 asks b alone.
#[test]
fn which_subjects_gain() {
    let mut words = defined(2, 4, 3);
    accept(&mut words, &[(4, 0, 1, 0), (8, 0, 0, 0), (9, 1, 2, 0), (8, 1, 3, 0)]);
    accept(&mut words, &[(10, 0, 2, 0), (10, 2, 2, 0), (10, 0, 1, 0)]);
    assert_eq!(ask(&mut words, 8, 1, 1, 0), (32, 2, 0b1, 0));
    assert_eq!(ask(&mut words, 9, 3, 1, 0), (32, 2, 0b1, 0));
    assert_eq!(ask(&mut words, 10, 3, 1, 0), (32, 1, 0b1, 0));
    accept(&mut words, &[(10, 3, 0, 0)]);
}

/// Ten tasks, six roles and four subjects. Role 0 brings tasks 7 and 8, and role 1 is the one to get them. These tasks
/// are SME to those, in both rows: 1 and 3 to 7, 3 and 4 to 8; and 6 is SME to 9, which nobody gains.
fn clashing() -> Book {
    let mut book = plain(10, 6, 4);
    book.tasks_of_role[0] = Set::of(&[7, 8]);
    for (u, v) in [(1, 7), (3, 7), (3, 8), (4, 8), (6, 9)] {
        book.sme[u].put(v);
        book.sme[v].put(u);
    }
    book
}

/// M-105: all tasks that x owns and that are SME to one it would gain, and no others. By kind 8 that is task a alone, by
/// kinds 9 and 10 all tasks of role a.
#[test]
fn the_whole_clash_is_told() {
    let mut book = clashing();
    book.tasks_of_role[1] = Set::of(&[0, 1, 3, 4, 6]);
    book.roles_of_subject[2].put(1);
    assert_eq!(asked(&book, 8, 7, 1, 0), (31, 1, 0b01010, 0));
    assert_eq!(asked(&book, 8, 8, 1, 0), (31, 1, 0b11000, 0));
    assert_eq!(asked(&book, 9, 0, 1, 0), (31, 1, 0b11010, 0));
    assert_eq!(asked(&book, 10, 0, 2, 0), (32, 2, 0b11010, 0));
    // The same tasks in another role of the subject, so that it has a clash and no role has one.
    book.tasks_of_role.swap(1, 2);
    book.roles_of_subject[2].put(2);
    assert_eq!(asked(&book, 8, 7, 1, 0), (32, 2, 0b01010, 0));
    assert_eq!(asked(&book, 8, 8, 1, 0), (32, 2, 0b11000, 0));
    assert_eq!(asked(&book, 9, 0, 1, 0), (32, 2, 0b11010, 0));
    assert_eq!(asked(&book, 10, 0, 2, 0), (32, 2, 0b11010, 0));
    assert_eq!(audit(&book.words()), (0, 0, 0));
}

/// M-105: what x owns through juniors is in the mask, from wherever it comes: of a role, and of all roles of a subject.
#[test]
fn the_clash_of_what_is_owned_through_juniors() {
    let mut book = clashing();
    book.juniors[1] = Set::of(&[2, 3]);
    book.juniors[3].put(4);
    book.tasks_of_role[2].put(1);
    book.tasks_of_role[4] = Set::of(&[4, 5]);
    book.roles_of_subject[3] = Set::of(&[1, 5]);
    assert_eq!(asked(&book, 9, 0, 1, 0), (31, 1, 0b10010, 0));
    assert_eq!(asked(&book, 8, 7, 1, 0), (31, 1, 0b00010, 0));
    book.tasks_of_role[5].put(3);
    assert_eq!(asked(&book, 9, 0, 1, 0), (31, 1, 0b10010, 0));
    assert_eq!(asked(&book, 10, 0, 3, 0), (32, 3, 0b11010, 0));
}

/// M-105: the mask is of the lowest role alone that has a clash, though another one among b and its seniors clashes with
/// other tasks, or with more. Lower ones without a clash, and those that gain nothing, are not named.
#[test]
fn the_clash_of_the_lowest_role_alone() {
    let mut book = clashing();
    for (senior, tasks) in [(5, &[1][..]), (4, &[3, 4]), (3, &[0, 4]), (2, &[6])] {
        book.juniors[senior].put(1);
        book.tasks_of_role[senior] = Set::of(tasks);
    }
    assert_eq!(asked(&book, 9, 0, 1, 0), (31, 3, 0b10000, 0));
    assert_eq!(asked(&book, 8, 7, 1, 0), (31, 4, 0b01000, 0));
    assert_eq!(asked(&book, 8, 8, 1, 0), (31, 3, 0b10000, 0));
    book.juniors[3].take(1);
    assert_eq!(asked(&book, 9, 0, 1, 0), (31, 4, 0b11000, 0));
    assert_eq!(asked(&book, 9, 0, 5, 0), (31, 5, 0b00010, 0));
}

/// M-105: likewise of the lowest subject that owns role b, and in kind 10 of subject b, whatever others own. The clash of
/// a role is told before that of any subject.
#[test]
fn the_clash_of_the_lowest_subject_alone() {
    let mut book = clashing();
    for (role, tasks) in [(2, &[1][..]), (3, &[3, 6]), (4, &[4])] {
        book.tasks_of_role[role] = Set::of(tasks);
    }
    for (subject, roles) in [(0, &[1][..]), (1, &[2]), (2, &[1, 3]), (3, &[1, 2, 4])] {
        book.roles_of_subject[subject] = Set::of(roles);
    }
    assert_eq!(asked(&book, 9, 0, 1, 0), (32, 2, 0b01000, 0));
    assert_eq!(asked(&book, 8, 7, 1, 0), (32, 2, 0b01000, 0));
    for (subject, clash) in [(1, 0b00010), (2, 0b01000), (3, 0b10010)] {
        assert_eq!(asked(&book, 10, 0, subject, 0), (32, subject, clash, 0));
    }
    assert_eq!(asked(&book, 10, 0, 0, 0), (0, 0, 0, 0));
    book.juniors[4].put(1);
    assert_eq!(asked(&book, 9, 0, 1, 0), (31, 4, 0b10000, 0));
}

/// M-105: the gained task stands in the row of the owned one, task by task. The row of the gained one says nothing: with
/// it alone a task is not in the mask, and without it one is.
#[test]
fn every_task_of_a_clash_has_a_direction() {
    let mut book = clashing();
    book.tasks_of_role[1] = Set::of(&[1, 2, 3, 4]);
    book.roles_of_subject[2].put(1);
    book.sme[3] = Set::empty();
    book.sme[7].take(1);
    book.sme[8].put(2);
    assert_eq!(asked(&book, 8, 7, 1, 0), (31, 1, 0b00010, 0));
    assert_eq!(asked(&book, 9, 0, 1, 0), (31, 1, 0b10010, 0));
    assert_eq!(asked(&book, 10, 0, 2, 0), (32, 2, 0b10010, 0));
    book.tasks_of_role[1] = Set::of(&[2, 3]);
    assert_eq!(asked(&book, 9, 0, 1, 0), (0, 0, 0, 0));
}

/// M-105: a gained task that is not owned before the change is in no mask, though it is SME to one gained with it.
#[test]
fn gained_tasks_are_not_in_the_clash() {
    let mut book = clashing();
    book.sme[7].put(8);
    book.sme[8].put(8);
    assert_eq!(asked(&book, 9, 0, 1, 0), (0, 0, 0, 0));
    assert_eq!(asked(&book, 10, 0, 2, 0), (0, 0, 0, 0));
    assert_eq!(asked(&book, 8, 8, 1, 0), (0, 0, 0, 0));
    book.tasks_of_role[1].put(4);
    book.roles_of_subject[2].put(1);
    assert_eq!(asked(&book, 9, 0, 1, 0), (31, 1, 0b10000, 0));
    assert_eq!(asked(&book, 10, 0, 2, 0), (32, 2, 0b10000, 0));
    assert_eq!(asked(&book, 8, 8, 1, 0), (31, 1, 0b10000, 0));
}

/// M-105: a task that is owned and gained at once is in the mask where its own row has a gained one, and only there; and
/// what is SME to it is in the mask, though it gains nothing new by it. Only an unsound book shows it.
#[test]
fn what_is_owned_and_gained_at_once() {
    let mut book = clashing();
    book.juniors[1].put(2);
    book.tasks_of_role[2] = Set::of(&[1, 7]);
    book.roles_of_subject[2].put(1);
    assert_eq!(asked(&book, 8, 7, 1, 0), (31, 1, 0b0000_0010, 0));
    assert_eq!(asked(&book, 9, 0, 1, 0), (31, 1, 0b0000_0010, 0));
    book.sme[7].put(8);
    assert_eq!(asked(&book, 8, 7, 1, 0), (31, 1, 0b0000_0010, 0));
    assert_eq!(asked(&book, 9, 0, 1, 0), (31, 1, 0b1000_0010, 0));
    assert_eq!(asked(&book, 10, 0, 2, 0), (32, 2, 0b1000_0010, 0));
    book.sme[7].put(7);
    assert_eq!(asked(&book, 8, 7, 1, 0), (31, 1, 0b1000_0010, 0));
}

/// 33 and 34: x may lie in a's own group and may equal y; an SME partner comes before any DME partner.
#[test]
fn holding_in_the_own_group() {
    let mut book = plain(3, 1, 1);
    book.tasks_of_role[0] = Set::of(&[0, 1, 2]);
    book.roles_of_subject[0].put(0);
    book.active[0] = Some(0);
    book.orders[0] = Set::of(&[0, 1, 2]);
    book.sb[0].put(1);
    book.cells[0][1] = cell_of(0, 0);
    assert_eq!(asked(&book, 13, 0, 0, 0), (0, 0, 0, 0));
    book.dme[1].put(1);
    assert_eq!(asked(&book, 13, 0, 0, 0), (34, 1, 1, 0));
    book.dme[1].put(0);
    assert_eq!(asked(&book, 13, 0, 0, 0), (34, 1, 0, 0));
    book.cells[0][2] = cell_of(0, 0);
    book.sme[2].put(1);
    assert_eq!(asked(&book, 13, 0, 0, 0), (33, 2, 1, 0));
    // The group is cut to the order: with task 1 outside it, nothing is met.
    book.orders[0].take(1);
    book.cells[0][1] = Cell { role: None, subject: None };
    assert_eq!(asked(&book, 13, 0, 0, 0), (0, 0, 0, 0));
}

/// Order 4 with tasks 0, 1, 2 and 3, of which 0 and 3 are bound, with 6, which is in no order, between them. Subjects 0
/// and 1 act in role 0, which owns all tasks.
fn several_orders() -> Book {
    let mut book = plain(12, 1, 2);
    book.tasks_of_role[0] = Set::from_mask(0xfff);
    for subject in 0..2 {
        book.roles_of_subject[subject].put(0);
        book.active[subject] = Some(0);
    }
    book.orders[4] = Set::of(&[0, 1, 2, 3]);
    for (u, v) in [(0, 6), (6, 3)] {
        book.sb[u].put(v);
        book.sb[v].put(u);
    }
    book
}

/// The subject has the task in the order.
fn hold(book: &mut Book, order: usize, task: usize, subject: usize) {
    book.orders[order].put(task);
    book.cells[order][task] = cell_of(0, subject);
}

/// M-104: all open orders count alike, b among them. The lowest is told, and x is the lowest task for that order, though
/// a lower one is held elsewhere.
#[test]
fn the_lowest_order_then_the_lowest_task() {
    let mut book = several_orders();
    for (order, task) in [(9, 5), (8, 7), (4, 8), (2, 11), (2, 10), (1, 9)] {
        book.sme[task].put(0);
        hold(&mut book, order, task, 0);
        assert_eq!(asked(&book, 13, 0, 4, 0), (33, task as u64, 0, order as u64));
    }
    // A lower task, and a lower order, with nothing in them that excludes task 0 or 3.
    book.sme[4].put(1);
    hold(&mut book, 1, 4, 0);
    hold(&mut book, 0, 4, 0);
    assert_eq!(asked(&book, 13, 0, 4, 0), (33, 9, 0, 1));
    assert_eq!(asked(&book, 13, 1, 4, 0), (33, 4, 1, 0));
}

/// M-104: y is the lowest partner of x, not the lowest that anything held excludes.
#[test]
fn the_lowest_partner_of_x() {
    let mut book = several_orders();
    book.sme[8] = Set::of(&[3, 11]);
    book.sme[9] = Set::of(&[0, 3]);
    hold(&mut book, 7, 8, 0);
    hold(&mut book, 7, 9, 0);
    hold(&mut book, 5, 9, 1);
    assert_eq!(asked(&book, 13, 0, 4, 0), (33, 8, 3, 7));
    assert_eq!(asked(&book, 13, 0, 4, 1), (33, 9, 0, 5));
}

/// M-104: the group is cut to order b, though the order in which x is held has the rest of it.
#[test]
fn the_group_is_cut_to_the_order_of_the_request() {
    for order in [1, 4, 7] {
        let mut book = several_orders();
        hold(&mut book, order, 8, 0);
        book.orders[1].put(6);
        book.orders[7].put(6);
        book.sme[8].put(6);
        assert_eq!(asked(&book, 13, 0, 4, 0), (0, 0, 0, 0));
        book.sme[8].put(3);
        assert_eq!(asked(&book, 13, 0, 4, 0), (33, 8, 3, order as u64));
    }
}

/// M-104: any 33 comes before 34, whatever order and task it names; 34 names order b.
#[test]
fn any_33_comes_before_34() {
    let mut book = several_orders();
    book.dme[1].put(0);
    hold(&mut book, 4, 1, 0);
    assert_eq!(asked(&book, 13, 0, 4, 0), (34, 1, 0, 4));
    book.sme[11].put(3);
    hold(&mut book, 60, 11, 0);
    assert_eq!(asked(&book, 13, 0, 4, 0), (33, 11, 3, 60));
    assert_eq!(asked(&book, 13, 3, 4, 0), (33, 11, 3, 60));
    // One pair both ways, which only an unsound book has.
    book.sme[1].put(0);
    assert_eq!(asked(&book, 13, 0, 4, 0), (33, 1, 0, 4));
}

/// M-104: DME counts inside order b alone, and that is the order told.
#[test]
fn dme_elsewhere_does_not_count() {
    let mut book = several_orders();
    book.dme[8].put(0);
    hold(&mut book, 1, 8, 0);
    hold(&mut book, 7, 8, 0);
    assert_eq!(asked(&book, 13, 0, 4, 0), (0, 0, 0, 0));
    hold(&mut book, 4, 8, 0);
    assert_eq!(asked(&book, 13, 0, 4, 0), (34, 8, 0, 4));
}

/// M-104: over two orders too, y stands in x's row and not the other way, and only what c itself holds counts.
#[test]
fn holding_elsewhere_has_a_direction_and_a_hand() {
    let mut book = several_orders();
    hold(&mut book, 1, 8, 0);
    book.sme[0].put(8);
    assert_eq!(asked(&book, 13, 0, 4, 0), (0, 0, 0, 0));
    book.sme[8].put(0);
    assert_eq!(asked(&book, 13, 0, 4, 0), (33, 8, 0, 1));
    assert_eq!(asked(&book, 13, 0, 4, 1), (0, 0, 0, 0));
    book.cells[1][8].subject = None;
    assert_eq!(asked(&book, 13, 0, 4, 0), (0, 0, 0, 0));
}

/// M-104: in another order x may lie in a's own group, be a itself and equal y; only an unsound book shows it.
#[test]
fn the_own_group_in_another_order() {
    let mut book = several_orders();
    for task in [0, 3, 6] {
        hold(&mut book, 7, task, 0);
    }
    assert_eq!(asked(&book, 13, 0, 4, 0), (0, 0, 0, 0));
    book.sme[6].put(3);
    assert_eq!(asked(&book, 13, 0, 4, 0), (33, 6, 3, 7));
    book.sme[0].put(0);
    assert_eq!(asked(&book, 13, 0, 4, 0), (33, 0, 0, 7));
}

/// Rule 9 counts u = v, and both exclusions; 0 is no subject.
#[test]
fn rule_9() {
    let mut book = plain(2, 1, 1);
    book.orders[0] = Set::of(&[0, 1]);
    book.dme[0].put(1);
    assert!(rule_holds(&book, 9));
    (book.cells[0][0], book.cells[0][1]) = (cell_of(0, 0), cell_of(0, 0));
    assert!(!rule_holds(&book, 9));
    book.dme[0] = Set::of(&[0]);
    assert!(!rule_holds(&book, 9));
    assert_eq!(audit(&book.words()), (41, 0, 0));
}

/// M-104: rule 9 looks for DME in one order, and for SME in any two or in one, in the direction of the row, also with
/// u = v. Another hand, or none, breaks nothing.
#[test]
fn rule_9_over_two_orders() {
    let mut book = plain(2, 1, 2);
    hold(&mut book, 8, 0, 0);
    hold(&mut book, 3, 1, 0);
    for (u, v) in [(0, 1), (1, 0)] {
        let mut book = book.clone();
        book.dme[u].put(v);
        assert!(rule_holds(&book, 9));
        book.sme[u].put(v);
        assert!(!rule_holds(&book, 9));
        book.cells[3][1].subject = Some(1);
        assert!(rule_holds(&book, 9));
        (book.cells[8][0].subject, book.cells[3][1].subject) = (None, None);
        assert!(rule_holds(&book, 9));
    }
    book.dme[0].put(0);
    assert!(!rule_holds(&book, 9));
    (book.dme[0], book.sme[0]) = (Set::empty(), Set::of(&[0]));
    assert!(!rule_holds(&book, 9));
}

/// M-104: a book reached before it may have both tasks of an SME pair in one hand, in two orders. It fails the audit by
/// rule 9 and by no other, the audit names neither order, and when one of them is closed the book passes.
#[test]
fn a_book_from_before_m_104() {
    let mut words = defined(2, 2, 1);
    accept(&mut words, &[(4, 0, 1, 0), (8, 0, 0, 0), (8, 1, 1, 0), (10, 0, 0, 0), (11, 0, 0, 0)]);
    accept(&mut words, &[(12, 5, 0, 3), (12, 6, 0, 3), (13, 0, 5, 0), (17, 0, 0, 0), (10, 1, 0, 0), (11, 1, 0, 0)]);
    assert_eq!(ask(&mut words, 13, 1, 6, 0), (33, 0, 1, 5));
    // Document 01 looked inside order 6 alone and accepted this: role 1, subject 0.
    words[cell(6, 1)] = 2 * 128 + 1;
    assert_eq!(audit(&words), (49, 0, 0));
    let book = Book::read(&words);
    assert!((1..=10).all(|rule| rule_holds(&book, rule) == (rule != 9)));
    for order in [5, 6] {
        let mut words = words.clone();
        accept(&mut words, &[(14, order, 0, 0)]);
        assert_eq!(audit(&words), (0, 0, 0));
    }
}

/// Rule 10: the chain runs through a task outside the order, and 0 counts as a value.
#[test]
fn rule_10() {
    let mut words = defined(3, 1, 1);
    accept(&mut words, &[(7, 0, 1, 0), (6, 1, 2, 0)]);
    let mut book = Book::read(&words);
    book.orders[0] = Set::of(&[0, 2]);
    assert_eq!(audit(&book.words()), (0, 0, 0));
    book.cells[0][0] = cell_of(0, 0);
    assert_eq!(audit(&book.words()), (50, 0, 0));
    book.cells[0][2].role = Some(0);
    assert_eq!(audit(&book.words()), (0, 0, 0));
    book.orders[0].put(1);
    book.cells[0][1].role = Some(0);
    assert_eq!(audit(&book.words()), (50, 0, 0));
}
