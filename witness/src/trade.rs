//! "Words of the trade": reach, owns, and the two groups of a task.

use crate::book::{Book, Table};
use crate::set::Set;

/// Everything that one or more steps lead to, where a step goes from a number to a member of
/// its row in any of the given tables.
fn led_to(from: usize, tables: &[&Table]) -> Set {
    let mut found = Set::empty();
    let mut to_step_from = vec![from];
    while let Some(here) = to_step_from.pop() {
        for table in tables {
            for next in table[here].members() {
                if !found.has(next) {
                    found.put(next);
                    to_step_from.push(next);
                }
            }
        }
    }
    found
}

/// The roles that role r reaches: a chain of one or more direct-junior steps. On a cycle r reaches itself.
pub fn reached(book: &Book, r: usize) -> Set {
    led_to(r, &[&book.juniors])
}

/// The tasks that role r owns: those assigned to it and to every role it reaches.
pub fn tasks_owned_by_role(book: &Book, r: usize) -> Set {
    let mut owned = book.tasks_of_role[r];
    for q in reached(book, r).members() {
        owned = owned.or(&book.tasks_of_role[q]);
    }
    owned
}

/// The roles that subject s owns: its assigned roles and all roles they reach.
pub fn roles_owned_by_subject(book: &Book, s: usize) -> Set {
    let mut owned = book.roles_of_subject[s];
    for r in book.roles_of_subject[s].members() {
        owned = owned.or(&reached(book, r));
    }
    owned
}

/// The tasks that subject s owns: the tasks of all roles it owns.
pub fn tasks_owned_by_subject(book: &Book, s: usize) -> Set {
    let mut owned = Set::empty();
    for r in roles_owned_by_subject(book, s).members() {
        owned = owned.or(&book.tasks_of_role[r]);
    }
    owned
}

/// The subject group of t: t and all tasks joined to it by chains of SB, along rows from t.
pub fn subject_group(book: &Book, t: usize) -> Set {
    led_to(t, &[&book.sb]).or(&Set::of(&[t]))
}

/// The role group of t: the same with SB and RB mixed.
pub fn role_group(book: &Book, t: usize) -> Set {
    led_to(t, &[&book.sb, &book.rb]).or(&Set::of(&[t]))
}
