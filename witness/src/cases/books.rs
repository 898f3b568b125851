//! Hand-made books: well-formed ones that need not be sound, and those with the longest chains.

use super::chance::Chance;
use crate::book::{Book, Cell, Table, EMPTY_CELL};
use crate::set::Set;
use crate::trade::{role_group, subject_group};

/// A small well-formed book: up to twelve of each sort.
pub fn small(chance: &mut Chance) -> Book {
    let shares: &[usize] = &[0, 30, 60, 120, 250, 500];
    let (tasks, roles, subjects, orders) =
        (chance.between(1, 12), chance.between(1, 8), chance.between(1, 6), chance.between(0, 4));
    arbitrary(chance, [tasks, roles, subjects, orders], shares)
}

/// A full book: 64 of everything, with all orders open or none.
pub fn full(chance: &mut Chance) -> Book {
    let shares = chance.pick(&[&[0, 4, 8, 12][..], &[5, 15, 40][..], &[200, 500, 900][..], &[0, 1000][..]]);
    let orders = chance.pick(&[0, 1, 3, 64]);
    arbitrary(chance, [64, 64, 64, orders], shares)
}

/// A well-formed book with so many tasks, roles, subjects and open orders.
/// The shares are per mille and say how crowded a table may be.
fn arbitrary(chance: &mut Chance, [tasks, roles, subjects, orders]: [usize; 4], shares: &[usize]) -> Book {
    let mut book = Book::blank();
    let (tasks, roles, subjects) =
        (chance.some_numbers(tasks), chance.some_numbers(roles), chance.some_numbers(subjects));
    (book.tasks, book.roles, book.subjects) = (Set::of(&tasks), Set::of(&roles), Set::of(&subjects));
    let (two_way, own_rows) = (chance.percent(60), chance.percent(20));
    for table in book.pair_tables_mut() {
        let share = chance.pick(shares);
        fill_pairs(chance, table, &tasks, share, two_way);
        if !own_rows {
            tasks.iter().for_each(|&t| table[t].take(t));
        }
    }
    let share = chance.pick(shares);
    let cycles = chance.percent(30);
    fill_juniors(chance, &mut book.juniors, &roles, share, cycles);
    let share = chance.pick(shares);
    roles.iter().for_each(|&r| book.tasks_of_role[r] = chance.part_of(&tasks, share));
    let share = chance.pick(shares);
    subjects.iter().for_each(|&s| book.roles_of_subject[s] = chance.part_of(&roles, share));
    subjects.iter().for_each(|&s| book.active[s] = some_active(chance, &roles, &book.roles_of_subject[s]));
    if orders > 0 {
        open_orders(chance, &mut book, orders);
    }
    book
}

fn fill_pairs(chance: &mut Chance, table: &mut Table, tasks: &[usize], share: usize, two_way: bool) {
    for &u in tasks {
        for &v in tasks {
            if chance.permille(share) {
                table[u].put(v);
                if two_way {
                    table[v].put(u);
                }
            }
        }
    }
}

/// Without cycles a role has only roles after it in the list for juniors.
fn fill_juniors(chance: &mut Chance, table: &mut Table, roles: &[usize], share: usize, cycles: bool) {
    for (place, &r) in roles.iter().enumerate() {
        let below = if cycles { roles } else { &roles[place + 1..] };
        table[r] = chance.part_of(below, share);
    }
}

/// No role, an assigned one, or any: the active role stays when an assignment is taken back.
fn some_active(chance: &mut Chance, roles: &[usize], assigned: &Set) -> Option<usize> {
    let assigned: Vec<usize> = assigned.members().collect();
    match chance.below(10) {
        0 | 1 => None,
        2..=7 if !assigned.is_empty() => Some(chance.pick(&assigned)),
        _ => Some(chance.pick(roles)),
    }
}

/// Opens orders and fills their cells: not at all, at random, or with one value for each group.
fn open_orders(chance: &mut Chance, book: &mut Book, count: usize) {
    let tasks: Vec<usize> = book.tasks.members().collect();
    let filling = chance.below(4);
    let share = chance.pick(&[300, 600, 1000]);
    for p in chance.some_numbers(count) {
        book.orders[p] = chance.part_of(&tasks, share);
        for t in book.orders[p].members().collect::<Vec<_>>() {
            match filling {
                0 => {}
                1 | 2 => book.cells[p][t] = some_cell(chance, book),
                _ => fill_group(chance, book, p, t),
            }
        }
    }
}

/// A cell with nothing, with a role, or with a role and a subject.
pub fn some_cell(chance: &mut Chance, book: &Book) -> Cell {
    let roles: Vec<usize> = book.roles.members().collect();
    let subjects: Vec<usize> = book.subjects.members().collect();
    match chance.below(4) {
        0 => EMPTY_CELL,
        1 => Cell { role: Some(chance.pick(&roles)), subject: None },
        _ => Cell { role: Some(chance.pick(&roles)), subject: Some(chance.pick(&subjects)) },
    }
}

/// Fills the cells of t's groups alike, where they are still empty.
fn fill_group(chance: &mut Chance, book: &mut Book, p: usize, t: usize) {
    let cell = some_cell(chance, book);
    if book.cells[p][t] != EMPTY_CELL {
        return;
    }
    for v in role_group(book, t).and(&book.orders[p]).members() {
        book.cells[p][v].role = cell.role;
    }
    for v in subject_group(book, t).and(&book.orders[p]).members() {
        book.cells[p][v] = cell;
    }
}

/// A book with chains as long as they can be: 64 roles in one line and 64 tasks in one line,
/// each perhaps closed to a ring. Gives the lines too, from the first to the last.
pub fn longest(chance: &mut Chance) -> (Book, Vec<usize>, Vec<usize>) {
    let mut book = Book::blank();
    let all = Set::from_mask(u64::MAX);
    (book.tasks, book.roles, book.subjects) = (all, all, all);
    let (roles, tasks) = (chance.shuffled(), chance.shuffled());
    let (two_way, mixed) = (chance.percent(50), chance.percent(50));
    let (ring_of_roles, ring_of_tasks) = (chance.percent(30), chance.percent(30));
    for place in 0..64 {
        let next = (place + 1) % 64;
        if next != 0 || ring_of_roles {
            book.juniors[roles[place]].put(roles[next]);
        }
        if next != 0 || ring_of_tasks {
            let table = if mixed && chance.percent(50) { &mut book.rb } else { &mut book.sb };
            table[tasks[place]].put(tasks[next]);
            if two_way {
                table[tasks[next]].put(tasks[place]);
            }
        }
    }
    for (place, &t) in tasks.iter().enumerate() {
        book.tasks_of_role[roles[place.max(60)]].put(t);
    }
    let subject = chance.below(64);
    book.roles_of_subject[subject].put(roles[0]);
    book.active[subject] = Some(roles[chance.below(64)]);
    if chance.percent(50) {
        let order = chance.below(64);
        book.orders[order] = chance.part_of(&tasks, 900);
    }
    (book, roles, tasks)
}
