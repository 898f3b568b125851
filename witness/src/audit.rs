//! "The audit", with rule 9 of M-104: ten rules, each a plain question of the book; the lowest broken one is told.

use crate::book::{lowest_bad_word, Book, Table, WORDS};
use crate::set::Set;
use crate::trade::{reached, role_group, subject_group, tasks_owned_by_role, tasks_owned_by_subject};
use crate::{Finding, SOUND};

/// It only reads: 1 or 2 as for a request, else 40 + n for the lowest broken rule n, else 0.
pub fn audit(words: &[u64]) -> Finding {
    if words.len() != WORDS {
        return (1, 0, 0);
    }
    if let Some(index) = lowest_bad_word(words) {
        return (2, index as u64, 0);
    }
    let book = Book::read(words);
    match (1..=10).find(|&rule| !rule_holds(&book, rule)) {
        Some(rule) => (40 + rule, 0, 0),
        None => SOUND,
    }
}

/// Whether rule n of the audit holds of the book, whatever the other rules say.
pub fn rule_holds(book: &Book, rule: u64) -> bool {
    match rule {
        1 => no_task_in_its_own_row(book),
        2 => book.pair_tables().iter().all(|table| is_symmetric(table)),
        3 => (0..64).all(|u| book.sme[u].and(&book.dme[u]).is_empty()),
        4 => (0..64).all(|u| book.sme[u].and(&role_group(book, u)).is_empty()),
        5 => (0..64).all(|u| book.dme[u].and(&subject_group(book, u)).is_empty()),
        6 => (0..64).all(|r| !reached(book, r).has(r)),
        7 => (0..64).all(|r| holds_no_pair(&tasks_owned_by_role(book, r), &book.sme)),
        8 => (0..64).all(|s| holds_no_pair(&tasks_owned_by_subject(book, s), &book.sme)),
        9 => excluding_tasks_have_two_subjects(book),
        10 => groups_have_one_value(book),
        _ => unreachable!("the audit has ten rules"),
    }
}

fn no_task_in_its_own_row(book: &Book) -> bool {
    book.pair_tables().iter().all(|table| (0..64).all(|t| !table[t].has(t)))
}

fn is_symmetric(table: &Table) -> bool {
    (0..64).all(|u| (0..64).all(|v| table[u].has(v) == table[v].has(u)))
}

/// No u and v of the tasks with v in u's row.
fn holds_no_pair(tasks: &Set, table: &Table) -> bool {
    tasks.members().all(|u| table[u].and(tasks).is_empty())
}

/// Rule 9, of u in open order p and v in open order q: where v is in u's DME row and q is p, or v is in u's SME row and
/// q is any, their cells have not the same S above 0 (u = v counts, and for SME also p = q).
fn excluding_tasks_have_two_subjects(book: &Book) -> bool {
    let open = || (0..64).filter(|&p| book.is_open(p));
    open().all(|p| {
        book.orders[p].members().filter(|&u| book.cells[p][u].subject.is_some()).all(|u| {
            let same_hand = |q: usize, v: usize| book.cells[q][v].subject == book.cells[p][u].subject;
            let dme_in_this_order = book.dme[u].members().any(|v| same_hand(p, v));
            let sme_in_any_order = book.sme[u].members().any(|v| open().any(|q| same_hand(q, v)));
            !dme_in_this_order && !sme_in_any_order
        })
    })
}

/// Rule 10: u and v of one order; v in u's subject group has u's S, and v in u's role group has u's E.
/// The groups are those of the book, so a task outside the order still carries the chain.
fn groups_have_one_value(book: &Book) -> bool {
    (0..64).all(|u| {
        let (by_subject, by_role) = (subject_group(book, u), role_group(book, u));
        (0..64).filter(|&p| book.orders[p].has(u)).all(|p| {
            let (cells, order) = (&book.cells[p], &book.orders[p]);
            let same_subject = by_subject.and(order).members().all(|v| cells[v].subject == cells[u].subject);
            let same_role = by_role.and(order).members().all(|v| cells[v].role == cells[u].role);
            same_subject && same_role
        })
    })
}
