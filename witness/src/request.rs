//! "Requests" and "The numbers that come back", with the kinds of M-100, kind 10 of M-101, number 33 of M-104 and the
//! masks of M-105: refusals 1 to 11, the conflicts, the change.

use crate::book::{lowest_bad_word, Book, Cell, Table, EMPTY_CELL, WORDS};
use crate::set::Set;
use crate::trade::{
    reached, role_group, roles_owned_by_subject, subject_group, tasks_owned_by_role, tasks_owned_by_subject,
};
use crate::{Answer, ACCEPTED};

/// The kinds are 1 to this one; number 3 is told of any other.
pub const LAST_KIND: u64 = 21;

/// A request to a book: its answer, and the book changed where the answer is 0 and untouched elsewhere.
pub fn request(words: &mut [u64], kind: u64, a: u64, b: u64, c: u64) -> Answer {
    if let Some(answer) = refusal(words, kind, a, b, c) {
        return answer;
    }
    let book = Book::read(words);
    if let Some(answer) = conflict(&book, kind, a, b, c) {
        return answer;
    }
    words.copy_from_slice(&change(&book, kind, a, b, c).words());
    ACCEPTED
}

/// The blind change: what the request would do if nobody looked for conflicts.
/// It is defined only where none of the refusals 1 to 11 applies.
pub fn blind(words: &[u64], kind: u64, a: u64, b: u64, c: u64) -> Vec<u64> {
    change(&Book::read(words), kind, a, b, c).words()
}

/// The lowest applicable number of 1 to 11, if there is one.
pub fn refusal(words: &[u64], kind: u64, a: u64, b: u64, c: u64) -> Option<Answer> {
    if words.len() != WORDS {
        return Some((1, 0, 0, 0));
    }
    if let Some(index) = lowest_bad_word(words) {
        return Some((2, index as u64, 0, 0));
    }
    if !(1..=LAST_KIND).contains(&kind) {
        return Some((3, 0, 0, 0));
    }
    let book = Book::read(words);
    if let Some(place) = argument_at_fault(&book, kind, a, b, c) {
        return Some((4, place, 0, 0));
    }
    // From here on every argument in use is a number 0 to 63, but for the mask of kind 12.
    let (a, b, c) = (a as usize, b as usize, c as usize);
    if matches!(kind, 1..=10 | 12) && is_there(&book, kind, a, b) {
        return Some((5, 0, 0, 0));
    }
    if matches!(kind, 15..=21) && !is_there(&book, kind, a, b) {
        return Some((6, 0, 0, 0));
    }
    match kind {
        4..=7 | 18..=21 => (0..64).find(|&p| book.is_open(p)).map(|p| (7, p as u64, 0, 0)),
        11 if !roles_owned_by_subject(&book, b).has(a) => Some((8, 0, 0, 0)),
        13 => allocation_refusal(&book, a, b, c),
        _ => None,
    }
}

/// Number 4: the place (1, 2 or 3) of the first argument that is not what its kind asks for.
fn argument_at_fault(book: &Book, kind: u64, a: u64, b: u64, c: u64) -> Option<u64> {
    let no_task = |n: u64| n > 63 || !book.tasks.has(n as usize);
    let no_role = |n: u64| n > 63 || !book.roles.has(n as usize);
    let no_subject = |n: u64| n > 63 || !book.subjects.has(n as usize);
    let no_open_order = |n: u64| n > 63 || !book.is_open(n as usize);
    let no_task_mask = |mask: u64| mask == 0 || Set::from_mask(mask).members().any(|t| !book.tasks.has(t));
    let at_fault = match kind {
        1..=3 => [a > 63, false, false],
        4..=7 | 18..=21 => [no_task(a), no_task(b), false],
        8 | 15 => [no_task(a), no_role(b), false],
        9 | 16 => [no_role(a), no_role(b), false],
        10 | 11 | 17 => [no_role(a), no_subject(b), false],
        12 => [a > 63, false, no_task_mask(c)],
        13 => [no_task(a), no_open_order(b), no_subject(c)],
        14 => [no_open_order(a), false, false],
        _ => unreachable!("number 3 comes before number 4"),
    };
    match (1..=3).find(|place| at_fault[place - 1]) {
        Some(place) => Some(place as u64),
        // "then, kind 13, a not in order b": asked only after all three arguments fit.
        None if kind == 13 && !book.orders[b as usize].has(a as usize) => Some(1),
        None => None,
    }
}

/// Numbers 5 and 6: whether the very bit, or the open order, is there that the request would set or take back.
/// Of a pair it is bit b of row a, whatever stands in row b.
fn is_there(book: &Book, kind: u64, a: usize, b: usize) -> bool {
    match kind {
        1 => book.tasks.has(a),
        2 => book.roles.has(a),
        3 => book.subjects.has(a),
        4..=7 | 18..=21 => book.pair_tables()[pair_table_of(kind)][a].has(b),
        8 | 15 => book.tasks_of_role[b].has(a),
        9 | 16 => book.juniors[b].has(a),
        10 | 17 => book.roles_of_subject[b].has(a),
        12 => book.is_open(a),
        _ => unreachable!("no other kind sets anything or takes it back"),
    }
}

/// The place, among the pair tables, of the one that the kind adds a pair to or takes one back from.
fn pair_table_of(kind: u64) -> usize {
    match kind {
        4 | 18 => 0,
        5 | 19 => 1,
        6 | 20 => 2,
        7 | 21 => 3,
        _ => unreachable!("no other kind speaks of a pair table"),
    }
}

/// Numbers 8 to 11 for kind 13: task a in order b to subject c.
fn allocation_refusal(book: &Book, a: usize, b: usize, c: usize) -> Option<Answer> {
    let role = match book.active[c] {
        Some(role) if roles_owned_by_subject(book, c).has(role) => role,
        _ => return Some((8, 0, 0, 0)),
    };
    let cell = book.cells[b][a];
    if let Some(subject) = cell.subject {
        return Some((9, subject as u64, 0, 0));
    }
    if let Some(other) = cell.role.filter(|&other| other != role) {
        return Some((10, other as u64, 0, 0));
    }
    let owned = tasks_owned_by_role(book, role);
    let needed = role_group(book, a).and(&book.orders[b]);
    let lacking = needed.members().find(|&t| !owned.has(t));
    lacking.map(|t| (11, t as u64, 0, 0))
}

/// "Conflicts by kind": the first of the kind's list that is met, where no refusal applies.
fn conflict(book: &Book, kind: u64, a: u64, b: u64, c: u64) -> Option<Answer> {
    let (a, b, c) = (a as usize, b as usize, c as usize);
    let list: &[u64] = match kind {
        4 => &[20, 21, 23, 24, 25, 26],
        5 => &[20, 22, 23],
        6 => &[20, 22, 27],
        7 => &[20, 21, 22, 27, 28],
        8 => &[31, 32],
        9 => &[29, 30, 31, 32],
        10 => &[32],
        13 => &[33, 34],
        _ => &[],
    };
    let numbers = |(x, y, z): (usize, usize, usize)| (x as u64, y as u64, z as u64);
    list.iter().find_map(|&number| {
        let told = match number {
            31 | 32 => gaining_conflict(book, number, kind, a, b).map(|(x, clash)| (x as u64, clash.mask(), 0)),
            33 => static_conflict(book, a, b, c).map(numbers),
            34 => dynamic_conflict(book, a, b, c).map(numbers),
            _ => pair_conflict(book, number, a, b).map(|(x, y)| numbers((x, y, 0))),
        };
        told.map(|(x, y, z)| (number, x, y, z))
    })
}

/// Conflicts 20 to 30 of the pair a, b: x and y where the conflict is met.
fn pair_conflict(book: &Book, number: u64, a: usize, b: usize) -> Option<(usize, usize)> {
    let said_of_no_one = |met: bool| met.then_some((0, 0));
    let owns_both = |owned: Set| owned.has(a) && owned.has(b);
    match number {
        20 | 29 => said_of_no_one(a == b),
        21 => said_of_no_one(book.dme[a].has(b)),
        22 => said_of_no_one(book.sme[a].has(b)),
        23 => said_of_no_one(subject_group(book, a).has(b)),
        24 => said_of_no_one(role_group(book, a).has(b)),
        25 => (0..64).find(|&r| owns_both(tasks_owned_by_role(book, r))).map(|r| (r, 0)),
        26 => (0..64).find(|&s| owns_both(tasks_owned_by_subject(book, s))).map(|s| (s, 0)),
        27 => lowest_pair(&role_group(book, a), &book.sme, &role_group(book, b)),
        28 => lowest_pair(&subject_group(book, a), &book.dme, &subject_group(book, b)),
        30 => said_of_no_one(reached(book, a).has(b)),
        _ => unreachable!("no other number is a conflict of a pair"),
    }
}

/// "x the lowest that has a partner, then y its lowest partner": y in x's row.
fn lowest_pair(xs: &Set, table: &Table, ys: &Set) -> Option<(usize, usize)> {
    xs.members().find_map(|x| table[x].and(ys).members().next().map(|y| (x, y)))
}

/// Conflicts 31 and 32: x the lowest role or subject that owns a task SME to one it would gain. M-105, over document 01:
/// y is "the mask of all tasks the named role or subject owns that are SME to one it would gain", of x and nobody else.
/// Owned is what it owns before the change; a gained task may be among that.
fn gaining_conflict(book: &Book, number: u64, kind: u64, a: usize, b: usize) -> Option<(usize, Set)> {
    let gained = match kind {
        8 => Set::of(&[a]),
        _ => tasks_owned_by_role(book, a),
    };
    let would_gain = |x: usize| match (number, kind) {
        (31, _) => x == b || reached(book, x).has(b),
        (_, 10) => x == b,
        _ => roles_owned_by_subject(book, x).has(b),
    };
    let owned_by = |x: usize| match number {
        31 => tasks_owned_by_role(book, x),
        _ => tasks_owned_by_subject(book, x),
    };
    let mut clashes = (0..64).filter(|&x| would_gain(x)).map(|x| (x, sme_to_one_of(book, &owned_by(x), &gained)));
    clashes.find(|(_, clash)| !clash.is_empty())
}

/// Those of the owned tasks that are SME to a gained one: "the gained task in the owned task's row".
fn sme_to_one_of(book: &Book, owned: &Set, gained: &Set) -> Set {
    let mut clash = Set::empty();
    for u in owned.members().filter(|&u| !book.sme[u].and(gained).is_empty()) {
        clash.put(u);
    }
    clash
}

/// Conflict 33: in any open order z, b among them, c holds x, with y of what c would get in x's SME row. Told is the
/// lowest order z, then the lowest x that c holds there and has a partner, then its lowest partner y.
fn static_conflict(book: &Book, a: usize, b: usize, c: usize) -> Option<(usize, usize, usize)> {
    let mut open_orders = (0..64).filter(|&z| book.is_open(z));
    let found_in = |z: usize| lowest_pair(&held(book, z, c), &book.sme, &would_get(book, a, b)).map(|(x, y)| (x, y, z));
    open_orders.find_map(found_in)
}

/// Conflict 34: the same with DME, and in order b alone, which is z.
fn dynamic_conflict(book: &Book, a: usize, b: usize, c: usize) -> Option<(usize, usize, usize)> {
    lowest_pair(&held(book, b, c), &book.dme, &would_get(book, a, b)).map(|(x, y)| (x, y, b))
}

/// What subject c holds in an order: the tasks whose cells have c.
fn held(book: &Book, order: usize, c: usize) -> Set {
    let mut held = Set::empty();
    for t in book.orders[order].members().filter(|&t| book.cells[order][t].subject == Some(c)) {
        held.put(t);
    }
    held
}

/// What a subject would get with task a in order b: the subject group of a, cut to that order, whichever order x is in.
fn would_get(book: &Book, a: usize, b: usize) -> Set {
    subject_group(book, a).and(&book.orders[b])
}

/// The change of each kind, made from the book before it.
fn change(before: &Book, kind: u64, a: u64, b: u64, c: u64) -> Book {
    let mut book = before.clone();
    let (a, b) = (a as usize, b as usize);
    match kind {
        1 => book.tasks.put(a),
        2 => book.roles.put(a),
        3 => book.subjects.put(a),
        4..=7 => put_both(book.pair_tables_mut()[pair_table_of(kind)], a, b),
        8 => book.tasks_of_role[b].put(a),
        9 => book.juniors[b].put(a),
        // M-101, over document 01: the assignment alone. Only kind 11 changes who acts in what.
        10 => book.roles_of_subject[b].put(a),
        11 => book.active[b] = Some(a),
        12 => {
            book.orders[a] = Set::from_mask(c);
            book.cells[a] = vec![EMPTY_CELL; 64];
        }
        13 => allocate(before, &mut book, a, b, c as usize),
        14 => {
            book.orders[a] = Set::empty();
            book.cells[a] = vec![EMPTY_CELL; 64];
        }
        15 => book.tasks_of_role[b].take(a),
        16 => book.juniors[b].take(a),
        17 => book.roles_of_subject[b].take(a),
        18..=21 => take_both(book.pair_tables_mut()[pair_table_of(kind)], a, b),
        _ => unreachable!("number 3 comes before any change"),
    }
    book
}

fn put_both(table: &mut Table, a: usize, b: usize) {
    table[a].put(b);
    table[b].put(a);
}

/// Both bits go, also where only one of them was there.
fn take_both(table: &mut Table, a: usize, b: usize) {
    table[a].take(b);
    table[b].take(a);
}

/// Kind 13: in order b each task of a's role group gets the active role of c, and each task of a's
/// subject group also gets c. A cell of the role group outside the subject group keeps its subject.
fn allocate(before: &Book, book: &mut Book, a: usize, b: usize, c: usize) {
    let by_subject = subject_group(before, a);
    for t in role_group(before, a).and(&before.orders[b]).members() {
        let subject = if by_subject.has(t) { Some(c) } else { before.cells[b][t].subject };
        book.cells[b][t] = Cell { role: before.active[c], subject };
    }
}
