//! Single requests: such as have a fair chance to be judged by the deeper rules, and extreme ones.

use super::chance::Chance;
use crate::book::Book;
use crate::count::allowed_places;
use crate::request::LAST_KIND;
use crate::trade::tasks_owned_by_role;

/// A kind and its three numbers.
pub type Ask = (u64, u64, u64, u64);

/// The numbers that a run of requests plays with. A few numbers make the requests meet often.
pub struct Floor {
    pub tasks: Vec<usize>,
    pub roles: Vec<usize>,
    pub subjects: Vec<usize>,
    pub orders: Vec<usize>,
}

impl Floor {
    pub fn new(chance: &mut Chance, fewest: usize, most: usize) -> Floor {
        let mut some = |fewest, most| {
            let count = chance.between(fewest, most);
            chance.some_numbers(count)
        };
        Floor { tasks: some(fewest, most), roles: some(fewest, most), subjects: some(fewest, most), orders: some(2, 5) }
    }

    /// What a book has, and one number of each sort besides.
    pub fn of(chance: &mut Chance, book: &Book) -> Floor {
        let mut with_one_more = |members: Vec<usize>| {
            let mut list = members;
            list.push(chance.below(64));
            list
        };
        Floor {
            tasks: with_one_more(book.tasks.members().collect()),
            roles: with_one_more(book.roles.members().collect()),
            subjects: with_one_more(book.subjects.members().collect()),
            orders: with_one_more((0..64).filter(|&p| book.is_open(p)).collect()),
        }
    }

    /// A few of what a book has, so that requests meet often in a full book too, and one number of each sort besides.
    pub fn few_of(chance: &mut Chance, book: &Book) -> Floor {
        let mut floor = Floor::of(chance, book);
        for list in [&mut floor.tasks, &mut floor.roles, &mut floor.subjects] {
            while list.len() > 7 {
                list.swap_remove(chance.below(list.len()));
            }
        }
        floor
    }
}

/// A request of the given kind whose arguments mostly fit; unused arguments may hold anything.
pub fn likely(chance: &mut Chance, floor: &Floor, book: &Book, kind: u64) -> Ask {
    let task = chance.pick(&floor.tasks) as u64;
    let role = chance.pick(&floor.roles) as u64;
    let subject = chance.pick(&floor.subjects) as u64;
    let order = chance.pick(&floor.orders) as u64;
    let (stray_b, stray_c) = (stray(chance), stray(chance));
    match kind {
        1 => (1, task, stray_b, stray_c),
        2 => (2, role, stray_b, stray_c),
        3 => (3, subject, stray_b, stray_c),
        4..=7 => (kind, task, chance.pick(&floor.tasks) as u64, stray_c),
        8 => (8, task, role, stray_c),
        9 => (9, role, chance.pick(&floor.roles) as u64, stray_c),
        10 => (10, role, subject, stray_c),
        11 => likely_activation(chance, book, role, subject),
        12 => (12, order, stray_b, likely_mask(chance, floor, book)),
        13 => likely_allocation(chance, floor, book),
        14 => (14, likely_open(chance, book, order), stray_b, stray_c),
        15..=21 => likely_taking_back(chance, floor, book, kind),
        _ => (kind, task, role, subject),
    }
}

/// Anything at all, for an argument that is not used.
fn stray(chance: &mut Chance) -> u64 {
    match chance.below(3) {
        0 => 0,
        1 => chance.below(70) as u64,
        _ => extreme(chance),
    }
}

fn likely_activation(chance: &mut Chance, book: &Book, role: u64, subject: u64) -> Ask {
    let assigned: Vec<usize> = book.roles_of_subject[subject as usize].members().collect();
    let role = match chance.percent(40) && !assigned.is_empty() {
        true => chance.pick(&assigned) as u64,
        false => role,
    };
    (11, role, subject, stray(chance))
}

fn likely_mask(chance: &mut Chance, floor: &Floor, book: &Book) -> u64 {
    let share = chance.pick(&[100, 400, 700, 1000]);
    match chance.below(12) {
        0 => chance.part_of(&floor.tasks, share).mask(),
        1 => extreme(chance),
        _ => {
            let defined: Vec<usize> = book.tasks.members().collect();
            chance.part_of(&defined, share).mask()
        }
    }
}

fn likely_open(chance: &mut Chance, book: &Book, otherwise: u64) -> u64 {
    let open: Vec<usize> = (0..64).filter(|&p| book.is_open(p)).collect();
    match chance.percent(90) && !open.is_empty() {
        true => chance.pick(&open) as u64,
        false => otherwise,
    }
}

fn likely_allocation(chance: &mut Chance, floor: &Floor, book: &Book) -> Ask {
    let order = chance.pick(&floor.orders) as u64;
    let order = likely_open(chance, book, order);
    let ready: Vec<usize> = book.subjects.members().filter(|&s| book.active[s].is_some()).collect();
    let subject = match chance.percent(85) && !ready.is_empty() {
        true => chance.pick(&ready),
        false => chance.pick(&floor.subjects),
    };
    let its_tasks = book.orders[order as usize];
    let fitting = book.active[subject].map_or(its_tasks, |role| its_tasks.and(&tasks_owned_by_role(book, role)));
    // Half of the time a task that the subject's role owns, else number 11 would be told too often.
    let picked = if chance.percent(50) && !fitting.is_empty() { fitting } else { its_tasks };
    let picked: Vec<usize> = picked.members().collect();
    let task = match chance.percent(93) && !picked.is_empty() {
        true => chance.pick(&picked),
        false => chance.pick(&floor.tasks),
    };
    (13, task as u64, order, subject as u64)
}

/// Often something that is there: a member of a row that is not empty. The row is that of b in kinds 15 to 17, and that
/// of a where a pair is taken back, now and then turned round, since a table need not be symmetric.
fn likely_taking_back(chance: &mut Chance, floor: &Floor, book: &Book, kind: u64) -> Ask {
    let (table, owners, named) = match kind {
        15 => (&book.tasks_of_role, &floor.roles, &floor.tasks),
        16 => (&book.juniors, &floor.roles, &floor.roles),
        17 => (&book.roles_of_subject, &floor.subjects, &floor.roles),
        _ => (book.pair_tables()[kind as usize - 18], &floor.tasks, &floor.tasks),
    };
    let filled: Vec<usize> = owners.iter().copied().filter(|&owner| !table[owner].is_empty()).collect();
    let (owner, member) = match chance.percent(50) && !filled.is_empty() {
        true => {
            let owner = chance.pick(&filled);
            let there: Vec<usize> = table[owner].members().collect();
            (owner as u64, chance.pick(&there) as u64)
        }
        false => (chance.pick(owners) as u64, chance.pick(named) as u64),
    };
    let (a, b) = if kind < 18 || chance.percent(20) { (member, owner) } else { (owner, member) };
    (kind, a, b, stray(chance))
}

/// A number at or beyond the edge of what a request may name.
pub fn extreme(chance: &mut Chance) -> u64 {
    match chance.below(4) {
        0 => chance.word(),
        _ => chance.pick(&[0, 1, 62, 63, 64, 65, 127, 128, 1 << 32, (1 << 32) + 1, 1 << 63, u64::MAX - 1, u64::MAX]),
    }
}

/// Puts something extreme in the place of one argument, mostly one that is used. Some of it looks like the old argument
/// to a program that keeps too few bits.
pub fn spoiled(chance: &mut Chance, (kind, a, b, c): Ask) -> Ask {
    let mut numbers = [a, b, c];
    let used = allowed_places(kind);
    let place = match chance.percent(85) && !used.is_empty() {
        true => chance.pick(used) as usize - 1,
        false => chance.below(3),
    };
    let shift = chance.pick(&[64, 128, 256, 1 << 16, 1 << 32, 1 << 63, u64::MAX - 63]);
    numbers[place] = match chance.percent(50) {
        true => numbers[place].wrapping_add(shift),
        false => extreme(chance),
    };
    (kind, numbers[0], numbers[1], numbers[2])
}

/// What is no kind: 0, the first numbers past the last kind, and such as look like a kind when too few bits are kept.
pub fn strange_kind(chance: &mut Chance) -> u64 {
    let past = LAST_KIND + 1;
    let like_a_kind = chance.between(1, LAST_KIND as usize) as u64;
    match chance.below(4) {
        0 => chance.pick(&[0, past, past + 1, past + 2, 63, 64, u64::MAX, 1 << 63]),
        1 => like_a_kind + chance.pick(&[32, 64, 256, 1 << 16, 1 << 32, 1 << 63]),
        2 => chance.pick(&[0, past]),
        _ => chance.word().max(past),
    }
}
