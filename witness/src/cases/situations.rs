//! Aimed situations: for a kind and a number, a small situation that brings just this number about.

use super::asks::Ask;
use super::hands::{hold, hold_harmless_elsewhere, hold_in_several_orders};
use super::scene::{Pair, Scene};
use crate::book::Cell;
use crate::set::Set;

const SUBJECT_BOUND: &[Pair] = &[Pair::Sb];
const ROLE_BOUND: &[Pair] = &[Pair::Sb, Pair::Rb];

/// What is aimed at, as (kind, number). Numbers 1 to 3, and most of 4,
/// come from damage and from spoiled arguments.
#[rustfmt::skip]
pub const AIMS: &[(u64, u64)] = &[
    (4, 0), (4, 5), (4, 7), (4, 20), (4, 21), (4, 23), (4, 24), (4, 25), (4, 26),
    (5, 0), (5, 5), (5, 7), (5, 20), (5, 22), (5, 23),
    (6, 0), (6, 5), (6, 7), (6, 20), (6, 22), (6, 27),
    (7, 0), (7, 5), (7, 7), (7, 20), (7, 21), (7, 22), (7, 27), (7, 28),
    (8, 0), (8, 31), (8, 32),
    (9, 0), (9, 5), (9, 29), (9, 30), (9, 31), (9, 32), (9, 32),
    (10, 0), (10, 0), (10, 32),
    (11, 0), (11, 8),
    (13, 0), (13, 4), (13, 8), (13, 9), (13, 10), (13, 11), (13, 33), (13, 34), (13, 33), (13, 34), (13, 0),
    (13, 33), (13, 33), (13, 33), (13, 34), (13, 0), (13, 0),
    (16, 0), (16, 6),
    (18, 0), (18, 0), (18, 6), (18, 6), (18, 7), (19, 0), (19, 0), (19, 6), (19, 6), (19, 7),
    (20, 0), (20, 0), (20, 6), (20, 6), (20, 7), (21, 0), (21, 0), (21, 6), (21, 6), (21, 7),
];

/// Lays the situation for a kind and a number, and gives the request that meets it.
pub fn lay(scene: &mut Scene, kind: u64, number: u64) -> Ask {
    let (a, b) = match (kind, number) {
        (13, _) => return allocation(scene, number),
        (9, 5) => junior_already(scene),
        (18..=21, _) => pair_to_take(scene, kind, number),
        (_, 20) => same_task(scene),
        (_, 29) => same_role(scene),
        (_, 30) => cycle(scene),
        (_, 5 | 7 | 21 | 22) => named_pair(scene, kind, number),
        (4 | 5, 23) => one_group(scene, SUBJECT_BOUND),
        (4, 24) => one_role_group(scene),
        (4, 25) => owned_by_role(scene),
        (4, 26) => owned_by_subject(scene),
        (_, 27) => excluded_groups(scene, ROLE_BOUND, Pair::Sme),
        (_, 28) => excluded_groups(scene, SUBJECT_BOUND, Pair::Dme),
        (_, 31) => gained_by_role(scene, kind),
        (_, 32) => gained_by_subject(scene, kind),
        (10, _) => assignment(scene),
        (11, _) => activation(scene, number),
        (16, _) => juniors(scene, number),
        _ => quiet(scene, kind),
    };
    (kind, a as u64, b as u64, scene.chance.below(100) as u64)
}

fn same_task(scene: &mut Scene) -> (usize, usize) {
    let a = scene.task();
    (a, a)
}

fn same_role(scene: &mut Scene) -> (usize, usize) {
    let a = scene.role();
    (a, a)
}

/// A direct junior, or a role that is its own.
fn junior_already(scene: &mut Scene) -> (usize, usize) {
    let b = scene.role();
    let a = if scene.chance.percent(50) { b } else { scene.role() };
    scene.book.juniors[b].put(a);
    (a, b)
}

/// a reaches b by one to six steps.
fn cycle(scene: &mut Scene) -> (usize, usize) {
    let a = scene.role();
    let steps = scene.chance.between(1, 6);
    let b = scene.role_below(a, steps);
    (a, b)
}

/// The pair table that the kind adds to or takes back from.
fn own_table(kind: u64) -> Pair {
    match kind {
        4 | 18 => Pair::Sme,
        5 | 19 => Pair::Dme,
        6 | 20 => Pair::Rb,
        _ => Pair::Sb,
    }
}

/// A pair that stands in the kind's own table (5), in DME (21) or SME (22), or while an order is open (7).
fn named_pair(scene: &mut Scene, kind: u64, number: u64) -> (usize, usize) {
    let (a, b) = (scene.task(), scene.task());
    let pair = match number {
        5 => own_table(kind),
        21 => Pair::Dme,
        22 => Pair::Sme,
        _ => {
            open_with(scene, a);
            return (a, b);
        }
    };
    scene.join(pair, a, b);
    if scene.chance.percent(40) {
        later_conflict(scene, kind, number, a, b);
    }
    (a, b)
}

/// Besides 21 or 22, a conflict that comes later in the list of the kind and must not be told.
fn later_conflict(scene: &mut Scene, kind: u64, number: u64, a: usize, b: usize) {
    let steps = scene.chance.between(1, 3);
    match (kind, number) {
        (7, 21) => scene.join(Pair::Sme, a, b),
        (4, 21) | (5, 22) => scene.link(a, b, steps, SUBJECT_BOUND),
        _ => {}
    }
}

/// An order is opened for the task, so that no pair may be added or taken back.
fn open_with(scene: &mut Scene, task: usize) {
    let order = scene.order();
    scene.book.orders[order].put(task);
}

/// Kinds 18 to 21: a pair that is there (0), also while orders are open (7), or one that is not there (6).
/// Either way bindings and exclusions stand around it.
fn pair_to_take(scene: &mut Scene, kind: u64, number: u64) -> (usize, usize) {
    let (a, b) = match number {
        6 => pair_not_there(scene, own_table(kind)),
        _ => pair_there(scene, own_table(kind)),
    };
    for u in [a, b] {
        let (pair, v) = (scene.chance.pick(&Pair::ALL), scene.task());
        scene.join(pair, u, v);
    }
    // Number 6 comes before 7, so orders may be open for it.
    if number == 7 || (number == 6 && scene.chance.percent(40)) {
        (0..scene.chance.between(1, 3)).for_each(|_| open_with(scene, a));
    }
    (a, b)
}

/// A pair with both bits, with bit b of row a alone, or of a task with itself. The last two only an unsound book shows.
fn pair_there(scene: &mut Scene, pair: Pair) -> (usize, usize) {
    let a = scene.task();
    match scene.chance.below(6) {
        0 | 1 => {
            let b = scene.task();
            scene.join(pair, a, b);
            (a, b)
        }
        2 | 3 => {
            let b = scene.task();
            scene.table(pair)[a].put(b);
            (a, b)
        }
        _ => {
            scene.table(pair)[a].put(a);
            (a, a)
        }
    }
}

/// Two tasks that something joins, but not bit b of row a: bit a of row b, the other tables, or a chain.
fn pair_not_there(scene: &mut Scene, pair: Pair) -> (usize, usize) {
    let (a, b) = (scene.task(), scene.task());
    match scene.chance.below(4) {
        0 | 1 => scene.table(pair)[b].put(a),
        2 => Pair::ALL.into_iter().filter(|&other| other != pair).for_each(|other| scene.join(other, a, b)),
        _ => {
            let steps = scene.chance.between(2, 4);
            scene.link(a, b, steps, &[pair]);
        }
    }
    (a, b)
}

fn one_group(scene: &mut Scene, pairs: &[Pair]) -> (usize, usize) {
    let a = scene.task();
    let steps = scene.chance.between(1, 6);
    let b = scene.bound_to(a, steps, pairs);
    (a, b)
}

/// A mixed chain with at least one step of RB in it.
fn one_role_group(scene: &mut Scene) -> (usize, usize) {
    let a = scene.task();
    let (before, after) = (scene.chance.below(4), scene.chance.below(4));
    let middle = scene.bound_to(a, before, ROLE_BOUND);
    let next = scene.bound_to(middle, 1, &[Pair::Rb]);
    let b = scene.bound_to(next, after, ROLE_BOUND);
    (a, b)
}

fn owned_by_role(scene: &mut Scene) -> (usize, usize) {
    let (a, b) = (scene.task(), scene.task());
    for _ in 0..scene.chance.between(1, 2) {
        let role = scene.role();
        scene.let_own(role, a);
        scene.let_own(role, b);
    }
    (a, b)
}

/// The subject owns both tasks, but through two roles that have nothing to do with each other.
fn owned_by_subject(scene: &mut Scene) -> (usize, usize) {
    let (a, b) = (scene.task(), scene.task());
    for _ in 0..scene.chance.between(1, 2) {
        let subject = scene.subject();
        for task in [a, b] {
            let role = scene.role();
            scene.let_own(role, task);
            scene.book.roles_of_subject[subject].put(role);
        }
    }
    (a, b)
}

/// Members of the two groups exclude each other, while a and b themselves do not.
fn excluded_groups(scene: &mut Scene, pairs: &[Pair], excluding: Pair) -> (usize, usize) {
    let (a, b) = (scene.task(), scene.task());
    let from_a = scene.chance.below(4);
    let from_b = if from_a == 0 { scene.chance.between(1, 3) } else { scene.chance.below(4) };
    let (of_a, of_b) = (scene.chain(a, from_a, pairs), scene.chain(b, from_b, pairs));
    scene.join(excluding, of_a[from_a], of_b[from_b]);
    if scene.chance.percent(40) {
        let (x, y) = (scene.chance.pick(&of_a), scene.chance.pick(&of_b));
        if (x, y) != (a, b) {
            scene.join(excluding, x, y);
        }
    }
    (a, b)
}

/// What b would gain by the request: task a itself, or a role a that owns a task. Gives a and that task.
fn gain(scene: &mut Scene, kind: u64) -> (usize, usize) {
    let task = scene.task();
    if kind == 8 {
        return (task, task);
    }
    let role = scene.role();
    scene.let_own(role, task);
    (role, task)
}

/// Role b, or a senior of it, owns a task SME to the gained one.
fn gained_by_role(scene: &mut Scene, kind: u64) -> (usize, usize) {
    let (a, gained) = gain(scene, kind);
    let (b, owned) = (scene.role(), scene.task());
    let steps = scene.chance.below(5);
    let senior = scene.role_above(b, steps);
    scene.let_own(senior, owned);
    scene.join(Pair::Sme, owned, gained);
    (a, b)
}

/// A subject that owns role b owns, through another role, a task SME to the gained one.
fn gained_by_subject(scene: &mut Scene, kind: u64) -> (usize, usize) {
    let (a, gained) = gain(scene, kind);
    let (subject, other, owned) = (scene.subject(), scene.role(), scene.task());
    scene.let_own(other, owned);
    scene.book.roles_of_subject[subject].put(other);
    scene.join(Pair::Sme, owned, gained);
    if kind == 10 {
        return (a, subject);
    }
    let b = scene.role();
    let steps = scene.chance.below(4);
    let assigned = scene.role_above(b, steps);
    scene.book.roles_of_subject[subject].put(assigned);
    (a, b)
}

/// Kind 10: a role for a subject that has another one or none. The subject acts in no role, in that other one, or in
/// the very role that it gets, as after a taking back; what both roles own excludes a third task alone.
fn assignment(scene: &mut Scene) -> (usize, usize) {
    let (role, other, subject) = (scene.role(), scene.role(), scene.subject());
    let third = scene.task();
    for owner in [role, other] {
        let owned = scene.task();
        scene.let_own(owner, owned);
        scene.join(Pair::Sme, owned, third);
    }
    if scene.chance.percent(60) {
        scene.book.roles_of_subject[subject].put(other);
    }
    scene.book.active[subject] = scene.chance.pick(&[None, None, Some(other), Some(role)]);
    (role, subject)
}

/// Kind 11: a role that the subject owns through a chain (0) or does not own though it is active (8).
fn activation(scene: &mut Scene, number: u64) -> (usize, usize) {
    let (assigned, subject) = (scene.role(), scene.subject());
    let steps = scene.chance.below(6);
    let below = scene.role_below(assigned, steps);
    if number == 0 {
        scene.book.roles_of_subject[subject].put(assigned);
    } else {
        scene.book.active[subject] = Some(below);
    }
    (below, subject)
}

/// Kind 16: a direct junior (0), or one that is only reached (6).
fn juniors(scene: &mut Scene, number: u64) -> (usize, usize) {
    let b = scene.role();
    let steps = if number == 0 { 1 } else { scene.chance.between(2, 4) };
    let a = scene.role_below(b, steps);
    (a, b)
}

/// Two numbers that have groups, owners and exclusions around them, and no conflict between them.
fn quiet(scene: &mut Scene, kind: u64) -> (usize, usize) {
    let (task, owner, owned, other) = (scene.task(), scene.role(), scene.task(), scene.task());
    let (role, subject) = (scene.role(), scene.subject());
    let steps = scene.chance.below(3);
    scene.bound_to(task, steps, SUBJECT_BOUND);
    scene.join(Pair::Sme, task, other);
    scene.let_own(owner, owned);
    scene.book.roles_of_subject[subject].put(owner);
    match kind {
        4..=7 => (task, owned),
        8 => (owned, role),
        _ => (owner, role),
    }
}

/// An order with a task whose groups are partly in the order, and a subject that may execute all of it.
pub struct Job {
    pub task: usize,
    pub order: usize,
    pub subject: usize,
    pub role: usize,
    /// The subject group of the task in the order.
    pub bound: Vec<usize>,
    /// The role group of the task in the order.
    pub role_bound: Vec<usize>,
    /// The tasks of both groups outside the order.
    pub outside: Vec<usize>,
}

impl Job {
    /// The request to allocate the task.
    pub fn ask(&self) -> Ask {
        (13, self.task as u64, self.order as u64, self.subject as u64)
    }
}

pub fn job(scene: &mut Scene) -> Job {
    let (task, order, subject, role) = (scene.task(), scene.order(), scene.subject(), scene.role());
    let steps = scene.chance.below(4);
    let mut bound = scene.chain(task, steps, SUBJECT_BOUND);
    let last = bound[steps];
    let roles_from = scene.bound_to(last, 1, &[Pair::Rb]);
    let steps = scene.chance.below(4);
    let mut role_bound = bound.clone();
    role_bound.extend(scene.chain(roles_from, steps, ROLE_BOUND));
    // Some tasks of the groups stay outside the order and still carry the chain.
    let outside: Vec<usize> = role_bound.iter().copied().filter(|&t| t != task && scene.chance.percent(30)).collect();
    bound.retain(|t| !outside.contains(t));
    role_bound.retain(|t| !outside.contains(t));
    for &t in &role_bound {
        scene.book.orders[order].put(t);
        scene.let_own(role, t);
    }
    let steps = scene.chance.below(3);
    let assigned = scene.role_above(role, steps);
    scene.book.roles_of_subject[subject].put(assigned);
    scene.book.active[subject] = Some(role);
    if scene.chance.percent(25) {
        role_bound.iter().for_each(|&t| scene.book.cells[order][t].role = Some(role));
    }
    Job { task, order, subject, role, bound, role_bound, outside }
}

/// Kind 13: a job that goes well (0), or one with a single thing wrong.
fn allocation(scene: &mut Scene, number: u64) -> Ask {
    let job = job(scene);
    trouble(scene, &job, number);
    match number {
        4 => wrong_hands(scene, job),
        _ => job.ask(),
    }
}

/// Lays the trouble that a number speaks of about a job.
pub fn trouble(scene: &mut Scene, job: &Job, number: u64) {
    match number {
        0 => {
            hold_harmless(scene, job);
            hold_harmless_elsewhere(scene, job);
        }
        8 => lose_the_role(scene, job),
        9 => {
            let role = scene.book.cells[job.order][job.task].role.unwrap_or(job.role);
            let other = scene.subject();
            let subject = scene.chance.pick(&[other, job.subject]);
            scene.book.cells[job.order][job.task] = Cell { role: Some(role), subject: Some(subject) };
        }
        10 => {
            let role = scene.role();
            scene.book.cells[job.order][job.task].role = Some(role);
        }
        11 => {
            for _ in 0..scene.chance.between(1, 2) {
                let t = scene.chance.pick(&job.role_bound);
                scene.book.tasks_of_role.iter_mut().for_each(|row| row.take(t));
            }
        }
        33 if scene.chance.percent(30) => hold_excluding(scene, job, Pair::Sme),
        33 => hold_in_several_orders(scene, job),
        34 => {
            hold_excluding(scene, job, Pair::Dme);
            hold_harmless_elsewhere(scene, job);
        }
        _ => {}
    }
}

/// A task that is not in the order, and perhaps a subject that is not defined.
fn wrong_hands(scene: &mut Scene, job: Job) -> Ask {
    let (task, subject) = (scene.task(), scene.subject());
    if scene.chance.percent(50) {
        scene.book.subjects.take(subject);
        scene.book.active[subject] = None;
    }
    (13, task as u64, job.order as u64, subject as u64)
}

/// The subject holds a task that excludes only what it would not get: tasks outside the order,
/// or those that are bound to the task by their role alone.
fn hold_harmless(scene: &mut Scene, job: &Job) {
    let by_role_alone = job.role_bound.iter().filter(|t| !job.bound.contains(t));
    let mut harmless: Vec<usize> = by_role_alone.chain(&job.outside).copied().collect();
    if !job.outside.is_empty() && scene.chance.percent(60) {
        harmless = job.outside.clone();
    }
    if harmless.is_empty() || scene.chance.percent(30) {
        return;
    }
    let (held, y, pair) = (scene.task(), scene.chance.pick(&harmless), scene.chance.pick(&[Pair::Sme, Pair::Dme]));
    scene.join(pair, held, y);
    hold(scene, job, job.order, held);
}

/// The subject acts in no role, or in one that it does not own now. It has the roles that it had, another one or none.
fn lose_the_role(scene: &mut Scene, job: &Job) {
    let acts_in_none = scene.chance.percent(60);
    if acts_in_none {
        scene.book.active[job.subject] = None;
    }
    // Roles assigned and none activated is how every subject begins.
    if acts_in_none && scene.chance.percent(60) {
        return;
    }
    scene.book.roles_of_subject[job.subject] = Set::empty();
    if scene.chance.percent(50) {
        let other = scene.role();
        scene.book.roles_of_subject[job.subject].put(other);
    }
}

/// The subject holds one or two tasks of the order that exclude tasks of the group. Now and then it
/// is a task of the group itself, which only an unsound book shows.
pub fn hold_excluding(scene: &mut Scene, job: &Job, pair: Pair) {
    for _ in 0..scene.chance.between(1, 2) {
        let (new, member) = (scene.task(), scene.chance.pick(&job.bound));
        let held = if member != job.task && scene.chance.percent(40) { member } else { new };
        let y = if held == member && scene.chance.percent(50) { held } else { scene.chance.pick(&job.bound) };
        scene.join(pair, held, y);
        hold(scene, job, job.order, held);
        if pair == Pair::Sme && scene.chance.percent(40) {
            hold_excluding(scene, job, Pair::Dme);
        }
    }
}
