//! One pair of hands in several orders (M-104): SME counts over all open orders together, DME inside one of them.

use super::asks::Ask;
use super::chance::Chance;
use super::scene::{Pair, Scene};
use super::situations::{hold_excluding, job, Job};
use crate::book::{Book, Cell};
use crate::trade::{subject_group, tasks_owned_by_role};

/// Number 33: in one to three orders the subject holds one to three tasks that are SME to something it would get, so that
/// the lowest order, then the lowest task and its lowest partner have to be found. Often there is a 34 besides.
pub fn hold_in_several_orders(scene: &mut Scene, job: &Job) {
    for order in some_orders(scene, job) {
        for _ in 0..scene.chance.between(1, 3) {
            let held = some_task_to_hold(scene, job, order);
            for _ in 0..scene.chance.between(1, 3) {
                let y = scene.chance.pick(&job.bound);
                scene.join(Pair::Sme, held, y);
                // Both in one row, now and then, which only an unsound book has.
                if scene.chance.percent(10) {
                    scene.join(Pair::Dme, held, y);
                }
            }
            if scene.chance.percent(40) {
                join_outside(scene, job, order, held);
            }
            hold(scene, job, order, held);
        }
    }
    if scene.chance.percent(35) {
        hold_excluding(scene, job, Pair::Dme);
    }
}

/// Orders below that of the job, above it, and that one itself, alone or together.
fn some_orders(scene: &mut Scene, job: &Job) -> Vec<usize> {
    let (here, below, above) = (job.order, scene.order_below(job.order), scene.order_above(job.order));
    // The lowest is told, so that what lies above shows only where nothing lies below.
    match scene.chance.below(9) {
        0 => vec![below],
        1 | 2 => vec![above],
        3 => vec![above, scene.order_above(job.order)],
        4 => vec![below, scene.order_below(job.order)],
        5 => vec![below, here],
        6 => vec![above, here],
        7 => vec![above, below],
        _ => vec![above, here, below],
    }
}

/// A new task, one that the job's order has too, in other hands or none, or one of the job's own group. The last only
/// an unsound book shows, and in the job's order it is never the task itself, which would be told by number 9.
fn some_task_to_hold(scene: &mut Scene, job: &Job, order: usize) -> usize {
    let (new, member) = (scene.task(), scene.chance.pick(&job.bound));
    match scene.chance.below(10) {
        0 | 1 if order != job.order || member != job.task => return member,
        1..=3 => {
            let other = scene.subject();
            let subject = scene.chance.pick(&[None, Some(other)]);
            scene.book.orders[job.order].put(new);
            scene.book.cells[job.order][new] = Cell { role: Some(job.role), subject };
        }
        _ => {}
    }
    new
}

/// The task is SME to one of the job's subject group that the job's order has not: that one does not count, though it
/// may be the lowest, and though the order in which the task is held may have it.
fn join_outside(scene: &mut Scene, job: &Job, order: usize, held: usize) {
    let group = subject_group(&scene.book, job.task);
    let outside: Vec<usize> = group.members().filter(|&t| !scene.book.orders[job.order].has(t)).collect();
    let y = if outside.is_empty() || scene.chance.percent(30) {
        let member = scene.chance.pick(&job.bound);
        scene.bound_to(member, 1, &[Pair::Sb])
    } else {
        scene.chance.pick(&outside)
    };
    scene.join(Pair::Sme, held, y);
    if order != job.order && scene.chance.percent(50) {
        scene.book.orders[order].put(y);
    }
}

/// The subject of the job has the task in the order, in the role in which it acts now or in another.
pub fn hold(scene: &mut Scene, job: &Job, order: usize, held: usize) {
    let earlier = scene.role();
    let role = scene.chance.pick(&[job.role, earlier]);
    scene.book.orders[order].put(held);
    scene.book.cells[order][held] = Cell { role: Some(role), subject: Some(job.subject) };
}

/// What looks like a 33 over another order, and is none; each of it laid now and then.
pub fn hold_harmless_elsewhere(scene: &mut Scene, job: &Job) {
    for way in 0..6 {
        if scene.chance.percent(35) {
            let order =
                if scene.chance.percent(60) { scene.order_below(job.order) } else { scene.order_above(job.order) };
            let (held, y) = (scene.task(), scene.chance.pick(&job.bound));
            harmless(scene, job, [order, held, y], way);
        }
    }
}

fn harmless(scene: &mut Scene, job: &Job, [order, held, y]: [usize; 3], way: usize) {
    match way {
        // DME counts inside the job's order alone.
        0 | 1 => scene.join(Pair::Dme, held, y),
        2 => join_outside(scene, job, order, held),
        // The row of what would be got, and not the row of what is held; an unsound book.
        3 if scene.one_way || scene.chance.percent(40) => scene.table(Pair::Sme)[y].put(held),
        // A task that is bound to the job's by its role alone.
        4 => {
            let by_role_alone: Vec<usize> = job.role_bound.iter().copied().filter(|t| !job.bound.contains(t)).collect();
            if !by_role_alone.is_empty() {
                let y = scene.chance.pick(&by_role_alone);
                scene.join(Pair::Sme, held, y);
            }
        }
        // Somebody else holds it, or it has a role and no hand yet.
        5 => {
            let other = scene.subject();
            let subject = scene.chance.pick(&[None, Some(other)]);
            scene.join(Pair::Sme, held, y);
            scene.book.orders[order].put(held);
            scene.book.cells[order][held] = Cell { role: Some(job.role), subject };
            return;
        }
        _ => {}
    }
    hold(scene, job, order, held);
}

/// A job that is refused because of what its subject holds in several orders. They are closed one after the other, and
/// the job is asked again after each: a closed order holds nothing.
pub fn closed_one_by_one(scene: &mut Scene) -> Vec<Ask> {
    let job = job(scene);
    (0..scene.chance.between(1, 2)).for_each(|_| hold_in_several_orders(scene, &job));
    hold_harmless_elsewhere(scene, &job);
    let holds_in = |p: &usize| scene.book.cells[*p].iter().any(|cell| cell.subject == Some(job.subject));
    let mut others: Vec<usize> = (0..64).filter(|&p| p != job.order).filter(holds_in).collect();
    if scene.chance.percent(30) {
        others.reverse();
    }
    let mut asks = vec![job.ask()];
    for order in others {
        asks.extend([(14, order as u64, 0, 0), job.ask()]);
    }
    asks
}

/// Several people at several orders with the same tasks, each in a role that owns all of them or only some. Pairs and
/// hands are laid at will, so the book is rarely sound; then everybody is asked to take this and that.
pub fn many_hands(scene: &mut Scene) -> Vec<Ask> {
    let tasks: Vec<usize> = (0..scene.chance.between(3, 6)).map(|_| scene.task()).collect();
    let subjects: Vec<usize> = (0..scene.chance.between(2, 3)).map(|_| scene.subject()).collect();
    let orders: Vec<usize> = (0..scene.chance.between(2, 4)).map(|_| scene.order()).collect();
    for _ in 0..scene.chance.between(2, 4) {
        let (u, v) = (scene.chance.pick(&tasks), scene.chance.pick(&tasks));
        let pair = scene.chance.pick(&[Pair::Sme, Pair::Sme, Pair::Sme, Pair::Dme, Pair::Sb]);
        if u != v {
            scene.join(pair, u, v);
        }
    }
    for &subject in &subjects {
        let (role, share) = (scene.role(), scene.chance.pick(&[600, 1000, 1000]));
        scene.book.tasks_of_role[role] = scene.chance.part_of(&tasks, share);
        scene.book.roles_of_subject[subject].put(role);
        scene.book.active[subject] = Some(role);
    }
    for &order in &orders {
        let of_order = scene.chance.part_of(&tasks, 800);
        scene.book.orders[order] = scene.book.orders[order].or(&of_order);
        let subject = scene.chance.pick(&subjects);
        for t in scene.chance.part_of(&tasks, 400).and(&of_order).members() {
            scene.book.cells[order][t] = Cell { role: scene.book.active[subject], subject: Some(subject) };
        }
    }
    let some = |chance: &mut Chance, list: &[usize]| chance.pick(list) as u64;
    let take = |_| (13, some(scene.chance, &tasks), some(scene.chance, &orders), some(scene.chance, &subjects));
    (0..8).map(take).collect()
}

/// Somebody who holds a task gives back his roles, takes up one that owns a task SME to it, and is asked to do that in
/// an open order in which nobody has it yet. Nothing where nobody can change so. The book may well be sound: what
/// people own is looked at now, and what they hold stays.
pub fn change_of_trade(chance: &mut Chance, book: &Book) -> Vec<Ask> {
    let open: Vec<usize> = (0..64).filter(|&p| book.is_open(p)).collect();
    let mut changes = Vec::new();
    for (&p, x) in open.iter().flat_map(|p| book.orders[*p].members().map(move |x| (p, x))) {
        let partners: Vec<usize> = book.sme[x].members().collect();
        for (&q, &y) in open.iter().flat_map(|q| partners.iter().map(move |y| (q, y))) {
            let is_free = book.orders[q].has(y) && book.cells[q][y].subject.is_none();
            if let Some(subject) = book.cells[p][x].subject.filter(|_| is_free) {
                changes.push((subject, y, q));
            }
        }
    }
    if changes.is_empty() {
        return Vec::new();
    }
    let (subject, y, q) = chance.pick(&changes);
    let owners: Vec<usize> = book.roles.members().filter(|&r| tasks_owned_by_role(book, r).has(y)).collect();
    if owners.is_empty() {
        return Vec::new();
    }
    let (role, subject) = (chance.pick(&owners) as u64, subject as u64);
    let given_back = book.roles_of_subject[subject as usize].members().map(|r| (17, r as u64, subject, 0));
    given_back.chain([(10, role, subject, 0), (11, role, subject, 0), (13, y as u64, q as u64, subject)]).collect()
}
