//! Sound books with one rule of the audit broken, or nearly so, and nothing else wrong with them.

use super::scene::{Pair, Scene};
use crate::book::Cell;

/// Breaks rule n on new numbers, so that the rest of the book stays as sound as it was.
pub fn break_rule(scene: &mut Scene, rule: u64) {
    let (u, v) = (scene.task(), scene.task());
    match rule {
        1 => {
            let pair = scene.chance.pick(&Pair::ALL);
            scene.table(pair)[u].put(u);
        }
        2 => {
            let pair = scene.chance.pick(&Pair::ALL);
            scene.table(pair)[u].put(v);
        }
        3 => {
            scene.join(Pair::Sme, u, v);
            scene.join(Pair::Dme, u, v);
        }
        4 => exclude_in_group(scene, u, &[Pair::Sb, Pair::Rb], Pair::Sme),
        5 => exclude_in_group(scene, u, &[Pair::Sb], Pair::Dme),
        6 => close_a_ring(scene),
        7 => give_role_a_pair(scene, u, v),
        8 => give_subject_a_pair(scene, u, v),
        9 => give_both_to_one(scene, u, v),
        _ => part_a_group(scene, u),
    }
}

fn exclude_in_group(scene: &mut Scene, u: usize, bound: &[Pair], excluding: Pair) {
    let steps = scene.chance.between(1, 5);
    let v = scene.bound_to(u, steps, bound);
    scene.join(excluding, u, v);
}

fn close_a_ring(scene: &mut Scene) {
    let top = scene.role();
    let steps = scene.chance.below(8);
    let bottom = scene.role_below(top, steps);
    scene.book.juniors[bottom].put(top);
}

fn give_role_a_pair(scene: &mut Scene, u: usize, v: usize) {
    let role = scene.role();
    scene.let_own(role, u);
    scene.let_own(role, v);
    scene.join(Pair::Sme, u, v);
}

fn give_subject_a_pair(scene: &mut Scene, u: usize, v: usize) {
    let subject = scene.subject();
    for task in [u, v] {
        let role = scene.role();
        scene.let_own(role, task);
        scene.book.roles_of_subject[subject].put(role);
    }
    scene.join(Pair::Sme, u, v);
}

/// Both tasks of a pair in one hand: in one order, or of an SME pair in two orders, the second now and then twice.
fn give_both_to_one(scene: &mut Scene, u: usize, v: usize) {
    let subject = scene.subject();
    let (one, other, third) = (scene.order(), scene.order(), scene.order());
    let (pair, orders_of_v) = match scene.chance.below(7) {
        0 | 1 => (Pair::Sme, vec![one]),
        2 => (Pair::Dme, vec![one]),
        3 => (Pair::Sme, vec![other, third]),
        _ => (Pair::Sme, vec![other]),
    };
    scene.join(pair, u, v);
    give(scene, one, u, Some(subject));
    orders_of_v.into_iter().for_each(|order| give(scene, order, v, Some(subject)));
    match scene.chance.below(10) {
        0..=2 => nearly_break_rule_9(scene),
        // Rule 10 is broken too, and must not be told.
        3 | 4 => {
            let first = scene.task();
            part_a_group(scene, first);
        }
        _ => {}
    }
}

/// The order has the task, in some role, and in the hand of this subject or of nobody.
fn give(scene: &mut Scene, order: usize, task: usize, subject: Option<usize>) {
    let role = scene.role();
    scene.book.orders[order].put(task);
    scene.book.cells[order][task] = Cell { role: Some(role), subject };
}

/// Rule 9 is kept, though one who takes DME for SME, one hand for another or nobody for somebody would say it is not:
/// a DME pair in one hand over two orders, an SME pair in two hands, or with one of its tasks in nobody's.
pub fn nearly_break_rule_9(scene: &mut Scene) {
    let (u, v, one, other) = (scene.task(), scene.task(), scene.order(), scene.order());
    let (subject, second) = (Some(scene.subject()), Some(scene.subject()));
    let (pair, of_u, of_v) = match scene.chance.below(5) {
        0..=2 => (Pair::Dme, subject, subject),
        3 => (Pair::Sme, subject, second),
        _ => (Pair::Sme, None, scene.chance.pick(&[None, subject])),
    };
    scene.join(pair, u, v);
    give(scene, one, u, of_u);
    give(scene, other, v, of_v);
}

/// The two ends of a chain lie in one order with different hands; the tasks between them need not.
fn part_a_group(scene: &mut Scene, u: usize) {
    let (order, role, other) = (scene.order(), scene.role(), scene.role());
    let (subject, second) = (scene.subject(), scene.subject());
    let (steps, by_subject) = (scene.chance.between(1, 5), scene.chance.percent(50));
    let bound: &[Pair] = if by_subject { &[Pair::Sb] } else { &[Pair::Sb, Pair::Rb] };
    let v = scene.bound_to(u, steps, bound);
    let some = Cell { role: Some(role), subject: Some(subject) };
    let cells = match (by_subject, scene.chance.below(3)) {
        (true, 0) => [some, Cell { role: Some(role), subject: Some(second) }],
        (true, _) => [Cell { role: Some(role), subject: None }, some],
        (false, 0) => [some, Cell { role: Some(other), subject: Some(subject) }],
        (false, _) => [Cell { role: None, subject: None }, Cell { role: Some(other), subject: None }],
    };
    for (task, cell) in [(u, cells[0]), (v, cells[1])] {
        scene.book.orders[order].put(task);
        scene.book.cells[order][task] = cell;
    }
}
