//! Several troubles at once, so that the order of the numbers and the lowest x and y show.

use super::asks::Ask;
use super::scene::{Pair, Scene};
use super::situations::{job, trouble};

const SUBJECT_BOUND: &[Pair] = &[Pair::Sb];
const ROLE_BOUND: &[Pair] = &[Pair::Sb, Pair::Rb];

/// A pair of tasks with any of the conflicts 21 to 28 about it. Each kind of pair is then added, then each is taken
/// back, and the first is added again: it may still meet a conflict with what stands around.
pub fn crowded_pair(scene: &mut Scene) -> Vec<Ask> {
    let (a, b) = (scene.task(), scene.task());
    for _ in 0..scene.chance.pick(&[1, 2, 2, 3]) {
        let trouble = scene.chance.pick(&[0, 0, 1, 1, 2, 2, 3, 4, 5, 5, 6, 7]);
        trouble_of_pair(scene, a, b, trouble);
    }
    let (a, b) = (a as u64, b as u64);
    let mut either_way = |kind| if scene.chance.percent(50) { (kind, b, a, 0) } else { (kind, a, b, 0) };
    let mut asks: Vec<Ask> = (4..=7).map(&mut either_way).collect();
    let taken_back: Vec<Ask> = (18..=21).map(either_way).collect();
    let first = scene.chance.below(4);
    asks.rotate_left(first);
    let again = asks[0];
    asks.extend(taken_back);
    asks.push(again);
    asks
}

fn trouble_of_pair(scene: &mut Scene, a: usize, b: usize, trouble: usize) {
    let steps = scene.chance.between(1, 4);
    match trouble {
        0 => scene.join(Pair::Sme, a, b),
        1 => scene.join(Pair::Dme, a, b),
        2 => scene.link(a, b, steps, SUBJECT_BOUND),
        3 => scene.link(a, b, steps, ROLE_BOUND),
        4 => (0..2).for_each(|_| own_by_role(scene, a, b)),
        5 => (0..2).for_each(|_| own_by_subject(scene, a, b)),
        6 => exclude_groups(scene, a, b, ROLE_BOUND, Pair::Sme),
        _ => exclude_groups(scene, a, b, SUBJECT_BOUND, Pair::Dme),
    }
}

fn own_by_role(scene: &mut Scene, a: usize, b: usize) {
    let role = scene.role();
    scene.let_own(role, a);
    scene.let_own(role, b);
}

fn own_by_subject(scene: &mut Scene, a: usize, b: usize) {
    let (subject, one, other) = (scene.subject(), scene.role(), scene.role());
    scene.let_own(one, a);
    scene.let_own(other, b);
    scene.book.roles_of_subject[subject].put(one);
    scene.book.roles_of_subject[subject].put(other);
}

/// Two or three exclusions between the two groups, so that the lowest has to be found.
fn exclude_groups(scene: &mut Scene, a: usize, b: usize, bound: &[Pair], excluding: Pair) {
    let (from_a, from_b) = (scene.chance.between(1, 3), scene.chance.between(1, 3));
    let (of_a, of_b) = (scene.chain(a, from_a, bound), scene.chain(b, from_b, bound));
    for _ in 0..scene.chance.between(2, 3) {
        let (x, y) = (scene.chance.pick(&of_a), scene.chance.pick(&of_b));
        if (x, y) != (a, b) {
            scene.join(excluding, x, y);
        }
    }
}

/// A task, two roles and a subject about which gaining may go wrong in several ways.
pub fn crowded_gain(scene: &mut Scene) -> Vec<Ask> {
    let (gained, a, b, subject) = (scene.task(), scene.role(), scene.role(), scene.subject());
    scene.let_own(a, gained);
    let steps = scene.chance.below(3);
    let assigned = scene.role_above(b, steps);
    scene.book.roles_of_subject[subject].put(assigned);
    for trouble in 0..6 {
        if scene.chance.percent(35) {
            trouble_of_gain(scene, [gained, a, b, subject], trouble);
        }
    }
    let (gained, a, b, subject) = (gained as u64, a as u64, b as u64, subject as u64);
    let mut asks = vec![(9, a, b, 0), (8, gained, b, 0), (10, a, subject, 0), (9, b, a, 0), (9, b, b, 0)];
    let first = scene.chance.below(4);
    asks.rotate_left(first);
    asks
}

fn trouble_of_gain(scene: &mut Scene, [gained, a, b, subject]: [usize; 4], trouble: usize) {
    match trouble {
        // a reaches b already.
        0 => {
            let steps = scene.chance.below(3);
            let last = scene.role_below(a, steps);
            scene.book.juniors[last].put(b);
        }
        // A role is its own junior.
        1 => {
            let role = scene.chance.pick(&[a, b]);
            scene.book.juniors[role].put(role);
        }
        // Role b, or a senior of it, owns something SME to the gained task; twice over.
        2 | 3 => {
            let steps = scene.chance.below(4);
            let senior = scene.role_above(b, steps);
            (0..2).for_each(|_| own_excluding(scene, senior, gained));
        }
        // The subject does so through another role.
        4 => {
            let other = scene.role();
            scene.book.roles_of_subject[subject].put(other);
            (0..2).for_each(|_| own_excluding(scene, other, gained));
        }
        // Some other subject does.
        _ => {
            let (other, role) = (scene.subject(), scene.role());
            scene.book.roles_of_subject[other].put(role);
            scene.book.roles_of_subject[other].put(b);
            own_excluding(scene, role, gained);
        }
    }
}

fn own_excluding(scene: &mut Scene, role: usize, gained: usize) {
    let owned = scene.task();
    scene.let_own(role, owned);
    scene.join(Pair::Sme, owned, gained);
}

/// A new hand at a job: a role is assigned, activated, taken back and assigned again, another one besides, and after
/// each step the subject is asked to work. Now and then a step is left out.
pub fn new_hand(scene: &mut Scene) -> Vec<Ask> {
    let job = job(scene);
    let assigned = scene.book.roles_of_subject[job.subject].members().next().unwrap_or(job.role);
    scene.book.roles_of_subject[job.subject].take(assigned);
    scene.book.active[job.subject] = None;
    let (role, assigned, other) = (job.role as u64, assigned as u64, scene.role() as u64);
    let subject = job.subject as u64;
    let mut asks = vec![job.ask()];
    for (kind, role) in [(10, assigned), (11, role), (17, assigned), (10, other), (10, assigned), (11, other)] {
        if scene.chance.percent(85) {
            let task = scene.chance.pick(&job.role_bound) as u64;
            asks.extend([(kind, role, subject, 0), (13, task, job.order as u64, subject)]);
        }
    }
    asks
}

/// An allocation with any of the troubles 8 to 34 about it.
pub fn crowded_job(scene: &mut Scene) -> Vec<Ask> {
    let job = job(scene);
    for number in [8, 9, 10, 11, 33, 34] {
        if scene.chance.percent(30) {
            trouble(scene, &job, number);
        }
    }
    let mut asks = vec![job.ask()];
    for &t in &job.role_bound {
        asks.push((13, t as u64, job.order as u64, job.subject as u64));
    }
    asks.truncate(4);
    asks
}
