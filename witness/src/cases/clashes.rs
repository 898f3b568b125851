//! The whole clash (M-105): owners of several tasks that are SME to what they would gain, and much about them that must
//! not be in the mask.

use super::asks::Ask;
use super::scene::{Pair, Scene};

/// What is gained: the tasks of role a, the first of which is also gained by itself. Where the scene is to stay sound,
/// nothing is laid that breaks a rule.
struct Gain {
    tasks: Vec<usize>,
    stays_sound: bool,
}

impl Gain {
    /// Mostly the first, so that it matters to kind 8 as well.
    fn some(&self, scene: &mut Scene) -> usize {
        if scene.chance.percent(75) {
            return self.tasks[0];
        }
        scene.chance.pick(&self.tasks)
    }
}

/// Seniors of role b clash with what is gained, so that kinds 8 and 9 are told 31.
pub fn clash_of_roles(scene: &mut Scene) -> Vec<Ask> {
    whole_clash(scene, true)
}

/// Subjects that own role b do so by another role, so that 32 is told.
pub fn clash_of_subjects(scene: &mut Scene) -> Vec<Ask> {
    whole_clash(scene, false)
}

/// Role a with what it brings, and three subjects that own role b, two of which clash; and often somebody does who has
/// nothing to do with b. Then one or two pairs of SME are taken back, and all is asked again: a mask has a task less, or
/// x is another.
fn whole_clash(scene: &mut Scene, of_roles: bool) -> Vec<Ask> {
    let (a, b) = (scene.role(), scene.role());
    let gain = some_gain(scene, a);
    let (mut subjects, mut clash) = (Vec::new(), Vec::new());
    for clashes in [true, true, false] {
        let steps = scene.chance.below(3);
        let (senior, other, subject) = (scene.role_above(b, steps), scene.role(), scene.subject());
        [senior, other].into_iter().for_each(|role| scene.book.roles_of_subject[subject].put(role));
        if clashes {
            clash.extend(own_clash(scene, if of_roles { senior } else { other }, &gain));
            subjects.push(subject);
        }
    }
    if scene.chance.percent(70) {
        let (role, subject) = (scene.role(), scene.subject());
        scene.book.roles_of_subject[subject].put(role);
        own_clash(scene, role, &gain);
    }
    let (task, subject) = (gain.tasks[0] as u64, scene.chance.pick(&subjects) as u64);
    let mut asks = vec![(8, task, b as u64, 0), (9, a as u64, b as u64, 0), (10, a as u64, subject, 0)];
    let again = asks.clone();
    for _ in 0..scene.chance.between(1, 2) {
        asks.push((18, scene.chance.pick(&clash) as u64, task, 0));
    }
    asks.extend(again);
    asks
}

/// One to four tasks for role a. They may exclude each other, or the first one itself, which only an unsound book has.
fn some_gain(scene: &mut Scene, a: usize) -> Gain {
    let tasks: Vec<usize> = (0..scene.chance.between(1, 4)).map(|_| scene.task()).collect();
    tasks.iter().for_each(|&task| scene.let_own(a, task));
    let gain = Gain { tasks, stays_sound: !scene.one_way && scene.chance.percent(70) };
    if !gain.stays_sound && scene.chance.percent(50) {
        let (u, v) = (gain.some(scene), gain.tasks[0]);
        scene.table(Pair::Sme)[u].put(v);
    }
    gain
}

/// The role owns one or several tasks that are SME to what is gained, now and then nine and more, by itself or through
/// a role below it, and others besides. Gives those that are SME.
fn own_clash(scene: &mut Scene, role: usize, gain: &Gain) -> Vec<usize> {
    let steps = scene.chance.between(1, 3);
    let holders = [role, scene.role_below(role, steps)];
    let mut clash = Vec::new();
    for place in 0..scene.chance.pick(&[1, 2, 2, 3, 11, 13]) {
        let owned = if place == 0 && scene.chance.percent(40) { scene.highest_task() } else { scene.task() };
        let gained = gain.some(scene);
        scene.join(Pair::Sme, owned, gained);
        clash.push(owned);
    }
    let mut all_owned = clash.clone();
    // The last two ways only an unsound book shows.
    for way in 0..if gain.stays_sound { 2 } else { 4 } {
        if scene.chance.percent(50) {
            all_owned.push(owned_besides(scene, gain, way));
        }
    }
    for owned in all_owned {
        let holder = scene.chance.pick(&holders);
        scene.book.tasks_of_role[holder].put(owned);
    }
    clash
}

/// Another task to own. It is in the mask only where it is gained as well and excludes what is gained.
fn owned_besides(scene: &mut Scene, gain: &Gain, way: usize) -> usize {
    let (owned, third, gained) = (scene.task(), scene.task(), gain.some(scene));
    match way {
        // SME to a task that nobody gains, or DME alone to one that is gained.
        0 => scene.join(Pair::Sme, owned, third),
        1 => scene.join(Pair::Dme, owned, gained),
        // The row of what is gained, and not the row of what is owned.
        2 => scene.table(Pair::Sme)[gained].put(owned),
        // What is gained is owned already, though something owned is SME to it.
        _ => return gained,
    }
    owned
}
