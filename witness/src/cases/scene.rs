//! A scene: a book with a small situation laid into it, on numbers that nothing else uses.

use super::chance::Chance;
use crate::book::{Book, Table};

/// The four pair tables.
#[derive(Clone, Copy, PartialEq, Eq)]
pub enum Pair {
    Sme,
    Dme,
    Rb,
    Sb,
}

impl Pair {
    pub const ALL: [Pair; 4] = [Pair::Sme, Pair::Dme, Pair::Rb, Pair::Sb];
}

/// A book under construction, with the numbers that are still free in it.
pub struct Scene<'a> {
    pub chance: &'a mut Chance,
    pub book: Book,
    /// Where set, pairs are laid in one direction only; that is well-formed but not sound.
    pub one_way: bool,
    free_tasks: Vec<usize>,
    free_roles: Vec<usize>,
    free_subjects: Vec<usize>,
    free_orders: Vec<usize>,
}

impl<'a> Scene<'a> {
    pub fn over(chance: &'a mut Chance, book: Book, one_way: bool) -> Scene<'a> {
        let mut free = |used: &dyn Fn(usize) -> bool| {
            let numbers = chance.shuffled();
            numbers.into_iter().filter(|&n| !used(n)).collect::<Vec<usize>>()
        };
        let free_tasks = free(&|t| book.tasks.has(t));
        let free_roles = free(&|r| book.roles.has(r));
        let free_subjects = free(&|s| book.subjects.has(s));
        let free_orders = free(&|p| book.is_open(p));
        Scene { chance, book, one_way, free_tasks, free_roles, free_subjects, free_orders }
    }

    /// A new task; in a full book some task.
    pub fn task(&mut self) -> usize {
        let t = self.free_tasks.pop().unwrap_or_else(|| self.chance.below(64));
        self.book.tasks.put(t);
        t
    }

    /// Task 63 where it is still free, else a new task.
    pub fn highest_task(&mut self) -> usize {
        if let Some(place) = self.free_tasks.iter().position(|&t| t == 63) {
            let last = self.free_tasks.len() - 1;
            self.free_tasks.swap(place, last);
        }
        self.task()
    }

    pub fn role(&mut self) -> usize {
        let r = self.free_roles.pop().unwrap_or_else(|| self.chance.below(64));
        self.book.roles.put(r);
        r
    }

    pub fn subject(&mut self) -> usize {
        let s = self.free_subjects.pop().unwrap_or_else(|| self.chance.below(64));
        self.book.subjects.put(s);
        s
    }

    /// The number of an order that is not open.
    pub fn order(&mut self) -> usize {
        self.free_orders.pop().unwrap_or_else(|| self.chance.below(64))
    }

    /// The same, below the given order where there is one.
    pub fn order_below(&mut self, order: usize) -> usize {
        self.order_that(|p| p < order)
    }

    /// The same, above the given order where there is one.
    pub fn order_above(&mut self, order: usize) -> usize {
        self.order_that(|p| p > order)
    }

    fn order_that(&mut self, fits: impl Fn(usize) -> bool) -> usize {
        match self.free_orders.iter().position(|&p| fits(p)) {
            Some(place) => self.free_orders.remove(place),
            None => self.order(),
        }
    }

    pub fn table(&mut self, pair: Pair) -> &mut Table {
        match pair {
            Pair::Sme => &mut self.book.sme,
            Pair::Dme => &mut self.book.dme,
            Pair::Rb => &mut self.book.rb,
            Pair::Sb => &mut self.book.sb,
        }
    }

    /// Puts v in u's row, and u in v's unless the scene is one-way.
    pub fn join(&mut self, pair: Pair, u: usize, v: usize) {
        let both = !self.one_way;
        self.table(pair)[u].put(v);
        if both {
            self.table(pair)[v].put(u);
        }
    }

    /// A chain of new tasks from the given one, each step by one of the pair tables named.
    /// Gives the tasks of the chain, the given one first.
    pub fn chain(&mut self, from: usize, steps: usize, pairs: &[Pair]) -> Vec<usize> {
        let mut tasks = vec![from];
        for step in 0..steps {
            let next = self.task();
            let pair = self.chance.pick(pairs);
            self.join(pair, tasks[step], next);
            tasks.push(next);
        }
        tasks
    }

    /// The last of a chain of so many steps.
    pub fn bound_to(&mut self, from: usize, steps: usize, pairs: &[Pair]) -> usize {
        self.chain(from, steps, pairs)[steps]
    }

    /// A chain of so many steps from one task to another.
    pub fn link(&mut self, from: usize, to: usize, steps: usize, pairs: &[Pair]) {
        let last = self.bound_to(from, steps - 1, pairs);
        let pair = self.chance.pick(pairs);
        self.join(pair, last, to);
    }

    /// A role so many junior steps below the given one.
    pub fn role_below(&mut self, mut role: usize, steps: usize) -> usize {
        for _ in 0..steps {
            let next = self.role();
            self.book.juniors[role].put(next);
            role = next;
        }
        role
    }

    /// A role so many junior steps above the given one.
    pub fn role_above(&mut self, mut role: usize, steps: usize) -> usize {
        for _ in 0..steps {
            let next = self.role();
            self.book.juniors[next].put(role);
            role = next;
        }
        role
    }

    /// Lets the role own the task: directly, or through a role below it.
    pub fn let_own(&mut self, role: usize, task: usize) {
        let steps = self.chance.pick(&[0, 0, 1, 2, 3]);
        let holder = self.role_below(role, steps);
        self.book.tasks_of_role[holder].put(task);
    }
}
