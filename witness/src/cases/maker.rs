//! The maker of cases: each round holds some of everything, so that a short stream has it all too.

use super::asks::{extreme, likely, spoiled, strange_kind, Ask, Floor};
use super::books::{full, longest, small};
use super::broken::{break_rule, nearly_break_rule_9};
use super::chance::Chance;
use super::clashes::{clash_of_roles, clash_of_subjects};
use super::crowds::{crowded_gain, crowded_job, crowded_pair, new_hand};
use super::damage::{damage, WAYS};
use super::foremen::{small_cell, taking_back, two_orders};
use super::hands::{change_of_trade, closed_one_by_one, many_hands};
use super::scene::Scene;
use super::sheet::Sheet;
use super::situations::{lay, AIMS};
use crate::book::{Book, WORDS};
use crate::request::LAST_KIND;

/// Kinds for the time in which a cell of machines is set up, and for the time in which orders run.
const SETTING_UP: &[u64] =
    &[1, 2, 3, 4, 4, 4, 5, 5, 5, 6, 6, 6, 7, 7, 7, 8, 8, 8, 8, 9, 9, 10, 10, 10, 11, 15, 16, 17, 18, 19, 20, 21];
const RUNNING: &[u64] =
    &[4, 5, 6, 7, 8, 9, 10, 10, 11, 11, 12, 12, 13, 13, 13, 13, 13, 13, 13, 13, 13, 14, 15, 16, 17, 18, 19, 20, 21];

/// How many sound books are kept for later rounds.
const KEPT: usize = 12;

/// Makes cases, round by round.
pub struct Maker {
    chance: Chance,
    sheet: Sheet,
    /// Books reached from the blank one.
    sound: Vec<Book>,
    rounds: usize,
}

impl Maker {
    pub fn new(seed: u64) -> Maker {
        Maker { chance: Chance::new(seed), sheet: Sheet::new(), sound: Vec::new(), rounds: 0 }
    }

    /// How many requests have been written.
    pub fn requests(&self) -> u64 {
        self.sheet.requests
    }

    /// The text written since the last time.
    pub fn take_text(&mut self) -> String {
        std::mem::take(&mut self.sheet.text)
    }

    /// One round: some cases of every sort.
    pub fn round(&mut self) {
        self.run_from_blank();
        self.run_of_many_orders();
        for _ in 0..3 {
            let book = small(&mut self.chance);
            self.hand_made(book, 25);
        }
        AIMS.iter().for_each(|&(kind, number)| self.aimed(kind, number));
        (0..5).for_each(|_| self.crowded(crowded_pair));
        (0..2).for_each(|_| self.crowded(crowded_gain));
        (0..3).for_each(|_| self.crowded(clash_of_roles));
        (0..3).for_each(|_| self.crowded(clash_of_subjects));
        (0..2).for_each(|_| self.crowded(crowded_job));
        self.crowded(new_hand);
        self.crowded(closed_one_by_one);
        (0..2).for_each(|_| self.crowded(many_hands));
        [false, false, true].into_iter().for_each(|quarrelling| self.two_foremen(quarrelling));
        (1..=10).chain([9, 9]).for_each(|rule| self.broken(rule));
        self.nearly_broken();
        for step in 0..4 {
            self.damaged((4 * self.rounds + step) % WAYS);
        }
        self.wrong_length();
        self.extremes();
        let book = full(&mut self.chance);
        self.hand_made(book, 40);
        self.longest_chains();
        self.rounds += 1;
    }

    /// A run of requests from the blank book: setting up, then orders, and again.
    fn run_from_blank(&mut self) {
        self.sheet.lay(vec![0; WORDS]);
        let (fewest, most) = if self.rounds % 8 == 3 { (64, 64) } else { (3, 10) };
        let floor = Floor::new(&mut self.chance, fewest, most);
        for (kind, numbers) in [(1, &floor.tasks), (2, &floor.roles), (3, &floor.subjects)] {
            for &number in numbers.iter() {
                self.sheet.ask((kind, number as u64, 0, 0));
            }
        }
        for kinds in [SETTING_UP, RUNNING, SETTING_UP, RUNNING] {
            if kinds == RUNNING {
                self.take_up_roles();
            }
            for _ in 0..self.chance.between(20, 60) {
                let kind = self.chance.pick(kinds);
                self.ask_likely(&floor, kind);
                if kinds == RUNNING && self.chance.percent(10) {
                    self.change_trade();
                }
            }
            self.keep();
            if kinds == RUNNING && self.chance.percent(80) {
                self.close_all();
            }
        }
        self.sheet.audit();
    }

    /// A run from the blank book in which several orders are open at once and people change their trade meanwhile, so
    /// that an allocation in one order is often refused because of another one, though the book is sound all the time.
    fn run_of_many_orders(&mut self) {
        self.sheet.lay(vec![0; WORDS]);
        let floor = Floor::new(&mut self.chance, 4, 7);
        for ask in a_cell_with_exclusions(&mut self.chance, &floor) {
            self.sheet.ask(ask);
        }
        self.take_up_roles();
        for _ in 0..self.chance.between(15, 30) {
            match self.chance.below(20) {
                0..=11 => self.ask_likely(&floor, 13),
                12..=17 => self.change_trade(),
                18 => self.ask_likely(&floor, 12),
                _ => self.ask_likely(&floor, 14),
            }
        }
        self.sheet.audit();
        self.keep();
    }

    fn change_trade(&mut self) {
        for ask in change_of_trade(&mut self.chance, &self.sheet.book()) {
            self.sheet.ask(ask);
        }
    }

    /// Before orders run, most subjects that act in no role activate one they have, else nobody could work.
    fn take_up_roles(&mut self) {
        let book = self.sheet.book();
        for subject in book.subjects.members().filter(|&s| book.active[s].is_none()) {
            let assigned: Vec<usize> = book.roles_of_subject[subject].members().collect();
            if !assigned.is_empty() && self.chance.percent(80) {
                let role = self.chance.pick(&assigned) as u64;
                self.sheet.ask((11, role, subject as u64, 0));
            }
        }
    }

    /// Keeps the book as it stands among the sound ones, in the place of an older one if need be.
    fn keep(&mut self) {
        let book = self.sheet.book();
        if self.sound.len() < KEPT {
            self.sound.push(book);
        } else {
            let place = self.chance.below(KEPT);
            self.sound[place] = book;
        }
    }

    fn close_all(&mut self) {
        let book = self.sheet.book();
        for order in (0..64).filter(|&p| book.is_open(p)) {
            self.sheet.ask((14, order as u64, 0, 0));
        }
    }

    /// One likely request, now and then spoiled, and an audit after every few.
    fn ask_likely(&mut self, floor: &Floor, kind: u64) {
        let book = self.sheet.book();
        // Where no order is open there is little to allocate or to close, so one is opened first.
        let idle = matches!(kind, 13 | 14) && (0..64).all(|p| !book.is_open(p));
        let kind = if idle && self.chance.percent(80) { 12 } else { kind };
        let mut ask = likely(&mut self.chance, floor, &book, kind);
        if self.chance.percent(4) {
            ask = spoiled(&mut self.chance, ask);
        }
        self.sheet.ask(ask);
        if self.chance.percent(20) {
            self.sheet.audit();
        }
    }

    /// A hand-made book: its audit, then requests of all kinds.
    fn hand_made(&mut self, book: Book, requests: usize) {
        let floor = Floor::of(&mut self.chance, &book);
        self.sheet.lay(book.words());
        self.sheet.audit();
        for _ in 0..requests {
            let kind = self.chance.between(4, LAST_KIND as usize) as u64;
            self.ask_likely(&floor, kind);
        }
    }

    /// A book to lay something into: blank, sound, or a small one that need not be sound.
    fn ground(&mut self, sound: bool) -> Book {
        match self.chance.below(if sound { 3 } else { 4 }) {
            0 => Book::blank(),
            1 | 2 if !self.sound.is_empty() => self.sound[self.chance.below(self.sound.len())].clone(),
            3 => small(&mut self.chance),
            _ => Book::blank(),
        }
    }

    /// An aimed situation on some ground; then the same request turned round, and once more.
    fn aimed(&mut self, kind: u64, number: u64) {
        let mut ground = self.ground(false);
        if matches!(kind, 4..=7 | 18..=21) && self.chance.percent(90) {
            without_orders(&mut ground);
        }
        let one_way = self.chance.percent(25);
        let mut scene = Scene::over(&mut self.chance, ground, one_way);
        let ask = lay(&mut scene, kind, number);
        let book = scene.book;
        self.sheet.lay(book.words());
        self.sheet.audit();
        let (kind, a, b, c) = ask;
        if self.chance.percent(25) {
            self.sheet.ask((kind, b, a, c));
        }
        self.sheet.ask(ask);
        self.sheet.audit();
        let floor = Floor::of(&mut self.chance, &book);
        self.ask_likely(&floor, kind);
    }

    /// Several troubles at once, and the requests that meet them.
    fn crowded(&mut self, crowd: fn(&mut Scene) -> Vec<Ask>) {
        let mut ground = self.ground(false);
        if self.chance.percent(90) {
            without_orders(&mut ground);
        }
        let one_way = self.chance.percent(40);
        let mut scene = Scene::over(&mut self.chance, ground, one_way);
        let asks = crowd(&mut scene);
        let words = scene.book.words();
        self.sheet.lay(words);
        self.sheet.audit();
        for ask in asks {
            self.sheet.ask(ask);
        }
        self.sheet.audit();
    }

    /// Two foremen with one list: the same sound book laid twice, and the list asked in two orders. Now and then all of
    /// it is taken back again, the last first; what was refused is not there, so that the book is the old one again.
    fn two_foremen(&mut self, quarrelling: bool) {
        let ground = self.cell_to_set_up();
        let (one, other) = two_orders(&mut self.chance, &ground, quarrelling);
        for list in [one, other] {
            self.sheet.lay(ground.words());
            self.sheet.audit();
            for &ask in &list {
                self.sheet.ask(ask);
            }
            self.sheet.audit();
            if self.chance.percent(30) {
                for &ask in list.iter().rev() {
                    self.sheet.ask(taking_back(ask));
                }
                self.sheet.audit();
            }
        }
    }

    /// A sound book to set something up in: a small new one or one of those kept. Mostly no order is open, since pairs
    /// are added only then.
    fn cell_to_set_up(&mut self) -> Book {
        if self.sound.is_empty() || self.chance.percent(40) {
            return small_cell(&mut self.chance);
        }
        let mut book = self.sound[self.chance.below(self.sound.len())].clone();
        if self.chance.percent(40) {
            without_orders(&mut book);
        }
        book
    }

    /// A sound book with one rule broken, sometimes a second one; then a few requests.
    fn broken(&mut self, rule: u64) {
        let ground = self.ground(true);
        let mut scene = Scene::over(&mut self.chance, ground, false);
        break_rule(&mut scene, rule);
        if scene.chance.percent(20) {
            let second = scene.chance.between(1, 10) as u64;
            break_rule(&mut scene, second);
        }
        let book = scene.book;
        self.hand_made(book, 3);
    }

    /// A sound book in which rule 9 looks broken, and is kept.
    fn nearly_broken(&mut self) {
        let ground = self.ground(true);
        let mut scene = Scene::over(&mut self.chance, ground, false);
        nearly_break_rule_9(&mut scene);
        let book = scene.book;
        self.hand_made(book, 3);
    }

    /// A book with one or two bad words: its audit, and requests of many kinds.
    fn damaged(&mut self, way: usize) {
        // A job on the ground sees to it that there are cells to damage.
        let ground = self.ground(false);
        let mut scene = Scene::over(&mut self.chance, ground, false);
        lay(&mut scene, 13, 0);
        let mut words = scene.book.words();
        damage(&mut self.chance, &mut words, way);
        if self.chance.percent(20) {
            let second = self.chance.below(WAYS);
            damage(&mut self.chance, &mut words, second);
        }
        self.sheet.lay(words);
        self.sheet.audit();
        for kind in 0..=LAST_KIND {
            if self.chance.percent(50) {
                self.ask_blindly(kind);
            }
        }
    }

    /// A request with any arguments at all; kind 0 stands for whatever is no kind.
    fn ask_blindly(&mut self, kind: u64) {
        let kind = if kind == 0 { strange_kind(&mut self.chance) } else { kind };
        let small = |chance: &mut Chance| if chance.percent(60) { chance.below(64) as u64 } else { extreme(chance) };
        let (a, b, c) = (small(&mut self.chance), small(&mut self.chance), small(&mut self.chance));
        self.sheet.ask((kind, a, b, c));
    }

    /// Too few or too many words, of a book that is good or bad or has nothing in it.
    fn wrong_length(&mut self) {
        let length = self.chance.pick(&[0, 1, 3, 4, 580, 4675, 4675, 4677, 4677, 4700]);
        let mut words = self.ground(false).words();
        words.resize(length, 0);
        if length > 0 && self.chance.percent(40) {
            let index = self.chance.below(length);
            words[index] = self.chance.word();
        }
        self.sheet.lay(words);
        self.sheet.audit();
        (0..=LAST_KIND).for_each(|kind| self.ask_blindly(kind));
    }

    /// Every kind with extreme arguments, on a book where the others mostly fit.
    fn extremes(&mut self) {
        let book = self.ground(false);
        let floor = Floor::of(&mut self.chance, &book);
        self.sheet.lay(book.words());
        self.sheet.audit();
        for kind in 1..=LAST_KIND {
            let ask = likely(&mut self.chance, &floor, &self.sheet.book(), kind);
            let ask = spoiled(&mut self.chance, ask);
            self.sheet.ask(ask);
            if self.chance.percent(30) {
                let ask = spoiled(&mut self.chance, ask);
                self.sheet.ask(ask);
            }
        }
        (0..3).for_each(|_| self.ask_blindly(0));
    }

    /// Chains of 64: what holds at their two ends, then requests of all kinds.
    fn longest_chains(&mut self) {
        let (book, roles, tasks) = longest(&mut self.chance);
        let (top, bottom) = (roles[0] as u64, roles[63] as u64);
        let (first, last) = (tasks[0] as u64, tasks[63] as u64);
        let subject = (0..64).find(|&s| book.active[s].is_some()).unwrap_or(0) as u64;
        self.sheet.lay(book.words());
        self.sheet.audit();
        let order = (0..64).find(|&p| book.is_open(p)).unwrap_or(0) as u64;
        let mut asks = vec![(9, top, bottom, 0), (9, bottom, top, 0), (11, bottom, subject, 0), (11, top, subject, 0)];
        for kind in 4..=7 {
            asks.extend([(kind, first, last, 0), (kind, last, first, 0)]);
        }
        asks.extend([(12, order, 0, u64::MAX), (13, first, order, subject), (13, last, order, subject)]);
        // The order is closed, a link of the chain of tasks is taken back, and the ends are asked again.
        let (here, next) = (tasks[31] as u64, tasks[32] as u64);
        asks.extend([(14, order, 0, 0), (20, here, next, 0), (21, here, next, 0)]);
        asks.extend([(4, first, last, 0), (4, last, first, 0)]);
        for ask in asks {
            self.sheet.ask(ask);
        }
        self.sheet.audit();
        let floor = Floor::of(&mut self.chance, &book);
        for _ in 0..20 {
            let kind = self.chance.between(4, LAST_KIND as usize) as u64;
            self.ask_likely(&floor, kind);
        }
    }
}

/// The requests that set up a cell on the blank book, with exclusions and a binding or two, tasks shared out among the
/// roles and a role for each subject, and that open all orders of the floor, most tasks in each.
fn a_cell_with_exclusions(chance: &mut Chance, floor: &Floor) -> Vec<Ask> {
    let defined = [(1, &floor.tasks), (2, &floor.roles), (3, &floor.subjects)];
    let mut asks: Vec<Ask> =
        defined.iter().flat_map(|&(kind, numbers)| numbers.iter().map(move |&n| (kind, n as u64, 0, 0))).collect();
    let some = |chance: &mut Chance, list: &[usize]| chance.pick(list) as u64;
    for kind in [4, 4, 4, 4, 5, 5, 7] {
        let (a, b, role) = (some(chance, &floor.tasks), some(chance, &floor.tasks), some(chance, &floor.roles));
        asks.push((kind, a, b, 0));
        // What is not SME one role may own, so that one hand comes to both.
        if kind != 4 {
            asks.extend([(8, a, role, 0), (8, b, role, 0)]);
        }
    }
    for &task in &floor.tasks {
        (0..2).for_each(|_| asks.push((8, task as u64, some(chance, &floor.roles), 0)));
    }
    for &subject in &floor.subjects {
        asks.push((10, some(chance, &floor.roles), subject as u64, 0));
    }
    for &order in &floor.orders {
        let mask = chance.part_of(&floor.tasks, 800).mask();
        asks.push((12, order as u64, 0, mask));
    }
    asks
}

/// Closes all orders, so that the pair tables may be changed.
fn without_orders(book: &mut Book) {
    let blank = Book::blank();
    book.orders = blank.orders;
    book.cells = blank.cells;
}

/// An aimed situation alone on the blank book: its words and the request that is to give the number.
pub fn aimed_case(seed: u64, kind: u64, number: u64) -> (Vec<u64>, Ask) {
    let mut chance = Chance::new(seed);
    let mut scene = Scene::over(&mut chance, Book::blank(), false);
    let ask = lay(&mut scene, kind, number);
    (scene.book.words(), ask)
}
