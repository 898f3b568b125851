//! Two foremen who set up one cell from one list, each in an order of their own (M-102).

use super::asks::{likely, Ask, Floor};
use super::chance::Chance;
use crate::book::Book;
use crate::request::request;
use crate::set::Set;

/// The kinds of which M-102 speaks. Assigning comes twice, so that one subject often gets two roles from one list.
const SETTING_UP: &[u64] = &[4, 5, 6, 7, 8, 8, 9, 10, 10];
/// Those of them that an open order does not refuse.
const WHILE_OPEN: &[u64] = &[8, 9, 10];

/// How often a request is tried for each place of a list.
const TRIES: usize = 6;

/// A request of kinds 4 to 10, and of 8 to 10 where an order is open.
fn setting_up(chance: &mut Chance, floor: &Floor, book: &Book) -> Ask {
    let open = (0..64).any(|p| book.is_open(p));
    let kind = chance.pick(if open { WHILE_OPEN } else { SETTING_UP });
    likely(chance, floor, book, kind)
}

/// A list of so many requests of kinds 4 to 10 that the book accepts one after the other: likely ones are tried on a
/// copy, and the accepted ones kept. There are fewer where the book leaves no room. Gives the words after it as well.
pub fn agreed_list(chance: &mut Chance, floor: &Floor, book: &Book, length: usize) -> (Vec<Ask>, Vec<u64>) {
    let (mut list, mut words) = (Vec::new(), book.words());
    for _ in 0..TRIES * length {
        let ask = setting_up(chance, floor, book);
        if number(&mut words, ask) == 0 {
            list.push(ask);
        }
        if list.len() == length {
            break;
        }
    }
    (list, words)
}

fn number(words: &mut [u64], (kind, a, b, c): Ask) -> u64 {
    request(words, kind, a, b, c).0
}

/// A request over which the foremen quarrel: the book accepts it, and after the list it meets a conflict. So it is
/// refused where it comes last, and where it comes first something of the list is.
fn quarrel(chance: &mut Chance, floor: &Floor, book: &Book, after: &[u64]) -> Option<Ask> {
    let before = book.words();
    let tried: Vec<Ask> = (0..40).map(|_| setting_up(chance, floor, book)).collect();
    tried.into_iter().find(|&ask| number(&mut after.to_vec(), ask) >= 20 && number(&mut before.clone(), ask) == 0)
}

/// One list in two orders: all of it is accepted in both, or it holds something to quarrel over.
pub fn two_orders(chance: &mut Chance, book: &Book, quarrelling: bool) -> (Vec<Ask>, Vec<Ask>) {
    let floor = Floor::few_of(chance, book);
    let length = chance.between(4, 10);
    let (mut one, after) = agreed_list(chance, &floor, book, length);
    let mut other = rearranged(chance, &one);
    if quarrelling {
        if let Some(ask) = quarrel(chance, &floor, book, &after) {
            one.push(ask);
            other.insert(0, ask);
        }
    }
    (one, other)
}

/// The list in another order, where it has one: turned round, or shuffled.
pub fn rearranged(chance: &mut Chance, list: &[Ask]) -> Vec<Ask> {
    let places = chance.shuffled();
    let mut other: Vec<Ask> = places.into_iter().filter(|&place| place < list.len()).map(|place| list[place]).collect();
    if other == list || chance.percent(25) {
        other = list.iter().rev().copied().collect();
    }
    other
}

/// The request that takes back what one of kinds 4 to 10 added.
pub fn taking_back((kind, a, b, c): Ask) -> Ask {
    let back = match kind {
        4..=7 => kind + 14,
        8..=10 => kind + 7,
        _ => unreachable!("no other kind adds what can be taken back"),
    };
    (back, a, b, c)
}

/// A small cell of machines, with little or nothing set up in it.
pub fn small_cell(chance: &mut Chance) -> Book {
    let floor = Floor::new(chance, 3, 6);
    let mut book = Book::blank();
    (book.tasks, book.roles, book.subjects) = (Set::of(&floor.tasks), Set::of(&floor.roles), Set::of(&floor.subjects));
    let length = chance.below(8);
    Book::read(&agreed_list(chance, &floor, &book, length).1)
}
