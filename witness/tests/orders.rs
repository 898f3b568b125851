//! M-102, "the order of clicking must not matter": where a book passes the audit and requests of kinds 4 to 10 were all
//! accepted one after the other, every other order is accepted too and leads to the same words; and each of them, taken
//! back at once, leaves the words that were there before. It needs the audit, M-101 and that all were accepted, and it
//! is said of kinds 4 to 10 alone: the controls leave these out one by one, and then the order shows.

mod common;

use std::collections::{BTreeMap, BTreeSet};
use std::sync::OnceLock;

use common::{accept, ask, blank, defined};
use witness::audit::audit;
use witness::book::Book;
use witness::cases::{agreed_list, likely, rearranged, taking_back, Ask, Chance, Floor};
use witness::{Answer, ACCEPTED, SOUND};

/// A book that passes the audit, a list of requests of kinds 4 to 10, and the book after them.
struct Setting {
    first: Vec<u64>,
    list: Vec<Ask>,
    last: Vec<u64>,
}

/// The settings that the tests share: small cells and full ones, bare and crowded, with and without open orders.
/// A list with fewer than two requests has no other order.
fn settings() -> &'static [Setting] {
    static SETTINGS: OnceLock<Vec<Setting>> = OnceLock::new();
    SETTINGS.get_or_init(|| {
        let mut chance = Chance::new(102);
        let mut settings = Vec::new();
        for turn in 0..48 {
            let (fewest, most) = if turn % 8 == 0 { (64, 64) } else { (3, 10) };
            let floor = Floor::new(&mut chance, fewest, most);
            let book = reached_from_blank(&mut chance, &floor, turn % 3 == 2);
            for length in [chance.between(2, 4), chance.between(5, 16), chance.between(17, 40)] {
                settings.push(setting(&mut chance, &floor, &book, length));
            }
        }
        settings.retain(|setting| setting.list.len() > 1);
        settings
    })
}

/// A book reached from the blank one by requests alone: all that the floor has is defined, much is set up and some of
/// it taken back, roles are activated, and where it is asked for orders are opened and worked on.
fn reached_from_blank(chance: &mut Chance, floor: &Floor, with_orders: bool) -> Book {
    const SETTING_UP: &[u64] = &[4, 5, 6, 7, 8, 8, 9, 10, 10, 11, 11, 15, 16, 17, 18, 19, 20, 21];
    const RUNNING: &[u64] = &[11, 11, 12, 13, 13, 13, 13];
    let mut words = blank();
    for (kind, numbers) in [(1, &floor.tasks), (2, &floor.roles), (3, &floor.subjects)] {
        numbers.iter().for_each(|&number| accept(&mut words, &[(kind, number as u64, 0, 0)]));
    }
    let steps = chance.pick(&[0, 10, 40, 80]) + floor.tasks.len();
    for (kinds, steps) in [(SETTING_UP, steps), (RUNNING, if with_orders { 30 } else { 0 })] {
        for _ in 0..steps {
            let kind = chance.pick(kinds);
            let (kind, a, b, c) = likely(chance, floor, &Book::read(&words), kind);
            ask(&mut words, kind, a, b, c);
        }
    }
    // Some lose the role in which they act; the list may give it to them again.
    for &subject in &floor.subjects {
        let active = words[452 + subject];
        if active > 0 && chance.percent(70) {
            ask(&mut words, 17, active - 1, subject as u64, 0);
        }
    }
    Book::read(&words)
}

/// The requests name all the numbers of the floor, or a few of them, so that they meet in a full book too.
fn setting(chance: &mut Chance, floor: &Floor, book: &Book, length: usize) -> Setting {
    let few = Floor::few_of(chance, book);
    let floor = if chance.percent(50) { &few } else { floor };
    let (list, last) = agreed_list(chance, floor, book, length);
    Setting { first: book.words(), list, last }
}

/// Every order of a short list; of a longer one the opposite order, the second half first, one kind after the other up
/// and down, and two shuffled ones.
fn orders_of(chance: &mut Chance, list: &[Ask]) -> Vec<Vec<Ask>> {
    if list.len() <= 4 {
        return every_order(list);
    }
    let mut orders = vec![list.to_vec(); 4];
    orders[0].reverse();
    orders[1].rotate_left(list.len() / 2);
    orders[2].sort_by_key(|ask| ask.0);
    orders[3].sort_by_key(|ask| 10 - ask.0);
    orders.extend((0..2).map(|_| rearranged(chance, list)));
    orders
}

fn every_order(list: &[Ask]) -> Vec<Vec<Ask>> {
    if list.is_empty() {
        return vec![Vec::new()];
    }
    let mut orders = Vec::new();
    for place in 0..list.len() {
        let mut others = list.to_vec();
        let last = others.remove(place);
        for mut order in every_order(&others) {
            order.push(last);
            orders.push(order);
        }
    }
    orders
}

/// The answers to a list, and the words after it.
fn played(words: &[u64], list: &[Ask]) -> (Vec<Answer>, Vec<u64>) {
    let mut words = words.to_vec();
    let answers = list.iter().map(|&(kind, a, b, c)| ask(&mut words, kind, a, b, c)).collect();
    (answers, words)
}

/// The words after the request, where it is accepted.
fn accepted(words: &[u64], ask: Ask) -> Option<Vec<u64>> {
    let (answers, after) = played(words, &[ask]);
    (answers == [ACCEPTED]).then_some(after)
}

/// Each list in many orders: all is accepted, and the words are the same in the end.
#[test]
fn every_order_is_accepted_and_leads_to_the_same_words() {
    let mut chance = Chance::new(1);
    let mut orders = 0;
    for setting in settings() {
        assert_eq!(audit(&setting.first), SOUND);
        assert!(played(&setting.first, &setting.list) == (vec![ACCEPTED; setting.list.len()], setting.last.clone()));
        for order in orders_of(&mut chance, &setting.list) {
            let (answers, words) = played(&setting.first, &order);
            assert_eq!(answers, vec![ACCEPTED; order.len()], "{order:?} after {:?}", setting.list);
            assert!(words == setting.last, "{order:?} after {:?}", setting.list);
            orders += 1;
        }
    }
    assert!(orders > 800, "{orders} orders show too little");
}

/// The lists show enough: each kind many times, many kinds in one list, long lists, full books and open orders.
#[test]
fn the_lists_show_enough() {
    let mut kinds = BTreeMap::new();
    let (mut mixed, mut long, mut full, mut open) = (0, 0, 0, 0);
    for Setting { first, list, .. } in settings() {
        list.iter().for_each(|ask| *kinds.entry(ask.0).or_insert(0) += 1);
        mixed += u64::from(list.iter().map(|ask| ask.0).collect::<BTreeSet<u64>>().len() >= 6);
        long += u64::from(list.len() >= 20);
        full += u64::from(first[..3] == [u64::MAX; 3]);
        open += u64::from(first[516..=579].iter().any(|&tasks| tasks != 0));
    }
    assert_eq!(kinds.keys().copied().collect::<Vec<u64>>(), [4, 5, 6, 7, 8, 9, 10]);
    assert!(kinds.values().all(|&times| times >= 40), "{kinds:?}");
    assert!(settings().len() >= 130 && mixed >= 20 && long >= 30, "{mixed} mixed and {long} long lists");
    assert!(full >= 15 && open >= 30, "{full} on full books, {open} with an open order");
}

/// Roles are assigned in the ways in which an active word could show the order or a trace: two to one subject that acts
/// in none, and to a subject that acts in that very role already.
#[test]
fn the_assignments_show_enough() {
    let (mut two_roles, mut again) = (0, 0);
    for Setting { first, list, .. } in settings() {
        let active = |subject: u64| first[452 + subject as usize];
        let assigned: Vec<(u64, u64)> = list.iter().filter(|ask| ask.0 == 10).map(|ask| (ask.1, ask.2)).collect();
        let idle: Vec<u64> = assigned.iter().map(|&(_, subject)| subject).filter(|&s| active(s) == 0).collect();
        two_roles += u64::from(idle.iter().collect::<BTreeSet<_>>().len() < idle.len());
        again += assigned.iter().filter(|&&(role, subject)| active(subject) == role + 1).count();
    }
    assert!(two_roles >= 20, "{two_roles} lists give two roles to one who acts in none");
    assert!(again >= 5, "{again} assignments give somebody the role in which he acts");
}

/// Each request, taken back at once: that is accepted, and every word is as before.
#[test]
fn what_is_taken_back_at_once_leaves_no_trace() {
    let mut taken = BTreeMap::new();
    for setting in settings() {
        let mut words = setting.first.clone();
        for &ask in &setting.list {
            let before = words.clone();
            accept(&mut words, &[ask, taking_back(ask)]);
            assert!(words == before, "{ask:?}");
            accept(&mut words, &[ask]);
            *taken.entry(taking_back(ask).0).or_insert(0) += 1;
        }
        assert!(words == setting.last);
    }
    assert_eq!(taken.keys().copied().collect::<Vec<u64>>(), (15..=21).collect::<Vec<u64>>());
    assert!(taken.values().all(|&times| times >= 40), "{taken:?}");
}

/// The role may be the one in which the subject acts, owned through a senior or, as after a taking back, not owned now:
/// the active word stays.
#[test]
fn what_is_taken_back_may_be_the_active_role() {
    let mut words = defined(0, 2, 1);
    accept(&mut words, &[(9, 1, 0, 0), (10, 0, 0, 0), (11, 1, 0, 0)]);
    for step in [&[][..], &[(17, 0, 0, 0)]] {
        accept(&mut words, step);
        let before = words.clone();
        accept(&mut words, &[(10, 1, 0, 0), (17, 1, 0, 0)]);
        assert!(words == before && words[452] == 2);
    }
}

/// Every request of kinds 4 to 10 about tasks 0 to 2, roles 0 to 2 and subject 0. A task or a role with itself is left
/// out: it is refused on every book.
fn every_request() -> Vec<Ask> {
    let all = (4..=10).flat_map(|kind| (0..9).map(move |pair| (kind, pair / 3, pair % 3, 0)));
    let may_be_accepted = |&(kind, a, b, _): &Ask| match kind {
        8 => true,
        10 => b == 0,
        _ => a != b,
    };
    all.filter(may_be_accepted).collect()
}

/// In a cell of three any two requests may change places: both are accepted one after the other in both orders, with
/// the same words after them, or in neither. Every rearrangement is made of such changes. The books are such that two
/// requests meet through a binding, through two roles of one subject, through a junior and through what it will own.
#[test]
fn any_two_neighbours_may_change_places() {
    let books: [&[Ask]; 5] = [
        &[],
        &[(7, 0, 1, 0)],
        &[(10, 0, 0, 0), (10, 1, 0, 0), (8, 0, 0, 0), (8, 1, 2, 0)],
        &[(9, 1, 0, 0), (10, 0, 0, 0), (10, 2, 0, 0), (8, 0, 2, 0)],
        &[(4, 0, 1, 0), (9, 1, 0, 0), (8, 0, 2, 0)],
    ];
    let (asks, mut agreed, mut quarrelling) = (every_request(), 0, 0);
    for list in books {
        let mut words = defined(3, 3, 1);
        accept(&mut words, list);
        let after: Vec<Option<Vec<u64>>> = asks.iter().map(|&ask| accepted(&words, ask)).collect();
        let both = |p: usize, q: usize| after[p].as_ref().and_then(|words| accepted(words, asks[q]));
        for (p, q) in (0..asks.len()).flat_map(|p| (0..p).map(move |q| (p, q))) {
            let words = both(p, q);
            assert!(words == both(q, p), "{:?} and {:?} after {list:?}", asks[p], asks[q]);
            agreed += u64::from(words.is_some());
            quarrelling += u64::from(words.is_none() && after[p].is_some() && after[q].is_some());
        }
    }
    assert!(agreed > 2500 && quarrelling > 200, "{agreed} pairs agree and {quarrelling} quarrel");
}

/// Tasks 0 and 1, each with a role of its own number, and one subject.
fn two_roles() -> Vec<u64> {
    let mut words = defined(2, 2, 1);
    accept(&mut words, &[(8, 0, 0, 0), (8, 1, 1, 0)]);
    words
}

/// A control: one of the two is refused, and then the first one wins.
#[test]
fn where_one_is_refused_the_first_one_wins() {
    let mut words = two_roles();
    accept(&mut words, &[(4, 0, 1, 0)]);
    assert_eq!(audit(&words), SOUND);
    let (answers, one) = played(&words, &[(10, 0, 0, 0), (10, 1, 0, 0)]);
    assert_eq!((answers, one[388]), (vec![(0, 0, 0, 0), (32, 0, 0b01, 0)], 0b01));
    let (answers, other) = played(&words, &[(10, 1, 0, 0), (10, 0, 0, 0)]);
    assert_eq!((answers, other[388]), (vec![(0, 0, 0, 0), (32, 0, 0b10, 0)], 0b10));
}

/// A control: with kind 11 in the list all is accepted in both orders, and the last one wins.
#[test]
fn among_activations_the_last_one_wins() {
    let mut words = two_roles();
    accept(&mut words, &[(10, 0, 0, 0), (10, 1, 0, 0)]);
    assert_eq!(audit(&words), SOUND);
    let (answers, one) = played(&words, &[(11, 0, 0, 0), (11, 1, 0, 0)]);
    assert_eq!((answers, one[452]), (vec![(0, 0, 0, 0), (0, 0, 0, 0)], 2));
    let (answers, other) = played(&words, &[(11, 1, 0, 0), (11, 0, 0, 0)]);
    assert_eq!((answers, other[452]), (vec![(0, 0, 0, 0), (0, 0, 0, 0)], 1));
}

/// Controls: beside a request of kinds 4 to 10 one of another kind. Both are accepted in this order; the answers are
/// those of the other order, and one of them is a refusal.
#[test]
fn other_kinds_have_an_order() {
    let lists = [
        ([(1, 2, 0, 0), (4, 0, 2, 0)], [(4, 2, 0, 0), (0, 0, 0, 0)]),
        ([(2, 2, 0, 0), (8, 0, 2, 0)], [(4, 2, 0, 0), (0, 0, 0, 0)]),
        ([(3, 1, 0, 0), (10, 0, 1, 0)], [(4, 2, 0, 0), (0, 0, 0, 0)]),
        ([(10, 1, 0, 0), (11, 1, 0, 0)], [(8, 0, 0, 0), (0, 0, 0, 0)]),
        ([(6, 0, 1, 0), (12, 9, 0, 1)], [(0, 0, 0, 0), (7, 9, 0, 0)]),
        ([(9, 0, 1, 0), (16, 0, 1, 0)], [(6, 0, 0, 0), (0, 0, 0, 0)]),
        ([(5, 0, 1, 0), (19, 0, 1, 0)], [(6, 0, 0, 0), (0, 0, 0, 0)]),
    ];
    for ([first, second], answers) in lists {
        assert_eq!(played(&two_roles(), &[first, second]).0, [ACCEPTED; 2]);
        assert_eq!(played(&two_roles(), &[second, first]).0, answers, "{second:?} and then {first:?}");
    }
}

/// A control: a book that fails the audit, with task 1 in the SME row of task 0 and not the other way. Both roles are
/// accepted in one order and not in the other.
#[test]
fn on_an_unsound_book_the_order_matters() {
    let mut words = two_roles();
    words[4] = 0b10;
    assert_eq!(audit(&words), (42, 0, 0));
    let (answers, one) = played(&words, &[(10, 1, 0, 0), (10, 0, 0, 0)]);
    assert_eq!((answers, one[388]), (vec![(0, 0, 0, 0), (0, 0, 0, 0)], 0b11));
    let (answers, other) = played(&words, &[(10, 0, 0, 0), (10, 1, 0, 0)]);
    assert_eq!((answers, other[388]), (vec![(0, 0, 0, 0), (32, 0, 0b01, 0)], 0b01));
}

/// A control: on a book that fails the audit a pair may have one bit already. It is added from its other end, and taken
/// back with both bits.
#[test]
fn on_an_unsound_book_taking_back_leaves_a_trace() {
    for (kind, row) in (4..=7).zip([4, 68, 132, 196]) {
        let mut words = defined(2, 0, 0);
        words[row] = 0b10;
        assert_eq!(audit(&words), (42, 0, 0));
        let (answers, after) = played(&words, &[(kind, 1, 0, 0), taking_back((kind, 1, 0, 0))]);
        assert_eq!((answers, after[row]), (vec![(0, 0, 0, 0), (0, 0, 0, 0)], 0));
    }
}

/// A control: kind 10 as document 01 had it, before M-101. The first role becomes active, so the order shows in the
/// active word and nowhere else, and taking back leaves it there.
#[test]
fn with_kind_10_of_document_01_the_first_one_is_active() {
    let as_in_document_01 = |words: &mut Vec<u64>, role: u64| {
        accept(words, &[(10, role, 0, 0)]);
        if words[452] == 0 {
            words[452] = role + 1;
        }
    };
    let (mut one, mut other) = (two_roles(), two_roles());
    [0, 1].into_iter().for_each(|role| as_in_document_01(&mut one, role));
    [1, 0].into_iter().for_each(|role| as_in_document_01(&mut other, role));
    assert_eq!((one[452], other[452]), (1, 2));
    other[452] = 1;
    assert!(one == other);
    accept(&mut one, &[(17, 1, 0, 0), (17, 0, 0, 0)]);
    assert_eq!(one[452], 1);
    // With M-101 both orders lead to one book.
    let (_, one) = played(&two_roles(), &[(10, 0, 0, 0), (10, 1, 0, 0)]);
    let (_, other) = played(&two_roles(), &[(10, 1, 0, 0), (10, 0, 0, 0)]);
    assert!(one == other && one[452] == 0);
}
