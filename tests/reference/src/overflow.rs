//! Stores in which a search from the registers comes upon more objects at once than a stack of 1,024 entries holds, again and again: wide objects,
//! which link to thousands of others; and lists through the whole store. The stores are full, one register is not nil, and some objects are lost.

use std::iter::repeat_n;

use crate::layout::{CARD_GRANULES, GRANULE_WORDS, LARGEST_OBJECT};
use crate::made::laid;
use crate::random::Random;

/// The links that the largest object has room for.
const MOST_LINKS: usize = GRANULE_WORDS * LARGEST_OBJECT - 2;

#[derive(Clone, Copy, Debug)]
pub enum Order {
    Rising,
    Falling,
    /// The lowest, the highest, the lowest but one, and so on.
    Alternating,
}

const ORDERS: [Order; 3] = [Order::Rising, Order::Falling, Order::Alternating];

impl Order {
    /// Objects in rising order, put into this one.
    fn of(self, objects: Vec<usize>) -> Vec<usize> {
        let last = objects.len() - 1;
        let place = |n: usize| match self {
            Order::Rising => n,
            Order::Falling => last - n,
            Order::Alternating if n.is_multiple_of(2) => n / 2,
            Order::Alternating => last - n / 2,
        };
        (0..=last).map(|n| objects[place(n)]).collect()
    }
}

type Named = (String, Vec<u16>);
type Make = fn(usize, Order) -> Vec<u16>;

/// Stores on which such a stack overflows more than once.
pub fn overflowing() -> Vec<Named> {
    let ordered: [(&str, Make); 4] =
        [("wide", wide), ("heads of lists", heads), ("relay", relay), ("list behind a wide object", list_behind)];
    let in_each_order = |(what, make)| ORDERS.map(|order| named(what, 512, order, make));
    let smaller = [
        named("wide", 65, Order::Alternating, wide),
        named("list behind a wide object", 96, Order::Alternating, list_behind),
        named("heads of lists", 130, Order::Falling, heads),
        named("relay", 200, Order::Rising, relay),
    ];
    let unordered = |k| [(format!("tree, k = {k}"), tree(k)), (format!("at random, k = {k}"), at_random(k, k as u64))];
    ordered
        .into_iter()
        .flat_map(in_each_order)
        .chain(smaller)
        .chain([130, 512].into_iter().flat_map(unordered))
        .collect()
}

/// Lists, which need no stack.
pub fn lists() -> Vec<Named> {
    [65, 512].into_iter().flat_map(|k| ORDERS.map(|order| named("list", k, order, list))).collect()
}

fn named(what: &str, k: usize, order: Order, make: Make) -> Named {
    (format!("{what}, {order:?}, k = {k}"), make(k, order))
}

/// Wide objects, and behind them as many of one granule as there is room for; each by the objects that it links to.
struct Plan {
    k: usize,
    wide: usize,
    links: Vec<Vec<usize>>,
}

impl Plan {
    fn new(k: usize, wide: usize) -> Plan {
        let small = CARD_GRANULES * k - 1 - LARGEST_OBJECT * wide;
        Plan { k, wide, links: vec![Vec::new(); wide + small] }
    }

    /// The objects of one granule, but for one of 25: nothing links to those.
    fn small(&self) -> Vec<usize> {
        (self.wide..self.links.len()).filter(|n| n % 25 != 20).collect()
    }

    /// Each of these links to the next.
    fn list(&mut self, objects: &[usize]) {
        objects.windows(2).for_each(|pair| self.links[pair[0]].push(pair[1]));
    }

    fn held_by(self, object: usize) -> Vec<u16> {
        let sizes = repeat_n(LARGEST_OBJECT, self.wide).chain(std::iter::repeat(1));
        laid(self.k, &sizes.zip(self.links).collect::<Vec<_>>(), Some(object))
    }
}

/// A wide object that links to others of one granule, which link to none.
pub fn wide(k: usize, order: Order) -> Vec<u16> {
    let mut plan = Plan::new(k, 1);
    let small = plan.small();
    let apart = (small.len() / MOST_LINKS).max(1);
    plan.links[0] = order.of(small.into_iter().step_by(apart).take(MOST_LINKS).collect());
    plan.held_by(0)
}

/// A wide object that links to the heads of lists. The last list in this order ends the store, or begins it.
pub fn heads(k: usize, order: Order) -> Vec<u16> {
    let mut plan = Plan::new(k, 1);
    let small = order.of(plan.small());
    let long = (small.len() / MOST_LINKS).max(3);
    let lists: Vec<&[usize]> = small.rchunks(long).take(MOST_LINKS).collect();
    for list in lists.into_iter().rev() {
        plan.links[0].push(list[0]);
        plan.list(list);
    }
    plan.held_by(0)
}

/// Wide objects that share out those of one granule, each to one of them in turn. The first links to the others too, last of all.
pub fn tree(k: usize) -> Vec<u16> {
    let mut plan = Plan::new(k, wide_objects(k));
    for (n, small) in plan.small().into_iter().enumerate() {
        plan.links[n % wide_objects(k)].push(small);
    }
    plan.links[0].extend(1..wide_objects(k));
    plan.held_by(0)
}

/// Of these each has thousands of objects of one granule to link to.
fn wide_objects(k: usize) -> usize {
    (k / 64).max(1)
}

/// Wide objects that link to objects of one granule, of which the last links to the next wide object.
pub fn relay(k: usize, order: Order) -> Vec<u16> {
    let mut plan = Plan::new(k, wide_objects(k));
    let small = order.of(plan.small());
    for (n, part) in small.rchunks(small.len() / plan.wide).take(plan.wide).enumerate() {
        plan.links[n].extend(part);
        plan.links[part[part.len() - 1]].extend((n + 1..plan.wide).take(1));
    }
    plan.held_by(0)
}

/// Wide objects and such of one granule, all of whose links go anywhere or are nil.
pub fn at_random(k: usize, seed: u64) -> Vec<u16> {
    let mut random = Random::new(seed);
    let mut plan = Plan::new(k, wide_objects(k));
    let objects = plan.links.len();
    for (n, links) in plan.links.iter_mut().enumerate() {
        let count = if n < wide_objects(k) { MOST_LINKS } else { 2 };
        links.extend((0..count).map(|_| random.below(2 * objects)));
    }
    plan.held_by(0)
}

/// A list through the whole store.
pub fn list(k: usize, order: Order) -> Vec<u16> {
    let mut plan = Plan::new(k, 0);
    let small = order.of(plan.small());
    plan.list(&small);
    plan.held_by(small[0])
}

/// A wide object that links to others of one granule, and last to the head of a list through all between them.
pub fn list_behind(k: usize, order: Order) -> Vec<u16> {
    let mut plan = Plan::new(k, 1);
    let small = plan.small();
    let apart = (small.len() / MOST_LINKS).max(2);
    let (ends, along): (Vec<usize>, Vec<usize>) = small.into_iter().partition(|n| n % apart == 0);
    let along = order.of(along);
    plan.links[0] = ends.into_iter().take(MOST_LINKS - 1).chain([along[0]]).collect();
    plan.list(&along);
    plan.held_by(0)
}
