//! Lists for one long batch in which two dues behind every step pin the count that a due answers from, and what such lists show.

use std::collections::{BTreeMap, BTreeSet};

use crate::generate::{new_of_size, of_a_player, player, record, Pace};
use crate::image::{Image, Store};
use crate::layout::LARGEST_OBJECT;
use crate::made::{bare, fresh_image, holes, idle, running};
use crate::random::Random;
use crate::record::*;
use crate::steps::{step, usable_granules, Placing};

/// A list and the image that it is drawn for.
pub struct List {
    pub image: Vec<u16>,
    pub steps: Vec<u8>,
}

const LISTS: usize = 600;
const STEPS: usize = 250;

/// The lists of the tests, the same for all of them.
pub fn lists() -> impl Iterator<Item = List> {
    let mut random = Random::new(20_261);
    (0..LISTS).map(move |round| list(&mut random, round))
}

/// Mostly of a few cards; some with room for the largest object, and some of 512.
fn list(random: &mut Random, round: usize) -> List {
    let k = match round % 15 {
        13 => random.from_to(17, 24),
        14 => 512,
        _ => 1 + round % 12,
    };
    let fresh = |_: &mut Random, k| fresh_image(k);
    let make =
        random.weighted(&[(2, fresh as fn(&mut Random, usize) -> _), (4, holes), (1, idle), (2, running), (1, bare)]);
    let image = make(random, k);
    let pace = Pace::draw(random);
    let steps = pinned(random, &mut image.clone(), STEPS, pace);
    List { image, steps }
}

/// So many steps, each drawn with the image in sight that it gets, with the dues behind each; about half of the lists begin with dues.
fn pinned(random: &mut Random, image: &mut [u16], count: usize, pace: Pace) -> Vec<u8> {
    let mut store = Store::of(image).expect("a fitting length");
    let mut steps = Vec::with_capacity(3 * RECORD_BYTES * (count + 1));
    if random.chance(50) {
        steps.extend(pins(store.image()).concat());
    }
    for _ in 0..count {
        let record = of_the_count(random, store.image(), pace);
        step(&mut store, record);
        steps.extend(record.to_bytes());
        steps.extend(pins(store.image()).concat());
    }
    steps
}

/// Dues of the usable granules and of one more. They say 0 and 1, and with no other count do they say both.
fn pins(image: Image) -> [Vec<u8>; 2] {
    let count = usable_granules(image) as u16;
    [count, count + 1].map(|wanted| Record::new(DUE, 0, wanted, 0, 0).to_bytes())
}

/// A step that may change the count, or one that seems to and is refused, or any.
fn of_the_count(random: &mut Random, image: Image, pace: Pace) -> Record {
    match random.below(20) {
        0 | 1 => new_leaving(random, image),
        2 => new_of_any_size(random, image),
        3 => refused_new(random, image),
        4 => refused(random, image),
        5..=11 if 4 * usable_granules(image) < image.granules() => making_room(random, image),
        _ => record(random, image, pace),
    }
}

/// A new that leaves a rest about as long as a run must be to count, or none.
fn new_leaving(random: &mut Random, image: Image) -> Record {
    let short = random.from_to(1, 6);
    let rest = random.weighted(&[(3, 0), (2, short), (2, 7), (2, 8), (1, 9)]);
    let size = random.pick(&sizes_leaving(image, rest)).unwrap_or(1);
    new_of_size(random, image, size)
}

/// Sizes of a new that leave so many granules of the run that it takes from, which is the shortest that suffices.
fn sizes_leaving(image: Image, rest: usize) -> Vec<usize> {
    let lengths: BTreeSet<usize> = image.runs().map(|(_, length)| length).collect();
    let mut shorter = 0;
    let size_of = |length: usize| {
        let size = length.saturating_sub(rest);
        let is_taken = size > shorter && size <= LARGEST_OBJECT;
        shorter = length;
        is_taken.then_some(size)
    };
    lengths.into_iter().filter_map(size_of).collect()
}

fn new_of_any_size(random: &mut Random, image: Image) -> Record {
    let any = random.from_to(1, LARGEST_OBJECT);
    let few = random.from_to(1, 64);
    let size = random.weighted(&[(1, 1), (1, 7), (2, 8), (1, 9), (2, few), (1, any), (4, LARGEST_OBJECT)]);
    new_of_size(random, image, size)
}

/// A new for which there is room but for one field that is wrong, or one longer than the longest run.
fn refused_new(random: &mut Random, image: Image) -> Record {
    let right = new_leaving(random, image);
    let longest = image.runs().map(|(_, length)| length).max().unwrap_or(0);
    let off = random.weighted(&[(3, 16), (1, 255)]);
    match random.below(10) {
        0 => Record { kind: random.weighted(&[(1, 0), (1, 16), (1, 17), (1, 129), (1, 255)]), ..right },
        1 => Record { who: off as u8, ..right },
        2 => Record { a: off, ..right },
        3 | 4 => Record { who: player(random, image, true).unwrap_or(16) as u8, ..right },
        5 => Record { b: 0, c: 0, ..right },
        6 => Record { b: random.weighted(&[(3, 1025), (1, 2048), (1, 65_535)]), ..right },
        7 => Record { c: 4 * right.b - 1, ..right },
        _ => Record { b: (longest + 1).min(LARGEST_OBJECT) as u16, ..right },
    }
}

/// A finish outside a cycle, or a finish or a due with a field that it does not name.
fn refused(random: &mut Random, image: Image) -> Record {
    let more = usable_granules(image) as u16 + 1;
    match random.below(4) {
        0 if !image.is_running() => Record::new(FINISH, 0, 0, 0, 0),
        0 | 1 => Record::new(FINISH, 0, 0, 0, 1),
        2 => Record::new(DUE, 1, more, 0, 0),
        _ => Record::new(DUE, 0, more, 1, 0),
    }
}

/// A drop, or a begin or finish: whichever the phase asks for.
fn making_room(random: &mut Random, image: Image) -> Record {
    if random.chance(70) {
        return of_a_player(random, image, DROP);
    }
    Record::new(if image.is_running() { FINISH } else { BEGIN }, 0, 0, 0, 0)
}

/// The length of the run that a new of that size takes from.
pub fn run_taken(placing: Placing, image: Image, size: usize) -> Option<usize> {
    placing.run(image.runs(), size).map(|(_, length)| length)
}

/// How often lists have shown what the count may turn on.
#[derive(Debug, Default)]
pub struct Shown {
    /// Steps that are not one of the dues behind a step, and those among them with both dues behind.
    pub steps: usize,
    pub pinned: usize,
    /// Lists by where they start.
    pub starts: BTreeMap<&'static str, usize>,
    /// Accepted steps by kind.
    pub accepted: [usize; 16],
    pub ways: BTreeMap<&'static str, usize>,
}

/// The starts and the ways that `Shown` tells apart.
const STARTS: usize = 6;
const WAYS: usize = 27;

impl Shown {
    pub fn count(&mut self, list: &List) {
        let mut image = list.image.clone();
        let mut store = Store::of(&mut image).expect("a fitting length");
        let records: Vec<Vec<u8>> = records(&list.steps).map(Record::to_bytes).collect();
        let begins_with_dues = records.starts_with(&pins(store.image()));
        for start in starts_of(store.image(), begins_with_dues) {
            *self.starts.entry(start).or_default() += 1;
        }
        let rest = if begins_with_dues { &records[2..] } else { &records };
        for step_and_dues in rest.chunks(3) {
            let (step, dues) = (&step_and_dues[0], &step_and_dues[1..]);
            self.count_step(&mut store, Record::from_bytes(step));
            self.steps += 1;
            self.pinned += usize::from(dues == pins(store.image()));
        }
    }

    fn count_step(&mut self, store: &mut Store, record: Record) {
        let count = usable_granules(store.image());
        let taken = run_taken(Placing::Tightest, store.image(), record.b());
        let (number, value) = step(store, record);
        let mut ways = match (record.kind, number, taken) {
            (NEW, 0, Some(length)) => vec![way_of_a_run(length, record.b()), way_of_a_size(record.b())],
            (FINISH, 0, _) => vec![way_of_a_finish(usable_granules(store.image()) - count, usize::from(value))],
            (kind, _, _) => way_of_a_refusal(kind, number).into_iter().collect(),
        };
        if (record.kind, number) == (NEW, 0) && store.image().is_running() {
            ways.push("a new in a cycle");
        }
        ways.into_iter().for_each(|way| *self.ways.entry(way).or_default() += 1);
        if number == 0 {
            self.accepted[usize::from(record.kind)] += 1;
        }
    }

    /// Every step is pinned, every start is shown 30 times, and every accepted kind and every way 100 times.
    pub fn is_worth_running(&self) -> bool {
        self.pinned == self.steps
            && self.starts.len() == STARTS
            && self.starts.values().all(|&shown| shown >= 30)
            && self.accepted[1..].iter().all(|&shown| shown >= 100)
            && self.ways.len() == WAYS
            && self.ways.values().all(|&shown| shown >= 100)
    }
}

fn starts_of(image: Image, begins_with_dues: bool) -> [&'static str; 2] {
    let store = match () {
        _ if image.cards() == 512 => "512 cards",
        _ if image.is_running() => "in a cycle",
        _ if image.starts().next().is_none() => "a fresh store",
        _ => "a store with objects",
    };
    [store, if begins_with_dues { "with dues" } else { "with a step" }]
}

fn way_of_a_run(length: usize, size: usize) -> &'static str {
    match (length >= 8, length - size) {
        (true, 0) => "a long run used up",
        (true, 1..=6) => "a long run, a rest of 1 to 6",
        (true, 7) => "a long run, a rest of 7",
        (true, 8) => "a long run, a rest of 8",
        (true, _) => "a long run, a rest of 9 or more",
        (false, 0) => "a short run used up",
        (false, _) => "a short run, a rest",
    }
}

fn way_of_a_size(size: usize) -> &'static str {
    match size {
        1 => "a new of 1",
        2..=7 => "a new of 2 to 7",
        8 => "a new of 8",
        9..=63 => "a new of 9 to 63",
        LARGEST_OBJECT => "a new of 1024",
        _ => "a new of 64 to 1023",
    }
}

/// By how much the count has risen, and the granules freed.
fn way_of_a_finish(risen: usize, freed: usize) -> &'static str {
    match (risen, freed) {
        (_, 0) => "a finish that frees nothing",
        (0, _) => "a finish that frees and leaves the count",
        _ if risen < freed => "a finish that frees more than the count rises",
        _ if risen == freed => "a finish that frees what the count rises",
        _ => "a finish that frees less than the count rises",
    }
}

fn way_of_a_refusal(kind: u8, number: u16) -> Option<&'static str> {
    match (kind, number) {
        (NEW, 4) => Some("a new off the desk"),
        (NEW, 5) => Some("a new of a player who owes"),
        (NEW, 8) => Some("a new of a bad size"),
        (NEW, 9) => Some("a new without room"),
        (FINISH, 3) => Some("a finish that names more"),
        (FINISH, 10) => Some("a finish outside a cycle"),
        (DUE, 3) => Some("a due that names more"),
        (0 | 16.., 3) => Some("an unknown kind"),
        _ => None,
    }
}
