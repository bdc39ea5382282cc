//! Lists of steps that make a cycle drag on, for document 02, (vii): the tracers are given as much to trace and clean as the rules allow, and try
//! again and again after that. Each record is run by the right rules, so that the next can be chosen by what it came to.

use std::collections::BTreeSet;

use crate::cases::evolved;
use crate::events::List;
use crate::generate::{batches, list_that_drags, Pace};
use crate::image::{Image, Store};
use crate::layout::{CARD_GRANULES, GRANULE_WORDS, LARGEST_OBJECT, PLAYERS, REGISTERS, TRACERS};
use crate::made::{bare, far, fresh_image, idle, running};
use crate::random::Random;
use crate::record::*;
use crate::steps::step;
use crate::work::{at_most, at_most_sharper};

/// A list under way.
struct Drive {
    image: Vec<u16>,
    steps: Vec<u8>,
}

impl Drive {
    fn on(image: Vec<u16>) -> Drive {
        Drive { image, steps: Vec::new() }
    }

    fn image(&self) -> Image<'_> {
        Image::of(&self.image).expect("a fitting length")
    }

    /// Whether the step is accepted.
    fn step(&mut self, kind: u8, who: usize, [a, b, c]: [usize; 3]) -> bool {
        let record = Record::new(kind, who as u8, a as u16, b as u16, c as u16);
        self.steps.extend(record.to_bytes());
        step(&mut Store::of(&mut self.image).expect("a fitting length"), record).0 == 0
    }

    fn begin(&mut self) -> bool {
        self.step(BEGIN, 0, [0; 3])
    }

    fn finish(&mut self) -> bool {
        self.step(FINISH, 0, [0; 3])
    }

    fn scan(&mut self, tracer: usize, player: usize) -> bool {
        self.step(SCAN, tracer, [player, 0, 0])
    }

    /// Link `link` of the object in register `into` gets register `from`, and the barrier follows.
    fn store(&mut self, player: usize, into: usize, link: usize, from: usize) -> bool {
        self.step(STORE, player, [into, link, from]) && self.step(BARRIER, player, [0; 3])
    }

    /// So many traces or cleans, accepted or not.
    fn tries(&mut self, kind: u8, tracer: usize, times: usize) {
        (0..times).for_each(|_| _ = self.step(kind, tracer, [0; 3]));
    }

    /// Traces or cleans up to the first that is refused. Gives how many are accepted.
    fn until_refused(&mut self, kind: u8, tracer: usize) -> usize {
        (0..).take_while(|_| self.step(kind, tracer, [0; 3])).count()
    }

    /// All tracers trace and clean until each of them is refused both.
    fn exhaust(&mut self) -> usize {
        let mut accepted = 0;
        loop {
            let once: usize = (0..TRACERS).map(|t| self.until_refused(TRACE, t) + self.until_refused(CLEAN, t)).sum();
            accepted += once;
            if once == 0 {
                return accepted;
            }
        }
    }

    /// Lays objects of these sizes with as many links as they can have, the later ones before the others in a chain that player 0 holds: the first
    /// link of each goes to itself, the last to the next one.
    fn lay_chain(&mut self, sizes: &[usize]) {
        for &size in sizes {
            let links = GRANULE_WORDS * size - 2;
            self.step(NEW, 0, [1, size, links]);
            self.store(0, 1, 0, 1);
            self.store(0, 1, links - 1, 0);
            self.step(HAND, 0, [1, 0, 0]);
        }
        self.step(DROP, 0, [1, 0, 0]);
    }

    /// Player 1 walks along the chain and dirties the card of each object.
    fn dirty_chain(&mut self) {
        self.step(HAND, 0, [0, 1, 0]);
        while self.image().register(1, 0) != 0 {
            let links = self.image().object(self.image().register(1, 0)).links.len();
            self.store(1, 0, 0, 0);
            self.step(LOAD, 1, [0, 0, links - 1]);
        }
    }

    /// Fills the runs with objects that have many links, each in a register of a player who can take it, with some of the links stored.
    fn fill(&mut self, random: &mut Random) {
        for (player, register) in (0..PLAYERS).flat_map(|p| (0..REGISTERS).map(move |r| (p, r))) {
            let Some((_, length)) = self.image().runs().next() else { return };
            let (is_held, owes) =
                (self.image().register(player, register) != 0, self.image().owed_card(player).is_some());
            if is_held || owes {
                continue;
            }
            let size = random.from_to(1, length.min(LARGEST_OBJECT));
            let most = GRANULE_WORDS * size - 2;
            let links = if random.chance(80) { most } else { random.from_to(1, most) };
            self.step(NEW, player, [register, size, links]);
            for _ in 0..random.from_to(0, 3) {
                self.store(player, register, random.below(links), random.below(REGISTERS));
            }
        }
    }

    /// Tracers take turns, at random.
    fn in_turns(&mut self, random: &mut Random, steps: usize) {
        for _ in 0..steps {
            let kind = if random.chance(60) { TRACE } else { CLEAN };
            let tracer = random.below(TRACERS);
            self.tries(kind, tracer, random.from_to(1, 9));
        }
    }

    /// Dirties the cards of all objects that a player holds and can store into.
    fn dirty_held(&mut self) {
        for (player, register) in (0..PLAYERS).flat_map(|p| (0..REGISTERS).map(move |r| (p, r))) {
            let object = self.image().register(player, register);
            if object != 0 && !self.image().object(object).links.is_empty() {
                self.step(BARRIER, player, [0; 3]);
                self.store(player, register, 0, register);
            }
        }
    }

    /// Each object of the chain is entered alone, so that a packet is taken for each entry; all is traced before any card turns dirty, and
    /// cleaned then.
    fn longest_cycle(&mut self) {
        self.begin();
        self.scan(0, 0);
        self.until_refused(TRACE, 0);
        self.dirty_chain();
        self.until_refused(CLEAN, 0);
    }

    fn undirty_all(&mut self) {
        (0..self.image().cards()).for_each(|card| {
            self.step(UNDIRTY, 0, [card, 0, 0]);
        });
    }

    /// Dirties the chain again and tries again, so often that these trace and clean steps alone are more than 12 × G: where all of them found
    /// something to do they would go over it.
    fn try_again(&mut self, random: &mut Random) {
        let granules = self.image().granules();
        for round in 0..8 {
            let tracer = if round % 2 == 0 { 0 } else { random.below(TRACERS) };
            self.begin();
            self.dirty_chain();
            self.undirty_all();
            self.tries(CLEAN, tracer, granules);
            self.tries(TRACE, tracer, granules);
        }
    }

    /// The players that are left are scanned, in any order, and tracers take turns between.
    fn scan_all(&mut self, random: &mut Random) {
        let mut players: Vec<usize> = (0..PLAYERS).collect();
        random.shuffle(&mut players);
        for player in players {
            self.scan(random.below(TRACERS), player);
            self.in_turns(random, 5);
        }
    }

    /// The tracers do all that they can, with cards dirtied and wiped between.
    fn drag_on(&mut self) {
        while self.exhaust() > 0 {
            self.dirty_held();
            self.undirty_all();
        }
    }

    fn in_batches(self, random: &mut Random, image: Vec<u16>) -> List {
        List { image, batches: batches(random, &self.steps) }
    }
}

/// Sizes that fill a store of k cards, so that objects start on every card.
pub fn sizes(random: &mut Random, k: usize) -> Vec<usize> {
    let most = random.weighted(&[(1, 3), (1, 20), (2, CARD_GRANULES)]);
    let mut left = CARD_GRANULES * k - 1;
    let mut sizes = Vec::new();
    while left > 0 {
        // What is left of the card, or less.
        let on_card = CARD_GRANULES - (CARD_GRANULES * k - left) % CARD_GRANULES;
        let size = if random.chance(10) { on_card } else { random.from_to(1, most) };
        sizes.push(size.min(on_card));
        left -= sizes[sizes.len() - 1];
    }
    sizes
}

/// On a store of one card: a cue of 63 granules and 250 links in player 0's register 0, traced and then cleaned by tracer 0. The last trace and the
/// last clean find nothing to do.
pub fn worked_example() -> Vec<u8> {
    let record = |kind, a, b, c| Record::new(kind, 0, a, b, c);
    let alone = |kind, times| vec![record(kind, 0, 0, 0); times];
    let list = [
        vec![record(NEW, 0, 63, 250), record(BEGIN, 0, 0, 0), record(SCAN, 0, 0, 0)],
        alone(TRACE, 253),
        vec![record(STORE, 0, 0, 0), record(BARRIER, 0, 0, 0)],
        alone(CLEAN, 254),
    ];
    list.concat().into_iter().flat_map(Record::to_bytes).collect()
}

/// The longest cycle on a fresh store that objects of these sizes fill: of an object of s granules a packet, an entry and 4 × s − 2 links are traced,
/// and it and these links are cleaned; each card is taken and let go. In all 8 × (G − 1) − objects + 2 × k.
pub fn longest(k: usize, sizes: &[usize]) -> Vec<u8> {
    let mut drive = Drive::on(fresh_image(k));
    drive.lay_chain(sizes);
    drive.longest_cycle();
    drive.steps
}

/// Cycles that finish soon after a scan; the longest one, tried again after that; and one with more traces than can be accepted before any card is
/// dirty, in which tracers take turns after that.
fn chained(random: &mut Random) -> List {
    let k = random.from_to(1, 3);
    let sizes = sizes(random, k);
    let mut drive = Drive::on(fresh_image(k));
    drive.lay_chain(&sizes);
    for _ in 0..random.below(3) {
        drive.begin();
        drive.scan(random.below(TRACERS), 0);
        drive.finish();
    }
    drive.longest_cycle();
    drive.try_again(random);
    drive.finish();
    drive.begin();
    let tracer = random.below(TRACERS);
    drive.scan(tracer, 0);
    drive.tries(TRACE, tracer, at_most(k) + 1);
    drive.dirty_chain();
    drive.in_turns(random, 50);
    drive.exhaust();
    drive.in_batches(random, fresh_image(k))
}

/// Players fill a store in a cycle. Nothing is marked: their card is dirtied and wiped; dirtied, taken, dirtied again and wiped, so often that a
/// card that were taken each time would be taken too often.
fn wiped(random: &mut Random) -> List {
    let mut drive = Drive::on(fresh_image(1));
    let sizes: &[usize] = if random.chance(50) { &[63] } else { &[20, 43] };
    drive.begin();
    drive.lay_chain(sizes);
    for _ in 0..10 {
        drive.store(0, 0, 0, 0);
        drive.step(UNDIRTY, 0, [0; 3]);
    }
    for _ in 0..at_most(1) / 2 + 1 {
        let tracer = random.below(TRACERS);
        drive.store(0, 0, 0, 0);
        drive.tries(CLEAN, tracer, 2);
        drive.store(0, 0, 0, 0);
        drive.step(UNDIRTY, 0, [0; 3]);
    }
    drive.in_batches(random, fresh_image(1))
}

/// The fewest cards of a store in which objects enough for `starving` have room.
const STARVING_CARDS: usize = 12;

/// Seven tracers hold two packets each, and an object links to more others than the packets that are left have space for. The cards of those that
/// find none turn dirty.
fn starving(random: &mut Random) -> List {
    let mut drive = Drive::on(fresh_image(STARVING_CARDS));
    let children = random.from_to(540, 580);
    drive.step(NEW, 0, [0, 150, 598]);
    for child in 0..children {
        drive.step(NEW, 0, [1, 1, 2]);
        drive.store(0, 0, child, 1);
    }
    drive.step(DROP, 0, [1, 0, 0]);
    (1..PLAYERS - 1).for_each(|player| _ = drive.step(NEW, player, [0, 1, 1]));
    drive.begin();
    for tracer in 1..TRACERS {
        drive.scan(tracer, tracer);
        drive.step(TRACE, tracer, [0; 3]);
        drive.scan(tracer, tracer + 7);
    }
    drive.scan(0, 0);
    drive.exhaust();
    drive.dirty_held();
    drive.exhaust();
    drive.in_batches(random, fresh_image(STARVING_CARDS))
}

/// Cycles on a drawn image, in the middle of one perhaps: random steps, mostly of the tracers, and then all that there is to do, with cards dirtied
/// and wiped between.
fn drawn(random: &mut Random) -> List {
    let k = random.from_to(1, 3);
    let make = random.weighted(&[
        (1, running as fn(&mut Random, usize) -> Vec<u16>),
        (1, bare),
        (2, idle),
        (2, far),
        (1, evolved),
        (1, |_, k| fresh_image(k)),
    ]);
    let image = make(random, k);
    let mut drive = Drive::on(image.clone());
    for _ in 0..3 {
        if random.chance(70) {
            drive.fill(random);
        }
        drive.begin();
        // A card that turns dirty early is taken before there is much on it to clean.
        if random.chance(70) {
            drive.scan_all(random);
        }
        let pace = Pace { wild: 15, finish: 0, ..Pace::draw(random) };
        let count = random.from_to(50, 300);
        drive.steps.extend(list_that_drags(random, &mut drive.image, count, pace));
        drive.scan_all(random);
        drive.drag_on();
        drive.finish();
    }
    drive.in_batches(random, image)
}

/// A short cycle on an image with none: a few steps of players and tracers, among them some that find nothing to do.
pub fn short_cycle(random: &mut Random, image: &[u16]) -> Vec<u8> {
    let mut drive = Drive::on(image.to_vec());
    drive.begin();
    let holders: Vec<usize> = (0..PLAYERS).filter(|&p| drive.image().registers_of(p).any(|g| g != 0)).collect();
    drive.scan(random.below(TRACERS), random.pick(&holders).unwrap_or(0));
    let pace = Pace { finish: 0, ..Pace::draw(random) };
    drive.steps.extend(list_that_drags(random, &mut drive.image, 12, pace));
    drive.in_turns(random, 2);
    drive.finish();
    drive.steps
}

const LISTS: usize = 60;

/// The lists of the tests, the same for all of them.
pub fn lists() -> impl Iterator<Item = List> {
    (0..LISTS).map(list)
}

/// Each kind of them, and one in three of all.
pub fn some_lists() -> impl Iterator<Item = List> {
    (0..LISTS).step_by(3).map(list)
}

fn list(round: usize) -> List {
    let random = &mut Random::new(20_270 + round as u64);
    match round % 10 {
        0..=2 => chained(random),
        3 => wiped(random),
        4 if round % 20 == 4 => starving(random),
        _ => drawn(random),
    }
}

/// What lists show that are run by the right rules.
#[derive(Debug, Default)]
pub struct Shown {
    /// Cycles in which more than 12 × G trace and clean steps are tried.
    pub tried_over: usize,
    /// Cycles that accept all that their objects can come to, and more than that.
    pub reached: usize,
    pub over: usize,
    /// Lists whose cycles, taken together, accept more than the sharper figure.
    pub together_over: usize,
    /// Lists with accepted trace or clean steps of more than one tracer.
    pub tracers: usize,
    /// Cleans that are refused although a card is dirty and taken.
    pub left_dirty: usize,
}

/// The trace and clean steps of a cycle.
#[derive(Clone, Copy, Default)]
struct Tried {
    all: usize,
    accepted: usize,
}

impl Shown {
    pub fn count(&mut self, list: &List) {
        let mut image = list.image.clone();
        let mut store = Store::of(&mut image).expect("a fitting length");
        let (mut cycle, mut accepted, mut tracers) = (None, 0, BTreeSet::new());
        let fitting = list.batches.iter().filter(|(steps, words)| steps.len() == 4 * words);
        for record in fitting.flat_map(|(steps, _)| records(steps)) {
            let most = if record.kind == FINISH { most_work(store.image()) } else { 0 };
            let left_dirty = (0..store.layout.cards).any(|c| store.image().card(c) == 3);
            let (number, _) = step(&mut store, record);
            match (record.kind, number) {
                (BEGIN, 0) => cycle = Some(Tried::default()),
                (FINISH, 0) => self.count_cycle(cycle.take(), store.layout.cards, most),
                (TRACE | CLEAN, _) => {
                    let worked = usize::from(number == 0);
                    cycle = cycle.map(|c| Tried { all: c.all + 1, accepted: c.accepted + worked });
                    accepted += worked;
                    tracers.extend((number == 0).then_some(record.who));
                    self.left_dirty += usize::from((record.kind, number) == (CLEAN, 11) && left_dirty);
                }
                _ => {}
            }
        }
        let k = store.layout.cards;
        self.count_cycle(cycle, k, most_work(store.image()));
        self.together_over += usize::from(accepted > at_most_sharper(k));
        self.tracers += usize::from(tracers.len() > 1);
    }

    fn count_cycle(&mut self, cycle: Option<Tried>, k: usize, most: usize) {
        let Some(Tried { all, accepted }) = cycle else { return };
        self.tried_over += usize::from(all > at_most(k));
        self.reached += usize::from(accepted == most);
        self.over += usize::from(accepted > most);
    }

    pub fn is_worth_running(&self) -> bool {
        let seen = [self.tried_over, self.reached, self.together_over, self.tracers];
        seen.iter().all(|&seen| seen >= 10) && self.over == 0 && self.left_dirty >= 10_000
    }
}

/// The most that the objects of an image can come to in a cycle: twice their links and three for each, and two for each card.
fn most_work(image: Image) -> usize {
    image.objects().map(|object| 2 * object.links.len() + 3).sum::<usize>() + 2 * image.cards()
}
