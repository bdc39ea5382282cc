//! The check of whole lists of steps: batches run through any implementation of `batch`, their
//! history, and what must hold of it. Records are read here by their bytes and by the plain store, never by `crate::record`,
//! which the real steps use.

use std::collections::BTreeSet;

use crate::image::{ImageOf, Object};
use crate::judge::first_damage;
use crate::plain::reading::Reading;
use crate::plain::record::{is_of_a_player, NEW};
use crate::plain::Plain;
use crate::vectors::untouched;
use crate::width::{Places, Width};
use crate::work::{Cycles, Most};

/// The other kinds that the check tells apart, as the documents number them.
const BEGIN: u8 = 9;
const SCAN: u8 = 10;
const CLEAN: u8 = 12;
const FINISH: u8 = 13;
const DUE: u8 = 14;
const UNDIRTY: u8 = 15;

/// What a list has shown, so that a test can see that it was worth running.
#[derive(Clone, Debug, Default, PartialEq, Eq)]
pub struct Counts {
    pub steps: usize,
    /// Accepted steps by kind.
    pub accepted: [usize; 16],
    /// Steps with a kind not 1 to 15.
    pub unknown_kinds: usize,
    /// Steps by number.
    pub numbers: [usize; 12],
    pub refused_batches: usize,
    pub finishes_that_free: usize,
    pub finishes_that_keep: usize,
    /// Finishes that keep an object that was not marked.
    pub finishes_that_find: usize,
    /// Objects that no chain reached at a begin, freed by the next finish.
    pub garbage_freed: usize,
    /// Tracers' steps that found no packet for an object.
    pub without_packet: usize,
    /// Steps of kind 15 by number.
    pub undirty_numbers: [usize; 12],
    pub wiped: Wiped,
    /// Of the cycle that accepts the most trace and clean steps.
    pub work: Most,
}

/// The cards that accepted undirty steps found.
#[derive(Clone, Debug, Default, PartialEq, Eq)]
pub struct Wiped {
    /// In state 1, and in state 3.
    pub dirty: usize,
    pub dirty_and_taken: usize,
    /// In a tracer's hand, and owed by a player.
    pub in_hand: usize,
    pub owed: usize,
}

impl Wiped {
    /// Counts a record that the image accepts.
    pub fn count<W: Width>(&mut self, bytes: &[u8], got: ImageOf<W>) {
        if bytes[0] != UNDIRTY {
            return;
        }
        let card = card_named::<W>(bytes);
        self.dirty += usize::from(got.card(card) == 1);
        self.dirty_and_taken += usize::from(got.card(card) == 3);
        self.in_hand += usize::from(got.tracers().any(|t| t.card.is_some_and(|(c, _)| c == card)));
        self.owed += usize::from((0..W::PLAYERS).any(|p| got.owed_card(p) == Some(card)));
    }

    pub fn add(&mut self, other: &Wiped) {
        self.dirty += other.dirty;
        self.dirty_and_taken += other.dirty_and_taken;
        self.in_hand += other.in_hand;
        self.owed += other.owed;
    }

    /// Each of the four is seen at least so often.
    pub fn all_at_least(&self, least: usize) -> bool {
        [self.dirty, self.dirty_and_taken, self.in_hand, self.owed].iter().all(|&seen| seen >= least)
    }
}

impl Counts {
    pub fn add(&mut self, other: &Counts) {
        self.steps += other.steps;
        self.accepted.iter_mut().zip(other.accepted).for_each(|(a, b)| *a += b);
        self.unknown_kinds += other.unknown_kinds;
        self.numbers.iter_mut().zip(other.numbers).for_each(|(a, b)| *a += b);
        self.refused_batches += other.refused_batches;
        self.finishes_that_free += other.finishes_that_free;
        self.finishes_that_keep += other.finishes_that_keep;
        self.finishes_that_find += other.finishes_that_find;
        self.garbage_freed += other.garbage_freed;
        self.without_packet += other.without_packet;
        self.undirty_numbers.iter_mut().zip(other.undirty_numbers).for_each(|(a, b)| *a += b);
        self.wiped.add(&other.wiped);
        self.work.add(other.work);
    }
}

/// Runs the batches, given as step bytes and number of answer words, each on the image that the last
/// left, and checks the whole list. The error says what does not hold and where.
pub fn whole_list<W: Width>(
    first_image: &[W],
    batches: &[(Vec<u8>, usize)],
    mut run: impl FnMut(&mut [W], &[u8], &mut [W]) -> u16,
) -> Result<Counts, String> {
    check_list(true, first_image, batches, &mut run)
}

/// Only "what players and sweeps may rely on", and how many trace and clean steps a cycle accepts: the images that steps leave are not
/// judged, and an undirty is not held to its rule. What is told of a wrong step is then what comes of it, and not the step.
pub fn players_and_sweeps<W: Width>(
    first_image: &[W],
    batches: &[(Vec<u8>, usize)],
    mut run: impl FnMut(&mut [W], &[u8], &mut [W]) -> u16,
) -> Result<Counts, String> {
    check_list(false, first_image, batches, &mut run)
}

/// An implementation of `batch`. The check is compiled once for all of them.
type Run<'a, W> = &'a mut dyn FnMut(&mut [W], &[u8], &mut [W]) -> u16;

fn check_list<W: Width>(
    is_strict: bool,
    first_image: &[W],
    batches: &[(Vec<u8>, usize)],
    run: Run<W>,
) -> Result<Counts, String> {
    ensure_undamaged(first_image, "the first image")?;
    let mut list = List::new(first_image, is_strict);
    let mut image = first_image.to_vec();
    for (n, (steps, answer_words)) in batches.iter().enumerate() {
        list.run_batch(&mut image, steps, *answer_words, run).map_err(|e| format!("batch {n}: {e}"))?;
    }
    let k = ImageOf::of(first_image).expect("an undamaged image fits").cards();
    list.counts.work = list.cycles.check(k)?;
    Ok(list.counts)
}

/// A record of an accepted batch with the image it got, the image it left, and its answer.
struct Moment<'a, W: Width> {
    place: usize,
    bytes: &'a [u8],
    got: ImageOf<'a, W>,
    left: ImageOf<'a, W>,
    number: usize,
    value: usize,
}

impl<W: Width> Moment<'_, W> {
    fn kind(&self) -> u8 {
        self.bytes[0]
    }

    fn is_accepted(&self, kind: u8) -> bool {
        self.kind() == kind && self.number == 0
    }

    fn is_new_without_room(&self) -> bool {
        self.kind() == NEW && self.number == 9
    }
}

struct List {
    plain: Plain,
    reading: Reading,
    /// What no chain reached at the last accepted begin, until the next accepted finish.
    garbage: Option<Vec<usize>>,
    cycles: Cycles,
    counts: Counts,
    /// Each step is looked at, and not only what comes of it.
    is_strict: bool,
}

fn ensure(holds: bool, what: impl Fn() -> String) -> Result<(), String> {
    if holds {
        Ok(())
    } else {
        Err(what())
    }
}

fn ensure_undamaged<W: Width>(image: &[W], what: &str) -> Result<(), String> {
    let damage = first_damage(image);
    ensure(damage.is_none(), || format!("{what} is damaged: {damage:?}"))
}

impl List {
    fn new<W: Width>(first_image: &[W], is_strict: bool) -> List {
        let (plain, reading) = (Plain::of(first_image), Reading::of(first_image));
        List { plain, reading, garbage: None, cycles: Cycles::default(), counts: Counts::default(), is_strict }
    }

    /// Runs a batch whole, and beside it one record at a time to get the images between.
    fn run_batch<W: Width>(
        &mut self,
        image: &mut Vec<W>,
        steps: &[u8],
        answer_words: usize,
        run: Run<W>,
    ) -> Result<(), String> {
        let mut left = image.clone();
        let mut answers = vec![untouched(); answer_words];
        let result = run(&mut left, steps, &mut answers);
        let fits = steps.len().is_multiple_of(W::STEP_BYTES) && answer_words == steps.len() / W::STEP_BYTES * 2;
        ensure(result == u16::from(!fits), || format!("the result is {result}"))?;
        if !fits {
            self.counts.refused_batches += 1;
            let alone = left == *image && answers.iter().all(|&w| w == untouched());
            return ensure(alone, || "a refused batch wrote".to_string());
        }
        let mut single_answers = Vec::new();
        for bytes in steps.chunks_exact(W::STEP_BYTES) {
            single_answers.extend(self.run_record(image, bytes, run)?);
        }
        ensure(*image == left, || "one step at a time leaves another image".to_string())?;
        ensure(single_answers == answers, || "one step at a time gives other answers".to_string())
    }

    fn run_record<W: Width>(&mut self, image: &mut Vec<W>, bytes: &[u8], run: Run<W>) -> Result<[W; 2], String> {
        let place = self.counts.steps;
        let say = |e: String| format!("step {place}, {bytes:02x?}: {e}");
        let mut left = image.clone();
        let mut answer = [untouched(); 2];
        let result = run(&mut left, bytes, &mut answer);
        ensure(result == 0, || say(format!("the result is {result}")))?;
        if self.is_strict {
            ensure_undamaged(&left, "the image left").map_err(say)?;
        }
        let [number, value] = answer.map(W::number);
        let got = ImageOf::of(image).ok_or("an image of another length")?;
        let left_image = ImageOf::of(&left).ok_or("an image of another length")?;
        self.check(&Moment { place, bytes, got, left: left_image, number, value }).map_err(say)?;
        *image = left;
        Ok(answer)
    }

    fn check<W: Width>(&mut self, moment: &Moment<W>) -> Result<(), String> {
        ensure(moment.number <= 11, || format!("number {}", moment.number))?;
        ensure(moment.number == 0 || moment.value == 0, || "a refused step has a value".to_string())?;
        check_zeros(moment)?;
        check_phase(moment)?;
        if self.is_strict && moment.kind() == UNDIRTY {
            check_undirty(moment)?;
        }
        if moment.kind() == DUE {
            check_due(moment)?;
        }
        if moment.is_accepted(FINISH) {
            self.check_finish(moment)?;
        }
        self.check_garbage(moment)?;
        self.check_room(moment)?;
        self.check_plain(moment)?;
        self.count(moment);
        Ok(())
    }

    /// What a finish keeps is what is marked or found by its rule; nothing that a chain reaches goes.
    fn check_finish<W: Width>(&mut self, moment: &Moment<W>) -> Result<(), String> {
        let found = found_by_rule(moment.got);
        let is_kept = |g: usize| moment.got.is_marked(g) || found.contains(&g);
        let kept: Vec<Object<W>> = moment.got.objects().filter(|o| is_kept(o.start)).collect();
        let freed: Vec<Object<W>> = moment.got.objects().filter(|o| !is_kept(o.start)).collect();
        let left: Vec<Object<W>> = moment.left.objects().collect();
        ensure(kept == left, || "other objects are kept than those marked or found".to_string())?;
        for g in reached_by_chains(moment.got) {
            let stays = moment.left.is_start(g) && moment.left.object(g) == moment.got.object(g);
            ensure(stays, || format!("object {g} is reached by a chain and does not stay"))?;
        }
        let growth = free_granules(moment.left) - free_granules(moment.got);
        ensure(moment.value == growth, || format!("value {}, not {growth}", moment.value))?;
        let runs: BTreeSet<usize> = moment.left.runs().map(|(g, _)| g).collect();
        ensure(freed.iter().all(|o| is_cleared(moment.left, &runs, o)), || "a freed granule is not zero".to_string())?;
        self.counts.finishes_that_free += usize::from(!freed.is_empty());
        self.counts.finishes_that_keep += usize::from(!kept.is_empty());
        self.counts.finishes_that_find += usize::from(kept.iter().any(|o| !moment.got.is_marked(o.start)));
        Ok(())
    }

    /// What no chain reached at a begin, the next finish frees.
    fn check_garbage<W: Width>(&mut self, moment: &Moment<W>) -> Result<(), String> {
        if moment.is_accepted(BEGIN) {
            let reached = reached_by_chains(moment.got);
            self.garbage = Some(moment.got.starts().filter(|g| !reached.contains(g)).collect());
        }
        if moment.is_accepted(FINISH) {
            for g in self.garbage.take().unwrap_or_default() {
                let is_freed = moment.got.is_start(g) && !moment.left.is_start(g);
                ensure(is_freed, || format!("object {g}, reached by no chain at the begin, is not freed"))?;
                self.counts.garbage_freed += 1;
            }
        }
        Ok(())
    }

    /// A new with no earlier refusal gets the shortest stretch that suffices, the lowest of equals, or 9 if there is none.
    fn check_room<W: Width>(&self, moment: &Moment<W>) -> Result<(), String> {
        if moment.kind() != NEW {
            return ensure(moment.number != 9, || "no room for what is not a new".to_string());
        }
        let Some(size) = self.plain.room_wanted(W::fields(moment.bytes)) else {
            return ensure(moment.number != 9, || "no room before an earlier refusal".to_string());
        };
        let sufficing = unused_stretches(moment.got).into_iter().filter(|&(_, length)| length >= size);
        let stretch = sufficing.min_by_key(|&(g, length)| (length, g));
        let right = match stretch {
            Some((g, _)) => moment.number == 0 && moment.value == g,
            None => moment.number == 9,
        };
        ensure(right, || format!("answer {} {}, with the stretch {stretch:?}", moment.number, moment.value))
    }

    /// The players' records on the plain store get the same numbers and values.
    fn check_plain<W: Width>(&mut self, moment: &Moment<W>) -> Result<(), String> {
        if !is_of_a_player(moment.bytes) || moment.is_new_without_room() {
            return Ok(());
        }
        let real = self.reading.value(moment.kind(), moment.place, moment.number, moment.value)?;
        let (number, value) = self.plain.step(W::fields(moment.bytes), moment.place);
        ensure((moment.number, real) == (number.into(), value), || {
            format!("{} {real:?}, but {number} {value:?} on the plain store", moment.number)
        })
    }

    fn count<W: Width>(&mut self, moment: &Moment<W>) {
        let kind = usize::from(moment.kind());
        self.cycles.count(moment.bytes, moment.number as u16);
        self.counts.steps += 1;
        self.counts.numbers[moment.number] += 1;
        if moment.kind() == UNDIRTY {
            self.counts.undirty_numbers[moment.number] += 1;
        }
        if !(1..=15).contains(&kind) {
            self.counts.unknown_kinds += 1;
        } else if moment.number == 0 {
            self.counts.accepted[kind] += 1;
            self.counts.without_packet += usize::from(found_no_packet(moment.bytes, moment.got, moment.left));
            self.counts.wiped.count(moment.bytes, moment.got);
        }
    }
}

/// "3 also if a zero byte isn't 0", whatever the kind.
fn check_zeros<W: Width>(moment: &Moment<W>) -> Result<(), String> {
    ensure(!W::fields(moment.bytes).is_stray || moment.number == 3, || "a zero byte is not 0".to_string())
}

/// A due gets 3, or says whether the stretches of 8 granules or more have fewer than it asks for.
fn check_due<W: Width>(moment: &Moment<W>) -> Result<(), String> {
    let fields = W::fields(moment.bytes);
    let usable = unused_stretches(moment.got).into_iter().map(|(_, length)| length).filter(|&length| length >= 8);
    let wanted = match fields.is_stray || fields.who > 0 || fields.b > 0 || fields.c > 0 {
        true => (3, 0),
        false => (0, usize::from(usable.sum::<usize>() < fields.a as usize)),
    };
    ensure((moment.number, moment.value) == wanted, || format!("due gives {} {}", moment.number, moment.value))
}

/// A begin gets 3, or 10 in a cycle, or 0; a finish 3, or 10 outside one, or 0.
fn check_phase<W: Width>(moment: &Moment<W>) -> Result<(), String> {
    let wrong = match moment.kind() {
        BEGIN => moment.got.is_running(),
        FINISH => !moment.got.is_running(),
        _ => return Ok(()),
    };
    let names_nothing = moment.bytes[1..].iter().all(|&byte| byte == 0);
    let number = match (names_nothing, wrong) {
        (false, _) => 3,
        (true, true) => 10,
        (true, false) => 0,
    };
    ensure(moment.number == number, || format!("number {}, not {number}", moment.number))
}

/// An undirty gets 3, 4, 10, 11 or 0, and alters nothing but its card's state. Marked objects are counted here and not read.
fn check_undirty<W: Width>(moment: &Moment<W>) -> Result<(), String> {
    let got = moment.got;
    let card = card_named::<W>(moment.bytes);
    let fields = W::fields(moment.bytes);
    let names_more = fields.is_stray || fields.who > 0 || fields.b > 0 || fields.c > 0;
    let on_card = || W::CARD_GRANULES * card..W::CARD_GRANULES * (card + 1);
    let number = match () {
        _ if names_more => 3,
        _ if card >= got.cards() => 4,
        _ if !got.is_running() => 10,
        _ if !got.is_dirty(card) || got.starts_in(on_card()).any(|g| got.is_marked(g)) => 11,
        _ => 0,
    };
    ensure((moment.number, moment.value) == (number, 0), || format!("number {}, not {number}", moment.number))?;
    let mut wanted = got.words.to_vec();
    if number == 0 {
        wanted[got.layout.card(card)] = W::of(if got.card(card) == 1 { 0 } else { 2 });
    }
    ensure(moment.left.words == wanted, || "an undirty leaves another image".to_string())
}

/// The card in a.
fn card_named<W: Width>(bytes: &[u8]) -> usize {
    W::fields(bytes).a as usize
}

/// Whether an accepted step found no packet for an object: its tracer has marked something and then holds no output.
pub fn found_no_packet<W: Width>(bytes: &[u8], got: ImageOf<W>, left: ImageOf<W>) -> bool {
    let marks = |image: ImageOf<W>| image.starts().filter(|&g| image.is_marked(g)).count();
    matches!(bytes[0], SCAN..=CLEAN) && left.tracer(usize::from(bytes[1])).output.is_none() && marks(left) > marks(got)
}

fn links<'a, W: Width>(object: Object<'a, W>) -> impl Iterator<Item = usize> + 'a {
    object.links.iter().map(|&g| g.number()).filter(|&g| g != 0)
}

fn held_by_registers<W: Width>(image: ImageOf<W>) -> BTreeSet<usize> {
    image.registers().filter(|&g| g != 0).collect()
}

/// "A chain from a register reaches what it holds and what any object so reached links to".
pub fn reached_by_chains<W: Width>(image: ImageOf<W>) -> BTreeSet<usize> {
    grown(image, held_by_registers(image), |reached, object| reached.contains(&object.start))
}

/// What a finish finds: "what registers hold, and what is linked from an unmarked object that it
/// finds, or from a marked one that is entered, in hand, on a dirty card or on a card in hand".
pub fn found_by_rule<W: Width>(image: ImageOf<W>) -> BTreeSet<usize> {
    let entered: BTreeSet<usize> = image.entered().collect();
    let is_due = |g: usize| {
        entered.contains(&g)
            || image.tracers().any(|t| t.hand.is_some_and(|(object, _)| object == g))
            || image.is_dirty(W::card_of(g))
            || image.tracers().any(|t| t.card.is_some_and(|(card, _)| card == W::card_of(g)))
    };
    grown(image, held_by_registers(image), |found, object| match image.is_marked(object.start) {
        true => is_due(object.start),
        false => found.contains(&object.start),
    })
}

/// The least set with `first` and the links of all objects that are to be followed given the set.
fn grown<W: Width>(
    image: ImageOf<W>,
    first: BTreeSet<usize>,
    is_followed: impl Fn(&BTreeSet<usize>, &Object<W>) -> bool,
) -> BTreeSet<usize> {
    let mut set = first;
    loop {
        let before = set.len();
        for object in image.objects() {
            if is_followed(&set, &object) {
                set.extend(links(object));
            }
        }
        if set.len() == before {
            return set;
        }
    }
}

fn free_granules<W: Width>(image: ImageOf<W>) -> usize {
    image.granules() - 1 - image.objects().map(|o| o.size).sum::<usize>()
}

/// The stretches of granules that no object uses, from granule 1 on, as first granule and length.
fn unused_stretches<W: Width>(image: ImageOf<W>) -> Vec<(usize, usize)> {
    let mut stretches = Vec::new();
    let mut unused_from = 1;
    for (start, size) in image.objects().map(|o| (o.start, o.size)).chain([(image.granules(), 0)]) {
        if unused_from < start {
            stretches.push((unused_from, start - unused_from));
        }
        unused_from = unused_from.max(start + size);
    }
    stretches
}

/// "freed granules are zeroed but for a run's two words"
fn is_cleared<W: Width>(image: ImageOf<W>, runs: &BTreeSet<usize>, freed: &Object<W>) -> bool {
    let is_run = |g: usize| runs.contains(&g);
    (freed.start..freed.start + freed.size).all(|g| {
        let words = &image.words[image.layout.granule(g)..][..W::GRANULE_WORDS];
        let due_zero = if is_run(g) { &words[2..] } else { words };
        due_zero.iter().all(|&w| w == W::default())
    })
}
