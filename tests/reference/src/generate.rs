//! Random records, mostly accepted, random lists and batches of them, and spoiled images, of either width.

use crate::image::{ImageOf, StoreOf};
use crate::judge::judge;
use crate::map::map_bytes;
use crate::random::Random;
use crate::record::*;
use crate::steps::{step, step_by, usable_granules, Placing};
use crate::tracing::{can_clean, can_trace};
use crate::width::{Places, Width};

/// Lists differ in how often they do what.
#[derive(Clone, Copy, Debug)]
pub struct Pace {
    /// Percent of records drawn without looking at the image.
    pub wild: usize,
    /// Weight of finish in a cycle.
    pub finish: usize,
    /// Weight of the tracers' steps.
    pub tracers: usize,
    /// Weight of undirty in a cycle. With 0 a list has none that is drawn for its image, and is drawn as it was before there was such
    /// a kind, so that timings of it stay comparable.
    pub undirty: usize,
}

impl Pace {
    pub fn draw(random: &mut Random) -> Pace {
        Pace {
            wild: random.weighted(&[(1, 0), (3, 8), (1, 30)]),
            finish: random.weighted(&[(1, 1), (2, 4), (1, 15)]),
            tracers: random.weighted(&[(1, 30), (2, 100), (1, 300)]),
            undirty: random.weighted(&[(1, 5), (2, 20), (1, 60)]),
        }
    }
}

/// A list of `count` records for the image, each drawn with the image in sight that it gets.
/// The image is left as the list leaves it.
pub fn list<W: Width>(random: &mut Random, image: &mut [W], count: usize, pace: Pace) -> Vec<u8> {
    let mut store = StoreOf::of(image).expect("a fitting length");
    let mut steps = Vec::with_capacity(W::RECORD_BYTES * count);
    for _ in 0..count {
        let record = record(random, store.image(), pace);
        step(&mut store, record);
        steps.extend(record.to_bytes());
    }
    steps
}

/// A list as `list` draws it, with a due behind each of its `count` records.
pub fn list_with_dues<W: Width>(random: &mut Random, image: &mut [W], count: usize, pace: Pace) -> Vec<u8> {
    let mut steps = Vec::with_capacity(2 * W::RECORD_BYTES * count);
    for _ in 0..count {
        steps.extend(list(random, image, 1, pace));
        let left = ImageOf::of(image).expect("a fitting length");
        steps.extend(due(random, left).to_bytes());
    }
    steps
}

/// A list in which players fill the store in a cycle, and undirty steps run after them; one record in ten is drawn as in `list`.
pub fn list_with_wiping<W: Width>(random: &mut Random, image: &mut [W], count: usize, pace: Pace) -> Vec<u8> {
    list_mostly(filling, Placing::Tightest, random, image, count, pace)
}

/// A list in which players fill gaps of many lengths, and short cycles make others; one record in ten is drawn as in `list`. Each is drawn with
/// the image in sight that it gets under that rule.
pub fn list_with_gaps<W: Width>(
    placing: Placing,
    random: &mut Random,
    image: &mut [W],
    count: usize,
    pace: Pace,
) -> Vec<u8> {
    list_mostly(filling_gaps, placing, random, image, count, pace)
}

/// A list in which the tracers work as much as they can, and players dirty what they have done; one record in ten is drawn as in `list`.
pub fn list_that_drags<W: Width>(random: &mut Random, image: &mut [W], count: usize, pace: Pace) -> Vec<u8> {
    list_mostly(dragging, Placing::Tightest, random, image, count, pace)
}

fn list_mostly<W: Width>(
    mostly: fn(&mut Random, ImageOf<W>) -> RecordOf<W>,
    placing: Placing,
    random: &mut Random,
    image: &mut [W],
    count: usize,
    pace: Pace,
) -> Vec<u8> {
    let mut store = StoreOf::of(image).expect("a fitting length");
    let mut steps = Vec::with_capacity(W::RECORD_BYTES * count);
    for _ in 0..count {
        let any = random.chance(10);
        let record = if any { record(random, store.image(), pace) } else { mostly(random, store.image()) };
        step_by(placing, &mut store, record);
        steps.extend(record.to_bytes());
    }
    steps
}

/// A record of a player who fills the store, or an undirty; a full store is finished and filled again.
fn filling<W: Width>(random: &mut Random, image: ImageOf<W>) -> RecordOf<W> {
    let owing: Vec<usize> = (0..W::PLAYERS).filter(|&p| image.owed_card(p).is_some()).collect();
    let paying = 25 * owing.len();
    let ending = if image.first_run() == 0 { 10 } else { 1 };
    let kind = match image.is_running() {
        true => {
            random.weighted(&[(30, NEW), (35, STORE), (paying, BARRIER), (40, UNDIRTY), (8, DROP), (ending, FINISH)])
        }
        false => random.weighted(&[(9, BEGIN), (1, UNDIRTY)]),
    };
    match kind {
        BARRIER => RecordOf::of(BARRIER, random.pick(&owing).unwrap_or(0), 0, 0, 0),
        BEGIN | FINISH => RecordOf::of(kind, 0, 0, 0, 0),
        UNDIRTY => undirty(random, image),
        _ => of_a_player(random, image, kind),
    }
}

/// A step of a tracer, or one of a player or an undirty that may give the tracers more to do.
fn dragging<W: Width>(random: &mut Random, image: ImageOf<W>) -> RecordOf<W> {
    if !image.is_running() {
        return RecordOf::of(BEGIN, 0, 0, 0, 0);
    }
    let owing = player(random, image, true);
    let paying = if owing.is_some() { 60 } else { 0 };
    let kind = random.weighted(&[
        (100, TRACE),
        (80, CLEAN),
        (4, SCAN),
        (30, STORE),
        (paying, BARRIER),
        (15, UNDIRTY),
        (8, NEW),
        (8, LOAD),
        (8, HAND),
        (2, DROP),
    ]);
    match kind {
        TRACE | CLEAN => tracer_step(random, image, kind),
        SCAN => scan(random, image),
        BARRIER => RecordOf::of(BARRIER, owing.unwrap_or(0), 0, 0, 0),
        UNDIRTY => undirty(random, image),
        _ => of_a_player(random, image, kind),
    }
}

/// A new that fills a gap or part of it, or what a player does between news, or a step of a short cycle.
fn filling_gaps<W: Width>(random: &mut Random, image: ImageOf<W>) -> RecordOf<W> {
    let owing = player(random, image, true);
    let paying = if owing.is_some() { 15 } else { 0 };
    let (idle, running) = if image.is_running() { (0, 1) } else { (1, 0) };
    let kind = random.weighted(&[
        (50, NEW),
        (20, DROP),
        (10, LOAD),
        (12, STORE),
        (paying, BARRIER),
        (3, READ),
        (3, WRITE),
        (4, DUE),
        (idle * 15, BEGIN),
        (running * 5, SCAN),
        (running * 10, TRACE),
        (running * 12, FINISH),
    ]);
    match kind {
        NEW => new_for_a_gap(random, image),
        BARRIER => RecordOf::of(BARRIER, owing.unwrap_or(0), 0, 0, 0),
        BEGIN | FINISH => RecordOf::of(kind, 0, 0, 0, 0),
        SCAN => scan(random, image),
        TRACE => tracer_step(random, image, TRACE),
        DUE => due(random, image),
        _ => of_a_player(random, image, kind),
    }
}

/// A new that is as long as a gap, a little shorter or a little longer, or longer than all of them.
fn new_for_a_gap<W: Width>(random: &mut Random, image: ImageOf<W>) -> RecordOf<W> {
    let lengths: Vec<usize> = image.runs().map(|(_, length)| length).collect();
    let longest = lengths.iter().copied().max().unwrap_or(0);
    let exact = random.pick(&lengths).unwrap_or(1);
    let few = random.from_to(1, 9);
    let size =
        random.weighted(&[(6, exact), (3, exact.max(2) - 1), (2, exact + 1), (4, few.min(exact)), (1, longest + 1)]);
    new_of_size(random, image, size.min(W::LARGEST_OBJECT))
}

/// A new by a player who owes nothing, if there is one.
pub(crate) fn new_of_size<W: Width>(random: &mut Random, image: ImageOf<W>, size: usize) -> RecordOf<W> {
    let player = player(random, image, false).unwrap_or(0);
    let links = random.from_to(0, (W::GRANULE_WORDS * size - 2).min(6));
    RecordOf::of(NEW, player, random.below(W::REGISTERS), size, links)
}

/// A player who owes a barrier, or one who owes none.
pub(crate) fn player<W: Width>(random: &mut Random, image: ImageOf<W>, owes: bool) -> Option<usize> {
    let players: Vec<usize> = (0..W::PLAYERS).filter(|&p| image.owed_card(p).is_some() == owes).collect();
    random.pick(&players)
}

/// Cuts a list into batches, as step bytes and number of answer words, with misfits between.
pub fn batches(random: &mut Random, steps: &[u8]) -> Vec<(Vec<u8>, usize)> {
    batches_of::<u16>(random, steps)
}

/// The same for a store of words of that width.
pub fn batches_of<W: Width>(random: &mut Random, steps: &[u8]) -> Vec<(Vec<u8>, usize)> {
    let longest = random.weighted(&[(1, 1), (1, 8), (1, 60), (1, 4000)]);
    let mut batches = Vec::new();
    let mut rest = steps;
    while !rest.is_empty() {
        let records = random.from_to(1, longest).min(rest.len() / W::RECORD_BYTES);
        let (batch, after) = rest.split_at(records * W::RECORD_BYTES);
        if random.chance(10) {
            batches.push(misfit_of::<W>(random, batch));
        }
        if random.chance(5) {
            batches.push((Vec::new(), 0));
        }
        batches.push((batch.to_vec(), 2 * records));
        rest = after;
    }
    batches
}

/// A batch with a part record, or with answer space for more or fewer steps.
pub fn misfit_of<W: Width>(random: &mut Random, steps: &[u8]) -> (Vec<u8>, usize) {
    let words = steps.len() / W::RECORD_BYTES * 2;
    let part = random.from_to(1, W::RECORD_BYTES - 1);
    let longer = [steps, &vec![0; part][..]].concat();
    match random.below(5) {
        0 => (longer, words),
        1 => (longer, words + 2),
        2 => (steps.to_vec(), words + random.from_to(1, 2)),
        3 => (steps[..steps.len() - steps.len().min(part)].to_vec(), words),
        _ => (steps.to_vec(), words.saturating_sub(1)),
    }
}

/// Alters one word of an image. The image may stay undamaged, for level words are free.
pub fn spoil<W: Width>(random: &mut Random, image: &mut [W]) {
    let layout = W::Layout::of_length(image.len()).expect("a fitting length");
    let parts = [
        (6, (0, layout.start_bits())),
        (2, (layout.start_bits(), layout.mark_bits())),
        (2, (layout.mark_bits(), layout.card(0))),
        (1, (layout.card(0), layout.count(0))),
        (1, (layout.count(0), layout.register(0, 0))),
        (1, (layout.register(0, 0), layout.packet(0))),
        (3, (layout.packet(0), layout.tracer(0))),
        (4, (layout.tracer(0), layout.player(0))),
        (2, (layout.player(0), layout.general())),
        (2, (layout.general(), layout.length())),
    ];
    let (from, to) = random.weighted(&parts);
    let at = random.from_to(from, to - 1);
    let word: u64 = image[at].into();
    let bit = 1 << random.below(W::BITS);
    let small = random.below(80) as u64;
    let any = random.bits();
    let (up, down) = (word + 1, word.wrapping_sub(1));
    image[at] = W::cut(random.weighted(&[(1, word ^ bit), (1, up), (1, down), (1, small), (1, any), (1, 0)]));
}

/// Makes the count of one card wrong.
pub fn miscount<W: Width>(random: &mut Random, image: &mut [W]) {
    let layout = W::Layout::of_length(image.len()).expect("a fitting length");
    let at = layout.count(random.below(layout.cards()));
    let right: u64 = image[at].into();
    let (up, down) = (right + 1, right.wrapping_sub(1));
    let any = random.bits();
    let wrong = W::cut(random.weighted(&[(3, up), (3, down), (2, 0), (1, u64::MAX), (1, any)]));
    image[at] = if wrong == image[at] { W::cut(up) } else { wrong };
}

/// Alters words of an image until it is damaged.
pub fn damage<W: Width>(random: &mut Random, image: &mut [W]) {
    while judge(image) == 0 {
        let alter = random.weighted(&[(5, spoil as fn(&mut Random, &mut [W])), (1, miscount)]);
        alter(random, image);
    }
}

/// Lengths of an output that are near those of a map of `k` cards, and none of them.
pub fn wrong_rooms(k: usize) -> [usize; 8] {
    let bytes = map_bytes(k);
    [0, 1, bytes - 1, bytes + 1, bytes - k, bytes + k, map_bytes(k - 1), map_bytes(k + 1)]
}

pub fn record<W: Width>(random: &mut Random, image: ImageOf<W>, pace: Pace) -> RecordOf<W> {
    let mut record = if random.chance(pace.wild) { wild(random, pace) } else { mostly_sensible(random, image, pace) };
    W::stray(random, pace.wild / 2, &mut record);
    record
}

fn mostly_sensible<W: Width>(random: &mut Random, image: ImageOf<W>, pace: Pace) -> RecordOf<W> {
    let mut record = sensible(random, image, pace);
    if random.chance(pace.wild / 2) {
        spoil_record(random, &mut record);
    }
    record
}

fn small_field<W: Width>(random: &mut Random) -> W {
    let small = random.below(5) as u64;
    let desk = random.below(18) as u64;
    let any = random.bits();
    W::cut(random.weighted(&[(3, 0), (4, small), (2, desk), (1, any)]))
}

/// A record drawn without looking at the image.
fn wild<W: Width>(random: &mut Random, pace: Pace) -> RecordOf<W> {
    let last = if pace.undirty == 0 { DUE } else { UNDIRTY };
    let known = random.from_to(1, usize::from(last)) as u8;
    let any = random.word() as u8;
    let unknown = random.weighted(&[(1, 0), (1, UNDIRTY), (1, 16), (1, 255), (1, any)]);
    let kind = random.weighted(&[(12, known), (1, unknown)]);
    let on_desk = random.below(W::PLAYERS) as u8;
    let anyone = random.word() as u8;
    let who = random.weighted(&[(6, 0), (2, 1), (2, on_desk), (1, anyone)]);
    let fields = [small_field(random), small_field(random), small_field(random)];
    let mut record = RecordOf::new(kind, who, fields[0], fields[1], fields[2]);
    if random.chance(80) {
        zero_unnamed(&mut record);
    }
    record
}

fn zero_unnamed<W: Width>(record: &mut RecordOf<W>) {
    let named = match record.kind {
        BEGIN | FINISH => 0,
        BARRIER | TRACE | CLEAN => 1,
        DROP | SCAN | DUE | UNDIRTY => 2,
        READ => 3,
        _ => 4,
    };
    if named < 4 {
        record.c = W::default();
    }
    if named < 3 {
        record.b = W::default();
    }
    if named < 2 {
        record.a = W::default();
    }
    if named < 1 || matches!(record.kind, DUE | UNDIRTY) {
        record.who = 0;
    }
}

/// Alters one field.
fn spoil_record<W: Width>(random: &mut Random, record: &mut RecordOf<W>) {
    let value = random.weighted(&[(3, 1), (3, 16), (1, 200)]);
    match random.below(6) {
        0 => record.kind = random.word() as u8,
        1 => record.who = random.weighted(&[(2, 8), (2, 16), (1, 255)]),
        2 => record.a = W::cut(record.a.into() + value),
        3 => record.b = W::cut(record.b.into() + value),
        4 => record.c = W::cut(record.c.into() + value),
        _ => record.c = W::cut(random.bits()),
    }
}

/// A record that looks at the image and is mostly accepted.
fn sensible<W: Width>(random: &mut Random, image: ImageOf<W>, pace: Pace) -> RecordOf<W> {
    let owing: Vec<usize> = (0..W::PLAYERS).filter(|&p| image.owed_card(p).is_some()).collect();
    let paying = if owing.is_empty() { 0 } else { 20 + 10 * owing.len() };
    let (idle, running) = if image.is_running() { (0, 1) } else { (1, 0) };
    let kind = random.weighted(&[
        (30, NEW),
        (20, LOAD),
        (30, STORE),
        (paying, BARRIER),
        (12, HAND),
        (25, DROP),
        (8, READ),
        (8, WRITE),
        (idle * 30, BEGIN),
        (running * 15, SCAN),
        (running * pace.tracers, TRACE),
        (running * pace.tracers / 3, CLEAN),
        (running * pace.finish, FINISH),
        (4, DUE),
        (running * pace.undirty, UNDIRTY),
    ]);
    match kind {
        BARRIER => RecordOf::of(BARRIER, random.pick(&owing).unwrap_or(0), 0, 0, 0),
        BEGIN | FINISH => RecordOf::of(kind, 0, 0, 0, 0),
        SCAN => scan(random, image),
        TRACE | CLEAN => tracer_step(random, image, kind),
        DUE => due(random, image),
        UNDIRTY => undirty(random, image),
        _ => of_a_player(random, image, kind),
    }
}

/// A record of that kind that looks at the image, if one is found that may be accepted; a due says 0.
pub(crate) fn of_kind<W: Width>(random: &mut Random, image: ImageOf<W>, kind: u8) -> Option<RecordOf<W>> {
    let record = match kind {
        BARRIER => RecordOf::of(BARRIER, player(random, image, true)?, 0, 0, 0),
        BEGIN | FINISH => RecordOf::of(kind, 0, 0, 0, 0),
        SCAN => scan(random, image),
        TRACE | CLEAN => tracer_step(random, image, kind),
        DUE => RecordOf::of(DUE, 0, usable_granules(image), 0, 0),
        UNDIRTY => undirty(random, image),
        _ => of_a_player(random, image, kind),
    };
    Some(record).filter(|record| record.kind == kind)
}

/// An undirty of a card that may be wiped, most often of one that is in hand or owed; of one that is dirty, whatever its count; of
/// any card; or of the first that does not exist. Where no card may be wiped, mostly a store, which may come to dirty one.
fn undirty<W: Width>(random: &mut Random, image: ImageOf<W>) -> RecordOf<W> {
    let dirty: Vec<usize> = (0..image.cards()).filter(|&c| image.is_dirty(c)).collect();
    let bare: Vec<usize> = dirty.iter().copied().filter(|&c| image.card_count(c) == 0).collect();
    if bare.is_empty() && random.chance(60) {
        return of_a_player(random, image, STORE);
    }
    let busy: Vec<usize> = bare.iter().copied().filter(|&c| is_in_hand(image, c) || is_owed(image, c)).collect();
    let any = random.below(image.cards() + 1);
    let card = match random.below(10) {
        0..=3 => random.pick(&busy).or(random.pick(&bare)).or(random.pick(&dirty)),
        4..=6 => random.pick(&bare),
        7 | 8 => random.pick(&dirty),
        _ => None,
    };
    RecordOf::of(UNDIRTY, 0, card.unwrap_or(any), 0, 0)
}

fn is_in_hand<W: Width>(image: ImageOf<W>, c: usize) -> bool {
    image.tracers().any(|t| t.card.is_some_and(|(card, _)| card == c))
}

fn is_owed<W: Width>(image: ImageOf<W>, c: usize) -> bool {
    (0..W::PLAYERS).any(|p| image.owed_card(p) == Some(c))
}

/// A due that asks for as many granules as are usable or free, for one more, or for any number.
fn due<W: Width>(random: &mut Random, image: ImageOf<W>) -> RecordOf<W> {
    let any = random.below(image.granules() + 2);
    let wanted = match any % 6 {
        0 | 1 => usable_granules(image),
        2 | 3 => usable_granules(image) + 1,
        4 => image.runs().map(|(_, length)| length).sum(),
        _ => any,
    };
    RecordOf::of(DUE, 0, wanted, 0, 0)
}

fn scan<W: Width>(random: &mut Random, image: ImageOf<W>) -> RecordOf<W> {
    let unscanned: Vec<usize> = (0..W::PLAYERS).filter(|&p| !image.is_scanned(p)).collect();
    let player = random.pick(&unscanned).unwrap_or(0);
    RecordOf::of(SCAN, random.below(W::TRACERS), player, 0, 0)
}

/// A trace or clean by a tracer that has something to do, if there is one.
fn tracer_step<W: Width>(random: &mut Random, image: ImageOf<W>, kind: u8) -> RecordOf<W> {
    let can = if kind == TRACE { can_trace } else { can_clean };
    let able: Vec<usize> = (0..W::TRACERS).filter(|&t| can(image, t)).collect();
    match random.pick(&able) {
        Some(t) => RecordOf::of(kind, t, 0, 0, 0),
        None if random.chance(10) => RecordOf::of(kind, random.below(W::TRACERS), 0, 0, 0),
        None => {
            let kind = random.weighted(&[(1, NEW), (1, LOAD), (2, STORE), (2, DROP), (1, HAND), (1, READ), (1, WRITE)]);
            of_a_player(random, image, kind)
        }
    }
}

/// A register of a player who owes nothing, and the object it holds.
#[derive(Clone, Copy)]
struct Held {
    player: usize,
    register: usize,
    object: usize,
}

pub(crate) fn of_a_player<W: Width>(random: &mut Random, image: ImageOf<W>, kind: u8) -> RecordOf<W> {
    let free: Vec<usize> = (0..W::PLAYERS).filter(|&p| image.owed_card(p).is_none()).collect();
    let Some(player) = random.pick(&free) else {
        return RecordOf::of(BARRIER, random.below(W::PLAYERS), 0, 0, 0);
    };
    let in_register = |player, register| Held { player, register, object: image.register(player, register) };
    let held: Vec<Held> = free
        .iter()
        .flat_map(|&p| (0..W::REGISTERS).map(move |r| in_register(p, r)))
        .filter(|held| held.object != 0)
        .collect();
    let found = match kind {
        LOAD => load(random, image, &held),
        STORE => store(random, image, &held),
        READ | WRITE => level(random, image, &held, kind),
        HAND => hand(random, &held, &free),
        DROP => random.pick(&held).map(|h| RecordOf::of(DROP, h.player, h.register, 0, 0)),
        _ => None,
    };
    // A full store would refuse nearly every new: some room is made now and then.
    let is_full = image.first_run() == 0 && random.chance(80);
    let instead = random.pick(&held).filter(|_| is_full);
    match (found, instead) {
        (Some(record), _) => record,
        (None, Some(held)) => RecordOf::of(DROP, held.player, held.register, 0, 0),
        (None, None) => new(random, image, player),
    }
}

fn new<W: Width>(random: &mut Random, image: ImageOf<W>, player: usize) -> RecordOf<W> {
    let largest = image.runs().map(|(_, length)| length).max().unwrap_or(0);
    let lengths: Vec<usize> = image.runs().map(|(_, length)| length).collect();
    let few = random.from_to(1, 4).min(largest.max(1));
    let exact = random.pick(&lengths).unwrap_or(1);
    let much = random.from_to(1, largest.max(1));
    let size = random.weighted(&[(30, few), (3, exact), (3, much), (1, exact + 1), (1, largest + 1)]);
    let most = (W::GRANULE_WORDS * size - 2).min(4094);
    let few_links = random.from_to(0, most.min(4));
    let any_links = random.from_to(0, most);
    let links = random.weighted(&[(12, few_links), (1, most), (1, any_links)]);
    RecordOf::of(NEW, player, random.below(W::REGISTERS), size, links)
}

fn load<W: Width>(random: &mut Random, image: ImageOf<W>, held: &[Held]) -> Option<RecordOf<W>> {
    let linked: Vec<Held> = held.iter().copied().filter(|h| !image.object(h.object).links.is_empty()).collect();
    let from = random.pick(&linked)?;
    let link = random.below(image.object(from.object).links.len());
    let to = random.below(W::REGISTERS);
    Some(RecordOf::of(LOAD, from.player, to, from.register, link))
}

fn store<W: Width>(random: &mut Random, image: ImageOf<W>, held: &[Held]) -> Option<RecordOf<W>> {
    let linked: Vec<Held> = held.iter().copied().filter(|h| !image.object(h.object).links.is_empty()).collect();
    let into = random.pick(&linked)?;
    let link = random.below(image.object(into.object).links.len());
    let own: Vec<usize> = held.iter().filter(|h| h.player == into.player).map(|h| h.register).collect();
    let any = random.below(W::REGISTERS);
    let what = random.pick(&own).filter(|_| random.chance(80)).unwrap_or(any);
    Some(RecordOf::of(STORE, into.player, into.register, link, what))
}

fn level<W: Width>(random: &mut Random, image: ImageOf<W>, held: &[Held], kind: u8) -> Option<RecordOf<W>> {
    let levelled: Vec<Held> = held.iter().copied().filter(|h| !image.object(h.object).levels.is_empty()).collect();
    let of = random.pick(&levelled)?;
    let level = random.below(image.object(of.object).levels.len());
    let value = if kind == WRITE { W::cut(random.bits()) } else { W::default() };
    Some(RecordOf::new(kind, of.player as u8, W::of(of.register), W::of(level), value))
}

fn hand<W: Width>(random: &mut Random, held: &[Held], free: &[usize]) -> Option<RecordOf<W>> {
    let from = random.pick(held)?;
    let to = random.pick(free)?;
    let register = random.below(W::REGISTERS);
    Some(RecordOf::of(HAND, from.player, from.register, to, register))
}
