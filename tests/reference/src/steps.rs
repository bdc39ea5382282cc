//! Making a fresh store, and running batches of steps.

use crate::finish::finish_store;
use crate::image::{ImageOf, StoreOf};
use crate::judge::judge;
use crate::record::*;
use crate::tracing::{can_clean, can_trace, clean, scan, trace};
use crate::width::{Places, Width};

/// Makes a fresh store of a slice of fitting length and gives 0, else gives 1 and writes nothing.
pub fn fresh<W: Width>(image: &mut [W]) -> u16 {
    let Some(mut store) = StoreOf::of(image) else { return 1 };
    store.words.fill(W::default());
    let all_but_granule_0 = store.image().granules() - 1;
    store.set_run(1, all_but_granule_0, 0);
    store.set_first_run(1);
    0
}

/// Where a new lays its object.
#[derive(Clone, Copy, Debug, PartialEq, Eq)]
pub enum Placing {
    /// Document 01: "at the start of the lowest run that suffices".
    Lowest,
    /// Document 02, (v): "the start of the shortest run that suffices, the lowest of equals".
    Tightest,
}

impl Placing {
    /// The run that a new of that size takes from, of runs given as first granule and length, in rising order.
    pub fn run(self, runs: impl Iterator<Item = (usize, usize)>, size: usize) -> Option<(usize, usize)> {
        let mut sufficing = runs.filter(|&(_, length)| length >= size);
        match self {
            Placing::Lowest => sufficing.next(),
            Placing::Tightest => sufficing.min_by_key(|&(granule, length)| (length, granule)),
        }
    }
}

/// Runs a batch. 1 and 2 refuse it whole and leave image and answers alone.
pub fn batch<W: Width>(image: &mut [W], steps: &[u8], answers: &mut [W]) -> u16 {
    batch_by(Placing::Tightest, image, steps, answers)
}

/// The same under either rule of placing.
pub fn batch_by<W: Width>(placing: Placing, image: &mut [W], steps: &[u8], answers: &mut [W]) -> u16 {
    let fits = steps.len().is_multiple_of(W::RECORD_BYTES) && answers.len() == steps.len() / W::RECORD_BYTES * 2;
    let judgement = judge(image);
    if judgement == 1 || !fits {
        return 1;
    }
    if judgement != 0 {
        return judgement;
    }
    let mut store = StoreOf::of(image).expect("an undamaged image fits");
    for (record, answer) in records_of(steps).zip(answers.chunks_exact_mut(2)) {
        let (number, value) = step_by(placing, &mut store, record);
        answer.copy_from_slice(&[number, value]);
    }
    0
}

/// One step on an undamaged image: its number and value.
pub fn step<W: Width>(store: &mut StoreOf<W>, record: RecordOf<W>) -> (W, W) {
    step_by(Placing::Tightest, store, record)
}

pub fn step_by<W: Width>(placing: Placing, store: &mut StoreOf<W>, record: RecordOf<W>) -> (W, W) {
    match refusal(store.image(), record) {
        0 => (W::default(), act(placing, store, record)),
        number => (W::of(number), W::default()),
    }
}

type Applies<W> = fn(ImageOf<W>, RecordOf<W>) -> bool;

/// The lowest of the numbers 3 to 11 that applies, or 0.
/// A later condition may rely on the earlier ones not applying.
fn refusal<W: Width>(image: ImageOf<W>, record: RecordOf<W>) -> usize {
    let conditions: [(usize, Applies<W>); 9] = [
        (3, |_, record| record.is_unknown()),
        (4, |image, record| record.is_off_the_desk(image.cards())),
        (5, is_owing),
        (6, has_no_object),
        (7, is_past_the_end),
        (8, |_, record| record.is_bad_size()),
        (9, has_no_room),
        (10, is_wrong_phase),
        (11, has_nothing_to_do),
    ];
    conditions.iter().find(|(_, applies)| applies(image, record)).map_or(0, |&(number, _)| number)
}

fn is_owing<W: Width>(image: ImageOf<W>, record: RecordOf<W>) -> bool {
    record.players_to_owe_nothing().iter().any(|&p| image.owed_card(p).is_some())
}

fn has_no_object<W: Width>(image: ImageOf<W>, record: RecordOf<W>) -> bool {
    record.object_register().is_some_and(|r| image.register(record.who(), r) == 0)
}

fn is_past_the_end<W: Width>(image: ImageOf<W>, record: RecordOf<W>) -> bool {
    record.object_register().is_some_and(|r| {
        let object = image.object(image.register(record.who(), r));
        record.is_past_the_end(object.links.len(), object.levels.len())
    })
}

fn has_no_room<W: Width>(image: ImageOf<W>, record: RecordOf<W>) -> bool {
    record.kind == NEW && image.runs().all(|(_, length)| length < record.b())
}

fn is_wrong_phase<W: Width>(image: ImageOf<W>, record: RecordOf<W>) -> bool {
    match record.kind {
        BEGIN => image.is_running(),
        SCAN..=FINISH | UNDIRTY => !image.is_running(),
        _ => false,
    }
}

fn has_nothing_to_do<W: Width>(image: ImageOf<W>, record: RecordOf<W>) -> bool {
    match record.kind {
        BARRIER => image.owed_card(record.who()).is_none(),
        SCAN => image.is_scanned(record.a()),
        TRACE => !can_trace(image, record.who()),
        CLEAN => !can_clean(image, record.who()),
        // "11 if the card isn't dirty or its count isn't 0"
        UNDIRTY => !image.is_dirty(record.a()) || image.card_count(record.a()) != 0,
        _ => false,
    }
}

/// What an accepted step does, and its value.
fn act<W: Width>(placing: Placing, store: &mut StoreOf<W>, record: RecordOf<W>) -> W {
    match record.kind {
        NEW => return new(placing, store, record),
        LOAD => return load(store, record),
        STORE => store_link(store, record),
        BARRIER => barrier(store, record.who()),
        HAND => {
            let object = store.image().register(record.who(), record.a());
            store.set_register(record.b(), record.c(), object);
        }
        DROP => store.set_register(record.who(), record.a(), 0),
        READ => return store.words[level_word(store.image(), record)],
        WRITE => {
            let at = level_word(store.image(), record);
            store.words[at] = record.c;
        }
        BEGIN => begin(store),
        SCAN => scan(store, record.who(), record.a()),
        TRACE => trace(store, record.who()),
        CLEAN => clean(store, record.who()),
        FINISH => return finish_store(store),
        DUE => return due(store.image(), record.a()),
        UNDIRTY => store.undirty(record.a()),
        _ => unreachable!("kinds beyond 15 are refused"),
    }
    W::default()
}

/// "register a gets an object of b granules and c links, all else zero, at the start of" a run; "value its granule". A rest of the
/// run stays in its place of the chain.
fn new<W: Width>(placing: Placing, store: &mut StoreOf<W>, record: RecordOf<W>) -> W {
    let size = record.b();
    let runs: Vec<(usize, usize)> = store.image().runs().collect();
    let (g, length) = placing.run(runs.iter().copied(), size).expect("there is room");
    let place = runs.iter().position(|&(run, _)| run == g).expect("a run of the chain");
    let next = runs.get(place + 1).map_or(0, |&(next, _)| next);
    store.set_run(g, 0, 0);
    let rest = if length > size {
        store.set_run(g + size, length - size, next);
        g + size
    } else {
        next
    };
    match place.checked_sub(1).map(|before| runs[before]) {
        Some((before, length)) => store.set_run(before, length, rest),
        None => store.set_first_run(rest),
    }
    store.set_object(g, size, record.c());
    store.set_register(record.who(), record.a(), g);
    W::of(g)
}

fn load<W: Width>(store: &mut StoreOf<W>, record: RecordOf<W>) -> W {
    let image = store.image();
    let link = image.object(image.register(record.who(), record.b())).links[record.c()];
    store.set_register(record.who(), record.a(), link.number());
    link
}

fn store_link<W: Width>(store: &mut StoreOf<W>, record: RecordOf<W>) {
    let object = store.image().register(record.who(), record.a());
    let target = store.image().register(record.who(), record.c());
    store.set_link(object, record.b(), target);
    store.set_owed(record.who(), Some(crate::layout::card_of(object)));
}

fn barrier<W: Width>(store: &mut StoreOf<W>, player: usize) {
    let card = store.image().owed_card(player).expect("a barrier is owed");
    store.dirty(card);
    store.set_owed(player, None);
}

/// The place of the level word that read and write name.
fn level_word<W: Width>(image: ImageOf<W>, record: RecordOf<W>) -> usize {
    let object = image.object(image.register(record.who(), record.a()));
    image.layout.granule(object.start) + 2 + object.links.len() + record.b()
}

/// "cards become 0, the cycle runs": the marks are 0 outside a cycle, and so are the counts.
fn begin<W: Width>(store: &mut StoreOf<W>) {
    for c in 0..store.layout.cards() {
        store.set_card(c, 0);
    }
    store.set_running(true);
}

/// Document 02, (i): "Step 14 gives 1 if the granules in such runs are fewer than a".
fn due<W: Width>(image: ImageOf<W>, wanted: usize) -> W {
    W::of(usize::from(usable_granules(image) < wanted))
}

/// Document 02, (i): "only runs of 8 granules or more count".
pub fn usable_granules<W: Width>(image: ImageOf<W>) -> usize {
    image.runs().map(|(_, length)| length).filter(|&length| length >= 8).sum()
}
