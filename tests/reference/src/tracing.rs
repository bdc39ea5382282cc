//! The tracers' steps: reach, scan, trace and clean.

use crate::image::{ImageOf, StoreOf};
use crate::width::Width;

/// The packets held by no tracer.
fn pool<W: Width>(image: ImageOf<W>) -> Vec<usize> {
    let held: Vec<usize> = image.tracers().flat_map(|t| [t.input, t.output]).flatten().collect();
    (0..W::PACKETS).filter(|n| !held.contains(n)).collect()
}

/// "the pool packet with fewest entries, below 30, lowest number"
fn emptiest<W: Width>(image: ImageOf<W>) -> Option<usize> {
    let roomy = pool(image).into_iter().filter(|&n| image.count(n) < W::ENTRIES);
    roomy.min_by_key(|&n| (image.count(n), n))
}

/// The fullest pool packet that has entries, lowest number.
fn fullest<W: Width>(image: ImageOf<W>) -> Option<usize> {
    let filled = pool(image).into_iter().filter(|&n| image.count(n) > 0);
    filled.min_by_key(|&n| (W::ENTRIES - image.count(n), n))
}

fn has_entries<W: Width>(image: ImageOf<W>, packet: Option<usize>) -> bool {
    packet.is_some_and(|n| image.count(n) > 0)
}

fn reach<W: Width>(store: &mut StoreOf<W>, t: usize, object: usize) {
    if object == 0 || store.image().is_marked(object) {
        return;
    }
    store.mark(object);
    let mut tracer = store.image().tracer(t);
    if tracer.output.is_none_or(|n| store.image().count(n) == W::ENTRIES) {
        tracer.output = None;
        store.set_tracer(t, tracer);
        tracer.output = emptiest(store.image());
        store.set_tracer(t, tracer);
    }
    match tracer.output {
        Some(n) => store.append(n, object),
        None => store.dirty(W::card_of(object)),
    }
}

pub fn scan<W: Width>(store: &mut StoreOf<W>, t: usize, player: usize) {
    for r in 0..W::REGISTERS {
        let object = store.image().register(player, r);
        reach(store, t, object);
    }
    store.set_scanned(player, true);
}

/// The lines of trace; the first that applies is done.
enum TraceLine {
    Link,
    Entry(usize),
    Pool(usize),
    Output(usize),
}

fn trace_line<W: Width>(image: ImageOf<W>, t: usize) -> Option<TraceLine> {
    let tracer = image.tracer(t);
    if tracer.hand.is_some() {
        return Some(TraceLine::Link);
    }
    if has_entries(image, tracer.input) {
        return tracer.input.map(TraceLine::Entry);
    }
    if let Some(n) = fullest(image) {
        return Some(TraceLine::Pool(n));
    }
    tracer.output.filter(|&n| image.count(n) > 0).map(TraceLine::Output)
}

pub fn can_trace<W: Width>(image: ImageOf<W>, t: usize) -> bool {
    trace_line(image, t).is_some()
}

pub fn trace<W: Width>(store: &mut StoreOf<W>, t: usize) {
    let line = trace_line(store.image(), t).expect("trace has something to do");
    let mut tracer = store.image().tracer(t);
    match line {
        TraceLine::Link => return reach_link(store, t),
        TraceLine::Entry(n) => {
            let object = store.pop(n);
            let is_dirty = store.image().is_dirty(W::card_of(object));
            if !is_dirty {
                return take_in_hand(store, t, object);
            }
        }
        TraceLine::Pool(n) => tracer.input = Some(n),
        TraceLine::Output(n) => {
            tracer.input = Some(n);
            tracer.output = None;
        }
    }
    store.set_tracer(t, tracer);
}

/// "that link is reached, and after the last the hand is empty"
fn reach_link<W: Width>(store: &mut StoreOf<W>, t: usize) {
    let (object, link) = store.image().tracer(t).hand.expect("an object is in hand");
    let links = store.image().object(object).links;
    let target = links[link].number();
    let more = link + 1 < links.len();
    reach(store, t, target);
    let mut tracer = store.image().tracer(t);
    tracer.hand = more.then_some((object, link + 1));
    store.set_tracer(t, tracer);
}

/// The object goes in hand at link 0, unless it has no links.
fn take_in_hand<W: Width>(store: &mut StoreOf<W>, t: usize, object: usize) {
    if !store.image().object(object).links.is_empty() {
        let mut tracer = store.image().tracer(t);
        tracer.hand = Some((object, 0));
        store.set_tracer(t, tracer);
    }
}

/// The lines of clean; the first that applies is done.
enum CleanLine {
    Link,
    Card(usize, usize),
    Take(usize),
}

fn clean_line<W: Width>(image: ImageOf<W>, t: usize) -> Option<CleanLine> {
    let tracer = image.tracer(t);
    if tracer.hand.is_some() {
        return Some(CleanLine::Link);
    }
    if let Some((card, next)) = tracer.card {
        return Some(CleanLine::Card(card, next));
    }
    (0..image.cards()).find(|&c| image.card(c) == 1).map(CleanLine::Take)
}

pub fn can_clean<W: Width>(image: ImageOf<W>, t: usize) -> bool {
    clean_line(image, t).is_some()
}

pub fn clean<W: Width>(store: &mut StoreOf<W>, t: usize) {
    match clean_line(store.image(), t).expect("clean has something to do") {
        CleanLine::Link => reach_link(store, t),
        CleanLine::Card(card, next) => clean_on(store, t, card, next),
        CleanLine::Take(card) => {
            store.set_card(card, 2);
            let mut tracer = store.image().tracer(t);
            tracer.card = Some((card, W::CARD_GRANULES * card));
            store.set_tracer(t, tracer);
        }
    }
}

fn clean_on<W: Width>(store: &mut StoreOf<W>, t: usize, card: usize, next: usize) {
    let end = W::CARD_GRANULES * (card + 1);
    let found = (next..end).find(|&g| store.image().is_marked(g));
    let mut tracer = store.image().tracer(t);
    tracer.card = found.map(|object| (card, object + 1));
    store.set_tracer(t, tracer);
    if let Some(object) = found {
        take_in_hand(store, t, object);
    }
}
