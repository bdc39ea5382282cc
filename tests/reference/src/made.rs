//! Random images of either width, made directly and not by running steps.

use std::ops::Range;

use crate::image::{ImageOf, StoreOf, Tracer};
use crate::judge::{cover, uncovered};
use crate::random::Random;
use crate::steps::fresh;
use crate::width::{Places, Width};

pub fn fresh_image<W: Width>(k: usize) -> Vec<W> {
    let mut words = vec![W::default(); W::length(k)];
    assert_eq!(fresh(&mut words), 0);
    words
}

/// An undamaged image with no cycle.
pub fn idle<W: Width>(random: &mut Random, k: usize) -> Vec<W> {
    let mut words = vec![W::default(); W::length(k)];
    let mut store = StoreOf::of(&mut words).expect("a fitting length");
    fill(random, &mut store);
    if random.chance(50) {
        set_cards(random, &mut store);
    }
    words
}

/// An undamaged image with no cycle, whose objects and runs have about as many granules as a run must have to count.
pub fn holes<W: Width>(random: &mut Random, k: usize) -> Vec<W> {
    let mut words = vec![W::default(); W::length(k)];
    let mut store = StoreOf::of(&mut words).expect("a fitting length");
    fill_with(random, &mut store, Sizes::AboutEight);
    words
}

/// An undamaged image with no cycle, whose runs have many lengths, some of them equal.
pub fn gaps<W: Width>(random: &mut Random, k: usize) -> Vec<W> {
    let mut words = vec![W::default(); W::length(k)];
    let mut store = StoreOf::of(&mut words).expect("a fitting length");
    fill_with(random, &mut store, Sizes::Gaps);
    words
}

/// An undamaged image with no cycle, in which chains are long: the objects that have links stand in some order, and each links to the next.
pub fn far<W: Width>(random: &mut Random, k: usize) -> Vec<W> {
    let mut words = vec![W::default(); W::length(k)];
    let mut store = StoreOf::of(&mut words).expect("a fitting length");
    let sizes = random.weighted(&[(3, Sizes::Single), (3, Sizes::Small), (2, Sizes::Varied), (1, Sizes::Large)]);
    lay_heap(random, &mut store, sizes);
    let mut chain: Vec<usize> = store.image().objects().filter(|o| !o.links.is_empty()).map(|o| o.start).collect();
    match random.below(3) {
        0 => {}
        1 => chain.reverse(),
        _ => random.shuffle(&mut chain),
    }
    link_in_order(random, &mut store, &chain);
    for _ in 0..random.from_to(1, 3) {
        let (player, register) = (random.below(W::PLAYERS), random.below(W::REGISTERS));
        let object = if random.chance(30) { chain.first().copied() } else { random.pick(&chain) };
        store.set_register(player, register, object.unwrap_or(0));
    }
    words
}

/// A full store of objects of so many granules and links, but for the last, which has what is left. Link i of object n, counted from 0, goes to
/// object `target(n, i)`, or is nil if there is no such object. A register holds object `held`.
pub fn linked<W: Width>(
    k: usize,
    size: usize,
    links: usize,
    held: Option<usize>,
    mut target: impl FnMut(usize, usize) -> usize,
) -> Vec<W> {
    let granules = W::CARD_GRANULES * k;
    let mut object = |(n, g)| {
        let size = size.min(granules - g);
        let links = links.min(W::GRANULE_WORDS * size - 2);
        (size, (0..links).map(|i| target(n, i)).collect())
    };
    let objects: Vec<_> = (1..granules).step_by(size).enumerate().map(&mut object).collect();
    laid(k, &objects, held)
}

/// These objects side by side, each with its granules and the objects that it links to, counted from 0; a link to no such object is nil. They must
/// fill the store. A register holds object `held`.
pub fn laid<W: Width>(k: usize, objects: &[(usize, Vec<usize>)], held: Option<usize>) -> Vec<W> {
    let mut words = vec![W::default(); W::length(k)];
    let mut store = StoreOf::of(&mut words).expect("a fitting length");
    let mut end = 1;
    let mut starts = Vec::new();
    for (size, _) in objects {
        starts.push(end);
        end += size;
    }
    assert_eq!(end, store.layout.granules(), "objects that fill the store");
    for (&g, (size, links)) in starts.iter().zip(objects) {
        store.set_object(g, *size, links.len());
        for (i, &n) in links.iter().enumerate() {
            store.set_link(g, i, starts.get(n).copied().unwrap_or(0));
        }
    }
    store.set_register(0, 0, held.map_or(0, |n| starts[n]));
    words
}

/// An undamaged image in a cycle.
pub fn running<W: Width>(random: &mut Random, k: usize) -> Vec<W> {
    let mut words = loose(random, k);
    cover_all(random, &mut StoreOf::of(&mut words).expect("a fitting length"));
    words
}

/// An undamaged image in a cycle with cards on which nothing is marked, most of them dirty.
pub fn bare<W: Width>(random: &mut Random, k: usize) -> Vec<W> {
    let mut words = vec![W::default(); W::length(k)];
    let mut store = StoreOf::of(&mut words).expect("a fitting length");
    fill(random, &mut store);
    let bare_percent = random.weighted(&[(1, 30), (2, 60), (1, 100)]);
    let is_bare: Vec<bool> = (0..k).map(|_| random.chance(bare_percent)).collect();
    start_cycle(random, &mut store, |g| !is_bare[W::card_of(g)]);
    cover_all(random, &mut store);
    for c in 0..k {
        if store.image().card_count(c) == 0 && random.chance(70) {
            store.dirty(c);
        }
    }
    words
}

/// An undamaged image, mostly in a cycle, whose few objects lie far apart, so that a large store is soon made and soon judged.
pub fn spread<W: Width>(random: &mut Random, k: usize) -> Vec<W> {
    let mut words = vec![W::default(); W::length(k)];
    let mut store = StoreOf::of(&mut words).expect("a fitting length");
    lay_far_apart(random, &mut store);
    set_links(random, &mut store);
    set_players(random, &mut store);
    if random.chance(80) {
        start_cycle(random, &mut store, |_| true);
        cover_all(random, &mut store);
    }
    words
}

/// An image in a cycle that is undamaged but for Cover, which may hold or not.
pub fn loose<W: Width>(random: &mut Random, k: usize) -> Vec<W> {
    let mut words = vec![W::default(); W::length(k)];
    let mut store = StoreOf::of(&mut words).expect("a fitting length");
    fill(random, &mut store);
    start_cycle(random, &mut store, |_| true);
    words
}

/// An image in a cycle that is undamaged but for Cover, which does not hold.
pub fn uncovered_image<W: Width>(random: &mut Random, k: usize) -> Vec<W> {
    loop {
        let words = loose(random, k);
        if !cover(&words) {
            return words;
        }
    }
}

/// The fewest cards with objects enough to fill all packets but the held ones.
pub const STARVED_CARDS: usize = 12;

/// An undamaged image in a cycle where no tracer finds a packet to take: 32 packets are held by
/// tracers or full. It takes hundreds of marked objects, so `k` must be `STARVED_CARDS` or more.
pub fn starved<W: Width>(random: &mut Random, k: usize) -> Vec<W> {
    assert!(k >= STARVED_CARDS);
    let mut words = vec![W::default(); W::length(k)];
    let mut store = StoreOf::of(&mut words).expect("a fitting length");
    fill_with(random, &mut store, Sizes::Single);
    starve(random, &mut store);
    cover_all(random, &mut store);
    hold_unmarked(random, &mut store);
    words
}

fn fill<W: Width>(random: &mut Random, store: &mut StoreOf<W>) {
    let sizes = random.weighted(&[(3, Sizes::Small), (3, Sizes::Varied), (2, Sizes::Single), (1, Sizes::Large)]);
    fill_with(random, store, sizes);
}

fn fill_with<W: Width>(random: &mut Random, store: &mut StoreOf<W>, sizes: Sizes) {
    lay_heap(random, store, sizes);
    set_links(random, store);
    set_players(random, store);
}

#[derive(Clone, Copy)]
enum Sizes {
    Single,
    Small,
    Varied,
    Large,
    AboutEight,
    Gaps,
}

fn size<W: Width>(random: &mut Random, sizes: Sizes) -> usize {
    match sizes {
        Sizes::Single => 1,
        Sizes::Small => random.from_to(1, 3),
        Sizes::Varied => random.from_to(1, 8),
        Sizes::Large => random.from_to(1, W::LARGEST_OBJECT),
        Sizes::AboutEight => random.from_to(6, 9),
        Sizes::Gaps => random.from_to(1, 7),
    }
}

/// Objects and runs from granule 1 to the last, no two runs together.
fn lay_heap<W: Width>(random: &mut Random, store: &mut StoreOf<W>, sizes: Sizes) {
    let run_percent = match sizes {
        Sizes::Single => 4,
        Sizes::AboutEight | Sizes::Gaps => 60,
        _ => random.from_to(0, 40),
    };
    let mut runs = Vec::new();
    lay_stretch(random, store, (sizes, run_percent), 1..store.layout.granules(), &mut runs);
    chain_runs(store, runs);
}

/// Objects, and in so many of a hundred cases runs, in a stretch of granules.
fn lay_stretch<W: Width>(
    random: &mut Random,
    store: &mut StoreOf<W>,
    (sizes, run_percent): (Sizes, usize),
    stretch: Range<usize>,
    runs: &mut Vec<(usize, usize)>,
) {
    let mut may_be_run = true;
    let mut g = stretch.start;
    while g < stretch.end {
        let size = size::<W>(random, sizes).min(stretch.end - g);
        if may_be_run && random.chance(run_percent) {
            runs.push((g, size));
            may_be_run = false;
        } else {
            lay_object(random, store, g, size);
            may_be_run = true;
        }
        g += size;
    }
}

fn chain_runs<W: Width>(store: &mut StoreOf<W>, runs: Vec<(usize, usize)>) {
    let mut next = 0;
    for (g, length) in runs.into_iter().rev() {
        store.set_run(g, length, next);
        next = g;
    }
    store.set_first_run(next);
}

/// Stretches of granules about the numbers at which one of 15 or 16 bits would begin again, about the middle of a store and at both its ends.
fn far_apart(granules: usize) -> Vec<Range<usize>> {
    let mut places = vec![1, 1 << 15, 1 << 16, 3 << 15, 1 << 17, granules / 2, granules];
    places.sort_unstable();
    let mut stretches: Vec<Range<usize>> = Vec::new();
    for place in places.into_iter().filter(|&place| place <= granules) {
        let stretch = place.saturating_sub(24).max(1)..(place + 24).min(granules);
        if stretches.last().is_none_or(|last| last.end < stretch.start) {
            stretches.push(stretch);
        }
    }
    stretches
}

/// Objects in these stretches, each of which begins and ends with one, and a run between each two of them.
fn lay_far_apart<W: Width>(random: &mut Random, store: &mut StoreOf<W>) {
    let granules = store.layout.granules();
    let mut runs = Vec::new();
    let mut free_from = 1;
    for stretch in far_apart(granules) {
        runs.extend((free_from < stretch.start).then(|| (free_from, stretch.start - free_from)));
        lay_object(random, store, stretch.start, 1);
        lay_stretch(random, store, (Sizes::Small, 30), stretch.start + 1..stretch.end - 1, &mut runs);
        lay_object(random, store, stretch.end - 1, 1);
        free_from = stretch.end;
    }
    runs.extend((free_from < granules).then(|| (free_from, granules - free_from)));
    chain_runs(store, runs);
}

fn lay_object<W: Width>(random: &mut Random, store: &mut StoreOf<W>, g: usize, size: usize) {
    let most = W::GRANULE_WORDS * size - 2;
    let few = random.from_to(0, most.min(3));
    let any = random.from_to(0, most);
    let links = random.weighted(&[(1, 0), (6, few), (2, any), (1, most)]);
    store.set_object(g, size, links);
    let first = store.layout.granule(g) + 2 + links;
    for at in first..store.layout.granule(g + size) {
        store.words[at] = if random.chance(70) { W::cut(random.bits()) } else { W::default() };
    }
}

fn set_links<W: Width>(random: &mut Random, store: &mut StoreOf<W>) {
    let starts: Vec<usize> = store.image().starts().collect();
    let links: Vec<(usize, usize)> = store.image().objects().map(|o| (o.start, o.links.len())).collect();
    let nil_percent = random.from_to(5, 90);
    for (g, count) in links {
        for i in 0..count {
            let target = random.pick(&starts).filter(|_| !random.chance(nil_percent));
            store.set_link(g, i, target.unwrap_or(0));
        }
    }
}

/// One link of each object goes to the next one, and that of the last to the first or to nil; the others are mostly nil, or go to the next one
/// too, to the object itself, or back or on to any.
fn link_in_order<W: Width>(random: &mut Random, store: &mut StoreOf<W>, chain: &[usize]) {
    let starts: Vec<usize> = store.image().starts().collect();
    let is_ring = random.chance(30);
    let any_percent = random.weighted(&[(3, 0), (2, 2), (1, 20)]);
    for (n, &object) in chain.iter().enumerate() {
        let after_the_last = if is_ring { chain[0] } else { 0 };
        let next = chain.get(n + 1).copied().unwrap_or(after_the_last);
        let links = store.image().object(object).links.len();
        let along = random.below(links);
        for i in 0..links {
            let any = random.pick(&starts).unwrap_or(0);
            let other = random.weighted(&[(100 - any_percent, 0), (10, next), (10, object), (any_percent, any)]);
            store.set_link(object, i, if i == along { next } else { other });
        }
    }
}

fn set_players<W: Width>(random: &mut Random, store: &mut StoreOf<W>) {
    let starts: Vec<usize> = store.image().starts().collect();
    let nil_percent = random.from_to(50, 99);
    let owing_percent = random.weighted(&[(2, 0), (3, 10), (2, 50)]);
    for p in 0..W::PLAYERS {
        for r in 0..W::REGISTERS {
            let target = random.pick(&starts).filter(|_| !random.chance(nil_percent));
            store.set_register(p, r, target.unwrap_or(0));
        }
        let card = random.below(store.layout.cards());
        store.set_owed(p, random.chance(owing_percent).then_some(card));
    }
}

fn set_cards<W: Width>(random: &mut Random, store: &mut StoreOf<W>) {
    for c in 0..store.layout.cards() {
        let state = random.weighted(&[(3, 0), (1, 1), (2, 2), (1, 3)]);
        store.set_card(c, state);
    }
}

/// A cycle in which some of the objects are marked that may be.
fn start_cycle<W: Width>(random: &mut Random, store: &mut StoreOf<W>, may_be_marked: impl Fn(usize) -> bool) {
    store.set_running(true);
    set_cards(random, store);
    let starts: Vec<usize> = store.image().starts().collect();
    let marked_percent = random.weighted(&[(1, 0), (4, 40), (3, 70), (1, 100)]);
    let drawn = starts.into_iter().filter(|_| random.chance(marked_percent));
    let mut marked: Vec<usize> = drawn.filter(|&g| may_be_marked(g)).collect();
    marked.iter().for_each(|&g| store.mark(g));
    random.shuffle(&mut marked);
    let entered_percent = random.weighted(&[(1, 0), (3, 20), (2, 60), (1, 100)]);
    let used_packets = random.from_to(1, W::PACKETS);
    for &g in &marked {
        if random.chance(entered_percent) {
            enter(random, store, g, used_packets);
        }
    }
    set_tracers(random, store, &marked);
    for p in 0..W::PLAYERS {
        let scanned = random.chance(40);
        store.set_scanned(p, scanned);
    }
}

/// Enters a marked object in some packet of the first `packets` that has space.
fn enter<W: Width>(random: &mut Random, store: &mut StoreOf<W>, g: usize, packets: usize) {
    let roomy: Vec<usize> = (0..packets).filter(|&n| store.image().count(n) < W::ENTRIES).collect();
    if let Some(n) = random.pick(&roomy) {
        store.append(n, g);
    }
}

fn set_tracers<W: Width>(random: &mut Random, store: &mut StoreOf<W>, marked: &[usize]) {
    let mut packets: Vec<usize> = (0..W::PACKETS).collect();
    random.shuffle(&mut packets);
    let busy_percent = random.from_to(0, 80);
    for t in 0..W::TRACERS {
        let input = packets.pop().filter(|_| random.chance(busy_percent));
        let output = packets.pop().filter(|_| random.chance(busy_percent));
        let hand = hand(random, store.image(), marked).filter(|_| random.chance(busy_percent));
        let card = card_in_hand(random, store.image()).filter(|_| random.chance(busy_percent / 2));
        store.set_tracer(t, Tracer { input, output, hand, card });
    }
}

/// A marked object and a next link below its number of links.
fn hand<W: Width>(random: &mut Random, image: ImageOf<W>, marked: &[usize]) -> Option<(usize, usize)> {
    let g = random.pick(marked)?;
    let links = image.object(g).links.len();
    (links > 0).then(|| (g, random.below(links)))
}

/// A taken card and a next granule on it or just past it.
fn card_in_hand<W: Width>(random: &mut Random, image: ImageOf<W>) -> Option<(usize, usize)> {
    let taken: Vec<usize> = (0..image.cards()).filter(|&c| image.card(c) >= 2).collect();
    let c = random.pick(&taken)?;
    let first = W::CARD_GRANULES * c;
    let any = random.from_to(0, W::CARD_GRANULES);
    let next = random.weighted(&[(2, 0), (6, any), (1, W::CARD_GRANULES)]);
    Some((c, first + next))
}

/// Lets the tracers hold some packets, fills all others and marks what is entered.
fn starve<W: Width>(random: &mut Random, store: &mut StoreOf<W>) {
    store.set_running(true);
    set_cards(random, store);
    let mut packets: Vec<usize> = (0..W::PACKETS).collect();
    random.shuffle(&mut packets);
    let held_in = random.from_to(6, W::TRACERS);
    let held_out = random.from_to(6, W::TRACERS);
    let mut objects: Vec<usize> = store.image().starts().collect();
    random.shuffle(&mut objects);
    for t in 0..W::TRACERS {
        let input = packets.pop().filter(|_| t < held_in);
        let output = packets.pop().filter(|_| t >= W::TRACERS - held_out);
        store.set_tracer(t, Tracer { input, output, ..Tracer::default() });
    }
    let held: Vec<usize> = store.image().tracers().flat_map(|t| [t.input, t.output]).flatten().collect();
    for n in (0..W::PACKETS).filter(|n| !held.contains(n)) {
        enter_all(store, n, &mut objects, W::ENTRIES);
    }
    // An input that runs empty goes back to the pool and ends the want: most have many entries.
    for n in held {
        let count = random.weighted(&[(5, W::ENTRIES), (2, W::ENTRIES - 1), (1, 5), (1, 0)]);
        let spare = objects.len().saturating_sub(60);
        enter_all(store, n, &mut objects, count.min(spare));
    }
    let marked_too = random.below(objects.len() / 2);
    objects[..marked_too].iter().for_each(|&g| store.mark(g));
}

/// Puts unmarked objects in registers, where scans reach them. Cover may rest on the registers of
/// players who owe: those stay.
fn hold_unmarked<W: Width>(random: &mut Random, store: &mut StoreOf<W>) {
    let unmarked: Vec<usize> = store.image().starts().filter(|&g| !store.image().is_marked(g)).collect();
    for p in 0..W::PLAYERS {
        if store.image().owed_card(p).is_none() && random.chance(70) {
            let r = random.below(W::REGISTERS);
            store.set_register(p, r, random.pick(&unmarked).unwrap_or(0));
        }
    }
}

fn enter_all<W: Width>(store: &mut StoreOf<W>, packet: usize, objects: &mut Vec<usize>, count: usize) {
    for _ in 0..count {
        let g = objects.pop().expect("objects enough for the packets");
        store.mark(g);
        store.append(packet, g);
    }
}

/// Alters an image that is undamaged but for Cover until Cover holds too.
fn cover_all<W: Width>(random: &mut Random, store: &mut StoreOf<W>) {
    let ways = random.weighted(&[(1, Ways::Any), (2, Ways::ByEntry), (2, Ways::ByMark), (2, Ways::NotByCard)]);
    loop {
        let mut links = uncovered(store.image());
        if links.is_empty() {
            return;
        }
        // One alteration may cover several links: only a few are covered before looking again.
        random.shuffle(&mut links);
        links.truncate(links.len() / 10 + 1);
        for (g, i) in links {
            cover_link(random, store, ways, g, i);
        }
    }
}

#[derive(Clone, Copy)]
enum Ways {
    Any,
    ByEntry,
    ByMark,
    NotByCard,
}

#[derive(Clone, Copy)]
enum Way {
    DirtyCard,
    Enter,
    Mark,
    Nil,
    Hand,
    Owe,
}

fn cover_link<W: Width>(random: &mut Random, store: &mut StoreOf<W>, ways: Ways, g: usize, i: usize) {
    use Way::*;
    let target = store.image().object(g).links[i].number();
    if target == 0 || store.image().is_marked(target) || store.image().entered().any(|e| e == g) {
        return;
    }
    let weights = match ways {
        Ways::Any => [(1, DirtyCard), (2, Enter), (2, Mark), (2, Nil), (2, Hand), (2, Owe)],
        Ways::ByEntry => [(0, DirtyCard), (8, Enter), (1, Mark), (2, Nil), (4, Hand), (1, Owe)],
        Ways::ByMark => [(0, DirtyCard), (1, Enter), (8, Mark), (2, Nil), (1, Hand), (1, Owe)],
        Ways::NotByCard => [(0, DirtyCard), (1, Enter), (2, Mark), (1, Nil), (4, Hand), (4, Owe)],
    };
    match random.weighted(&weights) {
        DirtyCard => store.dirty(W::card_of(g)),
        Enter => enter(random, store, g, W::PACKETS),
        Mark => store.mark(target),
        Nil => store.set_link(g, i, 0),
        Hand => put_in_hand(random, store, g, i),
        Owe => let_owe(random, store, W::card_of(g), target),
    }
}

fn put_in_hand<W: Width>(random: &mut Random, store: &mut StoreOf<W>, g: usize, i: usize) {
    let idle: Vec<usize> = (0..W::TRACERS).filter(|&t| store.image().tracer(t).hand.is_none()).collect();
    if let Some(t) = random.pick(&idle) {
        let next = random.from_to(0, i);
        let tracer = Tracer { hand: Some((g, next)), ..store.image().tracer(t) };
        store.set_tracer(t, tracer);
    }
}

/// A player who owes nothing, or that card already, and has a nil register comes to owe and to hold.
fn let_owe<W: Width>(random: &mut Random, store: &mut StoreOf<W>, card: usize, target: usize) {
    let may_owe = |p: &usize| store.image().owed_card(*p).is_none_or(|c| c == card);
    let players: Vec<usize> = (0..W::PLAYERS).filter(may_owe).collect();
    let Some(p) = random.pick(&players) else { return };
    let nil: Vec<usize> = (0..W::REGISTERS).filter(|&r| store.image().register(p, r) == 0).collect();
    if let Some(r) = random.pick(&nil) {
        store.set_owed(p, Some(card));
        store.set_register(p, r, target);
    }
}
