//! Shows for the timings of a finish, of due and of new, laid directly in an image with no cycle.

use reference::image::Store;
use reference::layout::{length, Places};
use reference::random::Random;

use crate::calls::assert_undamaged;

#[derive(Clone, Copy)]
pub enum Sizes {
    One,
    OneToEight,
    Sixteen,
    OneBetweenRuns,
}

/// How much of a show a finish has to free, everything else being linked from a register.
#[derive(Clone, Copy)]
pub enum Free {
    Nothing,
    Half,
    All,
}

fn size(random: &mut Random, sizes: Sizes) -> usize {
    match sizes {
        Sizes::One | Sizes::OneBetweenRuns => 1,
        Sizes::OneToEight => random.from_to(1, 8),
        Sizes::Sixteen => 16,
    }
}

/// A full store of objects with two links each. Those that are kept are a tree in an order that has nothing to do with their
/// places; those to be freed are another, in no register, whose last objects link into the kept one.
pub fn show(k: usize, sizes: Sizes, free: Free) -> Vec<u16> {
    let mut random = Random::new(7);
    let mut words = vec![0; length(k)];
    let mut store = Store::of(&mut words).expect("a fitting length");
    let mut objects = lay_objects(&mut random, &mut store, sizes);
    random.shuffle(&mut objects);
    let kept = match free {
        Free::Nothing => objects.len(),
        Free::Half => objects.len() / 2,
        Free::All => 0,
    };
    let (kept, freed) = objects.split_at(kept);
    let root = kept.first().copied().unwrap_or(0);
    link_as_tree(&mut store, kept, 0);
    link_as_tree(&mut store, freed, root);
    store.set_register(0, 0, root);
    assert_undamaged(&words);
    words
}

/// Objects side by side from granule 1, or with runs between them, and a run where one more has no room; level words are not 0, so
/// that freeing has to clear.
fn lay_objects(random: &mut Random, store: &mut Store, sizes: Sizes) -> Vec<usize> {
    if matches!(sizes, Sizes::OneBetweenRuns) {
        return lay_between_runs(store);
    }
    let mut objects = Vec::new();
    let mut g = 1;
    while g < store.layout.granules() {
        let left = store.layout.granules() - g;
        let size = size(random, sizes);
        if size > left {
            store.set_run(g, left, 0);
            store.set_first_run(g);
            break;
        }
        store.set_object(g, size, 2);
        let levels = store.layout.granule(g) + 4..store.layout.granule(g + size);
        store.words[levels].fill(0x5aa5);
        objects.push(g);
        g += size;
    }
    objects
}

/// Objects of one granule at odd places, and a run of one granule behind each but the last, which ends the heap.
fn lay_between_runs(store: &mut Store) -> Vec<usize> {
    let granules = store.layout.granules();
    let objects: Vec<usize> = (1..granules).step_by(2).collect();
    for &g in &objects {
        store.set_object(g, 1, 2);
        if g + 1 < granules {
            store.set_run(g + 1, 1, if g + 3 < granules { g + 3 } else { 0 });
        }
    }
    store.set_first_run(2);
    objects
}

/// The lengths of so many runs, of 1, 2, 1 and 8 granules in turn.
pub fn in_turn(runs: usize) -> Vec<usize> {
    [1, 2, 1, 8].into_iter().cycle().take(runs).collect()
}

/// A store with runs of these lengths, each behind an object of one granule; one more object fills what is left. Two players hold the first,
/// which has a link to the second and a level word.
pub fn with_runs(k: usize, lengths: &[usize]) -> Vec<u16> {
    let mut words = vec![0; length(k)];
    let mut store = Store::of(&mut words).expect("a fitting length");
    let mut g = 1;
    for (n, length) in lengths.iter().enumerate() {
        store.set_object(g, 1, 1);
        store.set_run(g + 1, *length, if n + 1 < lengths.len() { g + length + 2 } else { 0 });
        g += 1 + length;
    }
    store.set_first_run(2);
    store.set_object(g, store.layout.granules() - g, 0);
    store.set_link(1, 0, 1 + 1 + lengths[0]);
    (0..2).for_each(|player| store.set_register(player, 0, 1));
    assert_undamaged(&words);
    words
}

/// Object i links to objects 2i + 1 and 2i + 2, and to `beyond` where there are none.
fn link_as_tree(store: &mut Store, objects: &[usize], beyond: usize) {
    for (i, &object) in objects.iter().enumerate() {
        for link in 0..2 {
            let target = objects.get(2 * i + 1 + link).copied().unwrap_or(beyond);
            store.set_link(object, link, target);
        }
    }
}

/// A store full of one-granule objects of two links, 64k - 1 of them, that are one tree: granule g links to 2g and 2g + 1.
pub fn full_tree(k: usize) -> Vec<u16> {
    let mut words = vec![0; length(k)];
    let mut store = Store::of(&mut words).expect("a fitting length");
    let objects: Vec<usize> = (1..store.layout.granules()).collect();
    objects.iter().for_each(|&g| store.set_object(g, 1, 2));
    link_as_tree(&mut store, &objects, 0);
    store.set_register(0, 0, 1);
    assert_undamaged(&words);
    words
}
