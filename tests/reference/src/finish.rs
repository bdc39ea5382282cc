//! The finish: what it keeps, the sweep, and the end of the cycle.

use crate::image::{ImageOf, StoreOf};
use crate::width::{Places, Width};

/// The finish alone, on an image in a cycle that is undamaged but for Cover: its value.
pub fn finish<W: Width>(image: &mut [W]) -> W {
    let mut store = StoreOf::of(image).expect("an image of fitting length");
    finish_store(&mut store)
}

pub fn finish_store<W: Width>(store: &mut StoreOf<W>) -> W {
    let kept = kept(store.image());
    let freed = sweep(store, &kept);
    end_cycle(store);
    W::of(freed)
}

/// By granule, whether an object that starts there is kept: "all marked objects and all that it finds".
fn kept<W: Width>(image: ImageOf<W>) -> Vec<bool> {
    let mut kept = vec![false; image.granules()];
    image.marked_in(0..image.granules()).for_each(|g| kept[g] = true);
    let mut found: Vec<usize> = image.registers().collect();
    for g in marked_with_links_due(image) {
        found.extend(links(image, g));
    }
    while let Some(g) = found.pop() {
        // A marked object found is followed no further: if its links are due, they are in already.
        if g != 0 && !kept[g] {
            kept[g] = true;
            found.extend(links(image, g));
        }
    }
    kept
}

fn links<W: Width>(image: ImageOf<'_, W>, g: usize) -> impl Iterator<Item = usize> + '_ {
    image.object(g).links.iter().map(|&link| link.number())
}

/// The marked objects that are "entered, in hand, on a dirty card or on a card in hand". The rule
/// names objects: all their links are followed, also those before the next link or next granule.
fn marked_with_links_due<W: Width>(image: ImageOf<W>) -> Vec<usize> {
    let mut due = vec![false; image.granules()];
    image.entered().for_each(|g| due[g] = true);
    image.tracers().filter_map(|t| t.hand).for_each(|(g, _)| due[g] = true);
    let mut card_due: Vec<bool> = (0..image.cards()).map(|c| image.is_dirty(c)).collect();
    image.tracers().filter_map(|t| t.card).for_each(|(c, _)| card_due[c] = true);
    image.starts().filter(|&g| image.is_marked(g) && (due[g] || card_due[W::card_of(g)])).collect()
}

/// Frees what is not kept and lays the runs anew; the granules freed.
fn sweep<W: Width>(store: &mut StoreOf<W>, kept: &[bool]) -> usize {
    let layout = store.layout;
    let objects: Vec<(usize, usize)> = store.image().objects().map(|o| (o.start, o.size)).collect();
    let mut freed = 0;
    for &(g, size) in objects.iter().filter(|(g, _)| !kept[*g]) {
        store.set_start(g, false);
        store.zero(layout.granule(g), layout.granule(g + size));
        freed += size;
    }
    let runs: Vec<(usize, usize)> = store.image().runs().collect();
    for (g, _) in runs {
        store.set_run(g, 0, 0);
    }
    let used: Vec<(usize, usize)> = objects.into_iter().filter(|(g, _)| kept[*g]).collect();
    lay_runs(store, &gaps(&used, layout.granules()));
    freed
}

/// The stretches between the used ones, from granule 1 on, as first granule and length.
fn gaps(used: &[(usize, usize)], granules: usize) -> Vec<(usize, usize)> {
    let mut gaps = Vec::new();
    let mut free_from = 1;
    for &(g, size) in used.iter().chain(&[(granules, 0)]) {
        if g > free_from {
            gaps.push((free_from, g - free_from));
        }
        free_from = g + size;
    }
    gaps
}

fn lay_runs<W: Width>(store: &mut StoreOf<W>, runs: &[(usize, usize)]) {
    let mut next = 0;
    for &(g, length) in runs.iter().rev() {
        store.set_run(g, length, next);
        next = g;
    }
    store.set_first_run(next);
}

/// "Cards, marks, packets, tracers, scanned and running become 0; owed cards stay." With the marks the counts, which lie behind the
/// cards, become 0.
fn end_cycle<W: Width>(store: &mut StoreOf<W>) {
    let layout = store.layout;
    store.zero(layout.mark_bits(), layout.register(0, 0));
    store.zero(layout.packet(0), layout.player(0));
    for p in 0..W::PLAYERS {
        store.set_scanned(p, false);
    }
    store.set_running(false);
}
