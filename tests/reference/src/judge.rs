//! The lines of "undamaged", each on its own, in document 01's order; that on counts, of document 02, follows the marks.

use crate::image::{ImageOf, Object};
use crate::width::{Places, Width};

#[derive(Clone, Copy, Debug, PartialEq, Eq, PartialOrd, Ord)]
pub enum Line {
    /// The length fits.
    Length,
    /// Every word has a value that the layout gives it.
    Words,
    /// Objects and runs fill the heap, start bits and the run chain agree.
    Filling,
    /// Links and registers are nil or starts, owed cards exist.
    References,
    /// Marks on starts, entries marked and single, packets held once.
    Marks,
    /// The count of each card is the number of mark bits on it.
    Counts,
    /// Objects and cards in hand.
    Hands,
    /// With no cycle, what belongs to one is zero.
    Idle,
    /// Links from marked to unmarked objects are still due.
    Cover,
}

/// 0 undamaged, 1 misfit, 2 damaged.
pub fn judge<W: Width>(image: &[W]) -> u16 {
    match first_damage(image) {
        None => 0,
        Some(Line::Length) => 1,
        Some(_) => 2,
    }
}

/// The length fits and every line but Cover holds.
pub fn undamaged_but_cover<W: Width>(image: &[W]) -> bool {
    matches!(first_damage(image), None | Some(Line::Cover))
}

/// Cover, of an image on which the other lines hold (false of any other).
pub fn cover<W: Width>(image: &[W]) -> bool {
    first_damage(image).is_none()
}

type Holds<W> = fn(ImageOf<W>) -> bool;

/// The first line that does not hold. A line may read the image as the lines before it allow.
pub fn first_damage<W: Width>(words: &[W]) -> Option<Line> {
    let Some(image) = ImageOf::of(words) else { return Some(Line::Length) };
    let lines: [(Line, Holds<W>); 8] = [
        (Line::Words, words_have_values),
        (Line::Filling, heap_is_filled),
        (Line::References, references_are_sound),
        (Line::Marks, marks_are_sound),
        (Line::Counts, counts_are_right),
        (Line::Hands, hands_are_sound),
        (Line::Idle, idle_is_zero),
        (Line::Cover, |image| uncovered(image).is_empty()),
    ];
    lines.iter().find(|(_, holds)| !holds(image)).map(|&(line, _)| line)
}

/// Stretch by stretch, each looked at whole: so many words are compared at once.
fn is_zero<W: Width>(words: &[W]) -> bool {
    words.chunks(64).all(|some| some.iter().fold(true, |zero, &w| zero & (w == W::default())))
}

fn words_have_values<W: Width>(image: ImageOf<W>) -> bool {
    let general = image.layout.general();
    is_zero(&image.words[..W::GRANULE_WORDS])
        && (0..image.cards()).all(|c| image.card(c) <= 3)
        && (0..W::PACKETS).all(|n| packet_words(image, n))
        && (0..W::TRACERS).all(|t| tracer_words(image, t))
        && (0..W::PLAYERS).all(|p| image.word(image.layout.player(p) + 1) <= 1)
        && image.word(general) <= 1
        && is_zero(&image.words[general + 2..])
}

fn packet_words<W: Width>(image: ImageOf<W>, n: usize) -> bool {
    let count = image.count(n);
    let between = image.word(image.layout.packet(n) + 1);
    count <= W::ENTRIES && between == 0 && is_zero(&image.entry_words(n)[count..])
}

/// "0 means nothing held; what belongs to nothing held is 0."
fn tracer_words<W: Width>(image: ImageOf<W>, t: usize) -> bool {
    let word = |i| image.word(image.layout.tracer(t) + i);
    word(0) <= W::PACKETS
        && word(1) <= W::PACKETS
        && (word(2) != 0 || word(3) == 0)
        && word(4) <= image.cards()
        && (word(4) != 0 || word(5) == 0)
        && word(6) == 0
        && word(7) == 0
}

/// One walk over the heap, which meets objects by their start bits and runs in chain order.
/// A chain that does not ascend names a run that the walk does not meet, and is left over.
fn heap_is_filled<W: Width>(image: ImageOf<W>) -> bool {
    let mut due_run = image.first_run();
    let mut past_run = 0;
    let mut g = 1;
    while g < image.granules() {
        let size = if image.is_start(g) {
            object_size(image, g)
        } else if g == due_run && g != past_run {
            due_run = image.word(image.layout.granule(g) + 1);
            run_length(image, g)
        } else {
            None
        };
        let Some(size) = size else { return false };
        let is_run = !image.is_start(g);
        g += size;
        past_run = if is_run { g } else { 0 };
    }
    due_run == 0 && !image.is_start(0)
}

fn object_size<W: Width>(image: ImageOf<W>, g: usize) -> Option<usize> {
    let size = image.word(image.layout.granule(g));
    let links = image.word(image.layout.granule(g) + 1);
    let fits = (1..=W::LARGEST_OBJECT).contains(&size) && has_no_other_start(image, g, size);
    (fits && links <= W::GRANULE_WORDS * size - 2).then_some(size)
}

fn run_length<W: Width>(image: ImageOf<W>, g: usize) -> Option<usize> {
    let length = image.word(image.layout.granule(g));
    let fits = length >= 1 && has_no_other_start(image, g, length);
    let rest = || &image.words[image.layout.granule(g) + 2..image.layout.granule(g + length)];
    (fits && is_zero(rest())).then_some(length)
}

fn has_no_other_start<W: Width>(image: ImageOf<W>, g: usize, size: usize) -> bool {
    g + size <= image.granules() && image.starts_in(g + 1..g + size).next().is_none()
}

fn is_nil_or_start<W: Width>(image: ImageOf<W>, g: usize) -> bool {
    g == 0 || g < image.granules() && image.is_start(g)
}

fn references_are_sound<W: Width>(image: ImageOf<W>) -> bool {
    let links = image.objects().flat_map(|o| o.links).map(|&l| l.number());
    links.chain(image.registers()).all(|g| is_nil_or_start(image, g))
        && (0..W::PLAYERS).filter_map(|p| image.owed_card(p)).all(|c| c < image.cards())
}

fn is_marked<W: Width>(image: ImageOf<W>, g: usize) -> bool {
    g < image.granules() && image.is_marked(g)
}

fn marks_are_sound<W: Width>(image: ImageOf<W>) -> bool {
    let all_differ = |mut seen: Vec<usize>| {
        seen.sort_unstable();
        seen.windows(2).all(|w| w[0] != w[1])
    };
    let held = image.tracers().flat_map(|t| [t.input, t.output]).flatten().collect();
    image.marked_in(0..image.granules()).all(|g| image.is_start(g))
        && image.entered().all(|g| is_marked(image, g))
        && all_differ(image.entered().collect())
        && all_differ(held)
}

/// Document 02, (ii): "a count that differs from the mark bits makes it damaged".
fn counts_are_right<W: Width>(image: ImageOf<W>) -> bool {
    let marks_on = |c: usize| image.marked_in(W::CARD_GRANULES * c..W::CARD_GRANULES * (c + 1)).count();
    (0..image.cards()).all(|c| image.card_count(c) == marks_on(c))
}

fn hands_are_sound<W: Width>(image: ImageOf<W>) -> bool {
    let hand = |(g, link): (usize, usize)| is_marked(image, g) && link < image.object(g).links.len();
    let card = |(c, next): (usize, usize)| {
        let first = W::CARD_GRANULES * c;
        image.card(c) >= 2 && (first..=first + W::CARD_GRANULES).contains(&next)
    };
    image.tracers().all(|t| t.hand.is_none_or(hand) && t.card.is_none_or(card))
}

/// Card states 2 and 3 are not named here: an image with no cycle may have them.
fn idle_is_zero<W: Width>(image: ImageOf<W>) -> bool {
    let layout = image.layout;
    image.is_running()
        || is_zero(&image.words[layout.mark_bits()..layout.card(0)])
            && is_zero(&image.words[layout.packet(0)..layout.player(0)])
            && (0..W::PLAYERS).all(|p| !image.is_scanned(p))
}

/// The links, as object and place, from marked to unmarked objects that nothing covers.
pub fn uncovered<W: Width>(image: ImageOf<W>) -> Vec<(usize, usize)> {
    let mut entered = vec![false; image.granules()];
    image.entered().for_each(|g| entered[g] = true);
    let mut found = Vec::new();
    for g in image.starts().filter(|&g| image.is_marked(g)) {
        if image.is_dirty(W::card_of(g)) || entered[g] {
            continue;
        }
        let object = image.object(g);
        for (i, &link) in object.links.iter().enumerate() {
            let to_unmarked = link != W::default() && !image.is_marked(link.number());
            if to_unmarked && !is_link_covered(image, object, i) {
                found.push((object.start, i));
            }
        }
    }
    found
}

/// "O is in hand with that link still to come; or O lies on a card in hand, at or past the next
/// granule; or a player owes O's card and holds A in a register": it is one player who does both.
fn is_link_covered<W: Width>(image: ImageOf<W>, object: Object<W>, i: usize) -> bool {
    let card = W::card_of(object.start);
    let target = object.links[i].number();
    let by_tracer = image.tracers().any(|t| {
        t.hand.is_some_and(|(g, next)| g == object.start && next <= i)
            || t.card.is_some_and(|(c, next)| c == card && object.start >= next)
    });
    let by_player = |p| image.owed_card(p) == Some(card) && image.registers_of(p).any(|g| g == target);
    by_tracer || (0..W::PLAYERS).any(by_player)
}
