//! Ways to make a report wrong, each of which leaves the rest of it as it was.

// Each is a `Spoil`, whether it adds stretches or not.
#![allow(clippy::ptr_arg)]

use std::collections::{BTreeMap, BTreeSet};
use std::ops::Range;

use crate::image::Image;
use crate::random::Random;
use crate::report::{joined, within_reach, Stretch};

/// Alters the stretches of a report on a first and a second image.
pub type Spoil = fn(&mut Random, [Image; 2], &mut Vec<Stretch>);

/// An object of the second image that is within reach is reported too, alone or with its neighbours.
pub const HELD: Spoil = |random, [_, second], stretches| {
    let reached = within_reach(second);
    let held: Vec<usize> = second.starts().filter(|&g| reached[g]).collect();
    random.pick(&held).into_iter().for_each(|g| add_object(stretches, second, g));
    *stretches = joined(stretches, || random.chance(50));
};

/// An object is left out that stands where the first image has one out of reach.
pub const MISSED: Spoil = |random, [first, second], stretches| {
    let reached = within_reach(first);
    let lost: Vec<usize> = first.starts().filter(|&g| !reached[g]).collect();
    if let Some(g) = random.pick(&lost) {
        let has = |object: &Range<usize>| object.contains(&g);
        objects(second).find(has).into_iter().for_each(|object| cut(stretches, object));
    }
};

/// A stretch is left out.
pub const UNREPORTED: Spoil = |random, _, stretches| {
    if !stretches.is_empty() {
        stretches.remove(random.below(stretches.len()));
    }
};

/// Ways that make a stretch bad, or mostly do.
pub const BAD: [(&str, Spoil); 15] = [
    ("twice", reported_twice),
    ("overlap", overlap),
    ("order", |random, _, stretches| random.shuffle(stretches)),
    ("empty", empty),
    ("start inside", start_inside),
    ("end inside", end_inside),
    ("too long", too_long),
    ("run", run),
    ("run behind", run_behind),
    ("run before", run_before),
    ("granule 0", granule_0),
    ("past", past),
    ("over the end", over_the_end),
    ("wrapping", wrapping),
    ("any stretch", |random, _, stretches| {
        let stretch = Stretch { start: random.word(), length: random.word() };
        let place = random.from_to(0, stretches.len());
        stretches.insert(place, stretch);
    }),
];

fn objects(image: Image<'_>) -> impl Iterator<Item = Range<usize>> + '_ {
    image.objects().map(|object| object.start..object.start + object.size)
}

/// Puts a stretch where its start belongs, behind one that starts with it.
fn add(stretches: &mut Vec<Stretch>, stretch: Stretch) {
    let place = stretches.iter().position(|other| other.start > stretch.start).unwrap_or(stretches.len());
    stretches.insert(place, stretch);
}

fn add_object(stretches: &mut Vec<Stretch>, image: Image, g: usize) {
    add(stretches, Stretch::new(g, image.object(g).size));
}

/// Takes an object out of the stretch that has it; what is before it and behind it stays.
fn cut(stretches: &mut Vec<Stretch>, object: Range<usize>) {
    let Some(place) = stretches.iter().position(|stretch| stretch.granules().contains(&object.start)) else { return };
    let whole = stretches.remove(place).granules();
    for rest in [whole.start..object.start, object.end..whole.end].into_iter().filter(|rest| !rest.is_empty()) {
        add(stretches, Stretch::new(rest.start, rest.len()));
    }
}

/// A stretch picked by a test of its granules, to be altered.
fn pick<'a>(
    random: &mut Random,
    stretches: &'a mut [Stretch],
    test: impl Fn(Range<usize>) -> bool,
) -> Option<&'a mut Stretch> {
    let places: Vec<usize> = (0..stretches.len()).filter(|&n| test(stretches[n].granules())).collect();
    random.pick(&places).map(|n| &mut stretches[n])
}

/// The starts that lie in stretches, or those that do not.
fn starts(image: Image, stretches: &[Stretch], in_stretches: bool) -> Vec<usize> {
    let mut is_in = vec![false; image.granules()];
    for stretch in stretches {
        stretch.granules().take_while(|&g| g < image.granules()).for_each(|g| is_in[g] = true);
    }
    image.starts().filter(|&g| is_in[g] == in_stretches).collect()
}

/// An object that is reported already, alone or with others, is reported again on its own.
fn reported_twice(random: &mut Random, [_, second]: [Image; 2], stretches: &mut Vec<Stretch>) {
    let reported = starts(second, stretches, true);
    random.pick(&reported).into_iter().for_each(|g| add_object(stretches, second, g));
}

/// A stretch goes on over the first object of the next one, which it touches; then both have that object.
fn overlap(random: &mut Random, [_, second]: [Image; 2], stretches: &mut Vec<Stretch>) {
    let starts: BTreeSet<usize> = stretches.iter().map(|stretch| stretch.granules().start).collect();
    if let Some(stretch) = pick(random, stretches, |granules| starts.contains(&granules.end)) {
        stretch.length += second.object(stretch.granules().end).size as u16;
    }
}

/// A stretch of no granule, at an object, behind one, or anywhere.
fn empty(random: &mut Random, [_, second]: [Image; 2], stretches: &mut Vec<Stretch>) {
    let object = random.pick(&second.starts().collect::<Vec<_>>()).unwrap_or(1);
    let behind = stretches.last().map_or(0, |stretch| stretch.granules().end);
    let any = random.below(second.granules() + 1);
    let start = random.weighted(&[(3, object), (1, behind), (1, any)]);
    add(stretches, Stretch::new(start, 0));
}

/// How many granules of a stretch belong to its first object, and to its last.
fn ends(image: Image, granules: Range<usize>) -> (usize, usize) {
    let mut sizes = granules.filter(|&g| g < image.granules() && image.is_start(g)).map(|g| image.object(g).size);
    let first = sizes.next().unwrap_or(0);
    (first, sizes.next_back().unwrap_or(first))
}

fn start_inside(random: &mut Random, [_, second]: [Image; 2], stretches: &mut Vec<Stretch>) {
    let less = random.from_to(1, 3);
    if let Some(stretch) = pick(random, stretches, |granules| ends(second, granules).0 > less) {
        stretch.start += less as u16;
        stretch.length -= less as u16;
    }
}

fn end_inside(random: &mut Random, [_, second]: [Image; 2], stretches: &mut Vec<Stretch>) {
    let less = random.from_to(1, 3);
    if let Some(stretch) = pick(random, stretches, |granules| ends(second, granules).1 > less) {
        stretch.length -= less as u16;
    }
}

/// A stretch goes on over granules behind it, whatever is there.
fn too_long(random: &mut Random, _: [Image; 2], stretches: &mut Vec<Stretch>) {
    let more = random.from_to(1, 3);
    pick(random, stretches, |_| true).into_iter().for_each(|stretch| stretch.length += more as u16);
}

/// A run, or a part of one, is reported.
fn run(random: &mut Random, [_, second]: [Image; 2], stretches: &mut Vec<Stretch>) {
    if let Some((g, length)) = random.pick(&second.runs().collect::<Vec<_>>()) {
        let part = random.from_to(1, length);
        add(stretches, Stretch::new(g, random.weighted(&[(2, length), (1, part)])));
    }
}

/// A stretch goes on over the run behind it, or a part of that run.
fn run_behind(random: &mut Random, [_, second]: [Image; 2], stretches: &mut Vec<Stretch>) {
    let runs: BTreeMap<usize, usize> = second.runs().collect();
    if let Some(stretch) = pick(random, stretches, |granules| runs.contains_key(&granules.end)) {
        let run = runs[&stretch.granules().end];
        let part = random.from_to(1, run);
        stretch.length += random.weighted(&[(2, run), (1, part)]) as u16;
    }
}

/// A stretch has the run before it too, and with that run the stretch before it if there is one.
fn run_before(random: &mut Random, [_, second]: [Image; 2], stretches: &mut Vec<Stretch>) {
    let runs: BTreeMap<usize, usize> = second.runs().map(|(g, length)| (g + length, length)).collect();
    let Some(stretch) = pick(random, stretches, |granules| runs.contains_key(&granules.start)) else { return };
    let run = runs[&stretch.granules().start] as u16;
    *stretch = Stretch { start: stretch.start - run, length: stretch.length + run };
    *stretches = joined(stretches, || true);
}

fn granule_0(random: &mut Random, [_, second]: [Image; 2], stretches: &mut Vec<Stretch>) {
    let object = objects(second).next().map_or(1, |object| object.end);
    match stretches.first_mut() {
        Some(first) if first.start == 1 && random.chance(70) => *first = Stretch::new(0, usize::from(first.length) + 1),
        _ => stretches.insert(0, Stretch::new(0, random.weighted(&[(2, 1), (1, object)]))),
    }
}

fn past(random: &mut Random, [_, second]: [Image; 2], stretches: &mut Vec<Stretch>) {
    let granules = second.granules();
    let beyond = random.from_to(granules, 65_535);
    let start = random.weighted(&[(2, granules), (1, granules + 1), (1, 65_535), (1, beyond)]);
    stretches.push(Stretch::new(start, random.from_to(1, 4)));
}

/// The last stretch, or one of the last object, goes on past the last granule.
fn over_the_end(random: &mut Random, [_, second]: [Image; 2], stretches: &mut Vec<Stretch>) {
    let last = objects(second).last().map_or(1, |object| object.start);
    if !stretches.last().is_some_and(|stretch| stretch.granules().contains(&last)) && random.chance(70) {
        stretches.push(Stretch::new(last, 1));
    }
    if let Some(stretch) = stretches.last_mut() {
        let up_to_the_end = second.granules().saturating_sub(stretch.granules().start);
        *stretch = Stretch::new(stretch.granules().start, up_to_the_end + random.from_to(1, 3));
    }
}

/// A stretch whose start and length add up to 65,536 or more, where nothing is reported yet.
fn wrapping(random: &mut Random, [_, second]: [Image; 2], stretches: &mut Vec<Stretch>) {
    if let Some(start) = random.pick(&starts(second, stretches, false)) {
        let any = random.from_to(65_536 - start, 65_535);
        let length = random.weighted(&[(1, 65_536 - start), (1, 65_535), (2, any)]);
        add(stretches, Stretch::new(start, length));
    }
}
