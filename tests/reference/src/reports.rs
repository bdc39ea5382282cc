//! Random calls of `judge_report`: reports of our own finishes, such reports made wrong, images that have nothing to do with each other,
//! damage, and lengths that do not fit.

use crate::cases::change_length;
use crate::generate::{damage, list, list_with_gaps, list_with_wiping, Pace};
use crate::image::{Image, Store};
use crate::layout::{cards_of_length, PLAYERS};
use crate::made::{bare, far, fresh_image, gaps, idle, running};
use crate::random::Random;
use crate::record::{records, Record, BEGIN, FINISH, SCAN, TRACE};
use crate::report::{freed, joined, judge_report, report_bytes, scratch_words, within_reach, Stretch};
use crate::spoils::{Spoil, BAD, HELD, MISSED, UNREPORTED};
use crate::steps::{step, Placing};
use crate::vectors::{ReportCase, UNTOUCHED};

/// An accepted begin of a list and the next accepted finish, by their places in it, with the images that each of them got and the one that
/// the finish left.
pub struct Cycle {
    pub begin: usize,
    pub finish: usize,
    pub first: Vec<u16>,
    pub second: Vec<u16>,
    pub left: Vec<u16>,
}

impl Cycle {
    /// What the finish has freed, object by object.
    pub fn freed(&self) -> Vec<Stretch> {
        freed(image_of(&self.second), image_of(&self.left))
    }

    /// What cycles are counted by, so that a test can see that its lists were worth running.
    pub fn shows(&self) -> [(&'static str, bool); 6] {
        let (first, second) = (image_of(&self.first), image_of(&self.second));
        let (freed, reached) = (self.freed(), within_reach(second));
        [
            ("cycles", true),
            ("of 10 steps", self.finish - self.begin > 10),
            ("that free", !freed.is_empty()),
            ("that free neighbours", joined(&freed, || true).len() < freed.len()),
            ("that free what was made since", freed.iter().any(|stretch| !first.is_start(stretch.granules().start))),
            ("that keep what is out of reach", second.starts().filter(|&g| !reached[g]).count() > freed.len()),
        ]
    }
}

fn image_of(words: &[u16]) -> Image<'_> {
    Image::of(words).expect("a fitting length")
}

/// The cycles of a list. It is given to `run`, any implementation of `batch`, one record at a time.
pub fn cycles(
    first_image: &[u16],
    steps: &[u8],
    mut run: impl FnMut(&mut [u16], &[u8], &mut [u16]) -> u16,
) -> Vec<Cycle> {
    let mut image = first_image.to_vec();
    let mut begun = None;
    let mut cycles = Vec::new();
    for (place, record) in records(steps).enumerate() {
        // Only what a begin or a finish got is asked for.
        let got = if matches!(record.kind, BEGIN | FINISH) { image.clone() } else { Vec::new() };
        let mut answer = [UNTOUCHED; 2];
        assert_eq!(run(&mut image, &record.to_bytes(), &mut answer), 0, "the result of a batch of one record");
        match (record.kind, answer[0], begun.take()) {
            (BEGIN, 0, _) => begun = Some((place, got)),
            (FINISH, 0, Some((begin, first))) => {
                cycles.push(Cycle { begin, finish: place, first, second: got, left: image.clone() })
            }
            (_, _, before) => begun = before,
        }
    }
    cycles
}

/// The second implementation's steps, as a batch of one record that judges nothing.
pub fn unjudged(image: &mut [u16], steps: &[u8], answers: &mut [u16]) -> u16 {
    let (number, value) = step(&mut Store::of(image).expect("a fitting length"), Record::from_bytes(steps));
    answers.copy_from_slice(&[number, value]);
    0
}

/// An image of one of the makers, mostly with no cycle.
pub fn any_image(random: &mut Random, k: usize) -> Vec<u16> {
    let fresh = |_: &mut Random, k| fresh_image(k);
    let makers = [(1, fresh as fn(&mut Random, usize) -> _), (4, idle), (6, far), (2, gaps), (3, running), (1, bare)];
    random.weighted(&makers)(random, k)
}

/// A list of one or more cycles: records of all kinds, a begin that is accepted, more records, and a finish that ends its cycle if none of
/// them has. In some cycles much is marked before those records come, and some of it is dropped then. The image is left as the list leaves it.
pub fn list_with_cycles(random: &mut Random, image: &mut [u16], count: usize) -> Vec<u8> {
    let mut steps = some_records(random, image, count);
    let mut add = |kind, player| {
        let bytes = Record::new(kind, 0, player, 0, 0).to_bytes();
        unjudged(image, &bytes, &mut [0; 2]);
        steps.extend(bytes);
    };
    [FINISH, BEGIN].into_iter().for_each(|kind| add(kind, 0));
    if random.chance(40) {
        (0..PLAYERS as u16).for_each(|player| add(SCAN, player));
        (0..random.from_to(0, 2 * count)).for_each(|_| add(TRACE, 0));
    }
    steps.extend(some_records(random, image, count));
    let finish = Record::new(FINISH, 0, 0, 0, 0).to_bytes();
    unjudged(image, &finish, &mut [0; 2]);
    [steps, finish.to_vec()].concat()
}

/// Up to so many records.
fn some_records(random: &mut Random, image: &mut [u16], count: usize) -> Vec<u8> {
    let (some, pace) = (random.from_to(0, count), Pace::draw(random));
    match random.below(4) {
        0 => list_with_wiping(random, image, some, pace),
        1 => list_with_gaps(Placing::Tightest, random, image, some, pace),
        _ => list(random, image, some, pace),
    }
}

/// Two images of equal length, and stretches for a report on them.
#[derive(Clone)]
pub struct Drawn {
    pub first: Vec<u16>,
    pub second: Vec<u16>,
    pub stretches: Vec<Stretch>,
}

impl Drawn {
    fn images(&self) -> [Image<'_>; 2] {
        [image_of(&self.first), image_of(&self.second)]
    }

    /// Whether the report is altered by it.
    pub fn spoil(&mut self, random: &mut Random, spoil: Spoil) -> bool {
        let mut stretches = self.stretches.clone();
        spoil(random, self.images(), &mut stretches);
        let is_altered = stretches != self.stretches;
        self.stretches = stretches;
        is_altered
    }

    /// An object of the first image that is out of reach there, and one of the second that is within reach there.
    fn has_lost_and_held(&self) -> bool {
        let [first, second] = self.images();
        let reached = within_reach(first);
        first.starts().any(|g| !reached[g]) && second.registers().any(|g| g != 0)
    }
}

/// Some neighbours made one stretch: none, all, or one pair in two.
pub fn some_joined(random: &mut Random, stretches: &[Stretch]) -> Vec<Stretch> {
    let percent = random.weighted(&[(1, 0), (1, 100), (2, 50)]);
    joined(stretches, || random.chance(percent))
}

/// A cycle of ours and the report of its finish.
fn own(random: &mut Random, k: usize) -> Drawn {
    let image = any_image(random, k);
    let steps = list_with_cycles(random, &mut image.clone(), 40);
    let cycle = cycles(&image, &steps, unjudged).pop().expect("a cycle");
    let stretches = some_joined(random, &cycle.freed());
    Drawn { first: cycle.first, second: cycle.second, stretches }
}

/// Such a one with something lost before and something held behind, so that a report of it can go wrong in every way.
fn own_to_spoil(random: &mut Random, k: usize) -> Drawn {
    loop {
        let drawn = own(random, k);
        if drawn.has_lost_and_held() {
            return drawn;
        }
    }
}

/// Images that have nothing to do with each other, now and then the same one twice, and a report of all of the second that is out of
/// reach, whether a finish of ours would free it or not, or of some of it.
fn unrelated(random: &mut Random, k: usize) -> Drawn {
    let second = any_image(random, k);
    let first = if random.chance(30) { second.clone() } else { any_image(random, k) };
    let image = image_of(&second);
    let reached = within_reach(image);
    let percent = random.weighted(&[(3, 100), (1, 80), (1, 0)]);
    let may_be_freed = image.objects().filter(|object| !reached[object.start]);
    let some = may_be_freed.filter(|_| random.chance(percent)).map(|o| Stretch::new(o.start, o.size));
    let stretches = some.collect::<Vec<_>>();
    let stretches = some_joined(random, &stretches);
    Drawn { first, second, stretches }
}

/// Zeros, one word again and again, or any words.
pub fn any_scratch(random: &mut Random, words: usize) -> Vec<u16> {
    match random.below(4) {
        0 => vec![0; words],
        1 => vec![UNTOUCHED; words],
        _ => (0..words).map(|_| random.word()).collect(),
    }
}

/// Lengths of a scratch that are near the one for `k` cards, and none of them: half of it and an eighth, and G words, as many as there were by
/// (vi), among them.
pub fn wrong_scratches(k: usize) -> [usize; 9] {
    let words = scratch_words(k);
    [0, 1, words - 1, words + 1, words / 2, words / 8, 8 * words, scratch_words(k - 1), scratch_words(k + 1)]
}

/// One of them, every other time G words.
fn wrong_scratch(random: &mut Random, k: usize) -> usize {
    let any = random.pick(&wrong_scratches(k)).expect("some length");
    random.weighted(&[(1, 8 * scratch_words(k)), (1, any)])
}

/// The case with what this implementation does on it.
fn case_of(name: String, drawn: &Drawn, report: Vec<u8>, scratch: Vec<u16>) -> ReportCase {
    let mut after = scratch.clone();
    let result = judge_report(&drawn.first, &drawn.second, &report, &mut after);
    let Drawn { first, second, .. } = drawn.clone();
    ReportCase { name, first, second, report, scratch, result, after }
}

/// Cases of one card. They have a generator of their own: the other cases of a seed do not hang on them.
pub fn reports(seed: u64, count: u64) -> impl Iterator<Item = ReportCase> {
    let mut random = Random::new(!seed ^ SALT);
    (0..count).map(move |number| report_case(&mut random, 1, number))
}

/// Keeps the generator apart from that of the maps, and has the few cases of the gate tell as much as they can.
const SALT: u64 = 5091;

/// 32 kinds in turn, so that a few cases show every number, and every way to make a stretch bad.
pub fn report_case(random: &mut Random, k: usize, number: u64) -> ReportCase {
    let number = number as usize;
    let (what, mut drawn) = match number % 32 {
        0 | 1 => ("own", own_to_spoil(random, k)),
        2 | 3 => ("held", spoiled(random, k, &[HELD])),
        4 | 5 => ("missed", spoiled(random, k, &[MISSED])),
        6 | 7 => ("damaged", damaged(random, k)),
        8..=10 => ("misfit", own(random, k)),
        11..=13 => several(random, k),
        14 => any(random, k),
        15 | 16 => ("unrelated", unrelated(random, k)),
        place => bad(random, k, place - 17),
    };
    let mut report = report_bytes(&drawn.stretches);
    let mut scratch = any_scratch(random, scratch_words(k));
    if what == "misfit" {
        unfit(random, number / 32 + number % 32 - 8, &mut drawn, &mut report, &mut scratch);
    }
    case_of(format!("{number} {what}"), &drawn, report, scratch)
}

/// A report of ours that each of these alters.
fn spoiled(random: &mut Random, k: usize, spoils: &[Spoil]) -> Drawn {
    loop {
        let mut drawn = own_to_spoil(random, k);
        if spoils.iter().all(|&spoil| drawn.spoil(random, spoil)) {
            return drawn;
        }
    }
}

fn bad(random: &mut Random, k: usize, way: usize) -> (&'static str, Drawn) {
    let (what, spoil) = BAD[way];
    (what, spoiled(random, k, &[spoil]))
}

/// Wrong in two or three ways: the lowest number is asked for.
fn several(random: &mut Random, k: usize) -> (&'static str, Drawn) {
    let (_, bad) = random.pick(&BAD).expect("some way");
    let spoils: &[Spoil] = match random.below(4) {
        0 => &[HELD, bad],
        1 => &[MISSED, bad],
        2 => &[HELD, MISSED],
        _ => &[HELD, MISSED, bad],
    };
    ("several", spoiled(random, k, spoils))
}

/// What may well be right: a stretch left out, nothing freed, any stretches at all.
fn any(random: &mut Random, k: usize) -> (&'static str, Drawn) {
    match random.below(3) {
        0 => ("left out", spoiled(random, k, &[UNREPORTED])),
        1 => ("own", own(random, k)),
        _ => {
            let stretch = |random: &mut Random| Stretch::new(random.below(64 * k + 2), random.below(4));
            let stretches = (0..random.from_to(0, 4)).map(|_| stretch(random)).collect();
            ("any", Drawn { stretches, ..own(random, k) })
        }
    }
}

/// The report is right or has a bad stretch: 2 comes before 12.
fn damaged(random: &mut Random, k: usize) -> Drawn {
    let (_, bad) = random.pick(&BAD).expect("some way");
    let mut drawn = if random.chance(50) { own(random, k) } else { spoiled(random, k, &[bad]) };
    damage_some(random, &mut drawn);
    drawn
}

/// Damages the first image, the second or both.
fn damage_some(random: &mut Random, drawn: &mut Drawn) {
    let which = random.below(3);
    if which != 0 {
        damage(random, &mut drawn.first);
    }
    if which != 1 {
        damage(random, &mut drawn.second);
    }
}

/// Lengths that do not fit: in turn of the report, of both images, of the scratch and of each image, and now and then of another slice too. In
/// half of them there is damage too: 1 comes before 2.
fn unfit(random: &mut Random, turn: usize, drawn: &mut Drawn, report: &mut Vec<u8>, scratch: &mut Vec<u16>) {
    let k = cards_of_length(drawn.first.len()).expect("a fitting length");
    if random.chance(50) {
        damage_some(random, drawn);
    }
    let another = turn + random.from_to(1, 4);
    for way in [turn % 5, another % 5].into_iter().take(random.weighted(&[(3, 1), (1, 2)])) {
        match way {
            0 => report.resize(report.len() + random.from_to(1, 3), 0),
            1 => drawn.second = any_image(random, k + 1),
            2 => scratch.resize(wrong_scratch(random, k), 1),
            3 => change_length(random, &mut drawn.first),
            _ => change_length(random, &mut drawn.second),
        }
    }
}
