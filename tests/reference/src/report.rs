//! Sweep reports of older desks, by document 02, (vi) and (viii): "Given the image at the begin, the image just before the finish and such a
//! report, say whether it is acceptable." And the report of a finish, by what it has freed.

use std::ops::Range;

use crate::image::Image;
use crate::judge::judge;
use crate::layout::{cards_of_length, CARD_GRANULES};

/// "records of 4 bytes, no header"
pub const STRETCH_BYTES: usize = 4;

/// The words of scratch for stores of `k` cards, by (viii): "The same verdicts, for the same images and reports, shall come from G/8 words of
/// scratch, again zero afterwards. A scratch of G words is a misfit from then on."
pub fn scratch_words(k: usize) -> usize {
    CARD_GRANULES * k / 8
}

/// "start and length in granules, 16 bits each, low byte first"
#[derive(Clone, Copy, Debug, PartialEq, Eq)]
pub struct Stretch {
    pub start: u16,
    pub length: u16,
}

impl Stretch {
    /// A stretch whose numbers fit in their 16 bits.
    pub fn new(start: usize, length: usize) -> Stretch {
        let field = |number| u16::try_from(number).expect("a field of 16 bits");
        Stretch { start: field(start), length: field(length) }
    }

    pub fn from_bytes(bytes: &[u8]) -> Stretch {
        let word = |i: usize| u16::from_le_bytes([bytes[i], bytes[i + 1]]);
        Stretch { start: word(0), length: word(2) }
    }

    pub fn to_bytes(self) -> [u8; STRETCH_BYTES] {
        let [start0, start1] = self.start.to_le_bytes();
        let [length0, length1] = self.length.to_le_bytes();
        [start0, start1, length0, length1]
    }

    /// Its granules, also beyond a store's last: the end is up to 131,070.
    pub fn granules(self) -> Range<usize> {
        let start = usize::from(self.start);
        start..start + usize::from(self.length)
    }
}

pub fn stretches(report: &[u8]) -> Vec<Stretch> {
    report.chunks_exact(STRETCH_BYTES).map(Stretch::from_bytes).collect()
}

pub fn report_bytes(stretches: &[Stretch]) -> Vec<u8> {
    stretches.iter().flat_map(|stretch| stretch.to_bytes()).collect()
}

/// Two undamaged images of equal length, and the stretches that a report names.
pub struct Reported<'a> {
    pub first: Image<'a>,
    pub second: Image<'a>,
    pub stretches: Vec<Stretch>,
}

type Applies = fn(&Reported) -> bool;

/// "Checks: 1 for any misfit, images of unequal length and report bytes not a multiple of 4 included; 2; 12 bad stretch; 13 held object
/// freed; 14 lost object missed; the lowest is given." The scratch's "content afterwards is zero; on refusals 1 and 2 it is unaltered".
pub fn judge_report(first: &[u16], second: &[u16], report: &[u8], scratch: &mut [u16]) -> u16 {
    if !fits(first, second, report, scratch) {
        return 1;
    }
    if judge(first) != 0 || judge(second) != 0 {
        return 2;
    }
    scratch.fill(0);
    let image = |words| Image::of(words).expect("a fitting length");
    let reported = Reported { first: image(first), second: image(second), stretches: stretches(report) };
    let conditions: [(u16, Applies); 3] = [(12, has_bad_stretch), (13, frees_held_object), (14, misses_lost_object)];
    conditions.iter().find(|(_, applies)| applies(&reported)).map_or(0, |&(number, _)| number)
}

fn fits(first: &[u16], second: &[u16], report: &[u8], scratch: &[u16]) -> bool {
    let has_its_scratch = |k| scratch.len() == scratch_words(k);
    first.len() == second.len()
        && report.len().is_multiple_of(STRETCH_BYTES)
        && cards_of_length(first.len()).is_some_and(has_its_scratch)
}

/// 12: "Stretches must rise without overlap, and each must be made up of one or more whole objects of the second image."
pub fn has_bad_stretch(reported: &Reported) -> bool {
    let objects = objects_by_granule(reported.second);
    let overlap = |pair: &[Stretch]| pair[1].granules().start < pair[0].granules().end;
    reported.stretches.windows(2).any(overlap)
        || reported.stretches.iter().any(|&stretch| !is_of_whole_objects(&objects, stretch))
}

/// Each of its granules, of which there are some, has an object that lies in the stretch from its first granule to its last.
fn is_of_whole_objects(objects: &[Option<Range<usize>>], stretch: Stretch) -> bool {
    let Range { start, end } = stretch.granules();
    let is_whole = |object: &Option<Range<usize>>| object.as_ref().is_some_and(|o| start <= o.start && o.end <= end);
    start < end && objects.get(start..end).is_some_and(|objects| objects.iter().all(is_whole))
}

/// For each granule the granules of the object that has it; a free granule has none, nor has granule 0.
pub fn objects_by_granule(image: Image) -> Vec<Option<Range<usize>>> {
    let mut objects = vec![None; image.granules()];
    for object in image.objects() {
        let granules = object.start..object.start + object.size;
        objects[granules.clone()].fill(Some(granules));
    }
    objects
}

/// 13: "No object of the second image within reach of its registers may lie in one."
pub fn frees_held_object(reported: &Reported) -> bool {
    let (reached, covered) = (within_reach(reported.second), covered(reported));
    reported.second.starts().any(|g| reached[g] && covered[g])
}

/// 14: "Every start of the first image out of reach there must be covered by one."
pub fn misses_lost_object(reported: &Reported) -> bool {
    let (reached, covered) = (within_reach(reported.first), covered(reported));
    reported.first.starts().any(|g| !reached[g] && !covered[g])
}

/// By granule, whether it lies in a stretch.
pub fn covered(reported: &Reported) -> Vec<bool> {
    let granules = reported.second.granules();
    let mut covered = vec![false; granules];
    for stretch in &reported.stretches {
        stretch.granules().filter(|&g| g < granules).for_each(|g| covered[g] = true);
    }
    covered
}

/// By granule, whether a chain from a register ends there: chains without a link, then those with one, with two, and so on, for as long as
/// one of them ends at an object where none ended before.
pub fn within_reach(image: Image) -> Vec<bool> {
    let mut reached = vec![false; image.granules()];
    let mut ends: Vec<usize> = image.registers().collect();
    while !ends.is_empty() {
        let mut longer = Vec::new();
        for end in ends {
            if end != 0 && !reached[end] {
                reached[end] = true;
                longer.extend(image.object(end).links.iter().map(|&link| usize::from(link)));
            }
        }
        ends = longer;
    }
    reached
}

/// What a finish has freed, by the image that it got and the one that it left: a stretch for each object, in rising order.
pub fn freed(got: Image, left: Image) -> Vec<Stretch> {
    let gone = got.objects().filter(|object| !left.is_start(object.start));
    gone.map(|object| Stretch::new(object.start, object.size)).collect()
}

/// Stretches that touch are made one wherever `joins` says so.
pub fn joined(stretches: &[Stretch], mut joins: impl FnMut() -> bool) -> Vec<Stretch> {
    let mut all: Vec<Stretch> = Vec::new();
    for &stretch in stretches {
        match all.last_mut() {
            Some(last) if last.granules().end == stretch.granules().start && joins() => last.length += stretch.length,
            _ => all.push(stretch),
        }
    }
    all
}
