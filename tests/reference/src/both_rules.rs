//! Document 02, (v): "for the same list on the same image, kinds 1 to 8 get the same answers under both rules, read as in demand 3, up to
//! the first new refused for room under one rule only." The check of this for any two implementations of `batch`, and lists for it.

use crate::cases::evolved;
use crate::events::{Event, Events, List, NO_ROOM};
use crate::generate::{batches, list_with_gaps, Pace};
use crate::made::{fresh_image, gaps, running};
use crate::plain::reading::Reading;
use crate::plain::record::is_of_a_player;
use crate::plain::Value;
use crate::random::Random;
use crate::steps::Placing;

/// Where a comparison has ended.
#[derive(Clone, Copy, Debug, PartialEq, Eq)]
pub enum End {
    OfTheList,
    /// At a new that is refused for room under the lowest rule only, or the tightest.
    LowestRefused,
    TightestRefused,
}

/// What the comparison of a list has shown up to its end.
#[derive(Debug, PartialEq, Eq)]
pub struct Compared {
    pub end: End,
    /// Records of kinds 1 to 8, and of these the loads that gave an object.
    pub records: usize,
    pub loads: usize,
    /// News that both refuse for room, and that got another granule under the one rule than under the other.
    pub both_refused: usize,
    pub placed_otherwise: usize,
    /// Records of other kinds with other answers, which the sentence allows.
    pub others: usize,
}

/// Whether the sentence holds of what a list of batches on that image, which is undamaged, has come to under the two rules. The error
/// says where it does not.
pub fn both_rules(first_image: &[u16], lowest: &Events, tightest: &Events) -> Result<Compared, String> {
    if lowest.results != tightest.results || lowest.records.len() != tightest.records.len() {
        return Err("other results of batches".to_string());
    }
    let mut readings = [Reading::of(first_image), Reading::of(first_image)];
    let mut compared =
        Compared { end: End::OfTheList, records: 0, loads: 0, both_refused: 0, placed_otherwise: 0, others: 0 };
    for (place, pair) in lowest.records.iter().zip(&tightest.records).enumerate() {
        if let Some(end) = end_at(pair) {
            compared.end = end;
            break;
        }
        if is_of_a_player(&pair.0.bytes) {
            compare(&mut readings, place, pair, &mut compared)
                .map_err(|e| format!("step {place}, {:02x?}: {e}", pair.0.bytes))?;
        } else {
            compared.others += usize::from((pair.0.number, pair.0.value) != (pair.1.number, pair.1.value));
        }
    }
    Ok(compared)
}

/// "the first new refused for room under one rule only": the other has room for it. With another number there the two differ.
fn end_at((lowest, tightest): (&Event, &Event)) -> Option<End> {
    match (lowest.is_new(), lowest.number, tightest.number) {
        (true, NO_ROOM, 0) => Some(End::LowestRefused),
        (true, 0, NO_ROOM) => Some(End::TightestRefused),
        _ => None,
    }
}

/// A player's record: the same number under both, and the same value, each read by the news of its own side.
fn compare(
    [by_lowest, by_tightest]: &mut [Reading; 2],
    place: usize,
    (lowest, tightest): (&Event, &Event),
    compared: &mut Compared,
) -> Result<(), String> {
    let bytes = &lowest.bytes;
    let first = by_lowest.value(bytes[0], place, lowest.number.into(), lowest.value.into())?;
    let second = by_tightest.value(bytes[0], place, tightest.number.into(), tightest.value.into())?;
    if (lowest.number, first) != (tightest.number, second) {
        return Err(format!("{} {first:?} under the lowest, {} {second:?}", lowest.number, tightest.number));
    }
    compared.records += 1;
    compared.loads += usize::from(!lowest.is_new() && matches!(first, Value::Object(Some(_))));
    compared.both_refused += usize::from(lowest.is_new_without_room());
    compared.placed_otherwise += usize::from(lowest.is_new() && lowest.value != tightest.value);
    Ok(())
}

const LISTS: usize = 600;
const STEPS: usize = 200;

/// The lists of the tests, the same for all of them. They fill small stores again and again, half of them in one batch each, and are drawn
/// for either rule in turn: what just fits under one may not fit under the other.
pub fn lists() -> impl Iterator<Item = List> {
    (0..LISTS).map(list)
}

/// One in five of them.
pub fn some_lists() -> impl Iterator<Item = List> {
    (0..LISTS).step_by(5).map(list)
}

fn list(round: usize) -> List {
    let random = &mut Random::new(20_265 + round as u64);
    let k = random.from_to(1, 3);
    let image = match round % 4 {
        0 => fresh_image(k),
        1 => gaps(random, k),
        2 => running(random, k),
        _ => evolved(random, k),
    };
    let pace = Pace::draw(random);
    let placing = if round.is_multiple_of(3) { Placing::Tightest } else { Placing::Lowest };
    let steps = list_with_gaps(placing, random, &mut image.clone(), STEPS, pace);
    let batches = if round % 8 < 4 { vec![(steps, 2 * STEPS)] } else { batches(random, &steps) };
    List { image, batches }
}

/// How many lists have shown what the sentence speaks of.
#[derive(Debug, Default)]
pub struct Shown {
    pub both_refused: usize,
    pub lowest_refused: usize,
    pub tightest_refused: usize,
    pub to_the_end: usize,
    pub placed_otherwise: usize,
    /// Both: compared to the end with something placed otherwise.
    pub otherwise_to_the_end: usize,
    pub others: usize,
    pub refused_batches: usize,
    /// Loads that gave an object, of all lists.
    pub loads: usize,
}

impl Shown {
    pub fn count(&mut self, compared: &Compared, events: &Events) {
        let (to_the_end, otherwise) = (compared.end == End::OfTheList, compared.placed_otherwise > 0);
        self.both_refused += usize::from(compared.both_refused > 0);
        self.lowest_refused += usize::from(compared.end == End::LowestRefused);
        self.tightest_refused += usize::from(compared.end == End::TightestRefused);
        self.to_the_end += usize::from(to_the_end);
        self.placed_otherwise += usize::from(otherwise);
        self.otherwise_to_the_end += usize::from(to_the_end && otherwise);
        self.others += usize::from(compared.others > 0);
        self.refused_batches += usize::from(events.results.iter().any(|&result| result != 0));
        self.loads += compared.loads;
    }

    pub fn is_worth_running(&self) -> bool {
        let seen = [
            self.both_refused,
            self.lowest_refused,
            self.tightest_refused,
            self.to_the_end,
            self.placed_otherwise,
            self.otherwise_to_the_end,
            self.others,
            self.refused_batches,
        ];
        seen.iter().all(|&lists| lists >= 20) && self.loads >= 1_000
    }
}
