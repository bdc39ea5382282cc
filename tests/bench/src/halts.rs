//! Halts of a store that goes on: a batch of one finish, timed where the show has come to.

use std::time::Duration;

use reference::made::fresh_image;
use reference::random::Random;
use reference::record::*;

use crate::calls::Pair;
use crate::timing::pass_time;
use crate::work;

/// What halts took, in microseconds: the batch with the finish, and the judging of the same image alone.
#[derive(Default)]
pub struct Halts {
    whole: Vec<f64>,
    judging: Vec<f64>,
}

impl Halts {
    /// One finish in a batch of its own; gives what it took.
    pub fn finish(&mut self, pair: &mut Pair) -> Duration {
        let halt = pair.run_and_judge(&work::FINISH);
        assert_eq!(halt.number, 0, "the number of a finish");
        let micros = |time: Duration| time.as_nanos() as f64 / 1000.0;
        self.whole.push(micros(halt.whole));
        self.judging.push(micros(halt.judging));
        halt.whole
    }

    pub fn count(&self) -> usize {
        self.whole.len()
    }

    /// A plain pass over such an image stands beside. Gives the mean halt in plain passes.
    pub fn print(&self, image: &[u16]) -> f64 {
        for (what, times) in [("with judging", &self.whole), ("judging alone", &self.judging)] {
            let mut sorted = times.clone();
            sorted.sort_by(f64::total_cmp);
            let mean = sorted.iter().sum::<f64>() / sorted.len() as f64;
            let of_a_hundred = sorted[(sorted.len() * 99).div_ceil(100) - 1];
            let longest = sorted[sorted.len() - 1];
            println!("  halt, {what:13} mean {mean:7.1}, 99 of 100 within {of_a_hundred:7.1}, longest {longest:7.1}");
        }
        let plain_pass = pass_time(image) / 1000.0;
        let mean = self.whole.iter().sum::<f64>() / self.whole.len() as f64;
        println!("  a plain pass over the image  {plain_pass:7.1}, the mean halt {:.2} of them", mean / plain_pass);
        mean / plain_pass
    }
}

const CARDS: usize = 512;
const FINISHES: usize = 10_000;

/// The links of the cue list, each of them a cue, and the granules that so many links need.
const CUES: usize = 48 * CARDS / 8;
const LIST_GRANULES: usize = CUES / 4 + 1;

/// Registers of player 0.
const LIST: u16 = 0;
const CUE: u16 = 1;
const OTHER: u16 = 2;

/// A show that goes on and on: a list of cues in a store about half full, in each cycle some cues are replaced by others of 1 to 8
/// granules, tracing between, and the finish comes wherever the marking has got to.
pub fn longest() {
    let mut random = Random::new(13);
    let mut pair = Pair::new(fresh_image(CARDS));
    let mut halts = Halts::default();
    pair.run(&filled_list(&mut random));
    for _ in 0..FINISHES {
        pair.run(&cycle(&mut random));
        halts.finish(&mut pair);
    }
    println!("{FINISHES} finishes of one random show, k = {CARDS}, library µs");
    halts.print(pair.image());
    pair.end();
}

fn filled_list(random: &mut Random) -> Vec<u8> {
    let mut steps = Record::new(NEW, 0, LIST, LIST_GRANULES as u16, CUES as u16).to_bytes().to_vec();
    (0..CUES).for_each(|slot| put_cue(random, &mut steps, slot));
    steps
}

/// A new cue in a slot of the list. Some cues link to another: it lives on for as long as they do.
fn put_cue(random: &mut Random, steps: &mut Vec<u8>, slot: usize) {
    let size = random.from_to(1, 8) as u16;
    let mut add = |kind, a, b, c| steps.extend(Record::new(kind, 0, a, b, c).to_bytes());
    add(NEW, CUE, size, 2);
    if random.chance(30) {
        add(LOAD, OTHER, LIST, random.below(CUES) as u16);
        add(STORE, CUE, 0, OTHER);
        add(BARRIER, 0, 0, 0);
        add(DROP, OTHER, 0, 0);
    }
    add(STORE, LIST, slot as u16, CUE);
    add(BARRIER, 0, 0, 0);
    add(DROP, CUE, 0, 0);
}

/// A cycle up to its finish: some cues replaced, and after each as many traces as this cycle has time for.
fn cycle(random: &mut Random) -> Vec<u8> {
    let mut steps = Record::new(BEGIN, 0, 0, 0, 0).to_bytes().to_vec();
    steps.extend((0..16).flat_map(|player| Record::new(SCAN, 0, player, 0, 0).to_bytes()));
    let traces = random.from_to(0, 100);
    for _ in 0..random.from_to(1, 40) {
        let slot = random.below(CUES);
        put_cue(random, &mut steps, slot);
        steps.extend((0..traces).flat_map(|_| Record::new(TRACE, 0, 0, 0, 0).to_bytes()));
    }
    steps
}
