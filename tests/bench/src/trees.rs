//! Trees as in GCBench: one is kept, many are built and dropped, and a collector works beside the builder.

use std::path::Path;
use std::process::Command;
use std::time::Duration;

use reference::made::fresh_image;
use reference::record::*;

use crate::calls::Pair;
use crate::halts::Halts;
use crate::timing::Goals;

const CARDS: usize = 512;
const KEPT_DEPTH: u16 = 12;
const DROPPED_DEPTH: u16 = 10;
const DROPPED: usize = 300;

/// Traces for each new while a cycle runs, and nodes built in one batch.
const TRACES: usize = 6;
const NODES_A_BATCH: usize = 512;

/// A cycle begins where fewer granules are in usable runs, half the store: enough for what is built until its marking ends.
const LOW: u16 = 16_384;

/// The builder's registers. Register d, 1 to 12, holds the left half of a tree of depth d while its right half is built.
const KEPT: u16 = 0;
const NODE: u16 = 14;
const BUILT: u16 = 15;

struct Desk {
    pair: Pair,
    halts: Halts,
    is_running: bool,
    steps: Vec<u8>,
    nodes: usize,
    took: Duration,
}

/// The mean halt that is asked for, in plain passes: 100 µs where a pass takes 46.
const MEAN_HALT: f64 = 100.0 / 46.0;

pub fn trees(goals: &mut Goals) {
    let pair = Pair::new(fresh_image(CARDS));
    let (halts, took) = (Halts::default(), Duration::ZERO);
    let mut desk = Desk { pair, halts, is_running: false, steps: Vec::new(), nodes: 0, took };
    desk.build(KEPT_DEPTH);
    desk.add(HAND, BUILT, 0, KEPT);
    desk.add(DROP, BUILT, 0, 0);
    for _ in 0..DROPPED {
        desk.build(DROPPED_DEPTH);
        desk.add(DROP, BUILT, 0, 0);
    }
    desk.run();
    goals.at_most("mean halt on the trees, in plain passes", desk.print(), MEAN_HALT);
    desk.pair.end();
    print_other_collector();
}

impl Desk {
    /// Builds a tree from its leaves up, as a program does that makes the halves first; register BUILT gets it.
    fn build(&mut self, depth: u16) {
        if depth == 0 {
            return self.new_node(BUILT);
        }
        self.build(depth - 1);
        self.add(HAND, BUILT, 0, depth);
        self.build(depth - 1);
        self.new_node(NODE);
        for (link, half) in [(0, depth), (1, BUILT)] {
            self.add(STORE, NODE, link, half);
            self.add(BARRIER, 0, 0, 0);
        }
        self.add(HAND, NODE, 0, BUILT);
        self.add(DROP, NODE, 0, 0);
        self.add(DROP, depth, 0, 0);
    }

    fn new_node(&mut self, register: u16) {
        self.add(NEW, register, 1, 2);
        self.nodes += 1;
        if self.is_running {
            (0..TRACES).for_each(|_| self.add(TRACE, 0, 0, 0));
        }
        if self.nodes.is_multiple_of(NODES_A_BATCH) {
            self.run();
        }
    }

    fn add(&mut self, kind: u8, a: u16, b: u16, c: u16) {
        self.steps.extend(Record::new(kind, 0, a, b, c).to_bytes());
    }

    /// Runs what was added, then ends a cycle whose tracer has nothing left to do, or begins one where room gets low.
    fn run(&mut self) {
        self.add(DUE, LOW, 0, 0);
        let steps = std::mem::take(&mut self.steps);
        let ran = self.pair.run(&steps);
        self.took += ran.took;
        let is_traced = ends_tracing(&steps, &ran.answers);
        let is_low = ran.answers.last() == Some(&1);
        if self.is_running && is_traced {
            self.finish();
        } else if !self.is_running && is_low {
            self.begin();
        }
    }

    fn begin(&mut self) {
        self.add(BEGIN, 0, 0, 0);
        (0..16).for_each(|player| self.add(SCAN, player, 0, 0));
        let steps = std::mem::take(&mut self.steps);
        self.took += self.pair.run(&steps).took;
        self.is_running = true;
    }

    fn finish(&mut self) {
        self.took += self.halts.finish(&mut self.pair);
        self.is_running = false;
    }

    /// Gives the mean halt in plain passes.
    fn print(&self) -> f64 {
        println!(
            "trees, k = {CARDS}, library µs: one of depth {KEPT_DEPTH} kept, {DROPPED} of depth {DROPPED_DEPTH} built and dropped"
        );
        let passes = self.halts.print(self.pair.image());
        let a_node = self.took.as_nanos() as f64 / self.nodes as f64;
        println!("  {} nodes, {a_node:.0} ns a node, {} finishes", self.nodes, self.halts.count());
        passes
    }
}

/// The same trees under Boehm's collector, which stops the world, where its library is at hand; nothing rests on it.
fn print_other_collector() {
    let source = Path::new(env!("CARGO_MANIFEST_DIR")).join("gc/trees.c");
    let program = std::env::temp_dir().join(format!("trees-{}", std::process::id()));
    let built = Command::new("cc").args(["-std=c99", "-O2"]).arg(source).args(["-lgc", "-o"]).arg(&program).output();
    if built.is_ok_and(|output| output.status.success()) {
        if let Ok(output) = Command::new(&program).output() {
            print!("{}", String::from_utf8_lossy(&output.stdout));
        }
        let _ = std::fs::remove_file(&program);
    }
}

/// Whether a trace found nothing to do; every other step must have been accepted.
fn ends_tracing(steps: &[u8], answers: &[u16]) -> bool {
    let mut refused = records(steps).zip(answers.chunks(2)).filter(|(_, answer)| answer[0] != 0).peekable();
    let is_traced = refused.peek().is_some();
    let may_be = |(record, answer): (Record, &[u16])| (record.kind, answer[0]) == (TRACE, 11);
    assert!(refused.all(may_be), "a step of the builder is refused");
    is_traced
}
