//! The program steprun: what it prints against what the second implementation says it prints.

use std::collections::BTreeSet;
use std::io::Write;
use std::path::PathBuf;
use std::process::{Command, Stdio};

use reference::generate::{list, Pace};
use reference::made::fresh_image;
use reference::program::{lines, lines_by, CARDS, MOST_BYTES};
use reference::random::Random;
use reference::Placing;

fn top() -> PathBuf {
    PathBuf::from(env!("CARGO_MANIFEST_DIR")).join("../..")
}

/// What the program prints for these bytes on standard input.
fn printed(steps: &[u8]) -> String {
    let mut program = Command::new(top().join("crates/steprun/out/steprun"))
        .stdin(Stdio::piped())
        .stdout(Stdio::piped())
        .spawn()
        .expect("crates/steprun/out/steprun, which rt ci builds, and rt run in its folder");
    // The program may stop reading before the end of a long input.
    let _ = program.stdin.take().expect("a pipe").write_all(steps);
    let output = program.wait_with_output().expect("the program ends");
    assert!(output.status.success());
    String::from_utf8(output.stdout).expect("text")
}

fn same(steps: &[u8]) {
    assert_eq!(printed(steps), lines(steps), "{} bytes", steps.len());
}

#[test]
fn example_of_document_01() {
    let folder = top().join("crates/steprun/example");
    let steps = std::fs::read(folder.join("stdin")).unwrap();
    assert_eq!(printed(&steps), "1 1 0 1\n2 9 0 0\n3 13 0 0\n");
    assert_eq!(std::fs::read_to_string(folder.join("stdout")).unwrap(), lines(&steps));
}

#[test]
fn stored_list_has_every_kind() {
    let steps = std::fs::read(top().join("crates/steprun/stdin")).unwrap();
    let stored = std::fs::read_to_string(top().join("crates/steprun/stdout")).unwrap();
    assert_eq!(stored, lines(&steps));
    for kind in 1..=15 {
        assert!(stored.lines().any(|line| line.contains(&format!(" {kind} 0 "))), "kind {kind} is never accepted");
    }
}

/// "The granule numbers in steprun's stored outputs change with it and are compared against this rule": the stored list has a new for each of
/// two equal gaps, for one of just its size, and for a longer one below that shorter ones have left whole.
#[test]
fn stored_list_by_the_tightest_run() {
    let steps = std::fs::read(top().join("crates/steprun/stdin")).unwrap();
    let [lowest, tightest] = [Placing::Lowest, Placing::Tightest].map(|placing| lines_by(placing, &steps));
    let otherwise = lowest.lines().zip(tightest.lines()).filter(|(lowest, tightest)| lowest != tightest);
    let tightest: Vec<&str> = otherwise.map(|(_, tightest)| tightest).collect();
    assert_eq!(tightest, ["151 1 0 20", "152 1 0 169", "153 1 0 24", "154 1 0 25", "155 1 0 12", "156 1 0 173"]);
}

#[test]
fn lengths() {
    let mut random = Random::new(61);
    for length in
        [0, 1, 7, 8, 9, 16, MOST_BYTES - 8, MOST_BYTES - 1, MOST_BYTES, MOST_BYTES + 1, MOST_BYTES + 8, 20_000]
    {
        same(&vec![0; length]);
        same(&(0..length).map(|_| random.word() as u8).collect::<Vec<u8>>());
    }
    assert_eq!(printed(&[]), "");
    assert_eq!(printed(&[0; MOST_BYTES + 1]), "misfit\n");
}

#[test]
fn random_lists() {
    let mut random = Random::new(62);
    let mut numbers = BTreeSet::new();
    for _ in 0..60 {
        let pace = Pace::draw(&mut random);
        let count = random.from_to(1, MOST_BYTES / 8);
        let steps = list(&mut random, &mut fresh_image::<u16>(CARDS), count, pace);
        same(&steps);
        numbers.extend(lines(&steps).lines().filter_map(number));
    }
    assert_eq!(numbers, BTreeSet::from([0, 3, 4, 5, 6, 7, 8, 9, 10, 11]));
}

/// The third of a line: "place from 1, kind, number, value".
fn number(line: &str) -> Option<u16> {
    line.split(' ').nth(2)?.parse().ok()
}
