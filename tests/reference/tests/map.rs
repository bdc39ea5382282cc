//! The service map, by document 02, (iii): lines by hand, signs granule by granule, and wrong maps that the cases tell from the right one.

use std::collections::BTreeMap;

use crate::common::*;
use reference::generate::{damage, wrong_rooms};
use reference::image::Image;
use reference::judge;
use reference::layout::Places;
use reference::made::{fresh_image, idle, running};
use reference::map::{map_bytes, service_map, LINE_BYTES};
use reference::random::Random;
use reference::vectors::{parse_maps, MapCase, UNTOUCHED_BYTE};

/// The lines of an undamaged image's map, without their ends.
fn lines_of(image: &[u16]) -> Vec<String> {
    let k = reference::cards_of_length(image.len()).unwrap();
    let mut output = vec![UNTOUCHED_BYTE; map_bytes(k)];
    assert_eq!(service_map(image, &mut output), 0);
    assert!(output.chunks(73).all(|line| line[72] == 10), "line ends");
    output.chunks(73).map(|line| String::from_utf8(line[..72].to_vec()).unwrap()).collect()
}

/// A card's line, its signs given as how often each stands in a row.
fn line(heading: &str, signs: &[(usize, &str)]) -> String {
    let signs: String = signs.iter().map(|(times, sign)| sign.repeat(*times)).collect();
    assert_eq!(signs.len(), 64);
    format!("{heading} {signs} ")
}

#[test]
fn a_fresh_store() {
    let dots = "................................................................";
    assert_eq!(lines_of(&fresh_image(1)), [format!("0000 0 {dots} ")]);
    let lines = lines_of(&fresh_image(512));
    assert_eq!(lines.len(), 512);
    for (card, number) in [(0, "0000"), (7, "0007"), (42, "0042"), (99, "0099"), (100, "0100"), (511, "0511")] {
        assert_eq!(lines[card], format!("{number} 0 {dots} "));
    }
}

/// Four objects, of which the second is let go before the scan and the last runs over the card's end. A store turns card 0 dirty, a clean
/// takes it, and another store turns it dirty again.
#[test]
fn the_middle_of_a_cycle() {
    let mut image = fresh_image(2);
    run(&mut image, &[new(0, 0, 1, 1), new(0, 1, 3, 0), new(0, 2, 56, 0), new(0, 3, 6, 0), drop(0, 1)]);
    let objects =
        |unmarked| [(1, "."), (1, unmarked), (1, "o"), (2, "-"), (1, unmarked), (55, "-"), (1, unmarked), (2, "-")];
    let second = line("0001 0", &[(3, "-"), (61, ".")]);
    assert_eq!(lines_of(&image), [line("0000 0", &objects("o")), second.clone()]);
    run(&mut image, &[begin(), scan(0, 0), store(0, 0, 0, 2), barrier(0)]);
    assert_eq!(lines_of(&image), [line("0000 1", &objects("#")), second.clone()]);
    run(&mut image, &[clean(0)]);
    assert_eq!(lines_of(&image), [line("0000 2", &objects("#")), second.clone()]);
    run(&mut image, &[store(0, 0, 0, 2), barrier(0)]);
    assert_eq!(lines_of(&image), [line("0000 3", &objects("#")), second.clone()]);
    assert_eq!(run(&mut image, &[finish()]), [(0, 3)]);
    let kept = [(1, "."), (1, "o"), (3, "."), (1, "o"), (55, "-"), (1, "o"), (2, "-")];
    assert_eq!(lines_of(&image), [line("0000 0", &kept), second]);
}

/// 1,024 granules run over 16 card ends; an object behind them fills the last card to its end.
#[test]
fn the_longest_object() {
    let mut image = fresh_image(17);
    run(&mut image, &[new(0, 0, 1024, 0), new(0, 1, 63, 0)]);
    let lines = lines_of(&image);
    assert_eq!(lines[0], line("0000 0", &[(1, "."), (1, "o"), (62, "-")]));
    for (card, got) in lines.iter().enumerate().take(16).skip(1) {
        assert_eq!(*got, line(&format!("{card:04} 0"), &[(64, "-")]));
    }
    assert_eq!(lines[16], line("0016 0", &[(1, "-"), (1, "o"), (62, "-")]));
}

#[test]
fn refusals_leave_the_output() {
    let mut random = Random::new(31);
    for round in 0..200 {
        let k = 1 + round % 4;
        let image = running(&mut random, k);
        let mut damaged = image.clone();
        damage(&mut random, &mut damaged);
        let misfit = vec![0; image.len() + 1];
        let call = |image: &[u16], room| {
            let was: Vec<u8> = (0..room).map(|n| n as u8).collect();
            let mut output = was.clone();
            let result = service_map(image, &mut output);
            assert!(result == 0 || output == was, "an output of {room} bytes");
            result
        };
        for room in wrong_rooms(k) {
            assert_eq!([&image, &damaged, &misfit].map(|image| call(image, room)), [1, 1, 1], "{room}");
        }
        assert_eq!([&image, &damaged, &misfit].map(|image| call(image, 73 * k)), [0, 2, 1]);
    }
}

/// By the words of the definition, one granule after the other, and without the second implementation's objects.
fn sign(image: Image, g: usize) -> u8 {
    let ends_behind = |s: usize| s + image.word(image.layout.granule(s)) > g;
    match (image.is_start(g), image.is_marked(g)) {
        (true, true) => b'#',
        (true, false) => b'o',
        _ if (1..g).any(|s| image.is_start(s) && ends_behind(s)) => b'-',
        _ => b'.',
    }
}

#[test]
fn signs_granule_by_granule() {
    let mut random = Random::new(32);
    let mut shown = BTreeMap::new();
    for round in 0..200 {
        let words = [running, idle][round % 2](&mut random, 1 + round % 3);
        let image = Image::of(&words).unwrap();
        let signs: Vec<u8> = lines_of(&words).iter().flat_map(|line| line.as_bytes()[7..71].to_vec()).collect();
        for (g, got) in signs.into_iter().enumerate() {
            assert_eq!(got, sign(image, g), "granule {g}");
            *shown.entry(char::from(got)).or_insert(0) += 1;
        }
    }
    assert_eq!(shown.keys().collect::<String>(), "#-.o");
    assert!(shown.values().all(|&times| times > 1_000), "{shown:?}");
}

/// A line of a map made wrong: the card's number and the line.
type Alter = fn(usize, &mut [u8]);

fn redraw(line: &mut [u8], from: u8, to: u8) {
    line[7..71].iter_mut().filter(|sign| **sign == from).for_each(|sign| *sign = to);
}

fn renumber(line: &mut [u8], number: String) {
    line[..4].copy_from_slice(number.as_bytes());
}

const WRONG_LINES: [(&str, Alter); 12] = [
    ("marks are not shown", |_, line| redraw(line, b'#', b'o')),
    ("every start is marked", |_, line| redraw(line, b'o', b'#')),
    ("rests are free", |_, line| redraw(line, b'-', b'.')),
    ("the rest on the next card is free", |_, line| {
        line[7..71].iter_mut().take_while(|sign| **sign == b'-').for_each(|sign| *sign = b'.')
    }),
    ("the last granule of a rest is free", |_, line| {
        let last = (8..71).rev().find(|&at| line[at - 1] == b'-' && line[at] != b'-');
        last.into_iter().for_each(|at| line[at - 1] = b'.');
    }),
    ("granule 0 is a start", |card, line| line[7] = if card == 0 { b'o' } else { line[7] }),
    ("granule 0 is blank", |card, line| line[7] = if card == 0 { b' ' } else { line[7] }),
    ("cards count from 1", |card, line| renumber(line, format!("{:04}", card + 1))),
    ("digits are reversed", |card, line| renumber(line, format!("{card:04}").chars().rev().collect())),
    ("only dirty or clean", |_, line| line[5] = b'0' + (line[5] - b'0') % 2),
    ("only taken or not", |_, line| line[5] = b'0' + (line[5] - b'0') / 2 * 2),
    ("another line end", |_, line| line[72] = b'\r'),
];

/// Calls that are wrong in what they take or in what a refusal leaves.
type Call = fn(&[u16], &mut [u8]) -> u16;

const WRONG_CALLS: [(&str, Call); 5] = [
    ("no space at the end", |image, output| {
        let k = reference::cards_of_length(image.len());
        if k.is_some_and(|k| output.len() == 72 * k) {
            judge(image)
        } else {
            1
        }
    }),
    ("any output is taken", |image, output| match service_map(image, output) {
        1 => judge(image),
        result => result,
    }),
    ("damage before misfits", |image, output| if judge(image) == 2 { 2 } else { service_map(image, output) }),
    ("damaged images are taken", |image, output| service_map(image, output) % 2),
    ("a refusal clears the output", |image, output| {
        let result = service_map(image, output);
        output.iter_mut().filter(|_| result != 0).for_each(|byte| *byte = b'.');
        result
    }),
];

fn is_told(case: &MapCase, wrong: impl Fn(&[u16], &mut [u8]) -> u16) -> bool {
    let mut output = vec![UNTOUCHED_BYTE; case.room];
    let result = wrong(&case.image, &mut output);
    (result, output) != (case.result, case.given.clone())
}

fn altered(image: &[u16], output: &mut [u8], alter: Alter) -> u16 {
    let result = service_map(image, output);
    if result == 0 {
        output.chunks_mut(LINE_BYTES).enumerate().for_each(|(card, line)| alter(card, line));
    }
    result
}

/// How many cases tell each wrong map.
fn told(cases: &[MapCase]) -> BTreeMap<&'static str, usize> {
    let count = |wrong: &dyn Fn(&[u16], &mut [u8]) -> u16| cases.iter().filter(|case| is_told(case, wrong)).count();
    let lines = WRONG_LINES.iter().map(|(name, alter)| (*name, count(&|image, output| altered(image, output, *alter))));
    let calls = WRONG_CALLS.iter().map(|(name, call)| (*name, count(call)));
    lines.chain(calls).collect()
}

fn assert_told(cases: &[MapCase], at_least: usize) {
    assert!(cases.iter().all(|case| !is_told(case, service_map)), "the right map is told");
    let told = told(cases);
    println!("{told:?}");
    for (name, times) in told {
        assert!(times >= at_least, "{name}: told by {times}");
    }
}

#[test]
fn the_vectors_tell_wrong_maps() {
    let cases = parse_maps(include_str!("../../vectors/document_02/03-iii.txt")).unwrap();
    assert_told(&cases, 1);
}

#[test]
fn drawn_cases_tell_wrong_maps() {
    assert_told(&reference::cases::maps(14, 400).collect::<Vec<_>>(), 20);
}

#[test]
fn the_cases_of_the_gate_tell_wrong_maps() {
    let cases = maps_of_the_gate();
    assert_eq!(cases.len(), 4);
    assert_told(&cases, 1);
}
