//! `service_map` of the proved library against the second implementation, byte for byte.

use library::guarded::Guarded;
use reference::generate::{damage, list, spoil, wrong_rooms, Pace};
use reference::image::{Image, Store};
use reference::layout::{card_of, LARGEST_OBJECT};
use reference::made::{bare, fresh_image, holes, idle, running};
use reference::map_bytes;
use reference::random::Random;
use reference::vectors::{parse_maps, UNTOUCHED_BYTE};

const GUARD: u16 = 0xa55a;
const BYTE_GUARD: u8 = 0x77;
const SIGNS: &[u8] = b".o#-";

/// What calls have shown: their results, misfits of damaged images among them; of what was drawn the cards by state, the granules by
/// sign, and the objects that run over one card's end, over several, and just up to one.
#[derive(Debug, Default)]
struct Seen {
    results: [usize; 3],
    damaged_misfits: usize,
    states: [usize; 4],
    signs: [usize; 4],
    over_one: usize,
    over_many: usize,
    up_to_one: usize,
}

impl Seen {
    fn count(&mut self, image: &[u16], output: &[u8], result: u16) {
        self.results[usize::from(result)] += 1;
        if result == 1 {
            self.damaged_misfits += usize::from(reference::judge(image) == 2);
        }
        if result == 0 {
            self.count_lines(output);
            self.count_objects(Image::of(image).unwrap());
        }
    }

    fn count_lines(&mut self, output: &[u8]) {
        for line in output.chunks(73) {
            self.states[usize::from(line[5] - b'0')] += 1;
            for (sign, count) in SIGNS.iter().zip(&mut self.signs) {
                *count += line[7..71].iter().filter(|&got| got == sign).count();
            }
        }
    }

    fn count_objects(&mut self, image: Image) {
        for object in image.objects() {
            let end = object.start + object.size;
            match card_of(end - 1) - card_of(object.start) {
                0 => self.up_to_one += usize::from(end % 64 == 0),
                1 => self.over_one += 1,
                _ => self.over_many += 1,
            }
        }
    }

    fn assert_all_drawn(&self) {
        println!("{self:?}");
        assert!(self.states.iter().all(|&cards| cards > 100), "{self:?}");
        assert!(self.signs.iter().all(|&granules| granules > 1_000), "{self:?}");
        assert!(self.over_one > 100 && self.over_many > 100 && self.up_to_one > 100, "{self:?}");
    }
}

/// One call of both, on an output of any bytes: same result, same bytes, and nothing else touched.
fn same(random: &mut Random, image: &[u16], room: usize, seen: &mut Seen) -> u16 {
    let mut output: Vec<u8> = (0..room).map(|_| random.bits() as u8).collect();
    let lent = Guarded::new(image, GUARD);
    let mut lent_output = Guarded::new(&output, BYTE_GUARD);
    let result = library::service_map(lent.items(), lent_output.items_mut());

    let wanted = reference::service_map(image, &mut output);
    assert_eq!(result, wanted, "result for {} words and {room} bytes", image.len());
    let differs = lent_output.items().iter().zip(&output).position(|(byte, other)| byte != other);
    assert_eq!(differs, None, "a byte of {room} that is not the second implementation's");
    assert!(lent_output.guards_stand(), "bytes outside the output");
    assert!(lent.guards_stand() && lent.items() == image, "words written");
    seen.count(image, &output, result);
    result
}

fn same_map(random: &mut Random, image: &[u16], seen: &mut Seen) {
    let k = reference::cards_of_length(image.len()).unwrap();
    assert_eq!(same(random, image, map_bytes(k), seen), 0);
}

/// No run at all: objects of so many granules, the last one cut, each with a mark where `is_marked` has one.
fn full(k: usize, size: usize, is_marked: impl Fn(usize) -> bool) -> Vec<u16> {
    let mut words = vec![0; reference::length(k)];
    let mut store = Store::of(&mut words).unwrap();
    for g in (1..64 * k).step_by(size) {
        store.set_object(g, size.min(64 * k - g), 0);
        if is_marked(g) {
            store.mark(g);
            store.set_running(true);
        }
    }
    words
}

fn made(random: &mut Random, k: usize) -> Vec<u16> {
    match random.below(8) {
        0 => fresh_image(k),
        1 | 2 => idle(random, k),
        3 => bare(random, k),
        4 => holes(random, k),
        5 => {
            let sizes = [1, 2, 7, 63, 64, 65, 200, LARGEST_OBJECT];
            let marks = random.bits();
            full(k, random.pick(&sizes).unwrap(), |g| marks >> (g % 64) & 1 == 1)
        }
        _ => running(random, k),
    }
}

/// Made images, and each again after some steps.
#[test]
fn made_and_evolved_images() {
    let mut random = Random::new(201);
    let mut seen = Seen::default();
    for round in 0..4_000 {
        let mut image = made(&mut random, 1 + round % 7);
        same_map(&mut random, &image, &mut seen);
        let (count, pace) = (random.from_to(1, 60), Pace::draw(&mut random));
        list(&mut random, &mut image, count, pace);
        same_map(&mut random, &image, &mut seen);
    }
    seen.assert_all_drawn();
    assert_eq!(seen.results, [8_000, 0, 0]);
}

/// A store from its first step on, looked at between the steps.
#[test]
fn a_show_as_it_goes_on() {
    let mut random = Random::new(202);
    let mut seen = Seen::default();
    for round in 0..60 {
        let mut image = fresh_image(1 + round % 4);
        let pace = Pace::draw(&mut random);
        for _ in 0..100 {
            list(&mut random, &mut image, 5, pace);
            same_map(&mut random, &image, &mut seen);
        }
    }
    println!("{seen:?}");
    assert!(seen.signs.iter().all(|&granules| granules > 1_000) && seen.states.iter().all(|&cards| cards > 20));
}

#[test]
fn every_number_of_cards() {
    let mut random = Random::new(203);
    let mut seen = Seen::default();
    for k in 1..=512 {
        same_map(&mut random, &full(k, 65, |g| g % 3 == 0), &mut seen);
        assert_eq!(same(&mut random, &fresh_image(k), map_bytes(k) + 73, &mut seen), 1);
    }
    assert_eq!(seen.results, [512, 512, 0]);
    assert!(seen.over_one > 100_000, "{seen:?}");
}

#[test]
fn large_stores() {
    let mut random = Random::new(204);
    let mut seen = Seen::default();
    for k in [16, 64, 200, 511, 512] {
        for size in [1, 3, 64, 65, 1000, LARGEST_OBJECT] {
            same_map(&mut random, &full(k, size, |g| g % 2 == 0), &mut seen);
        }
        for make in [running, running, idle, bare, |_: &mut Random, k| fresh_image(k)] {
            let mut image = make(&mut random, k);
            same_map(&mut random, &image, &mut seen);
            spoil(&mut random, &mut image);
            same(&mut random, &image, map_bytes(k), &mut seen);
        }
    }
    seen.assert_all_drawn();
    assert!(seen.results[0] >= 55 && seen.results[2] >= 5, "{seen:?}");
}

/// The last line of the largest store, as it is written.
#[test]
fn card_511() {
    let mut output = vec![0; map_bytes(512)];
    assert_eq!(library::service_map(&full(512, 1, |g| g == 32_767), &mut output), 0);
    let line = String::from_utf8(output[73 * 511..].to_vec()).unwrap();
    assert_eq!(line, format!("0511 0 {}# \n", "o".repeat(63)));
}

/// Spoiled images, which may be undamaged, and damaged ones, for each of which some output does not fit.
#[test]
fn damaged_images() {
    let mut random = Random::new(205);
    let mut seen = Seen::default();
    for round in 0..8_000 {
        let k = 1 + round % 4;
        let mut image = made(&mut random, k);
        spoil(&mut random, &mut image);
        same(&mut random, &image, map_bytes(k), &mut seen);
        damage(&mut random, &mut image);
        assert_eq!(same(&mut random, &image, map_bytes(k), &mut seen), 2);
        let room = random.pick(&wrong_rooms(k)).unwrap();
        assert_eq!(same(&mut random, &image, room, &mut seen), 1);
    }
    println!("{seen:?}");
    assert!(seen.results[0] > 2_000 && seen.results[2] > 8_000, "{seen:?}");
    assert_eq!((seen.results[1], seen.damaged_misfits), (8_000, 8_000));
}

/// Every length of an output up to that of the map of four cards.
#[test]
fn outputs_of_every_length() {
    let mut random = Random::new(206);
    let mut seen = Seen::default();
    for k in 1..=3 {
        let image = running(&mut random, k);
        for room in 0..=map_bytes(4) {
            let result = same(&mut random, &image, room, &mut seen);
            assert_eq!(result == 0, room == map_bytes(k));
        }
    }
    assert_eq!(seen.results, [3, 3 * 292, 0]);
}

/// Outputs and images of other lengths: one more, one less, those of other numbers of cards, 72 and 74 bytes a line.
#[test]
fn misfits() {
    let mut random = Random::new(207);
    let mut seen = Seen::default();
    for k in [1, 2, 3, 16, 100, 511, 512] {
        let image = running(&mut random, k);
        for room in wrong_rooms(k) {
            assert_eq!(same(&mut random, &image, room, &mut seen), 1);
        }
        for words in [image.len() - 1, image.len() + 1, reference::length(513)] {
            for room in [0, 73, map_bytes(k), map_bytes(513)] {
                let mut other = image.clone();
                other.resize(words, 0);
                assert_eq!(same(&mut random, &other, room, &mut seen), 1);
            }
        }
    }
    for words in (0..2_000).filter(|&words| reference::cards_of_length(words).is_none()) {
        for room in [0, 73, 146] {
            assert_eq!(same(&mut random, &vec![0; words], room, &mut seen), 1);
        }
    }
    assert_eq!(seen.results, [0, 7 * (8 + 3 * 4) + 3 * 1_998, 0]);
}

#[test]
fn outside_maps() {
    let cases = parse_maps(include_str!("../../vectors/document_02/03-iii.txt")).unwrap();
    assert_eq!(cases.len(), 70);
    for case in cases {
        let mut output = vec![UNTOUCHED_BYTE; case.room];
        assert_eq!(library::service_map(&case.image, &mut output), case.result, "case {}", case.name);
        assert!(output == case.given, "map of case {}", case.name);
    }
}
