//! Damage of every line of "undamaged", one clause at a time, on one made image, for both widths.

use reference::image::{StoreOf, Tracer};
use reference::judge::{first_damage, Line};
use reference::made::{bare, fresh_image, idle, running, starved, uncovered_image, STARVED_CARDS};
use reference::random::Random;
use reference::record::{RecordOf, FINISH};
use reference::width::{Places, Width};
use reference::{batch, cover, finish, fresh, generate, judge, length, undamaged_but_cover};

type Alter<W> = fn(&mut StoreOf<W>);

/// A test for each of these, of the narrow store and of the wide one.
macro_rules! for_both_widths {
    ($($name:ident),* $(,)?) => {
        mod narrow {
            $(#[test] fn $name() { super::$name::<u16>() })*
        }
        mod wide {
            $(#[test] fn $name() { super::$name::<u32>() })*
        }
    };
}

for_both_widths!(
    the_image_is_sound,
    words,
    filling_by_objects,
    filling_by_runs,
    largest_object,
    references,
    marks,
    counts,
    a_count_on_the_first_granules_card,
    counts_of_every_card,
    hands,
    idle_images,
    cover_line,
    finish_goes_by_object_where_cover_goes_by_link,
    made_images_are_what_they_are_said_to_be,
    spoiled_images,
);

/// Two cards: objects 1 (marked, entered), 3 (marked, entered), 4, 8 and 100 (marked, in hand), runs
/// 5 to 7 and 9 to 99; tracer 2 holds packets 4 and 9, object 100 and card 0, tracer 5 packet 7.
fn sound<W: Width>() -> Vec<W> {
    let mut words = vec![W::default(); W::length(2)];
    let mut store = StoreOf::of(&mut words).unwrap();
    let objects: [(usize, usize, &[usize]); 5] =
        [(1, 2, &[3, 4]), (3, 1, &[0]), (4, 1, &[1, 3]), (8, 1, &[]), (100, 28, &[1, 8, 0])];
    for (g, size, links) in objects {
        store.set_object(g, size, links.len());
        links.iter().enumerate().for_each(|(i, &link)| store.set_link(g, i, link));
    }
    store.set_first_run(5);
    store.set_run(5, 3, 9);
    store.set_run(9, 91, 0);
    store.set_register(0, 0, 1);
    store.set_register(1, 2, 8);
    store.set_register(3, 5, 100);
    store.set_owed(1, Some(0));
    store.set_scanned(0, true);
    store.set_running(true);
    [1, 3, 100].iter().for_each(|&g| store.mark(g));
    store.set_card(0, 2);
    store.append(4, 1);
    store.append(7, 3);
    store.set_tracer(2, Tracer { input: Some(4), output: Some(9), hand: Some((100, 1)), card: Some((0, 10)) });
    store.set_tracer(5, Tracer { output: Some(7), ..Tracer::default() });
    words
}

fn greatest<W: Width>() -> usize {
    W::cut(u64::MAX).number()
}

fn altered<W: Width>(image: Vec<W>, alter: Alter<W>) -> Vec<W> {
    let mut image = image;
    alter(&mut StoreOf::of(&mut image).unwrap());
    image
}

/// Each alteration damages the sound image in that line, and in none before it.
fn assert_damage<W: Width>(line: Line, alterations: &[(&str, Alter<W>)]) {
    for (what, alter) in alterations {
        let image = altered(sound(), *alter);
        assert_eq!(first_damage(&image), Some(line), "{what}");
        assert_eq!(judge(&image), 2, "{what}");
        assert_eq!(undamaged_but_cover(&image), line == Line::Cover, "{what}");
        assert!(!cover(&image), "{what}");
    }
}

fn assert_sound<W: Width>(alterations: &[(&str, Alter<W>)]) {
    for (what, alter) in alterations {
        let image = altered(sound(), *alter);
        assert_eq!(first_damage(&image), None, "{what}");
        assert_eq!(judge(&image), 0, "{what}");
        assert!(undamaged_but_cover(&image) && cover(&image), "{what}");
    }
}

fn the_image_is_sound<W: Width>() {
    assert_sound::<W>(&[("nothing altered", |_| ())]);
}

fn words<W: Width>() {
    for at in 0..W::GRANULE_WORDS {
        let mut image = sound();
        image[at] = W::of(1);
        assert_eq!(first_damage(&image), Some(Line::Words), "granule 0, word {at}");
    }
    for i in 2..8 {
        let mut image = sound();
        image[W::Layout::of_cards(2).general() + i] = W::of(1);
        assert_eq!(first_damage(&image), Some(Line::Words), "general, word {i}");
    }
    assert_damage::<W>(
        Line::Words,
        &[
            ("card state 4", |s| s.set_card(1, 4)),
            ("count 31", |s| s.set(s.layout.packet(30), 31)),
            ("word between count and entries", |s| s.set(s.layout.packet(30) + 1, 1)),
            ("first entry past the count", |s| s.set(s.layout.packet(4) + 3, 3)),
            ("last entry past the count", |s| s.set(s.layout.packet(4) + 31, 3)),
            ("input packet 32", |s| s.set(s.layout.tracer(0), 33)),
            ("output packet 32", |s| s.set(s.layout.tracer(0) + 1, 33)),
            ("next link of no object", |s| s.set(s.layout.tracer(0) + 3, 1)),
            ("card in hand beyond the last", |s| s.set(s.layout.tracer(0) + 4, 3)),
            ("next granule on no card", |s| s.set(s.layout.tracer(0) + 5, 1)),
            ("first zero of a tracer", |s| s.set(s.layout.tracer(7) + 6, 1)),
            ("second zero of a tracer", |s| s.set(s.layout.tracer(7) + 7, 1)),
            ("scanned 2", |s| s.set(s.layout.player(0) + 1, 2)),
            ("running 2", |s| s.set(s.layout.general(), 2)),
        ],
    );
}

fn filling_by_objects<W: Width>() {
    assert_damage::<W>(
        Line::Filling,
        &[
            ("size 0", |s| s.set(s.layout.granule(8), 0)),
            ("size too small, a gap", |s| s.set(s.layout.granule(1), 1)),
            ("size too large, over a start", |s| s.set(s.layout.granule(1), 3)),
            ("size too large, over a run", |s| s.set(s.layout.granule(4), 2)),
            ("size past the end", |s| s.set(s.layout.granule(100), 29)),
            ("too many links", |s| s.set(s.layout.granule(3) + 1, 3)),
            ("start bit missing", |s| s.set_start(8, false)),
            ("start bit of granule 0", |s| s.set_start(0, true)),
            ("start bit inside an object", |s| s.set_start(101, true)),
            ("start bit inside a run", |s| s.set_start(6, true)),
            ("start bit on a run", |s| s.set_start(5, true)),
        ],
    );
}

fn filling_by_runs<W: Width>() {
    assert_damage::<W>(
        Line::Filling,
        &[
            ("length 0", |s| s.set_run(5, 0, 9)),
            ("length too small, a gap", |s| s.set_run(5, 2, 9)),
            ("length too large, over an object", |s| s.set_run(5, 4, 9)),
            ("length past the end", |s| s.set_run(9, 120, 0)),
            ("third word", |s| s.set(s.layout.granule(5) + 2, 1)),
            ("last word", |s| s.set(s.layout.granule(8) - 1, 1)),
            ("no first run", |s| s.set_first_run(0)),
            ("first run left out", |s| s.set_first_run(9)),
            ("first run is an object", |s| s.set_first_run(8)),
            ("first run inside a run", |s| s.set_first_run(6)),
            ("first run past the end", |s| s.set_first_run(128)),
            ("last run left out", |s| s.set_run(5, 3, 0)),
            ("next run is an object", |s| s.set_run(9, 91, 100)),
            ("next run past the end", |s| s.set_run(9, 91, 200)),
            ("runs in a ring", |s| s.set_run(9, 91, 5)),
            ("runs in descending order", |s| {
                s.set_first_run(9);
                s.set_run(9, 91, 5);
                s.set_run(5, 3, 0);
            }),
            ("two runs touch", |s| {
                s.set_run(9, 40, 49);
                s.set_run(49, 51, 0);
            }),
        ],
    );
}

/// Sizes over 1,024 need more granules than two cards have.
fn largest_object<W: Width>() {
    for (size, judgement) in [(1024, 0), (1025, 2)] {
        let mut image: Vec<W> = fresh_image(17);
        let mut store = StoreOf::of(&mut image).unwrap();
        store.set_run(1, 0, 0);
        store.set_object(1, size, 0);
        store.set_run(1 + size, 17 * 64 - 1 - size, 0);
        store.set_first_run(1 + size);
        assert_eq!(judge(&image), judgement);
    }
}

fn references<W: Width>() {
    assert_damage::<W>(
        Line::References,
        &[
            ("link inside an object", |s| s.set_link(4, 1, 2)),
            ("link to a run", |s| s.set_link(4, 1, 5)),
            ("link past the end", |s| s.set_link(4, 1, 128)),
            ("link of an object with the greatest word", |s| s.set_link(4, 0, greatest::<W>())),
            ("register inside an object", |s| s.set_register(15, 15, 101)),
            ("register past the end", |s| s.set_register(15, 15, 128)),
            ("owed card beyond the last", |s| s.set_owed(15, Some(2))),
        ],
    );
    assert_sound::<W>(&[
        ("the last card owed", |s| s.set_owed(15, Some(1))),
        ("two players owe one card", |s| s.set_owed(15, Some(0))),
    ]);
}

fn marks<W: Width>() {
    assert_damage::<W>(
        Line::Marks,
        &[
            ("mark of granule 0", |s| s.set_mark(0, true)),
            ("mark inside an object", |s| s.set_mark(2, true)),
            ("mark on a run", |s| s.set_mark(5, true)),
            ("entry not marked", |s| s.append(20, 8)),
            ("entry nil", |s| s.append(20, 0)),
            ("entry past the end", |s| s.append(20, 128)),
            ("entered twice in a packet", |s| s.append(4, 1)),
            ("entered in two packets", |s| s.append(31, 1)),
            ("packet held as input and output", |s| s.set(s.layout.tracer(0), 10)),
            ("packet held twice as input", |s| s.set(s.layout.tracer(0), 5)),
            ("packet held twice as output", |s| s.set(s.layout.tracer(0) + 1, 8)),
            ("packet held twice by one tracer", |s| s.set(s.layout.tracer(2), 10)),
        ],
    );
    assert_sound::<W>(&[
        ("empty packets held", |s| s.set_tracer(0, Tracer { input: Some(0), output: Some(31), ..Tracer::default() })),
        ("object with no way to it marked", |s| s.mark(4)),
    ]);
}

/// Card 0 has two marked objects, card 1 has one.
fn counts<W: Width>() {
    assert_damage::<W>(
        Line::Counts,
        &[
            ("counts swapped", |s| {
                s.set_card_count(0, 1);
                s.set_card_count(1, 2);
            }),
            ("all counted on card 0", |s| {
                s.set_card_count(0, 3);
                s.set_card_count(1, 0);
            }),
            ("nothing counted", |s| {
                s.set_card_count(0, 0);
                s.set_card_count(1, 0);
            }),
            ("objects counted, not marked ones", |s| s.set_card_count(0, 4)),
            ("mark not counted", |s| s.set_mark(8, true)),
            ("mark gone, still counted", |s| s.set_mark(100, false)),
            ("the greatest word", |s| s.set_card_count(0, greatest::<W>())),
        ],
    );
    assert_sound::<W>(&[("another object marked and counted", |s| s.mark(4))]);
}

/// "An object's card is its first granule divided by 64": the marked object at 60 ends on the next card.
fn a_count_on_the_first_granules_card<W: Width>() {
    for (counts, judgement) in [([1, 0], 0), ([0, 1], 2), ([1, 1], 2), ([0, 0], 2)] {
        let mut image: Vec<W> = fresh_image(2);
        let mut store = StoreOf::of(&mut image).unwrap();
        store.set_object(60, 10, 0);
        store.set_run(1, 59, 70);
        store.set_run(70, 58, 0);
        store.set_running(true);
        store.set_mark(60, true);
        (0..2).for_each(|c| store.set_card_count(c, counts[c]));
        assert_eq!(judge(&image), judgement, "{counts:?}");
    }
}

/// The count of each card made wrong, and each two that differ swapped; a batch refuses such an image and leaves it alone.
fn assert_counts_matter<W: Width>(image: &[W]) {
    let layout = W::Layout::of_length(image.len()).unwrap();
    let assert_damaged = |image: Vec<W>| {
        assert_eq!(first_damage(&image), Some(Line::Counts));
        assert!(!undamaged_but_cover(&image));
        let (mut left, mut answers) = (image.clone(), [W::of(7); 2]);
        assert_eq!(batch(&mut left, &RecordOf::<W>::of(FINISH, 0, 0, 0, 0).to_bytes(), &mut answers), 2);
        assert!(left == image && answers == [W::of(7); 2]);
    };
    for at in (0..layout.cards()).map(|c| layout.count(c)) {
        let right: u64 = image[at].into();
        for wrong in [right + 1, right.wrapping_sub(1), right | 1 << 15, right | 1 << (W::BITS - 1), u64::MAX] {
            let mut altered = image.to_vec();
            altered[at] = W::cut(wrong);
            assert_damaged(altered);
        }
        for other in (0..layout.cards()).map(|c| layout.count(c)).filter(|&other| image[other] != image[at]) {
            let mut altered = image.to_vec();
            altered.swap(at, other);
            assert_damaged(altered);
        }
    }
}

fn counts_of_every_card<W: Width>() {
    let mut random = Random::new(13);
    for k in 1..=6 {
        assert_counts_matter::<W>(&fresh_image(k));
        for make in [running, bare, idle] {
            let image: Vec<W> = make(&mut random, k);
            assert_eq!(judge(&image), 0);
            assert_counts_matter(&image);
        }
    }
    let mut large: Vec<W> = running(&mut random, 512);
    for c in [0, 1, 255, 256, 511] {
        let mut store = StoreOf::of(&mut large).unwrap();
        let right = store.image().card_count(c);
        store.set_card_count(c, right + 1);
        assert_eq!(judge(&large), 2, "card {c} of 512");
        StoreOf::of(&mut large).unwrap().set_card_count(c, right);
        assert_eq!(judge(&large), 0);
    }
}

fn holding<W: Width>(s: &mut StoreOf<W>, hand: Option<(usize, usize)>, card: Option<(usize, usize)>) {
    s.set_tracer(0, Tracer { hand, card, ..Tracer::default() });
}

fn hands<W: Width>() {
    assert_damage::<W>(
        Line::Hands,
        &[
            ("object in hand not marked", |s| holding(s, Some((4, 0)), None)),
            ("object in hand is none", |s| holding(s, Some((2, 0)), None)),
            ("object in hand past the end", |s| holding(s, Some((128, 0)), None)),
            ("next link is the number of links", |s| holding(s, Some((1, 2)), None)),
            ("object in hand without links", |s| {
                s.mark(8);
                holding(s, Some((8, 0)), None);
            }),
            ("card in hand clean", |s| holding(s, None, Some((1, 64)))),
            ("card in hand dirty but not taken", |s| {
                s.set_card(1, 1);
                holding(s, None, Some((1, 64)));
            }),
            ("next granule before the card", |s| {
                s.set_card(1, 2);
                holding(s, None, Some((1, 63)));
            }),
            ("next granule beyond the card", |s| holding(s, None, Some((0, 65)))),
        ],
    );
    assert_sound::<W>(&[
        ("object in two hands", |s| holding(s, Some((100, 2)), None)),
        ("object in hand and entered", |s| holding(s, Some((1, 1)), None)),
        ("card in two hands, just past its end", |s| holding(s, None, Some((0, 64)))),
        ("card in hand at granule 0", |s| holding(s, None, Some((0, 0)))),
        ("taken card dirty", |s| s.set_card(0, 3)),
        ("last card in hand, just past its end", |s| {
            s.set_card(1, 3);
            holding(s, None, Some((1, 128)));
        }),
    ]);
}

/// The sound image after its finish, with one word of a cycle set.
fn idle_images<W: Width>() {
    let mut idle: Vec<W> = sound();
    finish(&mut idle);
    assert_eq!(judge(&idle), 0);
    let alterations: [(&str, Alter<W>); 6] = [
        ("a mark", |s| s.mark(1)),
        ("input held", |s| s.set(s.layout.tracer(7), 1)),
        ("output held", |s| s.set(s.layout.tracer(0) + 1, 32)),
        ("card in hand", |s| {
            s.set_card(0, 2);
            s.set(s.layout.tracer(0) + 4, 1);
        }),
        ("a player scanned", |s| s.set_scanned(15, true)),
        ("a packet filled", |s| {
            s.mark(1);
            s.append(0, 1);
        }),
    ];
    for (what, alter) in alterations {
        assert_eq!(first_damage(&altered(idle.clone(), alter)), Some(Line::Idle), "{what}");
    }
    assert_damage::<W>(Line::Idle, &[("the cycle taken away", |s| s.set_running(false))]);
    for state in 0..4 {
        let mut cards = idle.clone();
        StoreOf::of(&mut cards).unwrap().set_card(1, state);
        assert_eq!(judge(&cards), 0, "card state {state} with no cycle");
    }
}

/// Object 100 with its link 1 to 8, object 1 with its link 1 to 4, and what may cover them.
fn cover_line<W: Width>() {
    assert_damage::<W>(
        Line::Cover,
        &[
            ("the only entry popped", |s| assert_eq!(s.pop(4), 1)),
            ("object let go", |s| s.set_tracer(2, Tracer::default())),
            ("link no more to come", |s| s.set(s.layout.tracer(2) + 3, 2)),
            ("a later link to an unmarked object", |s| {
                s.set(s.layout.tracer(2) + 3, 2);
                s.set_link(100, 2, 8);
            }),
            ("an earlier link to an unmarked object", |s| s.set_link(100, 0, 8)),
            ("one player owes, another holds", |s| {
                s.pop(4);
                s.set_register(0, 7, 4);
            }),
            ("owing another card", |s| {
                s.pop(4);
                s.set_register(1, 7, 4);
                s.set_owed(1, Some(1));
            }),
            ("holding, owing nothing", |s| {
                s.pop(4);
                s.set_register(1, 7, 4);
                s.set_owed(1, None);
            }),
            ("card in hand past the object", |s| {
                s.pop(4);
                s.set(s.layout.tracer(2) + 5, 2);
            }),
        ],
    );
    assert_sound::<W>(&[
        ("by the dirty card", |s| {
            s.pop(4);
            s.set_card(0, 3);
        }),
        ("by the card in hand, at the object", |s| {
            s.pop(4);
            s.set(s.layout.tracer(2) + 5, 1);
        }),
        ("by the player who owes and holds", |s| {
            s.pop(4);
            s.set_register(1, 7, 4);
        }),
        ("by another tracer's hand", |s| {
            s.pop(4);
            holding(s, Some((1, 1)), None);
        }),
        ("by the mark", |s| {
            s.pop(4);
            s.mark(4);
        }),
        ("by the dirty card instead of the hand", |s| {
            s.set_card(1, 1);
            s.set(s.layout.tracer(2) + 3, 2);
        }),
    ]);
}

/// "O marked, in hand at link 1 of 2, link 0 to an unmarked A": Cover fails, and the finish keeps A.
fn finish_goes_by_object_where_cover_goes_by_link<W: Width>() {
    let image: Vec<W> = altered(sound(), |s| {
        s.set_register(1, 2, 0);
        s.set_link(100, 0, 8);
        s.set_link(100, 1, 0);
    });
    assert!(undamaged_but_cover(&image) && !cover(&image));
    let mut left = image.clone();
    // Object 8 is linked from object 100 only, and 4 from the entered object 1: nothing is freed.
    assert_eq!(finish(&mut left).number(), 0);
    let mut let_go = altered(image, |s| s.set_tracer(2, Tracer::default()));
    assert_eq!(finish(&mut let_go).number(), 1);
}

#[test]
fn wrong_lengths() {
    for n in 0..3000 {
        let fits = n >= 1650 && (n - 1384) % 266 == 0;
        let mut image = vec![9u16; n];
        assert_eq!(judge(&image), if fits { 2 } else { 1 }, "{n} words");
        assert_eq!(fresh(&mut image), u16::from(!fits), "{n} words");
        let expected = if fits { 0 } else { 1 };
        assert_eq!(judge(&image), expected, "{n} words");
        assert!(fits || image.iter().all(|&w| w == 9));
    }
    for (n, judgement) in [(length(512), 0), (length(512) + 1, 1), (length(513), 1)] {
        let mut image = vec![0u16; n];
        assert_eq!((fresh(&mut image), judge(&image)), (judgement, judgement));
    }
}

fn made_images_are_what_they_are_said_to_be<W: Width>() {
    let mut random = Random::new(11);
    for n in 0..400 {
        let k = random.from_to(1, 6);
        assert_eq!(judge(&running::<W>(&mut random, k)), 0);
        assert_eq!(judge(&bare::<W>(&mut random, k)), 0);
        assert_eq!(judge(&idle::<W>(&mut random, k)), 0);
        assert_eq!(first_damage(&uncovered_image::<W>(&mut random, k)), Some(Line::Cover));
        if n % 20 == 0 {
            assert_eq!(judge(&starved::<W>(&mut random, STARVED_CARDS)), 0);
        }
    }
}

/// Judging reads any words at all; altered ones are found damaged in every line.
fn spoiled_images<W: Width>() {
    let mut random = Random::new(12);
    let mut lines = std::collections::BTreeMap::new();
    for _ in 0..2000 {
        let k = random.from_to(1, 3);
        let mut image: Vec<W> = running(&mut random, k);
        for _ in 0..random.from_to(1, 3) {
            generate::spoil(&mut random, &mut image);
            *lines.entry(first_damage(&image)).or_insert(0) += 1;
        }
        image.iter_mut().for_each(|word| *word = W::cut(random.bits() & random.bits()));
        assert_eq!(judge(&image), 2);
    }
    println!("{lines:?}");
    use Line::*;
    let expected = [Words, Filling, References, Marks, Counts, Hands, Idle, Cover];
    assert!(expected.iter().all(|&line| lines[&Some(line)] > 3) && lines[&None] > 100, "{lines:?}");
}
