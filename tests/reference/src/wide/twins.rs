//! Images of large wide stores with objects whose granules are equal in their low 15 bits or more, and the line of "undamaged" that each breaks.

use crate::image::Tracer;
use crate::judge::Line;
use crate::wide::{length, Store};

pub struct Twins {
    pub what: String,
    pub image: Vec<u32>,
    /// The first line that does not hold.
    pub line: Option<Line>,
}

/// Stores with at least one number that 15 bits do not tell from another, and by how much these may differ.
const LARGE: [(usize, &[usize]); 4] = [
    (513, &[32_768]),
    (600, &[32_768]),
    (1_100, &[32_768, 65_536]),
    (65_536, &[32_768, 65_536, 131_072, 1 << 20, 1 << 21]),
];

/// O, and A, which it links to and which is not marked.
pub const O: usize = 5;
pub const A: usize = 9;

/// In a cycle O, A and, so much above them, their twins, each of one granule and one link. O is marked and links to A; the twins' links are nil.
pub fn with_twins(k: usize, apart: usize) -> Vec<u32> {
    let mut image = vec![0; length(k)];
    let mut store = Store::of(&mut image).expect("a fitting length");
    let objects = [O, A, O + apart, A + apart];
    objects.iter().for_each(|&g| store.set_object(g, 1, 1));
    store.set_link(O, 0, A);
    let mut free_from = 1;
    let mut runs = Vec::new();
    for end in objects.into_iter().chain([64 * k]) {
        runs.extend((free_from < end).then_some((free_from, end - free_from)));
        free_from = end + 1;
    }
    for (n, &(g, length)) in runs.iter().enumerate() {
        store.set_run(g, length, runs.get(n + 1).map_or(0, |&(next, _)| next));
    }
    store.set_first_run(1);
    store.set_running(true);
    store.mark(O);
    image
}

type Alter = fn(&mut Store, usize);

/// What covers O's link to A, or makes the image damaged in another line, if numbers are not told from others that are so much greater.
const TWINS: [(&str, Option<Line>, Alter); 16] = [
    ("nothing", Some(Line::Cover), |_, _| ()),
    ("O entered", None, |s, _| s.append(3, O)),
    ("O's twin entered", Some(Line::Cover), |s, apart| {
        s.mark(O + apart);
        s.append(3, O + apart);
    }),
    ("O and its twin entered", None, |s, apart| {
        s.mark(O + apart);
        s.append(3, O);
        s.append(3, O + apart);
    }),
    ("O and its twin entered in two packets", None, |s, apart| {
        s.mark(O + apart);
        s.append(3, O + apart);
        s.append(4, O);
    }),
    ("O's twin entered twice", Some(Line::Marks), |s, apart| {
        s.mark(O + apart);
        s.append(3, O);
        s.append(3, O + apart);
        s.append(5, O + apart);
    }),
    ("O's twin entered and not marked", Some(Line::Marks), |s, apart| {
        s.append(3, O);
        s.append(3, O + apart);
    }),
    ("O in hand", None, |s, _| s.set_tracer(0, Tracer { hand: Some((O, 0)), ..Tracer::default() })),
    ("O's twin in hand", Some(Line::Cover), |s, apart| {
        s.mark(O + apart);
        s.set_tracer(0, Tracer { hand: Some((O + apart, 0)), ..Tracer::default() });
    }),
    ("O's twin in hand and not marked", Some(Line::Hands), |s, apart| {
        s.append(3, O);
        s.set_tracer(0, Tracer { hand: Some((O + apart, 0)), ..Tracer::default() });
    }),
    ("the twin's card dirty", Some(Line::Cover), |s, apart| s.set_card(apart / 64, 1)),
    ("the twin's card in hand", Some(Line::Cover), |s, apart| {
        s.set_card(apart / 64, 2);
        s.set_tracer(0, Tracer { card: Some((apart / 64, apart)), ..Tracer::default() });
    }),
    ("the twin's card in hand, O's next granule", Some(Line::Hands), |s, apart| {
        s.set_card(apart / 64, 2);
        s.set_tracer(0, Tracer { card: Some((apart / 64, 0)), ..Tracer::default() });
    }),
    ("the twin's card owed and A held", Some(Line::Cover), |s, apart| {
        s.set_owed(2, Some(apart / 64));
        s.set_register(2, 0, A);
    }),
    ("O's card owed and A's twin held", Some(Line::Cover), |s, apart| {
        s.set_owed(2, Some(0));
        s.set_register(2, 0, A + apart);
    }),
    ("A's twin marked", Some(Line::Cover), |s, apart| s.mark(A + apart)),
];

/// One after the other, for the images are large.
pub fn twins() -> impl Iterator<Item = Twins> {
    let stores = LARGE.into_iter().flat_map(|(k, differences)| differences.iter().map(move |&apart| (k, apart)));
    stores.flat_map(|(k, apart)| {
        TWINS.into_iter().map(move |(what, line, alter)| {
            let mut image = with_twins(k, apart);
            alter(&mut Store::of(&mut image).expect("a fitting length"), apart);
            Twins { what: format!("k = {k}, {apart} apart: {what}"), image, line }
        })
    })
}
