//! The outside vectors against the reference.

use std::collections::BTreeMap;

use reference::both_rules::both_rules;
use reference::cases::otherwise_by_lowest;
use reference::events::events;
use reference::layout::{Layout, Places};
use reference::record::{records_of, DUE, NEW, RECORD_BYTES};

use reference::vectors::{
    parse, parse_batches, parse_cycles, parse_maps, parse_older, parse_older_batches, parse_older_reports,
    parse_reports, parse_wide, print, print_batch, untouched, BatchCase, Case, ReportCase, UNTOUCHED_BYTE,
};
use reference::width::Width;
use reference::work::{at_most, Cycles, Work};
use reference::{batch, batch_by, cards_of_length, cover, finish, judge_report, service_map};
use reference::{undamaged_but_cover, Placing};

const BATCHES: &str = include_str!("../../vectors/batches.txt");
const DUES: &str = include_str!("../../vectors/document_02/01-i.txt");
const WIPING: &str = include_str!("../../vectors/document_02/02-ii.txt");
const MAPS: &str = include_str!("../../vectors/document_02/03-iii.txt");
const DUES_IN_BATCHES: &str = include_str!("../../vectors/document_02/04-iv.txt");
const TIGHT: &str = include_str!("../../vectors/document_02/05-v.txt");
const REPORTS: &str = include_str!("../../vectors/document_02/06-vi.txt");
const CYCLES: &str = include_str!("../../vectors/document_02/07-vii.txt");
const REPORTS_ON_THE_RACK: &str = include_str!("../../vectors/document_02/08-viii.txt");
const WIDE: &str = include_str!("../../vectors/document_02/09-ix.txt");
const FINISHES: &str = include_str!("../../vectors/finishes.txt");

/// The reference's answers and image for a case, whose result must be right.
fn run<W: Width>(placing: Placing, case: &BatchCase<W>) -> (Vec<W>, Vec<W>) {
    let mut image = case.image.clone();
    let mut answers = vec![untouched(); case.answers];
    assert_eq!(batch_by(placing, &mut image, &case.steps, &mut answers), case.result, "result of {}", case.name);
    if case.name.ends_with("loose") {
        assert!(undamaged_but_cover(&case.image), "{}", case.name);
        assert_eq!(cover(&case.image), case.result == 0, "cover of {}", case.name);
    }
    (answers, image)
}

/// The vectors of document 01: of all that they give, only dues have moved since, but for where a new goes.
#[test]
fn batches() {
    let (cases, left_out) = parse_older_batches(BATCHES).unwrap();
    assert_eq!((cases.len(), left_out), (115, 5));
    let mut moved = 0;
    for case in cases {
        let (answers, image) = run(Placing::Lowest, &case);
        assert!(case.gives_but_for_due(&answers), "answers of {}: {answers:x?}, not {:x?}", case.name, case.given);
        assert!(image == case.left, "image of {}", case.name);
        moved += usize::from(answers != case.given);
    }
    assert_eq!(moved, 6, "cases in which a due has moved");
}

/// Image and answers are those of the case, to the last word.
fn assert_as_given<W: Width>(placing: Placing, case: &BatchCase<W>) {
    let (answers, image) = run(placing, case);
    assert!(answers == case.given, "answers of {}: {answers:x?}, not {:x?}", case.name, case.given);
    assert!(image == case.left, "image of {}", case.name);
}

#[test]
fn dues() {
    let (cases, left_out) = parse_older_batches(DUES).unwrap();
    assert_eq!((cases.len(), left_out), (66, 4));
    cases.iter().for_each(|case| assert_as_given(Placing::Lowest, case));
}

#[test]
fn wiping() {
    let cases = parse_batches(WIPING).unwrap();
    assert_eq!(cases.len(), 70);
    cases.iter().for_each(|case| assert_as_given(Placing::Lowest, case));
}

/// Cases by their result, the longest batch, and the dues that say 0 and 1.
#[test]
fn dues_in_batches() {
    let cases = parse_batches(DUES_IN_BATCHES).unwrap();
    cases.iter().for_each(|case| assert_as_given(Placing::Lowest, case));
    let results = results(&cases);
    let longest = cases.iter().map(|case| case.steps.len() / RECORD_BYTES).max();
    let dues = answers_of(DUE, &cases);
    let said = [0, 1].map(|value| dues.iter().filter(|&&answer| answer == [0, value]).count());
    assert_eq!((results, longest, said), ([69, 0, 1], Some(40), [408, 810]));
}

/// Cases by their result.
fn results<W>(cases: &[BatchCase<W>]) -> [usize; 3] {
    [0, 1, 2].map(|result| cases.iter().filter(|case| case.result == result).count())
}

/// What is given for the records of that kind.
fn answers_of<W: Width>(kind: u8, cases: &[BatchCase<W>]) -> Vec<&[W]> {
    let answered = cases.iter().filter(|case| case.result == 0);
    let answers = answered.flat_map(|case| records_of::<W>(&case.steps).zip(case.given.chunks(2)));
    answers.filter(|(record, _)| record.kind == kind).map(|(_, answer)| answer).collect()
}

/// Cases by their result, the news that are accepted and those refused for room, and the cases in which the lowest run would do otherwise.
#[test]
fn tight() {
    let cases = parse_batches(TIGHT).unwrap();
    cases.iter().for_each(|case| assert_as_given(Placing::Tightest, case));
    let news = answers_of(NEW, &cases);
    let numbers = [0, 9].map(|number| news.iter().filter(|answer| answer[0] == number).count());
    let otherwise = cases.iter().filter_map(otherwise_by_lowest).count();
    assert_eq!((cases.len(), results(&cases), numbers, otherwise), (70, [67, 3, 0], [628, 25], 32));
}

/// The files that were made before request (v), and the cases of each that have moved with it. For all of them both rules give the
/// players the same answers.
#[test]
fn older_vectors_by_the_tightest_run() {
    let older = [BATCHES, DUES].map(|text| parse_older_batches(text).unwrap().0);
    let later = [WIPING, DUES_IN_BATCHES].map(|text| parse_batches(text).unwrap());
    let moved = [&older[0], &older[1], &later[0], &later[1]].map(|cases| {
        for case in cases.iter().filter(|case| case.result == 0) {
            let batches = [(case.steps.clone(), case.answers)];
            let by = |placing| {
                events(&case.image, &batches, |image, steps, answers| batch_by(placing, image, steps, answers))
            };
            both_rules(&case.image, &by(Placing::Lowest), &by(Placing::Tightest)).unwrap();
        }
        cases.iter().filter_map(otherwise_by_lowest).count()
    });
    assert_eq!(moved, [11, 30, 19, 31]);
}

/// Cases by their result, the records with a zero byte set, those with a field above 65,535, and the numbers that are given.
#[test]
fn wide() {
    let cases = parse_wide(WIDE).unwrap();
    cases.iter().for_each(|case| assert_as_given(Placing::Tightest, case));
    let answered = || cases.iter().filter(|case| case.result == 0);
    let records = || answered().flat_map(|case| records_of::<u32>(&case.steps));
    let strays = records().filter(|record| record.zeros != [0; 2]).count();
    let large = records().filter(|record| record.a.max(record.b).max(record.c) > 65_535).count();
    let mut numbers = BTreeMap::new();
    answered().flat_map(|case| case.given.chunks(2)).for_each(|answer| *numbers.entry(answer[0]).or_insert(0) += 1);
    assert_eq!((cases.len(), results(&cases), strays, large), (70, [56, 7, 7], 9, 19));
    assert_eq!(numbers, [(0, 722), (3, 35), (4, 25), (5, 33), (6, 31), (7, 4), (8, 2), (9, 5), (11, 82)].into());
}

/// Results, cards by their state and granules by their sign.
#[test]
fn maps() {
    let cases = parse_maps(MAPS).unwrap();
    let (mut results, mut states, mut signs) = ([0; 3], BTreeMap::new(), BTreeMap::new());
    for case in &cases {
        let mut output = vec![UNTOUCHED_BYTE; case.room];
        assert_eq!(service_map(&case.image, &mut output), case.result, "result of {}", case.name);
        assert!(output == case.given, "map of {}", case.name);
        results[usize::from(case.result)] += 1;
        for line in case.given.chunks(73).filter(|_| case.result == 0) {
            *states.entry(char::from(line[5])).or_insert(0) += 1;
            line[7..71].iter().for_each(|&sign| *signs.entry(char::from(sign)).or_insert(0) += 1);
        }
    }
    assert_eq!((cases.len(), results), (70, [50, 14, 6]));
    assert_eq!(states, [('0', 15), ('1', 7), ('2', 21), ('3', 11)].into());
    assert_eq!(signs, [('.', 1770), ('o', 442), ('#', 201), ('-', 1043)].into());
}

/// How often each result is given. Results and scratches are those of the cases, to the last word.
fn reported(cases: &[ReportCase]) -> BTreeMap<u16, usize> {
    let mut results = BTreeMap::new();
    for case in cases {
        let mut scratch = case.scratch.clone();
        let result = judge_report(&case.first, &case.second, &case.report, &mut scratch);
        assert_eq!(result, case.result, "result of {}", case.name);
        assert!(scratch == case.after, "scratch of {}", case.name);
        *results.entry(result).or_insert(0) += 1;
    }
    results
}

/// Every number is among the results.
#[test]
fn reports() {
    let cases = parse_reports(REPORTS_ON_THE_RACK).unwrap();
    assert_eq!(reported(&cases), [(0, 16), (1, 9), (2, 11), (12, 21), (13, 11), (14, 2)].into());
}

/// Request (vi)'s: their results by G/8 words, and misfits as they stand. 58 of them have been none before.
#[test]
fn older_reports() {
    let [with_an_eighth, as_they_stand] = parse_older_reports(REPORTS).unwrap();
    assert_eq!(reported(&with_an_eighth), [(0, 26), (1, 12), (2, 8), (12, 14), (13, 7), (14, 3)].into());
    assert_eq!(reported(&as_they_stand), [(1, 70)].into());
    let results = |cases: &[ReportCase]| cases.iter().map(|case| case.result).collect::<Vec<_>>();
    assert_eq!(results(&with_an_eighth), results(&parse_reports(REPORTS).unwrap()));
}

/// Each case is one cycle, from its begin to its finish. The most work of one, of stores of one card and of two, and how much there is in all.
#[test]
fn cycles() {
    let (mut most, mut work) = (BTreeMap::new(), Work::default());
    for case in parse_cycles(CYCLES).unwrap() {
        assert_as_given(Placing::Tightest, &case.batch);
        let BatchCase { name, image, steps, answers, .. } = &case.batch;
        let cycles = Cycles::of(&events(image, &[(steps.clone(), *answers)], batch));
        let k = cards_of_length(image.len()).unwrap();
        assert_eq!(case.at_most, at_most(k), "{name}");
        cycles.check(k).unwrap();
        let [cycle] = cycles.works().collect::<Vec<_>>()[..] else { panic!("{name} is no cycle") };
        assert_eq!(cycle.accepted(), case.work, "{name}");
        most.entry(k).or_insert_with(Vec::new).push(case.work);
        work = Work { traces: work.traces + cycle.traces, cleans: work.cleans + cycle.cleans };
    }
    let most = most.into_iter().map(|(k, works)| (k, works.len(), works.into_iter().max()));
    assert_eq!(most.collect::<Vec<_>>(), [(1, 44, Some(170)), (2, 16, Some(156))]);
    assert_eq!(work, Work { traces: 1_517, cleans: 459 });
}

#[test]
fn finishes() {
    let (cases, left_out) = parse_older(FINISHES).unwrap();
    assert_eq!((cases.len(), left_out), (60, 0));
    for case in cases {
        let Case::Finish(case) = case else { panic!("a case of finish") };
        assert!(undamaged_but_cover(&case.image), "{}", case.name);
        assert_eq!(cover(&case.image), case.cover, "cover of {}", case.name);
        let mut image = case.image.clone();
        assert_eq!(finish(&mut image), case.value, "value of {}", case.name);
        assert!(image == case.left, "image of {}", case.name);
    }
}

/// A finish that follows every marked object's links (as if all cards were dirty) differs on some vector.
#[test]
fn a_finish_that_follows_all_is_caught() {
    let caught = parse_older(FINISHES).unwrap().0.into_iter().any(|case| {
        let Case::Finish(mut case) = case else { panic!("a case of finish") };
        let cards = Layout::of_length(case.image.len()).unwrap();
        case.image[cards.card(0)..cards.card(cards.cards)].fill(1);
        finish(&mut case.image) != case.value
    });
    assert!(caught);
}

#[test]
fn printing_and_parsing_agree() {
    for text in [BATCHES, DUES, WIPING, MAPS, DUES_IN_BATCHES, TIGHT, REPORTS, CYCLES, REPORTS_ON_THE_RACK, FINISHES] {
        let cases = parse(text).unwrap();
        let printed: String = cases.iter().map(print).collect();
        assert_eq!(parse(&printed).unwrap(), cases);
    }
    let cases = parse_wide(WIDE).unwrap();
    let printed: String = cases.iter().map(print_batch).collect();
    assert_eq!(parse_wide(&printed).unwrap(), cases);
}
