//! Reading and printing cases in the format of the outside vectors.

use std::collections::BTreeMap;
use std::fmt::LowerHex;

use crate::layout::{cards_of_length, CARD_GRANULES};
use crate::record::{records, DUE, UNDIRTY};
use crate::report::scratch_words;
use crate::width::Width;

/// The word that answer space holds before a call.
pub const UNTOUCHED: u16 = 0x5aa5;

/// The same as a word of either width.
pub fn untouched<W: Width>() -> W {
    W::of(usize::from(UNTOUCHED))
}

/// The byte that the room for a map holds before a call.
pub const UNTOUCHED_BYTE: u8 = 0xa5;

/// A call of `batch` and what it must do, of the narrow store unless another word is named.
#[derive(Clone, Debug, PartialEq, Eq)]
pub struct BatchCase<W = u16> {
    pub name: String,
    pub image: Vec<W>,
    pub steps: Vec<u8>,
    pub answers: usize,
    pub result: u16,
    pub left: Vec<W>,
    pub given: Vec<W>,
}

impl BatchCase {
    /// Whether the answers are those given, where the vectors are document 01's, by which a due counts every run. By document 02
    /// what was due still is, and more is; "no other answer moves".
    pub fn gives_but_for_due(&self, answers: &[u16]) -> bool {
        if self.result != 0 || answers.len() != self.given.len() {
            return answers == self.given;
        }
        let pairs = answers.chunks(2).zip(self.given.chunks(2));
        records(&self.steps).zip(pairs).all(|(record, (answer, given))| {
            answer == given || (record.kind == DUE && given == [0, 0] && answer == [0, 1])
        })
    }
}

/// A call of `batch` with a whole cycle; the trace and clean steps that it accepts, and the most that a cycle may accept.
#[derive(Clone, Debug, PartialEq, Eq)]
pub struct CycleCase {
    pub batch: BatchCase,
    pub work: usize,
    pub at_most: usize,
}

/// A finish alone and what it must do.
#[derive(Clone, Debug, PartialEq, Eq)]
pub struct FinishCase {
    pub name: String,
    pub image: Vec<u16>,
    pub value: u16,
    pub left: Vec<u16>,
    pub cover: bool,
}

/// A call of `service_map` and what it must do.
#[derive(Clone, Debug, PartialEq, Eq)]
pub struct MapCase {
    pub name: String,
    pub image: Vec<u16>,
    pub room: usize,
    pub result: u16,
    pub given: Vec<u8>,
}

/// A call of `judge_report` and what it must do.
#[derive(Clone, Debug, PartialEq, Eq)]
pub struct ReportCase {
    pub name: String,
    pub first: Vec<u16>,
    pub second: Vec<u16>,
    pub report: Vec<u8>,
    pub scratch: Vec<u16>,
    pub result: u16,
    pub after: Vec<u16>,
}

impl ReportCase {
    /// The call with an eighth of a scratch that has a word for each granule of some cards.
    fn with_an_eighth(mut self) -> ReportCase {
        if self.scratch.len().is_multiple_of(CARD_GRANULES) {
            let words = self.scratch.len() / 8;
            [&mut self.scratch, &mut self.after].into_iter().for_each(|scratch| scratch.truncate(words));
        }
        self
    }

    /// The call with the scratch that it has, which fits no more or never did.
    fn misfit(self) -> ReportCase {
        let fitting = cards_of_length(self.first.len()).map(scratch_words);
        assert_ne!(Some(self.scratch.len()), fitting, "a scratch of case {} fits now", self.name);
        ReportCase { result: 1, after: self.scratch.clone(), ..self }
    }
}

#[derive(Clone, Debug, PartialEq, Eq)]
pub enum Case {
    Batch(BatchCase),
    Cycle(CycleCase),
    Finish(FinishCase),
    Map(MapCase),
    Report(ReportCase),
}

/// The lines of a case by their first word.
type Block<'a> = BTreeMap<&'a str, &'a str>;

pub fn parse(text: &str) -> Result<Vec<Case>, String> {
    parse_blocks(text, case_of)
}

/// The cases of a text of the wide store, which has none but of its `batch`.
pub fn parse_wide(text: &str) -> Result<Vec<BatchCase<u32>>, String> {
    parse_blocks(text, batch_of)
}

fn parse_blocks<T>(text: &str, of: fn(&Block) -> Result<T, String>) -> Result<Vec<T>, String> {
    let mut blocks: Vec<Block> = Vec::new();
    for line in text.lines().map(str::trim).filter(|line| !line.is_empty()) {
        let (key, rest) = line.split_once(' ').unwrap_or((line, ""));
        if key == "case" {
            blocks.push(BTreeMap::new());
        }
        let block = blocks.last_mut().ok_or("a line before the first case")?;
        if block.insert(key, rest).is_some() {
            return Err(format!("{key} twice in case {}", block["case"]));
        }
    }
    blocks.iter().map(|block| of(block).map_err(|e| format!("case {}: {e}", block["case"]))).collect()
}

/// The cases of a text that has none but of `batch`.
pub fn parse_batches(text: &str) -> Result<Vec<BatchCase>, String> {
    batches_of(parse(text)?)
}

fn batches_of(cases: Vec<Case>) -> Result<Vec<BatchCase>, String> {
    all_of("batch", cases, |case| match case {
        Case::Batch(case) => Some(case),
        _ => None,
    })
}

/// The cases of a text that has none but of whole cycles.
pub fn parse_cycles(text: &str) -> Result<Vec<CycleCase>, String> {
    all_of("a cycle", parse(text)?, |case| match case {
        Case::Cycle(case) => Some(case),
        _ => None,
    })
}

/// The cases of a text that has none but of `service_map`.
pub fn parse_maps(text: &str) -> Result<Vec<MapCase>, String> {
    all_of("service_map", parse(text)?, |case| match case {
        Case::Map(case) => Some(case),
        _ => None,
    })
}

/// The cases of a text that has none but of `judge_report`.
pub fn parse_reports(text: &str) -> Result<Vec<ReportCase>, String> {
    all_of("judge_report", parse(text)?, |case| match case {
        Case::Report(case) => Some(case),
        _ => None,
    })
}

/// The cases of a text that was made before document 02, (viii), when a scratch had G words, read in two ways: with G/8 words, where the verdicts are
/// "The same", and as they stand: "A scratch of G words is a misfit from then on."
pub fn parse_older_reports(text: &str) -> Result<[Vec<ReportCase>; 2], String> {
    let cases = parse_reports(text)?;
    let read = |way: fn(ReportCase) -> ReportCase| cases.iter().cloned().map(way).collect();
    Ok([read(ReportCase::with_an_eighth), read(ReportCase::misfit)])
}

fn all_of<T>(what: &str, cases: Vec<Case>, of: fn(Case) -> Option<T>) -> Result<Vec<T>, String> {
    let one = |case: Case| {
        let name = case.name().to_string();
        of(case).ok_or_else(|| format!("{name} is no case of {what}"))
    };
    cases.into_iter().map(one).collect()
}

/// The cases of a text that was made before document 02, (ii), when images had no counts: they get them here. Kind 15 was unknown
/// then, so cases with a record of it are left out; how many they are is given too.
pub fn parse_older(text: &str) -> Result<(Vec<Case>, usize), String> {
    let (cases, left_out): (Vec<Case>, Vec<Case>) = parse(text)?.into_iter().partition(|case| !case.has_undirty());
    Ok((cases.into_iter().map(Case::with_counts).collect(), left_out.len()))
}

/// The same, of a text that has none but of `batch`.
pub fn parse_older_batches(text: &str) -> Result<(Vec<BatchCase>, usize), String> {
    let (cases, left_out) = parse_older(text)?;
    Ok((batches_of(cases)?, left_out))
}

impl Case {
    fn name(&self) -> &str {
        match self {
            Case::Batch(case) => &case.name,
            Case::Cycle(case) => &case.batch.name,
            Case::Finish(case) => &case.name,
            Case::Map(case) => &case.name,
            Case::Report(case) => &case.name,
        }
    }

    fn has_undirty(&self) -> bool {
        matches!(self, Case::Batch(case) if records(&case.steps).any(|record| record.kind == UNDIRTY))
    }

    fn with_counts(self) -> Case {
        match self {
            Case::Batch(case) => {
                let (image, left) = (with_counts(&case.image), with_counts(&case.left));
                Case::Batch(BatchCase { image, left, ..case })
            }
            Case::Finish(case) => {
                let (image, left) = (with_counts(&case.image), with_counts(&case.left));
                Case::Finish(FinishCase { image, left, ..case })
            }
            // These came after the counts.
            Case::Cycle(_) | Case::Map(_) | Case::Report(_) => self,
        }
    }
}

/// An image of document 01, of 265 words a card, with the counts that document 02 puts behind the cards, as the mark bits have them:
/// 4 words a card, behind 256 of heap and 4 of start bits. An image of any other length is a misfit by both and stays as it is.
fn with_counts(image: &[u16]) -> Vec<u16> {
    let Some(k) = (1..=512).find(|k| 265 * k + 1384 == image.len()) else {
        assert_eq!(cards_of_length(image.len()), None, "a misfit of document 01 fits now");
        return image.to_vec();
    };
    let ones = |words: &[u16]| words.iter().map(|word| word.count_ones() as u16).sum();
    let counts: Vec<u16> = image[260 * k..264 * k].chunks(4).map(ones).collect();
    [&image[..265 * k], &counts, &image[265 * k..]].concat()
}

fn field<'a>(block: &Block<'a>, key: &str) -> Result<&'a str, String> {
    block.get(key).copied().ok_or(format!("no line {key}"))
}

fn number(block: &Block, key: &str) -> Result<u16, String> {
    field(block, key)?.parse().map_err(|e| format!("{key}: {e}"))
}

fn case_of(block: &Block) -> Result<Case, String> {
    if block.contains_key("report") {
        return report_of(block).map(Case::Report);
    }
    let name = field(block, "case")?.to_string();
    let image = words(field(block, "image")?)?;
    if block.contains_key("room") {
        let room = usize::from(number(block, "room")?);
        let given = words(field(block, "given")?)?;
        return Ok(Case::Map(MapCase { name, image, room, result: number(block, "result")?, given }));
    }
    if block.contains_key("finish") {
        let left = words_or_same(field(block, "left")?, &image)?;
        let cover = number(block, "cover")? == 1;
        return Ok(Case::Finish(FinishCase { name, image, value: number(block, "finish")?, left, cover }));
    }
    let batch = batch_of(block)?;
    match block.get("work") {
        Some(line) => cycle_of(batch, line),
        None => Ok(Case::Batch(batch)),
    }
}

fn report_of(block: &Block) -> Result<ReportCase, String> {
    let name = field(block, "case")?.to_string();
    let first = words(field(block, "begin")?)?;
    let second = words_or_same(field(block, "finish")?, &first)?;
    let scratch = words(field(block, "scratch")?)?;
    let after = words_or_same(field(block, "after")?, &scratch)?;
    let report = bytes(field(block, "report")?)?;
    Ok(ReportCase { name, first, second, report, scratch, result: number(block, "result")?, after })
}

fn batch_of<W: Clone + TryFrom<u32>>(block: &Block) -> Result<BatchCase<W>, String> {
    let name = field(block, "case")?.to_string();
    let image = words(field(block, "image")?)?;
    let left = words_or_same(field(block, "left")?, &image)?;
    let answers = usize::from(number(block, "answers")?);
    let given = words(field(block, "given")?)?;
    let steps = bytes(field(block, "steps")?)?;
    Ok(BatchCase { name, image, steps, answers, result: number(block, "result")?, left, given })
}

fn cycle_of(batch: BatchCase, line: &str) -> Result<Case, String> {
    let (work, at_most) = line.split_once(' ').ok_or("work: two numbers")?;
    let number = |text: &str| text.parse::<usize>().map_err(|e| format!("work: {e}"));
    Ok(Case::Cycle(CycleCase { batch, work: number(work)?, at_most: number(at_most)? }))
}

/// Words in hex, or bytes, `v*n` for n equal ones in a row (n decimal), `-` for none.
fn words<W: Clone + TryFrom<u32>>(text: &str) -> Result<Vec<W>, String> {
    let mut words = Vec::new();
    if text == "-" {
        return Ok(words);
    }
    for part in text.split_whitespace() {
        let (value, times) = part.split_once('*').unwrap_or((part, "1"));
        let value = u32::from_str_radix(value, 16).map_err(|e| format!("{part}: {e}"))?;
        let value = W::try_from(value).map_err(|_| format!("{part}: too large"))?;
        let times = times.parse::<usize>().map_err(|e| format!("{part}: {e}"))?;
        words.extend(std::iter::repeat_n(value, times));
    }
    Ok(words)
}

fn words_or_same<W: Clone + TryFrom<u32>>(text: &str, others: &[W]) -> Result<Vec<W>, String> {
    if text == "same" {
        Ok(others.to_vec())
    } else {
        words(text)
    }
}

/// Bytes in hex without spaces, `-` for none.
fn bytes(text: &str) -> Result<Vec<u8>, String> {
    if text == "-" {
        return Ok(Vec::new());
    }
    if !text.len().is_multiple_of(2) || !text.is_ascii() {
        return Err("half a byte".to_string());
    }
    let byte = |i: usize| u8::from_str_radix(&text[i..i + 2], 16).map_err(|e| e.to_string());
    (0..text.len()).step_by(2).map(byte).collect()
}

pub fn print(case: &Case) -> String {
    match case {
        Case::Batch(case) => print_batch(case),
        Case::Cycle(case) => {
            print_batch(&case.batch) + &print_lines(&[("work", format!("{} {}", case.work, case.at_most))])
        }
        Case::Finish(case) => print_finish(case),
        Case::Map(case) => print_map(case),
        Case::Report(case) => print_report(case),
    }
}

/// A case of `batch` of either width.
pub fn print_batch<W: PartialEq + LowerHex>(case: &BatchCase<W>) -> String {
    let lines = [
        ("case", case.name.clone()),
        ("image", print_words(&case.image)),
        ("steps", print_bytes(&case.steps)),
        ("answers", case.answers.to_string()),
        ("result", case.result.to_string()),
        ("left", print_words_or_same(&case.left, &case.image)),
        ("given", print_words(&case.given)),
    ];
    print_lines(&lines)
}

fn print_finish(case: &FinishCase) -> String {
    let lines = [
        ("case", case.name.clone()),
        ("image", print_words(&case.image)),
        ("finish", case.value.to_string()),
        ("left", print_words(&case.left)),
        ("cover", u16::from(case.cover).to_string()),
    ];
    print_lines(&lines)
}

fn print_map(case: &MapCase) -> String {
    let lines = [
        ("case", case.name.clone()),
        ("image", print_words(&case.image)),
        ("room", case.room.to_string()),
        ("result", case.result.to_string()),
        ("given", print_words(&case.given)),
    ];
    print_lines(&lines)
}

fn print_report(case: &ReportCase) -> String {
    let lines = [
        ("case", case.name.clone()),
        ("begin", print_words(&case.first)),
        ("finish", print_words_or_same(&case.second, &case.first)),
        ("report", print_bytes(&case.report)),
        ("scratch", print_words(&case.scratch)),
        ("result", case.result.to_string()),
        ("after", print_words_or_same(&case.after, &case.scratch)),
    ];
    print_lines(&lines)
}

fn print_lines(lines: &[(&str, String)]) -> String {
    lines.iter().map(|(key, text)| format!("{key} {text}").trim_end().to_string() + "\n").collect()
}

/// Bytes in hex without spaces, `-` for none.
fn print_bytes(bytes: &[u8]) -> String {
    if bytes.is_empty() {
        return "-".to_string();
    }
    bytes.iter().map(|byte| format!("{byte:02x}")).collect()
}

fn print_words_or_same<W: PartialEq + LowerHex>(words: &[W], others: &[W]) -> String {
    if words == others {
        "same".to_string()
    } else {
        print_words(words)
    }
}

/// Three or more equal words, or bytes, are printed as one; two are printed as they are.
fn print_words<T: PartialEq + LowerHex>(words: &[T]) -> String {
    let runs = words.chunk_by(|a, b| a == b).map(|run| match run {
        [word] => format!("{word:x}"),
        [word, _] => format!("{word:x} {word:x}"),
        _ => format!("{:x}*{}", run[0], run.len()),
    });
    runs.collect::<Vec<_>>().join(" ")
}
