//! Reads cases in the vectors' format from standard input, with `wide` behind the name those of the wide store, and prints each as theorems of antt: the model's definitions,
//! computed by the checker, give what the case says. A batch that the lowest run would answer or leave otherwise is printed under that
//! rule too, with what the second implementation does; of an accepted batch the trace and clean steps are counted as well. Of a wide case the image
//! is judged besides, and a fresh store made of its words.

use std::fmt::Display;
use std::io::Read;

use reference::cases::otherwise_by_lowest;
use reference::vectors::{parse, parse_wide, BatchCase, Case, FinishCase, MapCase, ReportCase};
use reference::vectors::{UNTOUCHED, UNTOUCHED_BYTE};
use reference::work::work_in;
use reference::{fresh, judge};

const HEAD: &str = "\
use mathlib.Core.Path.{◌≡◌, refl}
use Rattle.std.specs.Prelude.{ℕ, List, [], ◌∷◌, ◌++◌, replicate}
use Rattle.model.specs.Mutate.{lowest, tightest}
use Rattle.model.specs.Undamaged.{Made, fresh_at, judge_at}
use Rattle.model.specs.Batch.{Batch, Finished, judge_of, batch_at, batch_of, finish_of, events}
use Rattle.model.specs.Bound.{work_in}
use Rattle.model.specs.Map.{Mapped, map_of}
use Rattle.model.specs.Report.{Reported, report_of}
use Rattle.model.specs.Open.{model_open}

runs : List ℕ → List ℕ
runs [] = []
runs (n ∷ []) = []
runs (n ∷ v ∷ l) = replicate n v ++ runs l
";

fn main() {
    let mut text = String::new();
    std::io::stdin().read_to_string(&mut text).expect("standard input is text");
    println!("{HEAD}");
    match std::env::args().nth(1).as_deref() {
        None => print_narrow(&text),
        Some("wide") => print_wide(&text),
        Some(_) => {
            eprintln!("usage: rows [wide]");
            std::process::exit(2);
        }
    }
}

fn print_narrow(text: &str) {
    let cases = parse(text).expect("cases in the vectors' format");
    for (number, case) in cases.iter().enumerate() {
        match case {
            Case::Batch(case) => print_batch(number, case),
            Case::Cycle(case) => print_batch(number, &case.batch),
            Case::Finish(case) => print_finish(number, case),
            Case::Map(case) => print_map(number, case),
            Case::Report(case) => print_report(number, case),
        }
    }
}

fn print_wide(text: &str) {
    let cases = parse_wide(text).expect("cases in the vectors' format");
    for (number, case) in cases.iter().enumerate() {
        print_batch_by("batch_at tightest 32", number, "batch", case);
        let image = runs(&case.image);
        let verdict = judge(&case.image).to_string();
        print_theorem(number, "judged", &case.name, "ℕ", &format!("judge_at 32 {image}"), &verdict);
        let mut made = case.image.clone();
        let result = fresh(&mut made);
        let gives = format!("record {{ result = {result}; image = {} }}", runs(&made));
        print_theorem(number, "fresh", &case.name, "Made", &format!("fresh_at 32 {image}"), &gives);
    }
}

fn print_batch(number: usize, case: &BatchCase) {
    print_batch_by("batch_of", number, "batch", case);
    if let Some(case) = otherwise_by_lowest(case) {
        print_batch_by("batch_at lowest 16", number, "lowest", &case);
    }
    if case.result == 0 {
        let work = work_in(&case.steps, &case.given).accepted();
        let call = format!("work_in (events tightest 16 {} ({}))", runs(&case.image), list(&case.steps));
        print_theorem(number, "work", &case.name, "ℕ", &call, &work.to_string());
    }
}

fn print_batch_by<W: Copy + Display + Into<u64> + PartialEq>(
    definition: &str,
    number: usize,
    what: &str,
    case: &BatchCase<W>,
) {
    let call =
        format!("{definition} {} ({}) (replicate {} {UNTOUCHED})", runs(&case.image), list(&case.steps), case.answers);
    let gives =
        format!("record {{ result = {}; image = {}; answers = {} }}", case.result, runs(&case.left), list(&case.given));
    print_theorem(number, what, &case.name, "Batch", &call, &gives);
}

fn print_finish(number: usize, case: &FinishCase) {
    let image = runs(&case.image);
    let gives = format!("record {{ value = {}; image = {} }}", case.value, runs(&case.left));
    print_theorem(number, "finish", &case.name, "Finished", &format!("finish_of {image}"), &gives);
    let verdict = if case.cover { "0" } else { "2" };
    print_theorem(number, "judged", &case.name, "ℕ", &format!("judge_of {image}"), verdict);
}

fn print_map(number: usize, case: &MapCase) {
    let call = format!("map_of {} (replicate {} {UNTOUCHED_BYTE})", runs(&case.image), case.room);
    let gives = format!("record {{ result = {}; output = {} }}", case.result, runs(&case.given));
    print_theorem(number, "map", &case.name, "Mapped", &call, &gives);
}

fn print_report(number: usize, case: &ReportCase) {
    let [first, second, scratch] = [&case.first, &case.second, &case.scratch].map(|words| runs(words));
    let call = format!("report_of {first} {second} {} {scratch}", runs(&case.report));
    let gives = format!("record {{ result = {}; scratch = {} }}", case.result, runs(&case.after));
    print_theorem(number, "report", &case.name, "Reported", &call, &gives);
}

fn print_theorem(number: usize, what: &str, name: &str, kind: &str, call: &str, gives: &str) {
    println!("-- case {name}\n{what}_{number} : ◌≡◌ {{A = {kind}}} ({call}) ({gives})");
    println!("unfolding model_open runs\n{what}_{number} = refl\n");
}

fn list<T: Display>(items: &[T]) -> String {
    items.iter().map(|item| format!("{item} ∷ ")).collect::<String>() + "[]"
}

/// Equal words or bytes in a row are written once, with their number before them.
fn runs<T: Copy + PartialEq + Into<u64>>(items: &[T]) -> String {
    let pairs: Vec<u64> = items.chunk_by(|a, b| a == b).flat_map(|run| [run.len() as u64, run[0].into()]).collect();
    format!("(runs ({}))", list(&pairs))
}
