//! `draw SEED COUNT` prints COUNT random cases in the format of the outside vectors, of batches and finishes; `draw SEED COUNT cycles`
//! batches of a whole cycle each, `draw SEED COUNT maps` cases of the service map, `draw SEED COUNT reports` cases of sweep reports, `draw SEED
//! COUNT wide` batches of the wide store.

use std::io::{BufWriter, Write};

use reference::cases::{case, cycles, maps};
use reference::random::Random;
use reference::reports::reports;
use reference::vectors::{print, print_batch, Case};
use reference::wide;

fn main() {
    let arguments: Vec<String> = std::env::args().skip(1).collect();
    let Some(cases) = cases(&arguments.iter().map(String::as_str).collect::<Vec<_>>()) else {
        eprintln!("usage: draw SEED COUNT [cycles|maps|reports|wide]");
        std::process::exit(2);
    };
    let mut out = BufWriter::new(std::io::stdout().lock());
    for case in cases {
        // A reader that has seen enough closes the pipe.
        if writeln!(out, "{case}").is_err() {
            return;
        }
    }
}

/// The cases as they are printed.
fn cases(arguments: &[&str]) -> Option<Box<dyn Iterator<Item = String>>> {
    let (&[seed, count], what) = arguments.split_first_chunk()?;
    let (seed, count) = (seed.parse().ok()?, count.parse().ok()?);
    match what {
        [] => {
            let mut random = Random::new(seed);
            Some(Box::new((0..count).map(move |number| print(&case(&mut random, number)))))
        }
        ["cycles"] => Some(Box::new(cycles(seed, count).map(|case| print_batch(&case)))),
        ["maps"] => Some(Box::new(maps(seed, count).map(|case| print(&Case::Map(case))))),
        ["reports"] => Some(Box::new(reports(seed, count).map(|case| print(&Case::Report(case))))),
        ["wide"] => Some(Box::new(wide::cases::cases(seed, count).map(|case| print_batch(&case)))),
        _ => None,
    }
}
