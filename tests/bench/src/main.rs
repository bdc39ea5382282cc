//! Times the proved library and the second implementation in one run and prints ratios. Both are release builds; the buffers
//! are copied anew before each call, outside the time, and after each call what it answered and left is held to what the second
//! implementation answers and leaves. With `--check`, the goals are asserted too, with slack for a busy machine. Other words name
//! the parts to run, all if there are none.

mod calls;
mod dues;
mod halts;
mod judging;
mod mapping;
mod pauses;
mod placing;
mod reports;
mod shows;
mod stepping;
mod timing;
mod trees;
mod wide;
mod work;

use timing::Goals;

type Part = fn(&mut Goals);

const PARTS: [(&str, Part); 14] = [
    ("judge", judging::judging),
    ("growth", judging::growing),
    ("fresh", judging::making),
    ("map", mapping::mapping),
    ("report", reports::reporting),
    ("steps", stepping::stepping),
    ("finish", stepping::finishing),
    ("new", placing::placing),
    ("due", dues::dues),
    ("undirty", stepping::wiping),
    ("wide", wide::wide),
    ("pauses", pauses::pauses),
    ("show", |_| halts::longest()),
    ("trees", trees::trees),
];

/// How often a part is run in a check: a goal counts as missed if it is missed each time.
const TRIES: usize = 3;

fn main() {
    let (options, names): (Vec<String>, Vec<String>) =
        std::env::args().skip(1).partition(|word| word.starts_with("--"));
    let is_part = |name: &String| PARTS.iter().any(|(part, _)| part == name);
    if options.iter().any(|option| option != "--check") || !names.iter().all(is_part) {
        eprintln!("usage: bench [--check] [{}]..", PARTS.map(|(part, _)| part).join("|"));
        std::process::exit(2);
    }
    let is_due = |part: &str| names.is_empty() || names.iter().any(|name| name == part);
    let check = !options.is_empty();
    let missed = PARTS.iter().filter(|(name, part)| is_due(name) && !holds(name, *part, check)).count();
    if missed > 0 {
        std::process::exit(1);
    }
}

/// Whether a part reaches its goals: in a check, each goal in one of its tries at least.
fn holds(name: &str, part: Part, check: bool) -> bool {
    let run = || {
        let mut goals = Goals::new(check);
        part(&mut goals);
        goals
    };
    let mut goals = run();
    for _ in 1..TRIES {
        if !goals.hold() {
            println!("{name} is run again");
            goals.run_again(&run());
        }
    }
    if !goals.hold() {
        goals.missed().for_each(|goal| println!("NOT REACHED in {TRIES} runs: {goal}"));
    }
    goals.hold()
}
