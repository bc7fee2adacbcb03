//! The program `second`: reads its mode and runs it.

use second::compare::{compare, Plan};
use second::keep_depth;
use second::make::floors::KINDS;
use second::make::jobs::Kit;
use second::make::{self, Program, PROGRAMS};
use second::output::Output;
use second::promises;
use second::third;
use second::timing::time_aisle;
use std::io::{Read, Write};
use std::process::ExitCode;

const USAGE: &str = "usage:
  second aisle                        standard input to standard output, as document 01's program
  second calls                        standard input to standard output, as CALLS.md
  second renew                        standard input to standard output, as document 02's program; a refusal to standard error
  second keep_depth                   the same for lines, which are copied as they come
  second make PROGRAM SEED            the generated input of a seed for one of these four
  second compare [--aisle PATH] [--calls PATH] [--renew PATH] [--keep_depth PATH] --from A --count N [--seconds S] [--need-all]
  second promises --from A --count N
  second third --depth D [--opening] --from A --count N
  second time run KIND WIDTH HEIGHT SEED TRIALS DEPTH [P Q QUOTA] [--as-aisle | --as-calls]
  second time open KIND WIDTH HEIGHT SEED
  second time aisle FILE..
KIND is open, racks, rooms, maze, snake, walls, posts, random or lanes.";

fn main() -> ExitCode {
    let arguments: Vec<String> = std::env::args().skip(1).collect();
    let words: Vec<&str> = arguments.iter().map(String::as_str).collect();
    let done = match words.as_slice() {
        ["make", program, seed] => make_input(program, seed),
        ["compare", rest @ ..] => compare_by(rest),
        ["promises", rest @ ..] => check_promises(rest),
        ["third", rest @ ..] => count_third(rest),
        ["time", "run", rest @ ..] => time_run(rest),
        ["time", "open", rest @ ..] => time_open(rest),
        ["time", "aisle", files @ ..] => time_files(files),
        ["keep_depth"] => Some(copy_lines().is_ok()),
        [name] => Program::named(name).and_then(answer),
        _ => None,
    };
    match done {
        Some(true) => ExitCode::SUCCESS,
        Some(false) => ExitCode::from(1),
        None => {
            eprintln!("{USAGE}");
            ExitCode::from(2)
        }
    }
}

/// Writes to standard output; whoever reads it may stop early.
fn print_bytes(bytes: &[u8]) -> Option<bool> {
    let mut out = std::io::stdout().lock();
    Some(out.write_all(bytes).and_then(|()| out.flush()).is_ok())
}

fn answer(program: Program) -> Option<bool> {
    let mut input = Vec::new();
    if std::io::stdin().lock().read_to_end(&mut input).is_err() {
        return Some(false);
    }
    let Output { out, err } = program.answer(&input);
    Some(std::io::stderr().write_all(&err).is_ok() && print_bytes(&out)?)
}

/// The one program whose input may be longer than what can be held.
fn copy_lines() -> std::io::Result<()> {
    let refused = keep_depth::copy(std::io::stdin().lock(), std::io::stdout().lock())?;
    std::io::stderr().write_all(keep_depth::told(refused).as_bytes())
}

fn make_input(program: &str, seed: &str) -> Option<bool> {
    print_bytes(&make::input(Program::named(program)?, seed.parse().ok()?))
}

/// The value that follows a named option, if the option is there.
fn option(words: &[&str], name: &str) -> Option<Option<String>> {
    match words.iter().position(|word| *word == name) {
        None => Some(None),
        Some(at) => words.get(at + 1).map(|value| Some(value.to_string())),
    }
}

/// The same for an option that is a number.
fn number_option(words: &[&str], name: &str) -> Option<Option<u64>> {
    match option(words, name)? {
        None => Some(None),
        Some(value) => value.parse().ok().map(Some),
    }
}

fn compare_by(words: &[&str]) -> Option<bool> {
    let mut others = Vec::new();
    for program in PROGRAMS {
        let path = option(words, &format!("--{}", program.name()))?;
        others.extend(path.map(|path| (program, path)));
    }
    let plan = Plan {
        others,
        from: number_option(words, "--from")?.unwrap_or(0),
        count: number_option(words, "--count")?.unwrap_or(1_000),
        seconds: number_option(words, "--seconds")?,
        need_all: words.contains(&"--need-all"),
    };
    if plan.others.is_empty() {
        return None;
    }
    Some(compare(&plan))
}

fn check_promises(words: &[&str]) -> Option<bool> {
    let from = number_option(words, "--from")?.unwrap_or(0);
    let count = number_option(words, "--count")?.unwrap_or(1_000);
    match promises::check_seeds(from, count) {
        Ok(accepted) => println!("{count} jobs made, {accepted} accepted, every promise kept"),
        Err(fault) => {
            println!("{fault}");
            return Some(false);
        }
    }
    Some(true)
}

fn count_third(words: &[&str]) -> Option<bool> {
    let depth = number_option(words, "--depth")?.filter(|depth| (1..=8).contains(depth))?;
    let from = number_option(words, "--from")?.unwrap_or(0);
    let count = number_option(words, "--count")?.unwrap_or(1_000);
    print_bytes(third::count(depth, words.contains(&"--opening"), from, count).as_bytes())
}

/// A job to time, by the words KIND WIDTH HEIGHT SEED.
fn bench(kind: &str, width: &str, height: &str, seed: &str) -> Option<Kit> {
    let kind = KINDS.iter().find(|(name, _)| *name == kind)?.1;
    let side = |word: &str| word.parse().ok().filter(|side| (1..=64).contains(side));
    Kit::timed(kind, side(width)?, side(height)?, seed.parse().ok()?)
}

fn time_run(words: &[&str]) -> Option<bool> {
    let plain: Vec<&str> = words.iter().copied().filter(|word| !word.starts_with("--")).collect();
    let [kind, width, height, seed, trials, depth, rest @ ..] = plain.as_slice() else { return None };
    let mut bench = bench(kind, width, height, seed)?;
    bench.trials = trials.parse().ok().filter(|trials| (1..=1_000).contains(trials))?;
    bench.depth = depth.parse().ok()?;
    if let [p, q, quota] = rest {
        bench.p = p.parse().ok()?;
        bench.q = q.parse().ok()?;
        bench.quota = quota.parse().ok()?;
    }
    if words.contains(&"--as-aisle") {
        return print_bytes(&bench.as_aisle());
    }
    if words.contains(&"--as-calls") {
        return print_bytes(bench.as_calls(&bench.opening_table()).as_bytes());
    }
    println!("{}", bench.time_run());
    Some(true)
}

fn time_open(words: &[&str]) -> Option<bool> {
    let [kind, width, height, seed] = words else { return None };
    println!("{}", bench(kind, width, height, seed)?.time_open());
    Some(true)
}

fn time_files(files: &[&str]) -> Option<bool> {
    for file in files {
        match std::fs::read(file) {
            Ok(input) => println!("{file}: {}", time_aisle(&input)),
            Err(error) => {
                println!("{file}: {error}");
                return Some(false);
            }
        }
    }
    Some(true)
}
