//! The independent check and the benchmarks: `compare`, `programs`, `selftest`, `bench`, and the test programs' cases made
//! again: `cases`. README.md says how to run them.

mod bytes;
mod calls;
mod cases;
mod compare;
mod generator;
#[cfg(feature = "linked")]
mod linked;
mod measure;
mod model;
mod programs;
mod selftest;
mod slips;

use calls::Calls;
use compare::{Comparison, KINDS};
use programs::Shown;
use std::io::{self, Read};
use std::process::ExitCode;
use std::time::Instant;

const SEED: u64 = 1;
const COUNT: u64 = 1_000_000;

#[cfg(feature = "linked")]
fn library() -> Option<&'static dyn Calls> {
    Some(&linked::Linked)
}

#[cfg(not(feature = "linked"))]
fn library() -> Option<&'static dyn Calls> {
    None
}

/// Prints how often each answer came, a line for each kind of input.
fn print_answers(comparison: &Comparison) {
    let print = |answers: &[u64; 256]| {
        let line: String = (0..256).filter(|&n| answers[n] > 0).map(|n| format!(" {n}:{}", answers[n])).collect();
        println!("   {line}");
    };
    let mut total = 0;
    let mut seen = [0; 256];
    for kind in KINDS {
        println!("{kind:?}: {} inputs", comparison.inputs(kind));
        print(&comparison.answers[kind as usize]);
        total += comparison.inputs(kind);
        (0..256).for_each(|n| seen[n] += comparison.answers[kind as usize][n]);
    }
    println!("single steps inside rows: {}", comparison.in_rows.iter().sum::<u64>());
    print(&comparison.in_rows);
    println!(
        "verdicts: {} accepted, rules 1, 2, 3 first to fail: {:?}",
        comparison.outcomes[0],
        &comparison.outcomes[1..]
    );
    println!("shown runs followed to their end, for rules 1, 2, 3: {:?}", &comparison.whole_runs[1..]);
    let expected = (1..=17).chain(19..=22).chain([0, 254, 255]);
    let missing: Vec<usize> = expected.filter(|&n| seen[n] == 0).collect();
    println!("{total} inputs compared, no difference; answers that never came: {missing:?}");
}

/// All kinds of input, or the one that is named.
fn compare(seed: u64, count: u64, only: Option<&String>) -> Result<(), String> {
    let library = library().ok_or("built without the library: only selftest and programs can be run")?;
    let started = Instant::now();
    let mut comparison = Comparison::new(library, &bytes::Model);
    for kind in KINDS.into_iter().filter(|kind| only.is_none_or(|name| *name == format!("{kind:?}"))) {
        comparison.kind(kind, seed, count).map_err(|difference| {
            let (kind, group) = (difference.kind, difference.group);
            format!(
                "a difference in {kind:?}, seed {seed}, group {group} (left the library, right the model)\n{}",
                difference.text
            )
        })?;
    }
    print_answers(&comparison);
    println!("seed {seed}, {:.1} s", started.elapsed().as_secs_f64());
    Ok(())
}

fn programs(seed: u64, count: u64) -> Result<(), String> {
    let compared = programs::compare(seed, count)?;
    println!("judge: {} plans, {} lines, no difference", compared.judged, compared.judged_lines);
    println!("stepper: {} files of steps, {} answers, no difference", compared.stepped, compared.stepped_lines);
    Ok(())
}

fn judge_model(shown: Shown) -> Result<(), String> {
    let mut file = Vec::new();
    let read = io::stdin().lock().read_to_end(&mut file);
    read.and_then(|_| programs::judge(&file, shown, io::stdout().lock())).map_err(|error| error.to_string())
}

fn stepper_model(path: &str) -> Result<(), String> {
    let file = std::fs::read(path).unwrap_or_default();
    programs::stepper(&file, io::stdin().lock(), io::stdout().lock()).map_err(|error| error.to_string())
}

fn main() -> ExitCode {
    let words: Vec<String> = std::env::args().skip(1).collect();
    let number = |at: usize, otherwise: u64| words.get(at).map_or(Some(otherwise), |word| word.parse().ok());
    let done = match (words.first().map(String::as_str), number(1, SEED), number(2, COUNT)) {
        (Some("judge-model"), _, _) => judge_model(Shown::ByPlaces),
        (Some("judge-model-by-rounds"), _, _) => judge_model(Shown::ByRounds),
        (Some("stepper-model"), _, _) => stepper_model(words.get(1).map_or("", String::as_str)),
        (Some("cases"), _, _) => cases::make_all(),
        (Some("compare"), Some(seed), Some(count)) => compare(seed, count, words.get(3)),
        (Some("programs"), Some(seed), Some(count)) => programs(seed, count.min(100_000)),
        (Some("selftest"), Some(seed), _) => selftest::run(library(), seed),
        (Some("bench"), Some(seed), _) => {
            measure::run(library(), seed, words.get(2).map(String::as_str));
            Ok(())
        }
        _ => Err("usage: run.sh compare [seed] [count] [kind] | programs [seed] [count] | selftest [seed] | bench [seed] [section] | cases".to_string()),
    };
    match done {
        Ok(()) => ExitCode::SUCCESS,
        Err(text) => {
            println!("{text}");
            ExitCode::FAILURE
        }
    }
}
