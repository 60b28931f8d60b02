//! Benchmarks: the library and the model by turns in one process, the best of several rounds of each.

use crate::bytes::Model;
use crate::calls::*;
use crate::generator::*;
use crate::model::*;
use crate::programs::{at_home, work_file, written};
use std::fs;
use std::hint::black_box;
use std::path::{Path, PathBuf};
use std::process::{Command, Stdio};
use std::time::Instant;

const ROUNDS: usize = 25;
const PROGRAM_ROUNDS: usize = 9;
const NODES: [u32; 3] = [3, 10, 32];
const VERDICTS: usize = 512;
const STEPS: usize = 20_000;
const SHOWN_STEPS: usize = 500;

/// Each of them by turns, in slices of some milliseconds; the best time of each for one of `count` parts.
fn by_turns<const SIDES: usize>(rounds: usize, count: u64, mut sides: [&mut dyn FnMut(); SIDES]) -> [f64; SIDES] {
    let mut best = [f64::INFINITY; SIDES];
    for _ in 0..rounds {
        for (work, best) in sides.iter_mut().zip(&mut best) {
            let started = Instant::now();
            work();
            *best = best.min(started.elapsed().as_nanos() as f64 / count as f64);
        }
    }
    best
}

/// The library and the model by turns, on the same work.
fn both(count: u64, library: &dyn Calls, work: impl Fn(&dyn Calls)) -> [f64; 2] {
    by_turns(ROUNDS, count, [&mut || work(library), &mut || work(&Model)])
}

fn heading(what: &str, theirs: &str) {
    println!("\n{what}");
    println!(
        "  {:<30} {:>12} {:>12} {:>8} {:>14}",
        "",
        format!("{theirs} ns"),
        "model ns",
        "ratio",
        format!("{theirs}/s")
    );
}

fn print_row(name: &str, [theirs, ours]: [f64; 2]) {
    println!("  {name:<30} {theirs:>12.1} {ours:>12.1} {:>8.2} {:>14.0}", theirs / ours, 1e9 / theirs);
}

/// A plan with its slots spread at random over the whole frame. Its sides are those of an accepted plan unless g is 1.
fn spread(random: &mut Random, nodes: u32, frame: u32, guard: u8) -> Numbers {
    let mut slots = vec![0u16];
    while slots.len() < nodes as usize {
        let slot = random.below(frame) as u16;
        if !slots.contains(&slot) {
            slots.push(slot);
        }
    }
    let (min, max) = (999_990, 1_000_000);
    Numbers {
        nodes: nodes as u8,
        frame: frame as u16,
        active: frame as u16,
        ticks: 40,
        guard,
        tail: 10,
        min,
        max,
        slots,
    }
}

fn numbered(nodes: u32, frame: u32) -> String {
    format!("N = {nodes}, C = {frame}")
}

// The library's calls

fn verdicts(library: &dyn Calls, random: &mut Random) {
    heading("verdicts", "library");
    for nodes in NODES {
        for frame in [32, 128, 512, 1024, 2048, 4096] {
            let plans: Vec<Vec<u8>> = (0..64).map(|_| spread(random, nodes, frame, 10).file()).collect();
            let work = |side: &dyn Calls| {
                let mut verdict = [0; VERDICT_BYTES];
                for plan in plans.iter().cycle().take(VERDICTS) {
                    black_box(side.judge(black_box(plan), &mut verdict));
                    black_box(&verdict);
                }
            };
            print_row(&numbered(nodes, frame), both(VERDICTS as u64, library, work));
        }
    }
}

/// Legal steps of an accepted plan, from the fresh run on.
fn legal_steps(random: &mut Random, plan: &Plan, count: usize) -> Vec<Step> {
    let mut run = Run::fresh();
    let mut steps = Vec::with_capacity(count);
    while steps.len() < count {
        let step = likely_step(random, plan, &run);
        if plan.step(&mut run, step).is_ok() {
            steps.push(step);
        }
    }
    steps
}

fn stepped_plans(random: &mut Random, count: usize) -> Vec<(String, Vec<u8>, Vec<Step>)> {
    let mut plans = Vec::new();
    for nodes in NODES {
        for frame in [32, 512, 4096] {
            let file = spread(random, nodes, frame, 10).file();
            let plan = Plan::read(&file).expect("a good plan");
            plans.push((numbered(nodes, frame), file, legal_steps(random, &plan, count)));
        }
    }
    plans
}

fn steps(library: &dyn Calls, random: &mut Random) {
    heading("steps, one call each (plan and run are tested in each)", "library");
    for (name, file, steps) in &stepped_plans(random, STEPS) {
        let asked: Vec<(u8, u32)> = steps.iter().map(|&step| split(step)).collect();
        let work = |side: &dyn Calls| {
            let mut run = [0; RUN_BYTES];
            for &(letter, number) in &asked {
                assert_eq!(side.step(file, &mut run, letter, number), 0);
            }
        };
        print_row(name, both(STEPS as u64, library, work));
    }
}

fn rows(library: &dyn Calls, random: &mut Random) {
    heading("steps in rows of 1000 (plan and run are tested once a row)", "library");
    for (name, file, steps) in &stepped_plans(random, STEPS) {
        let asked: Vec<u8> = steps.iter().flat_map(|&step| step_bytes(step)).collect();
        let work = |side: &dyn Calls| {
            let mut run = [0; RUN_BYTES];
            let mut answers = [0; 1000];
            for row in asked.chunks_exact(1000 * STEP_BYTES) {
                assert_eq!(side.steps(file, &mut run, row, &mut answers), 0);
                assert!(answers.iter().all(|&answer| answer == 0));
            }
        };
        print_row(name, both(STEPS as u64, library, work));
    }
}

fn split(step: Step) -> (u8, u32) {
    let bytes = step_bytes(step);
    (bytes[0], u32::from_be_bytes([bytes[1], bytes[2], bytes[3], bytes[4]]))
}

fn questions(library: &dyn Calls, random: &mut Random) {
    heading("out of step, and reckoning (a run half way through 20000 steps)", "library");
    for nodes in NODES {
        let file = spread(random, nodes, 512, 10).file();
        let plan = Plan::read(&file).expect("a good plan");
        let mut state = Run::fresh();
        for step in legal_steps(random, &plan, 10_000) {
            let _ = plan.step(&mut state, step);
        }
        let run = run_bytes(random, &plan, &state);
        let out = |side: &dyn Calls| {
            let mut answer = [0; OUT_BYTES];
            for _ in 0..10_000 {
                black_box(side.out_of_step(&file, black_box(&run), &mut answer));
            }
        };
        print_row(&format!("out of step, {}", numbered(nodes, 512)), both(10_000, library, out));
        let reckon = |side: &dyn Calls| {
            let mut ticks = [0; TICKS_BYTES];
            for i in 0..10_000 {
                black_box(side.reckon(&file, black_box(&run), i % nodes, &mut ticks));
            }
        };
        print_row(&format!("reckoning, {}", numbered(nodes, 512)), both(10_000, library, reckon));
    }
}

fn shown_steps(library: &dyn Calls, random: &mut Random) {
    heading("shown steps, one call each (plan, parts and place are found in each)", "library");
    for nodes in NODES {
        for frame in [32, 512, 4096] {
            let file = spread(random, nodes, frame, 1).file();
            let work = |side: &dyn Calls| {
                let mut place = [0; PLACE_BYTES];
                let mut step = [0; STEP_BYTES];
                for _ in 0..SHOWN_STEPS {
                    if side.next(&file, &mut place, &mut step) == FINISHED {
                        place.fill(0);
                    }
                }
            };
            print_row(&numbered(nodes, frame), both(SHOWN_STEPS as u64, library, work));
        }
    }
}

fn lines(library: &dyn Calls, random: &mut Random) {
    heading("step lines read", "library");
    for (name, most) in [("numbers below 32", 32), ("numbers of any length", u32::MAX)] {
        let texts: Vec<Vec<u8>> = (0..1000)
            .map(|_| format!("{} {}\n", random.pick(&['D', 'T', 'S']), random.below(most)).into_bytes())
            .collect();
        let work = |side: &dyn Calls| {
            let mut step = [0; STEP_BYTES];
            for line in texts.iter().cycle().take(50_000) {
                black_box(side.line(black_box(line), &mut step));
            }
        };
        print_row(name, both(50_000, library, work));
    }
}

// The programs

fn run_once(program: &Path, arguments: &[&Path], stdin: &Path) {
    let input = fs::File::open(stdin).expect("the input");
    let status = Command::new(program).args(arguments).stdin(input).stdout(Stdio::null()).status();
    assert!(status.is_ok_and(|status| status.success()), "{} failed", program.display());
}

fn this_program() -> PathBuf {
    std::env::current_exe().expect("this program's path")
}

fn line_count(text: &[u8]) -> u64 {
    text.iter().filter(|byte| **byte == b'\n').count() as u64
}

/// Process start is paid by both: `nothing` shows how much of it there is.
fn stepper_program(random: &mut Random) {
    let (program, this) = (at_home("target/bin/stepper"), this_program());
    let (plan_path, steps_path) = (work_file("bench-plan.csp"), work_file("bench-steps.txt"));
    let model = Path::new("stepper-model");
    let count = 500_000;
    heading("the stepping program, for each line", "stepper");
    for (name, file, steps) in stepped_plans(random, count) {
        let mut text = Vec::new();
        steps.iter().for_each(|&step| put_step(&mut text, step));
        fs::write(&plan_path, &file).expect("a plan file");
        fs::write(&steps_path, &text).expect("a file of steps");
        let theirs = written(&program, &[&plan_path], &steps_path);
        assert!(theirs == written(&this, &[model, &plan_path], &steps_path), "another output");
        let mut run_theirs = || run_once(&program, &[&plan_path], &steps_path);
        let mut run_ours = || run_once(&this, &[model, &plan_path], &steps_path);
        let times = by_turns(PROGRAM_ROUNDS, count as u64, [&mut run_theirs, &mut run_ours]);
        print_row(&name, times);
    }
}

/// Beside the model by places, which finds each step as the library does, the model by rounds, which a program could do.
fn judge_program(random: &mut Random) {
    let (program, this) = (at_home("target/bin/judge"), this_program());
    heading("the judging program, for each line of the shown run", "judge");
    let mut plans = Vec::new();
    for (nodes, frame) in [(3, 512), (3, 4096), (10, 32), (10, 512), (10, 4096), (32, 512), (32, 4096)] {
        plans.push((numbered(nodes, frame), spread(random, nodes, frame, 1).file()));
    }
    for name in ["ten-rule-1", "large"] {
        plans.push((format!("plans/{name}.csp"), fs::read(at_home(&format!("plans/{name}.csp"))).expect("a plan")));
    }
    for (name, file) in plans {
        let path = work_file("bench-plan.csp");
        fs::write(&path, &file).expect("a plan file");
        let text = written(&program, &[], &path);
        let lines = line_count(&text);
        let [places, rounds] = [Path::new("judge-model"), Path::new("judge-model-by-rounds")];
        assert!(text == written(&this, &[places], &path) && text == written(&this, &[rounds], &path), "another output");
        let mut judge = || run_once(&program, &[], &path);
        let mut by_places = || run_once(&this, &[places], &path);
        let mut by_rounds = || run_once(&this, &[rounds], &path);
        let turns = if lines > 5_000_000 { 1 } else { PROGRAM_ROUNDS };
        let times = by_turns(turns, lines, [&mut judge, &mut by_places, &mut by_rounds]);
        print_row(&format!("{name} by places"), [times[0], times[1]]);
        print_row(&format!("{name} by rounds"), [times[0], times[2]]);
        println!("    {lines} lines");
    }
}

fn process_start(_: &mut Random) {
    let (program, this) = (at_home("target/bin/judge"), this_program());
    let path = work_file("empty");
    fs::write(&path, b"").expect("an empty file");
    let model = Path::new("judge-model");
    heading("process start: an empty plan judged", "judge");
    let mut judge = || run_once(&program, &[], &path);
    let mut ours = || run_once(&this, &[model], &path);
    let times = by_turns(100, 1, [&mut judge, &mut ours]);
    print_row("refused 20", times);
}

/// Every section, or the one that is named.
pub fn run(library: Option<&dyn Calls>, seed: u64, only: Option<&str>) {
    type OfLibrary = fn(&dyn Calls, &mut Random);
    type OfPrograms = fn(&mut Random);
    let of_library: [(&str, OfLibrary); 6] = [
        ("verdicts", verdicts),
        ("steps", steps),
        ("rows", rows),
        ("questions", questions),
        ("shown", shown_steps),
        ("lines", lines),
    ];
    let of_programs: [(&str, OfPrograms); 3] =
        [("start", process_start), ("stepper", stepper_program), ("judge", judge_program)];
    println!("best of {ROUNDS} rounds ({PROGRAM_ROUNDS} for programs); ratio above 1: slower than the model");
    let asked = |name: &str| only.is_none_or(|only| only == name);
    for (_, measure) in of_library.iter().filter(|(name, _)| asked(name)) {
        if let Some(library) = library {
            measure(library, &mut Random::new(seed, 0));
        }
    }
    for (_, measure) in of_programs.iter().filter(|(name, _)| asked(name)) {
        measure(&mut Random::new(seed, 0));
    }
}
