//! The model's own judge and stepper, and the project's programs beside them.

use crate::generator::*;
use crate::model::*;
use std::fs;
use std::io::{self, Read, Write};
use std::path::{Path, PathBuf};
use std::process::{Command, Stdio};

const BLOCK: usize = 1 << 16;

/// Answers that wait to be written; a block at a time.
struct Out<W: Write> {
    text: Vec<u8>,
    to: W,
}

impl<W: Write> Out<W> {
    fn new(to: W) -> Out<W> {
        Out { text: Vec::with_capacity(BLOCK + 256), to }
    }

    fn flush_full(&mut self) -> io::Result<()> {
        if self.text.len() >= BLOCK {
            self.flush()?;
        }
        Ok(())
    }

    fn flush(&mut self) -> io::Result<()> {
        self.to.write_all(&self.text)?;
        self.text.clear();
        Ok(())
    }
}

/// How the shown run is found: by the place alone, as the library does, or by rounds and moments.
#[derive(Clone, Copy)]
pub enum Shown {
    ByPlaces,
    ByRounds,
}

pub fn judge(file: &[u8], shown: Shown, to: impl Write) -> io::Result<()> {
    let mut out = Out::new(to);
    match Plan::read(file) {
        Err(number) => put_refused(&mut out.text, number),
        Ok(plan) => {
            put_verdict(&mut out.text, &plan, &plan.verdict());
            if let Some(parts) = plan.parts() {
                let end = match shown {
                    Shown::ByPlaces => shown_by_places(&plan, &parts, &mut out)?,
                    Shown::ByRounds => shown_by_rounds(&plan, &parts, &mut out)?,
                };
                put_out(&mut out.text, plan.out_of_step(&end).expect("a shown run ends out of step"));
            }
        }
    }
    out.flush()
}

fn shown_by_places(plan: &Plan, parts: &Parts, out: &mut Out<impl Write>) -> io::Result<Run> {
    let mut place = Place::fresh();
    while let Some(step) = plan.show(parts, &mut place) {
        put_step(&mut out.text, step);
        out.flush_full()?;
    }
    Ok(place.run)
}

fn shown_by_rounds(plan: &Plan, parts: &Parts, out: &mut Out<impl Write>) -> io::Result<Run> {
    let mut done = Ok(());
    let end = plan.show_by_rounds(parts, &mut |step| {
        put_step(&mut out.text, step);
        if done.is_ok() {
            done = out.flush_full();
        }
    });
    done.map(|()| end)
}

pub fn stepper(file: &[u8], from: impl Read, to: impl Write) -> io::Result<()> {
    let mut out = Out::new(to);
    match Plan::read(file) {
        Err(number) => put_refused(&mut out.text, number),
        Ok(plan) => answer_lines(&plan, from, &mut out)?,
    }
    out.flush()
}

/// The run, moved on line by line, and the answers to them.
struct Desk<'a, W: Write> {
    plan: &'a Plan,
    run: Run,
    out: &'a mut Out<W>,
}

impl<W: Write> Desk<'_, W> {
    fn answer(&mut self, line: &[u8]) -> io::Result<()> {
        let step = read_line(line);
        put_answer(&mut self.out.text, step.and_then(|step| self.plan.step_in_range(&mut self.run, step)));
        self.out.flush_full()
    }
}

fn answer_lines(plan: &Plan, mut from: impl Read, out: &mut Out<impl Write>) -> io::Result<()> {
    let mut desk = Desk { plan, run: Run::fresh(), out };
    let mut block = vec![0; BLOCK];
    let mut begun = Vec::new();
    loop {
        let length = from.read(&mut block)?;
        if length == 0 {
            break;
        }
        for piece in block[..length].split_inclusive(|&byte| byte == b'\n') {
            let ends = piece.ends_with(b"\n");
            if ends && begun.is_empty() {
                desk.answer(piece)?;
                continue;
            }
            begun.extend_from_slice(piece);
            if ends {
                desk.answer(&begun)?;
                begun.clear();
            }
        }
    }
    if begun.is_empty() {
        return Ok(());
    }
    desk.answer(&begun)
}

// The project's programs

/// Where a file of the repository is.
pub fn at_home(name: &str) -> PathBuf {
    Path::new(env!("CARGO_MANIFEST_DIR")).join("..").join(name)
}

/// A folder for files that a comparison needs.
pub fn work_file(name: &str) -> PathBuf {
    let folder = Path::new(env!("CARGO_MANIFEST_DIR")).join("target").join("work");
    fs::create_dir_all(&folder).expect("a folder under target/");
    folder.join(name)
}

/// What a program writes, given its arguments and a file as its standard input.
pub fn written(program: &Path, arguments: &[&Path], stdin: &Path) -> Vec<u8> {
    let input = fs::File::open(stdin).expect("the input");
    let output = Command::new(program).args(arguments).stdin(input).stderr(Stdio::inherit()).output();
    output.unwrap_or_else(|error| panic!("{}: {error}", program.display())).stdout
}

fn some_lines(random: &mut Random, plan: &Plan) -> Vec<u8> {
    let mut run = Run::fresh();
    let mut text = Vec::new();
    let most = random.pick(&[3, 300, 3000]);
    for _ in 0..random.below(most) {
        match random.below(40) {
            0 => {
                let mut line = some_line(random);
                line.push(b'\n');
                text.extend(line);
            }
            n => {
                let step = if n < 5 { some_step(random, plan, &run) } else { likely_step(random, plan, &run) };
                let _ = plan.step(&mut run, step);
                put_step(&mut text, step);
            }
        }
    }
    if random.chance(10) {
        text.pop();
    }
    text
}

fn same(program: &str, theirs: &[u8], ours: &[u8], inputs: &[(&str, &[u8])]) -> Result<(), String> {
    if theirs == ours {
        return Ok(());
    }
    let at = theirs.iter().zip(ours).take_while(|(a, b)| a == b).count();
    let line = 1 + ours[..at].iter().filter(|byte| **byte == b'\n').count();
    let mut text = format!("{program} and the model write another line {line}");
    for (name, bytes) in inputs {
        text += &format!("\n  {name} {bytes:02x?}");
    }
    Err(text)
}

/// Counts what was compared: plans judged, lines of theirs, files of steps, lines of answers.
#[derive(Default)]
pub struct Compared {
    pub judged: u64,
    pub judged_lines: u64,
    pub stepped: u64,
    pub stepped_lines: u64,
}

fn lines_of(text: &[u8]) -> u64 {
    text.iter().filter(|byte| **byte == b'\n').count() as u64
}

pub fn compare(seed: u64, count: u64) -> Result<Compared, String> {
    let (judge_program, stepper_program) = (at_home("target/bin/judge"), at_home("target/bin/stepper"));
    let (plan_path, steps_path) = (work_file("plan.csp"), work_file("steps.txt"));
    let mut compared = Compared::default();
    for group in 0..count {
        let random = &mut Random::new(seed, group);
        let size = random.pick(&[TINY, SMALL, SMALL]);
        let file = if random.chance(70) { good_numbers(random, size).file() } else { damaged_plan(random, size) };
        fs::write(&plan_path, &file).expect("a plan file");
        let mut ours = Vec::new();
        judge(&file, Shown::ByPlaces, &mut ours).expect("memory");
        let theirs = written(&judge_program, &[], &plan_path);
        same("judge", &theirs, &ours, &[("plan", &file)])?;
        compared.judged += 1;
        compared.judged_lines += lines_of(&ours);
        let lines = match Plan::read(&file) {
            Ok(plan) => some_lines(random, &plan),
            Err(_) => some_line(random),
        };
        fs::write(&steps_path, &lines).expect("a file of steps");
        ours.clear();
        stepper(&file, &lines[..], &mut ours).expect("memory");
        let theirs = written(&stepper_program, &[&plan_path], &steps_path);
        same("stepper", &theirs, &ours, &[("plan", &file), ("lines", &lines)])?;
        compared.stepped += 1;
        compared.stepped_lines += lines_of(&ours);
    }
    Ok(compared)
}
