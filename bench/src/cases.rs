//! The test programs' cases made again: from `data/cases` of `plan_cases`, `step_cases` and `shown_cases` come the plan files
//! that it tells and the lines that the program must write. Every answer is the model's; no program of the project, and
//! nothing proved, has a part in it.

use crate::model::*;
use crate::programs::{judge, Shown};
use std::fmt::Display;
use std::fs;
use std::path::Path;
use std::str::FromStr;

/// A node of a place that a case tells nothing of, out of every range.
const SPARE: Node = Node { time: u32::MAX, slot: u16::MAX, clock: u8::MAX, mode: Mode::Sending, pending: true };

/// A case: its name, and after the last colon its parts, with a bar between them: what is asked, the numbers of a plan, its
/// slots, the slot of the last message, and a part for each node.
struct Case<'a> {
    name: &'a str,
    parts: Vec<&'a str>,
}

type Answers = fn(&Case) -> Result<Vec<u8>, String>;

fn number<T: FromStr>(word: &str) -> Result<T, String> {
    word.parse().map_err(|_| format!("{word:?} is no number, or too large here"))
}

impl<'a> Case<'a> {
    fn read(line: &'a str) -> Result<Case<'a>, String> {
        let (name, parts) = line.rsplit_once(':').ok_or("no colon")?;
        Ok(Case { name, parts: parts.split('|').map(str::trim).collect() })
    }

    fn words(&self, part: usize) -> Result<Vec<&'a str>, String> {
        let part = self.parts.get(part).ok_or(format!("no part {part}"))?;
        Ok(part.split(' ').collect())
    }

    /// The numbers of a part; `none` has none.
    fn numbers<T: FromStr>(&self, part: usize) -> Result<Vec<T>, String> {
        match self.words(part)?.as_slice() {
            ["none"] => Ok(Vec::new()),
            words => words.iter().map(|word| number(word)).collect(),
        }
    }

    fn plan(&self) -> Result<Plan, String> {
        let [nodes, frame, active, ticks, guard, tail, min, max] = self.words(1)?[..] else {
            return Err("a plan has eight numbers".to_string());
        };
        let told: Vec<u16> = self.numbers(2)?;
        let mut slots = [u16::MAX; PLACES];
        slots.iter_mut().zip(told).for_each(|(slot, told)| *slot = told);
        Ok(Plan {
            nodes: number::<u32>(nodes)? as usize,
            frame: number(frame)?,
            active: number(active)?,
            ticks: number(ticks)?,
            guard: number(guard)?,
            tail: number(tail)?,
            min: number(min)?,
            max: number(max)?,
            slots,
        })
    }

    fn node(&self, part: usize) -> Result<Node, String> {
        let [clock, slot, time, mode, pending] = self.words(part)?[..] else {
            return Err("a node has five numbers".to_string());
        };
        let mode = match mode {
            "0" => Mode::Waiting,
            "1" => Mode::AboutToSend,
            "2" => Mode::Sending,
            _ => return Err(format!("{mode} is no mode")),
        };
        let pending = match pending {
            "0" => false,
            "1" => true,
            _ => return Err(format!("pending is 0 or 1, not {pending}")),
        };
        Ok(Node { time: number(time)?, slot: number(slot)?, clock: number(clock)?, mode, pending })
    }

    fn run(&self) -> Result<Run, String> {
        let mut run = Run { nodes: [SPARE; PLACES], last: self.numbers(3)?.first().copied() };
        for part in 4..self.parts.len() {
            *run.nodes.get_mut(part - 4).ok_or("more than 32 nodes")? = self.node(part)?;
        }
        Ok(run)
    }

    fn asks_for_file(&self) -> bool {
        self.parts[0].starts_with("file")
    }

    /// The plan file that the case tells, cut or filled with zeros to a length where it gives one; none for `file none`.
    fn file(&self) -> Result<Option<Vec<u8>>, String> {
        let [_, mark, version] = self.words(0)?[..] else {
            return if self.parts == ["file none"] {
                Ok(None)
            } else {
                Err("a file has a mark and a version".to_string())
            };
        };
        let plan = self.plan()?;
        let slots: Vec<u16> = self.numbers(2)?;
        let mut file = mark.as_bytes().to_vec();
        file.extend(number::<u16>(version)?.to_be_bytes());
        file.push(plan.nodes.try_into().map_err(|_| "a file has no room for that N")?);
        file.extend([plan.frame, plan.active].iter().flat_map(|n| n.to_be_bytes()));
        file.extend([plan.ticks, plan.guard, plan.tail]);
        file.extend([plan.min, plan.max].iter().flat_map(|n| n.to_be_bytes()));
        file.extend(slots.iter().flat_map(|n| n.to_be_bytes()));
        if self.parts.len() > 3 {
            let ["length", length] = self.words(3)?[..] else {
                return Err("after the slots of a file stands its length, or nothing".to_string());
            };
            file.resize(number(length)?, 0);
        }
        Ok(Some(file))
    }

    // What the programs must write

    /// `plan_cases`: what the reader makes of a file, or what refusals 1 to 9 say of a plan.
    fn plan_line(&self) -> Result<Vec<u8>, String> {
        if !self.asks_for_file() {
            let number = self.plan()?.tested().err().unwrap_or(0);
            return Ok(format!("{} number {number}\n", self.name).into_bytes());
        }
        let told = match Plan::read(&self.file()?.unwrap_or_default()) {
            Err(number) => format!("refused {number}"),
            Ok(plan) => {
                let Plan { nodes, frame, active, ticks, guard, tail, min, max, slots } = plan;
                let slots = slots.map(|slot| slot.to_string()).join(" ");
                format!(
                    "taken nodes {nodes} frame {frame} active {active} ticks {ticks} guard {guard} tail {tail} \
                     min {min} max {max} slots {slots}"
                )
            }
        };
        Ok(format!("{} {told}\n", self.name).into_bytes())
    }

    /// `step_cases`: a step's answer and some places after it; what the out-of-step test and a reckoning say before it.
    fn step_lines(&self) -> Result<Vec<u8>, String> {
        let (plan, before) = (self.plan()?, self.run()?);
        let step = read_line(format!("{}\n", self.parts[0]).as_bytes()).map_err(|_| "no step is asked")?;
        let (Step::Delay(asked) | Step::Tick(asked) | Step::Send(asked)) = step;
        let tested = plan.tested();
        let mut after = before;
        let answer = tested.and_then(|()| plan.step(&mut after, step));
        let in_range = tested.and_then(|()| if plan.in_range(&before) { Ok(()) } else { Err(10) });
        let apart = in_range.map(|()| plan.out_of_step(&before));
        let reckoned = tested.and_then(|()| plan.reckon(&before, asked));
        let places: String = after.nodes[..4].iter().chain(&after.nodes[31..]).map(node_words).collect();
        let last = after.last.map_or("none sent".to_string(), |slot| format!("last {slot}"));
        let answer = told(answer.map(|()| "ok"), "");
        let apart = told(apart.map(|pair| pair.map_or("in step".to_string(), |(a, b)| format!("out {a} {b}"))), "");
        let reckoned = told(reckoned, "reckons ");
        Ok(format!("{}: {answer}{places}; {last}\n  {apart}, {reckoned}\n", self.name).into_bytes())
    }

    /// `shown_cases`: what the judging program writes of a file, or the next shown step at a place.
    fn shown_lines(&self) -> Result<Vec<u8>, String> {
        if self.asks_for_file() {
            let mut text = format!("plan {}\n", self.name).into_bytes();
            judge(&self.file()?.unwrap_or_default(), Shown::ByRounds, &mut text).map_err(|error| error.to_string())?;
            return Ok(text);
        }
        let mark = match self.parts[0] {
            "before" => Mark::Before,
            "in" => Mark::In,
            "after" => Mark::After,
            other => return Err(format!("{other:?} is no mark")),
        };
        let (plan, mut place) = (self.plan()?, Place { run: self.run()?, mark });
        let in_range = plan.tested().and_then(|()| if plan.in_range(&place.run) { Ok(()) } else { Err(10) });
        let mut step = Vec::new();
        match in_range.map(|()| plan.parts().and_then(|parts| plan.show(&parts, &mut place))) {
            Err(number) => put_refused(&mut step, number),
            Ok(Some(given)) => put_step(&mut step, given),
            Ok(None) => step.extend_from_slice(b"finished\n"),
        }
        let mut text = format!("{}: {} to {}, ", self.name, self.parts[0], mark_word(place.mark)).into_bytes();
        text.append(&mut step);
        Ok(text)
    }
}

fn told<T: Display>(answer: Result<T, u8>, word: &str) -> String {
    match answer {
        Ok(answer) => format!("{word}{answer}"),
        Err(number) => format!("refused {number}"),
    }
}

fn node_words(node: &Node) -> String {
    let mode = match node.mode {
        Mode::Waiting => "waiting",
        Mode::AboutToSend => "about",
        Mode::Sending => "sending",
    };
    let pending = if node.pending { " pending" } else { "" };
    format!("; {} {} {} {mode}{pending}", node.clock, node.slot, node.time)
}

fn mark_word(mark: Mark) -> &'static str {
    match mark {
        Mark::Before => "before",
        Mark::In => "in",
        Mark::After => "after",
    }
}

/// Writes the plan files and the expected output of one crate.
fn make(krate: &Path, answers: Answers) -> Result<(), String> {
    let data = krate.join("data");
    let list = fs::read_to_string(data.join("cases")).map_err(|error| error.to_string())?;
    let mut stdout = Vec::new();
    let mut files = vec!["cases".to_string()];
    for (number, line) in (1..).zip(list.lines()) {
        let in_line = |error: String| format!("{}: line {number}: {error}", krate.display());
        let case = Case::read(line).map_err(in_line)?;
        stdout.append(&mut answers(&case).map_err(in_line)?);
        let file = if case.asks_for_file() { case.file().map_err(in_line)? } else { None };
        if let Some(file) = file {
            fs::write(data.join(case.name), file).map_err(|error| in_line(error.to_string()))?;
            files.push(case.name.to_string());
        }
    }
    for entry in fs::read_dir(&data).map_err(|error| error.to_string())? {
        let name = entry.map_err(|error| error.to_string())?.file_name().to_string_lossy().into_owned();
        if !files.contains(&name) {
            return Err(format!("{}: no case tells the file {name}", data.display()));
        }
    }
    fs::write(krate.join("stdout"), &stdout).map_err(|error| error.to_string())?;
    println!("{}: {} cases, {} plan files", krate.display(), list.lines().count(), files.len() - 1);
    Ok(())
}

pub fn make_all() -> Result<(), String> {
    let crates = Path::new("crates");
    make(&crates.join("plan_cases"), |case| case.plan_line())?;
    make(&crates.join("step_cases"), |case| case.step_lines())?;
    make(&crates.join("shown_cases"), |case| case.shown_lines())
}
