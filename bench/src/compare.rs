//! Two sides given the same inputs: every answer and every byte of every lent buffer must be equal.

use crate::bytes::read_run;
use crate::calls::*;
use crate::generator::*;
use crate::model::{Place, Plan, Run, Step};
use std::fmt::{self, Write};

// Inputs

/// A buffer that is lent: its bytes between margins that no call may touch.
#[derive(Clone, PartialEq, Eq)]
struct Lent(Vec<u8>);

const MARGIN: usize = 16;

impl Lent {
    fn new(bytes: &[u8]) -> Lent {
        let mut whole = vec![0xA5; bytes.len() + 2 * MARGIN];
        whole[MARGIN..MARGIN + bytes.len()].copy_from_slice(bytes);
        Lent(whole)
    }

    fn bytes(&self) -> &[u8] {
        &self.0[MARGIN..self.0.len() - MARGIN]
    }

    fn bytes_mut(&mut self) -> &mut [u8] {
        let end = self.0.len() - MARGIN;
        &mut self.0[MARGIN..end]
    }
}

#[derive(Clone, Copy, Debug, PartialEq, Eq)]
enum Call {
    Judge,
    Fresh,
    FreshPlace,
    Step,
    Steps,
    OutOfStep,
    Reckon,
    Next,
    Line,
}

/// One call with all that it is given. `state` is the run, place or line, `out` the buffer for its answer.
#[derive(Clone, PartialEq, Eq)]
struct Input {
    call: Call,
    plan: Lent,
    state: Lent,
    steps: Lent,
    letter: u8,
    number: u32,
    out: Lent,
}

impl Input {
    fn new(call: Call, plan: &[u8], state: &[u8], out: &[u8]) -> Input {
        let (plan, state, out) = (Lent::new(plan), Lent::new(state), Lent::new(out));
        Input { call, plan, state, steps: Lent::new(&[]), letter: 0, number: 0, out }
    }

    fn answer(&mut self, side: &dyn Calls) -> u8 {
        let (plan, steps) = (self.plan.bytes(), self.steps.bytes());
        let (state, out) = (self.state.bytes_mut(), self.out.bytes_mut());
        match self.call {
            Call::Judge => side.judge(plan, out),
            Call::Fresh => side.fresh(state),
            Call::FreshPlace => side.fresh_place(state),
            Call::Step => side.step(plan, state, self.letter, self.number),
            Call::Steps => side.steps(plan, state, steps, out),
            Call::OutOfStep => side.out_of_step(plan, state, out),
            Call::Reckon => side.reckon(plan, state, self.number, out),
            Call::Next => side.next(plan, state, out),
            Call::Line => side.line(state, out),
        }
    }
}

fn hex(bytes: &[u8]) -> String {
    bytes.iter().fold(String::new(), |mut text, byte| {
        let _ = write!(text, "{byte:02x}");
        text
    })
}

impl fmt::Display for Input {
    fn fmt(&self, f: &mut fmt::Formatter) -> fmt::Result {
        writeln!(f, "  call   {:?}, letter {}, number {}", self.call, self.letter, self.number)?;
        writeln!(f, "  plan   {}", hex(self.plan.bytes()))?;
        writeln!(f, "  state  {}", hex(self.state.bytes()))?;
        writeln!(f, "  steps  {}", hex(self.steps.bytes()))?;
        write!(f, "  out    {}", hex(self.out.bytes()))
    }
}

// Comparing

/// What an input is a sample of.
#[derive(Clone, Copy, Debug, PartialEq, Eq)]
pub enum Kind {
    Plans,
    Runs,
    Steps,
    RowsOfSteps,
    Reckoning,
    Places,
    ShownRuns,
    Lines,
    Fresh,
}

pub const KINDS: [Kind; 9] = [
    Kind::Plans,
    Kind::Runs,
    Kind::Steps,
    Kind::RowsOfSteps,
    Kind::Reckoning,
    Kind::Places,
    Kind::ShownRuns,
    Kind::Lines,
    Kind::Fresh,
];

pub struct Difference {
    pub kind: Kind,
    pub group: u64,
    pub text: String,
}

/// Two sides, and how often each answer came for each kind of input.
pub struct Comparison<'a> {
    left: &'a dyn Calls,
    right: &'a dyn Calls,
    kind: Kind,
    pub answers: [[u64; 256]; KINDS.len()],
    /// Answers to single steps inside a row, which the row's own answer doesn't tell.
    pub in_rows: [u64; 256],
    /// Verdicts by outcome, and shown runs that were followed to their end, by the rule that fails.
    pub outcomes: [u64; 4],
    pub whole_runs: [u64; 4],
}

impl<'a> Comparison<'a> {
    pub fn new(left: &'a dyn Calls, right: &'a dyn Calls) -> Comparison<'a> {
        Comparison {
            left,
            right,
            kind: Kind::Plans,
            answers: [[0; 256]; KINDS.len()],
            in_rows: [0; 256],
            outcomes: [0; 4],
            whole_runs: [0; 4],
        }
    }

    pub fn inputs(&self, kind: Kind) -> u64 {
        self.answers[kind as usize].iter().sum()
    }

    /// Gives both sides the input; their answer and the input as they left it.
    fn same(&mut self, input: &Input) -> Result<(u8, Input), String> {
        let (mut left, mut right) = (input.clone(), input.clone());
        let (left_answer, right_answer) = (left.answer(self.left), right.answer(self.right));
        self.answers[self.kind as usize][left_answer as usize] += 1;
        if left_answer != right_answer || left != right {
            return Err(format!(
                "given\n{input}\nleft answers {left_answer}\n{left}\nright answers {right_answer}\n{right}"
            ));
        }
        if left_answer != 0 && left != *input {
            return Err(format!(
                "given\n{input}\nboth answer {left_answer}, which is no 0, and change what was lent\n{left}"
            ));
        }
        Ok((left_answer, left))
    }

    /// Compares at least `count` inputs of one kind; each group of inputs has its own stream of random numbers.
    pub fn kind(&mut self, kind: Kind, seed: u64, count: u64) -> Result<(), Difference> {
        self.kind = kind;
        let mut group = 0;
        while self.inputs(kind) < count {
            let random = &mut Random::new(seed, group * KINDS.len() as u64 + kind as u64);
            let done = match kind {
                Kind::Plans => self.plans(random),
                Kind::Runs => self.runs(random),
                Kind::Steps => self.steps(random),
                Kind::RowsOfSteps => self.rows(random),
                Kind::Reckoning => self.reckonings(random),
                Kind::Places => self.places(random),
                Kind::ShownRuns => self.shown_runs(random),
                Kind::Lines => self.lines(random),
                Kind::Fresh => self.fresh(random),
            };
            done.map_err(|text| Difference { kind, group, text })?;
            group += 1;
        }
        Ok(())
    }

    fn plans(&mut self, random: &mut Random) -> Result<(), String> {
        let plan = some_plan(random);
        let out = out_bytes(random, VERDICT_BYTES);
        let (answer, after) = self.same(&Input::new(Call::Judge, &plan, &[], &out))?;
        if answer == 0 {
            self.outcomes[after.out.bytes()[0] as usize % 4] += 1;
        }
        Ok(())
    }

    fn runs(&mut self, random: &mut Random) -> Result<(), String> {
        let (plan, file) = plan_and_file(random);
        for _ in 0..8 {
            let state = some_state(random, &plan);
            let out = out_bytes(random, OUT_BYTES);
            self.same(&Input::new(Call::OutOfStep, &file, &state, &out))?;
        }
        Ok(())
    }

    fn steps(&mut self, random: &mut Random) -> Result<(), String> {
        let (plan, file) = plan_and_file(random);
        for _ in 0..4 {
            let mut state = some_state(random, &plan);
            for _ in 0..random.between(1, 8) {
                let asked = asked_step(random, &plan, &state);
                let mut input = Input::new(Call::Step, &file, &state, &[]);
                (input.letter, input.number) = (asked[0], u32::from_be_bytes([asked[1], asked[2], asked[3], asked[4]]));
                state = self.same(&input)?.1.state.bytes().to_vec();
            }
        }
        Ok(())
    }

    fn rows(&mut self, random: &mut Random) -> Result<(), String> {
        let (plan, file) = plan_and_file(random);
        for _ in 0..4 {
            let state = some_state(random, &plan);
            let steps = row_of_steps(random, &plan, &state);
            let out = out_bytes(random, steps.len() / STEP_BYTES);
            let mut input = Input::new(Call::Steps, &file, &state, &out);
            input.steps = Lent::new(&steps);
            let (answer, after) = self.same(&input)?;
            if answer == 0 {
                after.out.bytes().iter().for_each(|&answer| self.in_rows[answer as usize] += 1);
            }
        }
        Ok(())
    }

    fn reckonings(&mut self, random: &mut Random) -> Result<(), String> {
        let (plan, file) = plan_and_file(random);
        for _ in 0..4 {
            let state = some_state(random, &plan);
            for _ in 0..2 {
                let out = out_bytes(random, TICKS_BYTES);
                let mut input = Input::new(Call::Reckon, &file, &state, &out);
                input.number = match random.below(8) {
                    0 => random.pick(&[plan.nodes as u32, 31, 32, 33, 256, 1 << 31, u32::MAX]),
                    _ => random.below(plan.nodes as u32),
                };
                self.same(&input)?;
            }
        }
        Ok(())
    }

    fn places(&mut self, random: &mut Random) -> Result<(), String> {
        let (plan, file) = plan_and_file(random);
        for _ in 0..8 {
            let mut state = some_place(random, &plan);
            for _ in 0..random.between(1, 4) {
                let out = out_bytes(random, STEP_BYTES);
                let (answer, after) = self.same(&Input::new(Call::Next, &file, &state, &out))?;
                state = after.state.bytes().to_vec();
                if answer != 0 {
                    break;
                }
            }
        }
        Ok(())
    }

    /// A shown run from its fresh place to its end: each step that is given is also asked as a step and must do the same.
    fn shown_runs(&mut self, random: &mut Random) -> Result<(), String> {
        let size = random.pick(&[TINY, TINY, TINY, TINY, TINY, SMALL, SMALL, CROWDED]);
        let file = good_numbers(random, size).file();
        let judged = self.same(&Input::new(Call::Judge, &file, &[], &[0; VERDICT_BYTES]))?.1;
        let rule = judged.out.bytes()[0] as usize;
        let filled = random.bytes(PLACE_BYTES);
        let mut state = self.same(&Input::new(Call::FreshPlace, &[], &filled, &[]))?.1.state.bytes().to_vec();
        let mut steps = 0u64;
        loop {
            let out = random.bytes(STEP_BYTES);
            let (answer, after) = self.same(&Input::new(Call::Next, &file, &state, &out))?;
            if answer == FINISHED {
                break;
            }
            let mut input = Input::new(Call::Step, &file, &state[..RUN_BYTES], &[]);
            let given = after.out.bytes();
            (input.letter, input.number) = (given[0], u32::from_be_bytes([given[1], given[2], given[3], given[4]]));
            let (answer, stepped) = self.same(&input)?;
            state = after.state.bytes().to_vec();
            if answer != 0 || stepped.state.bytes() != &state[..RUN_BYTES] {
                return Err(format!(
                    "the step that is shown is another than the step that is done\n{after}\n{stepped}"
                ));
            }
            steps += 1;
        }
        let out = random.bytes(OUT_BYTES);
        let (_, after) = self.same(&Input::new(Call::OutOfStep, &file, &state[..RUN_BYTES], &out))?;
        if (after.out.bytes()[0] == 1) != (rule > 0) || (steps > 0) != (rule > 0) {
            return Err(format!("a plan with outcome {rule} has a shown run of {steps} steps, which ends\n{after}"));
        }
        self.whole_runs[rule] += 1;
        Ok(())
    }

    fn lines(&mut self, random: &mut Random) -> Result<(), String> {
        let line = some_line(random);
        let out = out_bytes(random, STEP_BYTES);
        self.same(&Input::new(Call::Line, &[], &line, &out)).map(drop)
    }

    fn fresh(&mut self, random: &mut Random) -> Result<(), String> {
        let run = out_bytes(random, RUN_BYTES);
        self.same(&Input::new(Call::Fresh, &[], &run, &[]))?;
        let place = out_bytes(random, PLACE_BYTES);
        self.same(&Input::new(Call::FreshPlace, &[], &place, &[])).map(drop)
    }
}

// Parts of inputs

/// A buffer to be written: random bytes, sometimes of another length.
fn out_bytes(random: &mut Random, length: usize) -> Vec<u8> {
    let mut bytes = random.bytes(length);
    if length > 0 && random.chance(2) {
        another_length(random, &mut bytes);
    }
    bytes
}

/// A plan for making inputs, and the file that is handed in: mostly that plan's, sometimes a damaged one.
fn plan_and_file(random: &mut Random) -> (Plan, Vec<u8>) {
    let size = match random.below(4) {
        0 => some_size(random),
        1 => SMALL,
        _ => TINY,
    };
    let numbers = good_numbers(random, size);
    let plan = Plan::read(&numbers.file()).expect("a good plan");
    let file = match random.below(25) {
        0 => some_plan(random),
        1 => damaged_plan(random, size),
        _ => numbers.file(),
    };
    (plan, file)
}

fn damage_state(random: &mut Random, plan: &Plan, bytes: &mut Vec<u8>) {
    match random.below(40) {
        0..=4 => damage_run(random, plan, bytes),
        5 => *bytes = random.bytes(bytes.len()),
        6 => another_length(random, bytes),
        _ => {}
    }
}

fn some_state(random: &mut Random, plan: &Plan) -> Vec<u8> {
    let run = some_run(random, plan);
    let mut bytes = run_bytes(random, plan, &run);
    damage_state(random, plan, &mut bytes);
    bytes
}

fn some_place(random: &mut Random, plan: &Plan) -> Vec<u8> {
    let place = match (plan.parts(), random.below(4)) {
        (Some(parts), 0) => {
            let mut place = Place::fresh();
            let most = random.pick(&[10, 100, 1000]);
            for _ in 0..random.below(most) {
                plan.show(&parts, &mut place);
            }
            place
        }
        _ => place_in_range(random, plan),
    };
    let mut bytes = run_bytes(random, plan, &place.run);
    bytes.push(place.mark as u8);
    if random.chance(2) {
        bytes[RUN_BYTES] = random.pick(&[3, 4, 255]);
    }
    damage_state(random, plan, &mut bytes);
    bytes
}

/// The run that bytes spell, to make a step for it; a fresh one where they spell none.
fn spelt(plan: &Plan, bytes: &[u8]) -> Run {
    let whole = bytes.len() >= RUN_BYTES;
    whole.then(|| read_run(plan, bytes)).flatten().unwrap_or(Run::fresh())
}

fn with_letter(random: &mut Random, step: Step) -> [u8; STEP_BYTES] {
    let mut bytes = step_bytes(step);
    if random.chance(2) {
        bytes[0] = random.pick(b"dts\0 UCR\xC4");
    }
    bytes
}

fn asked_step(random: &mut Random, plan: &Plan, state: &[u8]) -> [u8; STEP_BYTES] {
    let step = some_step(random, plan, &spelt(plan, state));
    with_letter(random, step)
}

/// Steps in a row, most of them likely to be done.
fn row_of_steps(random: &mut Random, plan: &Plan, state: &[u8]) -> Vec<u8> {
    let mut run = spelt(plan, state);
    let longest = random.pick(&[0, 1, 5, 50]);
    let likely = random.pick(&[50, 90, 100]);
    let mut steps = Vec::new();
    for _ in 0..random.between(0, longest) {
        let step = if random.chance(likely) { likely_step(random, plan, &run) } else { some_step(random, plan, &run) };
        let _ = plan.step(&mut run, step);
        steps.extend(with_letter(random, step));
    }
    if random.chance(2) {
        steps.push(0);
    }
    steps
}
