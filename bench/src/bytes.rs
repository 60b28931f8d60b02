//! The model behind the same calls on bytes that the library offers.

use super::model::{self, Mark, Mode, Node, Place, Plan, Run, Step, PLACES};
use crate::calls::*;

const NODE_BYTES: usize = 9;
const LAST_AT: usize = PLACES * NODE_BYTES;
const MARK_AT: usize = RUN_BYTES;
/// Bytes that spell no run count as a number outside its range.
const OUTSIDE: u8 = 10;

fn word(bytes: &[u8]) -> u16 {
    u16::from_be_bytes([bytes[0], bytes[1]])
}

fn long(bytes: &[u8]) -> u32 {
    u32::from_be_bytes([bytes[0], bytes[1], bytes[2], bytes[3]])
}

fn read_flag(byte: u8) -> Option<bool> {
    match byte {
        0 => Some(false),
        1 => Some(true),
        _ => None,
    }
}

fn read_node(bytes: &[u8; NODE_BYTES]) -> Option<Node> {
    let mode = match bytes[7] {
        0 => Mode::Waiting,
        1 => Mode::AboutToSend,
        2 => Mode::Sending,
        _ => return None,
    };
    Some(Node {
        clock: bytes[0],
        slot: word(&bytes[1..3]),
        time: long(&bytes[3..7]),
        mode,
        pending: read_flag(bytes[8])?,
    })
}

/// The run that bytes spell, if its numbers are in range. Places from N on are fresh.
pub fn read_run(plan: &Plan, bytes: &[u8]) -> Option<Run> {
    let mut run = Run::fresh();
    let (places, _) = bytes[..LAST_AT].as_chunks::<NODE_BYTES>();
    for (node, place) in run.nodes[..plan.nodes].iter_mut().zip(places) {
        *node = read_node(place)?;
    }
    if read_flag(bytes[LAST_AT])? {
        run.last = Some(word(&bytes[LAST_AT + 1..]));
    }
    plan.in_range(&run).then_some(run)
}

fn write_node(node: &Node, bytes: &mut [u8; NODE_BYTES]) {
    bytes[0] = node.clock;
    bytes[1..3].copy_from_slice(&node.slot.to_be_bytes());
    bytes[3..7].copy_from_slice(&node.time.to_be_bytes());
    bytes[7] = node.mode as u8;
    bytes[8] = node.pending as u8;
}

/// Writes the first N places and the last message; every other byte stays.
pub fn write_run(plan: &Plan, run: &Run, bytes: &mut [u8]) {
    let (places, last) = bytes.split_at_mut(LAST_AT);
    let (places, _) = places.as_chunks_mut::<NODE_BYTES>();
    for (node, place) in run.nodes[..plan.nodes].iter().zip(places) {
        write_node(node, place);
    }
    last[0] = run.last.is_some() as u8;
    last[1..3].copy_from_slice(&run.last.unwrap_or(0).to_be_bytes());
}

pub fn read_step(letter: u8, number: u32) -> Result<Step, u8> {
    match letter {
        b'D' => Ok(Step::Delay(number)),
        b'T' => Ok(Step::Tick(number)),
        b'S' => Ok(Step::Send(number)),
        _ => Err(19),
    }
}

pub fn write_step(step: Step, bytes: &mut [u8]) {
    let (letter, number) = match step {
        Step::Delay(number) => (b'D', number),
        Step::Tick(number) => (b'T', number),
        Step::Send(number) => (b'S', number),
    };
    bytes[0] = letter;
    bytes[1..5].copy_from_slice(&number.to_be_bytes());
}

fn expect(lengths: &[(usize, usize)]) -> Result<(), u8> {
    if lengths.iter().all(|(length, asked)| length == asked) {
        Ok(())
    } else {
        Err(WRONG_LENGTH)
    }
}

fn number(done: Result<(), u8>) -> u8 {
    done.err().unwrap_or(0)
}

fn judge(plan: &[u8], bytes: &mut [u8]) -> Result<(), u8> {
    expect(&[(bytes.len(), VERDICT_BYTES)])?;
    let verdict = Plan::read(plan)?.verdict();
    bytes[0] = verdict.failed().unwrap_or(0);
    bytes[1..3].copy_from_slice(&verdict.gap.to_be_bytes());
    let (sides, _) = bytes[3..].as_chunks_mut::<16>();
    for (bytes, (left, right)) in sides.iter_mut().zip(verdict.rules) {
        bytes[..8].copy_from_slice(&left.to_be_bytes());
        bytes[8..].copy_from_slice(&right.to_be_bytes());
    }
    Ok(())
}

fn step(plan: &[u8], bytes: &mut [u8], letter: u8, number: u32) -> Result<(), u8> {
    expect(&[(bytes.len(), RUN_BYTES)])?;
    let plan = Plan::read(plan)?;
    let step = read_step(letter, number)?;
    let mut run = read_run(&plan, bytes).ok_or(OUTSIDE)?;
    plan.step_in_range(&mut run, step)?;
    write_run(&plan, &run, bytes);
    Ok(())
}

fn steps(plan: &[u8], bytes: &mut [u8], steps: &[u8], answers: &mut [u8]) -> Result<(), u8> {
    expect(&[(bytes.len(), RUN_BYTES), (steps.len(), STEP_BYTES * answers.len())])?;
    let plan = Plan::read(plan)?;
    let mut run = read_run(&plan, bytes).ok_or(OUTSIDE)?;
    let (steps, _) = steps.as_chunks::<STEP_BYTES>();
    for (answer, step) in answers.iter_mut().zip(steps) {
        *answer = number(read_step(step[0], long(&step[1..])).and_then(|step| plan.step_in_range(&mut run, step)));
    }
    write_run(&plan, &run, bytes);
    Ok(())
}

fn out_of_step(plan: &[u8], bytes: &[u8], answer: &mut [u8]) -> Result<(), u8> {
    expect(&[(bytes.len(), RUN_BYTES), (answer.len(), OUT_BYTES)])?;
    let plan = Plan::read(plan)?;
    let run = read_run(&plan, bytes).ok_or(OUTSIDE)?;
    answer.fill(0);
    if let Some((sender, elsewhere)) = plan.out_of_step(&run) {
        answer[0] = 1;
        answer[1..5].copy_from_slice(&sender.to_be_bytes());
        answer[5..9].copy_from_slice(&elsewhere.to_be_bytes());
    }
    Ok(())
}

fn reckon(plan: &[u8], bytes: &[u8], node: u32, ticks: &mut [u8]) -> Result<(), u8> {
    expect(&[(bytes.len(), RUN_BYTES), (ticks.len(), TICKS_BYTES)])?;
    let plan = Plan::read(plan)?;
    let run = read_run(&plan, bytes).ok_or(OUTSIDE)?;
    ticks.copy_from_slice(&plan.reckon(&run, node)?.to_be_bytes());
    Ok(())
}

fn next(plan: &[u8], bytes: &mut [u8], step: &mut [u8]) -> Result<(), u8> {
    expect(&[(bytes.len(), PLACE_BYTES), (step.len(), STEP_BYTES)])?;
    let plan = Plan::read(plan)?;
    let mark = match bytes[MARK_AT] {
        0 => Mark::Before,
        1 => Mark::In,
        2 => Mark::After,
        _ => return Err(OUTSIDE),
    };
    let run = read_run(&plan, bytes).ok_or(OUTSIDE)?;
    let parts = plan.parts().ok_or(FINISHED)?;
    let mut place = Place { run, mark };
    write_step(plan.show(&parts, &mut place).ok_or(FINISHED)?, step);
    write_run(&plan, &place.run, bytes);
    bytes[MARK_AT] = place.mark as u8;
    Ok(())
}

fn line(line: &[u8], step: &mut [u8]) -> Result<(), u8> {
    expect(&[(step.len(), STEP_BYTES)])?;
    write_step(model::read_line(line)?, step);
    Ok(())
}

fn fresh(bytes: &mut [u8], length: usize) -> Result<(), u8> {
    expect(&[(bytes.len(), length)])?;
    bytes.fill(0);
    Ok(())
}

pub struct Model;

// Never inlined, so that a loop over calls pays for each of them as it does for the library's.
impl Calls for Model {
    #[inline(never)]
    fn judge(&self, plan: &[u8], verdict: &mut [u8]) -> u8 {
        number(judge(plan, verdict))
    }

    #[inline(never)]
    fn fresh(&self, run: &mut [u8]) -> u8 {
        number(fresh(run, RUN_BYTES))
    }

    #[inline(never)]
    fn fresh_place(&self, place: &mut [u8]) -> u8 {
        number(fresh(place, PLACE_BYTES))
    }

    #[inline(never)]
    fn step(&self, plan: &[u8], run: &mut [u8], letter: u8, asked: u32) -> u8 {
        number(step(plan, run, letter, asked))
    }

    #[inline(never)]
    fn steps(&self, plan: &[u8], run: &mut [u8], asked: &[u8], answers: &mut [u8]) -> u8 {
        number(steps(plan, run, asked, answers))
    }

    #[inline(never)]
    fn out_of_step(&self, plan: &[u8], run: &[u8], answer: &mut [u8]) -> u8 {
        number(out_of_step(plan, run, answer))
    }

    #[inline(never)]
    fn reckon(&self, plan: &[u8], run: &[u8], node: u32, ticks: &mut [u8]) -> u8 {
        number(reckon(plan, run, node, ticks))
    }

    #[inline(never)]
    fn next(&self, plan: &[u8], place: &mut [u8], step: &mut [u8]) -> u8 {
        number(next(plan, place, step))
    }

    #[inline(never)]
    fn line(&self, text: &[u8], step: &mut [u8]) -> u8 {
        number(line(text, step))
    }
}
