//! Inputs by seed: plans, runs, places, steps and lines, good, damaged and random.

use crate::bytes::{write_run, write_step};
use crate::calls::*;
use crate::model::*;

/// SplitMix64.
pub struct Random(u64);

impl Random {
    pub fn new(seed: u64, stream: u64) -> Random {
        let mut random = Random(seed ^ stream.wrapping_mul(0xD1B5_4A32_D192_ED03));
        random.any();
        random
    }

    pub fn any(&mut self) -> u64 {
        self.0 = self.0.wrapping_add(0x9E37_79B9_7F4A_7C15);
        let mixed = (self.0 ^ (self.0 >> 30)).wrapping_mul(0xBF58_476D_1CE4_E5B9);
        let mixed = (mixed ^ (mixed >> 27)).wrapping_mul(0x94D0_49BB_1331_11EB);
        mixed ^ (mixed >> 31)
    }

    /// 0 to n − 1; 0 for n = 0.
    pub fn below(&mut self, n: u32) -> u32 {
        (((self.any() >> 32) * n as u64) >> 32) as u32
    }

    pub fn between(&mut self, low: u32, high: u32) -> u32 {
        low + self.below(high - low + 1)
    }

    pub fn chance(&mut self, percent: u32) -> bool {
        self.below(100) < percent
    }

    pub fn pick<T: Copy>(&mut self, of: &[T]) -> T {
        of[self.below(of.len() as u32) as usize]
    }

    pub fn bytes(&mut self, length: usize) -> Vec<u8> {
        (0..length).map(|_| self.any() as u8).collect()
    }
}

// Plans

/// A plan by its numbers, good or not, before it is a file.
#[derive(Clone, Debug)]
pub struct Numbers {
    pub nodes: u8,
    pub frame: u16,
    pub active: u16,
    pub ticks: u8,
    pub guard: u8,
    pub tail: u8,
    pub min: u32,
    pub max: u32,
    pub slots: Vec<u16>,
}

impl Numbers {
    pub fn file(&self) -> Vec<u8> {
        let mut file = b"CSP\0\x01".to_vec();
        file.push(self.nodes);
        file.extend(self.frame.to_be_bytes());
        file.extend(self.active.to_be_bytes());
        file.extend([self.ticks, self.guard, self.tail]);
        file.extend(self.min.to_be_bytes());
        file.extend(self.max.to_be_bytes());
        for slot in &self.slots {
            file.extend(slot.to_be_bytes());
        }
        file
    }
}

/// How large a plan may be.
#[derive(Clone, Copy)]
pub struct Size {
    pub nodes: u32,
    pub frame: u32,
    pub ticks: u32,
}

pub const SMALL: Size = Size { nodes: 8, frame: 24, ticks: 14 };
pub const CROWDED: Size = Size { nodes: 32, frame: 40, ticks: 7 };
pub const TINY: Size = Size { nodes: 5, frame: 8, ticks: 8 };

pub fn some_size(random: &mut Random) -> Size {
    let upper = |random: &mut Random, sizes: &[u32]| random.pick(sizes);
    Size {
        nodes: upper(random, &[3, 4, 5, 10, 32, 32]),
        frame: upper(random, &[3, 8, 32, 64, 300, 4096, 4096]),
        ticks: upper(random, &[4, 5, 8, 16, 40, 255, 255]),
    }
}

/// N different slots below n, one of them 0, in some order.
fn sending_slots(random: &mut Random, nodes: u32, active: u32) -> Vec<u16> {
    let mut slots: Vec<u16> = match random.below(4) {
        0 => (0..nodes as u16).collect(),
        1 => (0..nodes).map(|i| (i * (active / nodes)) as u16).collect(),
        _ => {
            let mut slots = vec![0u16];
            while slots.len() < nodes as usize {
                let slot = random.below(active) as u16;
                if !slots.contains(&slot) {
                    slots.push(slot);
                }
            }
            slots
        }
    };
    if random.chance(70) {
        for i in (1..slots.len()).rev() {
            slots.swap(i, random.below(i as u32 + 1) as usize);
        }
    }
    slots
}

/// min and max: equal, on or beside the edge of a rule, or anything.
fn times(random: &mut Random, plan: &Numbers) -> (u32, u32) {
    let biggest = random.pick(&[1, 3, 20, 100, 5000, MAX_TIME, MAX_TIME]);
    let max = random.between(1, biggest);
    match random.below(6) {
        0 => (max, max),
        1 => (random.between(1, max), max),
        2 => (max - max.min(random.below(3)).min(max - 1), max),
        _ => on_an_edge(random, plan, max),
    }
}

/// The two sides' factors of a rule: of max and of min.
fn factors(plan: &Numbers, rule: u32) -> (u64, u64) {
    let mut order = plan.slots.clone();
    order.sort();
    let inside = order.windows(2).map(|pair| pair[1] - pair[0]).max().unwrap_or(0);
    let m = inside.max(plan.frame - order[order.len() - 1]) as u64;
    let (k0, g, t) = (plan.ticks as u64, plan.guard as u64, plan.tail as u64);
    match rule {
        1 => (m * k0 - g, m * k0 - 1),
        2 => (m * k0, (m + 1) * k0 - g - 2),
        _ => (k0 - g - t, k0 - g - 1),
    }
}

fn on_an_edge(random: &mut Random, plan: &Numbers, max: u32) -> (u32, u32) {
    let rule = random.between(1, 3);
    let (of_max, of_min) = factors(plan, rule);
    let most = MAX_TIME as u64 / of_min;
    if random.chance(50) && most > 0 && of_max <= of_min {
        let times = random.between(1, most.min(50) as u32) as u64;
        return ((of_max * times) as u32, (of_min * times) as u32);
    }
    let edge = (of_max * max as u64).div_ceil(of_min) as i64 + random.between(0, 2) as i64 - 1;
    (edge.clamp(1, max as i64) as u32, max)
}

pub fn good_numbers(random: &mut Random, size: Size) -> Numbers {
    let nodes = random.between(3, size.nodes.max(3));
    let frame = random.between(nodes, size.frame.max(nodes));
    let frame = if random.chance(10) { size.frame.max(nodes) } else { frame };
    let active = match random.below(3) {
        0 => nodes,
        1 => frame,
        _ => random.between(nodes, frame),
    };
    let ticks = random.between(4, size.ticks.max(4));
    let guard = match random.below(3) {
        0 => ticks - 3,
        1 => 1,
        _ => random.between(1, ticks - 3),
    };
    let tail = match random.below(3) {
        0 => ticks - 2 - guard,
        _ => random.between(1, ticks - 2 - guard),
    };
    let mut plan = Numbers {
        nodes: nodes as u8,
        frame: frame as u16,
        active: active as u16,
        ticks: ticks as u8,
        guard: guard as u8,
        tail: tail as u8,
        min: 1,
        max: 1,
        slots: sending_slots(random, nodes, active),
    };
    (plan.min, plan.max) = times(random, &plan);
    plan
}

/// One number that lies outside its range, or just on its edge.
fn damage_number(random: &mut Random, plan: &mut Numbers) {
    let node = random.below(plan.slots.len() as u32) as usize;
    let other = random.below(plan.slots.len() as u32) as usize;
    match random.below(13) {
        0 => {
            plan.nodes = random.pick(&[0, 1, 2, 3, 32, 33, 34, 64, 255]);
            if random.chance(70) {
                plan.slots.resize(plan.nodes as usize, 0);
            }
        }
        1 => plan.frame = random.pick(&[0, 1, 2, 3, 4096, 4097, 65535]),
        2 => plan.active = random.pick(&[0, 1, plan.frame, plan.frame.wrapping_add(1), 65535]),
        3 => plan.ticks = random.pick(&[0, 1, 2, 3, 4, 5, 255]),
        4 => plan.guard = random.pick(&[0, plan.guard.wrapping_add(1), plan.ticks, 255]),
        5 => plan.tail = random.pick(&[0, plan.tail.wrapping_add(1), plan.ticks, 255]),
        6 => plan.min = random.pick(&[0, plan.max, plan.max.wrapping_add(1), u32::MAX]),
        7 => plan.max = random.pick(&[0, plan.min.wrapping_sub(1), 2_000_000, 2_000_001, u32::MAX]),
        8 => plan.slots[node] = random.pick(&[plan.active, plan.active.wrapping_sub(1), plan.frame, 65535]),
        9 => plan.slots[node] = plan.slots[other],
        10 => plan.active = plan.active.max(1) - 1,
        11 => {
            let free = (1..plan.active).find(|slot| !plan.slots.contains(slot)).unwrap_or(1);
            for slot in plan.slots.iter_mut().filter(|slot| **slot == 0) {
                *slot = free;
            }
        }
        _ => plan.slots[node] = random.any() as u16,
    }
}

pub fn damaged_plan(random: &mut Random, size: Size) -> Vec<u8> {
    let mut plan = good_numbers(random, size);
    damage_number(random, &mut plan);
    if random.chance(25) && !plan.slots.is_empty() {
        damage_number(random, &mut plan);
    }
    plan.file()
}

/// A file that was cut, lengthened or flipped.
fn damaged_file(random: &mut Random, size: Size) -> Vec<u8> {
    let mut file = good_numbers(random, size).file();
    let at = random.below(file.len() as u32) as usize;
    match random.below(6) {
        0 => file.truncate(at),
        1 => {
            let more = random.pick(&[1, 2, 3, 64, 5000]);
            file.extend(random.bytes(more));
        }
        2 => file[at] ^= 1 << random.below(8),
        3 => file[at] = random.any() as u8,
        4 => {
            let head = random.below(6) as usize;
            file[head] ^= 1 << random.below(8);
        }
        _ => file.truncate(random.below(24) as usize),
    }
    file
}

/// Bytes that are random from some place on, of any length or of the one that N asks for.
fn random_file(random: &mut Random) -> Vec<u8> {
    let length = random.below(100) as usize;
    let mut file = random.bytes(length);
    let head = b"CSP\0\x01";
    let keep = random.pick(&[0, 3, 5, 5, 5]).min(file.len());
    file[..keep].copy_from_slice(&head[..keep]);
    if file.len() > 5 && random.chance(70) {
        file[5] = random.between(0, 34) as u8;
        let whole = 21 + 2 * file[5] as usize;
        let more = random.bytes(whole);
        file.extend(more);
        file.truncate(whole);
    }
    file
}

pub fn some_plan(random: &mut Random) -> Vec<u8> {
    let size = some_size(random);
    match random.below(20) {
        0..=10 => good_numbers(random, size).file(),
        11..=15 => damaged_plan(random, size),
        16..=18 => damaged_file(random, size),
        _ => random_file(random),
    }
}

pub fn good_plan(random: &mut Random, size: Size) -> Plan {
    Plan::read(&good_numbers(random, size).file()).expect("a good plan")
}

// Runs

/// A step that is likely to be done: a send, a due tick, or a delay that no node is past.
pub fn likely_step(random: &mut Random, plan: &Plan, run: &Run) -> Step {
    let nodes = &run.nodes[..plan.nodes];
    if let Some(i) = nodes.iter().position(|node| node.mode == Mode::AboutToSend) {
        return Step::Send(i as u32);
    }
    let first = random.below(plan.nodes as u32) as usize;
    let from_first = (0..plan.nodes).map(|i| (first + i) % plan.nodes);
    if let Some(i) = from_first.into_iter().find(|&i| nodes[i].time >= plan.min) {
        if random.chance(85) || nodes[i].time == plan.max {
            return Step::Tick(i as u32);
        }
    }
    let longest = nodes.iter().map(|node| node.time).max().unwrap_or(0);
    let room = plan.max - longest;
    let whole = plan.min.saturating_sub(longest).max(1).min(room);
    Step::Delay(if random.chance(70) { whole } else { random.between(room.min(1), room) })
}

pub fn reached_run(random: &mut Random, plan: &Plan, steps: u32) -> Run {
    let mut run = Run::fresh();
    for _ in 0..steps {
        let step = likely_step(random, plan, &run);
        let _ = plan.step_in_range(&mut run, step);
    }
    run
}

fn some_clock(random: &mut Random, plan: &Plan) -> u8 {
    let (k0, g, t) = (plan.ticks, plan.guard, plan.tail);
    match random.below(8) {
        0..=2 => g - 1,
        3 => k0 - 1,
        4 => k0 - t - 1,
        5 => random.pick(&[0, g, g + 1, k0 - 2, k0 - t, k0 - t - 2]).min(k0 - 1),
        _ => random.below(k0 as u32) as u8,
    }
}

fn some_slot(random: &mut Random, plan: &Plan) -> u16 {
    match random.below(4) {
        0 | 1 => plan.slots[random.below(plan.nodes as u32) as usize],
        2 => random.pick(&[plan.active - 1, plan.active.min(plan.frame - 1), plan.frame - 1]),
        _ => random.below(plan.frame as u32) as u16,
    }
}

fn some_time(random: &mut Random, plan: &Plan) -> u32 {
    let (min, max) = (plan.min, plan.max);
    let near = random.pick(&[0, 1, min - 1, min, min + 1, max - 1, max]).min(max);
    match random.below(3) {
        0 => near,
        1 => random.below(min + 1),
        _ => random.below(max + 1),
    }
}

/// A run whose numbers are all in range; most are in step.
pub fn run_in_range(random: &mut Random, plan: &Plan) -> Run {
    let mut run = Run::fresh();
    let together = random.chance(75).then(|| some_slot(random, plan));
    let time = random.chance(50).then(|| some_time(random, plan));
    let about_to_send = random.pick(&[0, 0, 5, 30]);
    let sending = random.pick(&[0, 10, 40]);
    for i in 0..plan.nodes {
        let slot = if random.chance(20) { plan.slots[i] } else { some_slot(random, plan) };
        let mode = match random.below(100) {
            n if n < about_to_send => Mode::AboutToSend,
            n if n < about_to_send + sending => Mode::Sending,
            _ => Mode::Waiting,
        };
        run.nodes[i] = Node {
            clock: some_clock(random, plan),
            slot: together.unwrap_or(slot),
            time: if random.chance(80) { time } else { None }.unwrap_or_else(|| some_time(random, plan)),
            mode,
            pending: random.chance(30),
        };
    }
    run.last = random.chance(70).then(|| some_slot(random, plan));
    if random.chance(40) {
        run.last = run.last.map(|_| run.nodes[0].slot);
    }
    run
}

pub fn some_run(random: &mut Random, plan: &Plan) -> Run {
    match random.below(10) {
        0 => Run::fresh(),
        1..=3 => {
            let steps = random.below(150);
            reached_run(random, plan, steps)
        }
        _ => run_in_range(random, plan),
    }
}

/// The bytes of a run; where the run leaves bytes unwritten they are random.
pub fn run_bytes(random: &mut Random, plan: &Plan, run: &Run) -> Vec<u8> {
    let mut bytes = random.bytes(RUN_BYTES);
    write_run(plan, run, &mut bytes);
    if run.last.is_none() && random.chance(50) {
        let slot = random.bytes(2);
        bytes[289..291].copy_from_slice(&slot);
    }
    bytes
}

/// A number of the run put outside its range or on its edge, or a byte that spells no mode or mark.
pub fn damage_run(random: &mut Random, plan: &Plan, bytes: &mut [u8]) {
    let node = 9 * random.below(plan.nodes as u32) as usize;
    let slot = random.pick(&[plan.frame, plan.frame - 1, 4096, 65535]).to_be_bytes();
    let time = random.pick(&[plan.max, plan.max + 1, 2_000_001, 1 << 31, u32::MAX]).to_be_bytes();
    let wrong = random.pick(&[2, 3, 4, 127, 128, 254, 255]);
    match random.below(8) {
        0 => bytes[node] = random.pick(&[plan.ticks, plan.ticks - 1, 255]),
        1 => bytes[node + 1..node + 3].copy_from_slice(&slot),
        2 => bytes[node + 3..node + 7].copy_from_slice(&time),
        3 => bytes[node + 7] = wrong,
        4 => bytes[node + 8] = wrong,
        5 => bytes[288] = wrong,
        6 => {
            bytes[288] = 1;
            bytes[289..291].copy_from_slice(&slot);
        }
        _ => {
            let at = random.below(RUN_BYTES as u32) as usize;
            bytes[at] = random.any() as u8;
        }
    }
}

/// Bytes of a run or a place of another length than it has.
pub fn another_length(random: &mut Random, bytes: &mut Vec<u8>) {
    match random.below(4) {
        0 => bytes.clear(),
        1 => bytes.truncate(bytes.len() - 1),
        2 => bytes.push(0),
        _ => {
            let length = random.below(1000) as usize;
            bytes.resize(length, 0);
        }
    }
}

// Steps

fn some_node(random: &mut Random, plan: &Plan) -> u32 {
    let nodes = plan.nodes as u32;
    match random.below(10) {
        0 => random.pick(&[nodes, nodes + 1, 31, 32, 33, 255, 256, 1 << 31, (1 << 31) + 1, u32::MAX]),
        1 => random.any() as u32,
        _ => random.below(nodes),
    }
}

fn some_delay(random: &mut Random, plan: &Plan, run: &Run) -> u32 {
    let longest = run.nodes[..plan.nodes].iter().map(|node| node.time).max().unwrap_or(0);
    let room = plan.max.wrapping_sub(longest);
    match random.below(5) {
        0 => random.pick(&[0, 1, plan.min, plan.max, plan.max + 1, u32::MAX, u32::MAX - longest, 1 << 31]),
        1 => random.pick(&[room, room.wrapping_add(1), room.wrapping_sub(1)]),
        2 => 0u32.wrapping_sub(longest),
        _ => random.below(room.saturating_add(1).max(2)),
    }
}

pub fn some_step(random: &mut Random, plan: &Plan, run: &Run) -> Step {
    match random.below(10) {
        0..=2 => likely_step(random, plan, run),
        3..=5 => Step::Delay(some_delay(random, plan, run)),
        6 | 7 => Step::Tick(some_node(random, plan)),
        _ => Step::Send(some_node(random, plan)),
    }
}

pub fn step_bytes(step: Step) -> [u8; STEP_BYTES] {
    let mut bytes = [0; STEP_BYTES];
    write_step(step, &mut bytes);
    bytes
}

// Places

/// A place with times that are mostly not past due, and any mark.
pub fn place_in_range(random: &mut Random, plan: &Plan) -> Place {
    let mut run = run_in_range(random, plan);
    let mark = random.pick(&[Mark::Before, Mark::In, Mark::After]);
    let fast = plan.parts().map_or(0, |parts| parts.fast);
    if random.chance(85) {
        for (i, node) in run.nodes[..plan.nodes].iter_mut().enumerate() {
            let due = if mark == Mark::After && i != fast { plan.max } else { plan.min };
            node.time = if random.chance(40) { due } else { node.time.min(due) };
        }
    }
    if random.chance(40) {
        let wait = random.below(plan.min.min(3) + 1);
        for node in run.nodes[..plan.nodes].iter_mut() {
            node.time = node.time.saturating_sub(wait);
            if node.mode == Mode::AboutToSend {
                node.mode = Mode::Waiting;
            }
        }
    }
    Place { run, mark }
}

// Lines

fn some_number(random: &mut Random) -> String {
    match random.below(8) {
        0 => random.pick(&["4294967294", "4294967295", "4294967296", "4294967297", "42949672950"]).to_string(),
        1 => random.pick(&["18446744073709551615", "18446744073709551616", "18446744073709551617"]).to_string(),
        2 => format!("{}{}", 1 + random.below(9), "0".repeat(random.below(60) as usize)),
        3 => "0".to_string(),
        4 => (random.any() as u32).to_string(),
        5 => (random.any() >> random.below(64)).to_string(),
        _ => random.below(100).to_string(),
    }
}

fn damage_line(random: &mut Random, line: &mut Vec<u8>) {
    let at = random.below(line.len() as u32 + 1) as usize;
    let byte = random.pick(b"\r\n\0\t +-0019DTSdts:/.,;");
    match random.below(7) {
        0 | 1 => line.insert(at, byte),
        2 if at < line.len() => line[at] = byte,
        3 if at < line.len() => drop(line.remove(at)),
        4 => line.truncate(at),
        5 if at < line.len() => line[at] = random.any() as u8,
        _ => line.insert(line.len().min(2), b'0'),
    }
}

/// A line, mostly with its newline at the end.
pub fn some_line(random: &mut Random) -> Vec<u8> {
    if random.chance(8) {
        let length = random.below(40) as usize;
        return random.bytes(length);
    }
    let mut line = vec![random.pick(b"DTS"), b' '];
    line.extend(some_number(random).bytes());
    line.push(b'\n');
    if random.chance(45) {
        damage_line(random, &mut line);
        if random.chance(20) {
            damage_line(random, &mut line);
        }
    }
    line
}
