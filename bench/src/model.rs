//! A second reading of document 01, in plain Rust: plans, gap and rules, runs, reckoning, the shown run, and text.
//! It was written from the document and not from the crates. A refusal is `Err` with its number.

pub const PLACES: usize = 32;
pub const MAX_FRAME: u16 = 4096;
pub const MAX_TIME: u32 = 2_000_000;

// Plans

/// The numbers of a plan that was let through: N, C, n, k0, g, t, min, max and the sending slots.
#[derive(Clone, Copy, Debug, PartialEq, Eq)]
pub struct Plan {
    pub nodes: usize,
    pub frame: u16,
    pub active: u16,
    pub ticks: u8,
    pub guard: u8,
    pub tail: u8,
    pub min: u32,
    pub max: u32,
    pub slots: [u16; PLACES],
}

/// Both sides of each rule, and M.
#[derive(Clone, Copy, Debug, PartialEq, Eq)]
pub struct Verdict {
    pub gap: u16,
    pub rules: [(u64, u64); 3],
}

/// Two sending slots with none between them, and the number of slots from the first to the second.
#[derive(Clone, Copy)]
struct Stretch {
    gap: u16,
    from: u16,
    to: u16,
}

impl Verdict {
    /// The first rule that fails, 1 to 3.
    pub fn failed(&self) -> Option<u8> {
        (1..).zip(self.rules).find(|(_, (left, right))| left >= right).map(|(number, _)| number)
    }
}

impl Plan {
    pub fn read(file: &[u8]) -> Result<Plan, u8> {
        if file.len() < 5 || file[..3] != *b"CSP" {
            return Err(20);
        }
        if file[3..5] != [0, 1] {
            return Err(21);
        }
        if file.len() < 21 || file.len() != 21 + 2 * file[5] as usize {
            return Err(22);
        }
        let word = |at: usize| u16::from_be_bytes([file[at], file[at + 1]]);
        let long = |at: usize| u32::from_be_bytes([file[at], file[at + 1], file[at + 2], file[at + 3]]);
        let mut slots = [0; PLACES];
        for (slot, bytes) in slots.iter_mut().zip(file[21..].chunks_exact(2)) {
            *slot = u16::from_be_bytes([bytes[0], bytes[1]]);
        }
        let plan = Plan {
            nodes: file[5] as usize,
            frame: word(6),
            active: word(8),
            ticks: file[10],
            guard: file[11],
            tail: file[12],
            min: long(13),
            max: long(17),
            slots,
        };
        plan.tested().map(|()| plan)
    }

    /// Refusals 1 to 9.
    pub fn tested(&self) -> Result<(), u8> {
        if !(3..=PLACES).contains(&self.nodes) {
            return Err(1);
        }
        if !(3..=MAX_FRAME).contains(&self.frame) {
            return Err(2);
        }
        if self.active == 0 || self.active > self.frame {
            return Err(3);
        }
        if self.ticks < 4 {
            return Err(4);
        }
        if self.guard == 0 || self.tail == 0 || self.guard as u16 + self.tail as u16 + 2 > self.ticks as u16 {
            return Err(5);
        }
        if self.min == 0 || self.min > self.max || self.max > MAX_TIME {
            return Err(6);
        }
        self.slots_tested()
    }

    /// Refusals 7 to 9.
    fn slots_tested(&self) -> Result<(), u8> {
        let slots = &self.slots[..self.nodes];
        if slots.iter().any(|&slot| slot >= self.active) {
            return Err(7);
        }
        let mut taken = [0u64; MAX_FRAME as usize / 64];
        for &slot in slots {
            let (word, bit) = (&mut taken[slot as usize / 64], 1 << (slot % 64));
            if *word & bit != 0 {
                return Err(8);
            }
            *word |= bit;
        }
        if taken[0] & 1 == 0 {
            return Err(9);
        }
        Ok(())
    }

    // Gap and rules

    /// The widest stretch between a sending slot and its predecessor; of several, the one that begins first.
    fn widest(&self) -> Stretch {
        let mut slots = self.slots;
        let order = &mut slots[..self.nodes];
        order.sort_unstable();
        let (first, last) = (order[0], order[order.len() - 1]);
        let round = Stretch { gap: self.frame - last + first, from: last, to: first };
        let mut widest = Stretch { gap: 0, from: 0, to: 0 };
        for pair in order.windows(2) {
            let gap = pair[1] - pair[0];
            if gap > widest.gap {
                widest = Stretch { gap, from: pair[0], to: pair[1] };
            }
        }
        if round.gap > widest.gap {
            round
        } else {
            widest
        }
    }

    pub fn verdict(&self) -> Verdict {
        let gap = self.widest().gap;
        let (m, k0, g, t) = (gap as u64, self.ticks as u64, self.guard as u64, self.tail as u64);
        let (min, max) = (self.min as u64, self.max as u64);
        Verdict {
            gap,
            rules: [
                ((m * k0 - g) * max, (m * k0 - 1) * min),
                (m * k0 * max, ((m + 1) * k0 - g - 2) * min),
                ((k0 - g - t) * max, (k0 - g - 1) * min),
            ],
        }
    }
}

// Runs

#[derive(Clone, Copy, Debug, PartialEq, Eq)]
pub enum Mode {
    Waiting,
    AboutToSend,
    Sending,
}

#[derive(Clone, Copy, Debug, PartialEq, Eq)]
pub struct Node {
    pub time: u32,
    pub slot: u16,
    pub clock: u8,
    pub mode: Mode,
    pub pending: bool,
}

#[derive(Clone, Copy, Debug, PartialEq, Eq)]
pub struct Run {
    pub nodes: [Node; PLACES],
    pub last: Option<u16>,
}

#[derive(Clone, Copy, Debug, PartialEq, Eq)]
pub enum Step {
    Delay(u32),
    Tick(u32),
    Send(u32),
}

impl Run {
    pub fn fresh() -> Run {
        let node = Node { time: 0, slot: 0, clock: 0, mode: Mode::Waiting, pending: false };
        Run { nodes: [node; PLACES], last: None }
    }
}

impl Plan {
    fn nodes<'a>(&self, run: &'a Run) -> &'a [Node] {
        &run.nodes[..self.nodes]
    }

    fn nodes_mut<'a>(&self, run: &'a mut Run) -> &'a mut [Node] {
        &mut run.nodes[..self.nodes]
    }

    pub fn in_range(&self, run: &Run) -> bool {
        let node_in_range = |node: &Node| node.clock < self.ticks && node.slot < self.frame && node.time <= self.max;
        self.nodes(run).iter().all(node_in_range) && run.last.is_none_or(|slot| slot < self.frame)
    }

    /// A node is sending and some node has another slot number.
    pub fn is_out_of_step(&self, run: &Run) -> bool {
        let nodes = self.nodes(run);
        let mut sending = false;
        let mut apart = false;
        for node in nodes {
            sending |= node.mode == Mode::Sending;
            apart |= node.slot != nodes[0].slot;
        }
        sending && apart
    }

    /// The lowest sending node with a node elsewhere, and the lowest such node.
    pub fn out_of_step(&self, run: &Run) -> Option<(u32, u32)> {
        let nodes = self.nodes(run);
        nodes.iter().enumerate().filter(|(_, node)| node.mode == Mode::Sending).find_map(|(a, sender)| {
            let b = nodes.iter().position(|node| node.slot != sender.slot)?;
            Some((a as u32, b as u32))
        })
    }

    pub fn step(&self, run: &mut Run, step: Step) -> Result<(), u8> {
        if !self.in_range(run) {
            return Err(10);
        }
        self.step_in_range(run, step)
    }

    /// A step of a run that 10 lets through. A step that is refused changes nothing; one that is done keeps the range.
    pub fn step_in_range(&self, run: &mut Run, step: Step) -> Result<(), u8> {
        if self.is_out_of_step(run) {
            return Err(11);
        }
        self.moved(run, step)
    }

    /// The step itself, of a run in range and in step.
    fn moved(&self, run: &mut Run, step: Step) -> Result<(), u8> {
        match step {
            Step::Delay(length) => self.delay(run, length),
            Step::Tick(node) => self.tick(run, node as usize),
            Step::Send(node) => self.send(run, node as usize),
        }
    }

    fn delay(&self, run: &mut Run, length: u32) -> Result<(), u8> {
        let nodes = self.nodes_mut(run);
        let mut about_to_send = false;
        let mut longest = 0;
        for node in nodes.iter() {
            about_to_send |= node.mode == Mode::AboutToSend;
            longest = node.time.max(longest);
        }
        if about_to_send {
            return Err(15);
        }
        if length == 0 || length > self.max - longest {
            return Err(14);
        }
        for node in nodes {
            node.time += length;
        }
        Ok(())
    }

    /// Its next tick makes the node about to send.
    fn tick_calls(&self, node: &Node, number: usize) -> bool {
        node.mode == Mode::Waiting && node.slot == self.slots[number] && node.clock == self.guard - 1
    }

    fn tick(&self, run: &mut Run, number: usize) -> Result<(), u8> {
        let node = self.nodes_mut(run).get_mut(number).ok_or(12)?;
        if node.time < self.min {
            return Err(13);
        }
        let before = *node;
        node.time = 0;
        if before.pending {
            node.clock = self.guard + 1;
            node.pending = false;
        } else if before.clock == self.ticks - 1 {
            node.clock = 0;
        } else {
            node.clock += 1;
        }
        if self.tick_calls(&before, number) {
            node.mode = Mode::AboutToSend;
        } else if before.mode == Mode::Sending && before.clock == self.ticks - self.tail - 1 {
            node.mode = Mode::Waiting;
        } else if before.mode == Mode::Waiting && before.clock == self.ticks - 1 {
            node.slot = if before.slot == self.frame - 1 { 0 } else { before.slot + 1 };
        }
        Ok(())
    }

    fn send(&self, run: &mut Run, number: usize) -> Result<(), u8> {
        let nodes = self.nodes_mut(run);
        let sender = nodes.get_mut(number).ok_or(12)?;
        if sender.mode != Mode::AboutToSend {
            return Err(16);
        }
        sender.mode = Mode::Sending;
        let (slot, pending) = (sender.slot, sender.pending);
        for node in nodes.iter_mut() {
            node.pending |= node.slot < self.active;
        }
        nodes[number].pending = pending;
        run.last = Some(slot);
        Ok(())
    }

    pub fn reckon(&self, run: &Run, number: u32) -> Result<u32, u8> {
        if !self.in_range(run) {
            return Err(10);
        }
        let node = self.nodes(run).get(number as usize).ok_or(12)?;
        let Some(last) = run.last else {
            return Ok(node.clock as u32);
        };
        if node.pending {
            return Ok(0);
        }
        if node.slot == last && node.clock < self.guard {
            return Err(17);
        }
        let slots = (node.slot as u32 + self.frame as u32 - last as u32) % self.frame as u32;
        Ok(slots * self.ticks as u32 + node.clock as u32 - self.guard as u32)
    }
}

// The shown run, by places

#[derive(Clone, Copy, Debug, PartialEq, Eq)]
pub enum Mark {
    Before,
    In,
    After,
}

#[derive(Clone, Copy, Debug, PartialEq, Eq)]
pub struct Place {
    pub run: Run,
    pub mark: Mark,
}

/// Who plays which part in the run shown for a failed rule: the sender of p, and the fast node.
#[derive(Clone, Copy, Debug, PartialEq, Eq)]
pub struct Parts {
    pub sender: usize,
    pub fast: usize,
}

impl Place {
    pub fn fresh() -> Place {
        Place { run: Run::fresh(), mark: Mark::Before }
    }
}

impl Plan {
    /// The parts for the first rule that fails; none for an accepted plan.
    pub fn parts(&self) -> Option<Parts> {
        let rule = self.verdict().failed()?;
        let widest = self.widest();
        let pivot = if rule == 3 { 0 } else { widest.from };
        let slots = &self.slots[..self.nodes];
        let fast = slots.iter().position(|&slot| match rule {
            1 => slot == widest.to,
            2 => slot != widest.from && slot != widest.to,
            _ => slot != pivot,
        })?;
        let sender = slots.iter().position(|&slot| slot == pivot)?;
        Some(Parts { sender, fast })
    }

    /// The time since tick at which a node is due.
    fn due(&self, parts: &Parts, mark: Mark, number: usize) -> u32 {
        if mark == Mark::After && number != parts.fast {
            self.max
        } else {
            self.min
        }
    }

    /// The node that ticks now, where some node is due.
    fn due_first(&self, parts: &Parts, place: &Place) -> Option<usize> {
        let nodes = self.nodes(&place.run);
        let due = |&i: &usize| nodes[i].time == self.due(parts, place.mark, i);
        let all = 0..self.nodes;
        match place.mark {
            Mark::Before => {
                let quiet = |&i: &usize| due(&i) && !self.tick_calls(&nodes[i], i);
                all.clone().find(quiet).or_else(|| all.clone().find(due))
            }
            Mark::In => {
                let other = |&i: &usize| due(&i) && i != parts.sender && i != parts.fast;
                all.clone().find(other).or_else(|| [parts.sender, parts.fast].into_iter().find(due))
            }
            Mark::After => Some(parts.fast).filter(due).or_else(|| all.clone().find(due)),
        }
    }

    /// The next shown step of a place that 10 lets through, by the place alone; none where the run has finished.
    pub fn next_shown(&self, parts: &Parts, place: &Place) -> Option<Step> {
        let mut calling = None;
        let mut wait = u32::MAX;
        for (i, node) in self.nodes(&place.run).iter().enumerate() {
            wait = wait.min(self.due(parts, place.mark, i).checked_sub(node.time)?);
            if node.mode == Mode::AboutToSend && calling.is_none() {
                calling = Some(Step::Send(i as u32));
            }
        }
        if self.is_out_of_step(&place.run) {
            return None;
        }
        if calling.is_some() {
            return calling;
        }
        if wait > 0 {
            return Some(Step::Delay(wait));
        }
        self.due_first(parts, place).map(|i| Step::Tick(i as u32))
    }

    /// Gives the next shown step and moves the place on.
    pub fn show(&self, parts: &Parts, place: &mut Place) -> Option<Step> {
        let step = self.next_shown(parts, place)?;
        let sender = &place.run.nodes[parts.sender];
        let mark = match (place.mark, step) {
            (Mark::Before, Step::Delay(_)) if self.tick_calls(sender, parts.sender) => Mark::In,
            (Mark::In, Step::Tick(i)) if i as usize == parts.fast => Mark::After,
            (mark, _) => mark,
        };
        self.moved(&mut place.run, step).ok()?;
        place.mark = mark;
        Some(step)
    }
}

// The shown run again, by rounds and moments

impl Plan {
    /// Hands each step of the shown run to `tell`; gives the run where it stops.
    pub fn show_by_rounds(&self, parts: &Parts, tell: &mut impl FnMut(Step)) -> Run {
        let mut run = Run::fresh();
        let done = self.rounds(parts, &mut run, tell).and_then(|()| self.moments(parts, &mut run, tell));
        debug_assert!(done.is_none());
        run
    }

    /// Takes one step; none where it leads out of step.
    fn take(&self, run: &mut Run, step: Step, tell: &mut impl FnMut(Step)) -> Option<()> {
        self.moved(run, step).expect("a step of a shown run is legal");
        tell(step);
        if self.is_out_of_step(run) {
            None
        } else {
            Some(())
        }
    }

    /// A tick, and at once the send of a node that it made about to send.
    fn tick_and_send(&self, run: &mut Run, node: usize, tell: &mut impl FnMut(Step)) -> Option<()> {
        self.take(run, Step::Tick(node as u32), tell)?;
        if run.nodes[node].mode == Mode::AboutToSend {
            self.take(run, Step::Send(node as u32), tell)?;
        }
        Some(())
    }

    /// The rounds up to the pivot, and the pivot.
    fn rounds(&self, parts: &Parts, run: &mut Run, tell: &mut impl FnMut(Step)) -> Option<()> {
        loop {
            let mut calls = [false; PLACES];
            for (i, node) in self.nodes(run).iter().enumerate() {
                calls[i] = self.tick_calls(node, i);
            }
            self.take(run, Step::Delay(self.min), tell)?;
            if calls[parts.sender] {
                for i in (0..self.nodes).filter(|&i| i != parts.sender && i != parts.fast) {
                    self.take(run, Step::Tick(i as u32), tell)?;
                }
                self.tick_and_send(run, parts.sender, tell)?;
                return self.take(run, Step::Tick(parts.fast as u32), tell);
            }
            for i in (0..self.nodes).filter(|&i| !calls[i]) {
                self.take(run, Step::Tick(i as u32), tell)?;
            }
            for i in (0..self.nodes).filter(|&i| calls[i]) {
                self.tick_and_send(run, i, tell)?;
            }
        }
    }

    /// From the pivot on: the fast node every min, the others every max.
    fn moments(&self, parts: &Parts, run: &mut Run, tell: &mut impl FnMut(Step)) -> Option<()> {
        let (mut now, mut fast, mut others) = (0, self.min as u64, self.max as u64);
        loop {
            let moment = fast.min(others);
            self.take(run, Step::Delay((moment - now) as u32), tell)?;
            now = moment;
            if moment == fast {
                self.tick_and_send(run, parts.fast, tell)?;
                fast += self.min as u64;
            }
            if moment == others {
                for i in (0..self.nodes).filter(|&i| i != parts.fast) {
                    self.tick_and_send(run, i, tell)?;
                }
                others += self.max as u64;
            }
        }
    }
}

// Text

/// A step line with its newline: letter, one space, decimal without leading zeros.
pub fn read_line(line: &[u8]) -> Result<Step, u8> {
    let [letter, b' ', digits @ .., b'\n'] = line else {
        return Err(19);
    };
    let number = read_number(digits).ok_or(19)?;
    match letter {
        b'D' => Ok(Step::Delay(number)),
        b'T' => Ok(Step::Tick(number)),
        b'S' => Ok(Step::Send(number)),
        _ => Err(19),
    }
}

fn read_number(digits: &[u8]) -> Option<u32> {
    if digits.is_empty() || (digits[0] == b'0' && digits.len() > 1) {
        return None;
    }
    let mut number: u32 = 0;
    for digit in digits {
        if !digit.is_ascii_digit() {
            return None;
        }
        number = number.checked_mul(10)?.checked_add((digit - b'0') as u32)?;
    }
    Some(number)
}

pub fn put_number(out: &mut Vec<u8>, number: u64) {
    let mut digits = [0; 20];
    let mut at = digits.len();
    let mut rest = number;
    loop {
        at -= 1;
        digits[at] = b'0' + (rest % 10) as u8;
        rest /= 10;
        if rest == 0 {
            break;
        }
    }
    out.extend_from_slice(&digits[at..]);
}

fn put_numbered(out: &mut Vec<u8>, words: &[u8], number: u64) {
    out.extend_from_slice(words);
    put_number(out, number);
}

pub fn put_step(out: &mut Vec<u8>, step: Step) {
    match step {
        Step::Delay(length) => put_numbered(out, b"D ", length as u64),
        Step::Tick(node) => put_numbered(out, b"T ", node as u64),
        Step::Send(node) => put_numbered(out, b"S ", node as u64),
    }
    out.push(b'\n');
}

pub fn put_refused(out: &mut Vec<u8>, number: u8) {
    put_numbered(out, b"refused ", number as u64);
    out.push(b'\n');
}

pub fn put_answer(out: &mut Vec<u8>, answer: Result<(), u8>) {
    match answer {
        Ok(()) => out.extend_from_slice(b"ok\n"),
        Err(number) => put_refused(out, number),
    }
}

pub fn put_out(out: &mut Vec<u8>, (sender, elsewhere): (u32, u32)) {
    put_numbered(out, b"out ", sender as u64);
    put_numbered(out, b" ", elsewhere as u64);
    out.push(b'\n');
}

pub fn put_verdict(out: &mut Vec<u8>, plan: &Plan, verdict: &Verdict) {
    put_numbered(out, b"CSP 1 nodes ", plan.nodes as u64);
    put_numbered(out, b" gap ", verdict.gap as u64);
    out.push(b'\n');
    for (number, (left, right)) in (1..).zip(verdict.rules) {
        put_numbered(out, b"rule ", number);
        put_numbered(out, b" ", left);
        put_numbered(out, b" ", right);
        out.extend_from_slice(if left < right { b" holds\n" } else { b" fails\n" });
    }
    match verdict.failed() {
        Some(rule) => put_numbered(out, b"verdict rule ", rule as u64),
        None => out.extend_from_slice(b"verdict in step"),
    }
    out.push(b'\n');
}
