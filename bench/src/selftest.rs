//! Can the comparison fail, and does the model say what document 01 says in numbers?

use crate::bytes::Model;
use crate::calls::Calls;
use crate::compare::{Comparison, KINDS};
use crate::generator::*;
use crate::model::*;
use crate::programs::{judge, Shown};
use crate::slips::SLIPS;

/// How many inputs of a kind a slip may hide behind.
const INPUTS: u64 = 20_000;

/// Every slip must be found against the model, and against the library where it is linked.
pub fn slips_found(right: &dyn Calls, name: &str, seed: u64) -> Result<(), String> {
    for slip in &SLIPS {
        let found = KINDS.iter().find_map(|&kind| {
            let mut comparison = Comparison::new(right, slip.side);
            let difference = comparison.kind(kind, seed, INPUTS).err()?;
            Some((difference.kind, comparison.inputs(kind)))
        });
        let (kind, inputs) = found.ok_or(format!("not found against {name}: {} ({})", slip.name, slip.words))?;
        println!("  {:<34} {:>7} inputs of {kind:?}", slip.name, inputs);
    }
    println!("all {} slips found against {name}", SLIPS.len());
    Ok(())
}

const LISTING: &str = "CSP 1 nodes 3 gap 1
rule 1 4 4 fails
rule 2 5 7 holds
rule 3 2 3 holds
verdict rule 1
D 1
T 2
T 0
S 0
T 1
D 1
T 1
T 0
T 2
D 1
T 1
T 0
T 2
D 1
T 1
T 0
T 2
D 1
T 1
S 1
out 1 0
";

fn row(nodes: u16, frame: u16, active: u16, ticks: u8, guard: u8, tail: u8, min: u32, max: u32) -> Vec<u8> {
    let slots = (0..nodes).collect();
    Numbers { nodes: nodes as u8, frame, active, ticks, guard, tail, min, max, slots }.file()
}

fn listing() -> Result<(), String> {
    let file = row(3, 3, 3, 5, 1, 2, 1, 1);
    for shown in [Shown::ByPlaces, Shown::ByRounds] {
        let mut text = Vec::new();
        judge(&file, shown, &mut text).expect("memory");
        if text != LISTING.as_bytes() {
            return Err(format!("the listing is another:\n{}", String::from_utf8_lossy(&text)));
        }
    }
    println!("document 01's listing comes out, by places and by rounds");
    Ok(())
}

/// Document 01's worked numbers: a plan, its M, its verdict, and sides that the document names.
fn worked() -> Result<(), String> {
    type Case = (Vec<u8>, u16, Option<u8>, [Option<(u64, u64)>; 3]);
    let none = [None; 3];
    let first = |left, right| [Some((left, right)), None, None];
    let cases: [Case; 11] = [
        (row(3, 6, 4, 10, 2, 2, 39, 40), 4, None, none),
        (row(3, 6, 4, 10, 2, 2, 38, 39), 4, Some(1), first(1482, 1482)),
        (row(4, 6, 4, 10, 2, 2, 29, 30), 3, None, first(840, 841)),
        (row(4, 6, 4, 10, 2, 2, 28, 29), 3, Some(1), none),
        (row(3, 6, 4, 10, 3, 3, 19, 20), 4, None, first(740, 741)),
        (row(3, 6, 4, 10, 3, 3, 18, 19), 4, Some(1), first(703, 702)),
        (row(4, 6, 4, 10, 4, 4, 9, 10), 3, None, [Some((260, 261)), Some((300, 306)), Some((20, 45))]),
        (row(3, 8, 4, 10, 2, 2, 59, 60), 6, None, first(3480, 3481)),
        (row(10, 1129, 10, 29, 3, 2, 999980, 1000020), 1120, None, none),
        (row(10, 1129, 10, 29, 2, 2, 999980, 1000020), 1120, Some(1), none),
        (row(10, 1129, 10, 29, 3, 1, 999980, 1000020), 1120, Some(3), none),
    ];
    for (file, gap, failed, sides) in &cases {
        let verdict = Plan::read(file).map_err(|number| format!("{file:?} refused {number}"))?.verdict();
        let as_named = sides.iter().zip(verdict.rules).all(|(side, found)| side.is_none_or(|side| side == found));
        if (verdict.gap, verdict.failed()) != (*gap, *failed) || !as_named {
            return Err(format!("{file:?}: {verdict:?}"));
        }
    }
    println!("document 01's {} worked plans come out", cases.len());
    Ok(())
}

/// Every plan with g = 1 fails rule 1; g + t + 2 = k0 is taken, one more is refused by 5.
fn edges(random: &mut Random) -> Result<(), String> {
    for _ in 0..20_000 {
        let size = some_size(random);
        let mut plan = good_numbers(random, size);
        plan.tail = plan.ticks - 2 - plan.guard;
        let whole = Plan::read(&plan.file()).is_ok();
        plan.tail += 1;
        let more = Plan::read(&plan.file()).err();
        (plan.guard, plan.tail) = (1, 1);
        let failed = Plan::read(&plan.file()).ok().and_then(|plan| plan.verdict().failed());
        if (whole, more, failed) != (true, Some(5), Some(1)) {
            return Err(format!("{plan:?}: {whole} {more:?} {failed:?}"));
        }
    }
    println!("20000 plans: g + t + 2 = k0 is taken, one more refused by 5, g = 1 fails rule 1");
    Ok(())
}

/// M, p and s by counting backwards from each sending slot, as document 01 words it.
fn counted(plan: &Plan) -> (u16, u16, u16) {
    let slots = &plan.slots[..plan.nodes];
    let distance = |s: u16| (1..plan.frame).find(|back| slots.contains(&((s + plan.frame - back) % plan.frame)));
    let found = slots.iter().map(|&s| {
        let back = distance(s).expect("another sender");
        (back, (s + plan.frame - back) % plan.frame, s)
    });
    found.reduce(|a, b| if b.0 > a.0 || (b.0 == a.0 && b.1 < a.1) { b } else { a }).expect("a sender")
}

fn parts_again(plan: &Plan) -> Option<Parts> {
    let (_, p, s) = counted(plan);
    let sends_in = |slot: u16| (0..plan.nodes).find(|&i| plan.slots[i] == slot).expect("a sender");
    let lowest = |not: &[u16]| (0..plan.nodes).find(|&i| !not.contains(&plan.slots[i])).expect("a third node");
    match plan.verdict().failed()? {
        1 => Some(Parts { sender: sends_in(p), fast: sends_in(s) }),
        2 => Some(Parts { sender: sends_in(p), fast: lowest(&[p, s]) }),
        _ => Some(Parts { sender: sends_in(0), fast: lowest(&[0]) }),
    }
}

fn gaps(random: &mut Random) -> Result<(), String> {
    for _ in 0..20_000 {
        let size = some_size(random);
        let plan = good_plan(random, size);
        if plan.verdict().gap != counted(&plan).0 || plan.parts() != parts_again(&plan) {
            return Err(format!("{plan:?}: {:?}, counted {:?}", plan.parts(), counted(&plan)));
        }
    }
    println!("20000 plans: M, p, s and the fast node by counting backwards, slot by slot, are the same");
    Ok(())
}

/// The shown run by rounds and moments against the one by places.
fn shown_twice(random: &mut Random) -> Result<(), String> {
    let (mut runs, mut steps) = (0u64, 0u64);
    let mut by_rule = [0u64; 4];
    while runs < 10_000 {
        let size = random.pick(&[TINY, TINY, SMALL, CROWDED]);
        let plan = good_plan(random, size);
        let Some(parts) = plan.parts() else { continue };
        let mut place = Place::fresh();
        let mut same = true;
        let end = plan.show_by_rounds(&parts, &mut |step| {
            same &= plan.show(&parts, &mut place) == Some(step);
            steps += 1;
        });
        if !same || place.run != end || plan.show(&parts, &mut place).is_some() || plan.out_of_step(&end).is_none() {
            return Err(format!("{plan:?}: the shown run by rounds is another than by places"));
        }
        runs += 1;
        by_rule[plan.verdict().failed().unwrap_or(0) as usize] += 1;
    }
    println!(
        "{runs} shown runs ({} {} {} for rules 1, 2, 3), {steps} steps: by rounds and moments the same as by places",
        by_rule[1], by_rule[2], by_rule[3]
    );
    Ok(())
}

pub fn run(linked: Option<&dyn Calls>, seed: u64) -> Result<(), String> {
    let random = &mut Random::new(seed, 0);
    listing()?;
    worked()?;
    edges(random)?;
    gaps(random)?;
    shown_twice(random)?;
    slips_found(&Model, "the model", seed)?;
    match linked {
        Some(library) => slips_found(library, "the library", seed),
        None => Ok(()),
    }
}
