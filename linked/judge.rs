//! judge PLAN [STEPS]: judges a plan file through the linked library and writes what the judging program writes of it,
//! the shown run cut after STEPS steps (20 where no number is given).
use std::io::Write;

/// The library, with a safe function for each call that is used here. Slices of Rust are what it asks for: never null,
/// and no buffer that it writes overlaps another.
mod weftpillar {
    mod linked {
        extern "C" {
            pub fn weftpillar_judge(plan: *const u8, plan_length: usize, verdict: *mut u8, verdict_length: usize) -> u8;
            pub fn weftpillar_fresh_place(place: *mut u8, place_length: usize) -> u8;
            pub fn weftpillar_next(
                plan: *const u8,
                plan_length: usize,
                place: *mut u8,
                place_length: usize,
                step: *mut u8,
                step_length: usize,
            ) -> u8;
            pub fn weftpillar_out_of_step(
                plan: *const u8,
                plan_length: usize,
                run: *const u8,
                run_length: usize,
                answer: *mut u8,
                answer_length: usize,
            ) -> u8;
        }
    }

    pub struct Sides {
        pub left: u64,
        pub right: u64,
    }

    pub struct Verdict {
        /// 0 accepted, or the first rule that fails
        pub outcome: u8,
        /// M
        pub gap: u16,
        pub sides: [Sides; 3],
    }

    pub struct Step {
        pub letter: char,
        pub number: u32,
    }

    /// The lowest sending node with a node elsewhere, and the lowest such node.
    pub struct Apart {
        pub sender: u32,
        pub elsewhere: u32,
    }

    /// A refusal, by its number.
    #[derive(Debug)]
    pub struct Refused(pub u8);

    const FINISHED: u8 = 254;

    fn answered<A>(answer: u8, done: A) -> Result<A, Refused> {
        match answer {
            0 => Ok(done),
            number => Err(Refused(number)),
        }
    }

    fn big_endian(bytes: &[u8]) -> u64 {
        bytes.iter().fold(0, |number, byte| number << 8 | u64::from(*byte))
    }

    pub fn judge(plan: &[u8]) -> Result<Verdict, Refused> {
        let mut bytes = [0; 51];
        let answer = unsafe { linked::weftpillar_judge(plan.as_ptr(), plan.len(), bytes.as_mut_ptr(), bytes.len()) };
        let sides = |at: usize| Sides { left: big_endian(&bytes[at..at + 8]), right: big_endian(&bytes[at + 8..at + 16]) };
        let gap = big_endian(&bytes[1..3]) as u16;
        answered(answer, Verdict { outcome: bytes[0], gap, sides: [sides(3), sides(19), sides(35)] })
    }

    /// A place in a plan's shown run.
    pub struct Shown<'a> {
        plan: &'a [u8],
        place: [u8; 292],
    }

    impl<'a> Shown<'a> {
        pub fn of(plan: &'a [u8]) -> Shown<'a> {
            let mut place = [0; 292];
            unsafe { linked::weftpillar_fresh_place(place.as_mut_ptr(), place.len()) };
            Shown { plan, place }
        }

        /// The next step, none where the run is finished; the place moves on by it.
        pub fn next(&mut self) -> Result<Option<Step>, Refused> {
            let mut bytes = [0; 5];
            let (plan, place) = (self.plan, &mut self.place);
            let answer = unsafe {
                let (at, length) = (place.as_mut_ptr(), place.len());
                linked::weftpillar_next(plan.as_ptr(), plan.len(), at, length, bytes.as_mut_ptr(), bytes.len())
            };
            if answer == FINISHED {
                return Ok(None);
            }
            answered(answer, Some(Step { letter: bytes[0] as char, number: big_endian(&bytes[1..]) as u32 }))
        }

        /// How the run is out of step here, if it is.
        pub fn out_of_step(&self) -> Result<Option<Apart>, Refused> {
            let mut bytes = [0; 9];
            let (plan, run) = (self.plan, &self.place[..291]);
            let answer = unsafe {
                let (at, length) = (bytes.as_mut_ptr(), bytes.len());
                linked::weftpillar_out_of_step(plan.as_ptr(), plan.len(), run.as_ptr(), run.len(), at, length)
            };
            let (sender, elsewhere) = (big_endian(&bytes[1..5]) as u32, big_endian(&bytes[5..9]) as u32);
            answered(answer, (bytes[0] == 1).then_some(Apart { sender, elsewhere }))
        }
    }
}

fn write_verdict(out: &mut impl Write, nodes: u8, verdict: &weftpillar::Verdict) -> std::io::Result<()> {
    writeln!(out, "CSP 1 nodes {nodes} gap {}", verdict.gap)?;
    for (k, sides) in verdict.sides.iter().enumerate() {
        let holds = if sides.left < sides.right { "holds" } else { "fails" };
        writeln!(out, "rule {} {} {} {holds}", k + 1, sides.left, sides.right)?;
    }
    match verdict.outcome {
        0 => writeln!(out, "verdict in step"),
        rule => writeln!(out, "verdict rule {rule}"),
    }
}

fn write_shown(out: &mut impl Write, plan: &[u8], most: u64) -> std::io::Result<()> {
    let mut shown = weftpillar::Shown::of(plan);
    for _ in 0..most {
        match shown.next().expect("the plan was judged and the place is the library's own") {
            Some(step) => writeln!(out, "{} {}", step.letter, step.number)?,
            None => {
                if let Some(apart) = shown.out_of_step().expect("the same plan and place") {
                    writeln!(out, "out {} {}", apart.sender, apart.elsewhere)?;
                }
                return Ok(());
            }
        }
    }
    Ok(())
}

fn main() -> std::io::Result<()> {
    let words: Vec<String> = std::env::args().collect();
    if words.len() != 2 && words.len() != 3 {
        eprintln!("usage: judge PLAN [STEPS]");
        std::process::exit(2);
    }
    let plan = std::fs::read(&words[1])?;
    let most = words.get(2).map_or(20, |word| word.parse().unwrap_or(0));
    let mut out = std::io::BufWriter::new(std::io::stdout().lock());
    match weftpillar::judge(&plan) {
        Err(weftpillar::Refused(number)) => writeln!(out, "refused {number}")?,
        Ok(verdict) => {
            write_verdict(&mut out, plan[5], &verdict)?;
            write_shown(&mut out, &plan, most)?;
        }
    }
    out.flush()
}
