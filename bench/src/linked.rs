//! The linked library, `libweftpillar.a`: its C calls, lent Rust slices.

use crate::calls::Calls;

mod c {
    extern "C" {
        pub fn weftpillar_judge(plan: *const u8, plan_length: usize, verdict: *mut u8, verdict_length: usize) -> u8;
        pub fn weftpillar_fresh(run: *mut u8, run_length: usize) -> u8;
        pub fn weftpillar_fresh_place(place: *mut u8, place_length: usize) -> u8;
        pub fn weftpillar_step(
            plan: *const u8,
            plan_length: usize,
            run: *mut u8,
            run_length: usize,
            letter: u8,
            number: u32,
        ) -> u8;
        pub fn weftpillar_steps(
            plan: *const u8,
            plan_length: usize,
            run: *mut u8,
            run_length: usize,
            steps: *const u8,
            steps_length: usize,
            answers: *mut u8,
            answers_length: usize,
        ) -> u8;
        pub fn weftpillar_out_of_step(
            plan: *const u8,
            plan_length: usize,
            run: *const u8,
            run_length: usize,
            answer: *mut u8,
            answer_length: usize,
        ) -> u8;
        pub fn weftpillar_reckon(
            plan: *const u8,
            plan_length: usize,
            run: *const u8,
            run_length: usize,
            node: u32,
            ticks: *mut u8,
            ticks_length: usize,
        ) -> u8;
        pub fn weftpillar_next(
            plan: *const u8,
            plan_length: usize,
            place: *mut u8,
            place_length: usize,
            step: *mut u8,
            step_length: usize,
        ) -> u8;
        pub fn weftpillar_line(line: *const u8, line_length: usize, step: *mut u8, step_length: usize) -> u8;
    }
}

pub struct Linked;

// Each pointer comes from a slice that lives through the call, with its length; a slice lent by `&mut` is lent to no one else.
impl Calls for Linked {
    fn judge(&self, plan: &[u8], verdict: &mut [u8]) -> u8 {
        unsafe { c::weftpillar_judge(plan.as_ptr(), plan.len(), verdict.as_mut_ptr(), verdict.len()) }
    }

    fn fresh(&self, run: &mut [u8]) -> u8 {
        unsafe { c::weftpillar_fresh(run.as_mut_ptr(), run.len()) }
    }

    fn fresh_place(&self, place: &mut [u8]) -> u8 {
        unsafe { c::weftpillar_fresh_place(place.as_mut_ptr(), place.len()) }
    }

    fn step(&self, plan: &[u8], run: &mut [u8], letter: u8, number: u32) -> u8 {
        unsafe { c::weftpillar_step(plan.as_ptr(), plan.len(), run.as_mut_ptr(), run.len(), letter, number) }
    }

    fn steps(&self, plan: &[u8], run: &mut [u8], steps: &[u8], answers: &mut [u8]) -> u8 {
        unsafe {
            c::weftpillar_steps(
                plan.as_ptr(),
                plan.len(),
                run.as_mut_ptr(),
                run.len(),
                steps.as_ptr(),
                steps.len(),
                answers.as_mut_ptr(),
                answers.len(),
            )
        }
    }

    fn out_of_step(&self, plan: &[u8], run: &[u8], answer: &mut [u8]) -> u8 {
        unsafe {
            c::weftpillar_out_of_step(
                plan.as_ptr(),
                plan.len(),
                run.as_ptr(),
                run.len(),
                answer.as_mut_ptr(),
                answer.len(),
            )
        }
    }

    fn reckon(&self, plan: &[u8], run: &[u8], node: u32, ticks: &mut [u8]) -> u8 {
        unsafe {
            c::weftpillar_reckon(
                plan.as_ptr(),
                plan.len(),
                run.as_ptr(),
                run.len(),
                node,
                ticks.as_mut_ptr(),
                ticks.len(),
            )
        }
    }

    fn next(&self, plan: &[u8], place: &mut [u8], step: &mut [u8]) -> u8 {
        unsafe {
            c::weftpillar_next(
                plan.as_ptr(),
                plan.len(),
                place.as_mut_ptr(),
                place.len(),
                step.as_mut_ptr(),
                step.len(),
            )
        }
    }

    fn line(&self, line: &[u8], step: &mut [u8]) -> u8 {
        unsafe { c::weftpillar_line(line.as_ptr(), line.len(), step.as_mut_ptr(), step.len()) }
    }
}
