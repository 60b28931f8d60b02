//! The calls of the exported library, as both sides offer them: each answers a byte, 0 done, else a refusal.

/// The run has finished: there is no next shown step.
pub const FINISHED: u8 = 254;
/// A lent buffer has another length than the call asks for.
pub const WRONG_LENGTH: u8 = 255;

pub const RUN_BYTES: usize = 291;
pub const PLACE_BYTES: usize = 292;
pub const STEP_BYTES: usize = 5;
pub const VERDICT_BYTES: usize = 51;
pub const OUT_BYTES: usize = 9;
pub const TICKS_BYTES: usize = 4;

pub trait Calls {
    fn judge(&self, plan: &[u8], verdict: &mut [u8]) -> u8;
    fn fresh(&self, run: &mut [u8]) -> u8;
    fn fresh_place(&self, place: &mut [u8]) -> u8;
    fn step(&self, plan: &[u8], run: &mut [u8], letter: u8, number: u32) -> u8;
    fn steps(&self, plan: &[u8], run: &mut [u8], steps: &[u8], answers: &mut [u8]) -> u8;
    fn out_of_step(&self, plan: &[u8], run: &[u8], answer: &mut [u8]) -> u8;
    fn reckon(&self, plan: &[u8], run: &[u8], node: u32, ticks: &mut [u8]) -> u8;
    fn next(&self, plan: &[u8], place: &mut [u8], step: &mut [u8]) -> u8;
    fn line(&self, line: &[u8], step: &mut [u8]) -> u8;
}
