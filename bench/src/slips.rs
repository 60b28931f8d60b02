//! Models that are wrong on purpose, each in one line; `build.rs` makes them from the files in `slips/`.

use crate::calls::Calls;

pub struct Slip {
    pub name: &'static str,
    pub words: &'static str,
    pub side: &'static (dyn Calls + Sync),
}

include!(concat!(env!("OUT_DIR"), "/slips.rs"));
