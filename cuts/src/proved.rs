//! The proved library, by the C names of crates/timing.

use crate::calls::{Answer, Call, Calls};

extern "C" {
    fn timing_reclaim_answer(image: *mut u8, length: usize, allowance: u64) -> u64;
    fn timing_recover_answer(image: *mut u8, length: usize, allowance: u64) -> u64;
}

pub struct Proved;

impl Calls for Proved {
    fn make(&mut self, call: Call, image: &mut [u8], allowance: u64) -> Answer {
        let (bytes, length) = (image.as_mut_ptr(), image.len());
        let packed = match call {
            Call::Reclaim => unsafe { timing_reclaim_answer(bytes, length, allowance) },
            Call::Recover => unsafe { timing_recover_answer(bytes, length, allowance) },
        };
        Answer { number: (packed % 16) as u8, steps: packed / 16 }
    }
}
