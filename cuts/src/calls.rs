//! The two calls under trial: the proved library's, or a stand-in's.

/// A call's result number and the number of steps that it made.
#[derive(Clone, Copy, PartialEq, Eq, Debug)]
pub struct Answer {
    pub number: u8,
    pub steps: u64,
}

/// The list of steps ended.
pub const ENDED: u8 = 0;
/// The allowance was used up before.
pub const STOPPED: u8 = 7;

#[derive(Clone, Copy, PartialEq, Eq, Debug)]
pub enum Call {
    Reclaim,
    Recover,
}

pub trait Calls {
    fn make(&mut self, call: Call, image: &mut [u8], allowance: u64) -> Answer;
}
