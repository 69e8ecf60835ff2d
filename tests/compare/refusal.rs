//! Document 01's refusals: a number, a place, and what the host calls it.

const ENOENT: i32 = -2;
const EBADF: i32 = -9;
const EAGAIN: i32 = -11;
const EINVAL: i32 = -22;
const ENOSPC: i32 = -28;
const EADDRINUSE: i32 = -112;
const ECANCELED: i32 = -140;

pub const LOOKUP_TICK: Refusal = Refusal { number: 12, place: 0 };
pub const NO_CALL_OPEN: Refusal = Refusal { number: 13, place: 0 };
pub const STOPPED: Refusal = Refusal { number: 14, place: 0 };
pub const NO_PARTITION: Refusal = Refusal { number: 15, place: 0 };
pub const LOG_TOO_SHORT: Refusal = Refusal { number: 16, place: 0 };
pub const NOT_REACHED: Refusal = Refusal { number: 17, place: 0 };

#[derive(Clone, Copy, PartialEq, Eq, Debug)]
pub struct Refusal {
    pub number: u32,
    pub place: u32,
}

impl Refusal {
    fn host_code(self) -> i32 {
        match self.number {
            4 | 6 | 15 => ENOENT,
            10 | 16 => ENOSPC,
            11 => EADDRINUSE,
            13 => EAGAIN,
            14 => ECANCELED,
            17 => EBADF,
            _ => EINVAL,
        }
    }

    /// The first three words of a refusing answer.
    pub fn words(self) -> [u32; 3] {
        [self.number, self.place, self.host_code().cast_unsigned()]
    }
}
