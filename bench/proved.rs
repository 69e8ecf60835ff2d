//! The proved library and, where bench/run was given a commit, the one that was built from it (`--cfg before`).

#[allow(dead_code)] // the comparison calls what the benchmark does not
#[path = "../tests/host.rs"]
mod host;

use host::{Plan, Run};

/// Number and place.
pub fn check(length: u32, windows: &[u32], rows: &[u32]) -> (u32, u32) {
    let mut answer = [0; 3];
    host::check(Plan { length, windows, rows }, &mut answer);
    (answer[0], answer[1])
}

pub fn lookup(length: u32, windows: &[u32], rows: &[u32], t: u32) -> u32 {
    let mut answer = [0; 4];
    host::lookup(Plan { length, windows, rows }, t, &mut answer);
    answer[3]
}

pub fn words(length: u32, windows: &[u32], rows: &[u32], partition: u32) -> [(u32, u32); 8] {
    let mut answer = [0; 19];
    host::words(Plan { length, windows, rows }, partition, &mut answer);
    std::array::from_fn(|k| (answer[3 + 2 * k], answer[4 + 2 * k]))
}

type State = [u32; 8];
type Answer = [u32; 5];

/// The due tick after a cold start and so many events: each open call is answered with zero, each tick is the due one.
fn driven_by(events: u32, cold_start: impl Fn(&mut State, &mut Answer), tick: impl Fn(u32, &mut State, &mut Answer), zero: impl Fn(&mut State, &mut Answer)) -> u32 {
    let (mut state, mut answer) = ([0; 8], [0; 5]);
    cold_start(&mut state, &mut answer);
    for _ in 0..events {
        if answer[3] == 0 {
            tick(state[2], &mut state, &mut answer);
        } else {
            zero(&mut state, &mut answer);
        }
    }
    state[2]
}

pub fn driven(length: u32, windows: &[u32], rows: &[u32], events: u32) -> u32 {
    let plan = Plan { length, windows, rows };
    driven_by(events, |s, a| host::cold_start(plan, s, a), |t, s, a| host::tick(plan, t, s, a), |s, a| host::status(plan, 0, s, a))
}

/// How many calls were written.
pub fn run(length: u32, windows: &[u32], rows: &[u32], ticks: &[u32], statuses: &[u32], log: &mut [u32]) -> usize {
    let (mut state, mut counts, mut answer) = ([0; 8], [0; 3], [0; 3]);
    host::run(Plan { length, windows, rows }, Run { ticks, statuses, log, state: &mut state, counts: &mut counts }, &mut answer);
    counts[2] as usize
}

#[cfg(before)]
pub mod before {
    mod c {
        unsafe extern "C" {
            pub(super) fn before_shillingnook_check(length: u32, windows: *const u32, windows_count: u64, rows: *const u32, rows_count: u64, answer: *mut u32);
            pub(super) fn before_shillingnook_cold_start(
                length: u32, windows: *const u32, windows_count: u64, rows: *const u32, rows_count: u64, state: *mut u32, answer: *mut u32,
            );
            pub(super) fn before_shillingnook_tick(
                length: u32, windows: *const u32, windows_count: u64, rows: *const u32, rows_count: u64, tick: u32, state: *mut u32, answer: *mut u32,
            );
            pub(super) fn before_shillingnook_status(
                length: u32, windows: *const u32, windows_count: u64, rows: *const u32, rows_count: u64, status: u32, state: *mut u32, answer: *mut u32,
            );
        }
    }

    pub fn check(length: u32, windows: &[u32], rows: &[u32]) -> (u32, u32) {
        let mut answer = [0; 3];
        // SAFETY: both lists are lent for the call with their counts, and the array is as long as the function writes.
        unsafe { c::before_shillingnook_check(length, windows.as_ptr(), windows.len() as u64, rows.as_ptr(), rows.len() as u64, answer.as_mut_ptr()) };
        (answer[0], answer[1])
    }

    pub fn driven(length: u32, windows: &[u32], rows: &[u32], events: u32) -> u32 {
        let (w, wn, r, rn) = (windows.as_ptr(), windows.len() as u64, rows.as_ptr(), rows.len() as u64);
        // SAFETY, of all three: both lists are lent for the call with their counts, and the arrays are as long as the functions write.
        super::driven_by(
            events,
            |s, a| unsafe { c::before_shillingnook_cold_start(length, w, wn, r, rn, s.as_mut_ptr(), a.as_mut_ptr()) },
            |t, s, a| unsafe { c::before_shillingnook_tick(length, w, wn, r, rn, t, s.as_mut_ptr(), a.as_mut_ptr()) },
            |s, a| unsafe { c::before_shillingnook_status(length, w, wn, r, rn, 0, s.as_mut_ptr(), a.as_mut_ptr()) },
        )
    }
}
