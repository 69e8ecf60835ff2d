//! The proved library as Rust sees it: include/shillingnook.h in Rust's words. Everything is lent for the call, and nothing is returned.

/// What every function takes first: the frame length, three numbers a window, four a row.
#[derive(Clone, Copy)]
pub struct Plan<'a> {
    pub length: u32,
    pub windows: &'a [u32],
    pub rows: &'a [u32],
}

/// What a run is lent besides its plan.
pub struct Run<'a> {
    pub ticks: &'a [u32],
    pub statuses: &'a [u32],
    pub log: &'a mut [u32],
    pub state: &'a mut [u32; 8],
    pub counts: &'a mut [u64; 3],
}

mod c {
    unsafe extern "C" {
        pub(super) fn shillingnook_check(
            length: u32, windows: *const u32, windows_count: u64, rows: *const u32, rows_count: u64, answer: *mut u32);
        pub(super) fn shillingnook_lookup(
            length: u32, windows: *const u32, windows_count: u64, rows: *const u32, rows_count: u64, tick: u32, answer: *mut u32);
        pub(super) fn shillingnook_words(
            length: u32, windows: *const u32, windows_count: u64, rows: *const u32, rows_count: u64, partition: u32, answer: *mut u32);
        pub(super) fn shillingnook_cold_start(
            length: u32, windows: *const u32, windows_count: u64, rows: *const u32, rows_count: u64, state: *mut u32, answer: *mut u32);
        pub(super) fn shillingnook_tick(
            length: u32, windows: *const u32, windows_count: u64, rows: *const u32, rows_count: u64,
            tick: u32, state: *mut u32, answer: *mut u32);
        pub(super) fn shillingnook_status(
            length: u32, windows: *const u32, windows_count: u64, rows: *const u32, rows_count: u64,
            status: u32, state: *mut u32, answer: *mut u32);
        pub(super) fn shillingnook_run(
            length: u32, windows: *const u32, windows_count: u64, rows: *const u32, rows_count: u64,
            ticks: *const u32, ticks_count: u64, statuses: *const u32, statuses_count: u64,
            log: *mut u32, log_count: u64, state: *mut u32, counts: *mut u64, answer: *mut u32);
    }
}

/// A list as it crosses: a pointer, never null, and a count of numbers.
fn list(numbers: &[u32]) -> (*const u32, u64) {
    (numbers.as_ptr(), numbers.len() as u64)
}

pub fn check(plan: Plan, answer: &mut [u32; 3]) {
    let ((windows, windows_count), (rows, rows_count)) = (list(plan.windows), list(plan.rows));
    // SAFETY: both lists are lent for the call with their counts, and the array is as long as the function writes.
    unsafe { c::shillingnook_check(plan.length, windows, windows_count, rows, rows_count, answer.as_mut_ptr()) }
}

pub fn lookup(plan: Plan, tick: u32, answer: &mut [u32; 4]) {
    let ((windows, windows_count), (rows, rows_count)) = (list(plan.windows), list(plan.rows));
    // SAFETY: as in check.
    unsafe { c::shillingnook_lookup(plan.length, windows, windows_count, rows, rows_count, tick, answer.as_mut_ptr()) }
}

pub fn words(plan: Plan, partition: u32, answer: &mut [u32; 19]) {
    let ((windows, windows_count), (rows, rows_count)) = (list(plan.windows), list(plan.rows));
    // SAFETY: as in check.
    unsafe { c::shillingnook_words(plan.length, windows, windows_count, rows, rows_count, partition, answer.as_mut_ptr()) }
}

pub fn cold_start(plan: Plan, state: &mut [u32; 8], answer: &mut [u32; 5]) {
    let ((windows, windows_count), (rows, rows_count)) = (list(plan.windows), list(plan.rows));
    let (state, answer) = (state.as_mut_ptr(), answer.as_mut_ptr());
    // SAFETY: as in check; two arrays lent by unique references do not overlap.
    unsafe { c::shillingnook_cold_start(plan.length, windows, windows_count, rows, rows_count, state, answer) }
}

pub fn tick(plan: Plan, tick: u32, state: &mut [u32; 8], answer: &mut [u32; 5]) {
    let ((windows, windows_count), (rows, rows_count)) = (list(plan.windows), list(plan.rows));
    let (state, answer) = (state.as_mut_ptr(), answer.as_mut_ptr());
    // SAFETY: as in cold_start.
    unsafe { c::shillingnook_tick(plan.length, windows, windows_count, rows, rows_count, tick, state, answer) }
}

pub fn status(plan: Plan, status: u32, state: &mut [u32; 8], answer: &mut [u32; 5]) {
    let ((windows, windows_count), (rows, rows_count)) = (list(plan.windows), list(plan.rows));
    let (state, answer) = (state.as_mut_ptr(), answer.as_mut_ptr());
    // SAFETY: as in cold_start.
    unsafe { c::shillingnook_status(plan.length, windows, windows_count, rows, rows_count, status, state, answer) }
}

pub fn run(plan: Plan, run: Run, answer: &mut [u32; 3]) {
    let ((windows, windows_count), (rows, rows_count)) = (list(plan.windows), list(plan.rows));
    let ((ticks, ticks_count), (statuses, statuses_count)) = (list(run.ticks), list(run.statuses));
    let (log, log_count) = (run.log.as_mut_ptr(), run.log.len() as u64);
    let (state, counts, answer) = (run.state.as_mut_ptr(), run.counts.as_mut_ptr(), answer.as_mut_ptr());
    // SAFETY: as in cold_start; the log is lent by a unique reference too, with its count.
    unsafe {
        c::shillingnook_run(plan.length, windows, windows_count, rows, rows_count,
            ticks, ticks_count, statuses, statuses_count, log, log_count, state, counts, answer)
    }
}
