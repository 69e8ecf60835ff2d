//! Document 01's cases "Frame A and its neighbours", its host codes, and steps of its machine, with the answers written out by hand: what the
//! library and the oracle got wrong alike would show here.

use crate::answer::Answer;
use crate::judge::{Judge, Subject};
use crate::plan::Plan;
use crate::question::Question;

fn frame_a() -> Plan {
    Plan::of(&[(0, 10), (1, 20), (0, 5), (2, 15)])
}

fn one_window() -> Plan {
    Plan::of(&[(5, 1)])
}

/// Four windows with these offsets and budgets.
fn four(offsets: [u32; 4], budgets: [u32; 4], length: u32) -> Plan {
    Plan { length, windows: (0..4).flat_map(|i| [0, offsets[i], budgets[i]]).collect(), rows: Vec::new() }
}

fn expect(judge: &mut Judge, plan: Plan, question: Question, right: impl Fn(&Answer) -> bool) {
    let subject = Subject::new(plan);
    let answer = judge.ask(&subject, question);
    let what = || format!("not document 01's answer: {:?}, state {:?}, counts {:?}", answer.words, answer.state, answer.counts);
    judge.hold(right(&answer), what, &subject, question);
}

/// The host code of each number, with the least plan or question that gives it.
fn refusals(judge: &mut Judge) {
    let window = |owner, offset, budget| Plan { length: 1, windows: vec![owner, offset, budget], rows: Vec::new() };
    let row = |partition, base, size, access| one_window().with_rows(&[[partition, base, size, access]]);
    let nine: Vec<[u32; 4]> = (0..9).map(|i| [0, 32 * i, 32, 0]).collect();
    let stopped = Question::Status { status: 0, state: [0, 0, 0, 0, 4, 2, 3, 7] };
    let cases: [(Plan, Question, i32, i32, i32); 17] = [
        (Plan::of(&[]), Question::Check, 1, 0, -22),
        (window(0, 0, 0), Question::Check, 2, 0, -22),
        (window(0, 1, 1), Question::Check, 3, 0, -22),
        (window(16, 0, 1), Question::Check, 4, 0, -2),
        (window(0, 0, 2), Question::Check, 5, 0, -22),
        (row(16, 0, 32, 0), Question::Check, 6, 0, -2),
        (row(0, 0, 0, 0), Question::Check, 7, 0, -22),
        (row(0, 32, 64, 0), Question::Check, 8, 0, -22),
        (row(0, 0, 32, 3), Question::Check, 9, 0, -22),
        (one_window().with_rows(&nine), Question::Check, 10, 8, -28),
        (one_window().with_rows(&[[0, 0, 32, 0], [0, 0, 32, 0]]), Question::Check, 11, 1, -112),
        (one_window(), Question::Lookup { tick: 1 }, 12, 0, -22),
        (one_window(), Question::Status { status: 0, state: [0, 0, 0, 1, 0, 0, 0, 0] }, 13, 0, -11),
        (one_window(), stopped, 14, 0, -140),
        (one_window(), Question::Words { partition: 16 }, 15, 0, -2),
        (one_window(), Question::Run { ticks: &[], statuses: &[], room: 3 }, 16, 0, -28),
        (one_window(), Question::Tick { tick: 0, state: [0; 8] }, 17, 0, -9),
    ];
    for (plan, question, number, place, code) in cases {
        expect(judge, plan, question, |answer| answer.words[..3] == [number, place, code].map(i32::cast_unsigned));
    }
}

/// A check's number and place.
fn check(judge: &mut Judge, plan: Plan, number: u32, place: u32) {
    expect(judge, plan, Question::Check, |answer| answer.words[..2] == [number, place]);
}

fn plans(judge: &mut Judge) {
    check(judge, frame_a(), 0, 0);
    check(judge, four([0, 1, 2, u32::MAX], [1, 1, u32::MAX - 2, 1], 0), 5, 3);
    check(judge, four([0, 1, 2, u32::MAX - 1], [1, 1, u32::MAX - 3, 1], u32::MAX), 0, 0);
    check(judge, Plan::of(&[]), 1, 0);
    check(judge, Plan::of(&[(0, 1); 65]), 1, 0);
    check(judge, Plan::of(&[(0, 1); 64]), 0, 0);
    check(judge, Plan { length: 5, windows: vec![0, 5, 0], rows: Vec::new() }, 2, 0);
}

fn rows(judge: &mut Judge) {
    let with = |rows: &[[u32; 4]]| frame_a().with_rows(rows);
    check(judge, with(&[[0, 0, 16, 0]]), 7, 0);
    check(judge, with(&[[0, 0, 96, 0]]), 7, 0);
    check(judge, with(&[[0, 0x2000_0010, 32, 0]]), 8, 0);
    check(judge, with(&[[0, 0xFFFF_FFE0, 32, 0]]), 0, 0);
    check(judge, with(&[[1, 0x2000_0000, 1024, 1], [2, 0x2000_03E0, 32, 0]]), 11, 1);
    check(judge, with(&[[1, 0x2000_0000, 1024, 1], [2, 0x2000_0400, 32, 0]]), 0, 0);
}

fn lookups(judge: &mut Judge) {
    for (tick, number, window) in [(9, 0, 0), (10, 0, 1), (49, 0, 3), (50, 12, 0)] {
        expect(judge, frame_a(), Question::Lookup { tick }, |answer| (answer.words[0], answer.words[3]) == (number, window));
    }
}

fn words(judge: &mut Judge) {
    let rows = [[0, 0x2000_0000, 1024, 1], [0, 0x0800_0000, 65536, 2], [0, 0x4000_0000, 32, 0]];
    let slots = [0x2000_0010, 0x1308_0013, 0x0800_0011, 0x0608_001F, 0x4000_0012, 0x1608_0009, 19, 0, 20, 0, 21, 0, 22, 0, 23, 0];
    expect(judge, frame_a().with_rows(&rows), Question::Words { partition: 0 }, |answer| answer.words[3..] == slots);
}

/// A run's log, end state and counts; the log is as short as it may be, and the rest of it stays.
fn run(judge: &mut Judge, plan: Plan, (ticks, statuses): (&[u32], &[u32]), log: &[u32], state: [u32; 8], counts: [u64; 3]) {
    let question = Question::Run { ticks, statuses, room: 4 + 6 * ticks.len() };
    let rest = &Answer::before(&question).log[log.len()..];
    expect(judge, plan, question, |answer| answer.log == [log, rest].concat() && (answer.state, answer.counts) == (state, counts));
}

fn runs(judge: &mut Judge) {
    let ticks: Vec<u32> = (0..10).collect();
    run(judge, frame_a(), (&ticks, &[0; 5]), &[2, 0, 3, 0, 1, 0, 2, 1, 3, 1], [1, 1, 10, 1, 0, 0, 0, 0], [10, 5, 5]);
    run(judge, frame_a(), (&ticks, &[0, 0, 0, 7]), &[2, 0, 3, 0, 1, 0, 2, 1], [0, 1, 10, 0, 4, 2, 3, 7], [10, 4, 4]);
    run(judge, frame_a(), (&[0, 2], &[0; 2]), &[2, 0, 3, 0], [0, 0, 1, 1, 4, 0, 1, 2], [2, 2, 2]);
    run(judge, one_window(), (&[0], &[0; 5]), &[2, 5, 3, 5, 1, 5, 2, 5, 3, 5], [0, 0, 0, 1, 0, 0, 0, 0], [1, 5, 5]);
}

/// The cold start, and the refusals 17, 14, 13 in this order.
fn refused_steps(judge: &mut Judge) {
    expect(judge, one_window(), Question::ColdStart, |answer| answer.words[..5] == [0, 0, 0, 2, 5] && answer.state == [0, 0, 0, 0, 2, 2, 0, 0]);
    let stopped = [0, 0, 0, 0, 4, 2, 3, 7];
    let not_reached = [0, 0, 0, 1, 4, 2, 3, 7];
    let running = [0, 0, 0, 1, 0, 0, 0, 0];
    for (state, by_tick, by_status) in [(stopped, 14, 14), (not_reached, 17, 17), ([0; 8], 17, 17), (running, 0, 13)] {
        expect(judge, frame_a(), Question::Tick { tick: 0, state }, |answer| answer.words[0] == by_tick);
        expect(judge, frame_a(), Question::Status { status: 0, state }, |answer| answer.words[0] == by_status && answer.state == state);
    }
}

/// Steps on frame A, by hand from the machine's rules: the state before, the event, the state after, the call.
fn steps(judge: &mut Judge) {
    let tick = |tick, state| Question::Tick { tick, state };
    let status = |status, state| Question::Status { status, state };
    let (last, save, swap, resume) = ([0, 0, 9, 1, 0, 0, 0, 0], [0, 1, 10, 0, 1, 1, 0, 0], [0, 1, 10, 0, 2, 2, 0, 0], [0, 1, 10, 1, 3, 3, 0, 0]);
    let cases: [(Question, [u32; 8], [u32; 2]); 14] = [
        (tick(0, [0, 0, 0, 1, 0, 0, 0, 0]), [0, 0, 1, 1, 0, 0, 0, 0], [0, 0]),
        (tick(9, last), save, [1, 0]),
        (status(0, save), swap, [2, 1]),
        (status(0, swap), resume, [3, 1]),
        (status(0, resume), [1, 1, 10, 1, 0, 0, 0, 0], [0, 0]),
        (tick(49, [3, 3, 49, 1, 0, 0, 0, 0]), [3, 0, 0, 0, 1, 1, 0, 0], [1, 2]),
        (status(0, [3, 0, 0, 1, 3, 3, 0, 0]), [0, 0, 0, 1, 0, 0, 0, 0], [0, 0]),
        (tick(10, last), [0, 0, 9, 1, 4, 0, 1, 10], [0, 0]),
        (tick(8, last), [0, 0, 9, 1, 4, 0, 1, 8], [0, 0]),
        (tick(10, save), [0, 1, 10, 0, 4, 1, 2, 10], [0, 0]),
        (tick(0, resume), [0, 1, 10, 1, 4, 3, 2, 0], [0, 0]),
        (status(7, save), [0, 1, 10, 0, 4, 1, 3, 7], [0, 0]),
        (status(9, swap), [0, 1, 10, 0, 4, 2, 3, 9], [0, 0]),
        (status(1, resume), [0, 1, 10, 1, 4, 3, 3, 1], [0, 0]),
    ];
    for (question, state, call) in cases {
        expect(judge, frame_a(), question, |answer| answer.words[..3] == [0; 3] && answer.words[3..5] == call && answer.state == state);
    }
}

pub fn compare(judge: &mut Judge) {
    refusals(judge);
    plans(judge);
    rows(judge);
    lookups(judge);
    words(judge);
    runs(judge);
    refused_steps(judge);
    steps(judge);
}
