//! Plans, lists and logs at the edges of what is allowed, and one beyond.

use crate::judge::{Judge, Subject};
use crate::plan::Plan;
use crate::question::Question;
use crate::tour;

/// So many sound windows; 65 and more are sound but for their count.
fn windows(count: u32) -> Plan {
    Plan::of(&Vec::from_iter((0..count).map(|i| (i % 16, 1 + i % 3))))
}

/// Eight rows a partition, side by side, as long as there are partitions.
fn row(i: u32) -> [u32; 4] {
    [i / 8 % 16, 0x2000_0000 + 32 * i, 32, i % 3]
}

/// Counts of records at and over the limits, with lists that end one number early or late; all functions on all of them.
fn counts(judge: &mut Judge) {
    for (windows_count, windows_off) in [0, 1, 64, 65].into_iter().flat_map(|count| [-1, 0, 1, 2].map(|off| (count, off))) {
        for (rows_count, rows_off) in [0, 1, 128, 129].into_iter().flat_map(|count| [-1, 0, 1, 2, 3].map(|off| (count, off))) {
            let mut plan = windows(windows_count);
            plan.rows = (0..rows_count).flat_map(row).collect();
            for (list, off) in [(&mut plan.windows, windows_off), (&mut plan.rows, rows_off)] {
                let count = list.len().saturating_add_signed(off);
                list.resize(count, 0);
            }
            tour::all_functions(judge, &Subject::new(plan));
        }
    }
}

/// A plan of three windows and three rows that ends after so many numbers, which tears records in every way.
fn torn(judge: &mut Judge) {
    let whole = windows(3).with_rows(&[row(0), row(8), row(16)]);
    for (windows_end, rows_end) in (0..=9).flat_map(|w| (0..=12).map(move |r| (w, r))) {
        let (windows, rows) = (whole.windows[..windows_end].to_vec(), whole.rows[..rows_end].to_vec());
        tour::all_functions(judge, &Subject::new(Plan { length: whole.length, windows, rows }));
    }
}

/// Eight rows of one partition, nine, and nine of which the first is another's.
fn rows_of_one(judge: &mut Judge) {
    let own = |i: u32| [3, 64 * i, 32, 0];
    let eight: Vec<[u32; 4]> = (0..8).map(own).collect();
    for rows in [eight.clone(), [&eight[..], &[own(8)]].concat(), [&[[4, 0x1000, 32, 0]], &eight[..]].concat()] {
        tour::all_functions(judge, &Subject::new(windows(2).with_rows(&rows)));
    }
}

/// The last tick of a window and the switch after it, each step on the state that the library gave.
fn over_the_end(judge: &mut Judge, subject: &Subject, window: u32, last: u32) {
    let mut state = [window, window, last, 1, 0, 0, 0, 0];
    for tick in [last.wrapping_sub(1), last.wrapping_add(1), 0, u32::MAX] {
        judge.ask(subject, Question::Tick { tick, state });
    }
    state = judge.ask(subject, Question::Tick { tick: last, state }).state;
    for _ in 0..3 {
        judge.ask(subject, Question::Tick { tick: 0, state });
        judge.ask(subject, Question::Status { status: u32::MAX, state });
        state = judge.ask(subject, Question::Status { status: 0, state }).state;
    }
    for tick in [0, 1, last, last.wrapping_add(1)] {
        judge.ask(subject, Question::Tick { tick, state });
    }
}

/// Frames of 4294967295 ticks, and of one more, for which there is no length.
fn longest_frames(judge: &mut Judge) {
    let most = u32::MAX;
    for budgets in [vec![most], vec![1, most - 1], vec![most - 1, 1], vec![1, most - 4, 3], [vec![1; 63], vec![most - 63]].concat()] {
        let subject = Subject::new(Plan::of(&Vec::from_iter(budgets.iter().map(|&budget| (7, budget)))));
        tour::all_functions(judge, &subject);
        let mut end = 0;
        for (window, budget) in budgets.iter().enumerate() {
            end += budget;
            over_the_end(judge, &subject, window as u32, end - 1);
        }
        for tick in [most - 2, most - 1, most] {
            judge.ask(&subject, Question::Lookup { tick });
        }
        // the last budget stands last in the list; a window that has all ticks cannot have one more
        let (before, last) = subject.plan.windows.split_at(subject.plan.windows.len() - 1);
        let longer = last[0].checked_add(1).map(|budget| [before, &[budget]].concat());
        for (windows, length) in longer.iter().flat_map(|windows| [0, most - 1, most].map(|length| (windows.clone(), length))) {
            tour::all_functions(judge, &Subject::new(Plan { length, windows, rows: Vec::new() }));
        }
    }
}

/// Logs with no room, one word short, just right and longer, and empty lists, on sound plans and on refused ones.
fn logs(judge: &mut Judge) {
    for plan in [windows(1), windows(2), windows(64), windows(65), Plan { length: 9, ..windows(4) }] {
        let subject = Subject::new(plan);
        let ticks: Vec<u32> = (0..130).map(|i| i % subject.plan.length).collect();
        for ticks in [&ticks[..0], &ticks[..1], &ticks[..2], &ticks] {
            let need = 4 + 6 * ticks.len();
            for room in [0, 1, need / 2, need - 2, need - 1, need, need + 1, 2 * need] {
                for answered in [0, 1, 2, 5, 500] {
                    judge.ask(&subject, Question::Run { ticks, statuses: &[0; 500][..answered], room });
                }
            }
        }
    }
}

pub fn compare(judge: &mut Judge) {
    counts(judge);
    torn(judge);
    rows_of_one(judge);
    longest_frames(judge);
    logs(judge);
}
