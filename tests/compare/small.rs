//! Everything on small plans: each reached state with each event, all short sequences of events, short runs and runs twice round the frame,
//! and all small lists of windows and of rows, sound or not.

use crate::every;
use crate::judge::{Judge, Subject};
use crate::plan::Plan;
use crate::question::Question;
use crate::reach;
use crate::tour;

const OWNERS: [u32; 2] = [0, 5];

/// Sound plans of 1 to 3 windows with budgets 1 to 3, with every choice of these owners.
pub fn plans(owners: &[u32]) -> impl Iterator<Item = Plan> {
    let windows: Vec<(u32, u32)> = every::choice([owners, &[1, 2, 3]]).map(|[owner, budget]| (owner, budget)).collect();
    let lists: Vec<Vec<(u32, u32)>> = every::sequence(&windows, 3).filter(|list| !list.is_empty()).collect();
    lists.into_iter().map(|list| Plan::of(&list))
}

pub fn steps(judge: &mut Judge) {
    for plan in plans(&OWNERS) {
        let subject = Subject::new(plan);
        let Ok(plan) = &subject.verdict else { panic!("the small plans are sound") };
        let events = reach::events(subject.plan.length);
        for (state, &word) in reach::explore(plan, &events).into_iter().flat_map(|state| events.iter().map(move |word| (state, word))) {
            judge.ask(&subject, Question::Tick { tick: word, state });
            judge.ask(&subject, Question::Status { status: word, state });
        }
    }
}

/// Every sequence of so many events, each asked of the state that the library gave for the one before.
fn follow(judge: &mut Judge, subject: &Subject, state: [u32; 8], events: u32) {
    let alphabet = [0, 1, 2].map(|tick| Question::Tick { tick, state }).into_iter().chain([0, 7].map(|status| Question::Status { status, state }));
    for question in alphabet.filter(|_| events > 0) {
        let after = judge.ask(subject, question).state;
        follow(judge, subject, after, events - 1);
    }
}

pub fn sequences(judge: &mut Judge) {
    for plan in plans(&OWNERS) {
        let subject = Subject::new(plan);
        let start = judge.ask(&subject, Question::ColdStart).state;
        follow(judge, &subject, start, 5);
    }
}

fn run(judge: &mut Judge, subject: &Subject, ticks: &[u32], statuses: &[u32]) {
    judge.ask(subject, Question::Run { ticks, statuses, room: 4 + 6 * ticks.len() + 3 });
}

/// With the right ticks, from none to twice round; with statuses that end early, just in time or late; and with one of either wrong.
fn long_runs(judge: &mut Judge, subject: &Subject) {
    let length = subject.plan.length;
    let ticks: Vec<u32> = (0..2 * length + 2).map(|i| i % length).collect();
    let statuses = vec![0; 2 + 3 * 2 * (subject.plan.windows.len() / 3) + 1];
    for (used, answered) in (0..=ticks.len()).flat_map(|used| (0..=statuses.len()).map(move |answered| (used, answered))) {
        run(judge, subject, &ticks[..used], &statuses[..answered]);
    }
    let with = |list: &[u32], at: usize, word: u32| [&list[..at], &[word], &list[at + 1..]].concat();
    for (at, tick) in ticks.iter().enumerate() {
        [tick + 1, tick.wrapping_sub(1), u32::MAX].into_iter().for_each(|wrong| run(judge, subject, &with(&ticks, at, wrong), &statuses));
    }
    for at in 0..statuses.len() {
        [1, u32::MAX].into_iter().for_each(|bad| run(judge, subject, &ticks, &with(&statuses, at, bad)));
    }
}

pub fn runs(judge: &mut Judge) {
    let all_ticks: Vec<Vec<u32>> = every::sequence(&[0, 1, 2], 3).collect();
    let all_statuses: Vec<Vec<u32>> = every::sequence(&[0, 7], 5).collect();
    for plan in plans(&OWNERS) {
        let subject = Subject::new(plan);
        for (ticks, statuses) in all_ticks.iter().flat_map(|ticks| all_statuses.iter().map(move |statuses| (ticks, statuses))) {
            run(judge, &subject, ticks, statuses);
        }
        long_runs(judge, &subject);
    }
}

pub fn windows(judge: &mut Judge) {
    let window: Vec<[u32; 3]> = every::choice([&[0, 15, 16], &[0, 1, 2, u32::MAX], &[0, 1, 2, u32::MAX]]).collect();
    for windows in every::sequence(&window, 2) {
        for length in [0, 1, 2, 3, 4, u32::MAX] {
            tour::all_functions(judge, &Subject::new(Plan { length, windows: windows.concat(), rows: Vec::new() }));
        }
    }
}

pub fn rows(judge: &mut Judge) {
    let row: Vec<[u32; 4]> = every::choice([&[0, 1, 16], &[0, 32, 48, 0xFFFF_FFC0], &[16, 32, 64, 96], &[0, 1, 2, 3]]).collect();
    for rows in every::sequence(&row, 2) {
        tour::all_functions(judge, &Subject::new(Plan::of(&[(0, 1)]).with_rows(&rows)));
    }
}
