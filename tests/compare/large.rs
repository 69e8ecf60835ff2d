//! Random comparisons: plans with their lookups and words, single steps from all sorts of states, and runs.

use crate::dice::Dice;
use crate::judge::{Judge, Subject};
use crate::oracle::Accepted;
use crate::question::Question;
use crate::{plans, rights, states};

fn some_ticks(d: &mut Dice, subject: &Subject) -> Vec<u32> {
    let length = subject.plan.length;
    let mut ticks = vec![0, length, length.wrapping_sub(1), u32::MAX, d.word()];
    if !subject.plan.windows.is_empty() {
        let number = d.pick(&subject.plan.windows);
        ticks.extend([number, number.wrapping_sub(1), number.wrapping_add(1)]);
    }
    ticks.extend((0..3).map(|_| d.below(u64::from(length) + 1) as u32));
    ticks
}

/// Partitions with and without rows, and one that there is not.
fn some_partitions(d: &mut Dice, subject: &Subject) -> Vec<u32> {
    let mut partitions = vec![d.below(16) as u32, d.pick(&[15, 16, 17, u32::MAX])];
    let rows: &[[u32; 4]] = subject.plan.rows.as_chunks().0;
    partitions.extend((!rows.is_empty()).then(|| d.pick(rows)[0]));
    partitions
}

pub fn plans(judge: &mut Judge, d: &mut Dice, times: u64) {
    for _ in 0..times {
        let subject = Subject::new(plans::any(d));
        judge.ask(&subject, Question::Check);
        for tick in some_ticks(d, &subject) {
            judge.ask(&subject, Question::Lookup { tick });
        }
        for partition in some_partitions(d, &subject) {
            let answer = judge.ask(&subject, Question::Words { partition });
            if answer.words[0] == 0 {
                rights::compare(judge, d, &subject, partition, &answer);
            }
        }
    }
}

fn some_steps(judge: &mut Judge, d: &mut Dice, subject: &Subject, times: u64) {
    let accepted: Option<&Accepted> = subject.verdict.as_ref().ok();
    for _ in 0..times {
        let state = states::any(d, accepted);
        judge.ask(subject, Question::Tick { tick: states::some_tick(d, state[2], subject.plan.length), state });
        judge.ask(subject, Question::Status { status: states::some_status(d), state });
    }
}

/// Few steps on each of many plans, and many on plans that are checked sooner.
pub fn steps(judge: &mut Judge, d: &mut Dice, times: u64) {
    for i in 0..times {
        let (plan, each) = if i % 4 == 0 { (plans::any(d), 4) } else { (plans::brisk(d), 20) };
        let subject = Subject::new(plan);
        judge.ask(&subject, Question::ColdStart);
        some_steps(judge, d, &subject, each);
    }
}

/// The right words, up to twice round the frame, with one wrong at times.
fn some_events(d: &mut Dice, subject: &Subject) -> (Vec<u32>, Vec<u32>) {
    let length = subject.plan.length.max(1);
    let count = d.below(2 * u64::from(length.min(200)) + 2) as u32;
    let mut ticks: Vec<u32> = (0..count).map(|i| i % length).collect();
    let enough = 2 + 3 * u64::from(count);
    let answered = if d.once_in(2) { enough } else { d.below(enough + 2) };
    let mut statuses = vec![0; answered as usize];
    if d.once_in(3) && !ticks.is_empty() {
        let at = d.below(ticks.len() as u64) as usize;
        ticks[at] = states::some_tick(d, ticks[at], length);
    }
    if d.once_in(3) && !statuses.is_empty() {
        let at = d.below(answered) as usize;
        statuses[at] = states::some_status(d);
    }
    (ticks, statuses)
}

pub fn runs(judge: &mut Judge, d: &mut Dice, times: u64) {
    for i in 0..times {
        let subject = Subject::new(if i % 4 == 0 { plans::any(d) } else { plans::brisk(d) });
        let (ticks, statuses) = some_events(d, &subject);
        let need = 4 + 6 * ticks.len();
        let room = if d.once_in(8) { need - 1 - d.below(4) as usize } else { need + d.below(5) as usize };
        judge.ask(&subject, Question::Run { ticks: &ticks, statuses: &statuses, room });
    }
}
