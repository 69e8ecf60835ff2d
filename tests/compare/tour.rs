//! Every function on one plan, which may be refused: the plan's refusal has to come first everywhere.

use crate::judge::{Judge, Subject};
use crate::question::Question;

/// A cold start, Running, stopped, and no state at all.
const STATES: [[u32; 8]; 4] = [[0, 0, 0, 0, 2, 2, 0, 0], [0, 0, 0, 1, 0, 0, 0, 0], [0, 0, 0, 0, 4, 2, 3, 1], [9; 8]];

pub fn all_functions(judge: &mut Judge, subject: &Subject) {
    judge.ask(subject, Question::Check);
    for tick in [0, 1, subject.plan.length.wrapping_sub(1), subject.plan.length] {
        judge.ask(subject, Question::Lookup { tick });
    }
    for partition in [0, 1, 15, 16] {
        judge.ask(subject, Question::Words { partition });
    }
    judge.ask(subject, Question::ColdStart);
    for state in STATES {
        judge.ask(subject, Question::Tick { tick: 0, state });
        judge.ask(subject, Question::Status { status: 0, state });
    }
    // one word short, and just enough
    for room in [9, 10] {
        judge.ask(subject, Question::Run { ticks: &[0], statuses: &[0, 0, 0], room });
    }
}
