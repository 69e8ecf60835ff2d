//! Refusal 17 by trying: the states that events reach on small plans, and a box of words around them, of which no other may pass.

use crate::dice::Dice;
use crate::every;
use crate::judge::{Judge, Subject};
use crate::machine;
use crate::oracle::Accepted;
use crate::question::Question;
use crate::small;
use std::collections::{BTreeSet, VecDeque};

/// What ticks and statuses may carry: all that a small frame can tell apart, and a few large words.
pub fn events(length: u32) -> Vec<u32> {
    let few = [1, 7, 0x8000_0000, u32::MAX];
    (0..=length + 1).chain(few).collect::<BTreeSet<u32>>().into_iter().collect()
}

/// Breadth first from the cold start, with every event in every state; refused events lead nowhere.
pub fn explore(plan: &Accepted, events: &[u32]) -> BTreeSet<[u32; 8]> {
    let mut reached = BTreeSet::new();
    let mut ahead = VecDeque::from([machine::cold_start(plan).0]);
    while let Some(state) = ahead.pop_front() {
        if reached.insert(state.to_words()) {
            let steps = events.iter().flat_map(|&word| [machine::tick(plan, state, word), machine::status(plan, state, word)]);
            ahead.extend(steps.flatten().map(|(state, _)| state));
        }
    }
    reached
}

/// Every state in the box: windows and ticks up to one too many, and no more of the other words than can matter.
fn surroundings(plan: &Accepted, events: &[u32]) -> impl Iterator<Item = [u32; 8]> {
    let upto = |last: u64| (0..=last as u32).collect::<Vec<u32>>();
    let [windows, dues, marks, stages, causes] = [plan.windows.len() as u64, plan.length, 2, 4, 4].map(upto);
    let of = move |phases: &[u32], words: &[u32]| -> Vec<[u32; 8]> {
        every::choice([&windows, &windows, &dues, &marks, phases, &stages, &causes, words]).collect()
    };
    // a stop keeps any word, the other phases keep none
    of(&[4], events).into_iter().chain(of(&[0, 1, 2, 3, 5], &[0, 1]))
}

fn compare_plan(judge: &mut Judge, dice: &mut Dice, subject: &Subject) {
    let Ok(plan) = &subject.verdict else { panic!("the small plans are sound") };
    let events = events(subject.plan.length);
    let reached = explore(plan, &events);
    for state in surroundings(plan, &events) {
        let question = Question::Tick { tick: dice.pick(&events), state };
        let wrong = || format!("the rule for 17 and the exploration differ on {state:?}");
        judge.hold(machine::received(plan, state).is_ok() == reached.contains(&state), wrong, subject, question);
        judge.ask(subject, question);
        judge.ask(subject, Question::Status { status: dice.pick(&events), state });
    }
}

/// Owners play no part in what is reached: one for all.
pub fn compare(judge: &mut Judge, dice: &mut Dice) {
    for plan in small::plans(&[3]) {
        compare_plan(judge, dice, &Subject::new(plan));
    }
}
