//! Document 01's machine and run, step by step from its text.

use crate::oracle::Accepted;
use crate::refusal::{LOG_TOO_SHORT, NO_CALL_OPEN, NOT_REACHED, Refusal, STOPPED};
use crate::state::{Cause, Phase, Stage, State};

#[derive(Clone, Copy, PartialEq, Eq, Debug)]
pub enum Call {
    Save(u32),
    Swap(u32),
    Resume(u32),
}

impl Call {
    /// The call's number and its partition, as in an answer or a log.
    pub fn to_words(self) -> [u32; 2] {
        match self {
            Call::Save(partition) => [1, partition],
            Call::Swap(partition) => [2, partition],
            Call::Resume(partition) => [3, partition],
        }
    }
}

/// The state after an event, and the call it asks for.
pub type Step = (State, Option<Call>);

pub fn cold_start(plan: &Accepted) -> Step {
    let state = State { current: 0, target: 0, due: 0, swapped: false, phase: Phase::At(Stage::ProgramRegions) };
    (state, Some(Call::Swap(owner(plan, 0))))
}

/// A state that came back from the host. Refusal 17 comes before the refusals of the step.
pub fn received(plan: &Accepted, words: [u32; 8]) -> Result<State, Refusal> {
    State::from_words(words).filter(|state| reached(plan, state)).ok_or(NOT_REACHED)
}

pub fn tick(plan: &Accepted, state: State, t: u32) -> Result<Step, Refusal> {
    match state.phase {
        Phase::Stopped(..) => Err(STOPPED),
        Phase::At(Stage::Running) if t == state.due => Ok(due_tick(plan, state)),
        Phase::At(Stage::Running) => Ok(stop(state, Stage::Running, Cause::WrongTick(t))),
        Phase::At(stage) => Ok(stop(state, stage, Cause::TickInSwitch(t))),
    }
}

pub fn status(plan: &Accepted, state: State, word: u32) -> Result<Step, Refusal> {
    let incoming = owner(plan, state.target);
    match (state.phase, word) {
        (Phase::Stopped(..), _) => Err(STOPPED),
        (Phase::At(Stage::Running), _) => Err(NO_CALL_OPEN),
        (Phase::At(Stage::SaveCtx), 0) => Ok((State { phase: Phase::At(Stage::ProgramRegions), ..state }, Some(Call::Swap(incoming)))),
        (Phase::At(Stage::ProgramRegions), 0) => {
            Ok((State { phase: Phase::At(Stage::Resume), swapped: true, ..state }, Some(Call::Resume(incoming))))
        }
        (Phase::At(Stage::Resume), 0) => Ok((State { phase: Phase::At(Stage::Running), current: state.target, ..state }, None)),
        (Phase::At(stage), _) => Ok(stop(state, stage, Cause::BadStatus(word))),
    }
}

fn owner(plan: &Accepted, window: u32) -> u32 {
    plan.windows[window as usize].owner
}

fn next_window(plan: &Accepted, window: u32) -> u32 {
    (window + 1) % plan.windows.len() as u32
}

/// The tick that was due, in Running.
fn due_tick(plan: &Accepted, state: State) -> Step {
    let after = u64::from(state.due) + 1;
    // below the frame length, which fits 32 bits
    let due = if after == plan.length { 0 } else { after as u32 };
    if after != plan.windows[state.current as usize].ticks().end {
        return (State { due, ..state }, None);
    }
    let switch = State { target: next_window(plan, state.current), due, swapped: false, phase: Phase::At(Stage::SaveCtx), ..state };
    (switch, Some(Call::Save(owner(plan, state.current))))
}

fn stop(state: State, stage: Stage, cause: Cause) -> Step {
    (State { phase: Phase::Stopped(stage, cause), ..state }, None)
}

/// Whether events reach the state, without trying them: reach.rs tries them, on small plans.
/// A partition runs within its window, its regions swapped in. A switch goes from a window to the next, whose first tick is due; the
/// first switch of all has no window to come from and nothing to save. A stop adds what stopped it, which must be something that does.
pub fn reached(plan: &Accepted, state: &State) -> bool {
    let State { current, target, due, swapped, phase } = *state;
    let Some(window) = plan.windows.get(current as usize) else { return false };
    let (stage, stops) = match phase {
        Phase::At(stage) => (stage, true),
        Phase::Stopped(stage, Cause::WrongTick(t)) => (stage, stage == Stage::Running && t != due),
        Phase::Stopped(stage, Cause::TickInSwitch(_)) => (stage, stage != Stage::Running),
        Phase::Stopped(stage, Cause::BadStatus(word)) => (stage, stage != Stage::Running && word != 0),
    };
    let first = (current, target, due) == (0, 0, 0);
    let later = target == next_window(plan, current) && u64::from(due) == plan.windows[target as usize].ticks().start;
    let stands = match stage {
        Stage::Running => swapped && target == current && window.ticks().contains(&due.into()),
        Stage::SaveCtx => !swapped && later,
        Stage::ProgramRegions => !swapped && (first || later),
        Stage::Resume => swapped && (first || later),
    };
    stops && stands
}

pub struct Run {
    pub end: State,
    pub calls: Vec<Call>,
    pub ticks_used: u64,
    pub statuses_used: u64,
}

/// `room` is the number of words in the log.
pub fn run(plan: &Accepted, ticks: &[u32], statuses: &[u32], room: usize) -> Result<Run, Refusal> {
    if room < 4 + 6 * ticks.len() {
        return Err(LOG_TOO_SHORT);
    }
    let (mut end, mut open) = cold_start(plan);
    let mut calls = Vec::from_iter(open);
    let (mut ticks_left, mut statuses_left) = (ticks.iter(), statuses.iter());
    while let Phase::At(_) = end.phase {
        let event = if open.is_some() { statuses_left.next() } else { ticks_left.next() };
        let Some(&word) = event else { break };
        (end, open) = if open.is_some() { status(plan, end, word)? } else { tick(plan, end, word)? };
        calls.extend(open);
    }
    let used = |all: &[u32], left: usize| (all.len() - left) as u64;
    let (ticks_used, statuses_used) = (used(ticks, ticks_left.len()), used(statuses, statuses_left.len()));
    Ok(Run { end, calls, ticks_used, statuses_used })
}
