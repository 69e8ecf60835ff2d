//! A state of the machine, and the eight words that carry one across the interface.

use Stage::{ProgramRegions, Resume, Running, SaveCtx};

#[derive(Clone, Copy, PartialEq, Eq, Debug)]
pub enum Stage {
    Running,
    SaveCtx,
    ProgramRegions,
    Resume,
}

#[derive(Clone, Copy, PartialEq, Eq, Debug)]
pub enum Cause {
    WrongTick(u32),
    TickInSwitch(u32),
    BadStatus(u32),
}

#[derive(Clone, Copy, PartialEq, Eq, Debug)]
pub enum Phase {
    At(Stage),
    Stopped(Stage, Cause),
}

#[derive(Clone, Copy, PartialEq, Eq, Debug)]
pub struct State {
    pub current: u32,
    pub target: u32,
    pub due: u32,
    pub swapped: bool,
    pub phase: Phase,
}

/// In the order of their numbers.
const STAGES: [Stage; 4] = [Running, SaveCtx, ProgramRegions, Resume];

impl State {
    pub fn to_words(self) -> [u32; 8] {
        let [phase, stage, cause, word] = match self.phase {
            Phase::At(stage) => [stage as u32, stage as u32, 0, 0],
            Phase::Stopped(stage, Cause::WrongTick(t)) => [4, stage as u32, 1, t],
            Phase::Stopped(stage, Cause::TickInSwitch(t)) => [4, stage as u32, 2, t],
            Phase::Stopped(stage, Cause::BadStatus(word)) => [4, stage as u32, 3, word],
        };
        [self.current, self.target, self.due, self.swapped.into(), phase, stage, cause, word]
    }

    /// None where the words are no state, whatever the plan.
    pub fn from_words([current, target, due, mark, phase, stage, cause, word]: [u32; 8]) -> Option<State> {
        let named = *STAGES.get(stage as usize)?;
        let phase = match (phase, cause) {
            (0..=3, 0) if phase == stage && word == 0 => Phase::At(named),
            (4, 1) => Phase::Stopped(named, Cause::WrongTick(word)),
            (4, 2) => Phase::Stopped(named, Cause::TickInSwitch(word)),
            (4, 3) => Phase::Stopped(named, Cause::BadStatus(word)),
            _ => return None,
        };
        (mark <= 1).then_some(State { current, target, due, swapped: mark == 1, phase })
    }
}
