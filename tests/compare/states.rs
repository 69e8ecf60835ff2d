//! States at random: such as events reach, such as they nearly reach, and noise; and events that suit a state, or nearly.

use crate::dice::Dice;
use crate::machine;
use crate::oracle::Accepted;
use crate::plans::ODD;
use crate::state::{Phase, Stage, State};

pub fn some_tick(d: &mut Dice, due: u32, length: u32) -> u32 {
    match d.below(8) {
        0..4 => due,
        4 => due.wrapping_add(1),
        5 => due.wrapping_sub(1),
        6 => d.pick(&[0, length.wrapping_sub(1), length, u32::MAX]),
        _ => d.word(),
    }
}

pub fn some_status(d: &mut Dice) -> u32 {
    if d.once_in(4) { d.pick(&[1, 7, 0x8000_0000, u32::MAX]) } else { 0 }
}

/// Somewhere in a window, often at its edge. A long frame takes too many ticks to come there one by one.
fn running(d: &mut Dice, plan: &Accepted) -> State {
    let current = d.below(plan.windows.len() as u64) as u32;
    let ticks = plan.windows[current as usize].ticks();
    let due = match d.below(3) {
        0 => ticks.start,
        1 => ticks.end - 1,
        _ => ticks.start + d.below(ticks.end - ticks.start),
    };
    State { current, target: current, due: due as u32, swapped: true, phase: Phase::At(Stage::Running) }
}

/// A few events on from there, or from the cold start.
fn reached(d: &mut Dice, plan: &Accepted) -> [u32; 8] {
    let mut state = if d.once_in(8) { machine::cold_start(plan).0 } else { running(d, plan) };
    for _ in 0..d.below(5) {
        let ticks = matches!(state.phase, Phase::At(Stage::Running)) != d.once_in(8);
        let step = match ticks {
            true => machine::tick(plan, state, some_tick(d, state.due, plan.length as u32)),
            false => machine::status(plan, state, some_status(d)),
        };
        state = step.map_or(state, |(after, _)| after);
    }
    state.to_words()
}

/// One word changed, a little or wholly.
fn near(d: &mut Dice, mut words: [u32; 8]) -> [u32; 8] {
    let at = d.below(8) as usize;
    words[at] = match d.below(4) {
        0 => words[at].wrapping_add(1),
        1 => words[at].wrapping_sub(1),
        2 => d.below(5) as u32,
        _ => d.pick(&ODD),
    };
    words
}

fn noise(d: &mut Dice) -> [u32; 8] {
    std::array::from_fn(|_| if d.once_in(4) { d.word() } else { d.below(5) as u32 })
}

/// A state for the plan; without an accepted plan there is only noise.
pub fn any(d: &mut Dice, plan: Option<&Accepted>) -> [u32; 8] {
    let Some(plan) = plan.filter(|_| !d.once_in(10)) else { return noise(d) };
    let changes = d.pick(&[0, 0, 0, 1, 1, 2]);
    (0..changes).fold(reached(d, plan), |state, _| near(d, state))
}
