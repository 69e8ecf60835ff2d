//! All that a function may write, as words: what the oracle expects there, and where two answers differ.

use crate::machine::{self, Run, Step};
use crate::oracle::Accepted;
use crate::question::Question;
use crate::refusal::Refusal;

/// Fills what is lent where the question does not say what it holds; nothing that a function would write.
pub const STALE: u32 = 0x5EED_0000;

/// What a function does not write stays as it was lent.
#[derive(Clone, PartialEq, Eq)]
pub struct Answer {
    /// The longest answer has 19 words; those that a function lacks are 0.
    pub words: [u32; 19],
    pub state: [u32; 8],
    pub counts: [u64; 3],
    pub log: Vec<u32>,
}

impl Answer {
    /// The arrays as they are lent.
    pub fn before(question: &Question) -> Answer {
        let state = match *question {
            Question::Tick { state, .. } | Question::Status { state, .. } => state,
            _ => std::array::from_fn(|i| STALE + i as u32),
        };
        let room = if let Question::Run { room, .. } = *question { room } else { 0 };
        let log = (0..room).map(|i| STALE + i as u32).collect();
        Answer { words: [0; 19], state, counts: [STALE.into(); 3], log }
    }

    fn step(&mut self, (state, call): Step) {
        self.state = state.to_words();
        self.words[3..5].copy_from_slice(&call.map_or([0, 0], |call| call.to_words()));
    }

    fn run(&mut self, run: Run) {
        self.state = run.end.to_words();
        self.counts = [run.ticks_used, run.statuses_used, run.calls.len() as u64];
        for (record, call) in self.log.chunks_mut(2).zip(run.calls) {
            record.copy_from_slice(&call.to_words());
        }
    }

    fn fill(&mut self, verdict: &Result<Accepted, Refusal>, question: &Question) -> Result<(), Refusal> {
        let plan = verdict.as_ref().map_err(|&refusal| refusal)?;
        match *question {
            Question::Check => {}
            Question::Lookup { tick } => self.words[3] = plan.lookup(tick)?,
            Question::Words { partition } => self.words[3..].copy_from_slice(plan.words(partition)?.as_flattened()),
            Question::ColdStart => self.step(machine::cold_start(plan)),
            Question::Tick { tick, state } => self.step(machine::tick(plan, machine::received(plan, state)?, tick)?),
            Question::Status { status, state } => self.step(machine::status(plan, machine::received(plan, state)?, status)?),
            Question::Run { ticks, statuses, room } => self.run(machine::run(plan, ticks, statuses, room)?),
        }
        Ok(())
    }

    /// Document 01's answer, where the verdict is its check of the plan.
    pub fn expected(verdict: &Result<Accepted, Refusal>, question: &Question) -> Answer {
        let mut answer = Answer::before(question);
        if let Question::Run { .. } = question {
            answer.counts = [0; 3];
        }
        if let Err(refusal) = answer.fill(verdict, question) {
            answer.words[..3].copy_from_slice(&refusal.words());
        }
        answer
    }

    pub fn differences(&self, expected: &Answer, question: &Question) -> Vec<String> {
        let word = |i: usize| (answer_word(question, i), u64::from(self.words[i]), u64::from(expected.words[i]));
        let state = |i: usize| (STATE_WORDS[i].to_string(), u64::from(self.state[i]), u64::from(expected.state[i]));
        let count = |i: usize| (COUNTS[i].to_string(), self.counts[i], expected.counts[i]);
        let log = |i: usize| (format!("word {i} of the log"), u64::from(self.log[i]), u64::from(expected.log[i]));
        let all = (0..19).map(word).chain((0..8).map(state)).chain((0..3).map(count)).chain((0..self.log.len()).map(log));
        let differ = all.filter(|(_, ours, theirs)| ours != theirs);
        differ.map(|(what, ours, theirs)| format!("{what}: the library {ours}, the oracle {theirs}")).collect()
    }
}

const STATE_WORDS: [&str; 8] =
    ["the current window", "the target window", "the due tick", "the mark", "the phase", "the stage", "the cause", "the word"];
const COUNTS: [&str; 3] = ["the ticks used", "the statuses used", "the calls written"];

fn answer_word(question: &Question, i: usize) -> String {
    match (question, i) {
        (_, 0) => "the number".into(),
        (_, 1) => "the place".into(),
        (_, 2) => "the host code".into(),
        (Question::Lookup { .. }, _) => "the window".into(),
        (Question::Words { .. }, _) => format!("the {} word of slot {}", ["first", "second"][(i - 3) % 2], (i - 3) / 2),
        (_, 3) => "the call".into(),
        _ => "the call's partition".into(),
    }
}
