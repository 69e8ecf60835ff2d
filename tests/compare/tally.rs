//! How many comparisons were made, of which kind, and what came up in them.

use crate::answer::Answer;
use crate::question::FUNCTIONS;
use std::collections::BTreeMap;

/// The refusal numbers that each function gives besides the plan's own, 1 to 11, in the order of FUNCTIONS.
const REFUSALS: [&[u32]; 7] = [&[], &[12], &[15], &[], &[14, 17], &[13, 14, 17], &[16]];

/// Stage and cause of every stop there is, as the state's words have them: a wrong tick in Running, the other two in each switch phase.
const STOPS: [(u32, u32); 7] = [(0, 1), (1, 2), (2, 2), (3, 2), (1, 3), (2, 3), (3, 3)];

struct Kind {
    name: &'static str,
    /// Of each function's answers; and last of what is none: document 01's cases, the rule for 17 and the exploration, the unit and the rows.
    compared: [u64; 8],
}

#[derive(Default)]
pub struct Tally {
    kinds: Vec<Kind>,
    /// How often each function gave each number, 0 where it accepted.
    numbers: BTreeMap<(usize, u32), u64>,
    stops: BTreeMap<(u32, u32), u64>,
}

impl Tally {
    pub fn begin(&mut self, name: &'static str) {
        self.kinds.push(Kind { name, compared: [0; 8] });
    }

    pub fn kind(&self) -> &'static str {
        self.kinds.last().map_or("replay", |kind| kind.name)
    }

    fn add(&mut self, column: usize) {
        if let Some(kind) = self.kinds.last_mut() {
            kind.compared[column] += 1;
        }
    }

    pub fn answered(&mut self, function: usize, answer: &Answer) {
        self.add(function);
        *self.numbers.entry((function, answer.words[0])).or_default() += 1;
        let [.., phase, stage, cause, _] = answer.state;
        if answer.words[0] == 0 && phase == 4 {
            *self.stops.entry((stage, cause)).or_default() += 1;
        }
    }

    /// A comparison of something else than an answer.
    pub fn other(&mut self) {
        self.add(FUNCTIONS.len());
    }

    /// What should have come up and has not.
    pub fn missing(&self) -> Vec<String> {
        let wanted = REFUSALS.iter().enumerate().flat_map(|(f, own)| (0..=11).chain(own.iter().copied()).map(move |number| (f, number)));
        let numbers = wanted.filter(|wanted| !self.numbers.contains_key(wanted)).map(|(f, number)| format!("{} never gave {number}", FUNCTIONS[f]));
        let stops = STOPS.iter().filter(|stop| !self.stops.contains_key(stop));
        numbers.chain(stops.map(|(stage, cause)| format!("no stop in stage {stage} by cause {cause}"))).collect()
    }

    pub fn print(&self) {
        let heads = FUNCTIONS.iter().chain(&["other", "all"]);
        println!("{:<16}{}", "compared", heads.map(|head| format!("{head:>11}")).collect::<String>());
        let sums = std::array::from_fn(|column| self.kinds.iter().map(|kind| kind.compared[column]).sum());
        let total = Kind { name: "total", compared: sums };
        for Kind { name, compared } in self.kinds.iter().chain([&total]) {
            let all = compared.iter().sum::<u64>();
            println!("{name:<16}{}", compared.iter().chain([&all]).map(|count| format!("{count:>11}")).collect::<String>());
        }
        for (f, function) in FUNCTIONS.iter().enumerate() {
            let gave = self.numbers.range((f, 0)..(f + 1, 0)).map(|((_, number), times)| format!(" {number}: {times}"));
            println!("{:<16}{}", format!("{function} gave"), gave.collect::<Vec<_>>().join(","));
        }
        let stops = self.stops.iter().map(|((stage, cause), times)| format!(" {stage} by {cause}: {times}"));
        println!("{:<16}{}", "stopped in", stops.collect::<Vec<_>>().join(","));
    }
}
