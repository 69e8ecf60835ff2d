//! Puts a question to the library. Every list and array is lent between canaries, and what the library may only read is looked at again.

use crate::answer::{Answer, STALE};
use crate::host;
use crate::plan::Plan;
use crate::question::Question;
use std::hint::black_box;

const FENCE: usize = 4;
const CANARY: u32 = 0xCA7A_0B1E;

pub struct Fenced<T> {
    whole: Vec<T>,
}

impl<T: Copy + PartialEq + From<u32>> Fenced<T> {
    pub fn new(inside: &[T]) -> Fenced<T> {
        let canaries = [T::from(CANARY); FENCE];
        Fenced { whole: [&canaries, inside, &canaries].concat() }
    }

    fn inside(&self) -> &[T] {
        &self.whole[FENCE..self.whole.len() - FENCE]
    }

    fn inside_mut(&mut self) -> &mut [T] {
        let end = self.whole.len() - FENCE;
        &mut self.whole[FENCE..end]
    }

    fn array<const N: usize>(&mut self) -> &mut [T; N] {
        self.inside_mut().try_into().expect("the array is made as long as it is lent")
    }

    fn stands(&self) -> bool {
        // the compiler may take what is lent for reading as unchanged: look at it anew
        let whole = black_box(&self.whole);
        let (left, right) = (&whole[..FENCE], &whole[whole.len() - FENCE..]);
        left.iter().chain(right).all(|&canary| canary == T::from(CANARY))
    }

    fn keeps(&self, inside: &[T]) -> bool {
        self.stands() && black_box(self.inside()) == inside
    }
}

/// The plan's lists as they are lent, once for all questions on a plan.
pub struct Lists {
    windows: Fenced<u32>,
    rows: Fenced<u32>,
}

impl Lists {
    pub fn new(plan: &Plan) -> Lists {
        Lists { windows: Fenced::new(&plan.windows), rows: Fenced::new(&plan.rows) }
    }
}

/// The arrays of one call.
struct Arrays {
    answer: Fenced<u32>,
    state: Fenced<u32>,
    counts: Fenced<u64>,
    log: Fenced<u32>,
    ticks: Fenced<u32>,
    statuses: Fenced<u32>,
}

impl Arrays {
    fn new(question: &Question) -> Arrays {
        let before = Answer::before(question);
        let (ticks, statuses) = events(question);
        let words = [3, 4, 19, 5, 5, 5, 3][question.function()];
        Arrays {
            answer: Fenced::new(&[STALE; 19][..words]),
            state: Fenced::new(&before.state),
            counts: Fenced::new(&before.counts),
            log: Fenced::new(&before.log),
            ticks: Fenced::new(ticks),
            statuses: Fenced::new(statuses),
        }
    }

    fn put(&mut self, plan: host::Plan, question: &Question) {
        match *question {
            Question::Check => host::check(plan, self.answer.array()),
            Question::Lookup { tick } => host::lookup(plan, tick, self.answer.array()),
            Question::Words { partition } => host::words(plan, partition, self.answer.array()),
            Question::ColdStart => host::cold_start(plan, self.state.array(), self.answer.array()),
            Question::Tick { tick, .. } => host::tick(plan, tick, self.state.array(), self.answer.array()),
            Question::Status { status, .. } => host::status(plan, status, self.state.array(), self.answer.array()),
            Question::Run { .. } => {
                let Arrays { answer, state, counts, log, ticks, statuses } = self;
                let (ticks, statuses, log) = (ticks.inside(), statuses.inside(), log.inside_mut());
                host::run(plan, host::Run { ticks, statuses, log, state: state.array(), counts: counts.array() }, answer.array());
            }
        }
    }

    fn answer(mut self) -> Answer {
        let mut words = [0; 19];
        words[..self.answer.inside().len()].copy_from_slice(self.answer.inside());
        Answer { words, state: *self.state.array(), counts: *self.counts.array(), log: self.log.inside().to_vec() }
    }
}

fn events<'a>(question: &Question<'a>) -> (&'a [u32], &'a [u32]) {
    if let Question::Run { ticks, statuses, .. } = *question { (ticks, statuses) } else { (&[], &[]) }
}

/// The library's answer, and what it wrote where it must not.
pub fn put(plan: &Plan, lists: &Lists, question: &Question) -> (Answer, Vec<&'static str>) {
    let mut arrays = Arrays::new(question);
    arrays.put(host::Plan { length: plan.length, windows: lists.windows.inside(), rows: lists.rows.inside() }, question);
    let (ticks, statuses) = events(question);
    let kept = [
        (lists.windows.keeps(&plan.windows), "the windows were written to, or beside"),
        (lists.rows.keeps(&plan.rows), "the rows were written to, or beside"),
        (arrays.ticks.keeps(ticks), "the ticks were written to, or beside"),
        (arrays.statuses.keeps(statuses), "the statuses were written to, or beside"),
        (arrays.answer.stands(), "a word beside the answer was written"),
        (arrays.state.stands(), "a word beside the state was written"),
        (arrays.counts.stands(), "a word beside the counts was written"),
        (arrays.log.stands(), "a word beside the log was written"),
    ];
    let broken = kept.into_iter().filter(|(kept, _)| !kept).map(|(_, what)| what).collect();
    (arrays.answer(), broken)
}
