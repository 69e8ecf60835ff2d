//! Asks the library and the oracle the same, and stops the program at the first difference.

use crate::answer::Answer;
use crate::lent::{self, Lists};
use crate::oracle::{self, Accepted};
use crate::plan::Plan;
use crate::question::Question;
use crate::refusal::Refusal;
use crate::tally::Tally;

/// A plan that questions are asked about. Its check by the oracle and its lent lists are made once.
pub struct Subject {
    pub plan: Plan,
    pub verdict: Result<Accepted, Refusal>,
    lists: Lists,
}

impl Subject {
    pub fn new(plan: Plan) -> Subject {
        Subject { verdict: oracle::check(&plan), lists: Lists::new(&plan), plan }
    }
}

#[derive(Default)]
pub struct Judge {
    pub tally: Tally,
}

impl Judge {
    /// The answer, the same from both.
    pub fn ask(&mut self, subject: &Subject, question: Question) -> Answer {
        let expected = Answer::expected(&subject.verdict, &question);
        let (answer, broken) = lent::put(&subject.plan, &subject.lists, &question);
        if answer != expected || !broken.is_empty() {
            let mut faults = answer.differences(&expected, &question);
            faults.extend(broken.into_iter().map(String::from));
            self.fail(&faults.join("\n  "), subject, &question);
        }
        self.tally.answered(question.function(), &answer);
        answer
    }

    /// A comparison of something else than an answer, on the way of a question.
    pub fn hold(&mut self, holds: bool, what: impl FnOnce() -> String, subject: &Subject, question: Question) {
        if !holds {
            self.fail(&what(), subject, &question);
        }
        self.tally.other();
    }

    fn fail(&self, what: &str, subject: &Subject, question: &Question) -> ! {
        eprintln!("compare: a difference, kind \"{}\":\n  {what}\nagain: compare --replay {}", self.tally.kind(), question.replay(&subject.plan));
        std::process::exit(1)
    }
}
