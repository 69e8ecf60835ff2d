//! Compares the proved library, through its C interface, with document 01 written out a second time: number, place, host code and every word
//! that a function answers, every word lent to it, and the words beside those. Small plans are compared exhaustively, large ones at random.
//! Prints how many answers of each function were compared, by kind, and how often each number came up. Fails at the first difference, with
//! the question, and if some refusal or some stop never came up.
//!
//! Usage: compare [--more N] [--seed S]      N times as many random comparisons; other ones
//!        compare --only KIND                one kind alone, by its name in the table
//!        compare --replay QUESTION          the question that a difference printed

#[path = "../host.rs"]
mod host;

mod answer;
mod dice;
mod every;
mod judge;
mod known;
mod large;
mod lent;
mod limits;
mod machine;
mod oracle;
mod plan;
mod plans;
mod question;
mod reach;
mod refusal;
mod rights;
mod small;
mod state;
mod states;
mod tally;
mod tour;
mod unit;

use dice::Dice;
use judge::{Judge, Subject};

const SEED: u64 = 20_261_115;

type Kind = (&'static str, fn(&mut Judge, &mut Dice, u64));

/// The last argument is how many times as many as by default, where there is no end to them.
const KINDS: [Kind; 11] = [
    ("known", |judge, _, _| known::compare(judge)),
    ("limits", |judge, _, _| limits::compare(judge)),
    ("windows", |judge, _, _| small::windows(judge)),
    ("rows", |judge, _, _| small::rows(judge)),
    ("small steps", |judge, _, _| small::steps(judge)),
    ("sequences", |judge, _, _| small::sequences(judge)),
    ("small runs", |judge, _, _| small::runs(judge)),
    ("box", |judge, dice, _| reach::compare(judge, dice)),
    ("large plans", |judge, dice, more| large::plans(judge, dice, 40_000 * more)),
    ("large steps", |judge, dice, more| large::steps(judge, dice, 20_000 * more)),
    ("large runs", |judge, dice, more| large::runs(judge, dice, 40_000 * more)),
];

struct Options {
    more: u64,
    seed: u64,
    only: Option<String>,
}

fn options(arguments: &[String]) -> Options {
    let mut options = Options { more: 1, seed: SEED, only: None };
    let number = |value: &str| value.parse().unwrap_or_else(|_| panic!("{value} is no number"));
    for option in arguments.chunks(2) {
        let words: Vec<&str> = option.iter().map(String::as_str).collect();
        match words[..] {
            ["--more", n] => options.more = number(n),
            ["--seed", s] => options.seed = number(s),
            ["--only", kind] if KINDS.iter().any(|(name, _)| *name == kind) => options.only = Some(kind.into()),
            _ => panic!("compare does not take {words:?}"),
        }
    }
    options
}

fn replay(question: &[String]) {
    question::again(question, |plan, question| {
        let answer = Judge::default().ask(&Subject::new(plan), question);
        println!("the same: {:?}, state {:?}, counts {:?}, log {:?}", answer.words, answer.state, answer.counts, answer.log);
    });
}

fn main() {
    let arguments: Vec<String> = std::env::args().skip(1).collect();
    if let [first, question @ ..] = arguments.as_slice() && first == "--replay" {
        return replay(question);
    }
    let Options { more, seed, only } = options(&arguments);
    let mut judge = Judge::default();
    for (name, compare) in KINDS.iter().filter(|(name, _)| only.as_ref().is_none_or(|only| only == name)) {
        judge.tally.begin(name);
        // afresh, so that a kind alone is the same as among the others
        compare(&mut judge, &mut Dice::new(seed), more);
    }
    judge.tally.print();
    let missing = judge.tally.missing();
    assert!(only.is_some() || missing.is_empty(), "some answers never came up:\n  {}", missing.join("\n  "));
    println!("compare: the same answers, seed {seed}");
}
