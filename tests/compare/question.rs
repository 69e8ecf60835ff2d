//! One question to the library, besides the plan; and its text, which asks it again from the command line.

use crate::plan::Plan;

#[derive(Clone, Copy)]
pub enum Question<'a> {
    Check,
    Lookup { tick: u32 },
    Words { partition: u32 },
    ColdStart,
    Tick { tick: u32, state: [u32; 8] },
    Status { status: u32, state: [u32; 8] },
    /// `room` is the number of words in the log.
    Run { ticks: &'a [u32], statuses: &'a [u32], room: usize },
}

/// The functions, in the order of their numbers.
pub const FUNCTIONS: [&str; 7] = ["check", "lookup", "words", "cold_start", "tick", "status", "run"];

fn text(list: &[u32]) -> String {
    let numbers: Vec<String> = list.iter().map(u32::to_string).collect();
    if list.is_empty() { "-".into() } else { numbers.join(",") }
}

fn list(text: &str) -> Vec<u32> {
    let number = |n: &str| n.parse().unwrap_or_else(|_| panic!("{n} is no number"));
    if text == "-" { Vec::new() } else { text.split(',').map(number).collect() }
}

impl Question<'_> {
    pub fn function(&self) -> usize {
        match self {
            Question::Check => 0,
            Question::Lookup { .. } => 1,
            Question::Words { .. } => 2,
            Question::ColdStart => 3,
            Question::Tick { .. } => 4,
            Question::Status { .. } => 5,
            Question::Run { .. } => 6,
        }
    }

    /// What `--replay` takes: the function, the plan, the rest. Lists go with commas, an empty one as a dash.
    pub fn replay(&self, plan: &Plan) -> String {
        let rest = match self {
            Question::Check | Question::ColdStart => String::new(),
            Question::Lookup { tick: word } | Question::Words { partition: word } => format!(" {word}"),
            Question::Tick { tick: word, state } | Question::Status { status: word, state } => format!(" {word} {}", text(state)),
            Question::Run { ticks, statuses, room } => format!(" {} {} {room}", text(ticks), text(statuses)),
        };
        format!("{} {} {} {}{rest}", FUNCTIONS[self.function()], plan.length, text(&plan.windows), text(&plan.rows))
    }
}

/// Reads what `replay` wrote, and asks it.
pub fn again(arguments: &[String], ask: impl FnOnce(Plan, Question)) {
    let [function, lists @ ..] = arguments else { panic!("--replay takes a question") };
    let lists: Vec<Vec<u32>> = lists.iter().map(|text| list(text)).collect();
    let lists: Vec<&[u32]> = lists.iter().map(Vec::as_slice).collect();
    let [&[length], windows, rows, ref rest @ ..] = lists[..] else { panic!("{function} takes a plan") };
    let state = |words: &[u32]| words.try_into().expect("a state has eight words");
    let question = match (function.as_str(), rest) {
        ("check", &[]) => Question::Check,
        ("lookup", &[&[tick]]) => Question::Lookup { tick },
        ("words", &[&[partition]]) => Question::Words { partition },
        ("cold_start", &[]) => Question::ColdStart,
        ("tick", &[&[tick], words]) => Question::Tick { tick, state: state(words) },
        ("status", &[&[status], words]) => Question::Status { status, state: state(words) },
        ("run", &[ticks, statuses, &[room]]) => Question::Run { ticks, statuses, room: room as usize },
        _ => panic!("{function} is not asked like this"),
    };
    ask(Plan { length, windows: windows.to_vec(), rows: rows.to_vec() }, question);
}
