//! Runs the original's own bodies: reads cases, one a line, and writes the answer to each, one a line. STRIPPED, an environment variable
//! at compile time, is the path of the original as `strip` leaves it.
//!
//! A case is twenty numbers: op, partition_id[4], offset[4], budget[4], frame_len, cur, phase, swapped, x, y, z.
//!   1 check               ok
//!   2 current_window(x)   window
//!   3 new                 cur phase swapped
//!   4 tick(x)             switched cur phase swapped
//!   5 mark_saved, 6 mark_swapped, 7 mark_resumed
//!                         ok cur phase swapped
//!   8 run_switch          cur phase swapped, then for each call its seam (1 save, 2 swap, 3 resume) and its partition; x, y, z are what
//!                         the seams return
//! A phase is its place in PHASES; yes is 1 and no is 0.

use std::io::{self, BufRead, BufWriter, Write};
use std::sync::Mutex;

mod original {
    include!(env!("STRIPPED"));
}

use original::{MAX_WINDOWS, MajorFrame, SwPhase, Switcher};

const PHASES: [SwPhase; 4] = [SwPhase::Running, SwPhase::SaveCtx, SwPhase::ProgramRegions, SwPhase::Resume];

/// The seams are free functions, so what they return in the case at hand, and the calls it made, are kept beside them.
struct Seams {
    statuses: [u32; 3],
    calls: Vec<u32>,
}

static SEAMS: Mutex<Seams> = Mutex::new(Seams { statuses: [0; 3], calls: Vec::new() });

fn called(seam: u32, part: u32) -> u32 {
    let mut seams = SEAMS.lock().unwrap();
    seams.calls.extend([seam, part]);
    seams.statuses[seam as usize - 1]
}

#[unsafe(no_mangle)]
extern "C" fn ctx_save(part: u32) -> u32 {
    called(1, part)
}

#[unsafe(no_mangle)]
extern "C" fn region_swap(part: u32) -> u32 {
    called(2, part)
}

#[unsafe(no_mangle)]
extern "C" fn ctx_resume(part: u32) -> u32 {
    called(3, part)
}

struct Case {
    op: u32,
    switcher: Switcher,
    further: [u32; 3],
}

fn four(numbers: &[u32]) -> [u32; MAX_WINDOWS] {
    numbers.try_into().unwrap()
}

fn case(line: &str) -> Case {
    let numbers: Vec<u32> = line.split(' ').map(|word| word.parse().unwrap_or_else(|_| panic!("no u32 in: {line}"))).collect();
    assert!(numbers.len() == 20 && numbers[15] < 4 && numbers[16] < 2, "not a case: {line}");
    let frame =
        MajorFrame { partition_id: four(&numbers[1..5]), offset: four(&numbers[5..9]), budget: four(&numbers[9..13]), frame_len: numbers[13] };
    let switcher = Switcher { frame, cur: numbers[14], phase: PHASES[numbers[15] as usize], swapped: numbers[16] == 1 };
    Case { op: numbers[0], switcher, further: [numbers[17], numbers[18], numbers[19]] }
}

/// What the original gives no equality for: every number of a frame.
fn numbers(frame: &MajorFrame) -> ([u32; MAX_WINDOWS], [u32; MAX_WINDOWS], [u32; MAX_WINDOWS], u32) {
    (frame.partition_id, frame.offset, frame.budget, frame.frame_len)
}

fn state(s: &Switcher) -> Vec<u32> {
    let phase = PHASES.iter().position(|phase| *phase == s.phase).unwrap();
    vec![s.cur, phase as u32, s.swapped.into()]
}

fn step(ok: bool, s: &Switcher) -> Vec<u32> {
    [vec![ok.into()], state(s)].concat()
}

fn operate(op: u32, s: &mut Switcher, x: u32) -> Vec<u32> {
    match op {
        1 => vec![s.frame.check().into()],
        2 => vec![s.frame.current_window(x)],
        3 => {
            *s = Switcher::new(s.frame);
            state(s)
        }
        4 => step(s.tick(x), s),
        5 => step(s.mark_saved(), s),
        6 => step(s.mark_swapped(), s),
        7 => step(s.mark_resumed(), s),
        8 => {
            s.run_switch();
            state(s)
        }
        _ => panic!("no operation {op}"),
    }
}

fn answer(mut case: Case) -> Vec<u32> {
    *SEAMS.lock().unwrap() = Seams { statuses: case.further, calls: Vec::new() };
    let before = numbers(&case.switcher.frame);
    let mut answer = operate(case.op, &mut case.switcher, case.further[0]);
    assert_eq!(numbers(&case.switcher.frame), before, "the frame changed");
    // after every operation, so that a call that none should make would show
    answer.append(&mut SEAMS.lock().unwrap().calls);
    answer
}

fn main() -> io::Result<()> {
    let mut out = BufWriter::new(io::stdout().lock());
    for line in io::stdin().lock().lines() {
        let words: Vec<String> = answer(case(&line?)).iter().map(u32::to_string).collect();
        writeln!(out, "{}", words.join(" "))?;
    }
    out.flush()
}
