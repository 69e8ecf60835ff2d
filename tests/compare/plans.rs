//! Plans at random, mostly large: sound ones, sound ones with a number or two changed, a record torn or too many records, and noise.

use crate::dice::Dice;
use crate::plan::Plan;

/// Numbers at the edges of some rule.
pub const ODD: [u32; 17] =
    [0, 1, 2, 3, 15, 16, 31, 32, 33, 64, 96, 0x2000_0010, 0x7FFF_FFFF, 0x8000_0000, 0xFFFF_FFE0, 0xFFFF_FFFE, 0xFFFF_FFFF];

fn window_count(d: &mut Dice) -> u64 {
    match d.below(8) {
        0 => 1,
        1 => 64,
        _ => 1 + d.below(64),
    }
}

fn sound_windows(d: &mut Dice, plan: &mut Plan) {
    let count = window_count(d);
    let mut end: u64 = 0;
    for i in 0..count {
        let left = u64::from(u32::MAX) - end - (count - i - 1);
        let most = left.min(1 << d.below(27));
        let budget = match d.below(10) {
            0 => 1,
            1 if i + 1 == count => left,
            _ => 1 + d.below(most),
        };
        plan.windows.extend([d.below(16) as u32, end as u32, budget as u32]);
        end += budget;
    }
    plan.length = end as u32;
}

/// Rows one after another or far apart, some shared by readers, so that most plans pass and some just do not.
fn likely_rows(d: &mut Dice, plan: &mut Plan) {
    let count = match d.below(6) {
        0 => 0,
        1 => 128,
        _ => d.below(129),
    };
    let mut next: u64 = d.pick(&[0, 0x0800_0000, 0x2000_0000, 0xFFFF_0000]);
    for i in 0..count {
        let size = 1u64 << (5 + if d.once_in(20) { d.below(27) } else { d.below(6) });
        let base = if d.once_in(40) { d.below(next + 1) / size * size } else { next.next_multiple_of(size) };
        let base = if base + size > 1 << 32 { d.below(1 << 27) * 32 / size * size } else { base };
        let partition = if d.once_in(30) { d.below(16) } else { i % 16 };
        plan.rows.extend([partition as u32, base as u32, size as u32, d.below(3) as u32]);
        next = base + size;
    }
}

/// A check may take a shorter way where rows are in order: they stay so, turn round, or come in any order.
fn reorder(d: &mut Dice, plan: &mut Plan) {
    let mut records: Vec<[u32; 4]> = plan.rows.as_chunks().0.to_vec();
    match d.below(3) {
        0 => return,
        1 => records.reverse(),
        _ => (1..records.len()).for_each(|i| records.swap(i, d.below(i as u64 + 1) as usize)),
    }
    plan.rows = records.concat();
}

/// Sums of 2^32, which 32 bits take for 0: the last window's end with a length of 0, or two rows that end at the top.
fn wrap(d: &mut Dice, plan: &mut Plan) {
    let last = plan.windows.len().saturating_sub(3);
    if d.once_in(2) && plan.windows.len() > 3 {
        plan.windows[last + 2] = plan.windows[last + 1].wrapping_neg();
        plan.length = 0;
    } else {
        plan.rows.truncate(d.below(8) as usize * 4);
        let (big, small) = (1u32 << (6 + d.below(20)), 32);
        plan.rows.extend([d.below(16) as u32, big.wrapping_neg(), big, d.below(3) as u32]);
        plan.rows.extend([d.below(16) as u32, d.pick(&[big.wrapping_neg() - 32, 0xFFFF_FFE0]), small, d.below(3) as u32]);
    }
}

fn damage(d: &mut Dice, plan: &mut Plan) {
    if d.once_in(12) {
        return wrap(d, plan);
    }
    let list = if d.once_in(2) { &mut plan.windows } else { &mut plan.rows };
    match d.below(20) {
        0 => plan.length = plan.length.wrapping_add(d.pick(&ODD)),
        1 => list.truncate(list.len().saturating_sub(1 + d.below(3) as usize)),
        2 => list.extend([1, 2, 3, 4].iter().take(1 + d.below(4) as usize)),
        3 => list.clear(),
        4 => list.extend(list.clone()),
        _ if list.is_empty() => plan.length = 0,
        _ => {
            let at = d.below(list.len() as u64) as usize;
            list[at] = if d.once_in(3) { list[at].wrapping_add(1) } else { d.pick(&ODD) };
        }
    }
}

/// Numbers small, odd or anything, in lists that are seldom too long.
fn noise(d: &mut Dice) -> Plan {
    let word = |d: &mut Dice| match d.below(4) {
        0 => d.pick(&ODD),
        1 => d.word(),
        _ => d.below(4) as u32,
    };
    let (windows, rows) = (3 * d.below(8) + d.below(30) / 28, 4 * d.below(8) + d.below(30) / 28);
    Plan { length: word(d), windows: (0..windows).map(|_| word(d)).collect(), rows: (0..rows).map(|_| word(d)).collect() }
}

pub fn any(d: &mut Dice) -> Plan {
    if d.once_in(10) {
        return noise(d);
    }
    let mut plan = Plan::default();
    sound_windows(d, &mut plan);
    likely_rows(d, &mut plan);
    reorder(d, &mut plan);
    for _ in 0..d.pick(&[0, 0, 1, 1, 2]) {
        damage(d, &mut plan);
    }
    plan
}

/// Sound windows so short that a run gets through them, with a row for each partition or none; one in ten is damaged.
pub fn brisk(d: &mut Dice) -> Plan {
    let longest = d.pick(&[1, 2, 4, 9]);
    let windows: Vec<(u32, u32)> = (0..window_count(d)).map(|_| (d.below(16) as u32, 1 + d.below(longest) as u32)).collect();
    let rows: Vec<[u32; 4]> = (0..d.pick(&[0, 16])).map(|i| [i, 1024 * i, 32 << d.below(6), d.below(3) as u32]).collect();
    let mut plan = Plan::of(&windows).with_rows(&rows);
    if d.once_in(10) {
        damage(d, &mut plan);
    }
    plan
}
