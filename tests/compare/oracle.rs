//! Document 01's check, lookup and region words a second time, by another way than the proved code: every fault of the whole plan is collected
//! with its rank in document 01's order, and the least is the answer. Slow, and nothing is left out on the way.

use crate::plan::Plan;
use crate::refusal::{LOOKUP_TICK, NO_PARTITION, Refusal};
use std::ops::Range;

pub struct Window {
    pub owner: u32,
    offset: u64,
    budget: u64,
}

impl Window {
    /// Sums do not fit 32 bits: the last window may end at 2^32 - 1, and a bad one beyond.
    pub fn ticks(&self) -> Range<u64> {
        self.offset..self.offset + self.budget
    }
}

struct Row {
    partition: u32,
    base: u64,
    size: u64,
    access: u32,
}

/// A plan that has been accepted, as records.
pub struct Accepted {
    pub length: u64,
    pub windows: Vec<Window>,
    rows: Vec<Row>,
}

/// A fault's rank: the stage (1, the windows, 5, the rows), the place, the number.
type Rank = (u32, usize, u32);

fn clash(a: &Row, b: &Row) -> bool {
    let shared = a.base.max(b.base)..(a.base + a.size).min(b.base + b.size);
    !shared.is_empty() && (a.partition == b.partition || [a.access, b.access].contains(&1))
}

fn record(plan: &Plan) -> Option<Accepted> {
    let (windows, []) = plan.windows.as_chunks() else { return None };
    let (rows, []) = plan.rows.as_chunks() else { return None };
    let window = |&[owner, offset, budget]: &[u32; 3]| Window { owner, offset: offset.into(), budget: budget.into() };
    let row = |&[partition, base, size, access]: &[u32; 4]| Row { partition, base: base.into(), size: size.into(), access };
    let counted = (1..=64).contains(&windows.len()) && rows.len() <= 128;
    counted.then(|| Accepted {
        length: plan.length.into(),
        windows: windows.iter().map(window).collect(),
        rows: rows.iter().map(row).collect(),
    })
}

fn faults(plan: &Accepted) -> Vec<Rank> {
    let (windows, rows) = (&plan.windows, &plan.rows);
    let mut found = Vec::new();
    let mut note = |wrong: bool, rank: Rank| if wrong { found.push(rank) };
    for (i, w) in windows.iter().enumerate() {
        let start = if i == 0 { 0 } else { windows[i - 1].ticks().end };
        note(w.budget == 0, (1, i, 2));
        note(w.offset != start, (1, i, 3));
        note(w.owner > 15, (1, i, 4));
    }
    let last = windows.len() - 1;
    note(windows[last].ticks().end != plan.length, (2, last, 5));
    for (i, r) in rows.iter().enumerate() {
        let before = &rows[..i];
        note(r.partition > 15, (3, i, 6));
        note(r.size < 32 || !r.size.is_power_of_two(), (3, i, 7));
        note(r.size == 0 || r.base / r.size * r.size != r.base, (3, i, 8));
        note(!(0..=2).contains(&r.access), (3, i, 9));
        note(before.iter().filter(|o| o.partition == r.partition).count() >= 8, (3, i, 10));
        note(before.iter().any(|o| clash(o, r)), (3, i, 11));
    }
    found
}

pub fn check(plan: &Plan) -> Result<Accepted, Refusal> {
    let records = record(plan).ok_or(Refusal { number: 1, place: 0 })?;
    match faults(&records).into_iter().min() {
        None => Ok(records),
        Some((_, place, number)) => Err(Refusal { number, place: place as u32 }),
    }
}

/// Bits put together by shifts, the size field from the other end of the word. A base fits 32 bits, and so does a size: it is one bit.
fn pair(slot: u32, row: &Row) -> [u32; 2] {
    let (ap, xn) = [(6, 1), (3, 1), (6, 0)][row.access as usize];
    [row.base as u32 | 1 << 4 | slot, xn << 28 | ap << 24 | 1 << 19 | (30 - (row.size as u32).leading_zeros()) << 1 | 1]
}

impl Accepted {
    pub fn lookup(&self, tick: u32) -> Result<u32, Refusal> {
        let window = self.windows.iter().position(|w| w.ticks().contains(&tick.into()));
        window.map(|i| i as u32).ok_or(LOOKUP_TICK)
    }

    pub fn words(&self, partition: u32) -> Result<[[u32; 2]; 8], Refusal> {
        if partition > 15 {
            return Err(NO_PARTITION);
        }
        let mut own = self.rows.iter().filter(|r| r.partition == partition);
        Ok(std::array::from_fn(|k| own.next().map_or([16 + k as u32, 0], |r| pair(k as u32, r))))
    }
}
