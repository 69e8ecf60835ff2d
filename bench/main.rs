//! Times the proved library against the ordinary Rust of ordinary.rs, turn by turn in one run.

mod ordinary;
mod proved;
mod timing;

use std::hint::black_box;
use timing::{compare, contender, Contender};

/// 64 windows of `budget` ticks.
fn windows(budget: u32) -> Vec<u32> {
    (0..64).flat_map(|i| [i % 16, i * budget, budget]).collect()
}

/// Writable rows of 1024 bytes, side by side, of partitions 0 to 15 in turn: row i is the one at place `order[i]`.
fn rows(order: &[u32]) -> Vec<u32> {
    order.iter().flat_map(|k| [k % 16, 0x2000_0000 + k * 1024, 1024, 1]).collect()
}

/// The same shuffle in every run: each place changes with one at or before it, by a small generator.
fn shuffled(count: u32) -> Vec<u32> {
    let mut order: Vec<u32> = (0..count).collect();
    let mut seed = 12345u64;
    for i in (1..order.len()).rev() {
        seed = seed.wrapping_mul(6364136223846793005).wrapping_add(1442695040888963407);
        order.swap(i, (seed >> 33) as usize % (i + 1));
    }
    order
}

/// `batch` calls, one after the other.
fn repeat<'a, T>(name: &'static str, batch: u32, mut call: impl FnMut() -> T + 'a) -> Contender<'a> {
    contender(name, move || (0..batch).for_each(|_| _ = black_box(call())))
}

fn agree(length: u32, windows: &[u32], rows: &[u32]) {
    for length in [length, length + 1] {
        let proved = proved::check(length, windows, rows);
        for other in [ordinary::check::<false>(length, windows, rows), ordinary::check::<true>(length, windows, rows)] {
            let ordinary::Refused(number, place) = other.err().unwrap_or(ordinary::Refused(0, 0));
            assert_eq!(proved, (number, place));
        }
        #[cfg(before)]
        assert_eq!(proved, proved::before::check(length, windows, rows));
    }
}

/// The check and one tick of a machine, whose events are nearly all ticks, by the order of the rows.
fn orders() {
    for count in [8, 32, 128] {
        let ascending: Vec<u32> = (0..count).collect();
        let descending: Vec<u32> = (0..count).rev().collect();
        for (name, order) in [("ascending", ascending), ("descending", descending), ("shuffled", shuffled(count))] {
            let (length, windows, rows) = (64_000_000, windows(1_000_000), rows(&order));
            agree(length, &windows, &rows);
            let batch = 20_000 / count;
            let (w, r) = (&windows[..], &rows[..]);
            compare(
                &format!("check, {count} rows {name}"),
                batch,
                vec![
                    repeat("proved", batch, || proved::check(black_box(length), w, r)),
                    repeat("with the same shortcuts", batch, || ordinary::check::<true>(black_box(length), w, r)),
                    repeat("ordinary", batch, || ordinary::check::<false>(black_box(length), w, r)),
                    #[cfg(before)]
                    repeat("before", batch, || proved::before::check(black_box(length), w, r)),
                ],
            );
            assert_eq!(proved::driven(length, w, r, batch), ordinary::driven::<true>(length, w, r, batch));
            compare(
                &format!("tick, {count} rows {name}"),
                batch,
                vec![
                    repeat("proved", 1, || proved::driven(length, w, r, black_box(batch))),
                    repeat("with the same shortcuts", 1, || ordinary::driven::<true>(length, w, r, black_box(batch))),
                    repeat("ordinary", 1, || ordinary::driven::<false>(length, w, r, black_box(batch))),
                    #[cfg(before)]
                    repeat("before", 1, || proved::before::driven(length, w, r, black_box(batch))),
                ],
            );
        }
    }
}

/// Every entry point, at the largest counts and with no rows; ordinary Rust has the same shortcuts.
fn entry_points() {
    for count in [128, 0] {
        let (length, windows, rows) = (64_000, windows(1000), rows(&(0..count).collect::<Vec<u32>>()));
        let (w, r) = (&windows[..], &rows[..]);
        let batch = if count == 0 { 20_000 } else { 2_000 };
        agree(length, w, r);
        compare(
            &format!("check, 64 windows, {count} rows"),
            batch,
            vec![
                repeat("proved", batch, || proved::check(black_box(length), w, r)),
                repeat("ordinary", batch, || ordinary::check::<true>(black_box(length), w, r)),
            ],
        );
        assert_eq!(Some(proved::words(length, w, r, 3)), ordinary::words(length, w, r, 3).ok());
        compare(
            &format!("region words, 64 windows, {count} rows"),
            batch,
            vec![
                repeat("proved", batch, || proved::words(length, w, r, black_box(3))),
                repeat("ordinary", batch, || ordinary::words(length, w, r, black_box(3)).ok()),
            ],
        );
        for (place, t) in [("first", 0), ("last", length - 1)] {
            assert_eq!(Some(proved::lookup(length, w, r, t)), ordinary::lookup(length, w, r, t).ok());
            compare(
                &format!("lookup in the {place} window, 64 windows, {count} rows"),
                batch,
                vec![
                    repeat("proved", batch, || proved::lookup(length, w, r, black_box(t))),
                    repeat("ordinary", batch, || ordinary::lookup(length, w, r, black_box(t))),
                ],
            );
        }
    }
}

/// One event, a tick or a status: each open call is answered with zero, each tick is the due one.
fn events() {
    let frame_a = vec![0, 0, 10, 1, 10, 20, 0, 30, 5, 2, 35, 15];
    let all: Vec<u32> = (0..128).collect();
    for (name, length, windows, rows) in
        [("frame A", 50, frame_a, rows(&[])), ("64 windows, 0 rows", 640, windows(10), rows(&[])), ("64 windows, 128 rows", 640, windows(10), rows(&all))]
    {
        let (w, r) = (&windows[..], &rows[..]);
        let batch = if r.is_empty() { 100_000 } else { 2_000 };
        assert_eq!(proved::driven(length, w, r, batch), ordinary::driven::<true>(length, w, r, batch));
        compare(
            &format!("an event, {name}"),
            batch,
            vec![
                repeat("proved", 1, || proved::driven(length, w, r, black_box(batch))),
                repeat("ordinary", 1, || ordinary::driven::<true>(length, w, r, black_box(batch))),
            ],
        );
    }
}

/// A whole run over frame A, by the number of ticks: the proved one checks the plan and the state at every event, the ordinary one the plan once.
fn runs() {
    let windows = [0, 0, 10, 1, 10, 20, 0, 30, 5, 2, 35, 15];
    for count in [100_000, 1_000_000, 10_000_000u32] {
        let ticks: Vec<u32> = (0..count).map(|k| k % 50).collect();
        let statuses = vec![0; count as usize / 50 * 12 + 2];
        let (mut log, mut other) = (vec![0; 4 + 6 * count as usize], vec![0; 4 + 6 * count as usize]);
        let calls = proved::run(50, &windows, &[], &ticks, &statuses, &mut log);
        assert_eq!(Some(calls), ordinary::run(50, &windows, &[], &ticks, &statuses, &mut other).ok());
        assert!(log == other, "the logs differ");
        compare(
            &format!("a tick of a run over {count} ticks"),
            count,
            vec![
                repeat("proved", 1, || proved::run(50, &windows, &[], &ticks, &statuses, &mut log)),
                repeat("ordinary", 1, || ordinary::run(50, &windows, &[], &ticks, &statuses, &mut other)),
            ],
        );
    }
}

fn main() {
    entry_points();
    events();
    runs();
    orders();
}
