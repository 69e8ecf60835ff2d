//! The check, the lookup, the region words and the machine as one would write them in Rust with nothing to prove: chunks, an early return, a counter
//! a partition. With `SHORT` a row past all before it is held against none of them, as in the proved code; without, each is held against each.

pub struct Refused(pub u32, pub u32);

/// What the rows before say of the next one.
struct Before {
    counts: [u32; 16],
    lowest: u64,
    highest: u64,
}

fn overlap(a: &[u32], b: &[u32]) -> bool {
    let end = |r: &[u32]| u64::from(r[1]) + u64::from(r[2]);
    u64::from(a[1]) < end(b) && u64::from(b[1]) < end(a)
}

fn row<const SHORT: bool>(rows: &[u32], i: usize, before: &mut Before) -> Result<(), Refused> {
    let r = &rows[i * 4..i * 4 + 4];
    let at = i as u32;
    if r[0] > 15 {
        return Err(Refused(6, at));
    }
    if r[2] < 32 || !r[2].is_power_of_two() {
        return Err(Refused(7, at));
    }
    if r[1] & (r[2] - 1) != 0 {
        return Err(Refused(8, at));
    }
    if r[3] > 2 {
        return Err(Refused(9, at));
    }
    before.counts[r[0] as usize] += 1;
    if before.counts[r[0] as usize] > 8 {
        return Err(Refused(10, at));
    }
    let (base, end) = (u64::from(r[1]), u64::from(r[1]) + u64::from(r[2]));
    if !SHORT || (base < before.highest && before.lowest < end) {
        for o in rows[..i * 4].chunks_exact(4) {
            if overlap(o, r) && (o[0] == r[0] || o[3] == 1 || r[3] == 1) {
                return Err(Refused(11, at));
            }
        }
    }
    before.lowest = before.lowest.min(base);
    before.highest = before.highest.max(end);
    Ok(())
}

pub fn check<const SHORT: bool>(length: u32, windows: &[u32], rows: &[u32]) -> Result<(), Refused> {
    let count = windows.len() / 3;
    if windows.len() % 3 != 0 || rows.len() % 4 != 0 || count == 0 || count > 64 || rows.len() / 4 > 128 {
        return Err(Refused(1, 0));
    }
    let mut end = 0u64;
    for (i, w) in windows.chunks_exact(3).enumerate() {
        if w[2] == 0 {
            return Err(Refused(2, i as u32));
        }
        if u64::from(w[1]) != end {
            return Err(Refused(3, i as u32));
        }
        if w[0] > 15 {
            return Err(Refused(4, i as u32));
        }
        end = u64::from(w[1]) + u64::from(w[2]);
    }
    if end != u64::from(length) {
        return Err(Refused(5, count as u32 - 1));
    }
    let mut before = Before { counts: [0; 16], lowest: 1 << 32, highest: 0 };
    (0..rows.len() / 4).try_for_each(|i| row::<SHORT>(rows, i, &mut before))
}

pub fn lookup(length: u32, windows: &[u32], rows: &[u32], t: u32) -> Result<u32, Refused> {
    check::<true>(length, windows, rows)?;
    if t >= length {
        return Err(Refused(12, 0));
    }
    let found = windows.chunks_exact(3).position(|w| u64::from(t) < u64::from(w[1]) + u64::from(w[2]));
    Ok(found.unwrap_or(0) as u32)
}

pub fn words(length: u32, windows: &[u32], rows: &[u32], partition: u32) -> Result<[(u32, u32); 8], Refused> {
    check::<true>(length, windows, rows)?;
    if partition > 15 {
        return Err(Refused(15, 0));
    }
    let mut slots = std::array::from_fn(|k| (16 + k as u32, 0));
    for (k, r) in rows.chunks_exact(4).filter(|r| r[0] == partition).enumerate() {
        let ap = if r[3] == 1 { 3 } else { 6 };
        let xn = u32::from(r[3] != 2);
        slots[k] = (r[1] | 16 | k as u32, xn << 28 | ap << 24 | 1 << 19 | (r[2].trailing_zeros() - 1) << 1 | 1);
    }
    Ok(slots)
}

/// The due tick after a cold start and so many events, each call answered with zero and each tick the due one. The plan is checked at every event,
/// and the state is tested as an ordinary switcher would.
pub fn driven<const SHORT: bool>(length: u32, windows: &[u32], rows: &[u32], events: u32) -> u32 {
    let count = windows.len() / 3;
    let (mut current, mut target, mut due, mut stage) = (0, 0, 0, 2);
    for _ in 0..events {
        if check::<SHORT>(std::hint::black_box(length), windows, rows).is_err() || target >= count || due >= length {
            return due;
        }
        match stage {
            0 => {
                let last = u64::from(due) + 1 == u64::from(windows[current * 3 + 1]) + u64::from(windows[current * 3 + 2]);
                due = if due + 1 < length { due + 1 } else { 0 };
                if last {
                    (stage, target) = (1, if current + 1 < count { current + 1 } else { 0 });
                }
            }
            3 => (stage, current) = (0, target),
            _ => stage += 1,
        }
    }
    due
}

/// A run as one would write it: the plan is checked once, then the lists are gone through. How many calls were written to the log.
pub fn run(length: u32, windows: &[u32], rows: &[u32], ticks: &[u32], statuses: &[u32], log: &mut [u32]) -> Result<usize, Refused> {
    check::<true>(length, windows, rows)?;
    if (log.len() as u128) < 4 + 6 * ticks.len() as u128 {
        return Err(Refused(16, 0));
    }
    let (count, owner) = (windows.len() / 3, |w: usize| windows[w * 3]);
    let (mut current, mut target, mut due, mut stage, mut calls) = (0, 0, 0, 2, 0);
    let (mut ticks, mut statuses) = (ticks.iter(), statuses.iter());
    let mut call = |kind: u32, partition: u32| {
        log[calls * 2] = kind;
        log[calls * 2 + 1] = partition;
        calls += 1;
    };
    call(2, owner(0));
    loop {
        if stage == 0 {
            let Some(&t) = ticks.next() else { break };
            if t != due {
                break;
            }
            let last = u64::from(due) + 1 == u64::from(windows[current * 3 + 1]) + u64::from(windows[current * 3 + 2]);
            due = if due + 1 < length { due + 1 } else { 0 };
            if last {
                (stage, target) = (1, if current + 1 < count { current + 1 } else { 0 });
                call(1, owner(current));
            }
        } else {
            let Some(&word) = statuses.next() else { break };
            if word != 0 {
                break;
            }
            match stage {
                1 => call(2, owner(target)),
                2 => call(3, owner(target)),
                _ => current = target,
            }
            stage = (stage + 1) % 4;
        }
    }
    Ok(calls)
}
