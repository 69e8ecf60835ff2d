//! Contenders that take turns in one process: each figure is the median of the rounds, each ratio the median of the rounds' ratios.

use std::time::Instant;

const ROUNDS: usize = 41;

pub struct Contender<'a> {
    pub name: &'static str,
    /// runs the whole batch
    pub run: Box<dyn FnMut() + 'a>,
}

pub fn contender<'a>(name: &'static str, run: impl FnMut() + 'a) -> Contender<'a> {
    Contender { name, run: Box::new(run) }
}

fn nanoseconds(batch: u32, run: &mut dyn FnMut()) -> f64 {
    let start = Instant::now();
    run();
    start.elapsed().as_nanos() as f64 / f64::from(batch)
}

fn median(figures: impl Iterator<Item = f64>) -> f64 {
    let mut figures: Vec<f64> = figures.collect();
    figures.sort_by(f64::total_cmp);
    figures[figures.len() / 2]
}

/// One line: the first contender's time, then each other's with the first one's time as a multiple of it.
pub fn compare(what: &str, batch: u32, mut contenders: Vec<Contender>) {
    let rounds: Vec<Vec<f64>> = (0..ROUNDS).map(|_| contenders.iter_mut().map(|c| nanoseconds(batch, &mut c.run)).collect()).collect();
    print!("{what}: {} {:.0} ns", contenders[0].name, median(rounds.iter().map(|r| r[0])));
    for (k, c) in contenders.iter().enumerate().skip(1) {
        print!("; {} {:.0} ns, ratio {:.2}", c.name, median(rounds.iter().map(|r| r[k])), median(rounds.iter().map(|r| r[0] / r[k])));
    }
    println!();
}
