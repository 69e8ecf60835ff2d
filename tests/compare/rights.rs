//! Writes a partition's words to a unit and compares what it lets through with what the partition's own rows say.

use crate::answer::Answer;
use crate::dice::Dice;
use crate::judge::{Judge, Subject};
use crate::question::Question;
use crate::unit::{Rights, Unit};

/// Addresses at the edges of rows, and one anywhere.
fn addresses(d: &mut Dice, rows: &[[u32; 4]]) -> Vec<u32> {
    let mut addresses = vec![d.word()];
    for _ in 0..rows.len().min(4) {
        let [_, base, size, _] = d.pick(rows);
        addresses.extend([base, base.wrapping_sub(1), base.wrapping_add(size), base.wrapping_add(size - 1)]);
    }
    addresses
}

fn said(rows: &[[u32; 4]], partition: u32, address: u32) -> Rights {
    let own = |row: &&[u32; 4]| row[0] == partition && address >= row[1] && address - row[1] < row[2];
    rows.iter().find(own).map_or(Rights::default(), |row| Rights { read: true, write: row[3] == 1, execute: row[3] == 2 })
}

/// `answer` holds the words of an accepted plan's partition.
pub fn compare(judge: &mut Judge, d: &mut Dice, subject: &Subject, partition: u32, answer: &Answer) {
    let mut unit = Unit::open();
    answer.words[3..].as_chunks().0.iter().for_each(|&pair| unit.write(pair));
    let rows = subject.plan.rows.as_chunks().0;
    for address in addresses(d, rows) {
        let (rights, said) = (unit.rights(address), said(rows, partition, address));
        let what = || format!("at address {address:#x} the unit gives {rights:?}, the rows {said:?}");
        judge.hold(rights == said, what, subject, Question::Words { partition });
    }
}
