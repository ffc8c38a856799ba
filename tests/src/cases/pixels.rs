//! The one-pixel call.

use crate::ffi::{self, Table};
use crate::gen;
use crate::pixel::{self, Strip};
use crate::rng::Rng;
use crate::table;
use crate::tally::{same, Outcome, Tally};

fn ask(
    tally: &mut Tally,
    table: &Table,
    width: usize,
    samples: &[u16],
    r: usize,
    c: usize,
) -> Outcome {
    let library = ffi::pixel(table, width, samples, r, c);
    let rules = pixel::answer(table, width, samples, r, c);
    tally.answered("pixel", rules.refusal);
    let left = rules.refusal == 0 && Strip { width, samples }.looks_left(table, r, c);
    tally.saw_if("dead before the rectangle", left);
    same("pixel", &library, &rules).map_err(|wrong| {
        let shown = &samples[..samples.len().min(400)];
        format!("{table:?} width {width} row {r} column {c} samples {shown:?}: {wrong}")
    })
}

fn samples(rng: &mut Rng, table: &Table, width: usize, height: usize) -> Vec<u16> {
    (0..height)
        .flat_map(|_| gen::row(rng, table, width))
        .collect()
}

/// Puts one to three samples above 2^b - 1.
fn brighten(rng: &mut Rng, table: &Table, samples: &mut [u16]) {
    let largest = table::largest_sample(table);
    for _ in 0..rng.below(3) + 1 {
        let at = rng.below(samples.len());
        samples[at] = rng.pick(&[largest + 1, largest + 1, 32_768, 65_534]);
    }
}

fn place(rng: &mut Rng, size: usize) -> usize {
    match rng.below(12) {
        0 => size,
        1 => rng.pick(&[size + 1, usize::MAX, 1 << 32]),
        2 => 0,
        3 => size - 1,
        _ => rng.below(size),
    }
}

/// A scan, a place, and now and then something wrong, or several things at once.
pub fn case(rng: &mut Rng, tally: &mut Tally, _: u64) -> Outcome {
    let mut table = gen::table(rng);
    let mut width = rng.pick(&[1, 2, 3, 7, 20, 33, 64]);
    let height = rng.pick(&[1, 2, 3, 10, 31, 40]);
    let mut lent = samples(rng, &table, width, height);
    if rng.one_in(5) {
        brighten(rng, &table, &mut lent);
    }
    match rng.below(20) {
        0 => table = gen::bad_table(rng),
        1 => width = rng.pick(&[0, 1025, 1 << 20, usize::MAX]),
        2 => lent.truncate(rng.below(lent.len())),
        3 => lent.push(0),
        4 => {
            table = gen::bad_table(rng);
            width = 0;
            lent.clear();
        }
        5 => {
            width = 1025;
            lent.clear();
        }
        6 => lent.clear(),
        _ => {}
    }
    let r = place(rng, height);
    let c = place(rng, width.clamp(1, 1024));
    ask(tally, &table, width, &lent, r, c)
}

/// Scans of 65,535 rows, and of one more.
pub fn tall(rng: &mut Rng, tally: &mut Tally, index: u64) -> Outcome {
    let table = gen::table(rng);
    let width = [1, 2, 3, 1024][index as usize % 4];
    let most = if width == 1024 { 100 } else { 65_535 };
    let lent = samples(rng, &table, width, most + 1);
    let within = &lent[..most * width];
    for r in [0, 1, most / 2, most - 2, most - 1, most] {
        let c = rng.below(width);
        ask(tally, &table, width, within, r, c)?;
    }
    ask(tally, &table, width, within, 0, width)?;
    ask(tally, &table, width, &lent, most, 0)?;
    ask(tally, &table, width, &lent[1..], 0, 0)?;
    let mut bright = within.to_vec();
    *bright.last_mut().expect("some samples") = table::largest_sample(&table) + 1;
    ask(tally, &table, width, &bright, 0, 0)
}
