//! Scans of 31 by 31 samples that are bright where the weight grid has one sign: no scan has a higher, or a lower, pixel at its centre.

use crate::ffi::{self, Table, DONE, REFUSED, ROW};
use crate::gen;
use crate::pixel::{self, Strip};
use crate::rng::Rng;
use crate::table::{self, fits};
use crate::tally::{holds, same, Outcome, Tally};
use crate::world::Bench;

const SIDE: usize = 31;
const CENTRE: usize = 15;

/// The scan that is bright where the grid is positive, or where it is negative.
fn peak(table: &Table, positive: bool) -> Vec<u16> {
    let wanted = |entry: i64| (entry > 0) == positive && entry != 0;
    let sample = |entry| {
        if wanted(entry) {
            table::largest_sample(table)
        } else {
            0
        }
    };
    table::grid(table).into_iter().map(sample).collect()
}

/// The rows of a scan given one by one, and the pixel that comes out at its centre.
fn centre(rng: &mut Rng, tally: &mut Tally, table: &Table, samples: &[u16]) -> Result<i32, String> {
    let mut bench = Bench::new(rng, tally, table.count, SIDE);
    let mut scan = bench.start(table, SIDE)?.scan;
    let mut found = None;
    let mut rows = samples.chunks(SIDE);
    loop {
        let answer = match rows.next() {
            Some(row) => bench.row(&scan, row)?,
            None => {
                if !scan.closed {
                    scan = bench.close(&scan)?.scan;
                }
                bench.step(&scan)?
            }
        };
        holds("the arrival is accepted", answer.kind != REFUSED)?;
        if answer.kind == ROW && answer.number as usize == CENTRE {
            found = Some(bench.output()[CENTRE]);
        }
        if answer.kind == DONE {
            return found.ok_or("the centre never came out".to_string());
        }
        scan = answer.scan;
    }
}

/// One side: the definition's pixel is the grid's extreme; the library gives it where the table is accepted.
fn side(rng: &mut Rng, tally: &mut Tally, table: &Table, positive: bool) -> Result<bool, String> {
    let samples = peak(table, positive);
    let strip = Strip {
        width: SIDE,
        samples: &samples,
    };
    let value = strip.pixel(table, CENTRE, CENTRE);
    let (low, high) = table::grid_extremes(table);
    let extreme = if positive { high } else { low };
    same("the extreme", &i128::from(value), &extreme)?;
    let found = ffi::pixel(table, SIDE, &samples, CENTRE, CENTRE);
    let rules = pixel::answer(table, SIDE, &samples, CENTRE, CENTRE);
    same("the peak by the one-pixel call", &found, &rules)?;
    tally.answered("pixel", rules.refusal);
    if rules.refusal == 0 {
        let came_out = centre(rng, tally, table, &samples)?;
        same("the peak by the engine", &i64::from(came_out), &value)?;
        let half = 1i64 << (table.w - 1);
        tally.saw_if("grid: pixel at the top of the word", value == half - 1);
        tally.saw_if("grid: pixel at the bottom of the word", value == -half);
    }
    Ok(fits(value.into(), table.w))
}

/// A table without drops is accepted exactly when both its peaks fit the word.
pub fn case(rng: &mut Rng, tally: &mut Tally, _: u64) -> Outcome {
    let table = if rng.one_in(4) {
        let count = rng.below(16) + 1;
        let mut table = gen::cancelling(rng, count);
        table.w = (table.w - rng.below(2) as u8).max(8);
        table
    } else {
        let (positive, past) = (rng.one_in(2), rng.range(-1, 1));
        gen::ringed(rng, positive, past)
    };
    let told = |wrong| format!("{table:?}: {wrong}");
    let high = side(rng, tally, &table, true).map_err(told)?;
    let low = side(rng, tally, &table, false).map_err(told)?;
    let number = ffi::table_check(&table::file_of(&table));
    tally.answered("check", number);
    tally.saw_if("grid: peak past the word", number == 10);
    let expected = if high && low { 0 } else { 10 };
    same("10 exactly when a peak does not fit", &number, &expected).map_err(told)
}
