//! States made by hand, on stores that fit them and on stores that do not.

use super::altered::fill;
use super::scans::spoilt;
use crate::engine::{agrees, Arrival};
use crate::ffi::{Scan, DONE, REFUSED};
use crate::gen;
use crate::pixel::first_above;
use crate::rng::Rng;
use crate::table::{self, delay};
use crate::tally::{same, Outcome, Tally};
use crate::world::{Bench, Lengths};

/// A state that agrees.
fn agreeing(rng: &mut Rng) -> Scan {
    let table = gen::table(rng);
    let d = i64::from(delay(&table));
    let closed = rng.one_in(2);
    let steps = if closed { rng.range(0, d) as u32 } else { 0 };
    let rows = match rng.below(4) {
        0 => rng.pick(&[0, 1, 31, 32, 65_534, 65_535]),
        1 => rng.range(0, 65_535) as u32,
        _ => rng.range(0, 40) as u32,
    };
    Scan {
        table,
        width: rng.pick(&[1, 2, 3, 4, 11]),
        rows,
        steps,
        closed,
    }
}

fn short_now_and_then(rng: &mut Rng, bench: &mut Bench, scan: &Scan) {
    let needed = Lengths::needed(scan.table.count, scan.width);
    let mut lengths = bench.lent();
    match rng.below(20) {
        0 => lengths.samples = needed.samples - 1,
        1 => lengths.sums = needed.sums - 1,
        2 => lengths.out = needed.out - 1,
        3 => lengths.out = 0,
        _ => {}
    }
    bench.lend(lengths);
}

/// A row with a fault now and then.
fn row_for(rng: &mut Rng, scan: &Scan) -> Vec<u16> {
    let mut row = gen::row(rng, &scan.table, scan.width);
    if rng.one_in(12) {
        row.push(0);
    }
    if rng.one_in(12) {
        let at = rng.below(row.len());
        row[at] = table::largest_sample(&scan.table) + 1;
    }
    row
}

/// One state, agreeing or not, and each of the three calls on it.
pub fn any(rng: &mut Rng, tally: &mut Tally, _: u64) -> Outcome {
    let good = agreeing(rng);
    let mut bench = Bench::new(rng, tally, good.table.count, good.width);
    let row = row_for(rng, &good);
    let largest = table::largest_sample(&good.table);
    let good_row = row.len() == good.width && first_above(largest, &row).is_none();
    let arrival = if good.closed || !good_row {
        Arrival::Zeros
    } else {
        Arrival::Row(&row)
    };
    if !rng.one_in(4) {
        fill(rng, &mut bench, &good, arrival);
    }
    short_now_and_then(rng, &mut bench, &good);
    let scan = if rng.one_in(3) {
        spoilt(rng, &good)
    } else {
        good
    };
    let told = |wrong| format!("{scan:?}: {wrong}");
    let answer = bench.row(&scan, &row).map_err(told)?;
    let closed = bench.close(&scan).map_err(told)?;
    let step = bench.step(&scan).map_err(told)?;
    let fourteen = |kind, number| kind == REFUSED && number == 14;
    let found = (
        fourteen(answer.kind, answer.number),
        closed.refusal == 14,
        fourteen(step.kind, step.number),
    );
    let expected = !agrees(&scan);
    same(
        "14 of the three calls",
        &found,
        &(expected, expected, expected),
    )
}

/// A state with nearly 65,535 rows, run on past the last one and to its end.
pub fn near_the_end(rng: &mut Rng, tally: &mut Tally, _: u64) -> Outcome {
    let mut scan = agreeing(rng);
    scan.closed = false;
    scan.steps = 0;
    scan.rows = 65_535 - rng.below(40) as u32;
    let mut bench = Bench::new(rng, tally, scan.table.count, scan.width);
    // Zero stores fit a scan that was dark so far.
    let zeroed = bench.start(&scan.table, scan.width)?;
    same("start", &zeroed.refusal, &0)?;
    while scan.rows < 65_535 {
        let row = gen::row(rng, &scan.table, scan.width);
        let answer = bench.row(&scan, &row)?;
        same("rows", &answer.scan.rows, &(scan.rows + 1))?;
        scan = answer.scan;
    }
    let row = gen::row(rng, &scan.table, scan.width);
    let answer = bench.row(&scan, &row)?;
    same("row 65,536", &(answer.kind, answer.number), &(REFUSED, 16))?;
    scan = bench.close(&scan)?.scan;
    finish(&mut bench, scan)
}

/// Closing steps until done: D of them.
pub fn finish(bench: &mut Bench, mut scan: Scan) -> Outcome {
    let d = delay(&scan.table);
    let mut steps = 0;
    loop {
        let answer = bench.step(&scan)?;
        if answer.kind == DONE {
            return same("closing steps", &steps, &d);
        }
        let past = scan.rows + scan.steps > 65_535;
        bench.tally.saw_if("arrival past 65535", past);
        scan = answer.scan;
        steps += 1;
    }
}
