//! Scans of 65,535 rows given one by one, and a row too many.

use super::states::finish;
use crate::ffi::{self, REFUSED, ROW};
use crate::gen;
use crate::pixel::Strip;
use crate::rng::Rng;
use crate::table::delay;
use crate::tally::{same, Outcome, Tally};
use crate::world::Bench;

pub fn case(rng: &mut Rng, tally: &mut Tally, index: u64) -> Outcome {
    let table = gen::table_of(rng, 2);
    let width = [1, 2, 5][index as usize % 3];
    let d = delay(&table) as usize;
    let mut bench = Bench::new(rng, tally, table.count, width);
    let mut scan = bench.start(&table, width)?.scan;
    let mut given = Vec::new();
    for a in 0..65_535usize {
        let row = gen::row(rng, &table, width);
        given.extend(&row);
        let answer = bench.row(&scan, &row)?;
        scan = answer.scan;
        same("row out or waiting", &(answer.kind == ROW), &(a >= d))?;
        if answer.kind == ROW && a % 16 == 0 {
            let strip = Strip {
                width,
                samples: &given,
            };
            let c = rng.below(width);
            let library = i64::from(bench.output()[c]);
            same(
                "pixel of a long scan",
                &library,
                &strip.pixel(&table, a - d, c),
            )?;
        }
    }
    let row = gen::row(rng, &table, width);
    let answer = bench.row(&scan, &row)?;
    same("row 65,536", &(answer.kind, answer.number), &(REFUSED, 16))?;
    bench.tally.saw("65535 rows given");
    scan = bench.close(&scan)?.scan;
    finish(&mut bench, scan)?;
    let last = ffi::pixel(&table, width, &given, 65_534, width - 1);
    let came_out = bench.output()[width - 1];
    same(
        "the one-pixel call",
        &(last.refusal, last.value),
        &(0, came_out),
    )
}
