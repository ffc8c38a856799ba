//! Tables by value: writing them, and starting scans with them.

use crate::ffi;
use crate::gen;
use crate::rng::Rng;
use crate::table::{self, FIELD};
use crate::tally::{same, Outcome, Tally};
use crate::world::{Bench, Lengths};

/// A table by value, accepted or not, written into an output of any length.
pub fn written(rng: &mut Rng, tally: &mut Tally, _: u64) -> Outcome {
    let table = if rng.one_in(3) {
        gen::bad_table(rng)
    } else {
        gen::table(rng)
    };
    let needed = FIELD + FIELD * table.count.min(17);
    let lengths = [
        0,
        1,
        needed - 1,
        needed,
        needed,
        needed + 1,
        needed + 40,
        200,
    ];
    let length = rng.pick(&lengths);
    // Room beyond what is lent shows that nothing is written there.
    let before: Vec<u8> = (0..length + 8).map(|_| rng.next() as u8).collect();
    let (mut library_out, mut rules_out) = (before.clone(), before);
    let library = ffi::table_write(&table, &mut library_out[..length]);
    let rules = table::write(&table, &mut rules_out[..length]);
    let told = |wrong: String| format!("{table:?} into {length} bytes: {wrong}");
    same("write", &library, &rules).map_err(told)?;
    same("output", &library_out, &rules_out).map_err(told)?;
    tally.answered("write", library.refusal);
    let room = library.refusal == 0 && length > needed;
    tally.saw_if("output longer than the file", room);
    tally.saw_if("table of one count too many", table.count == 17);
    Ok(())
}

fn any_width(rng: &mut Rng) -> usize {
    match rng.below(12) {
        0 => 0,
        1 => 1025,
        2 => rng.pick(&[1026, 65_536, 1 << 32, usize::MAX]),
        3 => rng.pick(&[1, 2]),
        _ => rng.below(40) + 1,
    }
}

/// A start with any table, width and stores; what it hands out is then used.
pub fn started(rng: &mut Rng, tally: &mut Tally, index: u64) -> Outcome {
    let table = if rng.one_in(4) {
        gen::bad_table(rng)
    } else {
        gen::table(rng)
    };
    let width = match index {
        0..=3 => 1024,
        4..=7 => 1025,
        _ => any_width(rng),
    };
    let count = table.count.clamp(1, 16);
    let mut bench = Bench::new(rng, tally, count, width.clamp(1, 1025));
    let needed = Lengths::needed(count, width.clamp(1, 1025));
    let mut shorter = |n: usize| match rng.below(8) {
        0 => n - 1,
        1 => rng.below(n),
        2 | 3 => n,
        _ => n + 10,
    };
    let lengths = Lengths {
        samples: shorter(needed.samples),
        sums: shorter(needed.sums),
        out: needed.out,
    };
    bench.lend(lengths);
    let told = |wrong: String| format!("{table:?} width {width} lent {lengths:?}: {wrong}");
    let started = bench.start(&table, width).map_err(told)?;
    if started.refusal != 0 {
        // Every other call answers 14 for what a refused start hands out.
        let row = vec![0; width.min(4)];
        let answer = bench.row(&started.scan, &row).map_err(told)?;
        same("row on a refused start", &answer.number, &14)?;
        let answer = bench.step(&started.scan).map_err(told)?;
        same("step on a refused start", &answer.number, &14)?;
        let closed = bench.close(&started.scan).map_err(told)?;
        same("close on a refused start", &closed.refusal, &14)?;
    }
    Ok(())
}
