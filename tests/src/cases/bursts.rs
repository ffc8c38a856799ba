//! Rows handed over together: whole scans in bursts, with bursts that are refused before any row or in the middle.

use super::scans::spoilt;
use crate::ffi::{Burst, Scan};
use crate::gen;
use crate::rng::Rng;
use crate::table::{self, delay};
use crate::tally::{same, Outcome, Tally};
use crate::world::{Bench, Lengths};

/// Rows of the longest burst.
const MOST: usize = 9;

fn rows(rng: &mut Rng, scan: &Scan, count: usize) -> Vec<u16> {
    (0..count)
        .flat_map(|_| gen::row(rng, &scan.table, scan.width))
        .collect()
}

fn note(tally: &mut Tally, scan: &Scan, count: usize, burst: &Burst) {
    let Burst {
        refusal,
        taken,
        filtered,
        ..
    } = *burst;
    tally.saw_if("burst of no rows", count == 0 && refusal == 0);
    tally.saw_if("burst whole", count > 0 && taken == count);
    tally.saw_if("burst refused in the middle", taken > 0 && refusal != 0);
    let waiting = (scan.rows as usize) < delay(&scan.table) as usize;
    tally.saw_if("burst packed behind waiting", waiting && filtered > 0);
}

/// A burst with something wrong, or with stores too short; what is lent is as before afterwards. Answers the scan to go on with.
fn faulty(rng: &mut Rng, bench: &mut Bench, scan: &Scan) -> Result<Scan, String> {
    let lent = bench.lent();
    let Scan { table, width, .. } = *scan;
    let needed = Lengths::needed(table.count, width);
    let count = rng.below(MOST) + 1;
    let mut given = rows(rng, scan, count);
    let mut state = *scan;
    let mut lengths = lent;
    match rng.below(8) {
        0 => state = spoilt(rng, scan),
        1 => state.closed = true,
        2 => given.truncate(rng.below(given.len())),
        3 => given.push(0),
        4 => lengths.out = given.len() - rng.below(given.len()) - 1,
        5 => lengths.samples = needed.samples - 1,
        6 => lengths.sums = needed.sums - 1,
        _ => {
            let at = rng.below(given.len());
            given[at] = rng.pick(&[table::largest_sample(&table) + 1, 65_534]);
        }
    }
    bench.lend(lengths);
    let burst = bench.rows(&state, &given)?;
    bench.tally.saw_if(
        "burst too long for its output",
        burst.refusal == 13 && lengths.out < given.len(),
    );
    note(bench.tally, scan, given.len() / width, &burst);
    bench.lend(lent);
    Ok(if state == *scan { burst.scan } else { *scan })
}

/// A sum is altered between bursts, so that a row of the next one may get 19; then it is put back.
fn altered(rng: &mut Rng, bench: &mut Bench, scan: &Scan) -> Outcome {
    let kept = bench.keep();
    let place = rng.below(scan.table.count * scan.width);
    bench.set_sum(place, rng.pick(&[0, 200_000, u32::MAX]));
    let count = rng.below(MOST) + 1;
    let given = rows(rng, scan, count);
    let burst = bench.rows(scan, &given)?;
    note(bench.tally, scan, count, &burst);
    bench.put_back(&kept);
    Ok(())
}

/// Near the last row a burst stops with 16 in the middle.
fn near_the_end(rng: &mut Rng, bench: &mut Bench, scan: &Scan) -> Outcome {
    let kept = bench.keep();
    let mut late = *scan;
    late.rows = 65_535 - rng.below(4) as u32;
    let given = rows(rng, &late, MOST);
    let burst = bench.rows(&late, &given)?;
    note(bench.tally, &late, MOST, &burst);
    bench.put_back(&kept);
    Ok(())
}

pub fn case(rng: &mut Rng, tally: &mut Tally, _: u64) -> Outcome {
    let table = gen::table(rng);
    let width = rng.pick(&[1, 1, 2, 3, 5, 9, 17]);
    let mut bench = Bench::with_rows(rng, tally, table.count, width, MOST);
    let mut scan = bench.start(&table, width)?.scan;
    let told = |wrong| format!("{table:?} width {width}: {wrong}");
    for _ in 0..rng.pick(&[1, 3, 6]) {
        match rng.below(4) {
            0 => scan = faulty(rng, &mut bench, &scan).map_err(told)?,
            1 => altered(rng, &mut bench, &scan).map_err(told)?,
            2 => near_the_end(rng, &mut bench, &scan).map_err(told)?,
            _ => {}
        }
        let count = rng.below(MOST + 1);
        let given = rows(rng, &scan, count);
        let burst = bench.rows(&scan, &given).map_err(told)?;
        same("rows taken", &(burst.refusal, burst.taken), &(0, count)).map_err(told)?;
        note(bench.tally, &scan, count, &burst);
        scan = burst.scan;
    }
    Ok(())
}
