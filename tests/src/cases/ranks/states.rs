//! Starts with any numbers, states of ranked scans made by hand, and scans that go past the last row.

use super::super::scans::{brighten, relength};
use super::altered::{fill, Crowd};
use super::{by_sorting, lend_too_little, OUTPUT_TOO, STORES};
use crate::engine::Arrival;
use crate::ffi::{Rank, Window, DONE, REFUSED, ROW};
use crate::gen;
use crate::pixel::first_above;
use crate::rank::{agrees, columns, delay, rows, LEVELS};
use crate::rng::Rng;
use crate::table::largest_of;
use crate::tally::{holds, same, Outcome, Tally};
use crate::world::ranked::{RankBench, RankLengths};

/// Rows that a scan may have.
const MOST_ROWS: u32 = 65_535;

pub fn case(rng: &mut Rng, tally: &mut Tally, index: u64) -> Outcome {
    match index % 8 {
        _ if index == 0 => long(rng, tally),
        0 => near_the_end(rng, tally),
        1..=3 => started(rng, tally, index),
        4 if index % 64 == 4 => crowded(rng, tally),
        _ => any(rng, tally),
    }
}

/// M times N.
fn area(window: &Window) -> u32 {
    (rows(window) * columns(window)) as u32
}

const BAD_BITS: [u8; 5] = [0, 9, 12, 13, 255];

/// A rank that the window does not have, where `good` is one that it has.
fn bad_rank(rng: &mut Rng, window: &Window, good: u32) -> u32 {
    let past = area(window) + 1;
    let high = rng.pick(&[1 << 8, 1 << 16, 1 << 31]);
    rng.pick(&[0, 0, past, past, (good + high).max(past), u32::MAX])
}

/// A state whose numbers do not agree.
pub fn spoilt(rng: &mut Rng, scan: &Rank) -> Rank {
    let mut bad = *scan;
    match rng.below(8) {
        0 => bad.b = rng.pick(&BAD_BITS),
        1 => bad.window = gen::bad_window(rng),
        2 => {
            bad.window = gen::window(rng);
            bad.rank = bad_rank(rng, &bad.window, 1);
        }
        3 => bad.width = rng.pick(&[0, 1025, 2048, usize::MAX, 1 << 32]),
        4 => bad.rows = rng.pick(&[65_536, 65_537, 1 << 20, u32::MAX]),
        5 => bad.steps = rng.pick(&[16, 31, 255, 65_536, u32::MAX]),
        6 => {
            bad.closed = true;
            bad.steps = 1 + delay(&bad.window);
        }
        _ => {
            bad.closed = false;
            bad.steps = 1;
        }
    }
    bad
}

/// A start with one to three faults, in its numbers or in the stores.
pub fn refused_start(rng: &mut Rng, bench: &mut RankBench, wanted: &Rank) -> Outcome {
    let lent = bench.lent();
    let mut bad = *wanted;
    for _ in 0..rng.below(3) + 1 {
        match rng.below(6) {
            0 => bad.b = rng.pick(&BAD_BITS),
            1 => bad.window = gen::bad_window(rng),
            2 => bad.rank = bad_rank(rng, &wanted.window, wanted.rank),
            3 => bad.width = rng.pick(&[0, 1025, 1 << 32, usize::MAX]),
            _ => lend_too_little(rng, bench, wanted.width, STORES),
        }
    }
    let started = bench.start(&bad)?;
    bench.lend(lent);
    holds("a faulty start is refused", started.refusal != 0)?;
    goes_nowhere(bench, &started.scan)
}

/// Every call answers 14 for what a refused start hands out.
fn goes_nowhere(bench: &mut RankBench, scan: &Rank) -> Outcome {
    for row in [&[][..], &[0], &[0, 0]] {
        let answer = bench.row(scan, row)?;
        same("row on a refused start", &answer.number, &14)?;
    }
    let answer = bench.step(scan)?;
    same("step on a refused start", &answer.number, &14)?;
    let closed = bench.close(scan)?;
    same("close on a refused start", &closed.refusal, &14)
}

fn any_width(rng: &mut Rng, index: u64) -> usize {
    match rng.below(10) {
        _ if index < 8 => 1024,
        _ if index < 16 => 1025,
        0 => rng.pick(&[0, 1025, 1026, 65_536, 1 << 32, usize::MAX]),
        1 => 1,
        _ => rng.below(20) + 1,
    }
}

/// A start with any numbers and stores; what it hands out is then used.
fn started(rng: &mut Rng, tally: &mut Tally, index: u64) -> Outcome {
    let width = any_width(rng, index);
    let room = width.clamp(1, 1025);
    let mut wanted = gen::ranked(rng, width);
    if rng.one_in(3) {
        wanted.b = rng.pick(&[0, 1, 8, 9, 12, 13, 255]);
    }
    if rng.one_in(5) {
        wanted.window = gen::bad_window(rng);
    }
    if rng.one_in(3) {
        let most = area(&gen::window(rng)).max(1);
        let ranks = [0, 1, wanted.rank + 1, most, 961, 962, u32::MAX];
        wanted.rank = rng.pick(&ranks);
    }
    let mut bench = RankBench::new(rng, tally, room);
    let needed = RankLengths::needed(room);
    let mut about = |n: usize| match rng.below(12) {
        0 => n - 1,
        1 => rng.below(n),
        2 | 3 => n + 10,
        _ => n,
    };
    bench.lend(RankLengths {
        samples: about(needed.samples),
        counts: about(needed.counts),
        windows: about(needed.windows),
        out: about(needed.out),
    });
    let lent = bench.lent();
    let told = |wrong: String| format!("{wanted:?} lent {lent:?}: {wrong}");
    let started = bench.start(&wanted).map_err(told)?;
    if started.refusal != 0 {
        return goes_nowhere(&mut bench, &started.scan).map_err(told);
    }
    let row = gen::ranked_row(rng, &started.scan);
    let answer = bench.row(&started.scan, &row).map_err(told)?;
    let short = lent.out < width;
    let refused = answer.kind == REFUSED;
    same("the first row, by the output's length", &refused, &short).map_err(told)
}

/// A state that agrees.
fn agreeing(rng: &mut Rng) -> Rank {
    let width = rng.pick(&[1, 2, 3, 4, 11]);
    let mut scan = gen::ranked(rng, width);
    scan.closed = rng.one_in(2);
    if scan.closed {
        scan.steps = rng.range(0, i64::from(delay(&scan.window))) as u32;
    }
    scan.rows = match rng.below(4) {
        0 => rng.pick(&[0, 1, 31, 32, 65_534, 65_535]),
        1 => rng.range(0, i64::from(MOST_ROWS)) as u32,
        _ => rng.range(0, 40) as u32,
    };
    scan
}

/// A row with a fault now and then.
fn row_for(rng: &mut Rng, scan: &Rank) -> Vec<u16> {
    let mut row = gen::ranked_row(rng, scan);
    if rng.one_in(12) {
        row.push(0);
    }
    if rng.one_in(12) {
        let at = rng.below(row.len());
        row[at] = rng.pick(&[largest_of(scan.b) + 1, 65_534]);
    }
    row
}

/// One state, agreeing or not, and each of the three calls on it.
fn any(rng: &mut Rng, tally: &mut Tally) -> Outcome {
    let good = agreeing(rng);
    let mut bench = RankBench::new(rng, tally, good.width);
    let row = row_for(rng, &good);
    let good_row = row.len() == good.width && first_above(largest_of(good.b), &row).is_none();
    let arrival = if good.closed || !good_row {
        Arrival::Zeros
    } else {
        Arrival::Row(&row)
    };
    if !rng.one_in(4) {
        let crowd = rng.pick(&[Crowd::None, Crowd::Any, Crowd::Any, Crowd::Full]);
        fill(rng, &mut bench, &good, arrival, crowd);
    }
    if rng.one_in(6) {
        lend_too_little(rng, &mut bench, good.width, OUTPUT_TOO);
    }
    let scan = if rng.one_in(3) {
        spoilt(rng, &good)
    } else {
        good
    };
    let told = |wrong| format!("{scan:?}: {wrong}");
    let answer = bench.row(&scan, &row).map_err(told)?;
    let closed = bench.close(&scan).map_err(told)?;
    let step = bench.step(&scan).map_err(told)?;
    let fourteen = |kind, number| kind == REFUSED && number == 14;
    let found = (
        fourteen(answer.kind, answer.number),
        closed.refusal == 14,
        fourteen(step.kind, step.number),
    );
    let expected = !agrees(&scan);
    same(
        "14 of the three calls",
        &found,
        &(expected, expected, expected),
    )
}

/// Stores that say every column has M samples of every level, so that a window has 65,536 of them.
fn crowded(rng: &mut Rng, tally: &mut Tally) -> Outcome {
    let width = rng.below(9) + 16;
    let mut scan = gen::ranked(rng, width);
    let (lead, trail) = (7, -9);
    scan.window = Window {
        leadrow: lead,
        leadcol: lead,
        trailrow: trail,
        trailcol: trail,
    };
    scan.rank = gen::rank(rng, &scan.window);
    scan.b = 8;
    scan.rows = rng.range(40, 200) as u32;
    let mut bench = RankBench::new(rng, tally, width);
    let row = gen::ranked_row(rng, &scan);
    fill(rng, &mut bench, &scan, Arrival::Row(&row), Crowd::Full);
    let answer = bench.row(&scan, &row)?;
    same("a crowded row comes out", &answer.kind, &ROW)?;
    let first = &bench.counts()[..16 * LEVELS];
    let total: u32 = first.iter().map(|&count| u32::from(count)).sum();
    bench
        .tally
        .saw_if("ranked: total past 16 bits", total == 1 << 16);
    // Sixteen samples of each level in each of the window's columns.
    for c in 0..width {
        let inside = (c + 8).min(width) - c.saturating_sub(8);
        let level = (scan.rank - 1) / (16 * inside as u32);
        same("level of a crowd", &bench.output()[c], &(level as i32))?;
    }
    Ok(())
}

/// A state with nearly 65,535 rows, dark so far, run on past the last one and to its end.
fn near_the_end(rng: &mut Rng, tally: &mut Tally) -> Outcome {
    /// Dark rows that the scan is taken to begin with; no window reaches beyond them.
    const DARK: u32 = 40;
    let width = rng.pick(&[1, 2, 3, 7]);
    let wanted = gen::ranked(rng, width);
    let mut bench = RankBench::new(rng, tally, width);
    let mut scan = bench.start(&wanted)?.scan;
    let most = rows(&scan.window) as u16;
    for c in 0..width {
        bench.set_count(c, 0, most);
    }
    scan.rows = MOST_ROWS - rng.below(40) as u32;
    let first = scan.rows - DARK;
    let mut given = vec![0; DARK as usize * width];
    while scan.rows < MOST_ROWS {
        let row = gen::ranked_row(rng, &scan);
        given.extend(&row);
        let answer = bench.row(&scan, &row)?;
        same("a late row comes out", &answer.kind, &ROW)?;
        scan = answer.scan;
        by_sorting(rng, &mut bench, &scan, &given, answer.number - first)?;
    }
    ending(rng, bench, scan, &given, first)
}

/// 65,535 rows given one by one.
fn long(rng: &mut Rng, tally: &mut Tally) -> Outcome {
    let mut wanted = gen::ranked(rng, 2);
    super::relead(rng, &mut wanted, 15);
    let mut bench = RankBench::new(rng, tally, wanted.width);
    let mut scan = bench.start(&wanted)?.scan;
    let mut given = Vec::new();
    for a in 0..MOST_ROWS {
        let row = gen::ranked_row(rng, &scan);
        given.extend(&row);
        let answer = bench.row(&scan, &row)?;
        scan = answer.scan;
        same("row out or waiting", &(answer.kind == ROW), &(a >= 15))?;
        if answer.kind == ROW && a % 16 == 0 {
            by_sorting(rng, &mut bench, &scan, &given, answer.number)?;
        }
    }
    bench.tally.saw("ranked: 65535 rows given");
    ending(rng, bench, scan, &given, 0)
}

/// Rows too many, good and faulty, then closing steps until done: D of them. `given` is the scan from its row `first` on.
fn ending(
    rng: &mut Rng,
    mut bench: RankBench,
    mut scan: Rank,
    given: &[u16],
    first: u32,
) -> Outcome {
    let mut row = gen::ranked_row(rng, &scan);
    let lent = bench.lent();
    for fault in 0..4 {
        match fault {
            1 => brighten(rng, largest_of(scan.b), &mut row),
            2 => relength(rng, &mut row, scan.width),
            3 => lend_too_little(rng, &mut bench, scan.width, OUTPUT_TOO),
            _ => {}
        }
        let answer = bench.row(&scan, &row)?;
        same("row 65,536", &(answer.kind, answer.number), &(REFUSED, 16))?;
    }
    bench.lend(lent);
    scan = bench.close(&scan)?.scan;
    let answer = bench.row(&scan, &row)?;
    same(
        "row after the end",
        &(answer.kind, answer.number),
        &(REFUSED, 15),
    )?;
    for step in 0..delay(&scan.window) {
        let answer = bench.step(&scan)?;
        let due = MOST_ROWS - delay(&scan.window) + step;
        same("late step", &(answer.kind, answer.number), &(ROW, due))?;
        scan = answer.scan;
        by_sorting(rng, &mut bench, &scan, given, due - first)?;
    }
    same("the end", &bench.step(&scan)?.kind, &DONE)
}
