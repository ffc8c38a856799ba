//! Stores altered within the bounds of their sums, so that a pixel comes to the end of its word or past it: the last half of question 19.

use super::altered::{fill, Next};
use crate::engine::{largest_sum, settled, words_good, Moment};
use crate::ffi::{Scan, Table, REFUSED, WAITING};
use crate::gen;
use crate::rng::Rng;
use crate::table::{delay, fits};
use crate::tally::{holds, same, Outcome, Tally};
use crate::world::Bench;

/// Rows of the longest burst.
const MOST: usize = 9;

/// Columns of a scan, one of them wide now and then.
fn any_width(rng: &mut Rng) -> usize {
    match rng.below(60) {
        0 => 1024,
        1..=20 => 1,
        _ => rng.below(40) + 1,
    }
}

/// The values of the arrival to come, if every sum can be.
fn values(bench: &Bench, scan: &Scan, next: &Next) -> Option<Vec<i64>> {
    Moment::new(scan, next.arrival()).values(bench.samples(), bench.sums())
}

/// Adds to the sums of rectangle k that the pixel at column c covers, so far as they can be; answers what the window gained.
fn add(bench: &mut Bench, scan: &Scan, next: &Next, (k, c): (usize, usize), wanted: i64) -> i64 {
    let Scan { table, width, .. } = scan;
    let rect = table.rects[k];
    let first = (c as i64 + i64::from(rect.trailcol) + 1).max(0) as usize;
    let last = (c as i64 + i64::from(rect.leadcol)).min(*width as i64 - 1) as usize;
    let mut left = wanted;
    for column in first..=last {
        let (leaving, entering) =
            Moment::new(scan, next.arrival()).terms(bench.samples(), &rect, column);
        let stored = u64::from(bench.sums()[k * width + column]);
        let room = largest_sum(table, &rect) + leaving - entering - stored;
        let more = left.min(room as i64);
        bench.set_sum(k * width + column, (stored as i64 + more) as u32);
        left -= more;
    }
    wanted - left
}

/// Where a pixel is wanted: at an end of the word, one past it, or what is the true value to the lowest 32 bits.
fn target(rng: &mut Rng, table: &Table, now: i64) -> i64 {
    let end = 1i64 << (table.w - 1 + table.t);
    match rng.below(6) {
        0 => end - 1,
        1 => end,
        2 => -end,
        3 => -end - 1,
        4 => now + (1 << 32),
        _ => now - (1 << 32),
    }
}

/// Alters the sums of the heavy pair and of the pair of weight 1, so that the pixel at one column comes to a target, if it can.
fn lift(rng: &mut Rng, bench: &mut Bench, scan: &Scan, next: &Next) {
    let Scan { table, width, .. } = scan;
    let c = match rng.below(3) {
        0 => width - 1,
        _ => rng.below(*width),
    };
    let now = values(bench, scan, next).expect("a scan on its way")[c];
    let mut left = target(rng, table, now) - now;
    let minus = usize::from(left < 0);
    for k in [table.count - 4 + minus, table.count - 2 + minus] {
        let weight = i64::from(table.rects[k].weight);
        left -= weight * add(bench, scan, next, (k, c), left / weight);
    }
}

/// What the pixels of altered stores are to their word.
fn note(tally: &mut Tally, table: &Table, values: &[i64]) {
    let half = 1i64 << (table.w - 1);
    let pixels = || values.iter().map(|&value| settled(table, value));
    let least = pixels().min().expect("a column");
    let most = pixels().max().expect("a column");
    if words_good(table, values) {
        tally.saw_if("19 place K just passed, high", most == half - 1);
        tally.saw_if("19 place K just passed, low", least == -half);
        return;
    }
    let within_32 = |value: &i64| fits(settled(table, i64::from(*value as i32)).into(), table.w);
    let out = pixels().filter(|&p| !fits(p.into(), table.w)).count();
    let last = !words_good(table, &values[values.len() - 1..]);
    tally.saw_if("19 place K just missed, high", most == half);
    tally.saw_if("19 place K just missed, low", least == -half - 1);
    tally.saw_if("19 place K of one pixel", out == 1 && values.len() > 8);
    let alone = out == 1 && last && values.len() > 8;
    tally.saw_if("19 place K at the last column", alone);
    tally.saw_if("19 place K past 32 bits", values.iter().all(within_32));
}

/// A row or a closing step on altered stores.
fn arrival(bench: &mut Bench, scan: &Scan, next: &Next) -> Outcome {
    let Some(values) = values(bench, scan, next) else {
        return next.call(bench, scan).map(drop);
    };
    let good = words_good(&scan.table, &values);
    let answer = next.call(bench, scan)?;
    if answer.kind == WAITING {
        bench.tally.saw_if("19 place K passes while waiting", !good);
        return Ok(());
    }
    note(bench.tally, &scan.table, &values);
    let number = if answer.kind == REFUSED {
        (answer.number, answer.place)
    } else {
        (0, 0)
    };
    let expected = if good {
        (0, 0)
    } else {
        (19, scan.table.count as u32)
    };
    same("19 by the pixels", &number, &expected)
}

/// Several rows on altered stores, the first of them the one that they were altered for.
fn burst(rng: &mut Rng, bench: &mut Bench, scan: &Scan, first: &[u16]) -> Outcome {
    let mut given = first.to_vec();
    for _ in 0..rng.below(MOST) {
        given.extend(gen::row(rng, &scan.table, scan.width));
    }
    let burst = bench.rows(scan, &given)?;
    let last = burst.refusal == 19 && burst.place as usize == scan.table.count;
    let waited = scan.rows < delay(&scan.table);
    let tally = &mut bench.tally;
    tally.saw_if("19 place K behind waiting", last && waited);
    tally.saw_if("19 place K behind rows out", last && burst.filtered > 0);
    Ok(())
}

/// A call on altered stores, which are then put back.
fn altered(rng: &mut Rng, bench: &mut Bench, scan: &Scan, next: &Next) -> Outcome {
    let kept = bench.keep();
    if rng.one_in(6) {
        fill(rng, bench, scan, next.arrival());
    } else {
        lift(rng, bench, scan, next);
    }
    if rng.one_in(6) {
        // A sum that cannot be comes first, whatever the pixels.
        let place = rng.below(scan.table.count * scan.width);
        bench.set_sum(place, u32::MAX);
    }
    match &next.row {
        Some(row) if rng.one_in(3) => burst(rng, bench, scan, row)?,
        _ => arrival(bench, scan, next)?,
    }
    bench.put_back(&kept);
    Ok(())
}

/// A whole scan; before some of its arrivals the stores are altered and the call is made on them.
pub fn case(rng: &mut Rng, tally: &mut Tally, _: u64) -> Outcome {
    let table = gen::loose(rng);
    let width = any_width(rng);
    let mut bench = Bench::with_rows(rng, tally, table.count, width, MOST);
    let told = |wrong| format!("{table:?} width {width}: {wrong}");
    let mut scan = bench.start(&table, width).map_err(told)?.scan;
    let height = rng.pick(&[1, 4, 20, 40]);
    while scan.steps < delay(&table) || !scan.closed {
        if scan.rows == height && !scan.closed {
            scan = bench.close(&scan).map_err(told)?.scan;
            continue;
        }
        let next = Next::new(rng, &scan);
        if rng.one_in(3) {
            altered(rng, &mut bench, &scan, &next).map_err(told)?;
        }
        let answer = next.call(&mut bench, &scan).map_err(told)?;
        holds("the arrival is accepted", answer.kind != REFUSED).map_err(told)?;
        scan = answer.scan;
    }
    Ok(())
}
