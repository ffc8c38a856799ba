//! Scans whose stores are altered between calls: question 19 is due, or it is not.

use crate::engine::{arrivals, largest_sum, Arrival, Moment, KEPT};
use crate::ffi::{Answer, Scan, REFUSED};
use crate::gen;
use crate::rng::Rng;
use crate::table::{largest_sample, rects};
use crate::tally::{same, Outcome, Tally};
use crate::world::Bench;

/// The next call on a scan: a row while it is open, a closing step after.
pub struct Next {
    pub row: Option<Vec<u16>>,
}

impl Next {
    pub fn new(rng: &mut Rng, scan: &Scan) -> Next {
        let row = (!scan.closed).then(|| gen::row(rng, &scan.table, scan.width));
        Next { row }
    }

    pub fn arrival(&self) -> Arrival<'_> {
        match &self.row {
            Some(row) => Arrival::Row(row),
            None => Arrival::Zeros,
        }
    }

    pub fn call(&self, bench: &mut Bench, scan: &Scan) -> Result<Answer, String> {
        match &self.row {
            Some(row) => bench.row(scan, row),
            None => bench.step(scan),
        }
    }
}

/// Fills both stores so that question 19 passes for every sum of the arrival, whatever the state.
pub fn fill(rng: &mut Rng, bench: &mut Bench, scan: &Scan, arrival: Arrival) {
    let Scan { table, width, .. } = scan;
    let largest = i64::from(largest_sample(table));
    for index in 0..KEPT * width {
        bench.set_sample(index, rng.range(0, largest) as u16);
    }
    for (k, rect) in rects(table).iter().enumerate() {
        let most = largest_sum(table, rect);
        for c in 0..*width {
            let (leaving, entering) = Moment::new(scan, arrival).terms(bench.samples(), rect, c);
            let high = most + leaving - entering;
            let sum = rng.range(leaving as i64, high as i64);
            bench.set_sum(k * width + c, sum as u32);
        }
    }
}

/// Alters one stored sum, often to a value at the edge of question 19.
fn alter_sum(rng: &mut Rng, bench: &mut Bench, scan: &Scan, next: &Next) {
    let Scan { table, width, .. } = scan;
    let k = rng.below(table.count);
    let c = rng.below(*width);
    let rect = table.rects[k];
    let most = largest_sum(table, &rect);
    let moment = Moment::new(scan, next.arrival());
    let (leaving, entering) = moment.terms(bench.samples(), &rect, c);
    let high = (most + leaving).saturating_sub(entering);
    let sum = match rng.below(8) {
        0 => leaving,
        1 => leaving.saturating_sub(1),
        2 => high,
        3 => high + 1,
        4 => u64::from(u32::MAX),
        5 => (1 << 32) - entering.max(1) + leaving.min(entering.max(1) - 1),
        6 => rng.range(0, most as i64 + 10) as u64,
        _ => u64::from(rng.next() as u32),
    };
    bench.set_sum(k * width + c, sum as u32);
    let tally = &mut bench.tally;
    tally.saw_if("19 just passed", sum == leaving || sum == high);
    tally.saw_if("19 just missed", sum + 1 == leaving || sum == high + 1);
    tally.saw_if("sum near 2^32", sum > u64::from(u32::MAX) - 70_000);
}

/// Alters one kept sample: anywhere, in the arrival's own slot, or in the slot of a row below 0.
fn alter_sample(rng: &mut Rng, bench: &mut Bench, scan: &Scan) {
    let a = arrivals(scan) as usize;
    let slot = match rng.below(4) {
        0 => a % KEPT,
        1 => KEPT - 1,
        2 => (a + KEPT - 1 - rng.below(3)) % KEPT,
        _ => rng.below(KEPT),
    };
    let largest = largest_sample(&scan.table);
    let sample = match rng.below(5) {
        0 => 0,
        1 => largest,
        2 => largest + 1,
        3 => u16::MAX,
        _ => rng.next() as u16,
    };
    bench.set_sample(slot * scan.width + rng.below(scan.width), sample);
}

fn alter(rng: &mut Rng, bench: &mut Bench, scan: &Scan, next: &Next) {
    for _ in 0..rng.pick(&[1, 1, 1, 2, 4]) {
        if rng.one_in(3) {
            alter_sample(rng, bench, scan);
        } else {
            alter_sum(rng, bench, scan, next);
        }
    }
}

fn was_19(answer: &Answer) -> bool {
    answer.kind == REFUSED && answer.number == 19
}

/// A call with altered stores or an old state; what it leaves is what goes on.
fn altered_call(
    rng: &mut Rng,
    bench: &mut Bench,
    scan: &Scan,
    old: &Scan,
) -> Result<Answer, String> {
    let kept = bench.keep();
    let again = rng.one_in(6) && old.closed == scan.closed;
    let state = if again { old } else { scan };
    let next = Next::new(rng, state);
    if again {
        bench.tally.saw("old state again");
    } else {
        alter(rng, bench, state, &next);
    }
    let dead = Moment::new(state, next.arrival()).reads_dead(bench.samples());
    bench.tally.saw_if("65,535 in the store", dead);
    let answer = next.call(bench, state)?;
    if was_19(&answer) {
        bench.tally.saw("altered, 19");
        let later = (1..state.table.count as u32).contains(&answer.place);
        bench.tally.saw_if("19 at a later rectangle", later);
        bench.put_back(&kept);
        if rng.one_in(2) {
            // The same call is accepted, or refused, by what was there before.
            return next.call(bench, state);
        }
    } else {
        bench.tally.saw("altered, no 19");
    }
    Ok(answer)
}

/// A call without alteration; a 19 that comes of an earlier alteration is mended with new stores: any sums that can be, or, where they take a
/// pixel out of its word, those of a scan that was dark so far.
fn plain_call(rng: &mut Rng, bench: &mut Bench, scan: &Scan) -> Result<Answer, String> {
    let next = Next::new(rng, scan);
    let answer = next.call(bench, scan)?;
    if !was_19(&answer) {
        return Ok(answer);
    }
    fill(rng, bench, scan, next.arrival());
    let answer = next.call(bench, scan)?;
    if !was_19(&answer) {
        return Ok(answer);
    }
    let last = scan.table.count as u32;
    same("19 with sums that can be", &answer.place, &last)?;
    bench.start(&scan.table, scan.width)?;
    let answer = next.call(bench, scan)?;
    same("19 after a dark scan", &was_19(&answer), &false)?;
    Ok(answer)
}

pub fn case(rng: &mut Rng, tally: &mut Tally, _: u64) -> Outcome {
    let table = gen::table(rng);
    let width = rng.pick(&[1, 1, 2, 3, 5, 9, 17]);
    let mut bench = Bench::new(rng, tally, table.count, width);
    let mut scan = bench.start(&table, width)?.scan;
    let mut old = scan;
    let calls = rng.pick(&[3, 10, 25, 50]);
    let told = |wrong| format!("{table:?} width {width}: {wrong}");
    for call in 0..calls {
        if !scan.closed && call > calls / 2 && rng.one_in(calls) {
            scan = bench.close(&scan).map_err(told)?.scan;
        }
        let answer = if rng.one_in(3) {
            altered_call(rng, &mut bench, &scan, &old).map_err(told)?
        } else {
            plain_call(rng, &mut bench, &scan).map_err(told)?
        };
        if rng.one_in(3) {
            old = scan;
        }
        scan = answer.scan;
    }
    Ok(())
}
