//! Ranked scans whose stores are altered between calls: question 19 is due, or it is not.

use super::super::altered::Next;
use super::dirty_windows;
use crate::engine::{Arrival, KEPT};
use crate::ffi::{Answer, Rank, REFUSED};
use crate::gen;
use crate::rank::{levels, rows, Moment, LEVELS};
use crate::rng::Rng;
use crate::tally::{same, Outcome, Tally};
use crate::world::ranked::RankBench;

impl Next {
    fn ranked(rng: &mut Rng, scan: &Rank) -> Next {
        let row = (!scan.closed).then(|| gen::ranked_row(rng, scan));
        Next { row }
    }

    fn ranked_call(&self, bench: &mut RankBench, scan: &Rank) -> Result<Answer<Rank>, String> {
        match &self.row {
            Some(row) => bench.row(scan, row),
            None => bench.step(scan),
        }
    }
}

/// How many samples the stores shall say that a column has.
#[derive(Clone, Copy, PartialEq)]
pub enum Crowd {
    /// None but those that have to leave.
    None,
    /// Any number.
    Any,
    /// Of every level M, once the arrival is in.
    Full,
}

/// Fills both stores so that question 19 passes for the arrival, whatever the state.
pub fn fill(rng: &mut Rng, bench: &mut RankBench, scan: &Rank, arrival: Arrival, crowd: Crowd) {
    let top = levels(scan.b);
    let most = rows(&scan.window) as u16;
    for index in 0..KEPT * scan.width {
        bench.set_sample(index, rng.below(top) as u16);
    }
    let moment = Moment::new(scan, arrival);
    for c in 0..scan.width {
        let (leaving, entering) = (
            moment.leaving(bench.samples(), c),
            moment.entering(bench.samples(), c),
        );
        for level in 0..LEVELS {
            let (leaves, enters) = (
                leaving == Some(level as u16),
                entering == Some(level as u16),
            );
            // The count after the arrival, taken back.
            let after = match crowd {
                _ if level >= top => rng.next() as u16,
                Crowd::None => u16::from(enters),
                Crowd::Any => rng.range(i64::from(enters), i64::from(most)) as u16,
                Crowd::Full => most,
            };
            let before = after - u16::from(enters) + u16::from(leaves);
            bench.set_count(c, level, before);
        }
    }
}

/// The level of a sample that leaves or enters, or any level.
fn level_of(rng: &mut Rng, scan: &Rank, sample: Option<u16>) -> usize {
    let level = sample.map(usize::from).filter(|&level| level < LEVELS);
    level.unwrap_or_else(|| rng.below(levels(scan.b)))
}

/// Alters one column count, often of the level that leaves or enters, to a value at the edge of question 19.
fn alter_count(rng: &mut Rng, bench: &mut RankBench, scan: &Rank, moment: Moment) {
    let c = rng.below(scan.width);
    let sample = match rng.below(6) {
        0 | 1 => moment.leaving(bench.samples(), c),
        2 | 3 => moment.entering(bench.samples(), c),
        4 => Some(rng.below(LEVELS) as u16),
        _ => None,
    };
    let level = level_of(rng, scan, sample);
    let most = rows(&scan.window) as u16;
    let any = rng.next() as u16;
    let counts = [0, 0, 1, most - 1, most, most, most + 1, most + 1, most + 2];
    let count = match rng.below(4) {
        0 => u16::MAX,
        1 => rng.pick(&[u16::MAX - 1, 256, any]),
        _ => rng.pick(&counts),
    };
    bench.set_count(c, level, count);
}

/// Alters one kept sample: of the row that leaves or enters, in the arrival's own slot, in the slot of a row below 0, anywhere.
fn alter_sample(rng: &mut Rng, bench: &mut RankBench, scan: &Rank, moment: Moment) {
    let slot = |row: i64| row.rem_euclid(KEPT as i64) as usize;
    let slot = match rng.below(6) {
        0 | 1 => slot(moment.leaving_row()),
        2 => slot(moment.entering_row()),
        3 => slot(moment.a),
        4 => KEPT - 1,
        _ => rng.below(KEPT),
    };
    let top = levels(scan.b) as u16;
    let sample = match rng.below(6) {
        0 => 0,
        1 => top - 1,
        2 => top,
        3 => u16::MAX,
        4 => rng.next() as u16,
        _ => rng.below(usize::from(top)) as u16,
    };
    bench.set_sample(slot * scan.width + rng.below(scan.width), sample);
}

/// Makes one level leave and enter a column, with a count at the edge of question 19.
fn alter_both(rng: &mut Rng, bench: &mut RankBench, scan: &Rank, moment: Moment) {
    let c = rng.below(scan.width);
    let entering = moment.entering(bench.samples(), c);
    let level = level_of(rng, scan, entering);
    let slot = moment.leaving_row().rem_euclid(KEPT as i64) as usize;
    bench.set_sample(slot * scan.width + c, level as u16);
    let most = rows(&scan.window) as u16;
    let count = rng.pick(&[0, 0, 1, most, most + 1, u16::MAX]);
    bench.set_count(c, level, count);
}

fn alter(rng: &mut Rng, bench: &mut RankBench, scan: &Rank, moment: Moment) {
    for _ in 0..rng.pick(&[1, 1, 1, 2, 4]) {
        match rng.below(6) {
            0 | 1 => alter_sample(rng, bench, scan, moment),
            2 => alter_both(rng, bench, scan, moment),
            _ => alter_count(rng, bench, scan, moment),
        }
    }
    if rng.one_in(4) {
        dirty_windows(rng, bench);
    }
}

pub fn was_19(answer: &Answer<Rank>) -> bool {
    answer.kind == REFUSED && answer.number == 19
}

/// A call with altered stores or an old state; what it leaves is what goes on.
fn altered_call(
    rng: &mut Rng,
    bench: &mut RankBench,
    scan: &Rank,
    old: &Rank,
) -> Result<Answer<Rank>, String> {
    let kept = bench.keep();
    let again = rng.one_in(6) && old.closed == scan.closed;
    let state = if again { old } else { scan };
    let next = Next::ranked(rng, state);
    if again {
        bench.tally.saw("ranked: old state again");
    } else {
        alter(rng, bench, state, Moment::new(state, next.arrival()));
    }
    let answer = next.ranked_call(bench, state)?;
    if was_19(&answer) {
        bench.put_back(&kept);
        if rng.one_in(2) {
            // The same call is accepted, or refused, by what was there before.
            return next.ranked_call(bench, state);
        }
    } else {
        bench.tally.saw("ranked: altered, no 19");
    }
    Ok(answer)
}

/// A call without alteration; a 19 that comes of an earlier alteration is mended with new stores.
fn plain_call(rng: &mut Rng, bench: &mut RankBench, scan: &Rank) -> Result<Answer<Rank>, String> {
    let next = Next::ranked(rng, scan);
    let answer = next.ranked_call(bench, scan)?;
    if !was_19(&answer) {
        return Ok(answer);
    }
    let crowd = rng.pick(&[Crowd::None, Crowd::Any, Crowd::Full]);
    fill(rng, bench, scan, next.arrival(), crowd);
    let answer = next.ranked_call(bench, scan)?;
    same("19 with stores that fit", &was_19(&answer), &false)?;
    Ok(answer)
}

pub fn case(rng: &mut Rng, tally: &mut Tally, _: u64) -> Outcome {
    let width = rng.pick(&[1, 1, 2, 3, 5, 9, 17]);
    let wanted = gen::ranked(rng, width);
    let mut bench = RankBench::new(rng, tally, width);
    let told = |wrong| format!("{wanted:?}: {wrong}");
    let mut scan = bench.start(&wanted)?.scan;
    let mut old = scan;
    let calls = rng.pick(&[3, 10, 25, 50]);
    for call in 0..calls {
        if !scan.closed && call > calls / 2 && rng.one_in(calls) {
            scan = bench.close(&scan).map_err(told)?.scan;
        }
        let answer = if rng.one_in(3) {
            altered_call(rng, &mut bench, &scan, &old).map_err(told)?
        } else {
            plain_call(rng, &mut bench, &scan).map_err(told)?
        };
        if rng.one_in(3) {
            old = scan;
        }
        scan = answer.scan;
    }
    Ok(())
}
