//! Whole ranked scans, with refused calls in between; the rule is also worked out by sorting the samples.

pub mod altered;
pub mod states;

use super::scans::{brighten, relength};
use crate::ffi::{Answer, Rank, Window, DONE, REFUSED, ROW, WAITING};
use crate::gen;
use crate::rank::{columns, delay, levels, rows, shade, Rows, LEVELS};
use crate::rng::Rng;
use crate::table::largest_of;
use crate::tally::{holds, same, Outcome, Tally};
use crate::world::ranked::{RankBench, RankLengths};

/// Samples that may be sorted for the rule's levels of one row.
const SORTED: usize = 3_000;

/// Cases from one to the next with rows of 1,024 samples, and with every rank of a window.
const WIDE: u64 = 400;
const ALL_RANKS: u64 = 200;

pub fn case(rng: &mut Rng, tally: &mut Tally, index: u64) -> Outcome {
    if index % ALL_RANKS == 1 {
        return all_ranks(rng, tally, index == 1);
    }
    let wide = index % WIDE == 0;
    let width = match rng.below(4) {
        _ if wide => 1024,
        0 => rng.pick(&[1, 2, 3]),
        1 => rng.below(40) + 1,
        _ => rng.below(12) + 1,
    };
    let mut scan = gen::ranked(rng, width);
    if rng.one_in(2) {
        // Every delay in turn.
        let d = (index / 2 % 16) as i8;
        relead(rng, &mut scan, d);
    }
    let d = delay(&scan.window) as usize;
    let height = match rng.below(6) {
        0 => 0,
        1 => rng.below(d + 1),
        2 => d + rng.below(3),
        3 if !wide => rng.below(45) + 25,
        _ => rng.below(20) + 1,
    };
    let given = gen::ranked_rows(rng, &scan, height);
    run(rng, tally, &scan, &given)
}

/// Gives the window another lead row, and a rank that goes with it.
fn relead(rng: &mut Rng, scan: &mut Rank, lead: i8) {
    scan.window.leadrow = lead;
    scan.window.trailrow = rng.range(-16, i64::from(lead) - 1) as i8;
    scan.rank = gen::rank(rng, &scan.window);
}

/// The same scan with every rank of its window, 31 by 31 or a smaller one.
fn all_ranks(rng: &mut Rng, tally: &mut Tally, largest: bool) -> Outcome {
    let (width, height) = if largest {
        (3, 4)
    } else {
        (rng.below(6) + 1, rng.below(8) + 1)
    };
    let mut scan = gen::ranked(rng, width);
    let mut edges = |most: i64| {
        let lead = rng.range(-3, 3);
        let trail = rng.range(lead - most, lead - 1);
        if largest {
            (15, -16)
        } else {
            (lead as i8, trail as i8)
        }
    };
    let (leadrow, trailrow) = edges(5);
    let (leadcol, trailcol) = edges(7);
    scan.window = Window {
        leadrow,
        leadcol,
        trailrow,
        trailcol,
    };
    let given = gen::ranked_rows(rng, &scan, height);
    for rank in 1..=rows(&scan.window) * columns(&scan.window) {
        scan.rank = rank as u32;
        run(rng, tally, &scan, &given)?;
    }
    tally.saw("ranked: all ranks of a window");
    Ok(())
}

fn note(tally: &mut Tally, scan: &Rank, height: usize) {
    let Rank { window, width, .. } = *scan;
    let d = delay(&window);
    tally.ran_ranked(d, scan.b);
    tally.saw_if("ranked: window left of the pixel", window.leadcol < 0);
    tally.saw_if("ranked: window right of the pixel", window.trailcol >= 0);
    tally.saw_if("ranked: window above the pixel", window.leadrow < 0);
    tally.saw_if("ranked: window below the pixel", window.trailrow >= 0);
    tally.saw_if("ranked: width 1", width == 1);
    tally.saw_if("ranked: width 1024", width == 1024);
    tally.saw_if("ranked: no rows", height == 0);
    let few = 0 < height && height < d as usize;
    tally.saw_if("ranked: fewer rows than D", few);
    tally.saw_if("ranked: ring gone round", height > 32);
}

/// A ranked scan on its way: what the calls get, and the rows given so far.
struct Running<'a> {
    bench: RankBench<'a>,
    scan: Rank,
    given: Vec<u16>,
    /// Ranked rows that came out.
    out: u32,
}

/// A scan from its start to past its end; `wanted` says b, window, rank and width.
fn run(rng: &mut Rng, tally: &mut Tally, wanted: &Rank, given: &[Vec<u16>]) -> Outcome {
    note(tally, wanted, given.len());
    let mut running = Running {
        bench: RankBench::new(rng, tally, wanted.width),
        scan: *wanted,
        given: Vec::new(),
        out: 0,
    };
    if rng.one_in(2) {
        running.bench.lend(RankLengths::needed(wanted.width));
    }
    let told = |wrong| format!("{wanted:?} height {}: {wrong}", given.len());
    running.begin(rng).map_err(told)?;
    running.rows(rng, given).map_err(told)?;
    running.ending(rng, given.len()).map_err(told)?;
    same("ranked rows", &(running.out as usize), &given.len()).map_err(told)
}

impl Running<'_> {
    /// A start, now and then after one that is refused or after the first rows of another scan.
    fn begin(&mut self, rng: &mut Rng) -> Outcome {
        let wanted = self.scan;
        if rng.one_in(3) {
            states::refused_start(rng, &mut self.bench, &wanted)?;
            self.bench.tally.saw("ranked: refused start before");
        }
        if rng.one_in(6) {
            let other = gen::ranked(rng, wanted.width);
            let mut scan = self.bench.start(&other)?.scan;
            for _ in 0..rng.below(4) + 1 {
                let row = gen::ranked_row(rng, &scan);
                scan = self.bench.row(&scan, &row)?.scan;
            }
            self.bench.tally.saw("ranked: another scan before");
        }
        let started = self.bench.start(&wanted)?;
        same("start", &(started.refusal, started.scan), &(0, wanted))?;
        if rng.one_in(2) {
            self.dirty_counts(rng);
        }
        Ok(())
    }

    /// Anything in the counts of levels that b bits do not have: nobody reads or writes them.
    fn dirty_counts(&mut self, rng: &mut Rng) {
        for c in 0..self.scan.width {
            for level in levels(self.scan.b)..LEVELS {
                let count = rng.pick(&[0, 1, 31, 32, 255, u16::MAX]);
                self.bench.set_count(c, level, count);
            }
        }
    }

    /// What may happen between two calls that take something in.
    fn between(&mut self, rng: &mut Rng) -> Outcome {
        if rng.one_in(5) {
            dirty_windows(rng, &mut self.bench);
        }
        while rng.one_in(4) {
            self.refused_call(rng)?;
        }
        Ok(())
    }

    fn rows(&mut self, rng: &mut Rng, given: &[Vec<u16>]) -> Outcome {
        for (a, row) in given.iter().enumerate() {
            self.between(rng)?;
            let answer = self.bench.row(&self.scan, row)?;
            let due = a >= delay(&self.scan.window) as usize;
            let kind = if due { ROW } else { WAITING };
            same("kind of a row", &answer.kind, &kind)?;
            self.given.extend(row);
            self.took(rng, &answer)?;
        }
        Ok(())
    }

    fn ending(&mut self, rng: &mut Rng, height: usize) -> Outcome {
        let closed = self.bench.close(&self.scan)?;
        same("close", &closed.refusal, &0)?;
        self.scan = closed.scan;
        let d = delay(&self.scan.window) as usize;
        for step in 0..d {
            self.between(rng)?;
            let answer = self.bench.step(&self.scan)?;
            let due = height + step >= d;
            let kind = if due { ROW } else { WAITING };
            same("kind of a closing step", &answer.kind, &kind)?;
            self.took(rng, &answer)?;
        }
        for _ in 0..2 {
            self.between(rng)?;
            let answer = self.bench.step(&self.scan)?;
            same("a further step", &answer.kind, &DONE)?;
            same("state after done", &answer.scan, &self.scan)?;
        }
        Ok(())
    }

    /// An accepted arrival: its row, if one came out, has the levels that sorting gives.
    fn took(&mut self, rng: &mut Rng, answer: &Answer<Rank>) -> Outcome {
        holds("the arrival is accepted", answer.kind != REFUSED)?;
        self.scan = answer.scan;
        self.counts_hold(rng)?;
        if answer.kind != ROW {
            return Ok(());
        }
        same("row number", &answer.number, &self.out)?;
        by_sorting(rng, &mut self.bench, &self.scan, &self.given, self.out)?;
        self.out += 1;
        Ok(())
    }

    /// The counts of a column are those of its samples under the window of the row last due, waiting or not.
    fn counts_hold(&mut self, rng: &mut Rng) -> Outcome {
        let Rank { window, width, .. } = self.scan;
        let scan = Rows {
            width,
            samples: &self.given,
        };
        let arrivals = i64::from(self.scan.rows) + i64::from(self.scan.steps);
        let r = arrivals - 1 - i64::from(delay(&window));
        let c = rng.below(width);
        let column = Window {
            leadcol: 0,
            trailcol: -1,
            ..window
        };
        let mut counts = vec![0; levels(self.scan.b)];
        for level in scan.inside(&column, r, c) {
            counts[usize::from(level)] += 1;
        }
        let stored = &self.bench.counts()[LEVELS * c..][..counts.len()];
        same("counts of a column", stored, &counts)
    }

    /// A call that has to change nothing: refused, or done.
    fn refused_call(&mut self, rng: &mut Rng) -> Outcome {
        let lent = self.bench.lent();
        let idle = match rng.below(6) {
            0 => {
                let scan = if self.scan.closed {
                    self.scan
                } else {
                    states::spoilt(rng, &self.scan)
                };
                self.bench.close(&scan)?.refusal != 0
            }
            1 | 2 => self.refused_step(rng)?,
            _ => self.refused_row(rng)?,
        };
        self.bench.lend(lent);
        self.bench.tally.saw("ranked: refused in the middle");
        holds("a call that should be refused is", idle)
    }

    fn refused_step(&mut self, rng: &mut Rng) -> Result<bool, String> {
        let mut scan = self.scan;
        let short = rng.one_in(2);
        if short {
            lend_too_little(rng, &mut self.bench, scan.width, OUTPUT_TOO);
        } else {
            scan = states::spoilt(rng, &scan);
        }
        let answer = self.bench.step(&scan)?;
        let done = answer.kind == DONE;
        let tally = &mut self.bench.tally;
        tally.saw_if("ranked: done with short stores", done && short);
        Ok(answer.kind == REFUSED || done)
    }

    /// A row with one to three faults.
    fn refused_row(&mut self, rng: &mut Rng) -> Result<bool, String> {
        let mut scan = self.scan;
        let mut row = gen::ranked_row(rng, &scan);
        for _ in 0..rng.below(3) + 1 {
            match rng.below(5) {
                0 => scan = states::spoilt(rng, &scan),
                1 => relength(rng, &mut row, self.scan.width),
                2 => brighten(rng, largest_of(self.scan.b), &mut row),
                _ => lend_too_little(rng, &mut self.bench, self.scan.width, OUTPUT_TOO),
            }
        }
        let answer = self.bench.row(&scan, &row)?;
        let waits = scan.rows < delay(&self.scan.window);
        let short = answer.kind == REFUSED && answer.number == 13;
        let tally = &mut self.bench.tally;
        tally.saw_if("ranked: 13 while waiting", short && waits);
        Ok(answer.kind == REFUSED)
    }
}

/// Anything in some or all of the window counts.
fn dirty_windows(rng: &mut Rng, bench: &mut RankBench) {
    let all = rng.one_in(2);
    for level in 0..LEVELS {
        if all || rng.one_in(20) {
            bench.set_window(level, rng.next() as u16);
        }
    }
}

/// Of what too little is lent: one of the three stores, or of these and the output.
const STORES: usize = 3;
const OUTPUT_TOO: usize = 4;

/// Lends too little of one of so many.
fn lend_too_little(rng: &mut Rng, bench: &mut RankBench, width: usize, of: usize) {
    let mut lengths = bench.lent();
    let needed = RankLengths::needed(width);
    let which = rng.below(of);
    let mut short = |n: usize| if rng.one_in(2) { n - 1 } else { rng.below(n) };
    match which {
        0 => lengths.samples = short(needed.samples),
        1 => lengths.counts = short(needed.counts),
        2 => lengths.windows = short(needed.windows),
        _ => lengths.out = short(needed.out),
    }
    bench.lend(lengths);
}

/// The library's output is what sorting gives for row r of a scan, which is given as far as it has come.
fn by_sorting(rng: &mut Rng, bench: &mut RankBench, scan: &Rank, given: &[u16], r: u32) -> Outcome {
    let Rank { window, width, .. } = *scan;
    let rows = Rows {
        width,
        samples: given,
    };
    let places = places(rng, &window, width);
    let every = places.len() == width;
    for c in places {
        let inside = rows.inside(&window, i64::from(r), c);
        let what = format!("level at row {r} column {c} by sorting");
        same(&what, &bench.output()[c], &shade(&inside, scan.rank))?;
        let what = match inside.len() {
            0 => "ranked: none inside",
            n if n < scan.rank as usize => "ranked: fewer than R inside",
            _ => "ranked: R or more inside",
        };
        bench.tally.saw(what);
    }
    bench.tally.saw_if("ranked: every place by sorting", every);
    Ok(())
}

/// The columns whose levels are worked out by sorting: all, or some with both ends.
fn places(rng: &mut Rng, window: &Window, width: usize) -> Vec<usize> {
    let most = SORTED / (rows(window) * columns(window)) as usize + 2;
    if width <= most {
        return (0..width).collect();
    }
    let mut list = vec![0, width - 1];
    list.extend((2..most).map(|_| rng.below(width)));
    list
}
