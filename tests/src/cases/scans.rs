//! Whole scans, with refused calls in between; every pixel is also worked out from its definition.

use crate::ffi::{self, Answer, Scan, Table, DONE, REFUSED, ROW, WAITING};
use crate::gen;
use crate::pixel::Strip;
use crate::rng::Rng;
use crate::table::{self, delay, rects};
use crate::tally::{holds, same, Outcome, Tally};
use crate::world::{Bench, Lengths};

/// Samples that may be read for the definition's pixels of one row.
const READS: usize = 30_000;

pub fn small(rng: &mut Rng, tally: &mut Tally, _: u64) -> Outcome {
    let table = gen::table(rng);
    let width = match rng.below(4) {
        0 => rng.pick(&[1, 2, 3]),
        1 => rng.below(40) + 1,
        _ => rng.below(12) + 1,
    };
    let d = delay(&table) as usize;
    let height = match rng.below(6) {
        0 => 0,
        1 => rng.below(d + 1),
        2 => d + rng.below(3),
        3 => rng.below(45) + 25,
        _ => rng.below(20) + 1,
    };
    run(rng, tally, &table, width, height)
}

pub fn wide(rng: &mut Rng, tally: &mut Tally, index: u64) -> Outcome {
    let table = gen::table(rng);
    let width = match index % 3 {
        0 => 1024,
        1 => 1024 - rng.below(5),
        _ => rng.below(1000) + 24,
    };
    let height = rng.below(24) + 1;
    run(rng, tally, &table, width, height)
}

fn note(tally: &mut Tally, table: &Table, width: usize, height: usize) {
    let d = delay(table);
    let weights = || rects(table).iter().map(|rect| rect.weight);
    let signs = weights().any(|w| w > 0) && weights().any(|w| w < 0);
    let negative = rects(table).iter().any(|r| r.leadrow < 0 || r.leadcol < 0);
    tally.ran(d);
    tally.saw_if("drops", table.q1 > 0 || table.q2 > 0 || table.q3 > 0);
    tally.saw_if("negative lead", negative);
    tally.saw_if("both signs of weight", signs);
    tally.saw_if("width 1", width == 1);
    tally.saw_if("width 1024", width == 1024);
    tally.saw_if("no rows", height == 0);
    tally.saw_if("fewer rows than D", 0 < height && height < d as usize);
    tally.saw_if("ring gone round", height > 32);
}

/// A scan on its way: what the calls get, and the rows given so far.
struct Running<'a> {
    bench: Bench<'a>,
    scan: Scan,
    given: Vec<u16>,
    /// Filtered rows that came out.
    out: usize,
}

/// A scan from its start to past its end.
fn run(rng: &mut Rng, tally: &mut Tally, table: &Table, width: usize, height: usize) -> Outcome {
    note(tally, table, width, height);
    let mut bench = Bench::new(rng, tally, table.count, width);
    if rng.one_in(2) {
        bench.lend(Lengths::needed(table.count, width));
    }
    let started = bench.start(table, width)?;
    same("start", &started.refusal, &0)?;
    let mut running = Running {
        bench,
        scan: started.scan,
        given: Vec::new(),
        out: 0,
    };
    let told = |wrong| format!("{table:?} width {width} height {height}: {wrong}");
    running.rows(rng, height).map_err(told)?;
    running.ending(rng, height).map_err(told)?;
    same("filtered rows", &running.out, &height).map_err(told)?;
    running.by_pixel_call(rng).map_err(told)
}

impl Running<'_> {
    fn rows(&mut self, rng: &mut Rng, height: usize) -> Outcome {
        for _ in 0..height {
            while rng.one_in(4) {
                self.refused_call(rng)?;
            }
            let row = gen::row(rng, &self.scan.table, self.scan.width);
            let answer = self.bench.row(&self.scan, &row)?;
            self.given.extend(&row);
            self.took(rng, &answer)?;
        }
        Ok(())
    }

    fn ending(&mut self, rng: &mut Rng, height: usize) -> Outcome {
        let closed = self.bench.close(&self.scan)?;
        same("close", &closed.refusal, &0)?;
        self.scan = closed.scan;
        let d = delay(&self.scan.table) as usize;
        for step in 0..d {
            while rng.one_in(4) {
                self.refused_call(rng)?;
            }
            let answer = self.bench.step(&self.scan)?;
            let due = height + step >= d;
            let kind = if due { ROW } else { WAITING };
            same("kind of a closing step", &answer.kind, &kind)?;
            self.took(rng, &answer)?;
        }
        for _ in 0..2 {
            self.refused_call(rng)?;
            let answer = self.bench.step(&self.scan)?;
            same("a further step", &answer.kind, &DONE)?;
            same("state after done", &answer.scan, &self.scan)?;
        }
        Ok(())
    }

    /// An accepted arrival: its row, if one came out, has the definition's pixels.
    fn took(&mut self, rng: &mut Rng, answer: &Answer) -> Outcome {
        holds("the arrival is accepted", answer.kind != REFUSED)?;
        self.scan = answer.scan;
        if answer.kind != ROW {
            return Ok(());
        }
        same("row number", &(answer.number as usize), &self.out)?;
        let Scan { table, width, .. } = self.scan;
        let strip = Strip {
            width,
            samples: &self.given,
        };
        for c in columns(rng, &table, width) {
            let library = i64::from(self.bench.output()[c]);
            let rules = strip.pixel(&table, self.out, c);
            let what = format!("pixel at row {} column {c} by its definition", self.out);
            same(&what, &library, &rules)?;
        }
        self.out += 1;
        Ok(())
    }

    /// The one-pixel call answers the same for some places of the whole scan.
    fn by_pixel_call(&mut self, rng: &mut Rng) -> Outcome {
        let Scan { table, width, .. } = self.scan;
        if self.out == 0 {
            return Ok(());
        }
        let r = self.out - 1;
        for c in [0, rng.below(width), width - 1] {
            let found = ffi::pixel(&table, width, &self.given, r, c);
            let came_out = self.bench.output()[c];
            same(
                "the one-pixel call",
                &(found.refusal, found.value),
                &(0, came_out),
            )?;
        }
        self.bench.tally.saw("whole scan by the pixel call");
        Ok(())
    }

    /// A call that has to change nothing: refused, or done.
    fn refused_call(&mut self, rng: &mut Rng) -> Outcome {
        let lent = self.bench.lent();
        let idle = match rng.below(6) {
            0 => {
                let scan = if self.scan.closed {
                    self.scan
                } else {
                    spoilt(rng, &self.scan)
                };
                self.bench.close(&scan)?.refusal != 0
            }
            1 | 2 => self.refused_step(rng)?,
            _ => self.refused_row(rng)?,
        };
        self.bench.lend(lent);
        self.bench.tally.saw("refused in the middle");
        holds("a call that should be refused is", idle)
    }

    /// Lends too little of one store or of the output.
    fn lend_too_little(&mut self, rng: &mut Rng) {
        let Scan { table, width, .. } = self.scan;
        let mut lengths = self.bench.lent();
        let needed = Lengths::needed(table.count, width);
        let which = rng.below(3);
        let mut short = |n: usize| if rng.one_in(2) { n - 1 } else { rng.below(n) };
        match which {
            0 => lengths.samples = short(needed.samples),
            1 => lengths.sums = short(needed.sums),
            _ => lengths.out = short(needed.out),
        }
        self.bench.lend(lengths);
    }

    fn refused_step(&mut self, rng: &mut Rng) -> Result<bool, String> {
        let mut scan = self.scan;
        let short = rng.one_in(2);
        if short {
            self.lend_too_little(rng);
        } else {
            scan = spoilt(rng, &scan);
        }
        let answer = self.bench.step(&scan)?;
        let done = answer.kind == DONE;
        self.bench
            .tally
            .saw_if("done with short stores", done && short);
        Ok(answer.kind == REFUSED || done)
    }

    /// A row with one to three faults.
    fn refused_row(&mut self, rng: &mut Rng) -> Result<bool, String> {
        let mut scan = self.scan;
        let mut row = gen::row(rng, &scan.table, scan.width);
        for _ in 0..rng.below(3) + 1 {
            match rng.below(5) {
                0 => scan = spoilt(rng, &scan),
                1 => relength(rng, &mut row, self.scan.width),
                2 => brighten(rng, table::largest_sample(&self.scan.table), &mut row),
                _ => self.lend_too_little(rng),
            }
        }
        let answer = self.bench.row(&scan, &row)?;
        let waits = scan.rows < delay(&self.scan.table);
        let short = answer.kind == REFUSED && answer.number == 13;
        self.bench.tally.saw_if("13 while waiting", short && waits);
        Ok(answer.kind == REFUSED)
    }
}

/// The columns whose pixels are worked out from the definition: all, or some with both ends.
fn columns(rng: &mut Rng, table: &Table, width: usize) -> Vec<usize> {
    let most = READS / gen::area(table) + 2;
    if width <= most {
        return (0..width).collect();
    }
    let mut list = vec![0, width - 1];
    list.extend((2..most).map(|_| rng.below(width)));
    list
}

/// A row of a wrong length.
pub fn relength(rng: &mut Rng, row: &mut Vec<u16>, width: usize) {
    let length = rng.pick(&[0, width - 1, width + 1, 2 * width, width + 32]);
    row.resize(length, 0);
}

/// One or two samples above 2^b - 1; a row without samples gets some, more than any width.
pub fn brighten(rng: &mut Rng, largest: u16, row: &mut Vec<u16>) {
    if row.is_empty() {
        row.resize(2000, 0);
    }
    for _ in 0..rng.below(2) + 1 {
        let at = rng.below(row.len());
        row[at] = rng.pick(&[largest + 1, largest + 1, 65_534]);
    }
}

/// A state whose numbers do not agree.
pub fn spoilt(rng: &mut Rng, scan: &Scan) -> Scan {
    let mut bad = *scan;
    match rng.below(6) {
        0 => bad.table = gen::bad_table(rng),
        1 => bad.width = rng.pick(&[0, 1025, 2048, usize::MAX, 1 << 32]),
        2 => bad.rows = rng.pick(&[65_536, 65_537, 1 << 20, u32::MAX]),
        3 => bad.steps = rng.pick(&[16, 31, 255, 65_536, u32::MAX]),
        4 => {
            bad.closed = true;
            bad.steps = 1 + if (1..=16).contains(&bad.table.count) {
                delay(&bad.table)
            } else {
                0
            };
        }
        _ => {
            bad.closed = false;
            bad.steps = 1;
        }
    }
    bad
}
