//! Two equal sets of stores: the library works on one, the engine of the rules on the other, and they stay equal.

pub mod ranked;

use std::fmt::Debug;

use crate::engine::{self, KEPT};
use crate::ffi::{self, Answer, Burst, Scan, Started, Table, DONE, REFUSED, ROW, WAITING};
use crate::pixel::{last_live, DEAD};
use crate::rng::Rng;
use crate::table::{area_extremes, both_fit};
use crate::tally::{holds, same, Outcome, Tally};

/// Places on both sides of a lent part that nobody may touch.
const MARGIN: usize = 4;

/// A store of which `given` places are lent.
#[derive(Clone, PartialEq)]
struct Lent<T> {
    all: Vec<T>,
    given: usize,
}

impl<T: Copy + PartialEq + Debug> Lent<T> {
    /// Room for `room` places, all of them lent, with anything in them.
    fn new(room: usize, mut dirt: impl FnMut() -> T) -> Lent<T> {
        Lent {
            all: (0..room + 2 * MARGIN).map(|_| dirt()).collect(),
            given: room,
        }
    }

    fn room(&self) -> usize {
        self.all.len() - 2 * MARGIN
    }

    /// Lends so many places from now on, or all there are if they are fewer.
    fn lend(&mut self, places: usize) {
        self.given = places.min(self.room());
    }

    fn part(&mut self) -> &mut [T] {
        &mut self.all[MARGIN..MARGIN + self.given]
    }

    fn read(&self) -> &[T] {
        &self.all[MARGIN..MARGIN + self.given]
    }

    fn place(&mut self, index: usize) -> &mut T {
        &mut self.all[MARGIN + index]
    }

    fn compare(&self, what: &str, rules: &Lent<T>) -> Outcome {
        if self.all == rules.all {
            return Ok(());
        }
        let index = (0..self.all.len()).find(|&i| self.all[i] != rules.all[i]);
        let i = index.expect("stores of one length");
        Err(format!(
            "{what}, place {} of {}: library {:?}, rules {:?}",
            i as i64 - MARGIN as i64,
            self.given,
            self.all[i],
            rules.all[i]
        ))
    }
}

/// The stores and the output of one side.
pub trait Stores: Clone {
    fn compare(&self, rules: &Self) -> Outcome;
}

/// The stores of both sides.
pub struct Twins<'a, W> {
    pub tally: &'a mut Tally,
    library: W,
    rules: W,
}

impl<'a, W: Stores> Twins<'a, W> {
    fn of(tally: &'a mut Tally, world: W) -> Twins<'a, W> {
        Twins {
            tally,
            library: world.clone(),
            rules: world,
        }
    }

    /// A copy of the stores, to be put back later.
    pub fn keep(&self) -> W {
        self.rules.clone()
    }

    pub fn put_back(&mut self, world: &W) {
        self.library = world.clone();
        self.rules = world.clone();
    }

    /// Nothing has been written since the two were last equal.
    fn untouched(&self, call: &str) -> Outcome {
        let compared = self.library.compare(&self.rules);
        compared.map_err(|wrong| format!("{call} without effect changed a store: {wrong}"))
    }

    fn equal_after(&self, call: &str) -> Outcome {
        let compared = self.library.compare(&self.rules);
        compared.map_err(|wrong| format!("after {call}: {wrong}"))
    }

    /// A refusal, and done, leave the state and every store as they were.
    fn idle<S: PartialEq + Debug>(&self, call: &str, scan: &S, library: &Answer<S>) -> Outcome {
        if library.kind == REFUSED || library.kind == DONE {
            self.untouched(call)?;
            same("state after a call without effect", &library.scan, scan)?;
        }
        Ok(())
    }

    fn agree<S: PartialEq + Debug>(
        &mut self,
        call: &'static str,
        library: &Answer<S>,
        rules: &Answer<S>,
    ) -> Outcome {
        same(call, library, rules)?;
        self.equal_after(call)?;
        let number = if rules.kind == REFUSED {
            rules.number
        } else {
            0
        };
        self.tally.answered(call, number);
        Ok(())
    }
}

/// The stores of the filter.
#[derive(Clone, PartialEq)]
pub struct World {
    samples: Lent<u16>,
    sums: Lent<u32>,
    out: Lent<i32>,
}

impl Stores for World {
    fn compare(&self, rules: &World) -> Outcome {
        self.samples.compare("sample store", &rules.samples)?;
        self.sums.compare("sum store", &rules.sums)?;
        self.out.compare("output", &rules.out)
    }
}

/// The lengths that are lent: sample store, sum store, output.
#[derive(Clone, Copy, Debug)]
pub struct Lengths {
    pub samples: usize,
    pub sums: usize,
    pub out: usize,
}

impl Lengths {
    /// What a scan of `count` rectangles needs.
    pub fn needed(count: usize, width: usize) -> Lengths {
        Lengths {
            samples: KEPT * width,
            sums: count * width,
            out: width,
        }
    }
}

pub type Bench<'a> = Twins<'a, World>;

impl<'a> Bench<'a> {
    /// Stores with room for `count` rectangles at `width`, often a little more, and dirt in them.
    pub fn new(rng: &mut Rng, tally: &'a mut Tally, count: usize, width: usize) -> Bench<'a> {
        Bench::with_rows(rng, tally, count, width, 1)
    }

    /// The same with an output of so many rows.
    pub fn with_rows(
        rng: &mut Rng,
        tally: &'a mut Tally,
        count: usize,
        width: usize,
        rows: usize,
    ) -> Bench<'a> {
        let mut needed = Lengths::needed(count, width);
        needed.out = rows * width;
        let mut extra = || rng.pick(&[0, 0, 1, 5]);
        let (i, j, k) = (extra(), extra(), extra());
        let world = World {
            samples: Lent::new(needed.samples + i, || rng.next() as u16),
            sums: Lent::new(needed.sums + j, || rng.next() as u32),
            out: Lent::new(needed.out + k, || rng.next() as i32),
        };
        Bench::of(tally, world)
    }

    pub fn lend(&mut self, lengths: Lengths) {
        for world in [&mut self.library, &mut self.rules] {
            world.samples.lend(lengths.samples);
            world.sums.lend(lengths.sums);
            world.out.lend(lengths.out);
        }
    }

    /// What is lent now.
    pub fn lent(&self) -> Lengths {
        Lengths {
            samples: self.rules.samples.given,
            sums: self.rules.sums.given,
            out: self.rules.out.given,
        }
    }

    pub fn set_sample(&mut self, index: usize, sample: u16) {
        *self.library.samples.place(index) = sample;
        *self.rules.samples.place(index) = sample;
    }

    pub fn set_sum(&mut self, index: usize, sum: u32) {
        *self.library.sums.place(index) = sum;
        *self.rules.sums.place(index) = sum;
    }

    /// The sample store as it is lent.
    pub fn samples(&self) -> &[u16] {
        self.rules.samples.read()
    }

    /// The sum store as it is lent.
    pub fn sums(&self) -> &[u32] {
        self.rules.sums.read()
    }

    /// A 19 for the pixels due, which only a table that the old rule refuses can get.
    fn note_word(
        &mut self,
        call: &'static str,
        table: &Table,
        (number, place): (u32, u32),
    ) -> Outcome {
        if number != 19 || place as usize != table.count {
            return Ok(());
        }
        self.tally.saw(call);
        let loose = !both_fit(table, area_extremes(table));
        holds("a pixel past its word, by a table of the grid", loose)
    }

    /// The output as the library left it.
    pub fn output(&mut self) -> &[i32] {
        self.library.out.part()
    }

    pub fn start(&mut self, table: &Table, width: usize) -> Result<Started, String> {
        let world = &mut self.library;
        let (samples, sums) = (world.samples.part(), world.sums.part());
        let library = ffi::scan_start(table, width, samples, sums);
        if library.refusal != 0 {
            self.untouched("start")?;
        }
        let world = &mut self.rules;
        let (samples, sums) = (world.samples.part(), world.sums.part());
        let rules = engine::start(table, width, samples, sums);
        same("start", &library, &rules)?;
        self.equal_after("start")?;
        self.tally.answered("start", rules.refusal);
        Ok(rules)
    }

    pub fn close(&mut self, scan: &Scan) -> Result<Started, String> {
        let library = ffi::scan_close(scan);
        let rules = engine::close(scan);
        same("close", &library, &rules)?;
        self.tally.answered("close", rules.refusal);
        Ok(rules)
    }

    pub fn row(&mut self, scan: &Scan, row: &[u16]) -> Result<Answer, String> {
        let w = &mut self.library;
        let library = ffi::scan_row(scan, row, w.samples.part(), w.sums.part(), w.out.part());
        self.idle("row", scan, &library)?;
        let w = &mut self.rules;
        let rules = engine::row(scan, row, w.samples.part(), w.sums.part(), w.out.part());
        self.agree("row", &library, &rules)?;
        self.tally.saw_if("row out", rules.kind == ROW);
        self.tally.saw_if("waiting", rules.kind == WAITING);
        if rules.kind == REFUSED {
            let said = (rules.number, rules.place);
            self.note_word("19 place K in a row", &scan.table, said)?;
        }
        if rules.kind != REFUSED {
            self.note_dead(row);
        }
        Ok(rules)
    }

    /// The dead elements of a row that was taken.
    fn note_dead(&mut self, row: &[u16]) {
        let run = |s: &[u16]| s[0] != DEAD && s[1] == DEAD && s[2] == DEAD;
        self.tally.saw_if("dead at column 0", row[0] == DEAD);
        self.tally.saw_if("run of dead", row.windows(3).any(run));
        let dead = row.iter().all(|&s| s == DEAD);
        self.tally.saw_if("dead row", dead);
    }

    pub fn rows(&mut self, scan: &Scan, rows: &[u16]) -> Result<Burst, String> {
        let w = &mut self.library;
        let library = ffi::scan_rows(scan, rows, w.samples.part(), w.sums.part(), w.out.part());
        if library.taken == 0 {
            self.untouched("rows")?;
            same("state after no row", &library.scan, scan)?;
        }
        let w = &mut self.rules;
        let (samples, sums, out) = (w.samples.part(), w.sums.part(), w.out.part());
        let rules = engine::rows_together(scan, rows, samples, sums, out);
        same("rows", &library, &rules)?;
        self.equal_after("rows")?;
        self.tally.answered("rows", rules.refusal);
        let said = (rules.refusal, rules.place);
        self.note_word("19 place K in a burst", &scan.table, said)?;
        if rules.taken > 1 {
            let taken: Vec<&[u16]> = rows.chunks(scan.width).take(rules.taken).collect();
            let across = |two: &[&[u16]]| last_live(two[0]) > 0 && two[1][0] == DEAD;
            let across = taken.windows(2).any(across);
            self.tally.saw_if("burst with dead across rows", across);
        }
        Ok(rules)
    }

    pub fn step(&mut self, scan: &Scan) -> Result<Answer, String> {
        let w = &mut self.library;
        let library = ffi::scan_step(scan, w.samples.part(), w.sums.part(), w.out.part());
        self.idle("step", scan, &library)?;
        let w = &mut self.rules;
        let rules = engine::step(scan, w.samples.part(), w.sums.part(), w.out.part());
        self.agree("step", &library, &rules)?;
        self.tally.saw_if("step: row out", rules.kind == ROW);
        self.tally.saw_if("step: waiting", rules.kind == WAITING);
        self.tally.saw_if("step: done", rules.kind == DONE);
        if rules.kind == REFUSED {
            let said = (rules.number, rules.place);
            self.note_word("19 place K in a step", &scan.table, said)?;
        }
        Ok(rules)
    }
}
