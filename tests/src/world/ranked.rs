//! The stores of a ranked scan on both sides, and what its arrivals meet in them.

use super::{Lent, Stores, Twins};
use crate::engine::{Arrival, KEPT};
use crate::ffi::{self, Answer, Counting, Rank, Started, DONE, REFUSED, ROW, WAITING};
use crate::pixel::DEAD;
use crate::rank::{self as ranks, levels, rows, Moment, LEVELS};
use crate::rng::Rng;
use crate::tally::{same, Outcome, Tally};

#[derive(Clone, PartialEq)]
pub struct RankWorld {
    samples: Lent<u16>,
    counts: Lent<u16>,
    windows: Lent<u16>,
    out: Lent<i32>,
}

impl RankWorld {
    /// The stores and the output, lent to a call.
    fn parts(&mut self) -> (Counting<'_>, &mut [i32]) {
        let stores = Counting {
            samples: self.samples.part(),
            counts: self.counts.part(),
            windows: self.windows.part(),
        };
        (stores, self.out.part())
    }
}

impl Stores for RankWorld {
    fn compare(&self, rules: &RankWorld) -> Outcome {
        self.samples.compare("sample store", &rules.samples)?;
        self.counts.compare("column counts", &rules.counts)?;
        self.windows.compare("window counts", &rules.windows)?;
        self.out.compare("output", &rules.out)
    }
}

/// The lengths that are lent: sample store, column counts, window counts, output.
#[derive(Clone, Copy, Debug, PartialEq)]
pub struct RankLengths {
    pub samples: usize,
    pub counts: usize,
    pub windows: usize,
    pub out: usize,
}

impl RankLengths {
    /// What a ranked scan needs.
    pub fn needed(width: usize) -> RankLengths {
        RankLengths {
            samples: KEPT * width,
            counts: LEVELS * width,
            windows: LEVELS,
            out: width,
        }
    }
}

pub type RankBench<'a> = Twins<'a, RankWorld>;

impl<'a> RankBench<'a> {
    /// Stores with room for rows of `width`, often a little more, and dirt in them.
    pub fn new(rng: &mut Rng, tally: &'a mut Tally, width: usize) -> RankBench<'a> {
        let needed = RankLengths::needed(width);
        let mut extra = || rng.pick(&[0, 0, 1, 5]);
        let (i, j, k, l) = (extra(), extra(), extra(), extra());
        let world = RankWorld {
            samples: Lent::new(needed.samples + i, || rng.next() as u16),
            counts: Lent::new(needed.counts + j, || rng.next() as u16),
            windows: Lent::new(needed.windows + k, || rng.next() as u16),
            out: Lent::new(needed.out + l, || rng.next() as i32),
        };
        RankBench::of(tally, world)
    }

    pub fn lend(&mut self, lengths: RankLengths) {
        for world in [&mut self.library, &mut self.rules] {
            world.samples.lend(lengths.samples);
            world.counts.lend(lengths.counts);
            world.windows.lend(lengths.windows);
            world.out.lend(lengths.out);
        }
    }

    /// What is lent now.
    pub fn lent(&self) -> RankLengths {
        RankLengths {
            samples: self.rules.samples.given,
            counts: self.rules.counts.given,
            windows: self.rules.windows.given,
            out: self.rules.out.given,
        }
    }

    pub fn set_sample(&mut self, index: usize, sample: u16) {
        *self.library.samples.place(index) = sample;
        *self.rules.samples.place(index) = sample;
    }

    pub fn set_count(&mut self, column: usize, level: usize, count: u16) {
        *self.library.counts.place(LEVELS * column + level) = count;
        *self.rules.counts.place(LEVELS * column + level) = count;
    }

    pub fn set_window(&mut self, level: usize, count: u16) {
        *self.library.windows.place(level) = count;
        *self.rules.windows.place(level) = count;
    }

    /// The sample store as it is lent.
    pub fn samples(&self) -> &[u16] {
        self.rules.samples.read()
    }

    /// The column counts as they are lent.
    pub fn counts(&self) -> &[u16] {
        self.rules.counts.read()
    }

    /// The output as the library left it.
    pub fn output(&self) -> &[i32] {
        self.library.out.read()
    }

    /// A start with b, window, rank and width of a scan.
    pub fn start(&mut self, wanted: &Rank) -> Result<Started<Rank>, String> {
        let Rank {
            b,
            window,
            rank,
            width,
            ..
        } = *wanted;
        let (stores, _) = self.library.parts();
        let library = ffi::rank_start(b, window, rank, width, stores);
        if library.refusal != 0 {
            self.untouched("rank start")?;
        }
        let (stores, _) = self.rules.parts();
        let rules = ranks::start(b, window, rank, width, stores);
        same("rank start", &library, &rules)?;
        self.equal_after("rank start")?;
        self.tally.answered("rank start", rules.refusal);
        Ok(rules)
    }

    pub fn close(&mut self, scan: &Rank) -> Result<Started<Rank>, String> {
        let library = ffi::rank_close(scan);
        let rules = ranks::close(scan);
        same("rank close", &library, &rules)?;
        self.tally.answered("rank close", rules.refusal);
        Ok(rules)
    }

    pub fn row(&mut self, scan: &Rank, row: &[u16]) -> Result<Answer<Rank>, String> {
        let before = self.keep();
        let (stores, out) = self.library.parts();
        let library = ffi::rank_row(scan, row, stores, out);
        self.idle("rank row", scan, &library)?;
        let (stores, out) = self.rules.parts();
        let rules = ranks::row(scan, row, stores, out);
        self.agree("rank row", &library, &rules)?;
        self.note(Moment::new(scan, Arrival::Row(row)), &before, &rules);
        let taken = rules.kind != REFUSED;
        let dead = taken && row.contains(&DEAD);
        self.tally.saw_if("ranked: dead element", dead);
        Ok(rules)
    }

    pub fn step(&mut self, scan: &Rank) -> Result<Answer<Rank>, String> {
        let before = self.keep();
        let (stores, out) = self.library.parts();
        let library = ffi::rank_step(scan, stores, out);
        self.idle("rank step", scan, &library)?;
        let (stores, out) = self.rules.parts();
        let rules = ranks::step(scan, stores, out);
        self.agree("rank step", &library, &rules)?;
        self.note(Moment::new(scan, Arrival::Zeros), &before, &rules);
        Ok(rules)
    }

    /// What an arrival met in the stores as they were before it, if it got as far as question 19.
    fn note(&mut self, moment: Moment, before: &RankWorld, answer: &Answer<Rank>) {
        match (answer.kind, answer.number) {
            (ROW | WAITING, _) => self.note_taken(moment, before, &answer.scan),
            (REFUSED, 19) => self.note_refused(moment, before, &answer.scan),
            (DONE, _) => self.tally.saw("ranked: done"),
            _ => {}
        }
    }

    fn note_taken(&mut self, moment: Moment, before: &RankWorld, scan: &Rank) {
        let (samples, counts) = (before.samples.read(), before.counts.read());
        let most = rows(&scan.window) as u16;
        let count = |counts: &[u16], c: usize, level: u16| counts[LEVELS * c + usize::from(level)];
        let tally = &mut self.tally;
        for c in 0..scan.width {
            let (leaving, entering) = (moment.leaving(samples, c), moment.entering(samples, c));
            let both = leaving.is_some() && leaving == entering;
            tally.saw_if("ranked: same level leaves and enters", both);
            if let Some(level) = entering {
                let after = count(self.rules.counts.read(), c, level);
                tally.saw_if("ranked: count at M", most > 1 && after == most);
            }
            if let Some(level) = leaving {
                let over = count(counts, c, level) == most + 1;
                tally.saw_if("ranked: count M + 1 leaves", over);
            }
            let above = &counts[LEVELS * c..][levels(scan.b)..LEVELS];
            let kept = above.iter().any(|&count| count > most);
            tally.saw_if("ranked: counts above 2^b kept", kept);
        }
        let closing = scan.steps > 0 && moment.leaving_row() >= i64::from(scan.rows);
        tally.saw_if("ranked: closing row leaves", closing);
        let dirty = before.windows.read()[..LEVELS].iter().any(|&n| n != 0);
        tally.saw_if("ranked: dirty windows", dirty);
        tally.saw_if("ranked: arrival past 65535", moment.a > 65_535);
    }

    /// Why question 19 was answered no, where all columns that fail do so for the same reason.
    fn note_refused(&mut self, moment: Moment, before: &RankWorld, scan: &Rank) {
        let (samples, counts) = (before.samples.read(), before.counts.read());
        let fails = |&c: &usize| moment.moved(samples, counts, c).is_none();
        let failing: Vec<usize> = (0..scan.width).filter(fails).collect();
        let tally = &mut self.tally;
        let passed = |row| !moment.counted(row);
        let neither = passed(moment.leaving_row()) && passed(moment.entering_row());
        tally.saw_if("ranked: 19 with both rows passed over", neither);
        let last = failing == [scan.width - 1] && scan.width > 1;
        tally.saw_if("ranked: 19 at the last column", last);
        // Of each failing column: what leaves and enters, and the count of what enters.
        let met: Vec<(Option<u16>, Option<u16>, u16)> = failing
            .iter()
            .map(|&c| {
                let (leaving, entering) = (moment.leaving(samples, c), moment.entering(samples, c));
                let level = usize::from(entering.unwrap_or(0)) % LEVELS;
                (leaving, entering, counts[LEVELS * c + level])
            })
            .collect();
        let top = levels(scan.b) as u16;
        let all = |why: fn(u16, Option<u16>, Option<u16>, u16) -> bool| {
            met.iter().all(|&(l, e, count)| why(top, l, e, count))
        };
        let none_left = all(|top, l, e, n| l == e && l.is_some_and(|l| l < top) && n == 0);
        tally.saw_if("ranked: 19, same level at count 0", none_left);
        let past_word = all(|_, l, e, n| l != e && e.is_some() && n == u16::MAX);
        tally.saw_if("ranked: 19, 65535 and one more", past_word);
        let dead = all(|_, l, e, _| l == Some(DEAD) || e == Some(DEAD));
        tally.saw_if("ranked: 19, 65535 kept", dead);
        let no_level = all(|top, l, e, _| l == Some(top) || e == Some(top));
        tally.saw_if("ranked: 19, 2^b kept", no_level);
    }
}
