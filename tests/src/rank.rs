//! The ranked window as the rules have it: its questions, its stores and its steps, on any state and stores; and the rule
//! itself, by sorting the samples of a whole scan.

use crate::engine::{Arrival, KEPT};
use crate::ffi::{Answer, Counting, Rank, Started, Window, DONE, REFUSED, ROW, WAITING};
use crate::pixel::{first_above, last_live, width_good, MOST_ROWS};
use crate::table::{edges_good, largest_of};

/// Counts of a column in its store, and of the window; the levels are the first 2^b of them.
pub const LEVELS: usize = 256;

/// The most bits that a sample may have here.
pub const MOST_BITS: u8 = 8;

/// What a place gives with no sample under its window.
pub const EMPTY: i32 = -1;

/// M, the rows that a window covers.
pub fn rows(window: &Window) -> i64 {
    i64::from(window.leadrow) - i64::from(window.trailrow)
}

/// N, the columns that a window covers.
pub fn columns(window: &Window) -> i64 {
    i64::from(window.leadcol) - i64::from(window.trailcol)
}

/// D, the lead row, or 0 if it is negative.
pub fn delay(window: &Window) -> u32 {
    window.leadrow.max(0) as u32
}

/// The number of levels, 2^b.
pub fn levels(b: u8) -> usize {
    1 << b
}

/// Question 8.
fn window_good(window: &Window) -> bool {
    edges_good(window.leadrow, window.trailrow) && edges_good(window.leadcol, window.trailcol)
}

/// Question 22, of a window that question 8 let pass.
fn rank_good(window: &Window, rank: u32) -> bool {
    (1..=rows(window) * columns(window)).contains(&i64::from(rank))
}

fn stores_good(width: usize, stores: &Counting) -> bool {
    stores.samples.len() >= KEPT * width
        && stores.counts.len() >= LEVELS * width
        && stores.windows.len() >= LEVELS
}

/// Starting: 3, 23, 8, 22, 12, 13; then the leading parts are zero. A refused start hands out what was given with width 0
/// (docs/RULES.md, section 5).
pub fn start(b: u8, window: Window, rank: u32, width: usize, stores: Counting) -> Started<Rank> {
    let begun = |refusal, width| Started {
        refusal,
        place: 0,
        scan: Rank {
            window,
            b,
            rank,
            width,
            rows: 0,
            steps: 0,
            closed: false,
        },
    };
    if !(1..=12).contains(&b) {
        return begun(3, 0);
    }
    if b > MOST_BITS {
        return begun(23, 0);
    }
    if !window_good(&window) {
        return begun(8, 0);
    }
    if !rank_good(&window, rank) {
        return begun(22, 0);
    }
    if !width_good(width) {
        return begun(12, 0);
    }
    if !stores_good(width, &stores) {
        return begun(13, 0);
    }
    stores.samples[..KEPT * width].fill(0);
    stores.counts[..LEVELS * width].fill(0);
    stores.windows[..LEVELS].fill(0);
    begun(0, width)
}

/// Question 14: do the state's numbers agree?
pub fn agrees(scan: &Rank) -> bool {
    (1..=MOST_BITS).contains(&scan.b)
        && window_good(&scan.window)
        && rank_good(&scan.window, scan.rank)
        && width_good(scan.width)
        && scan.rows as usize <= MOST_ROWS
        && scan.steps <= delay(&scan.window)
        && (scan.closed || scan.steps == 0)
}

/// Closing: 14, then 15.
pub fn close(scan: &Rank) -> Started<Rank> {
    let answer = |refusal, closed| Started {
        refusal,
        place: 0,
        scan: Rank { closed, ..*scan },
    };
    if !agrees(scan) {
        return answer(14, scan.closed);
    }
    if scan.closed {
        return answer(15, true);
    }
    answer(0, true)
}

/// An arrival to come: what it brings, its number a, the rows given with it, and a - D, the row that it makes due.
#[derive(Clone, Copy)]
pub struct Moment<'a> {
    scan: &'a Rank,
    arrival: Arrival<'a>,
    pub a: i64,
    given: i64,
    due: i64,
}

impl<'a> Moment<'a> {
    pub fn new(scan: &'a Rank, arrival: Arrival<'a>) -> Moment<'a> {
        let rows = i64::from(scan.rows);
        let a = rows + i64::from(scan.steps);
        let given = match arrival {
            Arrival::Row(_) => rows + 1,
            Arrival::Zeros => rows,
        };
        Moment {
            scan,
            arrival,
            a,
            given,
            due: a - i64::from(delay(&scan.window)),
        }
    }

    pub fn leaving_row(&self) -> i64 {
        self.due + i64::from(self.scan.window.trailrow)
    }

    pub fn entering_row(&self) -> i64 {
        self.due + i64::from(self.scan.window.leadrow)
    }

    /// Rows below 0 and closing rows are passed over.
    pub fn counted(&self, row: i64) -> bool {
        0 <= row && row < self.given
    }

    /// The sample of a counted row at a column: of the arriving row itself, else of the kept one as it lies.
    fn sample(&self, samples: &[u16], row: i64, column: usize) -> Option<u16> {
        if !self.counted(row) {
            return None;
        }
        if row == self.a {
            return Some(self.arrival.at(column));
        }
        Some(samples[row as usize % KEPT * self.scan.width + column])
    }

    pub fn leaving(&self, samples: &[u16], column: usize) -> Option<u16> {
        self.sample(samples, self.leaving_row(), column)
    }

    pub fn entering(&self, samples: &[u16], column: usize) -> Option<u16> {
        self.sample(samples, self.entering_row(), column)
    }

    /// Question 19 of one column: its new counts, or no.
    pub fn moved(&self, samples: &[u16], counts: &[u16], column: usize) -> Option<Vec<u64>> {
        let stored = &counts[LEVELS * column..][..levels(self.scan.b)];
        let mut new: Vec<u64> = stored.iter().map(|&count| u64::from(count)).collect();
        if let Some(level) = self.leaving(samples, column) {
            let count = new.get_mut(usize::from(level))?;
            *count = count.checked_sub(1)?;
        }
        if let Some(level) = self.entering(samples, column) {
            *new.get_mut(usize::from(level))? += 1;
        }
        let most = rows(&self.scan.window) as u64;
        new.iter().all(|&count| count <= most).then_some(new)
    }
}

/// The counts of so many columns from the left added up, level by level and for each level those up to it.
struct UpTo {
    levels: usize,
    sums: Vec<u64>,
}

impl UpTo {
    fn new(columns: &[Vec<u64>], levels: usize) -> UpTo {
        let mut sums = vec![0; levels];
        for (c, column) in columns.iter().enumerate() {
            let mut up_to = 0;
            for (v, &count) in column.iter().enumerate() {
                up_to += count;
                sums.push(sums[c * levels + v] + up_to);
            }
        }
        UpTo { levels, sums }
    }

    /// How many samples of the columns from `first` up to but not with `end` are not above a level.
    fn within(&self, first: usize, end: usize, level: usize) -> u64 {
        self.sums[end * self.levels + level] - self.sums[first * self.levels + level]
    }

    /// The ranked level of these columns; that of all of them, the largest, if they are fewer than the rank.
    fn ranked(&self, first: usize, end: usize, rank: u64) -> i32 {
        let total = self.within(first, end, self.levels - 1);
        if total == 0 {
            return EMPTY;
        }
        let wanted = rank.min(total);
        let level = (0..self.levels).find(|&v| self.within(first, end, v) >= wanted);
        level.expect("the last level has all of them") as i32
    }
}

/// The columns of the window at column c that lie in the row: the first, and the end after the last.
fn span(window: &Window, width: usize, c: usize) -> (usize, usize) {
    let inside = |edge: i8| (c as i64 + i64::from(edge) + 1).clamp(0, width as i64) as usize;
    (inside(window.trailcol), inside(window.leadcol))
}

fn refused(scan: &Rank, number: u32, place: u32) -> Answer<Rank> {
    Answer {
        kind: REFUSED,
        number,
        place,
        scan: *scan,
    }
}

/// An arrival: question 19 of every column, then the counts, the kept row, the window counts and, if a row is due, the output.
fn arrive(scan: &Rank, arrival: Arrival, stores: Counting, out: &mut [i32]) -> Answer<Rank> {
    let moment = Moment::new(scan, arrival);
    let width = scan.width;
    let columns: Option<Vec<Vec<u64>>> = (0..width)
        .map(|c| moment.moved(stores.samples, stores.counts, c))
        .collect();
    let Some(columns) = columns else {
        return refused(scan, 19, 0);
    };
    for (c, column) in columns.iter().enumerate() {
        for (v, &count) in column.iter().enumerate() {
            stores.counts[LEVELS * c + v] = count as u16;
        }
    }
    for c in 0..width {
        stores.samples[moment.a as usize % KEPT * width + c] = arrival.at(c);
    }
    stores.windows[..LEVELS].fill(0);
    let mut after = *scan;
    match arrival {
        Arrival::Row(_) => after.rows += 1,
        Arrival::Zeros => after.steps += 1,
    }
    let kind = if moment.due < 0 { WAITING } else { ROW };
    if kind == ROW {
        let up_to = UpTo::new(&columns, levels(scan.b));
        for (c, place) in out[..width].iter_mut().enumerate() {
            let (first, end) = span(&scan.window, width, c);
            *place = up_to.ranked(first, end, u64::from(scan.rank));
        }
    }
    Answer {
        kind,
        number: moment.due.max(0) as u32,
        place: 0,
        scan: after,
    }
}

/// A row: 14, 15, 16, 17, 13, 18, 19.
pub fn row(scan: &Rank, row: &[u16], stores: Counting, out: &mut [i32]) -> Answer<Rank> {
    if !agrees(scan) {
        return refused(scan, 14, 0);
    }
    if scan.closed {
        return refused(scan, 15, 0);
    }
    if scan.rows as usize >= MOST_ROWS {
        return refused(scan, 16, 0);
    }
    if row.len() != scan.width {
        return refused(scan, 17, 0);
    }
    if !stores_good(scan.width, &stores) || out.len() < scan.width {
        return refused(scan, 13, 0);
    }
    if let Some(column) = first_above(largest_of(scan.b), row) {
        return refused(scan, 18, column);
    }
    arrive(scan, Arrival::Row(row), stores, out)
}

/// A closing step: 14, 15, done where D steps are past, 13, 19.
pub fn step(scan: &Rank, stores: Counting, out: &mut [i32]) -> Answer<Rank> {
    if !agrees(scan) {
        return refused(scan, 14, 0);
    }
    if !scan.closed {
        return refused(scan, 15, 0);
    }
    if scan.steps >= delay(&scan.window) {
        return Answer {
            kind: DONE,
            number: 0,
            place: 0,
            scan: *scan,
        };
    }
    if !stores_good(scan.width, &stores) || out.len() < scan.width {
        return refused(scan, 13, 0);
    }
    arrive(scan, Arrival::Zeros, stores, out)
}

/// A scan as rows of `width` samples as given.
#[derive(Clone, Copy)]
pub struct Rows<'a> {
    pub width: usize,
    pub samples: &'a [u16],
}

impl Rows<'_> {
    /// The samples under the window at row r, column c that lie inside the scan, mended and sorted.
    pub fn inside(&self, window: &Window, r: i64, c: usize) -> Vec<u16> {
        let place = |at: i64, edge: i8| at + i64::from(edge);
        let height = (self.samples.len() / self.width) as i64;
        let c = c as i64;
        let mut inside = Vec::new();
        for row in place(r, window.trailrow) + 1..=place(r, window.leadrow) {
            for column in place(c, window.trailcol) + 1..=place(c, window.leadcol) {
                let row_in = 0 <= row && row < height;
                if row_in && 0 <= column && column < self.width as i64 {
                    let first = row as usize * self.width;
                    inside.push(last_live(&self.samples[first..=first + column as usize]));
                }
            }
        }
        inside.sort_unstable();
        inside
    }
}

/// The rule: of the sorted samples inside, the one of the rank, the last if they are fewer, and none if there are none.
pub fn shade(inside: &[u16], rank: u32) -> i32 {
    match inside.get(rank as usize - 1).or(inside.last()) {
        Some(&level) => i32::from(level),
        None => EMPTY,
    }
}
