//! The scan engine as the rules have it: its questions, its two stores and its steps, on any state and stores.

use crate::ffi::{Answer, Burst, Rect, Scan, Started, Table, DONE, REFUSED, ROW, WAITING};
use crate::pixel::{first_above, last_live, width_good, DEAD, MOST_ROWS};
use crate::table::{accepted, delay, fits, largest_sample, rects, rows};

/// Rows that the sample store keeps.
pub const KEPT: usize = 32;

/// What an arrival brings: a row of samples as given, or the zeros of a closing step.
#[derive(Clone, Copy)]
pub enum Arrival<'a> {
    Row(&'a [u16]),
    Zeros,
}

impl Arrival<'_> {
    /// The sample of a column, mended.
    pub fn at(&self, column: usize) -> u16 {
        match self {
            Arrival::Row(row) => last_live(&row[..=column]),
            Arrival::Zeros => 0,
        }
    }
}

fn stores_good(table: &Table, width: usize, samples: &[u16], sums: &[u32]) -> bool {
    samples.len() >= KEPT * width && sums.len() >= table.count * width
}

/// Starting: 11, 12, 13; then the leading parts are zero. A refused start hands out the given table with width 0
/// (docs/RULES.md, section 5).
pub fn start(table: &Table, width: usize, samples: &mut [u16], sums: &mut [u32]) -> Started {
    let begun = |refusal, width| Started {
        refusal,
        place: 0,
        scan: Scan {
            table: *table,
            width,
            rows: 0,
            steps: 0,
            closed: false,
        },
    };
    if !accepted(table) {
        return begun(11, 0);
    }
    if !width_good(width) {
        return begun(12, 0);
    }
    if !stores_good(table, width, samples, sums) {
        return begun(13, 0);
    }
    samples[..KEPT * width].fill(0);
    sums[..table.count * width].fill(0);
    begun(0, width)
}

/// Question 14: do the state's numbers agree?
pub fn agrees(scan: &Scan) -> bool {
    accepted(&scan.table)
        && width_good(scan.width)
        && scan.rows as usize <= MOST_ROWS
        && scan.steps <= delay(&scan.table)
        && (scan.closed || scan.steps == 0)
}

/// Closing: 14, then 15.
pub fn close(scan: &Scan) -> Started {
    let answer = |refusal, closed| Started {
        refusal,
        place: 0,
        scan: Scan { closed, ..*scan },
    };
    if !agrees(scan) {
        return answer(14, scan.closed);
    }
    if scan.closed {
        return answer(15, true);
    }
    answer(0, true)
}

/// The number of the arrival to come, closing steps included.
pub fn arrivals(scan: &Scan) -> i64 {
    i64::from(scan.rows) + i64::from(scan.steps)
}

/// An arrival to come: what it brings, its number a, and a - D, the row that it makes due.
#[derive(Clone, Copy)]
pub struct Moment<'a> {
    scan: &'a Scan,
    arrival: Arrival<'a>,
    a: i64,
    due: i64,
}

impl<'a> Moment<'a> {
    pub fn new(scan: &'a Scan, arrival: Arrival<'a>) -> Moment<'a> {
        let a = arrivals(scan);
        let due = a - i64::from(delay(&scan.table));
        Moment {
            scan,
            arrival,
            a,
            due,
        }
    }

    /// The cut sample of a row: zero below row 0, of the arriving row itself, else of the kept one.
    fn cut(&self, samples: &[u16], row: i64, column: usize) -> u64 {
        let sample = if row < 0 {
            0
        } else if row == self.a {
            self.arrival.at(column)
        } else {
            samples[row as usize % KEPT * self.scan.width + column]
        };
        u64::from(sample >> self.scan.table.q1)
    }

    /// A row that a rectangle reaches in the store holds a 65,535 that somebody wrote there.
    pub fn reads_dead(&self, samples: &[u16]) -> bool {
        let width = self.scan.width;
        rects(&self.scan.table).iter().any(|rect| {
            [rect.trailrow, rect.leadrow].iter().any(|&edge| {
                let row = self.due + i64::from(edge);
                let at = row.rem_euclid(KEPT as i64) as usize * width;
                row >= 0 && row != self.a && samples[at..at + width].contains(&DEAD)
            })
        })
    }

    /// The leaving and the entering cut sample of a rectangle in a column.
    pub fn terms(&self, samples: &[u16], rect: &Rect, column: usize) -> (u64, u64) {
        let leaving = self.due + i64::from(rect.trailrow);
        let entering = self.due + i64::from(rect.leadrow);
        (
            self.cut(samples, leaving, column),
            self.cut(samples, entering, column),
        )
    }

    /// The new column sums of every rectangle, or the lowest rectangle with a no to question 19.
    fn new_sums(&self, samples: &[u16], sums: &[u32]) -> Result<Vec<Vec<u64>>, u32> {
        let width = self.scan.width;
        let mut all = Vec::new();
        for (k, rect) in rects(&self.scan.table).iter().enumerate() {
            let largest = largest_sum(&self.scan.table, rect);
            let line: Option<Vec<u64>> = (0..width)
                .map(|c| {
                    let (leaving, entering) = self.terms(samples, rect, c);
                    moved(leaving, entering, sums[k * width + c], largest)
                })
                .collect();
            all.push(line.ok_or(k as u32)?);
        }
        Ok(all)
    }

    /// No row is due yet.
    pub fn waits(&self) -> bool {
        self.due < 0
    }

    /// The values out of the new column sums, due or not; none where question 19 says no to a sum.
    pub fn values(&self, samples: &[u16], sums: &[u32]) -> Option<Vec<i64>> {
        let lines = self.new_sums(samples, sums).ok()?;
        Some(values(&self.scan.table, &lines))
    }
}

/// The pixel of a value: shifted and rounded down.
pub fn settled(table: &Table, value: i64) -> i64 {
    value.div_euclid(1i64 << table.t)
}

/// The last half of question 19: do the pixels of these values fit their word?
pub fn words_good(table: &Table, values: &[i64]) -> bool {
    let good = |&value: &i64| fits(settled(table, value).into(), table.w);
    values.iter().all(good)
}

/// The largest column sum of a rectangle, M times the largest cut sample.
pub fn largest_sum(table: &Table, rect: &Rect) -> u64 {
    rows(rect) as u64 * ((1 << (table.b - table.q1)) - 1)
}

/// Question 19 of one rectangle and column: the new sum, or no.
fn moved(leaving: u64, entering: u64, stored: u32, largest: u64) -> Option<u64> {
    let rest = u64::from(stored).checked_sub(leaving)?;
    let sum = rest + entering;
    (sum <= largest).then_some(sum)
}

/// The window sum of a rectangle at column c before its cut: N cut column sums, none outside the row.
fn window(table: &Table, rect: &Rect, line: &[u64], c: usize) -> u64 {
    let first = c as i64 + i64::from(rect.trailcol) + 1;
    let last = c as i64 + i64::from(rect.leadcol);
    (first.max(0)..=last.min(line.len() as i64 - 1))
        .map(|column| line[column as usize] >> table.q2)
        .sum()
}

/// The value of each column out of the column sums, before its shift.
fn values(table: &Table, lines: &[Vec<u64>]) -> Vec<i64> {
    let mut values = vec![0; lines[0].len()];
    for (rect, line) in rects(table).iter().zip(lines) {
        for (c, value) in values.iter_mut().enumerate() {
            let cut = window(table, rect, line, c) >> table.q3;
            let scaled = cut << (table.q1 + table.q2 + table.q3);
            *value += i64::from(rect.weight) * scaled as i64;
        }
    }
    values
}

fn refused(scan: &Scan, number: u32, place: u32) -> Answer {
    Answer {
        kind: REFUSED,
        number,
        place,
        scan: *scan,
    }
}

/// An arrival: question 19, of the sums and last of the pixels due; then the sums, the kept row and, if a row is due, the output.
fn arrive(
    scan: &Scan,
    arrival: Arrival,
    samples: &mut [u16],
    sums: &mut [u32],
    out: &mut [i32],
) -> Answer {
    let moment = Moment::new(scan, arrival);
    let lines = match moment.new_sums(samples, sums) {
        Ok(lines) => lines,
        Err(place) => return refused(scan, 19, place),
    };
    let width = scan.width;
    let due = if moment.waits() {
        Vec::new()
    } else {
        values(&scan.table, &lines)
    };
    if !words_good(&scan.table, &due) {
        return refused(scan, 19, scan.table.count as u32);
    }
    for (k, line) in lines.iter().enumerate() {
        for (c, &sum) in line.iter().enumerate() {
            sums[k * width + c] = sum as u32;
        }
    }
    for c in 0..width {
        samples[moment.a as usize % KEPT * width + c] = arrival.at(c);
    }
    let mut after = *scan;
    match arrival {
        Arrival::Row(_) => after.rows += 1,
        Arrival::Zeros => after.steps += 1,
    }
    for (place, &value) in out.iter_mut().zip(&due) {
        *place = settled(&scan.table, value) as i32;
    }
    Answer {
        kind: if moment.waits() { WAITING } else { ROW },
        number: moment.due.max(0) as u32,
        place: 0,
        scan: after,
    }
}

/// A row: 14, 15, 16, 17, 13, 18, 19.
pub fn row(
    scan: &Scan,
    row: &[u16],
    samples: &mut [u16],
    sums: &mut [u32],
    out: &mut [i32],
) -> Answer {
    if !agrees(scan) {
        return refused(scan, 14, 0);
    }
    if scan.closed {
        return refused(scan, 15, 0);
    }
    if scan.rows as usize >= MOST_ROWS {
        return refused(scan, 16, 0);
    }
    if row.len() != scan.width {
        return refused(scan, 17, 0);
    }
    if !stores_good(&scan.table, scan.width, samples, sums) || out.len() < scan.width {
        return refused(scan, 13, 0);
    }
    if let Some(column) = first_above(largest_sample(&scan.table), row) {
        return refused(scan, 18, column);
    }
    arrive(scan, Arrival::Row(row), samples, sums, out)
}

/// Several rows together: 14, 15, 21, 13; then one by one, each into an output of its own, until one is refused.
pub fn rows_together(
    scan: &Scan,
    rows: &[u16],
    samples: &mut [u16],
    sums: &mut [u32],
    out: &mut [i32],
) -> Burst {
    let mut burst = Burst {
        refusal: 0,
        place: 0,
        taken: 0,
        filtered: 0,
        scan: *scan,
    };
    let asked = |good: bool, number: u32| if good { 0 } else { number };
    let questions = [
        asked(agrees(scan), 14),
        asked(!scan.closed, 15),
        asked(scan.width != 0 && rows.len() % scan.width == 0, 21),
        asked(out.len() >= rows.len(), 13),
    ];
    if let Some(&number) = questions.iter().find(|&&number| number != 0) {
        burst.refusal = number;
        return burst;
    }
    for given in rows.chunks(scan.width) {
        let mut line = vec![0; scan.width];
        let answer = row(&burst.scan, given, samples, sums, &mut line);
        if answer.kind == REFUSED {
            burst.refusal = answer.number;
            burst.place = answer.place;
            return burst;
        }
        burst.taken += 1;
        burst.scan = answer.scan;
        if answer.kind == ROW {
            let at = burst.filtered * scan.width;
            out[at..at + scan.width].copy_from_slice(&line);
            burst.filtered += 1;
        }
    }
    burst
}

/// A closing step: 14, 15, done where D steps are past, 13, 19.
pub fn step(scan: &Scan, samples: &mut [u16], sums: &mut [u32], out: &mut [i32]) -> Answer {
    if !agrees(scan) {
        return refused(scan, 14, 0);
    }
    if !scan.closed {
        return refused(scan, 15, 0);
    }
    if scan.steps >= delay(&scan.table) {
        return Answer {
            kind: DONE,
            number: 0,
            place: 0,
            scan: *scan,
        };
    }
    if !stores_good(&scan.table, scan.width, samples, sums) || out.len() < scan.width {
        return refused(scan, 13, 0);
    }
    arrive(scan, Arrival::Zeros, samples, sums, out)
}
