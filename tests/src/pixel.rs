//! The pixel rule, straight from its definition, and the one-pixel call.

use crate::ffi::{PixelAnswer, Rect, Table};
use crate::table::{accepted, largest_sample, rects};

pub const MOST_COLUMNS: usize = 1024;
pub const MOST_ROWS: usize = 65_535;

/// A sample that says: this element failed.
pub const DEAD: u16 = 65_535;

/// The sample that the last of these counts as: the last live one, or zero.
pub fn last_live(samples: &[u16]) -> u16 {
    let live = samples.iter().rev().find(|&&s| s != DEAD);
    live.copied().unwrap_or(0)
}

/// A scan as rows of `width` samples, zero outside.
#[derive(Clone, Copy)]
pub struct Strip<'a> {
    pub width: usize,
    pub samples: &'a [u16],
}

impl Strip<'_> {
    fn at(&self, row: i64, column: i64) -> i64 {
        if row < 0 || column < 0 || column >= self.width as i64 {
            return 0;
        }
        let first = row as usize * self.width;
        let to_here = self.samples.get(first..=first + column as usize);
        to_here.map_or(0, |samples| i64::from(last_live(samples)))
    }

    /// A rectangle's first column is dead somewhere, and what it counts as lies before the rectangle.
    pub fn looks_left(&self, table: &Table, r: usize, c: usize) -> bool {
        rects(table).iter().any(|rect| {
            let column = c as i64 + i64::from(rect.trailcol) + 1;
            let first = r as i64 + i64::from(rect.trailrow) + 1;
            let last = r as i64 + i64::from(rect.leadrow);
            let within = 0 < column && column < self.width as i64;
            within && (first.max(0)..=last).any(|row| self.dead_at(row as usize, column as usize))
        })
    }

    /// The sample is dead and counts as more than zero.
    fn dead_at(&self, row: usize, column: usize) -> bool {
        let sample = self.samples.get(row * self.width + column);
        sample == Some(&DEAD) && self.at(row as i64, column as i64) > 0
    }

    /// The column sum of a rectangle before its cut: M cut samples of one column.
    fn column_sum(&self, table: &Table, rect: &Rect, r: i64, column: i64) -> i64 {
        let first = r + i64::from(rect.trailrow) + 1;
        let last = r + i64::from(rect.leadrow);
        (first..=last)
            .map(|row| self.at(row, column) / (1 << table.q1))
            .sum()
    }

    /// The cut rectangle sum scaled back.
    fn cut_sum(&self, table: &Table, rect: &Rect, r: i64, c: i64) -> i64 {
        let first = c + i64::from(rect.trailcol) + 1;
        let last = c + i64::from(rect.leadcol);
        let window: i64 = (first..=last)
            .map(|column| self.column_sum(table, rect, r, column) / (1 << table.q2))
            .sum();
        window / (1 << table.q3) * (1 << (table.q1 + table.q2 + table.q3))
    }

    /// The value at row r, column c: the weighted sum of the cut rectangle sums.
    pub fn value(&self, table: &Table, r: usize, c: usize) -> i64 {
        rects(table)
            .iter()
            .map(|rect| i64::from(rect.weight) * self.cut_sum(table, rect, r as i64, c as i64))
            .sum()
    }

    /// The pixel at row r, column c.
    pub fn pixel(&self, table: &Table, r: usize, c: usize) -> i64 {
        self.value(table, r, c).div_euclid(1i64 << table.t)
    }
}

/// The lowest index of a live sample above the largest of b bits.
pub fn first_above(largest: u16, samples: &[u16]) -> Option<u32> {
    let index = samples.iter().position(|&s| s != DEAD && s > largest);
    index.map(|i| i as u32)
}

pub fn width_good(width: usize) -> bool {
    (1..=MOST_COLUMNS).contains(&width)
}

/// The one-pixel call: 11, 12, 17, 20, 18, then the pixel. The value beside a refusal is 0, by the header.
pub fn answer(table: &Table, width: usize, samples: &[u16], r: usize, c: usize) -> PixelAnswer {
    let refused = |refusal, place| PixelAnswer {
        refusal,
        place,
        value: 0,
    };
    if !accepted(table) {
        return refused(11, 0);
    }
    if !width_good(width) {
        return refused(12, 0);
    }
    let height = samples.len() / width;
    if samples.len() != width * height || !(1..=MOST_ROWS).contains(&height) {
        return refused(17, 0);
    }
    if r >= height || c >= width {
        return refused(20, 0);
    }
    if let Some(index) = first_above(largest_sample(table), samples) {
        return refused(18, index);
    }
    let value = Strip { width, samples }.pixel(table, r, c);
    PixelAnswer {
        refusal: 0,
        place: 0,
        value: value.try_into().expect("a pixel fits 32 bits"),
    }
}
