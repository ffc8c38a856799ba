//! Tables as the rules have them: the file, the questions 1 to 11, writing, and the figures M, N and D.

use crate::ffi::{Loaded, Rect, Table, Written};

/// A field is a tag, a two-byte length and six bytes of contents.
pub const FIELD: usize = 9;
pub const MOST_RECTS: usize = 16;

/// M, the rows that a rectangle covers.
pub fn rows(rect: &Rect) -> i64 {
    i64::from(rect.leadrow) - i64::from(rect.trailrow)
}

/// N, the columns that a rectangle covers.
pub fn columns(rect: &Rect) -> i64 {
    i64::from(rect.leadcol) - i64::from(rect.trailcol)
}

/// The rectangles of a table: its slots below the count.
pub fn rects(table: &Table) -> &[Rect] {
    &table.rects[..table.count]
}

/// D, the largest lead row, or 0 if none is positive.
pub fn delay(table: &Table) -> u32 {
    let largest = rects(table).iter().map(|rect| rect.leadrow).max();
    largest.unwrap_or(0).max(0) as u32
}

/// The largest sample of b bits, 2^b - 1.
pub fn largest_of(b: u8) -> u16 {
    ((1u32 << b) - 1) as u16
}

pub fn largest_sample(table: &Table) -> u16 {
    largest_of(table.b)
}

/// Questions 3, 4 and 5.
fn head_question(table: &Table) -> Result<(), u32> {
    if table.b < 1 || table.b > 12 {
        return Err(3);
    }
    if table.q1 >= table.b || table.q2 > 8 || table.q3 > 8 {
        return Err(4);
    }
    if table.t > 31 || table.w < 8 || table.w > 32 {
        return Err(5);
    }
    Ok(())
}

/// Question 8, of rows or of columns.
pub fn edges_good(lead: i8, trail: i8) -> bool {
    (-15..=15).contains(&lead) && (-16..=14).contains(&trail) && trail < lead
}

/// Question 8.
fn rect_good(rect: &Rect) -> bool {
    edges_good(rect.leadrow, rect.trailrow) && edges_good(rect.leadcol, rect.trailcol)
}

/// The weight grid: for each offset from -15 to 15, top row first and left to right, the total weight of the rectangles that cover it.
pub fn grid(table: &Table) -> Vec<i64> {
    let mut grid = vec![0; 31 * 31];
    for rect in rects(table) {
        for row in rect.trailrow + 1..=rect.leadrow {
            for column in rect.trailcol + 1..=rect.leadcol {
                grid[(row + 15) as usize * 31 + (column + 15) as usize] += i64::from(rect.weight);
            }
        }
    }
    grid
}

/// Is nothing dropped?
pub fn no_drops(table: &Table) -> bool {
    [table.q1, table.q2, table.q3] == [0; 3]
}

/// The negative and the positive ones of these added up, times the largest sample, shifted and rounded down.
fn ends(table: &Table, terms: impl Iterator<Item = i64>) -> (i128, i128) {
    let (mut low, mut high) = (0i128, 0i128);
    for term in terms {
        if term > 0 {
            high += i128::from(term);
        } else {
            low += i128::from(term);
        }
    }
    let largest = i128::from(largest_sample(table));
    let unit = 1i128 << table.t;
    (
        (low * largest).div_euclid(unit),
        (high * largest).div_euclid(unit),
    )
}

/// The least and the largest pixel by the weight grid.
pub fn grid_extremes(table: &Table) -> (i128, i128) {
    ends(table, grid(table).into_iter())
}

/// The same by the rectangles one by one, as if none could cancel another.
pub fn area_extremes(table: &Table) -> (i128, i128) {
    let area = |rect: &Rect| i64::from(rect.weight) * rows(rect) * columns(rect);
    ends(table, rects(table).iter().map(area))
}

/// The two values of question 10.
pub fn extremes(table: &Table) -> (i128, i128) {
    if no_drops(table) {
        grid_extremes(table)
    } else {
        area_extremes(table)
    }
}

/// Does a number fit the signed word of w bits?
pub fn fits(value: i128, w: u8) -> bool {
    let half = 1i128 << (w - 1);
    -half <= value && value < half
}

/// Do two extremes fit the pixel word?
pub fn both_fit(table: &Table, (low, high): (i128, i128)) -> bool {
    fits(low, table.w) && fits(high, table.w)
}

/// Question 10.
fn extremes_good(table: &Table) -> bool {
    both_fit(table, extremes(table))
}

/// Question 11: is this a table that loading accepts?
pub fn accepted(table: &Table) -> bool {
    (1..=MOST_RECTS).contains(&table.count)
        && head_question(table).is_ok()
        && rects(table).iter().all(rect_good)
        && extremes_good(table)
}

/// Whether a field begins with `tag` 00 06.
fn marked(rest: &[u8], tag: u8) -> bool {
    rest.starts_with(&[tag, 0, 6])
}

/// The six bytes behind a field's mark: 2 unless all are there.
fn contents(rest: &[u8]) -> Result<[u8; 6], u32> {
    match rest.get(3..FIELD) {
        Some(contents) => Ok(contents.try_into().expect("six bytes")),
        None => Err(2),
    }
}

fn rect_of(f: [u8; 6]) -> Rect {
    Rect {
        leadrow: f[0] as i8,
        leadcol: f[1] as i8,
        trailrow: f[2] as i8,
        trailcol: f[3] as i8,
        weight: i16::from_be_bytes([f[4], f[5]]),
    }
}

/// The table that a file says, or the number of the first no among questions 1 to 9.
pub fn parse(bytes: &[u8]) -> Result<Table, u32> {
    if !marked(bytes, 1) {
        return Err(1);
    }
    let [b, q1, q2, q3, t, w] = contents(bytes)?;
    let mut table = Table {
        b,
        q1,
        q2,
        q3,
        t,
        w,
        ..Table::default()
    };
    head_question(&table)?;
    let mut at = FIELD;
    while at < bytes.len() {
        let rest = &bytes[at..];
        if !marked(rest, 2) {
            return Err(7);
        }
        if table.count == MOST_RECTS {
            return Err(6);
        }
        let rect = rect_of(contents(rest)?);
        if !rect_good(&rect) {
            return Err(8);
        }
        table.rects[table.count] = rect;
        table.count += 1;
        at += FIELD;
    }
    if table.count == 0 {
        return Err(9);
    }
    Ok(table)
}

/// The same with question 10.
pub fn load(bytes: &[u8]) -> Result<Table, u32> {
    let table = parse(bytes)?;
    if extremes_good(&table) {
        Ok(table)
    } else {
        Err(10)
    }
}

/// What the loading call answers. A refused file hands out a table of zeros (docs/RULES.md, section 5).
pub fn loaded(bytes: &[u8]) -> Loaded {
    match load(bytes) {
        Ok(table) => Loaded {
            refusal: 0,
            place: 0,
            table,
        },
        Err(refusal) => Loaded {
            refusal,
            place: 0,
            table: Table::default(),
        },
    }
}

/// The bytes of a field.
pub fn mark(tag: u8, contents: [u8; 6]) -> [u8; FIELD] {
    let mut bytes = [tag, 0, 6, 0, 0, 0, 0, 0, 0];
    bytes[3..].copy_from_slice(&contents);
    bytes
}

pub fn rect_contents(rect: &Rect) -> [u8; 6] {
    let [high, low] = rect.weight.to_be_bytes();
    let edge = |e: i8| e as u8;
    [
        edge(rect.leadrow),
        edge(rect.leadcol),
        edge(rect.trailrow),
        edge(rect.trailcol),
        high,
        low,
    ]
}

/// The file of a header and any list of rectangles, within the limits or not.
pub fn file(head: [u8; 6], rects: &[Rect]) -> Vec<u8> {
    let mut bytes = mark(1, head).to_vec();
    for rect in rects {
        bytes.extend(mark(2, rect_contents(rect)));
    }
    bytes
}

pub fn head_of(table: &Table) -> [u8; 6] {
    [table.b, table.q1, table.q2, table.q3, table.t, table.w]
}

/// The file of a table whose count is at most sixteen.
pub fn file_of(table: &Table) -> Vec<u8> {
    file(head_of(table), rects(table))
}

/// The writing call: 11, then 13; then the file at the start of the output. The length beside a refusal is 0, by the header.
pub fn write(table: &Table, out: &mut [u8]) -> Written {
    let refused = |refusal| Written {
        refusal,
        place: 0,
        length: 0,
    };
    if !accepted(table) {
        return refused(11);
    }
    let bytes = file_of(table);
    if out.len() < bytes.len() {
        return refused(13);
    }
    out[..bytes.len()].copy_from_slice(&bytes);
    Written {
        refusal: 0,
        place: 0,
        length: bytes.len(),
    }
}
