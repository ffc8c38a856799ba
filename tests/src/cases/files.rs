//! Table files: check, load, and writing back what was loaded.

use crate::ffi::{self, Rect, Table};
use crate::gen;
use crate::rng::Rng;
use crate::table::{self, FIELD};
use crate::tally::{holds, same, Outcome, Tally};

/// Asks check and load for a file, and writes it back if it is accepted. Answers the number.
fn ask(tally: &mut Tally, bytes: &[u8]) -> Result<u32, String> {
    let told = |wrong: String| format!("file {bytes:02x?}: {wrong}");
    let rules = table::loaded(bytes);
    let number = ffi::table_check(bytes);
    same("check", &number, &rules.refusal).map_err(told)?;
    tally.answered("check", number);
    let library = ffi::table_load(bytes);
    same("load", &library, &rules).map_err(told)?;
    tally.answered("load", number);
    if number == 0 {
        written_back(tally, bytes, &library.table).map_err(told)?;
    }
    Ok(number)
}

fn written_back(tally: &mut Tally, bytes: &[u8], loaded: &Table) -> Outcome {
    let mut out = vec![0xa5; bytes.len()];
    let written = ffi::table_write(loaded, &mut out);
    same("number of write", &written.refusal, &0)?;
    same("length of write", &written.length, &bytes.len())?;
    same("file written back", &out.as_slice(), &bytes)?;
    tally.answered("write", 0);
    tally.saw("file written back");
    tally.saw_if("sixteen rectangles loaded", loaded.count == 16);
    Ok(())
}

/// A header and a list of rectangles of any length, within the limits or not.
struct Draft {
    head: [u8; 6],
    rects: Vec<Rect>,
}

impl Draft {
    fn of(table: &Table) -> Draft {
        Draft {
            head: table::head_of(table),
            rects: table::rects(table).to_vec(),
        }
    }

    fn bytes(&self) -> Vec<u8> {
        table::file(self.head, &self.rects)
    }

    /// Sets one number to a limit or just past it.
    fn push(&mut self, rng: &mut Rng) {
        match rng.below(9) {
            0 => self.head[0] = rng.pick(&[0, 1, 12, 13, 128, 255]),
            1 => self.head[1] = rng.pick(&[0, self.head[0].wrapping_sub(1), self.head[0], 12, 255]),
            2 => self.head[2] = rng.pick(&[0, 8, 9, 255]),
            3 => self.head[3] = rng.pick(&[0, 8, 9, 255]),
            4 => self.head[4] = rng.pick(&[0, 31, 32, 255]),
            5 => self.head[5] = rng.pick(&[0, 7, 8, 32, 33, 255]),
            6 => self.recount(rng),
            _ => self.push_rect(rng),
        }
    }

    /// Sets the number of rectangles to 0, 1, 15, 16, 17 or 18.
    fn recount(&mut self, rng: &mut Rng) {
        let count = rng.pick(&[0, 1, 15, 16, 17, 18]);
        let first = self.rects.first().copied().unwrap_or_default();
        self.rects.resize(count, first);
    }

    fn push_rect(&mut self, rng: &mut Rng) {
        if self.rects.is_empty() {
            return;
        }
        let k = rng.below(self.rects.len());
        let rect = &mut self.rects[k];
        match rng.below(5) {
            0 => rect.leadrow = lead(rng, rect.trailrow),
            1 => rect.leadcol = lead(rng, rect.trailcol),
            2 => rect.trailrow = trail(rng, rect.leadrow),
            3 => rect.trailcol = trail(rng, rect.leadcol),
            _ => rect.weight = rng.pick(&[i16::MIN, i16::MIN + 1, -1, 0, 1, 255, 256, i16::MAX]),
        }
    }
}

fn lead(rng: &mut Rng, trail: i8) -> i8 {
    let next = trail.saturating_add(1);
    rng.pick(&[15, 16, -15, -16, 127, -128, trail, next])
}

fn trail(rng: &mut Rng, lead: i8) -> i8 {
    let next = lead.saturating_sub(1);
    rng.pick(&[-16, -17, 14, 15, 127, -128, lead, next])
}

/// An accepted table, with up to three numbers moved to a limit or past it.
pub fn limits(rng: &mut Rng, tally: &mut Tally, _: u64) -> Outcome {
    let clean = gen::clean_table(rng);
    let mut draft = Draft::of(&clean);
    let pushes = rng.pick(&[0, 1, 1, 1, 1, 1, 2, 3]);
    for _ in 0..pushes {
        draft.push(rng);
    }
    let number = ask(tally, &draft.bytes())?;
    tally.saw_if("several faults in one file", pushes > 1 && number != 0);
    holds("an accepted draft loads", pushes > 0 || number == 0)
}

/// Rectangles of area 961 and 1 with a given total weight × area, at most 16 of them.
fn rects_of_total(mut total: i64) -> Vec<Rect> {
    let square = |lead, trail, weight: i64| Rect {
        leadrow: lead,
        leadcol: lead,
        trailrow: trail,
        trailcol: trail,
        weight: weight as i16,
    };
    let mut rects = Vec::new();
    while total / 961 != 0 {
        let weight = (total / 961).clamp(-32768, 32767);
        rects.push(square(15, -16, weight));
        total -= weight * 961;
    }
    rects.push(square(0, -1, total));
    rects
}

/// A table whose extreme on one side lies just within the word, or just past it.
pub fn question_10(rng: &mut Rng, tally: &mut Tally, _: u64) -> Outcome {
    let positive = rng.one_in(2);
    let mut table = gen::head_for(rng, positive, 14 * 961 * 32_767);
    table.q1 = rng.range(0, i64::from(table.b) - 1) as u8;
    table.q2 = rng.range(0, 8) as u8;
    let past = rng.range(-1, 1);
    let total = gen::largest_total(&table, positive) + past;
    let mut rects = rects_of_total(if positive { total } else { -total });
    if rects.len() < 16 && !table::no_drops(&table) && rng.one_in(2) {
        // A little on the other side, which with drops has its own sum.
        let weight = if positive { -1 } else { 1 };
        rects.push(Rect { weight, ..rects[0] });
    }
    let number = ask(tally, &table::file(table::head_of(&table), &rects))?;
    tally.saw_if("10 just passed", past == 0);
    tally.saw_if("10 just missed", past == 1);
    same(
        "question 10 at its edge",
        &number,
        &if past == 1 { 10 } else { 0 },
    )
}

/// What the weight grid makes of question 10.
fn note_grid(tally: &mut Tally, table: &Table, number: u32) {
    let by_grid = table::both_fit(table, table::grid_extremes(table));
    let by_areas = table::both_fit(table, table::area_extremes(table));
    tally.saw_if("10 only by the old rule", number == 0 && !by_areas);
    if number == 10 && by_grid {
        tally.saw("drops keep the old rule");
        match (table.q1 > 0, table.q2 > 0, table.q3 > 0) {
            (true, false, false) => tally.saw("q1 alone keeps the old rule"),
            (false, true, false) => tally.saw("q2 alone keeps the old rule"),
            (false, false, true) => tally.saw("q3 alone keeps the old rule"),
            _ => {}
        }
    }
}

/// A table whose weights cancel and whose grid lies just within the word on one side, or just past it; with drops the grid is not asked.
pub fn grid_edge(rng: &mut Rng, tally: &mut Tally, _: u64) -> Outcome {
    let (positive, past) = (rng.one_in(2), rng.range(-1, 1));
    let mut table = gen::ringed(rng, positive, past);
    let number = ask(tally, &table::file_of(&table))?;
    note_grid(tally, &table, number);
    let expected = if past == 1 { 10 } else { 0 };
    same("question 10 at the grid's edge", &number, &expected)?;
    match (past, positive) {
        (0, true) => tally.saw("grid: 10 just passed, high"),
        (0, false) => tally.saw("grid: 10 just passed, low"),
        (1, true) => tally.saw("grid: 10 just missed, high"),
        (1, false) => tally.saw("grid: 10 just missed, low"),
        _ => {}
    }
    gen::some_drops(rng, &mut table);
    let number = ask(tally, &table::file_of(&table))?;
    note_grid(tally, &table, number);
    // The areas add up to more than the grid.
    holds("10 with drops", number == 10 || past < 0)
}

/// A table whose weights cancel, in a word as short as it can be, one bit shorter and one longer; the same with drops.
pub fn grid_words(rng: &mut Rng, tally: &mut Tally, _: u64) -> Outcome {
    let count = rng.below(16) + 1;
    let mut table = gen::cancelling(rng, count);
    if rng.one_in(4) {
        gen::some_drops(rng, &mut table);
        table.w = gen::least_word(&table).min(32);
    }
    let least = gen::least_word(&table);
    for w in (least - 1).max(8)..=(least + 1).min(32) {
        table.w = w;
        let number = ask(tally, &table::file_of(&table))?;
        note_grid(tally, &table, number);
        let expected = if w < least { 10 } else { 0 };
        same("question 10 by the word", &number, &expected)?;
    }
    Ok(())
}

/// One place of a file damaged.
fn damage(rng: &mut Rng, bytes: &mut Vec<u8>) {
    let at = rng.below(bytes.len() + 1);
    let field = rng.below(bytes.len() / FIELD + 1) * FIELD;
    match rng.below(8) {
        0 => bytes.insert(at, rng.next() as u8),
        1 if at < bytes.len() => drop(bytes.remove(at)),
        2 if at < bytes.len() => bytes[at] = rng.next() as u8,
        3 if field + 3 <= bytes.len() => {
            let byte = field + rng.below(3);
            bytes[byte] = rng.pick(&[0, 1, 2, 3, 5, 6, 7, 255]);
        }
        4 => bytes.truncate(at),
        5 => append(rng, bytes),
        6 if field + FIELD <= bytes.len() => {
            let copy: Vec<u8> = bytes[field..field + FIELD].to_vec();
            bytes.extend(copy);
        }
        _ => bytes.rotate_left(at.min(FIELD)),
    }
}

/// Bytes behind the last field: a part of a field, a second header, zeros, anything.
fn append(rng: &mut Rng, bytes: &mut Vec<u8>) {
    let rect = table::mark(2, table::rect_contents(&gen::rect(rng)));
    let tail = match rng.below(4) {
        0 => rect[..rng.below(FIELD) + 1].to_vec(),
        1 => table::mark(1, [8, 0, 0, 0, 0, 32]).to_vec(),
        2 => vec![0; rng.below(12) + 1],
        _ => (0..rng.below(12) + 1).map(|_| rng.next() as u8).collect(),
    };
    bytes.extend(tail);
}

/// A file with one to three damages, or a few bytes of no file at all.
pub fn damaged(rng: &mut Rng, tally: &mut Tally, _: u64) -> Outcome {
    if rng.one_in(10) {
        let few = rng.below(30);
        let bytes: Vec<u8> = (0..few).map(|_| rng.pick(&[0, 1, 2, 6, 8, 16])).collect();
        return ask(tally, &bytes).map(drop);
    }
    let clean = gen::clean_table(rng);
    let mut draft = Draft::of(&clean);
    if rng.one_in(3) {
        draft.push(rng);
    }
    let mut bytes = draft.bytes();
    for _ in 0..rng.below(3) + 1 {
        damage(rng, &mut bytes);
    }
    ask(tally, &bytes).map(drop)
}

/// Every part of a file from its start; the bytes after the part are still in memory.
pub fn truncated(rng: &mut Rng, tally: &mut Tally, index: u64) -> Outcome {
    let table = gen::table_of(rng, index as usize % 16 + 1);
    let mut draft = Draft::of(&table);
    if rng.one_in(3) {
        draft.push(rng);
    }
    let mut bytes = draft.bytes();
    append(rng, &mut bytes);
    for cut in 0..=bytes.len() {
        ask(tally, &bytes[..cut])?;
    }
    Ok(())
}

/// Bytes that are a further field, the start of one, or neither.
fn further(rng: &mut Rng, bytes: &mut Vec<u8>) {
    if rng.one_in(2) {
        return append(rng, bytes);
    }
    let mut field = table::mark(2, std::array::from_fn(|_| rng.next() as u8));
    if rng.one_in(3) {
        field[rng.below(3)] = rng.pick(&[0, 1, 2, 3, 4, 6, 7, 255]);
    }
    bytes.extend(&field[..rng.below(FIELD) + 1]);
    if rng.one_in(4) {
        append(rng, bytes);
    }
}

/// The file of sixteen rectangles with bytes behind it: 6 where they begin with a mark, else 7. The first 156 bytes say as much as the
/// whole file, and of a file that gets 6 the first 155 say something else.
pub fn behind_sixteen(rng: &mut Rng, tally: &mut Tally, _: u64) -> Outcome {
    let mut bytes = table::file_of(&gen::table_of(rng, 16));
    let full = bytes.len();
    further(rng, &mut bytes);
    let number = ask(tally, &bytes)?;
    let tail = &bytes[full..];
    let marked = tail.starts_with(&[2, 0, 6]);
    let expected = if marked { 6 } else { 7 };
    same("behind sixteen rectangles", &number, &expected)?;
    tally.saw_if("7 after sixteen", !marked);
    tally.saw_if("6 after sixteen", marked);
    tally.saw_if("mark cut off after sixteen", tail == [2] || tail == [2, 0]);
    let first = ask(tally, &bytes[..bytes.len().min(156)])?;
    same("the first 156 bytes", &first, &number)?;
    holds(
        "155 bytes are not enough",
        !marked || ask(tally, &bytes[..155])? == 7,
    )
}
