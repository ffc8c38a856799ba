//! Two tables compared: the same shape cut in other ways, shapes that differ at one offset, and pairs that are refused.

use crate::ffi::{self, Rect, Table};
use crate::gen;
use crate::pixel::{self, Strip};
use crate::rng::Rng;
use crate::same::{compared, SIDE, SPOT};
use crate::table::{self, accepted, grid, rects, MOST_RECTS};
use crate::tally::{holds, same, Outcome, Tally};

const CENTRE: usize = 15;

/// Cuts a rectangle in two along its rows or its columns, where it has two.
fn halves(rng: &mut Rng, rect: Rect) -> Option<[Rect; 2]> {
    let by_rows = rng.one_in(2);
    let (lead, trail) = if by_rows {
        (rect.leadrow, rect.trailrow)
    } else {
        (rect.leadcol, rect.trailcol)
    };
    if lead - trail < 2 {
        return None;
    }
    let edge = rng.range(i64::from(trail) + 1, i64::from(lead) - 1) as i8;
    let (mut low, mut high) = (rect, rect);
    if by_rows {
        (low.leadrow, high.trailrow) = (edge, edge);
    } else {
        (low.leadcol, high.trailcol) = (edge, edge);
    }
    Some([low, high])
}

/// Lays a rectangle twice with two weights that add up to its own.
fn layers(rng: &mut Rng, rect: Rect) -> Option<[Rect; 2]> {
    let weight = rng.pick(&[0, 1, -1, 7, 300]);
    let rest = rect.weight.checked_sub(weight)?;
    Some([
        Rect { weight, ..rect },
        Rect {
            weight: rest,
            ..rect
        },
    ])
}

/// The same weights, cut another way.
fn recut(rng: &mut Rng, table: &Table) -> Table {
    let mut list = rects(table).to_vec();
    for _ in 0..rng.below(20) {
        if list.len() >= MOST_RECTS {
            break;
        }
        let k = rng.below(list.len());
        let pieces = match rng.below(4) {
            0 => layers(rng, list[k]),
            1 if list.len() + 2 <= MOST_RECTS => {
                let one = gen::rect(rng);
                let weight = one.weight.saturating_neg();
                let (first, second) = (one, Rect { weight, ..one });
                if i32::from(first.weight) + i32::from(second.weight) == 0 {
                    list.extend([first, second]);
                }
                None
            }
            _ => halves(rng, list[k]),
        };
        if let Some([low, high]) = pieces {
            list[k] = low;
            list.push(high);
        }
    }
    gen::shuffle(rng, &mut list);
    let mut cut = gen::table(rng);
    (cut.b, cut.t, cut.w) = (table.b, table.t, table.w);
    (cut.q1, cut.q2, cut.q3) = (table.q1, table.q2, table.q3);
    cut.count = list.len();
    cut.rects[..list.len()].copy_from_slice(&list);
    cut
}

/// A table without drops; now and then its word has room, or its shift hides small weights.
fn plain(rng: &mut Rng) -> Table {
    let count = rng.below(10) + 1;
    let mut table = if rng.one_in(3) {
        gen::cancelling(rng, count)
    } else {
        gen::table_of(rng, count)
    };
    (table.q1, table.q2, table.q3) = (0, 0, 0);
    if rng.one_in(4) {
        table.t = table.t.max(rng.pick(&[9, 20, 31]));
    }
    table.w = if rng.one_in(2) {
        32
    } else {
        gen::least_word(&table).min(32)
    };
    table
}

/// Weight added at one offset, often at a corner of the grid.
fn changed(rng: &mut Rng, table: &mut Table) {
    if table.count == MOST_RECTS {
        table.count -= 1;
    }
    let mut place = || match rng.below(4) {
        0 => -15,
        1 => 15,
        _ => rng.range(-15, 15),
    };
    let (row, col) = (place(), place());
    table.rects[table.count] = gen::spot(row, col, rng.pick(&[1, -1, 40]));
    table.count += 1;
}

/// Two tables, and whether the second has the first one's weights by its making.
fn pair(rng: &mut Rng) -> (Table, Table, bool) {
    let one = plain(rng);
    let mut other = recut(rng, &one);
    let mut equal = true;
    match rng.below(10) {
        0 => {
            changed(rng, &mut other);
            equal = false;
        }
        1 => {
            for _ in 0..3 {
                changed(rng, &mut other);
            }
            equal = false;
        }
        2 => {
            let k = rng.below(other.count);
            other.rects[k].weight = other.rects[k].weight.wrapping_add(1);
            equal = false;
        }
        3 => {
            other = plain(rng);
            (other.b, other.t, other.w) = (one.b, one.t, one.w);
            equal = false;
        }
        _ => {}
    }
    (one, other, equal)
}

/// One of the two made so that it is refused, or both.
fn spoilt(rng: &mut Rng, one: &mut Table, other: &mut Table) {
    let which = if rng.one_in(2) { one } else { other };
    match rng.below(8) {
        0 => which.b = which.b % 12 + 1,
        1 => which.t = (which.t + 1) % 32,
        2 => which.w = if which.w == 32 { 31 } else { which.w + 1 },
        3..=5 => gen::some_drops(rng, which),
        _ => *which = gen::bad_table(rng),
    }
}

/// What the library says of the scan that tells two tables apart.
fn shown(tally: &mut Tally, one: &Table, other: &Table, k: usize, samples: &[u16]) -> Outcome {
    let strip = Strip {
        width: SIDE,
        samples,
    };
    let (mut values, mut pixels) = (Vec::new(), Vec::new());
    for table in [one, other] {
        let library = ffi::pixel(table, SIDE, samples, CENTRE, CENTRE);
        let rules = pixel::answer(table, SIDE, samples, CENTRE, CENTRE);
        same("the spot by the one-pixel call", &library, &rules)?;
        holds("the spot is taken", library.refusal == 0)?;
        tally.answered("pixel", library.refusal);
        let value = strip.value(table, CENTRE, CENTRE);
        let weight = grid(table)[k];
        let bright = i64::from(table::largest_sample(table));
        same("the value of the spot", &value, &(bright * weight))?;
        values.push(value);
        pixels.push(library.value);
    }
    holds("the values differ", values[0] != values[1])?;
    tally.saw("same: spot through the pixel call");
    tally.saw_if("same: equal pixels, other values", pixels[0] == pixels[1]);
    Ok(())
}

/// Tables that do the same, on a scan of any kind.
fn alike(rng: &mut Rng, one: &Table, other: &Table) -> Outcome {
    let (width, height) = (rng.below(6) + 1, rng.below(5) + 1);
    let samples: Vec<u16> = (0..height)
        .flat_map(|_| gen::row(rng, one, width))
        .collect();
    let (r, c) = (rng.below(height), rng.below(width));
    let first = ffi::pixel(one, width, &samples, r, c);
    let second = ffi::pixel(other, width, &samples, r, c);
    same("one pixel by two tables that do the same", &first, &second)
}

/// Which of b, t and w alone makes the answer 24.
fn unlike(tally: &mut Tally, one: &Table, other: &Table) {
    let apart = [one.b != other.b, one.t != other.t, one.w != other.w];
    let names = ["same: 24 by b", "same: 24 by t", "same: 24 by w"];
    for (k, name) in names.into_iter().enumerate() {
        let alone = (0..3).all(|j| apart[j] == (j == k));
        tally.saw_if(name, alone);
    }
}

fn seen(tally: &mut Tally, one: &Table, other: &Table, number: u32) {
    match number {
        11 => {
            tally.saw_if("same: 11 of the first", accepted(other));
            tally.saw_if("same: 11 of the second", accepted(one));
        }
        24 => unlike(tally, one, other),
        25 => {
            tally.saw_if("same: 25 by the first", table::no_drops(other));
            tally.saw_if("same: 25 by the second", table::no_drops(one));
        }
        _ => {}
    }
}

pub fn case(rng: &mut Rng, tally: &mut Tally, _: u64) -> Outcome {
    let (mut one, mut other, equal) = pair(rng);
    if rng.one_in(4) {
        spoilt(rng, &mut one, &mut other);
    }
    if rng.one_in(2) {
        (one, other) = (other, one);
    }
    let length = rng.pick(&[0, SPOT - 1, SPOT, SPOT, SPOT, SPOT + 1, 2000]);
    // Room beyond what is lent shows that nothing is written there.
    let before: Vec<u16> = (0..length + 8).map(|_| rng.next() as u16).collect();
    let (mut library_scan, mut rules_scan) = (before.clone(), before);
    let library = ffi::same(&one, &other, &mut library_scan[..length]);
    let rules = compared(&one, &other, &mut rules_scan[..length]);
    let told = |wrong: String| format!("{one:?} beside {other:?}, {length} places: {wrong}");
    same("same", &library, &rules).map_err(told)?;
    same("scan", &library_scan, &rules_scan).map_err(told)?;
    tally.answered("same", rules.refusal);
    seen(tally, &one, &other, rules.refusal);
    if rules.refusal == 13 {
        tally.saw_if("same: 13 though they do the same", equal);
    }
    if rules.refusal != 0 {
        return Ok(());
    }
    if rules.same {
        let cut = rects(&one).len() != rects(&other).len();
        tally.saw_if("same: cut another way", cut);
        return alike(rng, &one, &other).map_err(told);
    }
    let (row, col) = (rules.row, rules.col);
    tally.saw_if("same: differs at (-15, -15)", (row, col) == (-15, -15));
    tally.saw_if("same: differs at (15, 15)", (row, col) == (15, 15));
    let k = (row + 15) as usize * SIDE + (col + 15) as usize;
    shown(tally, &one, &other, k, &library_scan[..SPOT]).map_err(told)
}
