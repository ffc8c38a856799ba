//! Random tables, windows and rows.

use crate::ffi::{Rank, Rect, Table, Window};
use crate::pixel::DEAD;
use crate::rank;
use crate::rng::Rng;
use crate::table::{self, columns, delay, extremes, fits, rows};

/// A lead and a trail within the limits.
fn edges(rng: &mut Rng) -> (i8, i8) {
    let (lead, trail) = match rng.below(6) {
        0 => (1, -2),
        1 => (15, -16),
        2 => {
            let lead = rng.range(-15, 15);
            (lead, lead - 1)
        }
        3 => {
            let lead = rng.range(-15, 0);
            (lead, rng.range(-16, lead - 1))
        }
        4 => {
            let lead = rng.range(-15, 15);
            (lead, rng.range((lead - 5).max(-16), lead - 1))
        }
        _ => {
            let lead = rng.range(-15, 15);
            (lead, rng.range(-16, lead - 1))
        }
    };
    (lead as i8, trail as i8)
}

fn weight(rng: &mut Rng) -> i16 {
    match rng.below(8) {
        0 => 0,
        1 => rng.pick(&[i16::MIN, i16::MAX]),
        2 | 3 => rng.range(-9, 9) as i16,
        4 | 5 => rng.range(-300, 300) as i16,
        _ => rng.next() as i16,
    }
}

pub fn rect(rng: &mut Rng) -> Rect {
    let (leadrow, trailrow) = edges(rng);
    let (leadcol, trailcol) = edges(rng);
    Rect {
        leadrow,
        leadcol,
        trailrow,
        trailcol,
        weight: weight(rng),
    }
}

/// Any six bytes as a rectangle.
pub fn any_rect(rng: &mut Rng) -> Rect {
    let bits = rng.next();
    Rect {
        leadrow: bits as i8,
        leadcol: (bits >> 8) as i8,
        trailrow: (bits >> 16) as i8,
        trailcol: (bits >> 24) as i8,
        weight: (bits >> 32) as i16,
    }
}

/// Moves a rectangle up until its lead row is at most `most`.
fn lower(rect: &mut Rect, most: i8) {
    if rect.leadrow > most {
        let size = rect.leadrow - rect.trailrow;
        rect.leadrow = most;
        rect.trailrow = (most - size).max(-16);
    }
}

/// The fewest bits, 8 at least, of a pixel word for the table.
pub fn least_word(table: &Table) -> u8 {
    let (low, high) = extremes(table);
    let enough = (8..64).find(|&w| fits(low, w) && fits(high, w));
    enough.expect("the extremes fit 64 bits")
}

/// Sets t and w so that question 10 passes, t as small as the word lets it or a little larger.
fn settle_word(rng: &mut Rng, table: &mut Table) {
    while least_word(table) > 32 {
        table.t += 1;
    }
    let least = least_word(table);
    table.w = match rng.below(4) {
        0 | 1 => least,
        2 => 32,
        _ => rng.range(i64::from(least), 32) as u8,
    };
}

fn set_drops(rng: &mut Rng, table: &mut Table) {
    let any_low = |rng: &mut Rng, most: i64| rng.range(0, most).min(rng.range(0, most)) as u8;
    match rng.below(4) {
        0 | 1 => {}
        2 => {
            table.q1 = any_low(rng, i64::from(table.b) - 1);
            table.q2 = any_low(rng, 3);
            table.q3 = any_low(rng, 3);
        }
        _ => {
            table.q1 = rng.range(0, i64::from(table.b) - 1) as u8;
            table.q2 = rng.range(0, 8) as u8;
            table.q3 = rng.range(0, 8) as u8;
        }
    }
}

/// A table that loading accepts, with `count` rectangles.
pub fn table_of(rng: &mut Rng, count: usize) -> Table {
    let mut table = Table {
        b: rng.range(1, 12) as u8,
        t: rng.pick(&[0, 0, 0, 1, 2, 4, 9, 31]),
        count,
        ..Table::default()
    };
    set_drops(rng, &mut table);
    let most = if rng.one_in(3) {
        15
    } else {
        rng.range(-2, 15) as i8
    };
    let gentle = rng.one_in(2);
    for slot in &mut table.rects[..count] {
        *slot = rect(rng);
        lower(slot, most);
        if gentle {
            slot.weight %= 100;
        }
    }
    if rng.one_in(3) {
        cancel(rng, &mut table.rects[..count]);
    }
    settle_word(rng, &mut table);
    table
}

/// Edges within others: all of them, one less on both sides, or any part.
fn edges_within(rng: &mut Rng, lead: i8, trail: i8) -> (i8, i8) {
    match rng.below(3) {
        0 => (lead, trail),
        1 if lead - trail > 2 => (lead - 1, trail + 1),
        _ => {
            let end = rng.range(i64::from(trail) + 1, lead.into());
            (end as i8, rng.range(trail.into(), end - 1) as i8)
        }
    }
}

/// A part of a rectangle with a weight of its own.
fn part(rng: &mut Rng, of: &Rect, weight: i16) -> Rect {
    let (leadrow, trailrow) = edges_within(rng, of.leadrow, of.trailrow);
    let (leadcol, trailcol) = edges_within(rng, of.leadcol, of.trailcol);
    Rect {
        leadrow,
        leadcol,
        trailrow,
        trailcol,
        weight,
    }
}

pub fn shuffle<T>(rng: &mut Rng, list: &mut [T]) {
    for k in 1..list.len() {
        list.swap(k, rng.below(k + 1));
    }
}

/// Makes every second rectangle a part of the one before it with the opposite weight, or nearly so.
fn cancel(rng: &mut Rng, rects: &mut [Rect]) {
    for two in rects.chunks_exact_mut(2) {
        let weight = two[0].weight.saturating_neg();
        let off = rng.pick(&[0, 0, 0, 1, -1, 40]);
        two[1] = part(rng, &two[0], weight.saturating_add(off));
    }
    shuffle(rng, rects);
}

/// A table that loading accepts, without drops, whose weights cancel; its word is as short as it can be.
pub fn cancelling(rng: &mut Rng, count: usize) -> Table {
    let mut table = table_of(rng, count);
    (table.q1, table.q2, table.q3) = (0, 0, 0);
    cancel(rng, &mut table.rects[..count]);
    settle_word(rng, &mut table);
    table.w = least_word(&table);
    table
}

/// The same with two pairs at its end that cover the pixel's column and cancel wholly, one heavy and one of weight 1: their sums, altered,
/// lift a pixel to any value.
pub fn loose(rng: &mut Rng) -> Table {
    let count = rng.pick(&[1, 2, 2, 4, 12]);
    let mut table = cancelling(rng, count);
    if rng.one_in(3) {
        table.b = 12;
        settle_word(rng, &mut table);
        table.w = least_word(&table);
    }
    let most = delay(&table) as i8;
    for weight in [rng.pick(&[9, 300, 32_767, 32_767]), 1] {
        let mut one = rect(rng);
        lower(&mut one, most);
        one.leadcol = rng.pick(&[0, 0, 1, 7]);
        one.trailcol = rng.pick(&[-1, -1, -2, -9]);
        if rng.one_in(2) {
            one.trailrow = -16;
        }
        for weight in [weight, -weight] {
            table.rects[table.count] = Rect { weight, ..one };
            table.count += 1;
        }
    }
    if rng.one_in(4) {
        table.w = rng.range(table.w.into(), 32) as u8;
    }
    table
}

/// The largest total on one side, weight × area or of the grid, that question 10 lets pass.
pub fn largest_total(table: &Table, positive: bool) -> i64 {
    let end = 1i64 << (table.w - 1 + table.t);
    let largest = i64::from(table::largest_sample(table));
    if positive {
        (end - 1) / largest
    } else {
        end / largest
    }
}

/// A header, drops aside, whose largest total on one side is from 2 to `most`.
pub fn head_for(rng: &mut Rng, positive: bool, most: i64) -> Table {
    let mut table = Table {
        b: rng.range(1, 12) as u8,
        w: rng.range(8, 32) as u8,
        t: rng.range(0, 31) as u8,
        ..Table::default()
    };
    while largest_total(&table, positive) > most {
        if table.t > 0 {
            table.t -= 1;
        } else {
            table.w -= 1;
        }
    }
    while largest_total(&table, positive) < 2 {
        table.w += 1;
    }
    table
}

fn covered(rect: &Rect) -> i64 {
    rows(rect) * columns(rect)
}

/// The one sample at an offset from the pixel.
pub fn spot(row: i64, column: i64, weight: i16) -> Rect {
    Rect {
        leadrow: row as i8,
        leadcol: column as i8,
        trailrow: row as i8 - 1,
        trailcol: column as i8 - 1,
        weight,
    }
}

/// A spot under a rectangle, outside a smaller one.
fn spot_between(rng: &mut Rng, outer: &Rect, inner: &Rect, weight: i16) -> Rect {
    loop {
        let row = rng.range(i64::from(outer.trailrow) + 1, outer.leadrow.into());
        let column = rng.range(i64::from(outer.trailcol) + 1, outer.leadcol.into());
        let lies = |lead: i8, trail: i8, at: i64| i64::from(trail) < at && at <= lead.into();
        if !lies(inner.leadrow, inner.trailrow, row) || !lies(inner.leadcol, inner.trailcol, column)
        {
            return spot(row, column, weight);
        }
    }
}

/// A table without drops whose grid adds up, on one side, to `past` more than question 10 lets pass, while its rectangles add up to more: a
/// rectangle and a part of it take each other away but for a ring, and one spot of the ring brings what is left over. The other side may
/// have a little too.
pub fn ringed(rng: &mut Rng, positive: bool, past: i64) -> Table {
    let outer = rect(rng);
    let inner = part(rng, &outer, 0);
    let ring = covered(&outer) - covered(&inner);
    if ring == 0 {
        return ringed(rng, positive, past);
    }
    let sign = if positive { 1 } else { -1 };
    let mut table = head_for(rng, positive, 6 * 32_000 * ring);
    let total = largest_total(&table, positive) + past;
    let mut level = total / ring;
    let rest = sign * (total % ring) as i16;
    let mut list = vec![spot_between(rng, &outer, &inner, rest)];
    while level > 0 {
        let weight = sign * level.min(32_000) as i16;
        list.push(Rect { weight, ..outer });
        list.push(Rect {
            weight: -weight,
            ..inner
        });
        level -= level.min(32_000);
    }
    let deep = rng.pick(&[0, 1, 7]);
    if i64::from(deep) * covered(&inner) <= largest_total(&table, !positive) {
        let weight = -sign * deep;
        list.push(Rect { weight, ..inner });
    }
    if list.len() < 15 && (list.len() < 3 || rng.one_in(2)) {
        let one = rect(rng);
        let weight = rng.range(1, 32_767) as i16;
        list.push(Rect { weight, ..one });
        list.push(Rect {
            weight: -weight,
            ..one
        });
    }
    shuffle(rng, &mut list);
    table.count = list.len();
    table.rects[..list.len()].copy_from_slice(&list);
    table
}

/// Sets one drop or more.
pub fn some_drops(rng: &mut Rng, table: &mut Table) {
    while table::no_drops(table) {
        table.q1 = rng.range(0, (i64::from(table.b) - 1).min(1)) as u8;
        table.q2 = rng.pick(&[0, 0, 1, 8]);
        table.q3 = rng.pick(&[0, 0, 1, 8]);
    }
}

/// A table that loading accepts, with zeros in the slots that it does not use.
pub fn clean_table(rng: &mut Rng) -> Table {
    let count = rng.pick(&[1, 1, 1, 2, 2, 3, 4, 5, 8, 15, 16]);
    table_of(rng, count)
}

/// The same with anything in the slots that it does not use.
pub fn table(rng: &mut Rng) -> Table {
    let mut table = clean_table(rng);
    if !rng.one_in(4) {
        for slot in &mut table.rects[table.count..] {
            *slot = any_rect(rng);
        }
    }
    table
}

/// A table by value that loading would not accept.
pub fn bad_table(rng: &mut Rng) -> Table {
    let mut bad = table(rng);
    let k = rng.below(bad.count);
    match rng.below(12) {
        0 => bad.b = rng.pick(&[0, 13, 16, 255]),
        1 => bad.q1 = rng.pick(&[bad.b, bad.b + 1, 255]),
        2 => bad.q2 = rng.pick(&[9, 64, 255]),
        3 => bad.q3 = rng.pick(&[9, 64, 255]),
        4 => bad.t = rng.pick(&[32, 64, 255]),
        5 => bad.w = rng.pick(&[0, 7, 33, 255]),
        6 | 7 => bad.count = rng.pick(&[0, 17, 18, 256, usize::MAX, 1 << 32]),
        8 => bad.rects[k].leadrow = rng.pick(&[16, 127, -16, -128, bad.rects[k].trailrow]),
        9 => bad.rects[k].leadcol = rng.pick(&[16, 127, -16, -128, bad.rects[k].trailcol]),
        10 => bad.rects[k].trailrow = rng.pick(&[-17, -128, 15, 127, bad.rects[k].leadrow]),
        _ => bad.rects[k].trailcol = rng.pick(&[-17, -128, 15, 127, bad.rects[k].leadcol]),
    }
    if rng.one_in(8) {
        bad = narrow_table(rng);
    }
    if table::accepted(&bad) {
        bad.count = 0;
    }
    bad
}

/// A table refused by question 10 alone, where one can be made of a random one.
fn narrow_table(rng: &mut Rng) -> Table {
    let mut table = table(rng);
    table.w = (least_word(&table) - 1).max(8);
    table
}

/// A row of samples that the table takes, now and then with dead elements.
pub fn row(rng: &mut Rng, table: &Table, width: usize) -> Vec<u16> {
    row_up_to(rng, table::largest_sample(table), width)
}

/// The same of samples up to a largest one.
pub fn row_up_to(rng: &mut Rng, largest: u16, width: usize) -> Vec<u16> {
    let mut row = live_row(rng, largest, width);
    match rng.below(12) {
        0 => row.fill(DEAD),
        1 => row[0] = DEAD,
        2 => {
            let first = rng.below(width);
            let last = first + rng.below(width - first);
            row[first..=last].fill(DEAD);
        }
        3 | 4 => {
            let rate = rng.pick(&[2, 4, 9]);
            for sample in &mut row {
                if rng.one_in(rate) {
                    *sample = DEAD;
                }
            }
        }
        _ => {}
    }
    row
}

fn live_row(rng: &mut Rng, largest: u16, width: usize) -> Vec<u16> {
    let largest = i64::from(largest);
    let style = rng.below(6);
    let level = rng.range(0, largest);
    (0..width)
        .map(|_| {
            let sample = match style {
                0 => largest,
                1 => level,
                2 => rng.pick(&[0, largest]),
                _ => rng.range(0, largest),
            };
            sample as u16
        })
        .collect()
}

/// What a pixel costs to work out from its definition, in samples.
pub fn area(table: &Table) -> usize {
    let of = |rect: &Rect| covered(rect) as usize;
    table::rects(table).iter().map(of).sum()
}

/// A window within the limits.
pub fn window(rng: &mut Rng) -> Window {
    let Rect {
        leadrow,
        leadcol,
        trailrow,
        trailcol,
        ..
    } = rect(rng);
    Window {
        leadrow,
        leadcol,
        trailrow,
        trailcol,
    }
}

/// A window with one edge past a limit.
pub fn bad_window(rng: &mut Rng) -> Window {
    let mut bad = window(rng);
    match rng.below(4) {
        0 => bad.leadrow = rng.pick(&[16, 127, -16, -128, bad.trailrow]),
        1 => bad.leadcol = rng.pick(&[16, 127, -16, -128, bad.trailcol]),
        2 => bad.trailrow = rng.pick(&[-17, -128, 15, 127, bad.leadrow]),
        _ => bad.trailcol = rng.pick(&[-17, -128, 15, 127, bad.leadcol]),
    }
    bad
}

/// A rank from 1 to M times N, often the first, the last or the middle one.
pub fn rank(rng: &mut Rng, window: &Window) -> u32 {
    let most = rank::rows(window) * rank::columns(window);
    let rank = match rng.below(6) {
        0 => 1,
        1 => most,
        2 => (most + 1) / 2,
        3 => rng.range(1, most.min(9)),
        _ => rng.range(1, most),
    };
    rank as u32
}

/// A ranked scan of rows of `width` samples, before its first row.
pub fn ranked(rng: &mut Rng, width: usize) -> Rank {
    let window = window(rng);
    Rank {
        window,
        b: rng.range(1, i64::from(rank::MOST_BITS)) as u8,
        rank: rank(rng, &window),
        width,
        ..Rank::default()
    }
}

/// A row for a ranked scan.
pub fn ranked_row(rng: &mut Rng, scan: &Rank) -> Vec<u16> {
    row_up_to(rng, table::largest_of(scan.b), scan.width)
}

/// Rows for a ranked scan: any, or all of one level but for a few specks.
pub fn ranked_rows(rng: &mut Rng, scan: &Rank, height: usize) -> Vec<Vec<u16>> {
    if !rng.one_in(4) {
        return (0..height).map(|_| ranked_row(rng, scan)).collect();
    }
    let largest = usize::from(table::largest_of(scan.b));
    let level = rng.below(largest + 1) as u16;
    let mut sample = || match rng.below(40) {
        0 => DEAD,
        1 | 2 => rng.below(largest + 1) as u16,
        _ => level,
    };
    let mut row = || (0..scan.width).map(|_| sample()).collect();
    (0..height).map(|_| row()).collect()
}
