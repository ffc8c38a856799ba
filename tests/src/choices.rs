//! Choices of drops (docs/RULES.md, section 10): what each costs in bits and in pixels, and which are worth listing.

use crate::ffi::{Rect, Table};
use crate::table::{accepted, columns, rects, rows};

/// A choice and its figures.
struct Choice {
    drops: [u8; 3],
    column: i64,
    window: i64,
    sums: i64,
    /// How far the cut pixel can lie above the full one, and below it.
    low: i64,
    high: i64,
}

/// The least whole number whose power of two is not below n.
fn log2up(n: i64) -> i64 {
    (0..).find(|&bits| n <= 1 << bits).expect("n fits 63 bits")
}

fn column_word(table: &Table, rect: &Rect) -> i64 {
    i64::from(table.b - table.q1) + log2up(rows(rect))
}

fn window_word(table: &Table, rect: &Rect) -> i64 {
    let bits = i64::from(table.b) + log2up(rows(rect) * columns(rect));
    (bits - i64::from(table.q1 + table.q2)).max(0)
}

fn loss(table: &Table, rect: &Rect) -> i64 {
    let (m, n) = (rows(rect), columns(rect));
    let [p1, p2, p3] = [table.q1, table.q2, table.q3].map(|q| 1i64 << q);
    m * n * (p1 - 1) + p1 * n * (p2 - 1) + p1 * p2 * (p3 - 1)
}

/// Divided by 2^t and rounded up.
fn up(n: i64, t: u8) -> i64 {
    (n + (1 << t) - 1) >> t
}

fn measured(table: &Table, width: i64) -> Choice {
    let list = rects(table);
    let of_sign = |sign: i64| -> i64 {
        let share = |rect: &Rect| (sign * i64::from(rect.weight)).max(0) * loss(table, rect);
        list.iter().map(share).sum()
    };
    let widest = |word: fn(&Table, &Rect) -> i64| list.iter().map(|r| word(table, r)).max();
    let bits = |rect: &Rect| width * column_word(table, rect) + window_word(table, rect);
    Choice {
        drops: [table.q1, table.q2, table.q3],
        column: widest(column_word).unwrap_or(0),
        window: widest(window_word).unwrap_or(0),
        sums: list.iter().map(bits).sum(),
        low: up(of_sign(-1), table.t),
        high: up(of_sign(1), table.t),
    }
}

fn beats(one: &Choice, other: &Choice) -> bool {
    let figures = |c: &Choice| [c.sums, c.low, c.high];
    let (a, b) = (figures(one), figures(other));
    a != b && (0..3).all(|k| a[k] <= b[k])
}

/// How many choices are listed, and the text.
pub fn list(table: &Table, most: Option<i64>, width: i64) -> (usize, String) {
    let mut all = Vec::new();
    for q1 in 0..table.b {
        for q2 in 0..=8 {
            for q3 in 0..=8 {
                let with = Table {
                    q1,
                    q2,
                    q3,
                    ..*table
                };
                if accepted(&with) {
                    all.push(measured(&with, width));
                }
            }
        }
    }
    let within = |c: &&Choice| most.is_none_or(|most| c.low <= most && c.high <= most);
    let unbeaten = |c: &&Choice| !all.iter().any(|other| beats(other, c));
    let listed: Vec<&Choice> = all.iter().filter(unbeaten).filter(within).collect();
    let mut text = String::from("q1 q2 q3 column window sums low high\n");
    for c in &listed {
        let [q1, q2, q3] = c.drops;
        let low = -c.low;
        text.push_str(&format!(
            "{q1} {q2} {q3} {} {} {} {low} {}\n",
            c.column, c.window, c.sums, c.high
        ));
    }
    (listed.len(), text)
}
