//! Comparing two tables, as the rules have it: offset by offset of their weight grids.

use crate::ffi::{SameAnswer, Table};
use crate::table::{accepted, grid, largest_sample, no_drops};

pub const SIDE: usize = 31;
pub const SPOT: usize = SIDE * SIDE;

/// 11 of either, 24, 25, 13; then same, or the first offset where the weights differ, with the scan that is bright there alone. Beside a
/// refusal, and where the tables do the same, row and column are 0, by the header.
pub fn compared(one: &Table, other: &Table, scan: &mut [u16]) -> SameAnswer {
    let refused = |refusal| SameAnswer {
        refusal,
        ..SameAnswer::default()
    };
    if !accepted(one) || !accepted(other) {
        return refused(11);
    }
    if (one.b, one.t, one.w) != (other.b, other.t, other.w) {
        return refused(24);
    }
    if !no_drops(one) || !no_drops(other) {
        return refused(25);
    }
    if scan.len() < SPOT {
        return refused(13);
    }
    let (first, second) = (grid(one), grid(other));
    let Some(k) = (0..SPOT).find(|&k| first[k] != second[k]) else {
        return SameAnswer {
            same: true,
            ..SameAnswer::default()
        };
    };
    scan[..SPOT].fill(0);
    scan[k] = largest_sample(one);
    let offset = |at: usize| at as i32 - 15;
    SameAnswer {
        row: offset(k / SIDE),
        col: offset(k % SIDE),
        ..SameAnswer::default()
    }
}
