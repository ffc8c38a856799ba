//! The kinds of case, and how many of each are run.

mod altered;
mod bursts;
mod desk;
mod files;
mod long;
mod peaks;
mod pixels;
mod ranks;
mod sames;
mod scans;
mod states;
mod strips;
mod values;
mod words;

use crate::rng::Rng;
use crate::tally::{Outcome, Tally};

pub struct Kind {
    pub name: &'static str,
    pub count: u64,
    /// Runs one case; the last argument counts the cases of this kind.
    pub run: fn(&mut Rng, &mut Tally, u64) -> Outcome,
}

const fn kind(
    name: &'static str,
    count: u64,
    run: fn(&mut Rng, &mut Tally, u64) -> Outcome,
) -> Kind {
    Kind { name, count, run }
}

/// Cases are numbered through in this order.
pub const KINDS: [Kind; 29] = [
    kind("strips of the rules", strips::COUNT, strips::case),
    kind("files at the limits", 60_000, files::limits),
    kind("files at question 10", 10_000, files::question_10),
    kind("files at the grid's edge", 10_000, files::grid_edge),
    kind("files at the grid's word", 4_000, files::grid_words),
    kind("damaged files", 60_000, files::damaged),
    kind("files cut at every byte", 1_000, files::truncated),
    kind("bytes behind sixteen", 20_000, files::behind_sixteen),
    kind("tables by value", 40_000, values::written),
    kind("starts", 15_000, values::started),
    kind("pixels", 40_000, pixels::case),
    kind("pixels of tall scans", 40, pixels::tall),
    kind("peaks of the grid", 1_500, peaks::case),
    kind("tables compared", 30_000, sames::case),
    kind("scans", 30_000, scans::small),
    kind("scans of wide rows", 300, scans::wide),
    kind("altered stores", 20_000, altered::case),
    kind("altered stores at the word", 8_000, words::case),
    kind("bursts of rows", 20_000, bursts::case),
    kind("states by hand", 30_000, states::any),
    kind("states near the last row", 4_000, states::near_the_end),
    kind("scans past the last row", 3, long::case),
    kind("ranked scans", 20_000, ranks::case),
    kind("ranked, altered stores", 10_000, ranks::altered::case),
    kind("ranked states", 8_000, ranks::states::case),
    kind("tables to text and back", 10_000, desk::there_and_back),
    kind("refused files shown", 2_000, desk::refused),
    kind("texts with faults and without", 6_000, desk::texts),
    kind("choices of drops", 600, desk::drops),
];
