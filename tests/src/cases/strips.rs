//! The strips of the rules, with the numbers that docs/RULES.md gives; those of the ranked window and of altered sums are worked out by hand.

use crate::engine;
use crate::ffi::{
    self, Answer, Rank, Rect, SameAnswer, Table, Window, DONE, REFUSED, ROW, WAITING,
};
use crate::pixel;
use crate::rng::Rng;
use crate::same::compared;
use crate::table;
use crate::tally::{same, Outcome, Tally};
use crate::world::ranked::RankBench;
use crate::world::Bench;

type Strip = fn(&mut Rng, &mut Tally) -> Outcome;

const STRIPS: [Strip; 18] = [
    table_a_pixels,
    table_a_words,
    surround,
    pixel_past_word,
    drops,
    row_ends,
    short_files,
    behind_sixteen,
    limits,
    bright_samples,
    no_rows,
    dead_elements,
    same_shapes,
    other_shapes,
    ranked_square,
    ranked_beside,
    ranked_limits,
    ranked_no_rows,
];

pub const COUNT: u64 = STRIPS.len() as u64;

pub fn case(rng: &mut Rng, tally: &mut Tally, index: u64) -> Outcome {
    STRIPS[index as usize](rng, tally)
}

const TABLE_A: [u8; 27] = [
    0x01, 0x00, 0x06, 0x08, 0x00, 0x00, 0x00, 0x02, 0x10, 0x02, 0x00, 0x06, 0x01, 0x01, 0xFE, 0xFE,
    0x00, 0x01, 0x02, 0x00, 0x06, 0x00, 0x00, 0xFF, 0xFF, 0xFF, 0xF7,
];

/// Library and loader of the rules both answer `number`.
fn load_says(what: &str, bytes: &[u8], number: u32) -> Outcome {
    same(what, &ffi::table_check(bytes), &number)?;
    same(what, &ffi::table_load(bytes).refusal, &number)?;
    same(what, &table::loaded(bytes).refusal, &number)
}

/// Library and definition both give `value`.
fn pixel_is(
    what: &str,
    t: &Table,
    width: usize,
    samples: &[u16],
    rc: (usize, usize),
    value: i32,
) -> Outcome {
    let library = ffi::pixel(t, width, samples, rc.0, rc.1);
    same(what, &(library.refusal, library.value), &(0, value))?;
    let rules = pixel::answer(t, width, samples, rc.0, rc.1);
    same(what, &(rules.refusal, rules.value), &(0, value))
}

fn table_a_pixels(rng: &mut Rng, tally: &mut Tally) -> Outcome {
    let a = ffi::table_load(&TABLE_A).table;
    let expected = [[-13, -8, -13], [-8, 0, -8], [-13, -8, -13]];
    let mut bench = Bench::new(rng, tally, a.count, 3);
    let mut scan = bench.start(&a, 3)?.scan;
    for r in 0..3 {
        scan = bench.row(&scan, &[10; 3])?.scan;
        if r > 0 {
            same("Table A", &bench.output()[..3], &expected[r - 1])?;
        }
        for (c, value) in expected[r].iter().enumerate() {
            pixel_is("Table A", &a, 3, &[10; 9], (r, c), *value)?;
        }
    }
    scan = bench.close(&scan)?.scan;
    bench.step(&scan)?;
    same("Table A, last row", &bench.output()[..3], &expected[2])
}

fn table_a_words(_: &mut Rng, _: &mut Tally) -> Outcome {
    let mut bytes = TABLE_A;
    for (w, number) in [(11, 0), (10, 0), (9, 10)] {
        bytes[8] = w;
        load_says(&format!("Table A with w = {w}"), &bytes, number)?;
    }
    bytes[8] = 10;
    let a = ffi::table_load(&bytes).table;
    let mut scan = [255; 9];
    scan[4] = 0;
    pixel_is("bright around", &a, 3, &scan, (1, 1), 510)?;
    scan = [0; 9];
    scan[4] = 255;
    pixel_is("bright centre", &a, 3, &scan, (1, 1), -510)
}

/// A square of 31 by 31 against one of 29 by 29: 255 × 60 × 120 = 1,836,000 needs 22 bits. With drops it needs 25.
fn surround(_: &mut Rng, _: &mut Tally) -> Outcome {
    let mut rects = [
        single(15, -16, [0; 3]).rects[0],
        single(14, -15, [0; 3]).rects[0],
    ];
    rects[0].weight = 60;
    rects[1].weight = -60;
    for (q1, w, number) in [
        (0, 22, 0),
        (0, 21, 10),
        (1, 22, 10),
        (1, 24, 10),
        (1, 25, 0),
    ] {
        let what = format!("31 by 31 against 29 by 29, q1 = {q1}, w = {w}");
        load_says(&what, &table::file([8, q1, 0, 0, 0, w], &rects), number)?;
    }
    Ok(())
}

/// Table A in 10 bits and a dark scan; sums are altered within their bounds, 765 and 255. Of the wide square 2,047 / 4 fits and 2,048 / 4 does
/// not; of the centre 227 × 9 / 4 fits and 228 × 9 / 4 does not.
fn pixel_past_word(rng: &mut Rng, tally: &mut Tally) -> Outcome {
    let mut a = ffi::table_load(&TABLE_A).table;
    a.w = 10;
    let dark = [0; 9];
    let past = (REFUSED, 19, 2);
    let said = |answer: Answer| (answer.kind, answer.number, answer.place);
    let mut bench = Bench::with_rows(rng, tally, a.count, 3, 3);
    let begun = |bench: &mut Bench, sums: [u32; 6]| {
        let scan = bench.start(&a, 3)?.scan;
        for (index, sum) in sums.into_iter().enumerate() {
            bench.set_sum(index, sum);
        }
        Ok::<_, String>(scan)
    };
    let scan = begun(&mut bench, [765, 765, 518, 0, 0, 0])?;
    let burst = bench.rows(&scan, &dark)?;
    let found = (burst.refusal, burst.place, burst.taken, burst.filtered);
    same("past the word in a burst", &found, &(19, 2, 1, 0))?;
    let scan = begun(&mut bench, [765, 765, 518, 0, 0, 0])?;
    let waiting = bench.row(&scan, &dark[..3])?;
    same("while waiting", &said(waiting), &(WAITING, 0, 0))?;
    let open = waiting.scan;
    let answer = bench.row(&open, &dark[..3])?;
    same("past the word in a row", &said(answer), &past)?;
    let closed = bench.close(&open)?.scan;
    let answer = bench.step(&closed)?;
    same("past the word in a step", &said(answer), &past)?;
    bench.set_sum(2, 517);
    let answer = bench.step(&closed)?;
    same("within the word in a step", &said(answer), &(ROW, 0, 0))?;
    same("its pixels", &bench.output()[..3], &[382, 511, 320])?;
    let scan = begun(&mut bench, [0, 0, 0, 0, 228, 0])?;
    let open = bench.row(&scan, &dark[..3])?.scan;
    let answer = bench.row(&open, &dark[..3])?;
    same("below the word in a row", &said(answer), &past)?;
    bench.set_sum(4, 227);
    let answer = bench.row(&open, &dark[..3])?;
    same("within the word in a row", &said(answer), &(ROW, 0, 0))?;
    same("its pixels", &bench.output()[..3], &[0, -511, 0])
}

/// One rectangle of weight 1 under b = 8, t = 0 and w = 32.
fn single(lead: i8, trail: i8, q: [u8; 3]) -> Table {
    let mut t = Table {
        b: 8,
        q1: q[0],
        q2: q[1],
        q3: q[2],
        w: 32,
        count: 1,
        ..Table::default()
    };
    t.rects[0] = Rect {
        leadrow: lead,
        leadcol: lead,
        trailrow: trail,
        trailcol: trail,
        weight: 1,
    };
    t
}

fn drops(_: &mut Rng, _: &mut Tally) -> Outcome {
    let square = |q| single(1, -2, q);
    pixel_is("all 3, full", &square([0, 0, 0]), 3, &[3; 9], (1, 1), 27)?;
    pixel_is("all 3, cut", &square([1, 1, 0]), 3, &[3; 9], (1, 1), 12)?;
    pixel_is("all 4, cut", &square([1, 1, 0]), 3, &[4; 9], (1, 1), 36)?;
    pixel_is("all 4, q3 = 1", &square([1, 1, 1]), 3, &[4; 9], (1, 1), 32)?;
    let one = single(0, -1, [7, 0, 0]);
    pixel_is("1 by 1, q1 = 7", &one, 1, &[255], (0, 0), 128)?;
    let mut bytes = table::file_of(&one);
    bytes[4] = 8;
    load_says("q1 = 8", &bytes, 4)
}

fn row_ends(rng: &mut Rng, tally: &mut Tally) -> Outcome {
    let mut t = single(0, -1, [0, 0, 0]);
    t.rects[0].leadcol = -1;
    t.rects[0].trailcol = -2;
    let samples = [0, 0, 9, 0, 0, 0];
    for index in 0..6 {
        pixel_is("row's end", &t, 3, &samples, (index / 3, index % 3), 0)?;
    }
    let mut bench = Bench::new(rng, tally, 1, 3);
    let mut scan = bench.start(&t, 3)?.scan;
    for row in samples.chunks(3) {
        scan = bench.row(&scan, row)?.scan;
        same("row's end", &bench.output()[..3], &[0; 3])?;
    }
    Ok(())
}

fn short_files(_: &mut Rng, _: &mut Tally) -> Outcome {
    load_says("empty file", &[], 1)?;
    load_says("header alone", &TABLE_A[..9], 9)?;
    load_says("ends after 02 00", &TABLE_A[..11], 7)?;
    load_says("ends after 02 00 06 and five bytes", &TABLE_A[..17], 2)
}

fn behind_sixteen(_: &mut Rng, _: &mut Tally) -> Outcome {
    let one = single(0, -1, [0; 3]);
    let behind = |rects: usize, tail: &[u8]| {
        let mut bytes = table::file(table::head_of(&one), &vec![one.rects[0]; rects]);
        bytes.extend(tail);
        bytes
    };
    load_says("sixteen, then 00", &behind(16, &[0]), 7)?;
    load_says("sixteen, then 02", &behind(16, &[2]), 7)?;
    load_says("sixteen, then 02 00", &behind(16, &[2, 0]), 7)?;
    load_says("sixteen, then 02 00 06", &behind(16, &[2, 0, 6]), 6)?;
    let edges = [2, 0, 6, 1, 1, 1, 1, 0, 1];
    load_says("sixteen, then bad edges", &behind(16, &edges), 6)?;
    load_says("sixteen, then 01 00 06", &behind(16, &[1, 0, 6]), 7)?;
    load_says("three, then 00", &behind(3, &[0]), 7)
}

fn limits(rng: &mut Rng, tally: &mut Tally) -> Outcome {
    let with = |at: usize, byte: u8| {
        let mut bytes = TABLE_A;
        bytes[8] = 32;
        bytes[at] = byte;
        bytes
    };
    load_says("b = 12", &with(3, 12), 0)?;
    load_says("b = 13", &with(3, 13), 3)?;
    load_says("lead 15", &with(12, 15), 0)?;
    load_says("lead 16", &with(12, 16), 8)?;
    load_says("trail -16", &with(14, 0xF0), 0)?;
    load_says("trail -17", &with(14, 0xEF), 8)?;
    load_says("trail equal to lead", &with(14, 1), 8)?;
    let rects = [single(0, -1, [0; 3]).rects[0]; 17];
    load_says(
        "16 rectangles",
        &table::file([8, 0, 0, 0, 0, 32], &rects[..16]),
        0,
    )?;
    load_says(
        "17 rectangles",
        &table::file([8, 0, 0, 0, 0, 32], &rects),
        6,
    )?;
    for (width, number) in [(1024, 0), (0, 12), (1025, 12)] {
        let mut bench = Bench::new(rng, tally, 1, 1025);
        let started = bench.start(&single(0, -1, [0; 3]), width)?;
        same("width", &started.refusal, &number)?;
    }
    Ok(())
}

fn bright_samples(rng: &mut Rng, tally: &mut Tally) -> Outcome {
    let t = single(0, -1, [0; 3]);
    let mut bench = Bench::new(rng, tally, 1, 6);
    let mut scan = bench.start(&t, 6)?.scan;
    scan = bench.row(&scan, &[255; 6])?.scan;
    let answer = bench.row(&scan, &[0, 0, 0, 0, 256, 256])?;
    same("256 in column 4", &(answer.number, answer.place), &(18, 4))?;
    let found = ffi::pixel(&t, 6, &[0, 0, 0, 0, 256, 256], 0, 0);
    same("256 at index 4", &(found.refusal, found.place), &(18, 4))
}

fn no_rows(rng: &mut Rng, tally: &mut Tally) -> Outcome {
    let t = single(1, -2, [0; 3]);
    let mut bench = Bench::new(rng, tally, 1, 2);
    let scan = bench.start(&t, 2)?.scan;
    let closed = engine::close(&scan).scan;
    same("close", &bench.close(&scan)?.scan, &closed)?;
    let first = bench.step(&closed)?;
    same("no rows, first step", &first.kind, &WAITING)?;
    let second = bench.step(&first.scan)?;
    same("no rows, second step", &second.kind, &DONE)
}

fn dead_elements(rng: &mut Rng, tally: &mut Tally) -> Outcome {
    let t = single(0, -1, [0; 3]);
    const X: u16 = 65_535;
    let given = [[X, 7, X, X, 9], [X, X, 3, X, X], [X; 5]];
    let mended = [[0, 7, 7, 7, 9], [0, 0, 3, 3, 3], [0; 5]];
    let mut bench = Bench::new(rng, tally, 1, 5);
    let mut scan = bench.start(&t, 5)?.scan;
    for (r, row) in given.iter().enumerate() {
        scan = bench.row(&scan, row)?.scan;
        same("dead elements", &bench.output()[..5], &mended[r])?;
        for (c, &value) in mended[r].iter().enumerate() {
            same("kept", &i32::from(bench.samples()[5 * r + c]), &value)?;
            pixel_is("dead elements", &t, 5, given.as_flattened(), (r, c), value)?;
        }
    }
    let answer = bench.row(&scan, &[X, 255, X, 65_534, 256])?;
    same("65,534", &(answer.number, answer.place), &(18, 3))?;
    bench.set_sample(2 * 5 + 1, X);
    let answer = bench.row(&scan, &[1; 5])?;
    same("65,535 kept", &(answer.number, answer.place), &(19, 0))
}

/// A ranked scan of rows of `width` samples, its edges in the order of a table file.
fn ranked(b: u8, edges: [i8; 4], rank: u32, width: usize) -> Rank {
    let [leadrow, leadcol, trailrow, trailcol] = edges;
    Rank {
        window: Window {
            leadrow,
            leadcol,
            trailrow,
            trailcol,
        },
        b,
        rank,
        width,
        ..Rank::default()
    }
}

/// A window of 3 by 3 around its pixel.
const SQUARE: [i8; 4] = [1, 1, -2, -2];

/// A scan of three columns gives these ranked rows.
fn ranked_is(
    (rng, tally): (&mut Rng, &mut Tally),
    (edges, rank): ([i8; 4], u32),
    given: &[[u16; 3]],
    expected: &[[i32; 3]],
) -> Outcome {
    let mut bench = RankBench::new(rng, tally, 3);
    let mut scan = bench.start(&ranked(8, edges, rank, 3))?.scan;
    let mut out = Vec::new();
    let mut take = |bench: &RankBench, kind| {
        if kind == ROW {
            out.push([0, 1, 2].map(|c| bench.output()[c]));
        }
    };
    for row in given {
        let answer = bench.row(&scan, row)?;
        take(&bench, answer.kind);
        scan = answer.scan;
    }
    scan = bench.close(&scan)?.scan;
    loop {
        let answer = bench.step(&scan)?;
        if answer.kind == DONE {
            return same("ranked rows", out.as_slice(), expected);
        }
        take(&bench, answer.kind);
        scan = answer.scan;
    }
}

/// A table in 8 bits, word 16, of rectangles given as lead row, lead column, trail row, trail column and weight.
fn shapes(list: &[[i8; 5]]) -> Table {
    let mut t = Table {
        b: 8,
        w: 16,
        count: list.len(),
        ..Table::default()
    };
    for (slot, &[leadrow, leadcol, trailrow, trailcol, weight]) in t.rects.iter_mut().zip(list) {
        *slot = Rect {
            leadrow,
            leadcol,
            trailrow,
            trailcol,
            weight: weight.into(),
        };
    }
    t
}

/// Library and rules both answer this of two tables, and write the same.
fn comparing(what: &str, one: &Table, other: &Table, places: usize, told: SameAnswer) -> Outcome {
    let (mut library, mut rules) = (vec![7; places], vec![7; places]);
    same(what, &ffi::same(one, other, &mut library), &told)?;
    same(what, &compared(one, other, &mut rules), &told)?;
    same(what, &library, &rules)?;
    let written = library.iter().any(|&sample| sample != 7);
    same(what, &written, &(told.refusal == 0 && !told.same))
}

const SAME: SameAnswer = SameAnswer {
    refusal: 0,
    place: 0,
    same: true,
    row: 0,
    col: 0,
};

/// A square of 3 by 3 cut in nine, in two halves, laid in two weights, and beside a rectangle of weight 0.
fn same_shapes(_: &mut Rng, _: &mut Tally) -> Outcome {
    let square = shapes(&[[1, 1, -2, -2, 5]]);
    let spots: Vec<[i8; 5]> = (0..9)
        .map(|k| {
            let (row, col) = (k / 3 - 1, k % 3 - 1);
            [row, col, row - 1, col - 1, 5]
        })
        .collect();
    comparing("nine spots", &square, &shapes(&spots), 961, SAME)?;
    let halves = shapes(&[[1, 1, 0, -2, 5], [0, 1, -2, -2, 5]]);
    comparing("two halves", &square, &halves, 961, SAME)?;
    let layers = shapes(&[[1, 1, -2, -2, 2], [1, 1, -2, -2, 3]]);
    comparing("5 as 2 and 3", &layers, &square, 961, SAME)?;
    let idle = shapes(&[[15, 15, -16, -16, 0], [1, 1, -2, -2, 5]]);
    comparing("weight 0", &square, &idle, 961, SAME)?;
    let short = SameAnswer {
        refusal: 13,
        ..SameAnswer::default()
    };
    comparing("960 places", &square, &halves, 960, short)
}

/// The square moved by a column, the last corner of the grid, and what 24 and 25 refuse.
fn other_shapes(_: &mut Rng, _: &mut Tally) -> Outcome {
    let square = shapes(&[[1, 1, -2, -2, 5]]);
    let at = |row, col| SameAnswer {
        row,
        col,
        ..SameAnswer::default()
    };
    let moved = shapes(&[[1, 2, -2, -1, 5]]);
    comparing("moved right", &square, &moved, 961, at(-1, -1))?;
    let lower = shapes(&[[2, 1, -1, -2, 5]]);
    comparing("moved down", &lower, &square, 970, at(-1, -1))?;
    let corner = shapes(&[[1, 1, -2, -2, 5], [15, 15, 14, 14, 1]]);
    comparing("last corner", &square, &corner, 961, at(15, 15))?;
    let one_less = shapes(&[[1, 1, -2, -2, 5], [-15, -15, -16, -16, -1]]);
    comparing("first corner", &square, &one_less, 961, at(-15, -15))?;
    let refused = |refusal| SameAnswer {
        refusal,
        ..SameAnswer::default()
    };
    let wider = Table { w: 17, ..square };
    comparing("word 17", &square, &wider, 961, refused(24))?;
    let dropping = Table { q3: 1, ..square };
    comparing("q3 = 1", &square, &dropping, 961, refused(25))?;
    comparing("q3 = 1 and word 17", &dropping, &wider, 0, refused(24))?;
    let bad = Table { b: 13, ..wider };
    comparing("13 bits and word 17", &dropping, &bad, 0, refused(11))
}

fn ranked_square(rng: &mut Rng, tally: &mut Tally) -> Outcome {
    let given = [[9, 1, 8], [2, 7, 3], [6, 4, 5]];
    let smallest = [[1, 1, 1], [1, 1, 1], [2, 2, 3]];
    let third = [[7, 3, 7], [4, 3, 4], [6, 4, 5]];
    let fifth = [[9, 8, 8], [7, 5, 7], [7, 6, 7]];
    let largest = [[9, 9, 8], [9, 9, 8], [7, 7, 7]];
    for (rank, expected) in [(1, smallest), (3, third), (5, fifth), (9, largest)] {
        ranked_is((rng, tally), (SQUARE, rank), &given, &expected)?;
    }
    let mut speck = [[10; 3]; 5];
    speck[2][1] = 255;
    ranked_is((rng, tally), (SQUARE, 4), &speck, &[[10; 3]; 5])?;
    const X: u16 = 65_535;
    let dead = [[X, 7, X], [X, X, 3], [X; 3]];
    let mended = [[0, 7, 7], [0, 0, 3], [0; 3]];
    ranked_is((rng, tally), ([0, 0, -1, -1], 1), &dead, &mended)
}

/// Windows beside the pixel: what lies outside the scan is not counted, and not dark.
fn ranked_beside(rng: &mut Rng, tally: &mut Tally) -> Outcome {
    let given = [[4, 5, 6], [7, 8, 9]];
    let left = [0, -1, -1, -2];
    let expected = [[-1, 4, 5], [-1, 7, 8]];
    ranked_is((rng, tally), (left, 1), &given, &expected)?;
    let right = [0, 2, -1, 0];
    let expected = [[6, 6, -1], [9, 9, -1]];
    ranked_is((rng, tally), (right, 2), &given, &expected)?;
    let above = [-1, 0, -2, -1];
    let expected = [[-1, -1, -1], [4, 5, 6]];
    ranked_is((rng, tally), (above, 1), &given, &expected)?;
    let below = [2, 0, 0, -1];
    let expected = [[7, 8, 9], [-1, -1, -1]];
    ranked_is((rng, tally), (below, 1), &given, &expected)
}

fn ranked_limits(rng: &mut Rng, tally: &mut Tally) -> Outcome {
    let mut bench = RankBench::new(rng, tally, 1025);
    let mut says = |what, wanted, number| {
        let started = bench.start(&wanted)?;
        same(what, &started.refusal, &number)
    };
    let all = [15, 15, -16, -16];
    let past = [16, 1, -2, -2];
    says("b = 8", ranked(8, SQUARE, 5, 3), 0)?;
    says("b = 9", ranked(9, SQUARE, 5, 3), 23)?;
    says("b = 12", ranked(12, SQUARE, 5, 3), 23)?;
    says("b = 13", ranked(13, SQUARE, 5, 3), 3)?;
    says("b = 0", ranked(0, SQUARE, 5, 3), 3)?;
    says("lead 16", ranked(8, past, 5, 3), 8)?;
    says("trail -17", ranked(8, [1, 1, -2, -17], 5, 3), 8)?;
    says("R = 9", ranked(8, SQUARE, 9, 3), 0)?;
    says("R = 10", ranked(8, SQUARE, 10, 3), 22)?;
    says("R = 0", ranked(8, SQUARE, 0, 3), 22)?;
    says("R = 961", ranked(8, all, 961, 3), 0)?;
    says("R = 962", ranked(8, all, 962, 3), 22)?;
    says("1,024 columns", ranked(8, SQUARE, 5, 1024), 0)?;
    says("1,025 columns", ranked(8, SQUARE, 5, 1025), 12)?;
    says("no columns", ranked(8, SQUARE, 5, 0), 12)?;
    says("3, then 8", ranked(13, past, 0, 0), 3)?;
    says("23, then 8", ranked(9, past, 0, 0), 23)?;
    says("8, then 22", ranked(8, past, 0, 0), 8)?;
    says("22, then 12", ranked(8, SQUARE, 0, 0), 22)
}

fn ranked_no_rows(rng: &mut Rng, tally: &mut Tally) -> Outcome {
    let mut bench = RankBench::new(rng, tally, 2);
    let scan = bench.start(&ranked(8, SQUARE, 5, 2))?.scan;
    let closed = bench.close(&scan)?.scan;
    let first = bench.step(&closed)?;
    same("no rows, first step", &first.kind, &WAITING)?;
    let second = bench.step(&first.scan)?;
    same("no rows, second step", &second.kind, &DONE)
}
