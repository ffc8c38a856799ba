//! The C interface: the structs of include/strip.h, its functions, and a safe call for each.

use std::ptr;

#[repr(C)]
#[derive(Clone, Copy, Debug, Default, PartialEq, Eq)]
pub struct Rect {
    pub leadrow: i8,
    pub leadcol: i8,
    pub trailrow: i8,
    pub trailcol: i8,
    pub weight: i16,
}

/// Equality takes in the slots from the count on: what is handed back untouched is so in every slot.
#[repr(C)]
#[derive(Clone, Copy, Debug, Default, PartialEq, Eq)]
pub struct Table {
    pub b: u8,
    pub q1: u8,
    pub q2: u8,
    pub q3: u8,
    pub t: u8,
    pub w: u8,
    pub count: usize,
    pub rects: [Rect; 16],
}

#[repr(C)]
#[derive(Clone, Copy, Debug, Default, PartialEq, Eq)]
pub struct Scan {
    pub table: Table,
    pub width: usize,
    pub rows: u32,
    pub steps: u32,
    pub closed: bool,
}

/// The window of a ranked scan.
#[repr(C)]
#[derive(Clone, Copy, Debug, Default, PartialEq, Eq)]
pub struct Window {
    pub leadrow: i8,
    pub leadcol: i8,
    pub trailrow: i8,
    pub trailcol: i8,
}

/// A ranked scan.
#[repr(C)]
#[derive(Clone, Copy, Debug, Default, PartialEq, Eq)]
pub struct Rank {
    pub window: Window,
    pub b: u8,
    pub rank: u32,
    pub width: usize,
    pub rows: u32,
    pub steps: u32,
    pub closed: bool,
}

/// The header says its size.
const _: () = assert!(size_of::<Rank>() == 40);

#[repr(C)]
#[derive(Clone, Copy, Debug, PartialEq, Eq)]
pub struct Loaded {
    pub refusal: u32,
    pub place: u32,
    pub table: Table,
}

#[repr(C)]
#[derive(Clone, Copy, Debug, PartialEq, Eq)]
pub struct Written {
    pub refusal: u32,
    pub place: u32,
    pub length: usize,
}

/// What starting and closing answer, of a scan or of a ranked scan.
#[repr(C)]
#[derive(Clone, Copy, Debug, PartialEq, Eq)]
pub struct Started<S = Scan> {
    pub refusal: u32,
    pub place: u32,
    pub scan: S,
}

/// What `kind` of an answer may be.
pub const REFUSED: u32 = 0;
pub const ROW: u32 = 1;
pub const WAITING: u32 = 2;
pub const DONE: u32 = 3;

/// What a row and a closing step answer, of a scan or of a ranked scan.
#[repr(C)]
#[derive(Clone, Copy, Debug, PartialEq, Eq)]
pub struct Answer<S = Scan> {
    pub kind: u32,
    pub number: u32,
    pub place: u32,
    pub scan: S,
}

#[repr(C)]
#[derive(Clone, Copy, Debug, PartialEq, Eq)]
pub struct Burst {
    pub refusal: u32,
    pub place: u32,
    pub taken: usize,
    pub filtered: usize,
    pub scan: Scan,
}

#[repr(C)]
#[derive(Clone, Copy, Debug, PartialEq, Eq)]
pub struct PixelAnswer {
    pub refusal: u32,
    pub place: u32,
    pub value: i32,
}

/// What comparing two tables answers.
#[repr(C)]
#[derive(Clone, Copy, Debug, Default, PartialEq, Eq)]
pub struct SameAnswer {
    pub refusal: u32,
    pub place: u32,
    pub same: bool,
    pub row: i32,
    pub col: i32,
}

/// The header says its size.
const _: () = assert!(size_of::<SameAnswer>() == 20);

extern "C" {
    fn strip_table_check(bytes: *const u8, n: usize) -> u32;
    fn strip_table_load(bytes: *const u8, n: usize) -> Loaded;
    fn strip_table_write(table: Table, out: *mut u8, n: usize) -> Written;
    fn strip_scan_start(
        table: Table,
        width: usize,
        samples: *mut u16,
        n: usize,
        sums: *mut u32,
        m: usize,
    ) -> Started;
    fn strip_scan_close(scan: Scan) -> Started;
    fn strip_scan_row(
        scan: Scan,
        row: *const u16,
        k: usize,
        samples: *mut u16,
        n: usize,
        sums: *mut u32,
        m: usize,
        out: *mut i32,
        o: usize,
    ) -> Answer;
    fn strip_scan_rows(
        scan: Scan,
        rows: *const u16,
        k: usize,
        samples: *mut u16,
        n: usize,
        sums: *mut u32,
        m: usize,
        out: *mut i32,
        o: usize,
    ) -> Burst;
    fn strip_scan_step(
        scan: Scan,
        samples: *mut u16,
        n: usize,
        sums: *mut u32,
        m: usize,
        out: *mut i32,
        o: usize,
    ) -> Answer;
    fn strip_pixel(
        table: Table,
        width: usize,
        samples: *const u16,
        n: usize,
        r: usize,
        c: usize,
    ) -> PixelAnswer;
    fn strip_same(one: Table, other: Table, scan: *mut u16, n: usize) -> SameAnswer;
    fn strip_rank_start(
        b: u8,
        window: Window,
        rank: u32,
        width: usize,
        samples: *mut u16,
        n: usize,
        counts: *mut u16,
        m: usize,
        windows: *mut u16,
        p: usize,
    ) -> Started<Rank>;
    fn strip_rank_close(scan: Rank) -> Started<Rank>;
    fn strip_rank_row(
        scan: Rank,
        row: *const u16,
        k: usize,
        samples: *mut u16,
        n: usize,
        counts: *mut u16,
        m: usize,
        windows: *mut u16,
        p: usize,
        out: *mut i32,
        o: usize,
    ) -> Answer<Rank>;
    fn strip_rank_step(
        scan: Rank,
        samples: *mut u16,
        n: usize,
        counts: *mut u16,
        m: usize,
        windows: *mut u16,
        p: usize,
        out: *mut i32,
        o: usize,
    ) -> Answer<Rank>;
}

// Each call below lends slices for its own length of time, which is all that the C functions ask. An empty one is lent as
// a null pointer, which the header allows.

fn lent<T>(slice: &[T]) -> *const T {
    if slice.is_empty() {
        ptr::null()
    } else {
        slice.as_ptr()
    }
}

fn lent_mut<T>(slice: &mut [T]) -> *mut T {
    if slice.is_empty() {
        ptr::null_mut()
    } else {
        slice.as_mut_ptr()
    }
}

pub fn table_check(bytes: &[u8]) -> u32 {
    unsafe { strip_table_check(lent(bytes), bytes.len()) }
}

pub fn table_load(bytes: &[u8]) -> Loaded {
    unsafe { strip_table_load(lent(bytes), bytes.len()) }
}

pub fn table_write(table: &Table, out: &mut [u8]) -> Written {
    unsafe { strip_table_write(*table, lent_mut(out), out.len()) }
}

pub fn scan_start(table: &Table, width: usize, samples: &mut [u16], sums: &mut [u32]) -> Started {
    unsafe {
        strip_scan_start(
            *table,
            width,
            lent_mut(samples),
            samples.len(),
            lent_mut(sums),
            sums.len(),
        )
    }
}

pub fn scan_close(scan: &Scan) -> Started {
    unsafe { strip_scan_close(*scan) }
}

/// A call that takes samples, row after row, beside the stores and the output.
type RowsCall<A> = unsafe extern "C" fn(
    Scan,
    *const u16,
    usize,
    *mut u16,
    usize,
    *mut u32,
    usize,
    *mut i32,
    usize,
) -> A;

fn given<A>(
    call: RowsCall<A>,
    scan: &Scan,
    rows: &[u16],
    samples: &mut [u16],
    sums: &mut [u32],
    out: &mut [i32],
) -> A {
    let (n, m, o) = (samples.len(), sums.len(), out.len());
    let (samples, sums, out) = (lent_mut(samples), lent_mut(sums), lent_mut(out));
    unsafe { call(*scan, lent(rows), rows.len(), samples, n, sums, m, out, o) }
}

pub fn scan_row(
    scan: &Scan,
    row: &[u16],
    samples: &mut [u16],
    sums: &mut [u32],
    out: &mut [i32],
) -> Answer {
    given(strip_scan_row, scan, row, samples, sums, out)
}

pub fn scan_rows(
    scan: &Scan,
    rows: &[u16],
    samples: &mut [u16],
    sums: &mut [u32],
    out: &mut [i32],
) -> Burst {
    given(strip_scan_rows, scan, rows, samples, sums, out)
}

pub fn scan_step(scan: &Scan, samples: &mut [u16], sums: &mut [u32], out: &mut [i32]) -> Answer {
    unsafe {
        strip_scan_step(
            *scan,
            lent_mut(samples),
            samples.len(),
            lent_mut(sums),
            sums.len(),
            lent_mut(out),
            out.len(),
        )
    }
}

pub fn pixel(table: &Table, width: usize, samples: &[u16], r: usize, c: usize) -> PixelAnswer {
    unsafe { strip_pixel(*table, width, lent(samples), samples.len(), r, c) }
}

pub fn same(one: &Table, other: &Table, scan: &mut [u16]) -> SameAnswer {
    unsafe { strip_same(*one, *other, lent_mut(scan), scan.len()) }
}

/// The three stores of a ranked scan, as they are lent to a call.
pub struct Counting<'a> {
    pub samples: &'a mut [u16],
    pub counts: &'a mut [u16],
    pub windows: &'a mut [u16],
}

pub fn rank_start(
    b: u8,
    window: Window,
    rank: u32,
    width: usize,
    stores: Counting,
) -> Started<Rank> {
    unsafe {
        strip_rank_start(
            b,
            window,
            rank,
            width,
            lent_mut(stores.samples),
            stores.samples.len(),
            lent_mut(stores.counts),
            stores.counts.len(),
            lent_mut(stores.windows),
            stores.windows.len(),
        )
    }
}

pub fn rank_close(scan: &Rank) -> Started<Rank> {
    unsafe { strip_rank_close(*scan) }
}

pub fn rank_row(scan: &Rank, row: &[u16], stores: Counting, out: &mut [i32]) -> Answer<Rank> {
    unsafe {
        strip_rank_row(
            *scan,
            lent(row),
            row.len(),
            lent_mut(stores.samples),
            stores.samples.len(),
            lent_mut(stores.counts),
            stores.counts.len(),
            lent_mut(stores.windows),
            stores.windows.len(),
            lent_mut(out),
            out.len(),
        )
    }
}

pub fn rank_step(scan: &Rank, stores: Counting, out: &mut [i32]) -> Answer<Rank> {
    unsafe {
        strip_rank_step(
            *scan,
            lent_mut(stores.samples),
            stores.samples.len(),
            lent_mut(stores.counts),
            stores.counts.len(),
            lent_mut(stores.windows),
            stores.windows.len(),
            lent_mut(out),
            out.len(),
        )
    }
}
