//! What the cases met: how often each call answered each number, and which situations came up.

use std::collections::BTreeMap;
use std::fmt::{Debug, Display};

/// A case ends well, or with what was wrong.
pub type Outcome = Result<(), String>;

/// The numbers that each call can answer, 0 being acceptance; every one has to be met.
const NUMBERS: [(&str, &[u32]); 16] = [
    ("check", &[0, 1, 2, 3, 4, 5, 6, 7, 8, 9, 10]),
    ("load", &[0, 1, 2, 3, 4, 5, 6, 7, 8, 9, 10]),
    ("write", &[0, 11, 13]),
    ("start", &[0, 11, 12, 13]),
    ("row", &[0, 14, 15, 16, 17, 13, 18, 19]),
    ("rows", &[0, 14, 15, 21, 13, 16, 18, 19]),
    ("close", &[0, 14, 15]),
    ("step", &[0, 14, 15, 13, 19]),
    ("pixel", &[0, 11, 12, 17, 20, 18]),
    ("same", &[0, 11, 24, 25, 13]),
    ("rank start", &[0, 3, 23, 8, 22, 12, 13]),
    ("rank row", &[0, 14, 15, 16, 17, 13, 18, 19]),
    ("rank close", &[0, 14, 15]),
    ("rank step", &[0, 14, 15, 13, 19]),
    ("showtable", &[1, 2, 3, 4, 5, 6, 7, 8, 9, 10]),
    (
        "maketable",
        &[
            0, 3, 4, 5, 6, 8, 9, 10, 101, 102, 103, 104, 105, 106, 107, 108, 109, 110, 111, 112,
            113,
        ],
    ),
];

/// The last refusal that the rules have.
const LAST: u32 = 25;

/// Situations that have to come up.
const SIGHTS: &[&str] = &[
    "10 just passed",
    "10 just missed",
    "10 only by the old rule",
    "grid: 10 just passed, high",
    "grid: 10 just passed, low",
    "grid: 10 just missed, high",
    "grid: 10 just missed, low",
    "grid: pixel at the top of the word",
    "grid: pixel at the bottom of the word",
    "grid: peak past the word",
    "drops keep the old rule",
    "q1 alone keeps the old rule",
    "q2 alone keeps the old rule",
    "q3 alone keeps the old rule",
    "sixteen rectangles loaded",
    "7 after sixteen",
    "6 after sixteen",
    "mark cut off after sixteen",
    "several faults in one file",
    "file written back",
    "output longer than the file",
    "table of one count too many",
    "row out",
    "waiting",
    "step: row out",
    "step: waiting",
    "step: done",
    "done with short stores",
    "13 while waiting",
    "drops",
    "negative lead",
    "both signs of weight",
    "width 1",
    "width 1024",
    "no rows",
    "fewer rows than D",
    "ring gone round",
    "refused in the middle",
    "whole scan by the pixel call",
    "altered, 19",
    "altered, no 19",
    "19 at a later rectangle",
    "19 just passed",
    "19 just missed",
    "19 place K in a row",
    "19 place K in a step",
    "19 place K in a burst",
    "19 place K behind waiting",
    "19 place K behind rows out",
    "19 place K passes while waiting",
    "19 place K just passed, high",
    "19 place K just passed, low",
    "19 place K just missed, high",
    "19 place K just missed, low",
    "19 place K of one pixel",
    "19 place K at the last column",
    "19 place K past 32 bits",
    "sum near 2^32",
    "old state again",
    "arrival past 65535",
    "65535 rows given",
    "burst of no rows",
    "burst whole",
    "burst refused in the middle",
    "burst packed behind waiting",
    "burst too long for its output",
    "dead at column 0",
    "run of dead",
    "dead row",
    "dead before the rectangle",
    "65,535 in the store",
    "burst with dead across rows",
    "same: cut another way",
    "same: differs at (-15, -15)",
    "same: differs at (15, 15)",
    "same: 11 of the first",
    "same: 11 of the second",
    "same: 24 by b",
    "same: 24 by t",
    "same: 24 by w",
    "same: 25 by the first",
    "same: 25 by the second",
    "same: 13 though they do the same",
    "same: spot through the pixel call",
    "same: equal pixels, other values",
    "ranked: R or more inside",
    "ranked: fewer than R inside",
    "ranked: none inside",
    "ranked: closing row leaves",
    "ranked: same level leaves and enters",
    "ranked: count at M",
    "ranked: count M + 1 leaves",
    "ranked: dirty windows",
    "ranked: counts above 2^b kept",
    "ranked: 19 with both rows passed over",
    "ranked: 19 at the last column",
    "ranked: 19, same level at count 0",
    "ranked: 19, 65535 and one more",
    "ranked: 19, 65535 kept",
    "ranked: 19, 2^b kept",
    "ranked: altered, no 19",
    "ranked: total past 16 bits",
    "ranked: all ranks of a window",
    "ranked: every place by sorting",
    "ranked: dead element",
    "ranked: old state again",
    "ranked: arrival past 65535",
    "ranked: 65535 rows given",
    "ranked: window left of the pixel",
    "ranked: window right of the pixel",
    "ranked: window above the pixel",
    "ranked: window below the pixel",
    "ranked: width 1",
    "ranked: width 1024",
    "ranked: no rows",
    "ranked: fewer rows than D",
    "ranked: ring gone round",
    "ranked: refused in the middle",
    "ranked: refused start before",
    "ranked: another scan before",
    "ranked: 13 while waiting",
    "ranked: done",
    "ranked: done with short stores",
    "desk: there and back",
    "desk: header after rectangles",
    "desk: drops within a bound",
    "desk: drops at a width",
    "desk: ten choices or more",
    "desk: one choice",
];

#[derive(Default)]
pub struct Tally {
    numbers: BTreeMap<(&'static str, u32), u64>,
    sights: BTreeMap<&'static str, u64>,
    delays: BTreeMap<u32, u64>,
    /// Of whole ranked scans: how many of each delay, and of each b.
    ranked: BTreeMap<u32, u64>,
    bits: BTreeMap<u8, u64>,
}

impl Tally {
    pub fn answered(&mut self, call: &'static str, number: u32) {
        *self.numbers.entry((call, number)).or_default() += 1;
    }

    pub fn saw(&mut self, what: &'static str) {
        *self.sights.entry(what).or_default() += 1;
    }

    pub fn saw_if(&mut self, what: &'static str, happened: bool) {
        if happened {
            self.saw(what);
        }
    }

    /// A scan with delay D was run to its end.
    pub fn ran(&mut self, d: u32) {
        *self.delays.entry(d).or_default() += 1;
    }

    /// A ranked scan with delay D and samples of b bits was run to its end.
    pub fn ran_ranked(&mut self, d: u32, b: u8) {
        *self.ranked.entry(d).or_default() += 1;
        *self.bits.entry(b).or_default() += 1;
    }

    /// How often a refusal was met over all calls.
    fn met(&self, number: u32) -> u64 {
        let of_number = self.numbers.iter().filter(|((_, n), _)| *n == number);
        of_number.map(|(_, times)| times).sum()
    }

    pub fn print(&self) {
        for (call, numbers) in NUMBERS {
            let times = |n: &u32| self.numbers.get(&(call, *n)).copied().unwrap_or(0);
            let list: Vec<String> = numbers
                .iter()
                .map(|n| format!("{n}: {}", times(n)))
                .collect();
            println!("{call:<10} answered {}", list.join(", "));
        }
        let list: Vec<String> = (1..=LAST)
            .map(|n| format!("{n}: {}", self.met(n)))
            .collect();
        println!("refusals {}", list.join(", "));
        for (what, times) in &self.sights {
            println!("{what:<37} {times}");
        }
        println!("whole scans by delay {}", listed(&self.delays));
        println!("whole ranked scans by delay {}", listed(&self.ranked));
        println!("whole ranked scans by b {}", listed(&self.bits));
    }

    /// What should have been met and was not.
    pub fn missing(&self) -> Vec<String> {
        let mut list = Vec::new();
        for (call, numbers) in NUMBERS {
            let absent = numbers
                .iter()
                .filter(|n| !self.numbers.contains_key(&(call, **n)));
            list.extend(absent.map(|n| format!("{call} never answered {n}")));
        }
        let absent = (1..=LAST).filter(|n| self.met(*n) == 0);
        list.extend(absent.map(|n| format!("refusal {n} never met")));
        let absent = SIGHTS.iter().filter(|s| !self.sights.contains_key(*s));
        list.extend(absent.map(|s| format!("never came up: {s}")));
        let absent = (0..=15).filter(|d| !self.delays.contains_key(d));
        list.extend(absent.map(|d| format!("no whole scan with delay {d}")));
        let absent = (0..=15).filter(|d| !self.ranked.contains_key(d));
        list.extend(absent.map(|d| format!("no whole ranked scan with delay {d}")));
        let absent = (1..=8).filter(|b| !self.bits.contains_key(b));
        list.extend(absent.map(|b| format!("no whole ranked scan with b = {b}")));
        list
    }
}

fn listed<K: Display>(times: &BTreeMap<K, u64>) -> String {
    let list: Vec<String> = times.iter().map(|(k, n)| format!("{k}: {n}")).collect();
    list.join(", ")
}

/// The library's answer has to be the rules'.
pub fn same<T: PartialEq + Debug + ?Sized>(what: &str, library: &T, rules: &T) -> Outcome {
    if library == rules {
        return Ok(());
    }
    Err(format!(
        "{what}\n  library: {library:?}\n  rules:   {rules:?}"
    ))
}

/// A fact that the case itself relies on.
pub fn holds(what: &str, fact: bool) -> Outcome {
    if fact {
        Ok(())
    } else {
        Err(format!("{what} does not hold"))
    }
}
