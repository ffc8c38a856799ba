//! The fitter's programs: tables to text and back, texts at fault, files that are refused, and choices of drops.

use std::fs;
use std::io::Write;
use std::path::{Path, PathBuf};
use std::process::{id, Command, Stdio};

use crate::choices;
use crate::ffi::{Rect, Table};
use crate::gen;
use crate::rng::Rng;
use crate::table;
use crate::tally::{holds, same, Outcome, Tally};
use crate::text::{self, Refusal};

const STDIN: &str = "standard input";

/// What a program wrote to standard output and to standard error.
#[derive(Debug, PartialEq)]
struct Wrote {
    out: Vec<u8>,
    err: String,
}

/// Nothing but a message.
fn only(err: String) -> Wrote {
    Wrote {
        out: Vec::new(),
        err,
    }
}

fn run(program: &str, words: &[&str], input: &[u8]) -> Result<Wrote, String> {
    let path = Path::new(env!("CARGO_MANIFEST_DIR")).join("../build/bin");
    let mut child = Command::new(path.join(program))
        .args(words)
        .stdin(Stdio::piped())
        .stdout(Stdio::piped())
        .stderr(Stdio::piped())
        .spawn()
        .map_err(|wrong| format!("{program}: {wrong}"))?;
    // A program that has read enough may be gone before all is written.
    let mut pipe = child.stdin.take().expect("a pipe");
    let _ = pipe.write_all(input);
    drop(pipe);
    let done = child.wait_with_output();
    let done = done.map_err(|wrong| format!("{program}: {wrong}"))?;
    Ok(Wrote {
        out: done.stdout,
        err: String::from_utf8_lossy(&done.stderr).into_owned(),
    })
}

/// A table that loading accepts, shown, read again and written.
pub fn there_and_back(rng: &mut Rng, tally: &mut Tally, _: u64) -> Outcome {
    let table = gen::clean_table(rng);
    let bytes = table::file_of(&table);
    let told = |wrong: String| format!("file {bytes:02x?}: {wrong}");
    let shown = run("showtable", &[], &bytes)?;
    let rules = Wrote {
        out: text::text_of(&table).into_bytes(),
        err: String::new(),
    };
    same("showtable", &shown, &rules).map_err(told)?;
    let made = run("maketable", &[], &shown.out)?;
    let again = Wrote {
        out: bytes.clone(),
        err: String::new(),
    };
    same("maketable", &made, &again).map_err(told)?;
    tally.saw("desk: there and back");
    tally.answered("maketable", 0);
    Ok(())
}

/// A file that is refused, or that question 10 alone refuses.
pub fn refused(rng: &mut Rng, tally: &mut Tally, _: u64) -> Outcome {
    let mut bad = gen::bad_table(rng);
    bad.count = bad.count.min(16);
    let mut bytes = table::file_of(&bad);
    match rng.below(5) {
        0 => bytes.truncate(rng.below(bytes.len())),
        1 => bytes.extend([2, 0, 6, 1, 1, 0, 0, 0, 1].iter().take(rng.below(9) + 1)),
        2 => bytes[rng.below(9)] = rng.next() as u8,
        _ => {}
    }
    let told = |wrong: String| format!("file {bytes:02x?}: {wrong}");
    let rules = match text::show(&bytes) {
        Ok(text) => Wrote {
            out: text.into_bytes(),
            err: String::new(),
        },
        Err(number) => {
            tally.answered("showtable", number);
            only(text::message(STDIN, Refusal { number, line: 0 }))
        }
    };
    let shown = run("showtable", &[], &bytes)?;
    same("showtable", &shown, &rules).map_err(told)?;
    if table::load(&bytes) == Err(10) {
        tally.answered("showtable", 10);
        let made = run("maketable", &[], &shown.out)?;
        let refusal = Refusal {
            number: 10,
            line: 0,
        };
        same("maketable", &made, &only(text::message(STDIN, refusal))).map_err(told)?;
    }
    Ok(())
}

/// A rectangle's line whose numbers may be of any size.
fn rect_line(rng: &mut Rng) -> String {
    let Rect {
        leadrow,
        leadcol,
        trailrow,
        trailcol,
        weight,
    } = gen::rect(rng);
    let mut numbers = [leadrow, leadcol, trailrow, trailcol].map(|edge| edge.to_string());
    if rng.one_in(2) {
        let odd = [
            "16",
            "-16",
            "-17",
            "15",
            "-129",
            "128",
            "272",
            "-240",
            "99999999999999999999",
            "-0",
            "007",
            "-00000000000000000000001",
        ];
        numbers[rng.below(4)] = rng.pick(&odd).to_string();
    }
    let weight = match rng.below(6) {
        0 => rng
            .pick(&[
                "32767",
                "-32768",
                "32768",
                "-32769",
                "65537",
                "-65536",
                "18446744073709551617",
            ])
            .to_string(),
        _ => weight.to_string(),
    };
    let [a, b, c, d] = numbers;
    format!("rectangle lead {a} {b} trail {c} {d} weight {weight}")
}

/// A header's line, often at a limit.
fn head_line(rng: &mut Rng) -> String {
    let number = |rng: &mut Rng| {
        rng.pick(&[
            "0",
            "1",
            "8",
            "9",
            "12",
            "13",
            "31",
            "32",
            "33",
            "007",
            "256",
            "264",
            "4294967297",
            "-1",
        ])
    };
    match rng.below(4) {
        0 => format!("bits {}", number(rng)),
        1 => format!("drops {} {} {}", number(rng), number(rng), number(rng)),
        2 => format!("shift {}", number(rng)),
        _ => format!("word {}", number(rng)),
    }
}

/// A word of a line taken out, doubled, changed or put elsewhere.
fn spoil(rng: &mut Rng, line: &mut String) {
    let mut words: Vec<String> = line.split(' ').map(String::from).collect();
    let at = rng.below(words.len());
    let odd = [
        "bits",
        "lead",
        "+1",
        "-",
        "--1",
        "1x",
        "0x1",
        "rectangles",
        "Bits",
        "1.0",
        "ramp",
        "\u{b}",
        "n",
    ];
    match rng.below(6) {
        0 => drop(words.remove(at)),
        1 => words.insert(at, words[at].clone()),
        2 => words[at] = rng.pick(&odd).to_string(),
        3 => words.push(rng.pick(&odd).to_string()),
        4 => words.truncate(at),
        _ => words.swap(0, at),
    }
    *line = words.join(" ");
}

/// What changes no meaning: gaps, comments, carriage returns, blank lines.
fn dress(rng: &mut Rng, lines: &mut Vec<String>) {
    for line in lines.iter_mut() {
        match rng.below(8) {
            0 => *line = line.replace(' ', "  "),
            1 => *line = format!(" \t{}", line.replace(' ', "\t")),
            2 => line.push_str("\r"),
            3 => line.push_str("# bits 9 # word"),
            4 => line.push_str(" #"),
            _ => {}
        }
    }
    for _ in 0..rng.below(3) {
        let at = rng.below(lines.len() + 1);
        lines.insert(
            at,
            rng.pick(&["", "#", "   ", "# bits 3", "\t\r"]).to_string(),
        );
    }
}

/// The lines of a table that may be refused, in any order of the header.
fn lines(rng: &mut Rng) -> Vec<String> {
    let mut table = if rng.one_in(3) {
        gen::bad_table(rng)
    } else {
        gen::clean_table(rng)
    };
    table.count = table.count.min(16);
    let mut lines: Vec<String> = text::text_of(&table).lines().map(String::from).collect();
    if rng.one_in(6) {
        let more = (14 + rng.below(5)).max(table.count) - table.count;
        lines.extend((0..more).map(|_| rect_line(rng)));
    }
    let count = lines.len();
    match rng.below(8) {
        0 => drop(lines.remove(rng.below(4))),
        1 => lines[rng.below(4)] = head_line(rng),
        2 => lines.push(head_line(rng)),
        3 if count > 4 => lines[4 + rng.below(count - 4)] = rect_line(rng),
        4 => lines.truncate(rng.below(6)),
        _ => {}
    }
    if rng.one_in(3) {
        gen::shuffle(rng, &mut lines);
    }
    lines
}

/// A text with faults or without.
fn any_text(rng: &mut Rng) -> Vec<u8> {
    let mut lines = lines(rng);
    if rng.one_in(3) && !lines.is_empty() {
        let k = rng.below(lines.len());
        spoil(rng, &mut lines[k]);
    }
    if rng.one_in(2) {
        dress(rng, &mut lines);
    }
    let mut text = lines.join("\n").into_bytes();
    if !rng.one_in(4) {
        text.push(b'\n');
    }
    if rng.one_in(10) && !text.is_empty() {
        let at = rng.below(text.len());
        text[at] = rng.pick(&[0, b'\n', b' ', b'#', b'-', b'0', b'\r', 255]);
    }
    if rng.one_in(40) {
        let length = rng.pick(&[
            text::MOST - 1,
            text::MOST,
            text::MOST + 1,
            text::MOST + 2,
            80_000,
        ]);
        text.insert(0, b'\n');
        let missing = length.saturating_sub(text.len());
        text.splice(0..0, vec![rng.pick(&[b'#', b'\n', b' ']); missing]);
    }
    text
}

/// Texts with faults and without, beside the rules.
pub fn texts(rng: &mut Rng, tally: &mut Tally, _: u64) -> Outcome {
    let text = any_text(rng);
    let told = |wrong: String| {
        let start = String::from_utf8_lossy(&text[..text.len().min(2000)]).into_owned();
        format!("text of {} bytes\n{start}\n{wrong}", text.len())
    };
    let made = run("maketable", &[], &text)?;
    match text::make(&text) {
        Ok(bytes) => {
            tally.answered("maketable", 0);
            tally.saw_if(
                "desk: header after rectangles",
                text.starts_with(b"rectangle"),
            );
            let rules = Wrote {
                out: bytes,
                err: String::new(),
            };
            same("maketable", &made, &rules).map_err(told)
        }
        Err(refusal) => {
            tally.answered("maketable", refusal.number);
            same("maketable", &made, &only(text::message(STDIN, refusal))).map_err(told)
        }
    }
}

/// The file of a case of drops.
fn path_of() -> PathBuf {
    std::env::temp_dir().join(format!("strip-outside-{}.table", id()))
}

/// A table whose drops are to be chosen; often with small weights, so that many choices pass.
fn to_choose(rng: &mut Rng) -> Table {
    loop {
        let mut table = gen::clean_table(rng);
        if rng.one_in(2) {
            table.w = 32;
        }
        if table::accepted(&table) {
            return table;
        }
    }
}

/// The choices of drops, beside the rules.
pub fn drops(rng: &mut Rng, tally: &mut Tally, _: u64) -> Outcome {
    let table = to_choose(rng);
    let bytes = table::file_of(&table);
    let told = |wrong: String| format!("file {bytes:02x?}: {wrong}");
    let path = path_of();
    fs::write(&path, &bytes).map_err(|wrong| wrong.to_string())?;
    let name = path.to_str().expect("a name in UTF-8");
    let most = rng.pick(&[0, 1, 3, 20, 100, 5000, 65_535, 1 << 20, 1 << 40]);
    let width = rng.pick(&[1, 2, 31, 512, 1023, 1024]);
    let (most_word, width_word) = (most.to_string(), width.to_string());
    let (words, (count, text)) = match rng.below(3) {
        0 => (vec![name], choices::list(&table, None, 1024)),
        1 => (
            vec![name, &most_word],
            choices::list(&table, Some(most), 1024),
        ),
        _ => (
            vec![name, &most_word, &width_word],
            choices::list(&table, Some(most), width),
        ),
    };
    let listed = run("drops", &words, &[]);
    fs::remove_file(&path).map_err(|wrong| wrong.to_string())?;
    let rules = Wrote {
        out: text.into_bytes(),
        err: String::new(),
    };
    same("drops", &listed?, &rules).map_err(told)?;
    // Without drops no pixel is off.
    holds("one choice at least", count > 0)?;
    tally.saw_if("desk: drops within a bound", words.len() == 2);
    tally.saw_if("desk: drops at a width", words.len() == 3);
    tally.saw_if("desk: ten choices or more", count >= 10);
    tally.saw_if("desk: one choice", count == 1);
    Ok(())
}
