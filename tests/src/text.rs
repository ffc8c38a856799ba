//! Tables as text (docs/RULES.md, section 10): a text read, with its own faults and the rules' questions, and a table shown.

use crate::ffi::{Rect, Table};
use crate::table::{self, edges_good, rects, MOST_RECTS};

/// The longest text.
pub const MOST: usize = 65_535;

/// A refusal: its number, and the line from 1 on that is to blame, or 0.
#[derive(Clone, Copy, Debug, PartialEq)]
pub struct Refusal {
    pub number: u32,
    pub line: usize,
}

/// The header's lines and how many numbers each has.
const HEADS: [(&[u8], usize); 4] = [(b"bits", 1), (b"drops", 3), (b"shift", 1), (b"word", 1)];

/// The words of a refusal.
pub fn words(number: u32) -> &'static str {
    match number {
        1 => "the file does not begin with the header 01 00 06",
        2 => "a field is cut off",
        3 => "b is not from 1 to 12",
        4 => "q1 is not below b, or q2 or q3 is above 8",
        5 => "t is above 31, or w is not from 8 to 32",
        6 => "there are more than 16 rectangles",
        7 => "a field does not begin with 02 00 06",
        8 => "a lead is not from -15 to 15, a trail not from -16 to 14, or a trail is not below its lead",
        9 => "there is no rectangle",
        10 => "the largest or the smallest pixel does not fit w bits",
        101 => "the line begins with none of bits, drops, shift, word, rectangle",
        102 => "the line is not of the form: bits B",
        103 => "the line is not of the form: drops Q1 Q2 Q3",
        104 => "the line is not of the form: shift T",
        105 => "the line is not of the form: word W",
        106 => "the line is not of the form: rectangle lead ROW COLUMN trail ROW COLUMN weight WEIGHT",
        107 => "the weight is not from -32768 to 32767",
        108 => "an earlier line has said this",
        109 => "there is no line that begins with bits",
        110 => "there is no line that begins with drops",
        111 => "there is no line that begins with shift",
        112 => "there is no line that begins with word",
        113 => "the text is longer than 65535 bytes",
        _ => "",
    }
}

/// The message of a program about what it was given under this name.
pub fn message(name: &str, refusal: Refusal) -> String {
    let Refusal { number, line } = refusal;
    let place = if line == 0 {
        String::new()
    } else {
        format!("line {line}: ")
    };
    let refused = if number < 100 {
        format!("refused, {number}: ")
    } else {
        String::new()
    };
    format!("{name}: {place}{refused}{}\n", words(number))
}

/// A number without a sign; 1,000,000 stands for whatever is larger.
fn natural(word: &[u8]) -> Option<i64> {
    let digits = !word.is_empty() && word.iter().all(u8::is_ascii_digit);
    let next = |n: i64, digit: &u8| (n * 10 + i64::from(digit - b'0')).min(1_000_000);
    digits.then(|| word.iter().fold(0, next))
}

fn integer(word: &[u8]) -> Option<i64> {
    match word.strip_prefix(b"-") {
        Some(rest) => natural(rest).map(|n| -n),
        None => natural(word),
    }
}

/// A rectangle as a line says it, of any size.
struct Wide {
    edges: [i64; 4],
    weight: i16,
}

impl Wide {
    /// Question 8.
    fn good(&self) -> bool {
        let byte = |k: usize| self.edges[k].clamp(-128, 127) as i8;
        edges_good(byte(0), byte(2)) && edges_good(byte(1), byte(3))
    }

    fn rect(&self) -> Rect {
        let [leadrow, leadcol, trailrow, trailcol] = self.edges.map(|edge| edge as i8);
        Rect {
            leadrow,
            leadcol,
            trailrow,
            trailcol,
            weight: self.weight,
        }
    }
}

fn rectangle(words: &[&[u8]]) -> Result<Wide, u32> {
    let &[b"rectangle", b"lead", a, b, b"trail", c, d, b"weight", w] = words else {
        return Err(106);
    };
    let number = |word| integer(word).ok_or(106u32);
    let edges = [number(a)?, number(b)?, number(c)?, number(d)?];
    let weight = i16::try_from(number(w)?).map_err(|_| 107u32)?;
    Ok(Wide { edges, weight })
}

/// What the lines say, each with its number.
#[derive(Default)]
struct Draft {
    heads: [Vec<(usize, Vec<i64>)>; 4],
    rects: Vec<(usize, Wide)>,
}

impl Draft {
    fn read(&mut self, line: usize, words: &[&[u8]]) -> Result<(), u32> {
        let Some(first) = words.first() else {
            return Ok(());
        };
        if *first == b"rectangle" {
            self.rects.push((line, rectangle(words)?));
            return Ok(());
        }
        let kind = HEADS.iter().position(|(head, _)| head == first);
        let kind = kind.ok_or(101u32)?;
        let numbers: Option<Vec<i64>> = words[1..].iter().map(|word| natural(word)).collect();
        let numbers = numbers.filter(|list| list.len() == HEADS[kind].1);
        let numbers = numbers.ok_or(102 + kind as u32)?;
        self.heads[kind].push((line, numbers));
        Ok(())
    }

    /// The line of a header's line and its numbers.
    fn head(&self, kind: usize) -> Result<(usize, &[i64]), Refusal> {
        match self.heads[kind].as_slice() {
            [] => Err(Refusal {
                number: 109 + kind as u32,
                line: 0,
            }),
            [(line, numbers)] => Ok((*line, numbers)),
            [_, (line, _), ..] => Err(Refusal {
                number: 108,
                line: *line,
            }),
        }
    }

    /// Questions 3, 4 and 5, each with the line to blame.
    fn header(&self) -> Result<Table, Refusal> {
        let (bits, b) = self.head(0)?;
        let (drops, q) = self.head(1)?;
        let (shift, t) = self.head(2)?;
        let (word, w) = self.head(3)?;
        let ask = |number, line, good: bool| good.then_some(()).ok_or(Refusal { number, line });
        ask(3, bits, (1..=12).contains(&b[0]))?;
        ask(4, drops, q[0] < b[0] && q[1] <= 8 && q[2] <= 8)?;
        ask(5, shift, t[0] <= 31)?;
        ask(5, word, (8..=32).contains(&w[0]))?;
        Ok(Table {
            b: b[0] as u8,
            q1: q[0] as u8,
            q2: q[1] as u8,
            q3: q[2] as u8,
            t: t[0] as u8,
            w: w[0] as u8,
            ..Table::default()
        })
    }
}

/// The words of a line.
fn split(line: &[u8]) -> Vec<&[u8]> {
    let said = line.split(|byte| *byte == b'#').next().unwrap_or_default();
    let pieces = said.split(|byte| b" \t\r".contains(byte));
    pieces.filter(|word| !word.is_empty()).collect()
}

/// The file of the table that a text says, or its refusal.
pub fn make(text: &[u8]) -> Result<Vec<u8>, Refusal> {
    let refused = |number, line| Err(Refusal { number, line });
    if text.len() > MOST {
        return refused(113, 0);
    }
    let mut draft = Draft::default();
    for (k, line) in text.split(|byte| *byte == b'\n').enumerate() {
        if let Err(number) = draft.read(k + 1, &split(line)) {
            return refused(number, k + 1);
        }
    }
    let mut table = draft.header()?;
    for (line, wide) in &draft.rects {
        if table.count == MOST_RECTS {
            return refused(6, *line);
        }
        if !wide.good() {
            return refused(8, *line);
        }
        table.rects[table.count] = wide.rect();
        table.count += 1;
    }
    let bytes = table::file_of(&table);
    match table::load(&bytes) {
        Ok(_) => Ok(bytes),
        Err(number) => refused(number, 0),
    }
}

/// The text of a table.
pub fn text_of(table: &Table) -> String {
    let Table {
        b,
        q1,
        q2,
        q3,
        t,
        w,
        ..
    } = table;
    let mut text = format!("bits {b}\ndrops {q1} {q2} {q3}\nshift {t}\nword {w}\n");
    for rect in rects(table) {
        let Rect {
            leadrow,
            leadcol,
            trailrow,
            trailcol,
            weight,
        } = rect;
        let line = format!(
            "rectangle lead {leadrow} {leadcol} trail {trailrow} {trailcol} weight {weight}\n"
        );
        text.push_str(&line);
    }
    text
}

/// What is shown of a file, or the number that refuses it.
pub fn show(bytes: &[u8]) -> Result<String, u32> {
    let table = table::parse(bytes)?;
    let mut text = text_of(&table);
    if let Err(number) = table::load(bytes) {
        text.push_str(&format!("# refused, {number}: {}\n", words(number)));
    }
    Ok(text)
}
