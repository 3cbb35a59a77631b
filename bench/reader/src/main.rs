//! A plain reader of image text: what an engineer would write who proves nothing. It reads the text on standard input
//! as `acpiset` does, with the same refusals, and prints how much it holds. `reader --one-run` and `reader --rows-alone`
//! are models of reading a text that is one run, and refuse all others.

mod one_run;

use one_run::{read_one_run, LineFeed};
use std::fmt;
use std::io::{self, Read};
use std::process::ExitCode;

/// The most bytes of a text.
const MOST_TEXT: usize = 64 << 20;

/// The most bytes of a line, its CR counted and its LF not.
const MOST_LINE: usize = 64 << 10;

enum Refusal {
    BadLine(usize),
    NoAddress(usize),
    NotARow(usize),
    Twice(u64),
    PastEnd(usize),
    TooLong,
    Device,
    Option,
}

impl fmt::Display for Refusal {
    fn fmt(&self, out: &mut fmt::Formatter) -> fmt::Result {
        match self {
            Refusal::BadLine(line) => write!(out, "line {line}: bad line"),
            Refusal::NoAddress(line) => write!(out, "line {line}: no address"),
            Refusal::NotARow(line) => write!(out, "line {line}: not a row of 16 pairs"),
            Refusal::Twice(address) => write!(out, "address {address:#x} twice"),
            Refusal::PastEnd(line) => write!(out, "line {line}: past the end"),
            Refusal::TooLong => write!(out, "too long"),
            Refusal::Device => write!(out, "device"),
            Refusal::Option => write!(out, "usage: reader [--one-run | --rows-alone]"),
        }
    }
}

/// The bytes in the order of their addresses, and where each run begins: its address, and its place among the bytes.
#[derive(Default)]
struct Image {
    bytes: Vec<u8>,
    runs: Vec<(u64, usize)>,
}

impl Image {
    /// Appends bytes after all others. On an `Err` the address is present already.
    fn append(&mut self, base: u64, bytes: &[u8]) -> Result<(), u64> {
        let end = self.runs.last().map(|(base, start)| *base as u128 + (self.bytes.len() - start) as u128);
        match end {
            Some(end) if end > base as u128 => return Err(base),
            Some(end) if end == base as u128 => {}
            _ => self.runs.push((base, self.bytes.len())),
        }
        self.bytes.extend_from_slice(bytes);
        Ok(())
    }
}

/// Rows in the order in which they come, which are sorted at the end: what is there twice is found only then.
#[derive(Default)]
struct Rows {
    bytes: Vec<u8>,
    /// Address, place among the bytes, length.
    rows: Vec<(u64, usize, usize)>,
}

impl Rows {
    fn add(&mut self, base: u64, bytes: &[u8]) {
        match self.rows.last_mut() {
            Some((last, _, length)) if *last as u128 + *length as u128 == base as u128 => *length += bytes.len(),
            _ => self.rows.push((base, self.bytes.len(), bytes.len())),
        }
        self.bytes.extend_from_slice(bytes);
    }

    /// The image. On an `Err` an address is there twice.
    fn finish(mut self) -> Result<Image, u64> {
        if let [(base, 0, _)] = self.rows[..] {
            return Ok(Image { bytes: self.bytes, runs: vec![(base, 0)] });
        }
        self.rows.sort_unstable_by_key(|(base, ..)| *base);
        let mut image = Image { bytes: Vec::with_capacity(self.bytes.len()), runs: Vec::new() };
        for (base, start, length) in self.rows {
            image.append(base, &self.bytes[start..start + length])?;
        }
        Ok(image)
    }
}

/// What a line says.
enum Line {
    Blank,
    Address(u64),
    Data,
}

fn is_blank(byte: &u8) -> bool {
    matches!(byte, b' ' | b'\t')
}

fn digit(byte: u8) -> Option<u8> {
    match byte {
        b'0'..=b'9' => Some(byte - b'0'),
        b'a'..=b'f' => Some(byte - b'a' + 10),
        b'A'..=b'F' => Some(byte - b'A' + 10),
        _ => None,
    }
}

fn parse_address(text: &[u8]) -> Option<u64> {
    let length = text.iter().take_while(|byte| !is_blank(byte)).count();
    if !(1..=16).contains(&length) || !text[length..].iter().all(is_blank) {
        return None;
    }
    text[..length].iter().try_fold(0, |value, byte| Some(value << 4 | u64::from(digit(*byte)?)))
}

/// Reads pairs of digits into `bytes`, in place of what it had.
fn parse_data(text: &[u8], bytes: &mut Vec<u8>) -> Option<()> {
    bytes.clear();
    let mut rest = text;
    loop {
        match *rest {
            [] => return Some(()),
            [b' ' | b'\t', ..] => rest = &rest[1..],
            [high, low, ..] => {
                bytes.push(digit(high)? << 4 | digit(low)?);
                rest = &rest[2..];
            }
            _ => return None,
        }
    }
}

/// Reads one line without its LF. The bytes of a data line go into `bytes`.
fn parse_line(line: &[u8], bytes: &mut Vec<u8>) -> Option<Line> {
    let line = line.strip_suffix(b"\r").unwrap_or(line);
    let line = line.split(|byte| *byte == b'#').next()?;
    let line = &line[line.iter().take_while(|byte| is_blank(byte)).count()..];
    match line {
        [] => Some(Line::Blank),
        [b'@', address @ ..] => parse_address(address).map(Line::Address),
        _ => parse_data(line, bytes).map(|()| Line::Data),
    }
}

fn read_image(text: &[u8]) -> Result<Image, Refusal> {
    let mut rows = Rows::default();
    let mut bytes = Vec::new();
    let mut next = None;
    let mut through = 0;
    for (index, line) in text.split(|byte| *byte == b'\n').enumerate() {
        let number = index + 1;
        through += line.len() + 1;
        if line.len() > MOST_LINE || through.min(text.len()) > MOST_TEXT {
            return Err(Refusal::TooLong);
        }
        match parse_line(line, &mut bytes).ok_or(Refusal::BadLine(number))? {
            Line::Blank => {}
            Line::Address(address) => next = Some(address as u128),
            Line::Data => {
                let end = next.ok_or(Refusal::NoAddress(number))? + bytes.len() as u128;
                if end > 1 << 64 {
                    return Err(Refusal::PastEnd(number));
                }
                let base = (end - bytes.len() as u128) as u64;
                rows.add(base, &bytes);
                next = Some(end);
            }
        }
    }
    rows.finish().map_err(Refusal::Twice)
}

fn whole_text(input: impl Read) -> Result<Vec<u8>, Refusal> {
    let mut text = Vec::new();
    input.take(MOST_TEXT as u64 + 1).read_to_end(&mut text).map_err(|_| Refusal::Device)?;
    Ok(text)
}

fn run() -> Result<Image, Refusal> {
    let input = io::stdin().lock();
    match std::env::args().nth(1).as_deref() {
        None => read_image(&whole_text(input)?),
        Some("--one-run") => read_one_run(input, LineFeed::Searched),
        Some("--rows-alone") => read_one_run(input, LineFeed::Expected),
        Some(_) => Err(Refusal::Option),
    }
}

fn main() -> ExitCode {
    match run() {
        Ok(image) => {
            println!("{} runs, {} bytes", image.runs.len(), image.bytes.len());
            ExitCode::SUCCESS
        }
        Err(refusal) => {
            eprintln!("reader: {refusal}");
            ExitCode::from(3)
        }
    }
}
