//! Models of reading one run: what an engineer would write in plain and portable Rust to read a text of an address,
//! and after it rows of 16 pairs of digits, as fast as possible. They read it in pieces, as `acpiset` does, append the
//! bytes to one vector, and refuse any other text.
//!
//! What they leave out: all other lines, rows at other addresses, a running sum for each 128 bytes, and judging tables.

use crate::{parse_address, Image, Refusal, MOST_TEXT};
use std::io::Read;

/// How many bytes of the text are read at once.
const PIECE: usize = 64 << 10;

/// How many bytes a row has in the text: 16 pairs, a blank after each but the last one, and a line feed at its end.
const ROW: usize = 48;

/// How the line feed of a row is found.
#[derive(Clone, Copy)]
pub enum LineFeed {
    /// By a search, as in `acpiset`, which does not know that the line is a row.
    Searched,
    /// It is looked for at the end of a row alone.
    Expected,
}

/// The digits, the letters in either case.
const DIGITS: &[u8; 22] = b"0123456789abcdefABCDEF";

/// The value of the digit at this place of `DIGITS`.
const fn value(place: usize) -> u16 {
    if place < 16 {
        place as u16
    } else {
        place as u16 - 6
    }
}

/// What `PAIRS` has for all other pairs; more than any byte.
const NO_PAIR: u16 = 256;

/// The place of a pair in `PAIRS`.
const fn pair(first: u8, second: u8) -> usize {
    u16::from_le_bytes([first, second]) as usize
}

const fn pairs() -> [u16; 1 << 16] {
    let mut pairs = [NO_PAIR; 1 << 16];
    let mut number = 0;
    while number < DIGITS.len() * DIGITS.len() {
        let (high, low) = (number / DIGITS.len(), number % DIGITS.len());
        pairs[pair(DIGITS[high], DIGITS[low])] = value(high) << 4 | value(low);
        number += 1;
    }
    pairs
}

/// The byte that each pair of digits spells. One look-up is faster than two for the digits. Texts with digits of one
/// case need some 3 KiB of it, which fit into the first cache.
static PAIRS: [u16; 1 << 16] = pairs();

/// The bytes of a row. All of it is read before it is judged, so there is one branch for a row and none for a digit.
fn bytes_of(row: &[u8; ROW]) -> Option<[u8; 16]> {
    let mut bytes = [0; 16];
    let mut all_pairs = 0;
    let mut wrong = row[ROW - 1] ^ b'\n';
    for (number, byte) in bytes.iter_mut().enumerate() {
        let spelt = PAIRS[pair(row[3 * number], row[3 * number + 1])];
        *byte = spelt as u8;
        all_pairs |= spelt;
        if number < 15 {
            wrong |= row[3 * number + 2] ^ b' ';
        }
    }
    (all_pairs < NO_PAIR && wrong == 0).then_some(bytes)
}

/// A word of which each byte is 1.
const ONES: u64 = u64::MAX / 255;

/// Where the first line feed is, searched for 8 bytes at a time. A line feed is a byte 0 of `differs`. The lowest byte
/// of `found` that is not 0 belongs to the first of them; bytes after that one may be wrong.
fn line_feed(text: &[u8]) -> Option<usize> {
    let mut rest = text;
    while let Some((word, after)) = rest.split_first_chunk() {
        let differs = u64::from_le_bytes(*word) ^ (ONES * u64::from(b'\n'));
        let found = differs.wrapping_sub(ONES) & !differs & (ONES << 7);
        if found != 0 {
            return Some(text.len() - rest.len() + found.trailing_zeros() as usize / 8);
        }
        rest = after;
    }
    let at = rest.iter().position(|byte| *byte == b'\n')?;
    Some(text.len() - rest.len() + at)
}

/// The rows that were read.
struct Rows {
    line_feed: LineFeed,
    bytes: Vec<u8>,
}

impl Rows {
    /// The number of the next line.
    fn line(&self) -> usize {
        2 + self.bytes.len() / 16
    }

    fn add(&mut self, row: &[u8; ROW]) -> Result<(), Refusal> {
        let bytes = bytes_of(row).ok_or(Refusal::NotARow(self.line()))?;
        self.bytes.extend_from_slice(&bytes);
        Ok(())
    }

    /// Reads all complete lines, and returns the rest.
    fn take_lines<'a>(&mut self, text: &'a [u8]) -> Result<&'a [u8], Refusal> {
        let mut rest = text;
        while let Some(at) = line_feed(rest) {
            let row = rest.split_first_chunk().filter(|_| at == ROW - 1);
            let (row, after) = row.ok_or(Refusal::NotARow(self.line()))?;
            self.add(row)?;
            rest = after;
        }
        Ok(rest)
    }

    /// The same without a search for line feeds.
    fn take_rows<'a>(&mut self, text: &'a [u8]) -> Result<&'a [u8], Refusal> {
        let mut rest = text;
        while let Some((row, after)) = rest.split_first_chunk() {
            self.add(row)?;
            rest = after;
        }
        Ok(rest)
    }

    fn take<'a>(&mut self, text: &'a [u8]) -> Result<&'a [u8], Refusal> {
        match self.line_feed {
            LineFeed::Searched => self.take_lines(text),
            LineFeed::Expected => self.take_rows(text),
        }
    }
}

/// A text that is read in pieces.
struct Source<R> {
    input: R,
    buffer: Vec<u8>,
    /// How many bytes of the buffer are text that was not taken yet.
    filled: usize,
    /// How many bytes of the text were read.
    through: usize,
}

impl<R: Read> Source<R> {
    fn new(input: R) -> Self {
        Source { input, buffer: vec![0; PIECE], filled: 0, through: 0 }
    }

    /// Reads the next piece. False at the end of the text, and if the buffer has no room, since no line is that long.
    fn read(&mut self) -> Result<bool, Refusal> {
        let count = self.input.read(&mut self.buffer[self.filled..]).map_err(|_| Refusal::Device)?;
        self.filled += count;
        self.through += count;
        if self.through > MOST_TEXT {
            return Err(Refusal::TooLong);
        }
        Ok(count > 0)
    }

    fn text(&self) -> &[u8] {
        &self.buffer[..self.filled]
    }

    /// Takes all but this many bytes.
    fn keep(&mut self, count: usize) {
        self.buffer.copy_within(self.filled - count..self.filled, 0);
        self.filled = count;
    }
}

/// Reads the first line, which is an address.
fn read_address<R: Read>(source: &mut Source<R>) -> Result<u64, Refusal> {
    while line_feed(source.text()).is_none() && source.read()? {}
    let at = line_feed(source.text()).ok_or(Refusal::NoAddress(1))?;
    let address = source.text()[..at].strip_prefix(b"@").ok_or(Refusal::NoAddress(1))?;
    let base = parse_address(address).ok_or(Refusal::BadLine(1))?;
    source.keep(source.filled - at - 1);
    Ok(base)
}

/// Reads a text that is one run.
pub fn read_one_run(input: impl Read, line_feed: LineFeed) -> Result<Image, Refusal> {
    let mut source = Source::new(input);
    let base = read_address(&mut source)?;
    let mut rows = Rows { line_feed, bytes: Vec::new() };
    loop {
        let left = rows.take(source.text())?.len();
        source.keep(left);
        if !source.read()? {
            break;
        }
    }
    if source.filled > 0 || rows.bytes.is_empty() {
        return Err(Refusal::NotARow(rows.line()));
    }
    if base as u128 + rows.bytes.len() as u128 > 1 << 64 {
        return Err(Refusal::PastEnd(rows.line() - 1));
    }
    Ok(Image { bytes: rows.bytes, runs: vec![(base, 0)] })
}
