//! Images of tests/images, as pieces.

// Each test has its own part of these in use.
#![allow(dead_code)]

use acpiset::Piece;
use std::fs::read_to_string;

/// Pieces that own their bytes, so that a test can change them.
#[derive(Clone)]
pub struct Image(pub Vec<(u64, Vec<u8>)>);

/// The text of an image of the repository.
pub fn text(name: &str) -> String {
    let path = format!(
        "{}/../../tests/images/{name}.img.txt",
        env!("CARGO_MANIFEST_DIR")
    );
    read_to_string(&path).unwrap_or_else(|error| panic!("{path}: {error}"))
}

impl Image {
    /// The image of a text: each line with an address begins a piece.
    pub fn of_text(text: &str) -> Image {
        let mut pieces = Vec::new();
        for line in text
            .lines()
            .map(|line| line.split('#').next().unwrap_or(""))
        {
            if let Some(address) = line.strip_prefix('@') {
                let address = u64::from_str_radix(address.trim(), 16).expect("an address");
                pieces.push((address, Vec::new()));
            }
            for pair in line
                .split_whitespace()
                .filter(|word| !word.starts_with('@'))
            {
                let byte = u8::from_str_radix(pair, 16).expect("a pair of hex digits");
                pieces.last_mut().expect("an address").1.push(byte);
            }
        }
        Image(pieces)
    }

    pub fn named(name: &str) -> Image {
        Image::of_text(&text(name))
    }

    pub fn pieces(&self) -> Vec<Piece<'_>> {
        self.0
            .iter()
            .map(|(address, bytes)| Piece::new(*address, bytes))
            .collect()
    }

    /// Puts bytes in place of those that are there.
    pub fn set(&mut self, at: u64, bytes: &[u8]) {
        let has_them = |(address, old): &&mut (u64, Vec<u8>)| {
            *address <= at && at - *address + bytes.len() as u64 <= old.len() as u64
        };
        let (address, old) = self
            .0
            .iter_mut()
            .find(has_them)
            .expect("the bytes are present");
        let from = (at - *address) as usize;
        old[from..from + bytes.len()].copy_from_slice(bytes);
    }

    /// Makes the table that is the piece at this address sum to 0.
    pub fn fix_sum(&mut self, at: u64) {
        let (_, table) = self
            .0
            .iter_mut()
            .find(|(address, _)| *address == at)
            .expect("a table");
        table[9] = 0;
        table[9] = table.iter().fold(0u8, |sum, byte| sum.wrapping_sub(*byte));
    }
}
