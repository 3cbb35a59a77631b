//! Bytes of an image, numbers in them, and the entries of a table.

use crate::Fault;

/// Bytes of the image, the first of them at this address.
#[derive(Clone, Copy)]
pub struct Piece<'a> {
    pub address: u64,
    pub bytes: &'a [u8],
}

/// The bytes of a piece from an address on; none if no piece has it.
pub fn bytes_from<'a>(pieces: &[Piece<'a>], address: u64) -> &'a [u8] {
    let offset = |piece: &Piece| address.wrapping_sub(piece.address);
    let piece = pieces.iter().find(|piece| offset(piece) < piece.bytes.len() as u64);
    piece.map_or(&[], |piece| &piece.bytes[offset(piece) as usize..])
}

pub fn u32_at(bytes: &[u8], at: usize) -> u32 {
    u32::from_le_bytes(bytes[at..at + 4].try_into().unwrap())
}

pub fn u64_at(bytes: &[u8], at: usize) -> u64 {
    u64::from_le_bytes(bytes[at..at + 8].try_into().unwrap())
}

pub fn sum(bytes: &[u8]) -> u8 {
    bytes.iter().fold(0, |sum, byte| sum.wrapping_add(*byte))
}

/// Calls `judge` with each entry of a table, from this offset on, and its offset. An entry that is cut off is a fault
/// of the stage.
pub fn each_entry<'a>(
    table: &'a [u8],
    first: usize,
    stage: u8,
    mut judge: impl FnMut(usize, &'a [u8]) -> Result<(), Fault>,
) -> Result<(), Fault> {
    let mut at = first;
    while at < table.len() {
        let length = usize::from(*table.get(at + 1).unwrap_or(&0));
        let entry = table.get(at..at + length).filter(|_| length >= 2).ok_or((stage, at))?;
        judge(at, entry)?;
        at += length;
    }
    Ok(())
}
