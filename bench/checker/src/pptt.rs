//! Stages 12 to 15: the PPTT, with a byte and a mark for each offset.

use crate::bytes::{each_entry, u32_at};
use crate::Fault;

const NODE: u8 = 1;
const CACHE: u8 = 2;
const OTHER: u8 = 3;

/// The kind of the entry that begins at each offset: 0 where none does.
fn kinds_of(pptt: &[u8]) -> Result<Vec<u8>, Fault> {
    let mut kinds = vec![0; pptt.len()];
    each_entry(pptt, 36, 12, |at, entry| {
        kinds[at] = match (entry[0], entry.len()) {
            (0, 20..) if entry.len() == 20 + 4 * u32_at(entry, 16) as usize => NODE,
            (1, 24 | 28) => CACHE,
            (0 | 1, _) => return Err((12, at)),
            _ => OTHER,
        };
        Ok(())
    })?;
    Ok(kinds)
}

/// Whether an entry of this kind begins at an offset, or the offset is 0.
fn leads(kinds: &[u8], offset: u32, kind: u8) -> bool {
    offset == 0 || kinds.get(offset as usize) == Some(&kind)
}

/// Stage 13. Returns the leaves: the processor ID of each, and its offset.
fn leaves_of(pptt: &[u8], kinds: &[u8]) -> Result<Vec<(u32, usize)>, Fault> {
    let mut leaves = Vec::new();
    each_entry(pptt, 36, 12, |at, entry| {
        let is_resource = |bytes: &[u8]| matches!(kinds.get(u32_at(bytes, 0) as usize), Some(&(CACHE | OTHER)));
        let is_valid = match kinds[at] {
            NODE => leads(kinds, u32_at(entry, 8), NODE) && entry[20..].chunks_exact(4).all(is_resource),
            CACHE => leads(kinds, u32_at(entry, 8), CACHE),
            _ => true,
        };
        if kinds[at] == NODE && entry[4] & 0b1010 == 0b1010 {
            leaves.push((u32_at(entry, 12), at));
        }
        if is_valid {
            Ok(())
        } else {
            Err((13, at))
        }
    })?;
    Ok(leaves)
}

/// The chains of a kind end. `marks` has where the walk began that came by each offset.
fn check_chains(pptt: &[u8], kinds: &[u8], marks: &mut [u32], kind: u8, stage: u8) -> Result<(), Fault> {
    each_entry(pptt, 36, 12, |start, _| {
        let mut at = if kinds[start] == kind { start } else { 0 };
        while at != 0 && marks[at] == 0 {
            marks[at] = start as u32;
            at = u32_at(pptt, at + 8) as usize;
        }
        if at != 0 && marks[at] == start as u32 {
            return Err((stage, start));
        }
        Ok(())
    })
}

/// The leaves, as far as a leaf has to be a processor: in a table of Revision 2 or more.
pub fn read(pptt: &[u8]) -> Result<Vec<(u32, usize)>, Fault> {
    let kinds = kinds_of(pptt)?;
    let leaves = leaves_of(pptt, &kinds)?;
    let mut marks = vec![0; pptt.len()];
    check_chains(pptt, &kinds, &mut marks, NODE, 14)?;
    check_chains(pptt, &kinds, &mut marks, CACHE, 15)?;
    Ok(if pptt[8] >= 2 { leaves } else { Vec::new() })
}
