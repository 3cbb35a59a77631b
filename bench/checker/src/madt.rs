//! Stages 6 to 8: the MADT in one pass, and what later stages need of it.

use crate::bytes::{each_entry, u32_at};
use crate::Fault;

#[derive(Default)]
pub struct Madt {
    /// Where the interrupt numbers of the I/O APICs begin, sorted.
    pub bases: Vec<u32>,
    /// The interrupt numbers that entries name, and the offsets of these.
    pub named: Vec<(u32, usize)>,
    /// The UIDs of the processors, if asked for and unless an entry is of another type: it may be a processor too.
    pub uids: Option<Vec<u32>>,
}

/// Whether the polarity or the trigger mode is reserved.
fn is_reserved(flags: u8) -> bool {
    flags & 3 == 2 || flags >> 2 & 3 == 2
}

/// Whether an entry of a known type has its length and no reserved flags.
fn is_valid(entry: &[u8], inputs: u32) -> bool {
    match (entry[0], entry.len()) {
        (1, 12) => u64::from(u32_at(entry, 8)) + u64::from(inputs) <= 1 << 32,
        (2, 10) => entry[2] == 0 && !is_reserved(entry[8]),
        (3, 8) | (10, 12) => !is_reserved(entry[2]),
        (4, 6) => !is_reserved(entry[3]),
        (0, 8) | (5, 12) | (9, 16) => true,
        (kind, _) => !matches!(kind, 0..=5 | 9 | 10),
    }
}

/// Stage 7: the second of two I/O APICs that serve the same interrupt number, for which the table is searched once it
/// is known that there are two.
fn clash(madt: &[u8], bases: &[u32], inputs: u32) -> Result<(), Fault> {
    let Some(pair) = bases.windows(2).find(|pair| pair[1] - pair[0] < inputs) else { return Ok(()) };
    let mut is_second = false;
    each_entry(madt, 44, 6, |at, entry| {
        let serves = entry[0] == 1 && pair[1].checked_sub(u32_at(entry, 8)).is_some_and(|input| input < inputs);
        if serves && is_second {
            return Err((7, at));
        }
        is_second |= serves;
        Ok(())
    })
}

pub fn read(madt: &[u8], inputs: u32, needs_uids: bool) -> Result<Madt, Fault> {
    let mut found = Madt { uids: needs_uids.then(Vec::new), ..Madt::default() };
    let mut sources = [None; 256];
    let mut disagree = None;
    let mut has_address = false;
    if madt.len() < 44 {
        return Err((6, 0));
    }
    each_entry(madt, 44, 6, |at, entry| {
        if !is_valid(entry, inputs) || entry[0] == 5 && has_address {
            return Err((6, at));
        }
        match entry[0] {
            0 => found.uids.iter_mut().for_each(|uids| uids.push(entry[2].into())),
            1 => found.bases.push(u32_at(entry, 8)),
            2 => {
                let number = u32_at(entry, 4);
                if *sources[usize::from(entry[3])].get_or_insert(number) != number {
                    disagree = disagree.or(Some((8, at)));
                }
                found.named.push((number, at));
            }
            3 => found.named.push((u32_at(entry, 4), at)),
            4 | 10 => {}
            5 => has_address = true,
            9 => found.uids.iter_mut().for_each(|uids| uids.push(u32_at(entry, 12))),
            _ => found.uids = None,
        }
        Ok(())
    })?;
    found.bases.sort_unstable();
    clash(madt, &found.bases, inputs)?;
    disagree.map_or(Ok(found), Err)
}
