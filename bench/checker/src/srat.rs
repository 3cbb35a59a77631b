//! Stages 9 and 10: the SRAT in one pass.

use crate::bytes::{each_entry, u32_at, u64_at};
use crate::Fault;

/// The number of a processor, a domain that it is in, and the offset of the entry that says so.
pub type Affinity = (u32, u32, usize);

/// The affinities of the enabled entries.
pub fn read(srat: &[u8]) -> Result<Vec<Affinity>, Fault> {
    let mut affinities = Vec::new();
    // the first and the last address of each range
    let mut ranges = Vec::new();
    if srat.len() < 48 {
        return Err((9, 0));
    }
    each_entry(srat, 48, 9, |at, entry| {
        match (entry[0], entry.len()) {
            (0, 16) if u32_at(entry, 4) & 1 == 1 => {
                let domain = u32::from(entry[2]) | u32_at(entry, 8) & !0xff;
                affinities.push((entry[3].into(), domain, at));
            }
            (2, 24) if u32_at(entry, 12) & 1 == 1 => affinities.push((u32_at(entry, 8), u32_at(entry, 4), at)),
            (1, 40) if u32_at(entry, 28) & 1 == 1 && u64_at(entry, 16) > 0 => {
                let base = u64_at(entry, 8);
                ranges.push((base, base.checked_add(u64_at(entry, 16) - 1).ok_or((9, at))?, at));
            }
            (0, 16) | (1, 40) | (2, 24) | (3.., _) => {}
            _ => return Err((9, at)),
        }
        Ok(())
    })?;
    ranges.sort_unstable();
    match ranges.windows(2).find(|pair| pair[1].0 <= pair[0].1) {
        Some(pair) => Err((10, pair[1].2)),
        None => Ok(affinities),
    }
}
