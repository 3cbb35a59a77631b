//! Stages 16 to 18: what two tables say of each other.

use crate::bytes::{each_entry, u32_at};
use crate::srat::Affinity;
use crate::Fault;

/// The numbers of the enabled processors, sorted.
fn enabled(madt: &[u8]) -> Result<Vec<u32>, Fault> {
    let mut numbers = Vec::new();
    each_entry(madt, 44, 6, |_, entry| {
        match entry[0] {
            0 if entry[4] & 1 == 1 => numbers.push(entry[3].into()),
            9 if entry[8] & 1 == 1 => numbers.push(u32_at(entry, 4)),
            _ => {}
        }
        Ok(())
    })?;
    numbers.sort_unstable();
    Ok(numbers)
}

/// Stage 16. The MADT is read again only if a processor is in two domains.
pub fn check_domains(madt: &[u8], mut affinities: Vec<Affinity>) -> Result<(), Fault> {
    affinities.sort_unstable();
    let mut clashes = affinities.windows(2).filter(|pair| pair[0].0 == pair[1].0 && pair[0].1 != pair[1].1).peekable();
    if clashes.peek().is_none() {
        return Ok(());
    }
    let enabled = enabled(madt)?;
    match clashes.find(|pair| enabled.binary_search(&pair[0].0).is_ok()) {
        Some(pair) => Err((16, pair[1].2)),
        None => Ok(()),
    }
}

/// Stage 17: the I/O APICs, whose interrupt numbers begin at the sorted bases, serve those that are named.
pub fn check_named(bases: &[u32], mut named: Vec<(u32, usize)>, inputs: u32) -> Result<(), Fault> {
    if bases.is_empty() {
        return Ok(());
    }
    named.sort_unstable();
    let mut before = 0;
    let mut first: Option<usize> = None;
    for (number, at) in named {
        while bases.get(before).is_some_and(|base| *base <= number) {
            before += 1;
        }
        if before == 0 || number - bases[before - 1] >= inputs {
            first = Some(first.map_or(at, |first| first.min(at)));
        }
    }
    first.map_or(Ok(()), |at| Err((17, at)))
}

/// Stage 18: the leaves are processors, if it is known which there are.
pub fn check_leaves(uids: Option<Vec<u32>>, leaves: Vec<(u32, usize)>) -> Result<(), Fault> {
    let Some(mut uids) = uids else { return Ok(()) };
    uids.sort_unstable();
    match leaves.iter().find(|(uid, _)| uids.binary_search(uid).is_err()) {
        Some((_, at)) => Err((18, *at)),
        None => Ok(()),
    }
}
