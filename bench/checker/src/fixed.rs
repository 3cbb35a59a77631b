//! What has a fixed layout: the RSDP, the root table and what it lists, the FADT and the FACS, and the SLIT.

use crate::bytes::{bytes_from, sum, u32_at, u64_at, Piece};
use crate::Fault;

/// The first table of each kind that the root table lists.
#[derive(Default)]
pub struct Tables<'a> {
    pub fadt: Option<&'a [u8]>,
    pub madt: Option<&'a [u8]>,
    pub srat: Option<&'a [u8]>,
    pub slit: Option<&'a [u8]>,
    pub pptt: Option<&'a [u8]>,
}

/// The table at an address, if it is complete and sums to 0.
fn table<'a>(pieces: &[Piece<'a>], address: u64) -> Option<&'a [u8]> {
    let bytes = bytes_from(pieces, address);
    let table = bytes.get(..u32_at(bytes.get(..36)?, 4) as usize)?;
    (table.len() >= 36 && sum(table) == 0).then_some(table)
}

/// The RSDP, in its short or its extended form.
fn rsdp<'a>(pieces: &[Piece<'a>], address: u64) -> Option<&'a [u8]> {
    let bytes = bytes_from(pieces, address);
    let short = bytes.get(..20)?;
    if !short.starts_with(b"RSD PTR ") || sum(short) != 0 || short[15] < 2 {
        return (short.starts_with(b"RSD PTR ") && sum(short) == 0).then_some(short);
    }
    let long = bytes.get(..u32_at(bytes.get(..36)?, 20) as usize)?;
    (long.len() >= 36 && sum(long) == 0).then_some(long)
}

/// The root table that the RSDP names, and how many bytes its slots have.
fn root<'a>(pieces: &[Piece<'a>], rsdp: &[u8]) -> Option<(&'a [u8], usize)> {
    let xsdt = if rsdp.len() >= 36 { u64_at(rsdp, 24) } else { 0 };
    let (address, signature, width) =
        if xsdt != 0 { (xsdt, b"XSDT", 8) } else { (u32_at(rsdp, 16).into(), b"RSDT", 4) };
    let root = table(pieces, address).filter(|_| address != 0)?;
    (root.starts_with(signature) && (root.len() - 36) % width == 0).then_some((root, width))
}

/// Stages 1 to 3: what the root table lists.
pub fn listed<'a>(pieces: &[Piece<'a>], address: u64) -> Result<Tables<'a>, Fault> {
    let rsdp = rsdp(pieces, address).ok_or((1, 0))?;
    let (root, width) = root(pieces, rsdp).ok_or((2, 0))?;
    let mut tables = Tables::default();
    for (number, slot) in root[36..].chunks_exact(width).enumerate() {
        let address = if width == 4 { u32_at(slot, 0).into() } else { u64_at(slot, 0) };
        if address == 0 {
            continue;
        }
        let table = table(pieces, address).ok_or((3, number))?;
        let first = match &table[..4] {
            b"FACP" => &mut tables.fadt,
            b"APIC" => &mut tables.madt,
            b"SRAT" => &mut tables.srat,
            b"SLIT" => &mut tables.slit,
            b"PPTT" => &mut tables.pptt,
            _ => continue,
        };
        first.get_or_insert(table);
    }
    Ok(tables)
}

/// Stages 4 and 5: the FADT and the FACS.
pub fn check_fadt(pieces: &[Piece], fadt: Option<&[u8]>) -> Result<(), Fault> {
    let fadt = fadt.filter(|fadt| fadt.len() >= 116).ok_or((4, 0))?;
    let is_reduced = u32_at(fadt, 112) >> 20 & 1 == 1;
    let has_reset = u32_at(fadt, 112) >> 10 & 1 == 1 && fadt.len() >= 129;
    let are_lengths_valid =
        matches!(fadt[88..94], [4..=255, 2..=255, _, 0 | 4, first, second] if (first | second) & 1 == 0);
    if !is_reduced && !are_lengths_valid || has_reset && !matches!(fadt[116..119], [0..=2, 8, 0]) {
        return Err((4, 0));
    }
    let extended = if fadt.len() >= 140 { u64_at(fadt, 132) } else { 0 };
    let address = if extended != 0 { extended } else { u32_at(fadt, 36).into() };
    let facs = bytes_from(pieces, address);
    let is_valid = match facs {
        _ if address == 0 => is_reduced,
        [b'F', b'A', b'C', b'S', _, _, _, _, ..] => (64..=facs.len()).contains(&(u32_at(facs, 4) as usize)),
        _ => false,
    };
    if is_valid && address % 64 == 0 {
        Ok(())
    } else {
        Err((5, 0))
    }
}

/// Stage 11.
pub fn check_slit(slit: &[u8]) -> Result<(), Fault> {
    let cells = slit.get(44..).ok_or((11, 0))?;
    let count = u64_at(slit, 36);
    if count.checked_mul(count) != Some(cells.len() as u64) {
        return Err((11, 36));
    }
    let count = count as usize;
    for (number, row) in cells.chunks_exact(count.max(1)).enumerate() {
        if row[number] != 10 || row.iter().fold(false, |is_low, cell| is_low | (*cell < 10)) {
            return Err((11, 44 + count * number));
        }
    }
    Ok(())
}
