//! Checks the ACPI tables in a guest's memory before the guest starts, explains a fault, and moves the tables.
//!
//! `GuestMemory` stands for the memory of a virtual machine monitor. With the crate `vm-memory` it is
//! `GuestMemoryMmap::from_ranges(&[(GuestAddress(0), 1 << 20)])`; tables are written by
//! `memory.write_slice(&bytes, GuestAddress(address))`, and `memory.read_slice(&mut bytes, GuestAddress(start))` copies a
//! region with tables. A piece has to be such a copy: a guest that runs, or a device, can write to mapped memory during the call.

use acpiset::{check, explanation, rebuild, show, Fault, Piece, Refusal, Settings};

const RSDP_AT: u64 = 0xe0000;
const TABLES_AT: u64 = 0x9f000;
const GIB: u64 = 1 << 30;

// ---- the guest's memory

/// Regions of memory, each at its address.
struct GuestMemory {
    regions: Vec<(u64, Vec<u8>)>,
}

impl GuestMemory {
    /// Memory of zeros.
    fn with_regions(ranges: &[(u64, usize)]) -> GuestMemory {
        let regions = ranges.iter().map(|(start, size)| (*start, vec![0; *size]));
        GuestMemory {
            regions: regions.collect(),
        }
    }

    /// Writes these bytes, which lie in one region.
    fn write(&mut self, address: u64, bytes: &[u8]) {
        for (start, memory) in &mut self.regions {
            let offset = address.wrapping_sub(*start) as usize;
            if offset < memory.len() {
                memory[offset..offset + bytes.len()].copy_from_slice(bytes);
            }
        }
    }

    /// All regions as pieces. They are borrowed, so nobody writes to them during a call.
    fn pieces(&self) -> Vec<Piece<'_>> {
        self.regions
            .iter()
            .map(|(start, memory)| Piece::new(*start, memory))
            .collect()
    }
}

// ---- the tables

/// Sets the byte at `at` so that all bytes sum to 0.
fn fix_sum(bytes: &mut [u8], at: usize) {
    bytes[at] = 0;
    bytes[at] = bytes
        .iter()
        .fold(0, |sum: u8, byte| sum.wrapping_sub(*byte));
}

/// A header (ACPI 6.5, 5.2.6) and a body.
fn table(signature: &[u8; 4], revision: u8, body: &[u8]) -> Vec<u8> {
    let mut bytes = signature.to_vec();
    bytes.extend((36 + body.len() as u32).to_le_bytes());
    bytes.extend([revision, 0]);
    bytes.extend(b"VMM   GUEST   \x01\0\0\0VMM \x01\0\0\0");
    bytes.extend(body);
    fix_sum(&mut bytes, 9);
    bytes
}

/// A FADT of hardware-reduced ACPI (5.2.9).
fn fadt() -> Vec<u8> {
    let mut body = [0; 276 - 36];
    body[112 - 36..116 - 36].copy_from_slice(&(1_u32 << 20).to_le_bytes());
    table(b"FACP", 6, &body)
}

/// An SRAT (5.2.16) with an enabled range of memory for each node.
fn srat(ranges: &[(u64, u64)]) -> Vec<u8> {
    let mut body = b"\x01\0\0\0\0\0\0\0\0\0\0\0".to_vec();
    for (node, (base, length)) in (0..).zip(ranges) {
        body.extend([1, 40, node, 0, 0, 0, 0, 0]);
        body.extend(base.to_le_bytes());
        body.extend(length.to_le_bytes());
        body.extend([0, 0, 0, 0, 1, 0, 0, 0, 0, 0, 0, 0, 0, 0, 0, 0]);
    }
    table(b"SRAT", 3, &body)
}

/// An RSDP of revision 2 (5.2.5.3) that names an XSDT.
fn rsdp(xsdt: u64) -> Vec<u8> {
    let mut bytes = b"RSD PTR \0VMM   \x02\0\0\0\0\x24\0\0\0".to_vec();
    bytes.extend(xsdt.to_le_bytes());
    bytes.extend([0; 4]);
    fix_sum(&mut bytes[..20], 8);
    fix_sum(&mut bytes, 32);
    bytes
}

/// What the monitor does before a guest with these ranges of memory starts.
fn write_tables(memory: &mut GuestMemory, ranges: &[(u64, u64)]) {
    let mut slots = Vec::new();
    let mut place = TABLES_AT;
    for table in [fadt(), srat(ranges)] {
        memory.write(place, &table);
        slots.extend(place.to_le_bytes());
        place = (place + table.len() as u64 + 63) / 64 * 64;
    }
    memory.write(place, &table(b"XSDT", 1, &slots));
    memory.write(RSDP_AT, &rsdp(place));
}

// ---- what is asked

fn report(fault: &Fault) -> Result<(), Refusal> {
    println!("no {fault}");
    println!("{}", explanation(fault.code.number())?);
    Ok(())
}

fn main() -> Result<(), Refusal> {
    let settings = Settings::new(RSDP_AT);
    let mut memory = GuestMemory::with_regions(&[(0, 0xa0000), (0xe0000, 0x20000)]);

    // Node 1 begins below the end of node 0.
    write_tables(&mut memory, &[(0, 3 * GIB), (2 * GIB, GIB)]);
    if let Some(fault) = check(&memory.pieces(), &settings)? {
        report(&fault)?;
    }

    write_tables(&mut memory, &[(0, 2 * GIB), (2 * GIB, GIB)]);
    let verdict = check(&memory.pieces(), &settings)?;
    println!(
        "{}",
        verdict.map_or("yes".to_string(), |fault| format!("no {fault}"))
    );
    if let Ok(text) = show(&memory.pieces(), &settings)? {
        print!("{text}");
    }

    // The tables at the start of a region of their own, as a monitor without a BIOS passes them to the kernel.
    let base = 0x7fff_0000;
    match rebuild(&memory.pieces(), &settings, base)? {
        Ok(bytes) => {
            let mut own = GuestMemory::with_regions(&[(base, 0x10000)]);
            own.write(base, &bytes);
            let is_valid = check(&own.pieces(), &Settings::new(base))?.is_none();
            println!("{} bytes at {base:#x}, valid: {is_valid}", bytes.len());
        }
        Err(fault) => report(&fault)?,
    }
    Ok(())
}
