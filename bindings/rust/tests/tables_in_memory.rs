//! An example: the unit tests of a virtual machine monitor that writes ACPI tables. They build the tables in memory as for a
//! guest, and have them checked.

use acpiset::{check, confirm, lint, Code, Fault, Piece, Settings};

const RSDP_AT: u64 = 0xe0000;
const DSDT_AT: u64 = 0xe0800;
const IO_APIC: u32 = 0xfec0_0000;
const GIB: u64 = 1 << 30;

// ---- the code under test

/// A machine with processors in two NUMA nodes, and memory below and above 4 GiB.
struct Machine {
    processors: u8,
    low_memory: u64,
    high_memory: u64,
    distance: u8,
}

/// What is written into the guest's memory: bytes, and the address of the first.
struct Write {
    address: u64,
    bytes: Vec<u8>,
}

/// The byte that makes all bytes sum to 0 with the one at `at`.
fn fix_sum(bytes: &mut [u8], at: usize) {
    bytes[at] = 0;
    bytes[at] = bytes
        .iter()
        .fold(0, |sum: u8, byte| sum.wrapping_sub(*byte));
}

/// A header (5.2.6) and a body.
fn table(signature: &[u8; 4], revision: u8, body: &[u8]) -> Vec<u8> {
    let mut bytes = signature.to_vec();
    bytes.extend((36 + body.len() as u32).to_le_bytes());
    bytes.extend([revision, 0]);
    bytes.extend(b"VMM   TESTVM  ");
    bytes.extend(1_u32.to_le_bytes());
    bytes.extend(b"VMM ");
    bytes.extend(1_u32.to_le_bytes());
    bytes.extend(body);
    fix_sum(&mut bytes, 9);
    bytes
}

/// An RSDP of revision 2 (5.2.5.3).
fn rsdp(xsdt: u64) -> Vec<u8> {
    let mut bytes = b"RSD PTR \0VMM   \x02\0\0\0\0".to_vec();
    bytes.extend(36_u32.to_le_bytes());
    bytes.extend(xsdt.to_le_bytes());
    bytes.extend([0; 4]);
    fix_sum(&mut bytes[..20], 8);
    fix_sum(&mut bytes, 32);
    bytes
}

/// A DSDT (5.2.11.1) without code.
fn dsdt() -> Vec<u8> {
    table(b"DSDT", 2, &[])
}

/// A FADT of hardware-reduced ACPI (5.2.9) that names a DSDT.
fn fadt(dsdt: u64) -> Vec<u8> {
    let mut body = [0; 276 - 36];
    body[112 - 36..116 - 36].copy_from_slice(&(1_u32 << 20).to_le_bytes());
    body[140 - 36..148 - 36].copy_from_slice(&dsdt.to_le_bytes());
    table(b"FACP", 6, &body)
}

/// A MADT (5.2.12) with a local APIC for each processor and one I/O APIC.
fn madt(machine: &Machine) -> Vec<u8> {
    let mut body = 0xfee0_0000_u32.to_le_bytes().to_vec();
    body.extend(0_u32.to_le_bytes());
    for processor in 0..machine.processors {
        body.extend([0, 8, processor, processor, 1, 0, 0, 0]);
    }
    body.extend([1, 12, 0, 0]);
    body.extend(IO_APIC.to_le_bytes());
    body.extend(0_u32.to_le_bytes());
    table(b"APIC", 5, &body)
}

/// An SRAT (5.2.16): the first half of the processors and the low memory are node 0, all else is node 1.
fn srat(machine: &Machine) -> Vec<u8> {
    let mut body = 1_u32.to_le_bytes().to_vec();
    body.extend([0; 8]);
    for processor in 0..machine.processors {
        let node = u8::from(processor >= machine.processors / 2);
        body.extend([0, 16, node, processor, 1, 0, 0, 0]);
        body.extend([0; 8]);
    }
    for (node, base, length) in [
        (0, 0, machine.low_memory),
        (1, 4 * GIB, machine.high_memory),
    ] {
        body.extend([1, 40, node, 0, 0, 0, 0, 0]);
        body.extend(base.to_le_bytes());
        body.extend(length.to_le_bytes());
        body.extend([0, 0, 0, 0, 1, 0, 0, 0]);
        body.extend([0; 8]);
    }
    table(b"SRAT", 3, &body)
}

/// A SLIT (5.2.17) of two nodes.
fn slit(machine: &Machine) -> Vec<u8> {
    let mut body = 2_u64.to_le_bytes().to_vec();
    body.extend([10, machine.distance, machine.distance, 10]);
    table(b"SLIT", 1, &body)
}

/// What the monitor writes: the DSDT, the other tables one after the other, then the XSDT, and the RSDP where a BIOS puts it.
fn acpi_tables(machine: &Machine) -> Vec<Write> {
    let mut writes = vec![Write {
        address: DSDT_AT,
        bytes: dsdt(),
    }];
    let mut address = 0xe_1000;
    let mut slots = Vec::new();
    for bytes in [fadt(DSDT_AT), madt(machine), srat(machine), slit(machine)] {
        slots.extend(u64::to_le_bytes(address));
        let end = address + bytes.len() as u64;
        writes.push(Write { address, bytes });
        address = (end + 15) & !15;
    }
    writes.push(Write {
        address,
        bytes: table(b"XSDT", 1, &slots),
    });
    writes.push(Write {
        address: RSDP_AT,
        bytes: rsdp(address),
    });
    writes
}

// ---- the tests

const MACHINE: Machine = Machine {
    processors: 4,
    low_memory: 3 * GIB,
    high_memory: 2 * GIB,
    distance: 20,
};

fn pieces(writes: &[Write]) -> Vec<Piece<'_>> {
    writes
        .iter()
        .map(|write| Piece::new(write.address, &write.bytes))
        .collect()
}

/// Fails with the lines of all that is wrong. docs/FAULTS.md and `acpiset-explain` say what each line means.
#[track_caller]
fn assert_clean(machine: &Machine) {
    let writes = acpi_tables(machine);
    let found =
        lint(&pieces(&writes), &Settings::new(RSDP_AT)).expect("the pieces make up an image");
    assert!(
        found.faults.is_empty() && found.advice.is_empty(),
        "{found}"
    );
}

#[test]
fn the_tables_are_clean() {
    assert_clean(&MACHINE);
}

#[test]
fn so_they_are_with_other_numbers_of_processors() {
    for processors in [1, 2, 3, 254] {
        assert_clean(&Machine {
            processors,
            ..MACHINE
        });
    }
}

/// Memory below 4 GiB may not reach into that above.
#[test]
fn memory_that_is_too_large_overlaps() {
    let large = Machine {
        low_memory: 5 * GIB,
        ..MACHINE
    };
    let settings = Settings::new(RSDP_AT);
    let (wrong, right) = (acpi_tables(&large), acpi_tables(&MACHINE));
    let fault = check(&pieces(&wrong), &settings)
        .expect("the pieces make up an image")
        .expect("there is a fault");
    assert_eq!(fault.to_string(), "10 Overlap 0x70 0x98 0x100000000");
    assert_eq!(confirm(&pieces(&wrong), &settings, &fault), Ok(true));
    assert_eq!(confirm(&pieces(&right), &settings, &fault), Ok(false));
}

/// Each byte of each table but the DSDT counts: with any one changed a checksum is wrong.
#[test]
fn each_byte_counts() {
    let settings = Settings::new(RSDP_AT);
    let mut writes = acpi_tables(&MACHINE);
    for one in 1..writes.len() {
        for at in 0..writes[one].bytes.len() {
            writes[one].bytes[at] ^= 1;
            let fault = check(&pieces(&writes), &settings).expect("the pieces make up an image");
            assert!(
                fault.is_some(),
                "byte {at} of the piece at {:#x}",
                writes[one].address
            );
            writes[one].bytes[at] ^= 1;
        }
    }
}

/// A distance below 10 is none (5.2.17).
#[test]
fn distances_are_at_least_10() {
    let near = acpi_tables(&Machine {
        distance: 9,
        ..MACHINE
    });
    let found = lint(&pieces(&near), &Settings::new(RSDP_AT)).expect("the pieces make up an image");
    assert_eq!(found.faults, [Fault::new(Code::SlitLow, 0x2d, 0, 0)]);
}
