"""Tables as bytes, made from what they say. Sections are those of ACPI 6.5.

Numbers are little-endian. What a test does not care about has one value everywhere, and checksums are computed, so that
a row shows what it is about and nothing else.
"""

RSDT_AT = 0x1000
TABLES_AT = 0x2000
DSDT_AT = 0x6000000
FACS_AT = 0x7000
RSDP_AT = 0xE0000
XSDT_AT = 0x1100


def number(value, size):
    """The last bytes of a number."""
    return (value % (1 << 8 * size)).to_bytes(size, "little")


def summed(data, at, size=None, error=0):
    """The bytes with the one at this offset, if there is one, set so that all, or this many, sum to 0, or to the error."""
    data = bytearray(data)
    if at < len(data):
        own = data[at] if size is None or at < size else 0
        data[at] = (error - sum(data[:size]) + own) % 256
    return bytes(data)


def changed(data, changes, *sums):
    """The bytes with some of them changed, by their offsets. Then, for each (offset, size) of `sums`, this many bytes from
    the start are made to sum to 0 by the one at the offset."""
    data = bytearray(data)
    for at, byte in changes.items():
        data[at] = byte
    for at, size in sums:
        data = summed(data, at, size)
    return bytes(data)


def table(signature, body, revision=1):
    """A header (5.2.6) and a body."""
    length = number(36 + len(body), 4)
    maker = b"A" * 6 + b"A" * 8 + number(1, 4) + b"AAAA" + number(1, 4)
    return summed(signature + length + bytes([revision, 0]) + maker + body, 9)


def revised(data, revision):
    """A table of another Revision."""
    return changed(data, {8: revision}, (9, len(data)))


def placed(data, **fields):
    """An entry with these bytes at these offsets, as far as it goes."""
    for name, value in fields.items():
        at = int(name[1:])
        data = (data[:at] + value + data[at + len(value) :])[: len(data)] if at < len(data) else data
    return data


# ---- RSDP (5.2.5.3)


def rsdp(rsdt=RSDT_AT):
    return summed(b"RSD PTR \0" + b"A" * 6 + b"\0" + number(rsdt, 4), 8)


def extended_rsdp(xsdt=XSDT_AT, rsdt=RSDT_AT, length=36):
    """The extended form. The second sum is over 36 bytes, whatever the Length says."""
    first = summed(b"RSD PTR \0" + b"A" * 6 + b"\2" + number(rsdt, 4), 8)
    return summed(first + number(length, 4) + number(xsdt, 8) + bytes(4), 32)


# ---- roots (5.2.7, 5.2.8)


def rsdt(*addresses):
    return table(b"RSDT", b"".join(number(address, 4) for address in addresses))


def xsdt(*addresses):
    return table(b"XSDT", b"".join(number(address, 8) for address in addresses))


# ---- FADT and FACS (5.2.9, 5.2.10)

REDUCED = 1 << 20
RESET_REG_SUP = 1 << 10


def fadt(flags=REDUCED, length=116, **fields):
    """A FADT of hardware-reduced ACPI. A field is given as its bytes and its offset, such as _88=b"\\4"."""
    body = bytearray(length - 36)
    body[112 - 36 : 116 - 36] = number(flags, 4)
    for name, value in fields.items():
        at = int(name[1:]) - 36
        body[at : at + len(value)] = value
    return table(b"FACP", bytes(body))


def full_fadt(facs=FACS_AT, length=116, **fields):
    """A FADT of full hardware: a FACS, and register blocks of the least lengths."""
    blocks = {"_88": b"\4", "_89": b"\2", "_91": b"\4"}
    return fadt(0, length, _36=number(facs, 4), **{**blocks, **fields})


# Fields of a FADT on which there is no advice: a DSDT, which is nowhere in the images; the SCI and the register blocks of full hardware;
# and of ACPI 6.6, whose FADT has this many bytes, the minor version and that a GIC's processors are started by firmware.
WITH_DSDT = {"_40": number(DSDT_AT, 4)}
WITH_BLOCKS = {"_46": number(9, 2), "_56": number(0x400, 4), "_64": number(0x404, 4), "_76": number(0x408, 4)}
OF_6_6 = {"_129": b"\1\0\6"}
LAST_LENGTH = 276


def old_fadt(revision, length):
    """A FADT of reduced hardware, of this Revision and Length, that names a DSDT."""
    return revised(fadt(length=length, **WITH_DSDT), revision)


def sound_fadt():
    """A FADT of reduced hardware and of ACPI 6.6, on which there is no advice."""
    return revised(fadt(length=LAST_LENGTH, **WITH_DSDT, **OF_6_6), 6)


def sound_full_fadt(facs=FACS_AT, **fields):
    """A FADT of full hardware, on which there is no advice but for what other fields make."""
    return full_fadt(facs, **{**WITH_DSDT, **WITH_BLOCKS, **fields})


def generic_address(address, space=1, width=32, offset=0, access=0):
    """A register block's structure (5.2.3.2)."""
    return bytes([space, width, offset, access]) + number(address, 8)


def facs():
    return b"FACS" + number(64, 4) + bytes(24) + b"\1" + bytes(31)


# ---- MADT (5.2.12). Of entries the reserved bytes are 0, unless another byte is given.


def madt(*entries):
    return table(b"APIC", number(0xFEE00000, 4) + number(1, 4) + b"".join(entries))


def lapic(uid, apic_id, flags=1):
    return bytes([0, 8, uid % 256, apic_id % 256]) + number(flags, 4)


def io_apic(address, base, io_apic_id=0, reserved=0):
    return bytes([1, 12, io_apic_id, reserved]) + number(address, 4) + number(base, 4)


def override(source, gsi, flags=0, bus=0):
    return bytes([2, 10, bus, source]) + number(gsi, 4) + number(flags, 2)


def nmi_source(gsi, flags=0):
    return bytes([3, 8]) + number(flags, 2) + number(gsi, 4)


def lapic_nmi(uid, lint, flags=0):
    return bytes([4, 6, uid % 256]) + number(flags, 2) + bytes([lint])


def lapic_address(address, reserved=0):
    return bytes([5, 12, reserved, reserved]) + number(address, 8)


def x2apic(uid, x2apic_id, flags=1, reserved=0):
    return bytes([9, 16, reserved, reserved]) + number(x2apic_id, 4) + number(flags, 4) + number(uid, 4)


def x2apic_nmi(uid, lint, flags=0, reserved=0):
    return bytes([10, 12]) + number(flags, 2) + number(uid, 4) + bytes([lint, reserved, reserved, reserved])


def local_nmis(uid, lint, flags=0):
    """An NMI of a UID, of which a local APIC has one byte, of each kind."""
    return lapic_nmi(uid, lint, flags), x2apic_nmi(uid, lint, flags)


def gicc(uid, flags=1, length=80):
    """A GIC CPU Interface (5.2.12.14) whose MPIDR has the bytes of the UID, and of which a shorter one is cut off."""
    mpidr = number(uid, 3) + b"\0" + number(uid >> 24, 4)
    return (bytes([11, length]) + bytes(6) + number(uid, 4) + number(flags, 4) + bytes(52) + mpidr + bytes(240))[:length]


def gicd(length=24):
    """A GIC Distributor (5.2.12.15)."""
    return bytes([12, length]) + bytes(length - 2)


def core_pic(uid, core_id, flags=1, length=15):
    """A core of LoongArch (5.2.12.20), of which a shorter one is cut off."""
    return (bytes([17, length, 1]) + number(uid, 4) + number(core_id, 4) + number(flags, 4) + bytes(240))[:length]


def rintc(uid, flags=1, length=36):
    """A hart of RISC-V (RINTC, after ACPI 6.5) whose hart ID is one more than its UID, and of which a shorter one is cut off."""
    return (bytes([24, length, 1, 0]) + number(flags, 4) + number(uid + 1, 8) + number(uid, 4) + bytes(240))[:length]


def other(kind, length=8):
    """An entry of a type, and nothing in it."""
    return bytes([kind, length]) + bytes(length - 2)


def distributor(version, base=0):
    return placed(gicd(), _8=number(base, 8), _20=bytes([version]))


def redistributor(base, size, length=16):
    return placed(other(14, length), _4=number(base, 8), _12=number(size, 4))


def its(its_id, base=0, length=20):
    return placed(other(15, length), _4=number(its_id, 4), _8=number(base, 8))


def frame(frame_id, base=0, length=24):
    return placed(other(13, length), _4=number(frame_id, 4), _8=number(base, 8))


def cpu(base=0, gicr=0, mpidr=0, parking=0, flags=1, length=80):
    """A GICC with these fields, as far as it goes."""
    fields = {"_16": number(parking, 4), "_32": number(base, 8), "_60": number(gicr, 8), "_68": number(mpidr, 8)}
    return placed(gicc(0, flags, length), **fields)


def hart(hart_id, flags=1, length=36):
    return placed(rintc(0, flags, length), _8=number(hart_id, 8))


# ---- SRAT (5.2.16)


def srat(*entries):
    return table(b"SRAT", number(1, 4) + bytes(8) + b"".join(entries))


def apic_domain(apic_id, domain, flags=1):
    return bytes([0, 16, domain % 256, apic_id % 256]) + number(flags, 4) + b"\0" + number(domain // 256, 3) + bytes(4)


def memory(base, length, flags=1, domain=0, reserved=0):
    blank = bytes([reserved]) * 8
    head = bytes([1, 40]) + number(domain, 4) + blank[:2] + number(base, 8) + number(length, 8)
    return head + blank[:4] + number(flags, 4) + blank


def memory_of(domain, base=0, length=0, flags=1):
    return memory(base, length, flags, domain)


def x2apic_domain(x2apic_id, domain, flags=1, reserved=0):
    blank = bytes([reserved]) * 4
    return bytes([2, 24]) + blank[:2] + number(domain, 4) + number(x2apic_id, 4) + number(flags, 4) + bytes(4) + blank


def uid_domain(uid, domain, flags=1, length=18):
    """A GICC affinity (5.2.16.4), of which a shorter one is cut off."""
    return (bytes([3, length]) + number(domain, 4) + number(uid, 4) + number(flags, 4) + bytes(240))[:length]


def hart_domain(uid, domain, flags=1, length=20):
    """An RINTC affinity (after ACPI 6.5), of which a shorter one is cut off."""
    return (bytes([7, length, 0, 0]) + number(domain, 4) + number(uid, 4) + number(flags, 4) + bytes(240))[:length]


def its_domain(domain, length=12):
    """A GIC ITS affinity (5.2.16.5), which has no flags, and of which a shorter one is cut off."""
    return (bytes([4, length]) + number(domain, 4) + bytes(240))[:length]


def of_its(its_id, length=12):
    return placed(its_domain(0, length), _8=number(its_id, 4))


def device_domain(kind, domain, flags=1, length=32):
    """A generic initiator affinity (type 5, 5.2.16.6) or port affinity (type 6, 5.2.16.7), of which a shorter one is cut off."""
    return (bytes([kind, length, 0, 0]) + number(domain, 4) + bytes(16) + number(flags, 4) + bytes(240))[:length]


# ---- SLIT (5.2.17)


def slit(count, cells=()):
    return table(b"SLIT", number(count, 8) + bytes(cells))


def even_cells(count, far=20):
    """The distances of localities that are all as far apart."""
    return [10 if row == column else far for row in range(count) for column in range(count)]


# ---- PPTT (5.2.30)

IS_PACKAGE = 1 << 0
IS_ID_VALID = 1 << 1
IS_LEAF = 1 << 3
LEAF = IS_ID_VALID | IS_LEAF
SETS_VALID = 1 << 1
LINE_VALID = 1 << 6
CACHE_ID_VALID = 1 << 7


def pptt(*entries, revision=2):
    return table(b"PPTT", b"".join(entries), revision)


def node(parent=0, flags=0, uid=0, resources=(), count=None, length=None, reserved=0):
    """A node. Its number of private resources and its length are those of `resources`, unless others are given."""
    count = len(resources) if count is None else count
    length = 20 + 4 * len(resources) if length is None else length
    head = bytes([0, length, reserved, reserved]) + number(flags, 4) + number(parent, 4) + number(uid, 4) + number(count, 4)
    return head + b"".join(number(offset, 4) for offset in resources)


def leaf(uid, parent=0, flags=LEAF):
    return node(parent, flags, uid)


def core(uid, parent=0, flags=LEAF):
    """A node that is a package of one processor."""
    return node(parent, flags | IS_PACKAGE, uid)


def cache(next_level=0, length=24, flags=0, size=0, sets=0, ways=0, attributes=0, line=0, cache_id=0, reserved=0):
    head = bytes([1, length, reserved, reserved]) + number(flags, 4) + number(next_level, 4) + number(size, 4) + number(sets, 4)
    return (head + bytes([ways, attributes]) + number(line, 2) + number(cache_id, 4) + bytes(length))[:length]


def shaped_cache(flags, sets=64, line=64, cache_id=0, length=28):
    """A cache with these flags, Number of Sets, Line Size and Cache ID, of the size that one way has, but at least a byte."""
    return cache(0, length, flags, max(sets * line, 1), sets, 1, line=line, cache_id=cache_id)


# ---- MCFG, HPET and SPCR (PCI Firmware 3.3, 4.1.2; IA-PC HPET 1.0a, 3.2.4; Microsoft's SPCR 1.10)


def mcfg(*entries, revision=1):
    return table(b"MCFG", bytes(8) + b"".join(entries), revision)


def ecam(base, segment=0, first=0, last=255):
    """An entry of the MCFG."""
    return number(base, 8) + number(segment, 2) + bytes([first, last]) + bytes(4)


def hpet(address=0xFED00000, space=0):
    """An HPET, on which there is no advice unless its address or space is another one."""
    return table(b"HPET", number(0x8086A201, 4) + generic_address(address, space, 0) + bytes(4))


# Of an SPCR the fields of a serial port of a PC, and from Revision 4 on those of the name of no device.
OF_PORT = {"_40": generic_address(0x3F8, 1, 8, 0, 1), "_52": b"\3\4" + number(4, 4), "_58": b"\7", "_64": b"\xff" * 4}
OF_NAME = {"_84": number(2, 2) + number(88, 2), "_88": b".\0"}


def spcr(revision=2, length=None, **fields):
    """An SPCR of a serial port of a PC, on which there is no advice but for what other fields make. A field is given as its bytes and its
    offset, such as _53=b"\4". Of a shorter one the end is cut off."""
    length = (90 if revision >= 4 else 80) if length is None else length
    usual = placed(bytes(length), **OF_PORT, **(OF_NAME if revision >= 4 else {}))
    return table(b"SPCR", placed(usual, **fields)[36:], revision)


# ---- HMAT (5.2.28)


def hmat(*structures, revision=2):
    return table(b"HMAT", bytes(4) + b"".join(structures), revision)


def of_hmat(kind, length, **fields):
    """A structure of the HMAT, of which a shorter one is cut off, with these fields as far as it goes."""
    return placed((number(kind, 2) + bytes(2) + number(length, 4) + bytes(length))[:length], **fields)


def proximity(initiator=0, memory=0, flags=1, length=40):
    """The initiator of a domain of memory (5.2.28.3)."""
    return of_hmat(0, length, _8=number(flags, 2), _12=number(initiator, 4), _16=number(memory, 4))


def speeds(initiators=(0,), targets=(0,), cells=None, unit=1, kind=0, flags=0, length=None):
    """How fast targets are for initiators (5.2.28.4), with a cell of 1 for each two unless there are others. Of a shorter one the end is
    cut off, and a longer one has zeros there."""
    cells = [1] * len(initiators) * len(targets) if cells is None else cells
    lists = b"".join(number(it, 4) for it in (*initiators, *targets)) + b"".join(number(it, 2) for it in cells)
    counts = {"_12": number(len(initiators), 4), "_16": number(len(targets), 4)}
    length = 32 + len(lists) if length is None else length
    return of_hmat(1, length, _8=bytes([flags, kind]), _24=number(unit, 8), **counts, _32=lists)


def side_cache(domain=0, attributes=0, handles=0, length=None):
    """A cache in front of memory (5.2.28.5), with so many handles."""
    length = 32 + 2 * handles if length is None else length
    return of_hmat(2, length, _8=number(domain, 4), _24=number(attributes, 4), _30=number(handles, 2))


# ---- GTDT (5.2.25)

GTDT_SIZES = {0: 80, 1: 80, 2: 96}
# The interrupts of the timers of a processor: the secure one of EL1, that of EL1, the virtual one and that of EL2.
OF_TIMERS = {"_48": number(29, 4), "_56": number(30, 4), "_64": number(27, 4), "_72": number(26, 4)}


def gtdt(*timers, revision=3, length=None, **fields):
    """A GTDT with these platform timers from the end of its fields on, on which there is no advice but for what they make, and other
    fields. Of a shorter one the end is cut off."""
    size = GTDT_SIZES.get(revision, 104)
    platform = {"_88": number(len(timers), 4), "_92": number(size if timers else 0, 4)} if revision >= 2 else {}
    length = size + sum(map(len, timers)) if length is None else length
    data = placed(bytes(size), **OF_TIMERS, **platform) + b"".join(timers) + bytes(length)
    return table(b"GTDT", placed(data[:length], **fields)[36:], revision)


def of_gtdt(kind, length, **fields):
    """A platform timer, of which a shorter one is cut off, with these fields as far as it goes."""
    return placed((bytes([kind]) + number(length, 2) + bytes(length))[:length], **fields)


def timer_block(*frames, base=0, first=20, count=None, length=None):
    """A block of frames (5.2.25.1), whose number and length are those of the frames, unless others are given."""
    count = len(frames) if count is None else count
    length = first + 40 * len(frames) if length is None else length
    made = of_gtdt(0, length, _4=number(base, 8), _12=number(count, 4), _16=number(first, 4))
    return placed(made, **{f"_{first}": b"".join(frames)}) if frames else made


def timer_frame(frame_number=0, base=0x10000, el0_base=0, gsiv=40, virtual_gsiv=0, flags=0):
    """A frame of a block."""
    numbers = {"_4": number(base, 8), "_12": number(el0_base, 8), "_20": number(gsiv, 4), "_28": number(virtual_gsiv, 4)}
    return placed(bytes([frame_number]) + bytes(39), **numbers, _36=number(flags, 4))


def watchdog(refresh=0x20000, control=0x30000, gsiv=48, length=28):
    """A watchdog (5.2.25.2)."""
    return of_gtdt(1, length, _4=number(refresh, 8), _12=number(control, 8), _20=number(gsiv, 4))


# ---- DMAR (Intel VT-d specification, 8)

# The types of remapping structures, and of device scopes.
DRHD, RMRR, ATSR, RHSA, ANDD, SATC, SIDP = range(7)
ENDPOINT, BRIDGE, SCOPE_IO_APIC, SCOPE_HPET, NAMESPACE_DEVICE = range(1, 6)
INCLUDE_PCI_ALL = ALL_PORTS = 1 << 0
# Where the registers of a DRHD are, unless another address is given.
REGISTERS_AT = 0xFED90000


def dmar(*structures, width=47, flags=0, revision=1):
    """A DMAR of addresses of 48 bits, unless another width less one is given."""
    return table(b"DMAR", bytes([width, flags]) + bytes(10) + b"".join(structures), revision)


def of_dmar(kind, length, **fields):
    """A remapping structure, of which a shorter one is cut off, with these fields as far as it goes."""
    return placed((number(kind, 2) + number(length, 2) + bytes(length))[:length], **fields)


def scoped(kind, least, scopes, length, **fields):
    """A remapping structure with scopes behind its fields. Of a shorter one the end is cut off, and a longer one has zeros there."""
    within = b"".join(scopes)
    return of_dmar(kind, least + len(within) if length is None else length, **fields, **{f"_{least}": within})


def drhd(*scopes, base=REGISTERS_AT, flags=0, segment=0, size=0, length=None):
    """An IOMMU (8.3)."""
    fields = {"_4": bytes([flags, size]), "_6": number(segment, 2), "_8": number(base, 8)}
    return scoped(DRHD, 16, scopes, length, **fields)


def rmrr(*scopes, base=0x1000, limit=0x1FFF, segment=0, length=None):
    """A region of memory that devices use (8.4)."""
    fields = {"_6": number(segment, 2), "_8": number(base, 8), "_16": number(limit, 8)}
    return scoped(RMRR, 24, scopes, length, **fields)


def atsr(*scopes, flags=0, segment=0, length=None):
    """Root ports that take requests of translated addresses (8.5)."""
    return scoped(ATSR, 8, scopes, length, _4=bytes([flags]), _6=number(segment, 2))


def rhsa(base=REGISTERS_AT, domain=0, length=20):
    """The domain of an IOMMU (8.6)."""
    return of_dmar(RHSA, length, _8=number(base, 8), _16=number(domain, 4))


def andd(device_number=1, name=b"\\_SB.DEV\0", length=None):
    """A device of the namespace (8.7)."""
    return of_dmar(ANDD, 8 + len(name) if length is None else length, _7=bytes([device_number]), _8=name)


def satc(*scopes, flags=0, segment=0, length=None):
    """Devices of the processor's package with a cache of translated addresses (8.8)."""
    return scoped(SATC, 8, scopes, length, _4=bytes([flags]), _6=number(segment, 2))


def sidp(*scopes, segment=0, length=None):
    """Devices of the processor's package with properties of their own (8.9)."""
    return scoped(SIDP, 8, scopes, length, _6=number(segment, 2))


def scope(kind=ENDPOINT, scope_id=0, bus=0, steps=((2, 0),), length=None):
    """A device scope (8.3.1) with a path of these devices and functions. Of a shorter one the end is cut off, and a longer one has zeros
    there."""
    path = b"".join(map(bytes, steps))
    length = 6 + len(path) if length is None else length
    return (bytes([kind, length, 0, 0, scope_id, bus]) + path + bytes(length))[:length]


# ---- IVRS (AMD I/O Virtualization specification, 48882, 5.2)

# The types of blocks: of an IOMMU, and of memory for all devices, for one, and for a range.
IVHD_10, IVHD_11, IVHD_40 = 0x10, 0x11, 0x40
IVMD_ALL, IVMD_ONE, IVMD_RANGE, IVMD_OTHER = range(0x20, 0x24)
ALL_DEVICES, ONE_DEVICE, RANGE_START, RANGE_END = range(1, 5)
ALIAS, ALIAS_START, EXTENDED, EXTENDED_START, SPECIAL, ACPI_HID = 0x42, 0x43, 0x46, 0x47, 0x48, 0xF0
VARIETY_IO_APIC, VARIETY_HPET = 1, 2
IS_UNITY = 1 << 0


def ivrs(*blocks, info=0x2800, revision=2):
    return table(b"IVRS", number(info, 4) + bytes(8) + b"".join(blocks), revision)


def of_ivrs(kind, length, **fields):
    """A block, of which a shorter one is cut off, with these fields as far as it goes."""
    return placed((bytes([kind, 0]) + number(length, 2) + bytes(length))[:length], **fields)


def ivhd(*entries, kind=IVHD_10, device=2, base=0xFED80000, segment=0, flags=0, length=None):
    """An IOMMU (5.2.2) with these entries behind its fields. Of a shorter one the end is cut off, and a longer one has zeros there, which
    are entries of 4 bytes."""
    within, first = b"".join(entries), 24 if kind == IVHD_10 else 40
    fields = {"_1": bytes([flags]), "_4": number(device, 2) + number(0x40, 2) + number(base, 8) + number(segment, 2)}
    return of_ivrs(kind, first + len(within) if length is None else length, **fields, **{f"_{first}": within})


def ivmd(kind=IVMD_ALL, device=0, last=0, start=0x1000, size=0x1000, flags=IS_UNITY, length=32):
    """Memory that devices use (5.2.3)."""
    fields = {"_1": bytes([flags]), "_4": number(device, 2) + number(last, 2), "_16": number(start, 8) + number(size, 8)}
    return of_ivrs(kind, length, **fields)


def device_entry(kind=ONE_DEVICE, device=0, setting=0):
    """A device entry of 4 bytes, or of 8 if it is of a type from 40h on."""
    return (bytes([kind]) + number(device, 2) + bytes([setting]) + bytes(4))[: 4 if kind < 0x40 else 8]


def special(variety=VARIETY_IO_APIC, handle=0, device=0xA0):
    """A device entry of an I/O APIC or an HPET."""
    return bytes([SPECIAL, 0, 0, 0, handle]) + number(device, 2) + bytes([variety])


def acpi_hid(hid=b"AMDI0020", uid_kind=0, uid=b"", device=0, uid_length=None):
    """A device entry of a device of the namespace."""
    uid_length = len(uid) if uid_length is None else uid_length
    return bytes([ACPI_HID]) + number(device, 2) + b"\0" + hid.ljust(8, b"\0") + bytes(8) + bytes([uid_kind, uid_length]) + uid


# ---- images


def image_of(*tables, others=(), slots=None):
    """An RSDP, an RSDT, and the tables in its slots, 0x1000 bytes apart; `others` are pieces that no slot lists."""
    listed = [TABLES_AT + 0x1000 * place for place in range(len(tables))]
    pieces = {RSDP_AT: rsdp(), RSDT_AT: rsdt(*(listed if slots is None else slots))}
    pieces.update(zip(listed, tables))
    pieces.update(others)
    return pieces


def listed(*tables, **pieces):
    """A FADT of reduced hardware at 0x2000, and these tables from 0x3000 on."""
    return image_of(fadt(), *tables, **pieces)


def sound(*tables, **pieces):
    """The same with a FADT on which there is no advice, and with a GTDT after the tables where a MADT has a GICC, and there is none."""
    lacks_gtdt = any(has_gicc(it) for it in tables) and not any(it[:4] == b"GTDT" for it in tables)
    return image_of(sound_fadt(), *tables, *[gtdt()] * lacks_gtdt, **pieces)


def has_gicc(data):
    """Whether a table is a MADT that has a GICC, before a place at which no entry is."""
    at = 44
    while data[:4] == b"APIC" and at + 2 <= len(data) and data[at + 1] >= 2:
        if data[at] == 11:
            return True
        at += data[at + 1]
    return False
