/* acpiset for C: verdicts on the static ACPI tables in an image of a machine's memory. Link with -lacpiset.
 *
 * A call reads what it is passed and keeps none of it. It takes memory from malloc and has freed all of it when it returns.
 * Calls on several threads at the same time need no lock. Whatever the bytes, addresses, counts and settings are, a call
 * returns an answer; the pointers and lengths have to be right, and the thread needs 100 KiB of stack. */
#ifndef ACPISET_H
#define ACPISET_H

#include <stddef.h>
#include <stdint.h>

/* The library has the calling convention of x86-64 Linux, whatever the compiler's usual one is. */
#if defined(_WIN64)
#error "acpiset.h: the library has the calling convention of x86-64 Linux, and not that of Windows"
#elif defined(__GNUC__) && defined(__x86_64__)
#define ACPISET_CALL __attribute__((sysv_abi))
#else
#define ACPISET_CALL
#endif

#ifdef __cplusplus
extern "C" {
#endif

/* Changes when a function or a struct below changes; acpiset_abi() returns the library's. */
#define ACPISET_ABI 1

/* Bytes of the image: `length` bytes, the first of them at `address`. With a length of 0 `bytes` may be NULL. */
struct acpiset_piece {
    uint64_t address;
    const uint8_t *bytes;
    size_t length;
};

/* The number of inputs, 1 to 256, of the I/O APIC that the MADT gives this address. No ACPI table says it: software reads it
 * from the I/O APIC. If an address is repeated, the first number counts. */
struct acpiset_inputs {
    uint32_t address;
    uint32_t count;
};

/* What acpiset_settings.hotplug says. */
enum acpiset_hotplug {
    ACPISET_HOTPLUG_COUNTED = 0, /* hot-pluggable ranges of the SRAT are compared with all enabled ranges */
    ACPISET_HOTPLUG_APART = 1    /* hot-pluggable ranges are compared with one another alone, the others likewise */
};

/* What acpiset_settings.processors says. */
enum acpiset_processors {
    ACPISET_PROCESSORS_ENABLED = 0, /* a processor with the flag Enabled counts as enabled */
    ACPISET_PROCESSORS_USABLE = 1   /* so does one with the flag Online Capable */
};

struct acpiset_settings {
    size_t size;             /* sizeof(struct acpiset_settings) */
    uint64_t rsdp;           /* the RSDP's address */
    uint32_t default_inputs; /* the number of inputs, 1 to 256, of each I/O APIC that is given none; 24 is usual */
    uint32_t hotplug;        /* enum acpiset_hotplug */
    uint32_t processors;     /* enum acpiset_processors */
    uint32_t through;        /* the last stage that a check goes through, 1 to 18; no other call looks at it */
};

/* The usual settings, as an initializer. */
#define ACPISET_SETTINGS(rsdp) \
    { sizeof(struct acpiset_settings), (uint64_t)(rsdp), 24, ACPISET_HOTPLUG_COUNTED, ACPISET_PROCESSORS_ENABLED, 18 }

/* A fault, or a finding of advice. What the three numbers are depends on the code or the rule: acpiset-faults(7). */
struct acpiset_finding {
    uint32_t number; /* enum acpiset_code or enum acpiset_rule */
    uint64_t at;
    uint64_t other;
    uint64_t point;
};

/* What an answer says. A kind is never renumbered; later versions may add some. */
enum acpiset_kind {
    ACPISET_YES = 0,                /* there is no fault; the fault is in the image; the RSDP was found; the set is shown or rebuilt */
    ACPISET_NO = 1,                 /* there is a fault; the fault is not in the image; no RSDP was found */
    ACPISET_OUT_OF_MEMORY = 2,      /* malloc or realloc returned NULL */
    ACPISET_BAD_SIZE = 3,           /* settings.size is not sizeof(struct acpiset_settings) */
    ACPISET_BAD_DEFAULT_INPUTS = 4, /* settings.default_inputs is outside 1 to 256 */
    ACPISET_BAD_HOTPLUG = 5,        /* settings.hotplug is neither 0 nor 1 */
    ACPISET_BAD_PROCESSORS = 6,     /* settings.processors is neither 0 nor 1 */
    ACPISET_BAD_STAGE = 7,          /* settings.through is outside 1 to 18 */
    ACPISET_BAD_INPUTS = 8,         /* inputs[at].count is outside 1 to 256 */
    ACPISET_BAD_CODE = 9,           /* finding.number is that of no code */
    ACPISET_PIECE_PAST_END = 10,    /* pieces[at] passes the address 2^64 - 1 */
    ACPISET_PIECES_OVERLAP = 11,    /* pieces[at] and an earlier piece share addresses; `other` is the least of them */
    /* of acpiset_check_text alone; lines count from 1: */
    ACPISET_BAD_LINE = 12,          /* line `at` is neither an address, nor data, nor empty */
    ACPISET_NO_ADDRESS = 13,        /* line `at` is data, and no address comes before it */
    ACPISET_TEXT_OVERLAP = 14,      /* the address `other` is given a second byte */
    ACPISET_TEXT_PAST_END = 15,     /* the data of line `at` passes the address 2^64 - 1 */
    ACPISET_TEXT_TOO_LONG = 16,     /* the text has more than 67,108,864 bytes, or a line more than 65,536 */
    /* of acpiset_rebuild alone: */
    ACPISET_UNALIGNED = 17,         /* `base` is not a multiple of 64 */
    ACPISET_TABLE_TOO_LONG = 18,    /* the XSDT would have more than 4,294,967,295 bytes */
    ACPISET_PAST_END = 19,          /* a part of the set would pass the address 2^64 - 1 */
    ACPISET_NEEDS_LOW = 20          /* the FADT has fewer than 140 bytes, and the FACS would be at 2^32 or above */
};

/* Numbers that a kind does not use are 0. */
struct acpiset_answer {
    uint32_t kind;  /* enum acpiset_kind */
    uint32_t stage; /* the stage of a fault, 1 to 18, as acpiset_check, acpiset_show and acpiset_rebuild report it */
    uint32_t code;  /* its code: enum acpiset_code */
    uint64_t at;    /* its first number; acpiset_find: the RSDP's address; acpiset_lint: how many faults; acpiset_show and
                       acpiset_rebuild: how many bytes there are */
    uint64_t other; /* its second number; acpiset_lint: how many findings of advice */
    uint64_t point; /* its third number */
};

/* The verdict on the tables of the image that the pieces make up: ACPISET_YES, or ACPISET_NO with the first fault. Pieces may
 * come in any order. `pieces` may be NULL if `pieces_count` is 0, and `inputs` if `inputs_count` is 0. */
struct acpiset_answer acpiset_check(const struct acpiset_piece *pieces, size_t pieces_count,
                                    const struct acpiset_inputs *inputs, size_t inputs_count,
                                    const struct acpiset_settings *settings) ACPISET_CALL;

/* The same, of an image that is passed as image text, which need not end with a zero byte. `text` may be NULL if `length` is 0. */
struct acpiset_answer acpiset_check_text(const char *text, size_t length,
                                         const struct acpiset_inputs *inputs, size_t inputs_count,
                                         const struct acpiset_settings *settings) ACPISET_CALL;

/* Whether one fault is in the image: ACPISET_YES or ACPISET_NO. It need not be the first one. */
struct acpiset_answer acpiset_confirm(const struct acpiset_piece *pieces, size_t pieces_count,
                                      const struct acpiset_inputs *inputs, size_t inputs_count,
                                      const struct acpiset_settings *settings, const struct acpiset_finding *finding) ACPISET_CALL;

/* The most findings that acpiset_lint of this version reports. A shared library of a later version may count more. */
/* begin: most, made by scripts/lists.py */
#define ACPISET_MOST_FINDINGS 248
/* end: most */

/* All that is wrong: the first fault of each code that has one, and then the first finding of each rule of advice that is
 * broken, both by number. The answer is ACPISET_YES if there is no fault, else ACPISET_NO, with the number of faults in `at`
 * and of findings of advice in `other`. Of these at+other findings the first `findings_count` are written to `findings`, which
 * may be NULL if `findings_count` is 0: read no more of them than findings_count. With any other answer nothing is written. */
struct acpiset_answer acpiset_lint(const struct acpiset_piece *pieces, size_t pieces_count,
                                   const struct acpiset_inputs *inputs, size_t inputs_count,
                                   const struct acpiset_settings *settings,
                                   struct acpiset_finding *findings, size_t findings_count) ACPISET_CALL;

/* Where the RSDP is, if a BIOS put it where ACPI 6.5, 5.2.5.1 says: ACPISET_YES with its address in `at`, or ACPISET_NO. The
 * multiples of 16 from 0xe0000 to 0xffff0 are searched. */
struct acpiset_answer acpiset_find(const struct acpiset_piece *pieces, size_t pieces_count) ACPISET_CALL;

/* The contents of the set as text: the lines that `acpiset show` prints. ACPISET_YES with the number of their bytes in `at`, if the RSDP,
 * the root table and the listed tables are valid (stages 1 to 3); else ACPISET_NO with the first fault, as acpiset_check has it. The
 * bytes are written to `text`, as many as fit, without a final zero; the rest of it does not change. With any other answer than
 * ACPISET_YES nothing is written. `text` may be NULL if `size` is 0. */
struct acpiset_answer acpiset_show(const struct acpiset_piece *pieces, size_t pieces_count,
                                   const struct acpiset_inputs *inputs, size_t inputs_count,
                                   const struct acpiset_settings *settings, char *text, size_t size) ACPISET_CALL;

/* The set at another address, as `acpiset rebuild` moves it: its memory from `base` on, where the new RSDP is. All addresses in it are
 * those of the new place; between the parts are zeros. ACPISET_YES with the number of bytes in `at`; or ACPISET_NO with the first fault,
 * if the set has one in any stage; or why it cannot be placed at `base`. The bytes are written to `bytes`, as many as fit; the rest of
 * it does not change. With any other answer than ACPISET_YES nothing is written. `bytes` may be NULL if `size` is 0. */
struct acpiset_answer acpiset_rebuild(const struct acpiset_piece *pieces, size_t pieces_count,
                                      const struct acpiset_inputs *inputs, size_t inputs_count,
                                      const struct acpiset_settings *settings,
                                      uint64_t base, uint8_t *bytes, size_t size) ACPISET_CALL;

/* What the number of a finding means, for languages that do not read this header: its stage, 0 for a rule of advice; its severity
 * (enum acpiset_severity); its name; and a text for people: what is wrong, and how it is mended. Name and text are written to `room`,
 * as many bytes as fit, without a final zero, and the number of their bytes is returned. For a number that is neither that of a code
 * nor that of a rule all four return 0. `room` may be NULL if `room_count` is 0. */
uint32_t acpiset_stage(uint32_t number) ACPISET_CALL;
uint32_t acpiset_severity(uint32_t number) ACPISET_CALL;
size_t acpiset_name(uint32_t number, char *room, size_t room_count) ACPISET_CALL;
size_t acpiset_explain(uint32_t number, char *room, size_t room_count) ACPISET_CALL;

/* The version of the functions and structs of the library that is linked; compare it with ACPISET_ABI. */
uint32_t acpiset_abi(void) ACPISET_CALL;

/* ---- codes, rules and names */

/* The codes of faults, by the stage that reports them. acpiset-faults(7) says of each what its numbers are and what to fix. */
/* begin: codes, made by scripts/lists.py */
enum acpiset_code {
    /* stage 1: the RSDP */
    ACPISET_RSDP_OUT = 1,                 /* the 20 bytes at the RSDP's address are not all in the image */
    ACPISET_RSDP_SIGNATURE = 2,           /* the RSDP does not begin with "RSD PTR " */
    ACPISET_RSDP_SUM = 3,                 /* the checksum of the RSDP's first 20 bytes is wrong */
    ACPISET_RSDP_TAIL_OUT = 4,            /* the RSDP has Revision 2 or more, and its 36 bytes are not all in the image */
    ACPISET_RSDP_LENGTH = 5,              /* the RSDP's Length is below 36 */
    ACPISET_RSDP_LONG_OUT = 6,            /* the RSDP's Length bytes are not all in the image */
    ACPISET_RSDP_EXTENDED_SUM = 7,        /* the RSDP's extended checksum is wrong */
    /* stage 2: the XSDT or RSDT */
    ACPISET_NO_ROOT = 8,                  /* the RSDP gives the address of neither an XSDT nor an RSDT */
    ACPISET_ROOT_HEADER_OUT = 9,          /* the header of the XSDT or RSDT is not all in the image */
    ACPISET_ROOT_SIGNATURE = 10,          /* the XSDT or RSDT has another signature */
    ACPISET_ROOT_LENGTH = 11,             /* the Length of the XSDT or RSDT is below 36 */
    ACPISET_ROOT_OUT = 12,                /* the XSDT or RSDT is not all in the image */
    ACPISET_ROOT_RAGGED = 13,             /* the XSDT or RSDT ends inside an entry */
    ACPISET_ROOT_SUM = 14,                /* the checksum of the XSDT or RSDT is wrong */
    /* stage 3: each listed table's header, length and checksum */
    ACPISET_TABLE_HEADER_OUT = 15,        /* the header of a listed table is not all in the image */
    ACPISET_TABLE_LENGTH = 16,            /* the Length of a listed table is below 36 */
    ACPISET_TABLE_OUT = 17,               /* a listed table is not all in the image */
    ACPISET_TABLE_SUM = 18,               /* the checksum of a listed table is wrong */
    /* stage 4: the FADT */
    ACPISET_NO_FADT = 19,                 /* no FADT is listed */
    ACPISET_FADT_SHORT = 20,              /* the FADT's Length is below 116 */
    ACPISET_PM_EVENT_LENGTH = 21,         /* PM1_EVT_LEN is below 4 */
    ACPISET_PM_CONTROL_LENGTH = 22,       /* PM1_CNT_LEN is below 2 */
    ACPISET_PM_TIMER_LENGTH = 23,         /* PM_TMR_LEN is neither 0 nor 4 */
    ACPISET_GPE_LENGTH = 24,              /* the length of a GPE block is odd */
    ACPISET_RESET_REGISTER = 25,          /* RESET_REG is not one that ACPI 6.5, 4.8.3.6 allows */
    /* stage 5: the FACS */
    ACPISET_NO_FACS = 26,                 /* the hardware is not reduced, and the FADT gives no address of a FACS */
    ACPISET_FACS_ALIGN = 27,              /* the FACS's address is no multiple of 64 */
    ACPISET_FACS_HEADER_OUT = 28,         /* the FACS's first 8 bytes are not all in the image */
    ACPISET_FACS_SIGNATURE = 29,          /* the FACS does not begin with "FACS" */
    ACPISET_FACS_LENGTH = 30,             /* the FACS's Length is below 64 */
    ACPISET_FACS_OUT = 31,                /* the FACS is not all in the image */
    /* stage 6: the MADT */
    ACPISET_MADT_SHORT = 32,              /* the MADT's Length is below 44 */
    ACPISET_MADT_ENTRY_CUT = 33,          /* a structure of the MADT is cut off, or its length is below 2 */
    ACPISET_MADT_ENTRY_LENGTH = 34,       /* a structure of the MADT does not have the length of its type */
    ACPISET_OVERRIDE_BUS = 35,            /* an Interrupt Source Override has a Bus other than 0 */
    ACPISET_RESERVED_INTI = 36,           /* MPS INTI Flags have a reserved polarity or trigger mode */
    ACPISET_SECOND_ADDRESS_OVERRIDE = 37, /* there is a second Local APIC Address Override */
    ACPISET_GSI_PAST_END = 38,            /* an interrupt number of an I/O APIC is above 2^32 - 1 */
    /* stage 7: interrupt numbers: none is served by two I/O APICs */
    ACPISET_GSI_CLASH = 39,               /* two I/O APICs serve one interrupt number */
    /* stage 8: interrupt source overrides: none contradicts another */
    ACPISET_OVERRIDE_CLASH = 40,          /* two overrides give one source two interrupt numbers */
    /* stage 9: the SRAT */
    ACPISET_SRAT_SHORT = 41,              /* the SRAT's Length is below 48 */
    ACPISET_SRAT_ENTRY_CUT = 42,          /* a structure of the SRAT is cut off, or its length is below 2 */
    ACPISET_SRAT_ENTRY_LENGTH = 43,       /* a structure of the SRAT does not have the length of its type */
    ACPISET_RANGE_PAST_END = 44,          /* an enabled memory range passes 2^64 - 1 */
    /* stage 10: memory ranges: no address is in two */
    ACPISET_OVERLAP = 45,                 /* two enabled memory ranges overlap */
    /* stage 11: the SLIT */
    ACPISET_SLIT_SHORT = 46,              /* the SLIT's Length is below 44 */
    ACPISET_SLIT_SIZE = 47,               /* the SLIT's Length does not fit its number of localities */
    ACPISET_SLIT_DIAGONAL = 48,           /* the distance of a locality to itself is not 10 */
    ACPISET_SLIT_LOW = 49,                /* a distance is below 10 */
    /* stage 12: the PPTT */
    ACPISET_PPTT_ENTRY_CUT = 50,          /* a structure of the PPTT is cut off, or its length is below 2 */
    ACPISET_PPTT_ENTRY_LENGTH = 51,       /* a structure of the PPTT does not have the length of its type */
    /* stage 13: references of the PPTT's entries */
    ACPISET_DANGLING_PARENT = 52,         /* a node's Parent is neither 0 nor the offset of a node */
    ACPISET_DANGLING_RESOURCE = 53,       /* a node's private resource is no offset of a structure, or that of a node */
    ACPISET_DANGLING_CACHE = 54,          /* a cache's Next Level of Cache is neither 0 nor the offset of a cache */
    /* stage 14: chains of parents end */
    ACPISET_PARENT_CYCLE = 55,            /* the Parents of nodes form a cycle */
    /* stage 15: chains of caches end */
    ACPISET_CACHE_CYCLE = 56,             /* the next levels of caches form a cycle */
    /* stage 16: no enabled processor has two proximity domains */
    ACPISET_TWO_DOMAINS = 57,             /* an enabled processor is in two proximity domains */
    /* stage 17: each interrupt number that an entry names is served */
    ACPISET_GSI_NOWHERE = 58,             /* an override or NMI source has an interrupt number that no I/O APIC serves */
    /* stage 18: each leaf of the PPTT is a processor of the MADT */
    ACPISET_LEAF_UNKNOWN = 59             /* a leaf's ACPI Processor ID is no processor's UID in the MADT */
};
/* end: codes */

/* The rules of advice. A set of tables may have a reason to break one. A processor is usable if it is Enabled or Online
 * Capable. */
/* begin: rules, made by scripts/lists.py */
enum acpiset_rule {
    ACPISET_LISTED_TWICE = 101,         /* an address is listed twice */
    ACPISET_SECOND_TABLE = 102,         /* a second table of a kind is listed, of which only the first is read */
    ACPISET_LISTED_APART = 103,         /* a DSDT or FACS is listed, which only the FADT should name */
    ACPISET_FADT_OF_REVISION = 104,     /* the FADT is too short for its Revision */
    ACPISET_FACS_DIFFERS = 105,         /* FIRMWARE_CTRL and X_FIRMWARE_CTRL differ */
    ACPISET_DSDT_DIFFERS = 106,         /* DSDT and X_DSDT differ */
    ACPISET_BLOCK_DIFFERS = 107,        /* the two fields of a register block give different I/O ports */
    ACPISET_SCI_NOWHERE = 108,          /* no I/O APIC serves the interrupt number of SCI_INT */
    ACPISET_SAME_UID = 109,             /* two usable processors have the same UID */
    ACPISET_SAME_APIC_ID = 110,         /* two usable processors have the same APIC ID, X2APIC ID or core ID */
    ACPISET_IO_APIC_AT_ZERO = 111,      /* an I/O APIC has the address 0 */
    ACPISET_SAME_IO_APIC_ID = 112,      /* two I/O APICs have the same ID */
    ACPISET_SAME_IO_APIC_ADDRESS = 113, /* two I/O APICs have the same address */
    ACPISET_NMI_NOWHERE = 114,          /* a Local APIC NMI or Local x2APIC NMI names a UID that no processor has */
    ACPISET_SECOND_GICD = 115,          /* there is a second GIC Distributor */
    ACPISET_NO_PROCESSOR = 116,         /* no processor is usable */
    ACPISET_TWO_UID_DOMAINS = 117,      /* two affinities put the processor of one UID in two proximity domains */
    ACPISET_AFFINITY_NOWHERE = 118,     /* the SRAT has a processor that the MADT does not have */
    ACPISET_NO_DOMAIN = 119,            /* a usable processor is not in the SRAT, which has affinities */
    ACPISET_DOMAIN_PAST_SLIT = 120,     /* a proximity domain of the SRAT is no locality of the SLIT */
    ACPISET_SLIT_DIFFERS = 121,         /* the distance between two localities depends on the direction */
    ACPISET_SAME_LEAF = 122,            /* two leaves of the PPTT have the same ACPI Processor ID */
    ACPISET_CACHE_SHAPE = 123,          /* a cache has no sets, or a line size that is no power of two */
    ACPISET_SAME_CACHE_ID = 124,        /* two caches have the same Cache ID */
    ACPISET_NO_LEAF = 125,              /* a usable processor has no leaf in the PPTT, which has nodes */
    ACPISET_LEAF_NOWHERE = 126,         /* a leaf's ACPI Processor ID is no UID, and not all processors are of x86 */
    ACPISET_MADT_UNREAD = 127,          /* a structure of the MADT of a type or length that is not read */
    ACPISET_SRAT_UNREAD = 128,          /* a structure of the SRAT of a type or length that is not read */
    ACPISET_NULL_SLOT = 129,            /* a slot of the root table is 0 */
    ACPISET_RSDT_DIFFERS = 130,         /* the RSDT and the XSDT list different numbers of tables with a signature */
    ACPISET_TABLES_OVERLAP = 131,       /* two structures, the RSDP or tables, share bytes of memory */
    ACPISET_NO_DSDT = 132,              /* the FADT names no DSDT */
    ACPISET_DSDT_WRONG = 133,           /* the DSDT has another signature, a wrong Length or a wrong checksum */
    ACPISET_NO_PM1_BLOCK = 134,         /* PM1a_EVT_BLK or PM1a_CNT_BLK is missing */
    ACPISET_BLOCK_WIDTH = 135,          /* the length of a register block is not the width of its X_ structure */
    ACPISET_HALF_BLOCK = 136,           /* a register block has an address and no length, or a length and no address */
    ACPISET_PORTS_OVERLAP = 137,        /* two register blocks share an I/O port */
    ACPISET_PORT_PAST_END = 138,        /* a register is at an I/O port above 0xffff */
    ACPISET_GPE_OVERLAP = 139,          /* GPE1_BASE is an event number of the GPE0 block */
    ACPISET_SMI_HALF = 140,             /* SMI_CMD cannot switch between legacy mode and ACPI mode, or is 0 and its values are not */
    ACPISET_SCI_ZERO = 141,             /* SCI_INT is 0 */
    ACPISET_RESET_NOWHERE = 142,        /* the reset register is supported and has the address 0 */
    ACPISET_FADT_FOR_ARCH = 143,        /* the MADT is of Arm or RISC-V, and the FADT is not of reduced hardware or is too old */
    ACPISET_SLEEP_REGISTER = 144,       /* a sleep register of reduced hardware has no address, or not 8 bits from bit 0 on */
    ACPISET_FADT_RESERVED = 145,        /* a field of the FADT has a reserved value */
    ACPISET_FACS_RESERVED = 146,        /* a field of the FACS has a reserved value */
    ACPISET_RSDP_RESERVED = 147,        /* a field of the RSDP has a reserved value */
    ACPISET_HEADER_TEXT = 148,          /* a text of a table's header has a byte that is not printable */
    ACPISET_SECOND_OTHER = 149,         /* a second table of a kind is listed that should be listed once */
    ACPISET_X2_APIC_BELOW255 = 150,     /* a usable local x2APIC and a usable local APIC both have an ID below 255 */
    ACPISET_BROADCAST_ID = 151,         /* a usable processor has the ID of a broadcast */
    ACPISET_CAPABLE_TOO_EARLY = 152,    /* a processor is Online Capable, which the FADT's version does not have */
    ACPISET_ENABLED_AND_CAPABLE = 153,  /* a processor is both Enabled and Online Capable */
    ACPISET_OVERRIDE_PAST_ISA = 154,    /* an override is for an interrupt above 15 that is not SCI_INT */
    ACPISET_TIMER_LEVEL = 155,          /* the override of ISA interrupt 0, the timer, is level-triggered */
    ACPISET_TWO_SOURCES_ONE_GSI = 156,  /* two ISA interrupts are overridden with one interrupt number */
    ACPISET_LINT_NOT_ONE = 157,         /* an NMI is connected to another input than LINT1 */
    ACPISET_NO_IO_APIC = 158,           /* overrides or NMI sources are there, and no I/O APIC */
    ACPISET_NO_DISTRIBUTOR = 159,       /* there are GIC CPU interfaces, and no GIC Distributor */
    ACPISET_NO_REDISTRIBUTOR = 160,     /* the GIC has version 3 or 4, and no redistributor */
    ACPISET_GICR_TOO_SMALL = 161,       /* the ranges of redistributors are too small for the usable processors */
    ACPISET_GICC_BASE_DIFFERS = 162,    /* two GIC CPU interfaces of a GIC of version 1 or 2 have different base addresses */
    ACPISET_SAME_MPIDR = 163,           /* two usable processors have the same MPIDR */
    ACPISET_MPIDR_RESERVED = 164,       /* a usable processor's MPIDR has a reserved bit set */
    ACPISET_GICR_EMPTY = 165,           /* a range of redistributors has the length 0 */
    ACPISET_SAME_ITS = 166,             /* two ITS have the same ID */
    ACPISET_SAME_MSI_FRAME = 167,       /* two GIC MSI frames have the same ID */
    ACPISET_GIC_OVERLAP = 168,          /* two structures of the GIC share an address */
    ACPISET_REDISTRIBUTOR_TWICE = 169,  /* a processor names a redistributor, and ranges of redistributors are there */
    ACPISET_NO_BOOT_METHOD = 170,       /* there are several processors and neither PSCI nor a parking protocol */
    ACPISET_SAME_HART = 171,            /* two usable harts have the same ID */
    ACPISET_MADT_RESERVED = 172,        /* a field of the MADT has a reserved value */
    ACPISET_NO_MEMORY_RANGE = 173,      /* an SRAT with affinities has no enabled memory range of a length above 0 */
    ACPISET_EMPTY_RANGE = 174,          /* an enabled memory range has the length 0 */
    ACPISET_INITIATOR_OFF = 175,        /* a Generic Initiator is not enabled */
    ACPISET_DOMAIN_PAST_REVISION = 176, /* a domain above 255 is in an SRAT of a Revision below 2 */
    ACPISET_ITS_NOWHERE = 177,          /* the SRAT has an ITS that the MADT does not have */
    ACPISET_SRAT_RESERVED = 178,        /* a field of the SRAT has a reserved value */
    ACPISET_REMOTE_AS_LOCAL = 179,      /* the distance of a locality from another one is 10, that from itself */
    ACPISET_LEAF_UNFLAGGED = 180,       /* a processor that no node names as Parent is not marked as a leaf */
    ACPISET_LEAF_AS_PARENT = 181,       /* a leaf is the Parent of a node */
    ACPISET_NO_PACKAGE = 182,           /* no node from a leaf to its root is a package */
    ACPISET_CACHE_NUMBERS = 183,        /* a cache's size or associativity is 0, or its size is not sets * ways * line size */
    ACPISET_PPTT_RESERVED = 184,        /* a field of the PPTT has a reserved value */
    ACPISET_MCFG_LENGTH = 185,          /* the MCFG's Length is not 44 plus 16 for each of one or more entries */
    ACPISET_ECAM_ADDRESS = 186,         /* an entry of the MCFG has a base address that is 0 or no multiple of 1 MiB */
    ACPISET_BUSES_REVERSED = 187,       /* an entry of the MCFG has an end bus number below its start bus number */
    ACPISET_ECAM_WRAPS = 188,           /* the address range of an entry of the MCFG ends above the highest address */
    ACPISET_ECAM_TOO_HIGH = 189,        /* the MCFG has Revision 0, and an entry's base address is not below 0xffffffff */
    ACPISET_SAME_BUS = 190,             /* two entries of the MCFG have the same bus of the same PCI segment */
    ACPISET_ECAM_OVERLAP = 191,         /* the ECAMs of two entries of the MCFG share an address */
    ACPISET_HPET_LENGTH = 192,          /* the HPET is shorter than 56 bytes */
    ACPISET_HPET_SPACE = 193,           /* the HPET's base address is not in memory */
    ACPISET_HPET_ADDRESS = 194,         /* the HPET's base address is 0, has its halves swapped, or is no multiple of 1024 */
    ACPISET_HMAT_HEADER = 195,          /* the HMAT is shorter than 40 bytes, or its Revision is neither 1 nor 2 */
    ACPISET_HMAT_CUT = 196,             /* after the last structure of the HMAT there are bytes that are not a structure */
    ACPISET_HMAT_LENGTH = 197,          /* a structure of the HMAT does not have the length of its type, or is too short for its lists */
    ACPISET_HMAT_DATA_TYPE = 198,       /* a latency and bandwidth structure of the HMAT has a reserved data type */
    ACPISET_HMAT_HIERARCHY = 199,       /* a latency and bandwidth structure of the HMAT has a reserved memory hierarchy */
    ACPISET_HMAT_UNIT = 200,            /* a latency and bandwidth structure of the HMAT has the base unit 0 */
    ACPISET_HMAT_TOO_LARGE = 201,       /* a latency or bandwidth of the HMAT does not fit into 32 bits */
    ACPISET_HMAT_SAME_DOMAIN = 202,     /* a latency and bandwidth structure of the HMAT lists an initiator or a target twice */
    ACPISET_HMAT_PROXIMITY = 203,       /* a structure of the HMAT has an initiator or memory in a domain that the SRAT does not have */
    ACPISET_HMAT_DOMAIN_NOWHERE = 204,  /* a latency and bandwidth structure of the HMAT has an initiator or a target in a domain that the SRAT does not have */
    ACPISET_HMAT_CACHE_NOWHERE = 205,   /* a memory side cache of the HMAT is of a domain in which the SRAT has no memory */
    ACPISET_HMAT_CACHE = 206,           /* a memory side cache of the HMAT has reserved attributes, or a level above its number of levels */
    ACPISET_HMAT_ALONE = 207,           /* there is an HMAT, and no SRAT is listed */
    ACPISET_GTDT_LENGTH = 208,          /* the GTDT is too short for its Revision */
    ACPISET_NO_GTDT = 209,              /* the MADT has a GIC CPU interface, and no GTDT is listed */
    ACPISET_NO_TIMER = 210,             /* the GTDT has neither the non-secure EL1 timer nor the virtual timer */
    ACPISET_TIMER_NO_PPI = 211,         /* the GTDT gives a timer of each processor an interrupt that is no PPI */
    ACPISET_SAME_TIMER = 212,           /* two timers of the GTDT have the same interrupt */
    ACPISET_PLATFORM_TIMER_CUT = 213,   /* the GTDT has fewer platform timers than it says, or one of an unknown type */
    ACPISET_TIMER_BLOCK = 214,          /* a GT Block of the GTDT does not have 1 to 8 frames that end with it */
    ACPISET_TIMER_FRAME = 215,          /* a frame of a GT Block of the GTDT has a number above 7, or is non-secure and has no address or no interrupt */
    ACPISET_SAME_FRAME = 216,           /* two frames of a GT Block of the GTDT have the same number */
    ACPISET_WATCHDOG = 217,             /* a watchdog of the GTDT does not have 28 bytes, or one of its addresses is 0 */
    ACPISET_TIMER_NO_SPI = 218,         /* the GTDT gives a platform timer an interrupt that is no SPI */
    ACPISET_TIMER_OVERLAP = 219,        /* two ranges of registers of the GTDT's platform timers share an address */
    ACPISET_DMAR_WIDTH = 240,           /* the DMAR is shorter than 48 bytes, or its Host Address Width is not 11 to 63 */
    ACPISET_DMAR_CUT = 241,             /* after the last structure of the DMAR there are bytes that are not a structure */
    ACPISET_DMAR_SHORT = 242,           /* a structure of the DMAR is shorter than the fields of its type */
    ACPISET_NO_DRHD = 243,              /* the DMAR has no DRHD */
    ACPISET_SCOPE_CUT = 244,            /* after the last device scope of a structure of the DMAR there are bytes that are not a device scope */
    ACPISET_SCOPE_TYPE = 245,           /* a device scope of the DMAR has an unknown type or an odd length, or a step of its path has a Device above 31 or a Function above 7 */
    ACPISET_DRHD_ADDRESS = 246,         /* a DRHD has a Register Base Address that is 0 or no multiple of 4096 */
    ACPISET_DRHD_OVERLAP = 247,         /* the registers of two DRHDs share an address */
    ACPISET_SECOND_INCLUDE_ALL = 248,   /* two DRHDs of one segment have INCLUDE_PCI_ALL set, or two ATSRs of one segment have ALL_PORTS set */
    ACPISET_INCLUDE_ALL_NOT_LAST = 249, /* a DRHD follows one of the same segment that has INCLUDE_PCI_ALL set, and does not have it set itself */
    ACPISET_RMRR_RANGE = 250,           /* the memory of an RMRR does not begin or end at a multiple of 4096, or its limit is not above its base */
    ACPISET_RMRR_NO_DEVICE = 251,       /* an RMRR has no device scope */
    ACPISET_RHSA_NOWHERE = 252,         /* an RHSA has a Register Base Address that no DRHD has */
    ACPISET_RHSA_DOMAIN = 253,          /* an RHSA is in a proximity domain that the SRAT does not have */
    ACPISET_SAME_RHSA = 254,            /* two RHSAs have the same Register Base Address */
    ACPISET_ANDD_NAME = 255,            /* the ACPI Object Name of an ANDD has no byte that is 0 */
    ACPISET_ANDD_NOWHERE = 256,         /* a device scope names an ANDD that the DMAR does not have, or no DRHD has a device scope of an ANDD */
    ACPISET_IO_APIC_UNMAPPED = 257,     /* interrupts are remapped, and an I/O APIC of the MADT is in no device scope of a DRHD */
    ACPISET_SAME_SCOPE = 258,           /* two device scopes of DRHDs are of the same I/O APIC */
    ACPISET_IVRS_CUT = 259,             /* the IVRS is shorter than 48 bytes, or after its last block there are bytes that are not a block */
    ACPISET_IVRS_SHORT = 260,           /* a block of the IVRS is shorter than the fields of its type */
    ACPISET_NO_IVHD = 261,              /* the IVRS has no IVHD */
    ACPISET_IVHD_ADDRESS = 262,         /* an IVHD has an IOMMU Base Address that is 0 or no multiple of 16384 */
    ACPISET_SAME_IVHD = 263,            /* two IVHDs of one type and one PCI Segment Group have the same DeviceID */
    ACPISET_IVHD_DIFFERS = 264,         /* two IVHDs have the same IOMMU Base Address, or the same PCI Segment Group and DeviceID, and not both */
    ACPISET_IVHD_ENTRY_CUT = 265,       /* after the last device entry of an IVHD there are bytes that are not a device entry */
    ACPISET_IVHD_ENTRY_TYPE = 266,      /* a device entry of the IVRS is of a type that its block does not have, or has a Variety, a Hardware ID or a UID that is reserved */
    ACPISET_IVHD_RANGE = 267,           /* a device entry of the IVRS starts a range that the next one does not end, or ends one that the one before does not start, or that starts at a higher DeviceID */
    ACPISET_IO_APIC_NOT_IN_IVRS = 268,  /* the IVHDs of one type have special devices that are I/O APICs, and an I/O APIC of the MADT is none of them */
    ACPISET_SAME_SPECIAL = 269,         /* two special devices of one Variety, in IVHDs of one type, have the same Handle */
    ACPISET_IVMD_RANGE = 270,           /* an IVMD has reserved flags or none of a mapping, an empty range of memory or one that ends above the highest address, or a range of devices that ends below its start */
    ACPISET_SPCR_LENGTH = 271,          /* the SPCR is too short for its Revision */
    ACPISET_SPCR_ADDRESS = 272,         /* the SPCR's base address is neither in memory nor in I/O ports, or is in memory with an access size above 3 (32 bits) */
    ACPISET_SPCR_BAUD = 273,            /* the SPCR's baud rate has a reserved value, and there is no precise baud rate */
    ACPISET_SPCR_GSI = 274,             /* the SPCR names an interrupt that its interrupt controller does not have, or another controller than the MADT's GIC */
    ACPISET_SPCR_PCI = 275,             /* exactly one of the SPCR's PCI device ID and PCI vendor ID is 0xffff, or its PCI device or function number is too large */
    ACPISET_SPCR_NAME = 276,            /* the SPCR's namespace string is too short, does not lie within the table, or does not end with 0 */
    ACPISET_RSDP_TEXT = 279,            /* the OEMID of the RSDP has a byte that is not printable */
    ACPISET_ROOT_HEADER = 280,          /* the root table has a Revision that is not 1, or a text of its header has a byte that is not printable */
    ACPISET_DSDT_TEXT = 281,            /* a text of the DSDT's header has a byte that is not printable */
    ACPISET_FADT_PAST_REVISION = 282,   /* the FADT is longer than one of its Revision, or has Revision 0 */
    ACPISET_ARM_BOOT_EARLY = 283,       /* ARM_BOOT_ARCH is not 0 in a FADT older than 5.1, which does not have it */
    ACPISET_FIXED_IN_REDUCED = 284,     /* the hardware is reduced, and SMI_CMD or a register block has an address */
    ACPISET_SMI_HANDSHAKE = 285,        /* SMI_CMD is there, and one of ACPI_ENABLE and ACPI_DISABLE is 0 */
    ACPISET_S4_BIOS_DIFFERS = 286,      /* S4BIOS_REQ of the FADT and S4BIOS_F of the FACS do not agree */
    ACPISET_GPE_PAST_END = 287,         /* a GPE block has events above 255, for which there are no methods */
    ACPISET_BLOCK_TOO_LONG = 288,       /* a register block is longer than a generic address structure can describe */
    ACPISET_BLOCK_SPACE = 289,          /* a register block is neither in memory nor in I/O ports */
    ACPISET_BLOCK_USUAL_WIDTH = 290,    /* a register block has another width than the usual one */
    ACPISET_SLEEP_NOT_REDUCED = 291,    /* a sleep register has an address, and the hardware is not reduced */
    ACPISET_FADT_FOR_RISCV = 292,       /* the MADT is of RISC-V, and the FADT is older than 6.6 */
    ACPISET_GICC_SHORT = 293,           /* a GIC CPU interface has fewer than the 76 bytes of ACPI 5.1 */
    ACPISET_GICC_NO_GICR = 294,         /* an enabled processor names no redistributor, and others do */
    ACPISET_CAPABLE_NO_GICR = 295,      /* a processor is Online Capable, and there is no range of redistributors */
    ACPISET_GICC_DIFFERS = 296,         /* the virtual interface, the maintenance interrupt or the mode of a usable processor is not that of the first one */
    ACPISET_SAME_GICR_BASE = 297,       /* two enabled processors name the same redistributor */
    ACPISET_PARKING_VERSION = 298,      /* a GIC CPU interface has a version of the parking protocol above 1 */
    ACPISET_GICC_NO_PPI = 299,          /* an interrupt of a processor's profiling or trace is not private to it */
    ACPISET_PIC_VERSION = 300,          /* a structure of LoongArch or RISC-V has a version that is not 1 */
    ACPISET_FURTHER_RESERVED = 301,     /* a structure of a GIC, of LoongArch or of RISC-V has a reserved value */
    ACPISET_HART_INVALID = 302,         /* a usable hart has an ID of all ones, which no hart has */
    ACPISET_WAKEUP_MAILBOX = 303,       /* a Multiprocessor Wakeup structure is not of the length of its version, or has a wrong version, reserved bytes or address */
    ACPISET_LAPIC_AT_ZERO = 304,        /* a Local APIC Address Override has the address 0 */
    ACPISET_MADT_REVISION = 305,        /* the MADT has structures that its Revision does not have */
    ACPISET_AFFINITY_RESERVED = 306,    /* a structure of a GIC, of RISC-V, or of an initiator or a port has a reserved value */
    ACPISET_DEVICE_HANDLE = 307,        /* a device handle is neither of ACPI nor of PCI */
    ACPISET_ITS_DOMAIN = 308,           /* an ITS is in a proximity domain that nothing else is in */
    ACPISET_PPTT_UNREAD = 309,          /* a structure of the PPTT of a type that is not read */
    ACPISET_CACHE_ID_ZERO = 310,        /* a cache has the Cache ID 0, and its flags say that the ID is valid */
    ACPISET_SAME_CACHE_TYPE = 311       /* a node names two caches of one type, and neither is the Next Level of a cache that it names */
};
/* end: rules */

/* The name of a code or a rule as the program prints it, such as "RsdpOut"; "" if there is none of this number. */
/* begin: names, made by scripts/lists.py */
static inline const char *acpiset_number_name(uint32_t number) {
    switch (number) {
    case ACPISET_RSDP_OUT: return "RsdpOut";
    case ACPISET_RSDP_SIGNATURE: return "RsdpSignature";
    case ACPISET_RSDP_SUM: return "RsdpSum";
    case ACPISET_RSDP_TAIL_OUT: return "RsdpTailOut";
    case ACPISET_RSDP_LENGTH: return "RsdpLength";
    case ACPISET_RSDP_LONG_OUT: return "RsdpLongOut";
    case ACPISET_RSDP_EXTENDED_SUM: return "RsdpExtendedSum";
    case ACPISET_NO_ROOT: return "NoRoot";
    case ACPISET_ROOT_HEADER_OUT: return "RootHeaderOut";
    case ACPISET_ROOT_SIGNATURE: return "RootSignature";
    case ACPISET_ROOT_LENGTH: return "RootLength";
    case ACPISET_ROOT_OUT: return "RootOut";
    case ACPISET_ROOT_RAGGED: return "RootRagged";
    case ACPISET_ROOT_SUM: return "RootSum";
    case ACPISET_TABLE_HEADER_OUT: return "TableHeaderOut";
    case ACPISET_TABLE_LENGTH: return "TableLength";
    case ACPISET_TABLE_OUT: return "TableOut";
    case ACPISET_TABLE_SUM: return "TableSum";
    case ACPISET_NO_FADT: return "NoFadt";
    case ACPISET_FADT_SHORT: return "FadtShort";
    case ACPISET_PM_EVENT_LENGTH: return "PmEventLength";
    case ACPISET_PM_CONTROL_LENGTH: return "PmControlLength";
    case ACPISET_PM_TIMER_LENGTH: return "PmTimerLength";
    case ACPISET_GPE_LENGTH: return "GpeLength";
    case ACPISET_RESET_REGISTER: return "ResetRegister";
    case ACPISET_NO_FACS: return "NoFacs";
    case ACPISET_FACS_ALIGN: return "FacsAlign";
    case ACPISET_FACS_HEADER_OUT: return "FacsHeaderOut";
    case ACPISET_FACS_SIGNATURE: return "FacsSignature";
    case ACPISET_FACS_LENGTH: return "FacsLength";
    case ACPISET_FACS_OUT: return "FacsOut";
    case ACPISET_MADT_SHORT: return "MadtShort";
    case ACPISET_MADT_ENTRY_CUT: return "MadtEntryCut";
    case ACPISET_MADT_ENTRY_LENGTH: return "MadtEntryLength";
    case ACPISET_OVERRIDE_BUS: return "OverrideBus";
    case ACPISET_RESERVED_INTI: return "ReservedInti";
    case ACPISET_SECOND_ADDRESS_OVERRIDE: return "SecondAddressOverride";
    case ACPISET_GSI_PAST_END: return "GsiPastEnd";
    case ACPISET_GSI_CLASH: return "GsiClash";
    case ACPISET_OVERRIDE_CLASH: return "OverrideClash";
    case ACPISET_SRAT_SHORT: return "SratShort";
    case ACPISET_SRAT_ENTRY_CUT: return "SratEntryCut";
    case ACPISET_SRAT_ENTRY_LENGTH: return "SratEntryLength";
    case ACPISET_RANGE_PAST_END: return "RangePastEnd";
    case ACPISET_OVERLAP: return "Overlap";
    case ACPISET_SLIT_SHORT: return "SlitShort";
    case ACPISET_SLIT_SIZE: return "SlitSize";
    case ACPISET_SLIT_DIAGONAL: return "SlitDiagonal";
    case ACPISET_SLIT_LOW: return "SlitLow";
    case ACPISET_PPTT_ENTRY_CUT: return "PpttEntryCut";
    case ACPISET_PPTT_ENTRY_LENGTH: return "PpttEntryLength";
    case ACPISET_DANGLING_PARENT: return "DanglingParent";
    case ACPISET_DANGLING_RESOURCE: return "DanglingResource";
    case ACPISET_DANGLING_CACHE: return "DanglingCache";
    case ACPISET_PARENT_CYCLE: return "ParentCycle";
    case ACPISET_CACHE_CYCLE: return "CacheCycle";
    case ACPISET_TWO_DOMAINS: return "TwoDomains";
    case ACPISET_GSI_NOWHERE: return "GsiNowhere";
    case ACPISET_LEAF_UNKNOWN: return "LeafUnknown";
    case ACPISET_LISTED_TWICE: return "ListedTwice";
    case ACPISET_SECOND_TABLE: return "SecondTable";
    case ACPISET_LISTED_APART: return "ListedApart";
    case ACPISET_FADT_OF_REVISION: return "FadtOfRevision";
    case ACPISET_FACS_DIFFERS: return "FacsDiffers";
    case ACPISET_DSDT_DIFFERS: return "DsdtDiffers";
    case ACPISET_BLOCK_DIFFERS: return "BlockDiffers";
    case ACPISET_SCI_NOWHERE: return "SciNowhere";
    case ACPISET_SAME_UID: return "SameUid";
    case ACPISET_SAME_APIC_ID: return "SameApicId";
    case ACPISET_IO_APIC_AT_ZERO: return "IoApicAtZero";
    case ACPISET_SAME_IO_APIC_ID: return "SameIoApicId";
    case ACPISET_SAME_IO_APIC_ADDRESS: return "SameIoApicAddress";
    case ACPISET_NMI_NOWHERE: return "NmiNowhere";
    case ACPISET_SECOND_GICD: return "SecondGicd";
    case ACPISET_NO_PROCESSOR: return "NoProcessor";
    case ACPISET_TWO_UID_DOMAINS: return "TwoUidDomains";
    case ACPISET_AFFINITY_NOWHERE: return "AffinityNowhere";
    case ACPISET_NO_DOMAIN: return "NoDomain";
    case ACPISET_DOMAIN_PAST_SLIT: return "DomainPastSlit";
    case ACPISET_SLIT_DIFFERS: return "SlitDiffers";
    case ACPISET_SAME_LEAF: return "SameLeaf";
    case ACPISET_CACHE_SHAPE: return "CacheShape";
    case ACPISET_SAME_CACHE_ID: return "SameCacheId";
    case ACPISET_NO_LEAF: return "NoLeaf";
    case ACPISET_LEAF_NOWHERE: return "LeafNowhere";
    case ACPISET_MADT_UNREAD: return "MadtUnread";
    case ACPISET_SRAT_UNREAD: return "SratUnread";
    case ACPISET_NULL_SLOT: return "NullSlot";
    case ACPISET_RSDT_DIFFERS: return "RsdtDiffers";
    case ACPISET_TABLES_OVERLAP: return "TablesOverlap";
    case ACPISET_NO_DSDT: return "NoDsdt";
    case ACPISET_DSDT_WRONG: return "DsdtWrong";
    case ACPISET_NO_PM1_BLOCK: return "NoPm1Block";
    case ACPISET_BLOCK_WIDTH: return "BlockWidth";
    case ACPISET_HALF_BLOCK: return "HalfBlock";
    case ACPISET_PORTS_OVERLAP: return "PortsOverlap";
    case ACPISET_PORT_PAST_END: return "PortPastEnd";
    case ACPISET_GPE_OVERLAP: return "GpeOverlap";
    case ACPISET_SMI_HALF: return "SmiHalf";
    case ACPISET_SCI_ZERO: return "SciZero";
    case ACPISET_RESET_NOWHERE: return "ResetNowhere";
    case ACPISET_FADT_FOR_ARCH: return "FadtForArch";
    case ACPISET_SLEEP_REGISTER: return "SleepRegister";
    case ACPISET_FADT_RESERVED: return "FadtReserved";
    case ACPISET_FACS_RESERVED: return "FacsReserved";
    case ACPISET_RSDP_RESERVED: return "RsdpReserved";
    case ACPISET_HEADER_TEXT: return "HeaderText";
    case ACPISET_SECOND_OTHER: return "SecondOther";
    case ACPISET_X2_APIC_BELOW255: return "X2ApicBelow255";
    case ACPISET_BROADCAST_ID: return "BroadcastId";
    case ACPISET_CAPABLE_TOO_EARLY: return "CapableTooEarly";
    case ACPISET_ENABLED_AND_CAPABLE: return "EnabledAndCapable";
    case ACPISET_OVERRIDE_PAST_ISA: return "OverridePastIsa";
    case ACPISET_TIMER_LEVEL: return "TimerLevel";
    case ACPISET_TWO_SOURCES_ONE_GSI: return "TwoSourcesOneGsi";
    case ACPISET_LINT_NOT_ONE: return "LintNotOne";
    case ACPISET_NO_IO_APIC: return "NoIoApic";
    case ACPISET_NO_DISTRIBUTOR: return "NoDistributor";
    case ACPISET_NO_REDISTRIBUTOR: return "NoRedistributor";
    case ACPISET_GICR_TOO_SMALL: return "GicrTooSmall";
    case ACPISET_GICC_BASE_DIFFERS: return "GiccBaseDiffers";
    case ACPISET_SAME_MPIDR: return "SameMpidr";
    case ACPISET_MPIDR_RESERVED: return "MpidrReserved";
    case ACPISET_GICR_EMPTY: return "GicrEmpty";
    case ACPISET_SAME_ITS: return "SameIts";
    case ACPISET_SAME_MSI_FRAME: return "SameMsiFrame";
    case ACPISET_GIC_OVERLAP: return "GicOverlap";
    case ACPISET_REDISTRIBUTOR_TWICE: return "RedistributorTwice";
    case ACPISET_NO_BOOT_METHOD: return "NoBootMethod";
    case ACPISET_SAME_HART: return "SameHart";
    case ACPISET_MADT_RESERVED: return "MadtReserved";
    case ACPISET_NO_MEMORY_RANGE: return "NoMemoryRange";
    case ACPISET_EMPTY_RANGE: return "EmptyRange";
    case ACPISET_INITIATOR_OFF: return "InitiatorOff";
    case ACPISET_DOMAIN_PAST_REVISION: return "DomainPastRevision";
    case ACPISET_ITS_NOWHERE: return "ItsNowhere";
    case ACPISET_SRAT_RESERVED: return "SratReserved";
    case ACPISET_REMOTE_AS_LOCAL: return "RemoteAsLocal";
    case ACPISET_LEAF_UNFLAGGED: return "LeafUnflagged";
    case ACPISET_LEAF_AS_PARENT: return "LeafAsParent";
    case ACPISET_NO_PACKAGE: return "NoPackage";
    case ACPISET_CACHE_NUMBERS: return "CacheNumbers";
    case ACPISET_PPTT_RESERVED: return "PpttReserved";
    case ACPISET_MCFG_LENGTH: return "McfgLength";
    case ACPISET_ECAM_ADDRESS: return "EcamAddress";
    case ACPISET_BUSES_REVERSED: return "BusesReversed";
    case ACPISET_ECAM_WRAPS: return "EcamWraps";
    case ACPISET_ECAM_TOO_HIGH: return "EcamTooHigh";
    case ACPISET_SAME_BUS: return "SameBus";
    case ACPISET_ECAM_OVERLAP: return "EcamOverlap";
    case ACPISET_HPET_LENGTH: return "HpetLength";
    case ACPISET_HPET_SPACE: return "HpetSpace";
    case ACPISET_HPET_ADDRESS: return "HpetAddress";
    case ACPISET_HMAT_HEADER: return "HmatHeader";
    case ACPISET_HMAT_CUT: return "HmatCut";
    case ACPISET_HMAT_LENGTH: return "HmatLength";
    case ACPISET_HMAT_DATA_TYPE: return "HmatDataType";
    case ACPISET_HMAT_HIERARCHY: return "HmatHierarchy";
    case ACPISET_HMAT_UNIT: return "HmatUnit";
    case ACPISET_HMAT_TOO_LARGE: return "HmatTooLarge";
    case ACPISET_HMAT_SAME_DOMAIN: return "HmatSameDomain";
    case ACPISET_HMAT_PROXIMITY: return "HmatProximity";
    case ACPISET_HMAT_DOMAIN_NOWHERE: return "HmatDomainNowhere";
    case ACPISET_HMAT_CACHE_NOWHERE: return "HmatCacheNowhere";
    case ACPISET_HMAT_CACHE: return "HmatCache";
    case ACPISET_HMAT_ALONE: return "HmatAlone";
    case ACPISET_GTDT_LENGTH: return "GtdtLength";
    case ACPISET_NO_GTDT: return "NoGtdt";
    case ACPISET_NO_TIMER: return "NoTimer";
    case ACPISET_TIMER_NO_PPI: return "TimerNoPpi";
    case ACPISET_SAME_TIMER: return "SameTimer";
    case ACPISET_PLATFORM_TIMER_CUT: return "PlatformTimerCut";
    case ACPISET_TIMER_BLOCK: return "TimerBlock";
    case ACPISET_TIMER_FRAME: return "TimerFrame";
    case ACPISET_SAME_FRAME: return "SameFrame";
    case ACPISET_WATCHDOG: return "Watchdog";
    case ACPISET_TIMER_NO_SPI: return "TimerNoSpi";
    case ACPISET_TIMER_OVERLAP: return "TimerOverlap";
    case ACPISET_DMAR_WIDTH: return "DmarWidth";
    case ACPISET_DMAR_CUT: return "DmarCut";
    case ACPISET_DMAR_SHORT: return "DmarShort";
    case ACPISET_NO_DRHD: return "NoDrhd";
    case ACPISET_SCOPE_CUT: return "ScopeCut";
    case ACPISET_SCOPE_TYPE: return "ScopeType";
    case ACPISET_DRHD_ADDRESS: return "DrhdAddress";
    case ACPISET_DRHD_OVERLAP: return "DrhdOverlap";
    case ACPISET_SECOND_INCLUDE_ALL: return "SecondIncludeAll";
    case ACPISET_INCLUDE_ALL_NOT_LAST: return "IncludeAllNotLast";
    case ACPISET_RMRR_RANGE: return "RmrrRange";
    case ACPISET_RMRR_NO_DEVICE: return "RmrrNoDevice";
    case ACPISET_RHSA_NOWHERE: return "RhsaNowhere";
    case ACPISET_RHSA_DOMAIN: return "RhsaDomain";
    case ACPISET_SAME_RHSA: return "SameRhsa";
    case ACPISET_ANDD_NAME: return "AnddName";
    case ACPISET_ANDD_NOWHERE: return "AnddNowhere";
    case ACPISET_IO_APIC_UNMAPPED: return "IoApicUnmapped";
    case ACPISET_SAME_SCOPE: return "SameScope";
    case ACPISET_IVRS_CUT: return "IvrsCut";
    case ACPISET_IVRS_SHORT: return "IvrsShort";
    case ACPISET_NO_IVHD: return "NoIvhd";
    case ACPISET_IVHD_ADDRESS: return "IvhdAddress";
    case ACPISET_SAME_IVHD: return "SameIvhd";
    case ACPISET_IVHD_DIFFERS: return "IvhdDiffers";
    case ACPISET_IVHD_ENTRY_CUT: return "IvhdEntryCut";
    case ACPISET_IVHD_ENTRY_TYPE: return "IvhdEntryType";
    case ACPISET_IVHD_RANGE: return "IvhdRange";
    case ACPISET_IO_APIC_NOT_IN_IVRS: return "IoApicNotInIvrs";
    case ACPISET_SAME_SPECIAL: return "SameSpecial";
    case ACPISET_IVMD_RANGE: return "IvmdRange";
    case ACPISET_SPCR_LENGTH: return "SpcrLength";
    case ACPISET_SPCR_ADDRESS: return "SpcrAddress";
    case ACPISET_SPCR_BAUD: return "SpcrBaud";
    case ACPISET_SPCR_GSI: return "SpcrGsi";
    case ACPISET_SPCR_PCI: return "SpcrPci";
    case ACPISET_SPCR_NAME: return "SpcrName";
    case ACPISET_RSDP_TEXT: return "RsdpText";
    case ACPISET_ROOT_HEADER: return "RootHeader";
    case ACPISET_DSDT_TEXT: return "DsdtText";
    case ACPISET_FADT_PAST_REVISION: return "FadtPastRevision";
    case ACPISET_ARM_BOOT_EARLY: return "ArmBootEarly";
    case ACPISET_FIXED_IN_REDUCED: return "FixedInReduced";
    case ACPISET_SMI_HANDSHAKE: return "SmiHandshake";
    case ACPISET_S4_BIOS_DIFFERS: return "S4BiosDiffers";
    case ACPISET_GPE_PAST_END: return "GpePastEnd";
    case ACPISET_BLOCK_TOO_LONG: return "BlockTooLong";
    case ACPISET_BLOCK_SPACE: return "BlockSpace";
    case ACPISET_BLOCK_USUAL_WIDTH: return "BlockUsualWidth";
    case ACPISET_SLEEP_NOT_REDUCED: return "SleepNotReduced";
    case ACPISET_FADT_FOR_RISCV: return "FadtForRiscv";
    case ACPISET_GICC_SHORT: return "GiccShort";
    case ACPISET_GICC_NO_GICR: return "GiccNoGicr";
    case ACPISET_CAPABLE_NO_GICR: return "CapableNoGicr";
    case ACPISET_GICC_DIFFERS: return "GiccDiffers";
    case ACPISET_SAME_GICR_BASE: return "SameGicrBase";
    case ACPISET_PARKING_VERSION: return "ParkingVersion";
    case ACPISET_GICC_NO_PPI: return "GiccNoPpi";
    case ACPISET_PIC_VERSION: return "PicVersion";
    case ACPISET_FURTHER_RESERVED: return "FurtherReserved";
    case ACPISET_HART_INVALID: return "HartInvalid";
    case ACPISET_WAKEUP_MAILBOX: return "WakeupMailbox";
    case ACPISET_LAPIC_AT_ZERO: return "LapicAtZero";
    case ACPISET_MADT_REVISION: return "MadtRevision";
    case ACPISET_AFFINITY_RESERVED: return "AffinityReserved";
    case ACPISET_DEVICE_HANDLE: return "DeviceHandle";
    case ACPISET_ITS_DOMAIN: return "ItsDomain";
    case ACPISET_PPTT_UNREAD: return "PpttUnread";
    case ACPISET_CACHE_ID_ZERO: return "CacheIdZero";
    case ACPISET_SAME_CACHE_TYPE: return "SameCacheType";
    default: return "";
    }
}
/* end: names */

/* The stage that reports the code, 1 to 18; 0 if there is no such code. */
/* begin: stages, made by scripts/lists.py */
static inline uint32_t acpiset_stage_of(uint32_t code) {
    static const uint8_t stages[] = {
        0, 1, 1, 1, 1, 1, 1, 1, 2, 2, 2, 2, 2, 2, 2, 3, 3, 3, 3, 4,
        4, 4, 4, 4, 4, 4, 5, 5, 5, 5, 5, 5, 6, 6, 6, 6, 6, 6, 6, 7,
        8, 9, 9, 9, 9, 10, 11, 11, 11, 11, 12, 12, 13, 13, 13, 14, 15, 16, 17, 18
    };
    return code < sizeof stages / sizeof stages[0] ? stages[code] : 0;
}
/* end: stages */

/* How serious a finding is. */
enum acpiset_severity {
    ACPISET_NOT_LOOKED_AT = 1, /* advice: nothing is known to be wrong, but no rule looks at what is there */
    ACPISET_LOOK_AT_IT = 2,    /* advice: unusual, but there may be such hardware, or a later standard may define the value */
    ACPISET_LIKELY_WRONG = 3,  /* advice: almost always a mistake */
    ACPISET_FAULT = 4          /* a fault: one of the eighteen statements does not hold */
};

/* The severity of a code or a rule; 0 if there is none of this number, as for those of a later library. */
/* begin: severities, made by scripts/lists.py */
static inline uint32_t acpiset_severity_of(uint32_t number) {
    switch (number) {
    case ACPISET_MADT_UNREAD:
    case ACPISET_SRAT_UNREAD:
    case ACPISET_PPTT_UNREAD:
        return ACPISET_NOT_LOOKED_AT;
    case ACPISET_SLIT_DIFFERS:
    case ACPISET_CACHE_SHAPE:
    case ACPISET_NULL_SLOT:
    case ACPISET_FADT_RESERVED:
    case ACPISET_FACS_RESERVED:
    case ACPISET_RSDP_RESERVED:
    case ACPISET_HEADER_TEXT:
    case ACPISET_SECOND_OTHER:
    case ACPISET_ENABLED_AND_CAPABLE:
    case ACPISET_LINT_NOT_ONE:
    case ACPISET_NO_IO_APIC:
    case ACPISET_MADT_RESERVED:
    case ACPISET_SRAT_RESERVED:
    case ACPISET_LEAF_AS_PARENT:
    case ACPISET_CACHE_NUMBERS:
    case ACPISET_PPTT_RESERVED:
    case ACPISET_HMAT_DATA_TYPE:
    case ACPISET_HMAT_HIERARCHY:
    case ACPISET_HMAT_TOO_LARGE:
    case ACPISET_HMAT_SAME_DOMAIN:
    case ACPISET_HMAT_CACHE:
    case ACPISET_SAME_TIMER:
    case ACPISET_SAME_FRAME:
    case ACPISET_TIMER_OVERLAP:
    case ACPISET_INCLUDE_ALL_NOT_LAST:
    case ACPISET_RHSA_DOMAIN:
    case ACPISET_IVHD_ENTRY_TYPE:
    case ACPISET_SPCR_PCI:
    case ACPISET_RSDP_TEXT:
    case ACPISET_ROOT_HEADER:
    case ACPISET_DSDT_TEXT:
    case ACPISET_FADT_PAST_REVISION:
    case ACPISET_ARM_BOOT_EARLY:
    case ACPISET_FIXED_IN_REDUCED:
    case ACPISET_SMI_HANDSHAKE:
    case ACPISET_S4_BIOS_DIFFERS:
    case ACPISET_SLEEP_NOT_REDUCED:
    case ACPISET_PARKING_VERSION:
    case ACPISET_PIC_VERSION:
    case ACPISET_FURTHER_RESERVED:
    case ACPISET_MADT_REVISION:
    case ACPISET_AFFINITY_RESERVED:
    case ACPISET_DEVICE_HANDLE:
    case ACPISET_CACHE_ID_ZERO:
    case ACPISET_SAME_CACHE_TYPE:
        return ACPISET_LOOK_AT_IT;
    case ACPISET_LISTED_TWICE:
    case ACPISET_SECOND_TABLE:
    case ACPISET_LISTED_APART:
    case ACPISET_FADT_OF_REVISION:
    case ACPISET_FACS_DIFFERS:
    case ACPISET_DSDT_DIFFERS:
    case ACPISET_BLOCK_DIFFERS:
    case ACPISET_SCI_NOWHERE:
    case ACPISET_SAME_UID:
    case ACPISET_SAME_APIC_ID:
    case ACPISET_IO_APIC_AT_ZERO:
    case ACPISET_SAME_IO_APIC_ID:
    case ACPISET_SAME_IO_APIC_ADDRESS:
    case ACPISET_NMI_NOWHERE:
    case ACPISET_SECOND_GICD:
    case ACPISET_NO_PROCESSOR:
    case ACPISET_TWO_UID_DOMAINS:
    case ACPISET_AFFINITY_NOWHERE:
    case ACPISET_NO_DOMAIN:
    case ACPISET_DOMAIN_PAST_SLIT:
    case ACPISET_SAME_LEAF:
    case ACPISET_SAME_CACHE_ID:
    case ACPISET_NO_LEAF:
    case ACPISET_LEAF_NOWHERE:
    case ACPISET_RSDT_DIFFERS:
    case ACPISET_TABLES_OVERLAP:
    case ACPISET_NO_DSDT:
    case ACPISET_DSDT_WRONG:
    case ACPISET_NO_PM1_BLOCK:
    case ACPISET_BLOCK_WIDTH:
    case ACPISET_HALF_BLOCK:
    case ACPISET_PORTS_OVERLAP:
    case ACPISET_PORT_PAST_END:
    case ACPISET_GPE_OVERLAP:
    case ACPISET_SMI_HALF:
    case ACPISET_SCI_ZERO:
    case ACPISET_RESET_NOWHERE:
    case ACPISET_FADT_FOR_ARCH:
    case ACPISET_SLEEP_REGISTER:
    case ACPISET_X2_APIC_BELOW255:
    case ACPISET_BROADCAST_ID:
    case ACPISET_CAPABLE_TOO_EARLY:
    case ACPISET_OVERRIDE_PAST_ISA:
    case ACPISET_TIMER_LEVEL:
    case ACPISET_TWO_SOURCES_ONE_GSI:
    case ACPISET_NO_DISTRIBUTOR:
    case ACPISET_NO_REDISTRIBUTOR:
    case ACPISET_GICR_TOO_SMALL:
    case ACPISET_GICC_BASE_DIFFERS:
    case ACPISET_SAME_MPIDR:
    case ACPISET_MPIDR_RESERVED:
    case ACPISET_GICR_EMPTY:
    case ACPISET_SAME_ITS:
    case ACPISET_SAME_MSI_FRAME:
    case ACPISET_GIC_OVERLAP:
    case ACPISET_REDISTRIBUTOR_TWICE:
    case ACPISET_NO_BOOT_METHOD:
    case ACPISET_SAME_HART:
    case ACPISET_NO_MEMORY_RANGE:
    case ACPISET_EMPTY_RANGE:
    case ACPISET_INITIATOR_OFF:
    case ACPISET_DOMAIN_PAST_REVISION:
    case ACPISET_ITS_NOWHERE:
    case ACPISET_REMOTE_AS_LOCAL:
    case ACPISET_LEAF_UNFLAGGED:
    case ACPISET_NO_PACKAGE:
    case ACPISET_MCFG_LENGTH:
    case ACPISET_ECAM_ADDRESS:
    case ACPISET_BUSES_REVERSED:
    case ACPISET_ECAM_WRAPS:
    case ACPISET_ECAM_TOO_HIGH:
    case ACPISET_SAME_BUS:
    case ACPISET_ECAM_OVERLAP:
    case ACPISET_HPET_LENGTH:
    case ACPISET_HPET_SPACE:
    case ACPISET_HPET_ADDRESS:
    case ACPISET_HMAT_HEADER:
    case ACPISET_HMAT_CUT:
    case ACPISET_HMAT_LENGTH:
    case ACPISET_HMAT_UNIT:
    case ACPISET_HMAT_PROXIMITY:
    case ACPISET_HMAT_DOMAIN_NOWHERE:
    case ACPISET_HMAT_CACHE_NOWHERE:
    case ACPISET_HMAT_ALONE:
    case ACPISET_GTDT_LENGTH:
    case ACPISET_NO_GTDT:
    case ACPISET_NO_TIMER:
    case ACPISET_TIMER_NO_PPI:
    case ACPISET_PLATFORM_TIMER_CUT:
    case ACPISET_TIMER_BLOCK:
    case ACPISET_TIMER_FRAME:
    case ACPISET_WATCHDOG:
    case ACPISET_TIMER_NO_SPI:
    case ACPISET_DMAR_WIDTH:
    case ACPISET_DMAR_CUT:
    case ACPISET_DMAR_SHORT:
    case ACPISET_NO_DRHD:
    case ACPISET_SCOPE_CUT:
    case ACPISET_SCOPE_TYPE:
    case ACPISET_DRHD_ADDRESS:
    case ACPISET_DRHD_OVERLAP:
    case ACPISET_SECOND_INCLUDE_ALL:
    case ACPISET_RMRR_RANGE:
    case ACPISET_RMRR_NO_DEVICE:
    case ACPISET_RHSA_NOWHERE:
    case ACPISET_SAME_RHSA:
    case ACPISET_ANDD_NAME:
    case ACPISET_ANDD_NOWHERE:
    case ACPISET_IO_APIC_UNMAPPED:
    case ACPISET_SAME_SCOPE:
    case ACPISET_IVRS_CUT:
    case ACPISET_IVRS_SHORT:
    case ACPISET_NO_IVHD:
    case ACPISET_IVHD_ADDRESS:
    case ACPISET_SAME_IVHD:
    case ACPISET_IVHD_DIFFERS:
    case ACPISET_IVHD_ENTRY_CUT:
    case ACPISET_IVHD_RANGE:
    case ACPISET_IO_APIC_NOT_IN_IVRS:
    case ACPISET_SAME_SPECIAL:
    case ACPISET_IVMD_RANGE:
    case ACPISET_SPCR_LENGTH:
    case ACPISET_SPCR_ADDRESS:
    case ACPISET_SPCR_BAUD:
    case ACPISET_SPCR_GSI:
    case ACPISET_SPCR_NAME:
    case ACPISET_GPE_PAST_END:
    case ACPISET_BLOCK_TOO_LONG:
    case ACPISET_BLOCK_SPACE:
    case ACPISET_BLOCK_USUAL_WIDTH:
    case ACPISET_FADT_FOR_RISCV:
    case ACPISET_GICC_SHORT:
    case ACPISET_GICC_NO_GICR:
    case ACPISET_CAPABLE_NO_GICR:
    case ACPISET_GICC_DIFFERS:
    case ACPISET_SAME_GICR_BASE:
    case ACPISET_GICC_NO_PPI:
    case ACPISET_HART_INVALID:
    case ACPISET_WAKEUP_MAILBOX:
    case ACPISET_LAPIC_AT_ZERO:
    case ACPISET_ITS_DOMAIN:
        return ACPISET_LIKELY_WRONG;
    default: return number >= 1 && number <= 59 ? ACPISET_FAULT : 0;
    }
}
/* end: severities */

/* The name of a kind, such as "OutOfMemory"; "" if there is none of this number. */
/* begin: kinds, made by scripts/lists.py */
static inline const char *acpiset_kind_name(uint32_t kind) {
    switch (kind) {
    case ACPISET_YES: return "Yes";
    case ACPISET_NO: return "No";
    case ACPISET_OUT_OF_MEMORY: return "OutOfMemory";
    case ACPISET_BAD_SIZE: return "BadSize";
    case ACPISET_BAD_DEFAULT_INPUTS: return "BadDefaultInputs";
    case ACPISET_BAD_HOTPLUG: return "BadHotPlug";
    case ACPISET_BAD_PROCESSORS: return "BadProcessors";
    case ACPISET_BAD_STAGE: return "BadStage";
    case ACPISET_BAD_INPUTS: return "BadInputs";
    case ACPISET_BAD_CODE: return "BadCode";
    case ACPISET_PIECE_PAST_END: return "PiecePastEnd";
    case ACPISET_PIECES_OVERLAP: return "PiecesOverlap";
    case ACPISET_BAD_LINE: return "BadLine";
    case ACPISET_NO_ADDRESS: return "NoAddress";
    case ACPISET_TEXT_OVERLAP: return "TextOverlap";
    case ACPISET_TEXT_PAST_END: return "TextPastEnd";
    case ACPISET_TEXT_TOO_LONG: return "TextTooLong";
    case ACPISET_UNALIGNED: return "Unaligned";
    case ACPISET_TABLE_TOO_LONG: return "TableTooLong";
    case ACPISET_PAST_END: return "PastEnd";
    case ACPISET_NEEDS_LOW: return "NeedsLow";
    default: return "";
    }
}
/* end: kinds */

/* ---- layout: where the library has the fields of each struct. Compilers before C11 and C++11 do not compare it. */

#if (defined(__cplusplus) && __cplusplus >= 201103L) || (defined(__STDC_VERSION__) && __STDC_VERSION__ >= 201112L)

#ifdef __cplusplus
#define ACPISET_ASSERT(condition) static_assert(condition, "this struct differs from the library's")
#else
#define ACPISET_ASSERT(condition) _Static_assert(condition, "this struct differs from the library's")
#endif
#define ACPISET_FIELD(name, field, offset, size) \
    ACPISET_ASSERT(offsetof(struct name, field) == (offset) && sizeof(((struct name *)0)->field) == (size))
#define ACPISET_SIZE(name, size) ACPISET_ASSERT(sizeof(struct name) == (size))

/* begin: layout, made by scripts/lists.py */
ACPISET_FIELD(acpiset_piece, address, 0, 8);
ACPISET_FIELD(acpiset_piece, bytes, 8, 8);
ACPISET_FIELD(acpiset_piece, length, 16, 8);
ACPISET_SIZE(acpiset_piece, 24);
ACPISET_FIELD(acpiset_inputs, address, 0, 4);
ACPISET_FIELD(acpiset_inputs, count, 4, 4);
ACPISET_SIZE(acpiset_inputs, 8);
ACPISET_FIELD(acpiset_settings, size, 0, 8);
ACPISET_FIELD(acpiset_settings, rsdp, 8, 8);
ACPISET_FIELD(acpiset_settings, default_inputs, 16, 4);
ACPISET_FIELD(acpiset_settings, hotplug, 20, 4);
ACPISET_FIELD(acpiset_settings, processors, 24, 4);
ACPISET_FIELD(acpiset_settings, through, 28, 4);
ACPISET_SIZE(acpiset_settings, 32);
ACPISET_FIELD(acpiset_finding, number, 0, 4);
ACPISET_FIELD(acpiset_finding, at, 8, 8);
ACPISET_FIELD(acpiset_finding, other, 16, 8);
ACPISET_FIELD(acpiset_finding, point, 24, 8);
ACPISET_SIZE(acpiset_finding, 32);
ACPISET_FIELD(acpiset_answer, kind, 0, 4);
ACPISET_FIELD(acpiset_answer, stage, 4, 4);
ACPISET_FIELD(acpiset_answer, code, 8, 4);
ACPISET_FIELD(acpiset_answer, at, 16, 8);
ACPISET_FIELD(acpiset_answer, other, 24, 8);
ACPISET_FIELD(acpiset_answer, point, 32, 8);
ACPISET_SIZE(acpiset_answer, 40);
/* end: layout */

#undef ACPISET_SIZE
#undef ACPISET_FIELD
#undef ACPISET_ASSERT

#endif

#ifdef __cplusplus
}
#endif

#endif
