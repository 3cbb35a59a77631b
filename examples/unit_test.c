/* A unit test of ACPI tables, as firmware or a hypervisor builds them: they are built in memory, and the library checks them.
 *
 *     cc unit_test.c -lacpiset -o unit_test && ./unit_test */
#include <acpiset.h>

#include <inttypes.h>
#include <stdbool.h>
#include <stdio.h>
#include <string.h>

/* ---- tables */

struct table {
    uint8_t bytes[1024];
    size_t length;
};

/* Sets the byte at this offset so that the first `length` bytes sum to 0. */
static void set_checksum(uint8_t *bytes, size_t at, size_t length) {
    uint8_t sum = 0;
    bytes[at] = 0;
    for (size_t i = 0; i < length; i++) sum = (uint8_t)(sum + bytes[i]);
    bytes[at] = (uint8_t)-sum;
}

/* Writes a little-endian number of so many bytes at an offset. */
static void set(struct table *table, size_t at, uint64_t value, size_t size) {
    for (size_t i = 0; i < size; i++) table->bytes[at + i] = (uint8_t)(value >> (8 * i));
}

/* Appends one. */
static void put(struct table *table, uint64_t value, size_t size) {
    set(table, table->length, value, size);
    table->length += size;
}

/* Writes the Length and then the checksum of a table with a header. */
static void finish(struct table *table) {
    set(table, 4, table->length, 4);
    set_checksum(table->bytes, 9, table->length);
}

/* A header (ACPI 6.5, 5.2.6) whose Length and checksum are still to come. */
static struct table begin(const char *signature, uint8_t revision) {
    struct table table = {{0}, 36};
    memcpy(table.bytes, signature, 4);
    table.bytes[8] = revision;
    memcpy(table.bytes + 10, "OEMID OEMTABLE", 14);
    set(&table, 24, 1, 4);
    memcpy(table.bytes + 28, "TEST", 4);
    set(&table, 32, 1, 4);
    return table;
}

/* ---- a machine with four processors in two nodes of 2 GiB */

enum {
    RSDP_AT = 0xe0000,
    XSDT_AT = 0x7fe0000,
    FACS_AT = 0x7fe1000,
    FADT_AT = 0x7fe2000,
    MADT_AT = 0x7fe3000,
    SRAT_AT = 0x7fe4000,
    SLIT_AT = 0x7fe5000,
    DSDT_AT = 0x7fe6000
};
enum { PROCESSORS = 4, NODES = 2 };

struct machine {
    struct table rsdp, xsdt, facs, dsdt, fadt, madt, srat, slit;
};

static struct table make_rsdp(uint64_t xsdt) {
    struct table rsdp = {{0}, 36};
    memcpy(rsdp.bytes, "RSD PTR ", 8);
    memcpy(rsdp.bytes + 9, "OEMID ", 6);
    rsdp.bytes[15] = 2;
    set(&rsdp, 20, 36, 4);
    set(&rsdp, 24, xsdt, 8);
    set_checksum(rsdp.bytes, 8, 20);
    set_checksum(rsdp.bytes, 32, 36);
    return rsdp;
}

static struct table make_xsdt(const uint64_t *addresses, size_t count) {
    struct table xsdt = begin("XSDT", 1);
    for (size_t i = 0; i < count; i++) put(&xsdt, addresses[i], 8);
    finish(&xsdt);
    return xsdt;
}

static struct table make_facs(void) {
    struct table facs = {{0}, 64};
    memcpy(facs.bytes, "FACS", 4);
    set(&facs, 4, 64, 4);
    facs.bytes[32] = 2;
    return facs;
}

/* A DSDT without AML. */
static struct table make_dsdt(void) {
    struct table dsdt = begin("DSDT", 2);
    finish(&dsdt);
    return dsdt;
}

static struct table make_fadt(uint64_t facs) {
    struct table fadt = begin("FACP", 6);
    fadt.length = 276;
    set(&fadt, 36, facs, 4);
    set(&fadt, 46, 9, 2);      /* SCI_INT */
    set(&fadt, 56, 0x600, 4);  /* PM1a_EVT_BLK */
    set(&fadt, 64, 0x604, 4);  /* PM1a_CNT_BLK */
    set(&fadt, 76, 0x608, 4);  /* PM_TMR_BLK */
    fadt.bytes[88] = 4;        /* PM1_EVT_LEN */
    fadt.bytes[89] = 2;        /* PM1_CNT_LEN */
    fadt.bytes[91] = 4;        /* PM_TMR_LEN */
    set(&fadt, 140, DSDT_AT, 8);
    finish(&fadt);
    return fadt;
}

static void put_override(struct table *madt, uint8_t source, uint32_t interrupt, uint16_t flags) {
    put(madt, 2 | 10 << 8, 2);
    put(madt, (uint64_t)source << 8, 2);
    put(madt, interrupt, 4);
    put(madt, flags, 2);
}

static struct table make_madt(void) {
    struct table madt = begin("APIC", 5);
    put(&madt, 0xfee00000, 4);
    put(&madt, 1, 4);
    for (unsigned i = 0; i < PROCESSORS; i++) { /* local APICs: UID, APIC ID, Enabled */
        put(&madt, 0 | 8 << 8, 2);
        put(&madt, i | i << 8, 2);
        put(&madt, 1, 4);
    }
    put(&madt, 1 | 12 << 8, 4); /* an I/O APIC with the ID 0 */
    put(&madt, 0xfec00000, 4);
    put(&madt, 0, 4);
    put_override(&madt, 0, 2, 0);
    put_override(&madt, 9, 9, 0xd);
    finish(&madt);
    return madt;
}

static struct table make_srat(void) {
    struct table srat = begin("SRAT", 3);
    put(&srat, 1, 4);
    put(&srat, 0, 8);
    for (unsigned i = 0; i < PROCESSORS; i++) {
        put(&srat, 0 | 16 << 8, 2);
        put(&srat, i * NODES / PROCESSORS | i << 8, 2);
        put(&srat, 1, 4);
        put(&srat, 0, 8);
    }
    for (unsigned node = 0; node < NODES; node++) {
        put(&srat, 1 | 40 << 8, 2);
        put(&srat, node, 4);
        put(&srat, 0, 2);
        put(&srat, node * UINT64_C(0x80000000), 8);
        put(&srat, UINT64_C(0x80000000), 8);
        put(&srat, 0, 4);
        put(&srat, 1, 4);
        put(&srat, 0, 8);
    }
    finish(&srat);
    return srat;
}

static struct table make_slit(void) {
    struct table slit = begin("SLIT", 1);
    put(&slit, NODES, 8);
    for (unsigned i = 0; i < NODES * NODES; i++) put(&slit, i / NODES == i % NODES ? 10 : 20, 1);
    finish(&slit);
    return slit;
}

static struct machine make_machine(void) {
    const uint64_t listed[] = {FADT_AT, MADT_AT, SRAT_AT, SLIT_AT};
    struct machine machine = {make_rsdp(XSDT_AT), make_xsdt(listed, 4), make_facs(), make_dsdt(), make_fadt(FACS_AT),
                              make_madt(), make_srat(), make_slit()};
    return machine;
}

/* ---- what the library says of it */

/* The pieces of memory that a guest would find the tables in. */
static size_t pieces_of(const struct machine *machine, struct acpiset_piece *pieces) {
    const struct acpiset_piece all[] = {
        {RSDP_AT, machine->rsdp.bytes, machine->rsdp.length}, {XSDT_AT, machine->xsdt.bytes, machine->xsdt.length},
        {FACS_AT, machine->facs.bytes, machine->facs.length}, {FADT_AT, machine->fadt.bytes, machine->fadt.length},
        {MADT_AT, machine->madt.bytes, machine->madt.length}, {SRAT_AT, machine->srat.bytes, machine->srat.length},
        {SLIT_AT, machine->slit.bytes, machine->slit.length}, {DSDT_AT, machine->dsdt.bytes, machine->dsdt.length},
    };
    memcpy(pieces, all, sizeof all);
    return sizeof all / sizeof all[0];
}

static int passed, failed;

static void count(const char *name, bool is_right) {
    if (is_right) passed++;
    else failed++;
    if (!is_right) printf("failed: %s\n", name);
}

/* Expects a fault of this code, or none if it is 0. */
static void expect(const char *name, const struct machine *machine, uint32_t code) {
    struct acpiset_piece pieces[8];
    size_t pieces_count = pieces_of(machine, pieces);
    struct acpiset_settings settings = ACPISET_SETTINGS(RSDP_AT);
    struct acpiset_answer answer = acpiset_check(pieces, pieces_count, NULL, 0, &settings);
    bool is_right = answer.kind == (code ? ACPISET_NO : ACPISET_YES) && answer.code == code;
    count(name, is_right);
    if (!is_right)
        printf("  %s: %s 0x%" PRIx64 " 0x%" PRIx64 " 0x%" PRIx64 ", and %s was expected\n", acpiset_kind_name(answer.kind),
               acpiset_number_name(answer.code), answer.at, answer.other, answer.point, code ? acpiset_number_name(code) : "no fault");
}

/* Expects no fault and one finding of advice, of this rule; or none if it is 0. */
static void expect_advice(const char *name, const struct machine *machine, uint32_t rule) {
    struct acpiset_piece pieces[8];
    size_t pieces_count = pieces_of(machine, pieces);
    struct acpiset_settings settings = ACPISET_SETTINGS(RSDP_AT);
    struct acpiset_finding findings[ACPISET_MOST_FINDINGS];
    struct acpiset_answer answer = acpiset_lint(pieces, pieces_count, NULL, 0, &settings, findings, ACPISET_MOST_FINDINGS);
    bool is_right = answer.kind == ACPISET_YES && answer.other == (rule ? 1 : 0) && (!rule || findings[0].number == rule);
    count(name, is_right);
    if (is_right || answer.kind > ACPISET_NO) return;
    for (uint64_t i = 0; i < answer.at + answer.other && i < ACPISET_MOST_FINDINGS; i++)
        printf("  %s 0x%" PRIx64 " 0x%" PRIx64 " 0x%" PRIx64 "\n", acpiset_number_name(findings[i].number), findings[i].at,
               findings[i].other, findings[i].point);
}

/* ---- the tests */

static void valid_tables(void) {
    struct machine machine = make_machine();
    expect("the tables are valid", &machine, 0);
    expect_advice("nothing else is odd", &machine, 0);
}

static void changed_after_checksum(void) {
    struct machine machine = make_machine();
    set(&machine.madt, 36, 0xfee10000, 4);
    expect("a MADT that is changed after its checksum was made", &machine, ACPISET_TABLE_SUM);
    finish(&machine.madt);
    expect("the same with a new checksum", &machine, 0);
}

static void wrong_address(void) {
    const uint64_t listed[] = {FADT_AT, MADT_AT, SRAT_AT + 0x10000, SLIT_AT};
    struct machine machine = make_machine();
    machine.xsdt = make_xsdt(listed, 4);
    expect("an XSDT with an address at which no table is", &machine, ACPISET_TABLE_HEADER_OUT);
    machine = make_machine();
    machine.fadt = make_fadt(FACS_AT + 32);
    expect("a FACS at a wrong address", &machine, ACPISET_FACS_ALIGN);
}

static void missing_interrupt(void) {
    struct machine machine = make_machine();
    put_override(&machine.madt, 5, 24, 0);
    finish(&machine.madt);
    expect("an override to an interrupt that no I/O APIC has", &machine, ACPISET_GSI_NOWHERE);
}

static void overlapping_nodes(void) {
    struct machine machine = make_machine();
    size_t second_node = 48 + PROCESSORS * 16 + 40;
    set(&machine.srat, second_node + 8, 0x7fff0000, 8);
    finish(&machine.srat);
    expect("nodes that overlap by 64 KiB", &machine, ACPISET_OVERLAP);
}

static void two_processors_of_one_uid(void) {
    struct machine machine = make_machine();
    machine.madt.bytes[44 + 8 + 2] = 0;
    finish(&machine.madt);
    expect("two processors with one UID", &machine, 0);
    expect_advice("two processors with one UID", &machine, ACPISET_SAME_UID);
}

int main(void) {
    if (acpiset_abi() != ACPISET_ABI) return 2;
    valid_tables();
    changed_after_checksum();
    wrong_address();
    missing_interrupt();
    overlapping_nodes();
    two_processors_of_one_uid();
    printf("unit_test: %d passed, %d failed\n", passed, failed);
    return failed ? 1 : 0;
}
