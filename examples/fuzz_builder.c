/* A fuzz target for code that builds ACPI tables: for every machine the tables have to be valid, and without advice.
 *
 *     clang -g -fsanitize=fuzzer,address fuzz_builder.c -lacpiset -o fuzz_builder && ./fuzz_builder
 *
 * Without libFuzzer, for 10,000 random machines:
 *
 *     cc -DPLAIN_MAIN fuzz_builder.c -lacpiset -o fuzz_builder && ./fuzz_builder 10000
 *
 * With your own builder instead of the one below:
 *
 *     cc -DPLAIN_MAIN -DBUILDER='"my_builder.c"' fuzz_builder.c my_objects.o -lacpiset -o fuzz_builder */
#include <acpiset.h>

#include <inttypes.h>
#include <stdio.h>
#include <stdlib.h>
#include <string.h>

/* ---- the machine: replace this with what your builder takes */

enum { MOST_PROCESSORS = 64, MOST_NODES = 8, MOST_IO_APICS = 4, MOST_PIECES = 16, RSDP_AT = 0xe0000 };

struct machine {
    unsigned processors, nodes, io_apics;
    unsigned node_of[MOST_PROCESSORS];
    uint64_t memory[MOST_NODES]; /* bytes; a node may have none, but the first one */
};

/* Builds the tables of the machine. Writes where they are to `pieces`, and returns how many pieces there are, at most MOST_PIECES.
 * The RSDP is at RSDP_AT. */
static size_t build_tables(const struct machine *machine, struct acpiset_piece *pieces);

/* ---- the builder */

#ifdef BUILDER
#include BUILDER
#else

static uint8_t memory[1 << 16];
static size_t used;

static void set(size_t at, uint64_t value, size_t size) {
    for (size_t i = 0; i < size; i++) memory[at + i] = (uint8_t)(value >> (8 * i));
}

static void put(uint64_t value, size_t size) {
    set(used, value, size);
    used += size;
}

static void set_checksum(size_t from, size_t at, size_t length) {
    uint8_t sum = 0;
    memory[from + at] = 0;
    for (size_t i = 0; i < length; i++) sum = (uint8_t)(sum + memory[from + i]);
    memory[from + at] = (uint8_t)-sum;
}

/* Where the tables are in the guest's memory, one after another. */
enum { TABLES_AT = 0x7fe0000 };

static size_t begin(const char *signature, uint8_t revision) {
    size_t start = used;
    memcpy(memory + used, signature, 4);
    used += 4;
    put(0, 4);
    put(revision, 1);
    put(0, 1);
    memcpy(memory + used, "OEMID OEMTABLE", 14);
    used += 14;
    put(1, 4);
    memcpy(memory + used, "FUZZ", 4);
    used += 4;
    put(1, 4);
    return start;
}

static uint64_t finish(size_t start) {
    set(start + 4, used - start, 4);
    set_checksum(start, 9, used - start);
    return TABLES_AT + start;
}

/* Without AML, of which there has to be a table all the same. */
static uint64_t build_dsdt(void) {
    return finish(begin("DSDT", 2));
}

/* Hardware-reduced ACPI has no FACS and no register blocks. */
static uint64_t build_fadt(uint64_t dsdt) {
    size_t start = begin("FACP", 6);
    used = start + 276;
    set(start + 112, 1 << 20, 4);
    set(start + 140, dsdt, 8);
    return finish(start);
}

static uint64_t build_madt(const struct machine *machine) {
    size_t start = begin("APIC", 5);
    put(0xfee00000, 4);
    put(0, 4);
    for (unsigned i = 0; i < machine->processors; i++) {
        put(0 | 8 << 8, 2);
        put(i | i << 8, 2);
        put(1, 4);
    }
    for (unsigned i = 0; i < machine->io_apics; i++) {
        put(1 | 12 << 8 | (uint64_t)i << 16, 4);
        put(0xfec00000 + 0x1000 * i, 4);
        put(24 * i, 4);
    }
    put(2 | 10 << 8, 4);
    put(2, 4);
    put(0, 2);
    return finish(start);
}

/* Ranges begin at 0, and none reaches into the 256 MiB below 4 GiB. */
static uint64_t build_srat(const struct machine *machine) {
    const uint64_t hole = 0xf0000000, hole_end = UINT64_C(1) << 32;
    size_t start = begin("SRAT", 3);
    put(1, 4);
    put(0, 8);
    for (unsigned i = 0; i < machine->processors; i++) {
        put(0 | 16 << 8, 2);
        put(machine->node_of[i] | i << 8, 2);
        put(1, 4);
        put(0, 8);
    }
    uint64_t base = 0;
    for (unsigned node = 0; node < machine->nodes; node++) {
        for (uint64_t left = machine->memory[node]; left > 0;) {
            uint64_t size = base < hole && left > hole - base ? hole - base : left;
            put(1 | 40 << 8, 2);
            put(node, 4);
            put(0, 2);
            put(base, 8);
            put(size, 8);
            put(0, 4);
            put(1, 4);
            put(0, 8);
            base += size;
            left -= size;
            if (base == hole) base = hole_end;
        }
    }
    return finish(start);
}

static uint64_t build_slit(const struct machine *machine) {
    size_t start = begin("SLIT", 1);
    put(machine->nodes, 8);
    for (unsigned i = 0; i < machine->nodes; i++)
        for (unsigned j = 0; j < machine->nodes; j++) put(i == j ? 10 : 20, 1);
    return finish(start);
}

static size_t build_tables(const struct machine *machine, struct acpiset_piece *pieces) {
    static uint8_t rsdp[36];
    memset(memory, 0, sizeof memory);
    used = 0;
    uint64_t fadt = build_fadt(build_dsdt());
    uint64_t madt = build_madt(machine);
    uint64_t srat = build_srat(machine);
    uint64_t slit = build_slit(machine);
    size_t start = begin("XSDT", 1);
    put(fadt, 8);
    put(madt, 8);
    put(srat, 8);
    put(slit, 8);
    uint64_t xsdt = finish(start);

    /* the RSDP is built after the tables and then copied */
    size_t end = used;
    memcpy(memory + end, "RSD PTR ", 8);
    memory[end + 15] = 2;
    set(end + 20, 36, 4);
    set(end + 24, xsdt, 8);
    set_checksum(end, 8, 20);
    set_checksum(end, 32, 36);
    memcpy(rsdp, memory + end, 36);
    const struct acpiset_piece all[] = {{RSDP_AT, rsdp, 36}, {TABLES_AT, memory, end}};
    memcpy(pieces, all, sizeof all);
    return 2;
}

#endif

/* ---- the target */

/* The next byte of the input, or 0 after its end. */
static unsigned next(const uint8_t **data, size_t *size) {
    if (*size == 0) return 0;
    --*size;
    return *(*data)++;
}

/* A machine that the input's bytes choose. */
static struct machine machine_of(const uint8_t *data, size_t size) {
    struct machine machine;
    memset(&machine, 0, sizeof machine);
    machine.processors = 1 + next(&data, &size) % MOST_PROCESSORS;
    machine.nodes = 1 + next(&data, &size) % MOST_NODES;
    machine.io_apics = 1 + next(&data, &size) % MOST_IO_APICS;
    for (unsigned i = 0; i < machine.processors; i++) machine.node_of[i] = next(&data, &size) % machine.nodes;
    for (unsigned node = 0; node < machine.nodes; node++) {
        /* up to 12 bits of a number of pages, and an exponent */
        uint64_t pages = next(&data, &size);
        pages |= (uint64_t)(next(&data, &size) % 16) << 8 | (node == 0);
        machine.memory[node] = pages << (12 + next(&data, &size) % 12);
    }
    return machine;
}

static void fail(const char *what, uint32_t number, uint64_t at, uint64_t other, uint64_t point) {
    fprintf(stderr, "%s %s 0x%" PRIx64 " 0x%" PRIx64 " 0x%" PRIx64 "\n", what, acpiset_number_name(number), at, other, point);
    abort();
}

#ifdef __cplusplus
extern "C" int LLVMFuzzerTestOneInput(const uint8_t *data, size_t size);
#else
int LLVMFuzzerTestOneInput(const uint8_t *data, size_t size);
#endif

int LLVMFuzzerTestOneInput(const uint8_t *data, size_t size) {
    struct machine machine = machine_of(data, size);
    struct acpiset_piece pieces[MOST_PIECES];
    size_t count = build_tables(&machine, pieces);
    struct acpiset_settings settings = ACPISET_SETTINGS(RSDP_AT);
    struct acpiset_finding first;
    struct acpiset_answer answer = acpiset_lint(pieces, count, NULL, 0, &settings, &first, 1);
    if (answer.kind > ACPISET_NO) fail(acpiset_kind_name(answer.kind), 0, answer.at, answer.other, answer.point);
    if (answer.at + answer.other > 0) fail(answer.at ? "no" : "advice", first.number, first.at, first.other, first.point);
    return 0;
}

#ifdef PLAIN_MAIN
int main(int argc, char **argv) {
    long machines = argc > 1 ? atol(argv[1]) : 10000;
    uint64_t state = 1;
    for (long i = 0; i < machines; i++) {
        uint8_t data[3 + MOST_PROCESSORS + 3 * MOST_NODES];
        for (size_t j = 0; j < sizeof data; j++) {
            state = state * UINT64_C(6364136223846793005) + UINT64_C(1442695040888963407);
            data[j] = (uint8_t)(state >> 56);
        }
        LLVMFuzzerTestOneInput(data, sizeof data);
    }
    printf("%ld machines: all tables are valid\n", machines);
    return 0;
}
#endif
