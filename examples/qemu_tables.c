/* Checks tables that are in files, one in each, such as those that QEMU expects of its machines in tests/data/acpi/x86/q35 (APIC,
 * FACP, FACS, HPET, MCFG, ..). A file does not say where its table was. So each is put somewhere, and an RSDP and an XSDT are made
 * over them. In QEMU's files the addresses in the FADT are 0: those of the FACS and of the DSDT are set, and then the checksum.
 *
 *     cc qemu_tables.c -lacpiset -o qemu_tables && ./qemu_tables APIC FACP FACS HPET MCFG */
#include <acpiset.h>

#include <inttypes.h>
#include <stdio.h>
#include <stdlib.h>
#include <string.h>

enum { RSDP_AT = 0xe0000, XSDT_AT = 0xe1000, TABLES_AT = 0x100000, MOST_FILES = 64, MOST_BYTES = 1 << 20 };

static uint8_t rsdp[36], xsdt[36 + 8 * MOST_FILES], tables[MOST_FILES][MOST_BYTES];
static struct acpiset_piece pieces[MOST_FILES + 2];
static size_t pieces_count, slots;
static uint64_t next_address = TABLES_AT, facs_address, dsdt_address;
static uint8_t *fadt;
static size_t fadt_length;

static void set(uint8_t *bytes, uint64_t value, size_t size) {
    for (size_t i = 0; i < size; i++) bytes[i] = (uint8_t)(value >> (8 * i));
}

static void set_checksum(uint8_t *bytes, size_t at, size_t length) {
    uint8_t sum = 0;
    bytes[at] = 0;
    for (size_t i = 0; i < length; i++) sum = (uint8_t)(sum + bytes[i]);
    bytes[at] = (uint8_t)-sum;
}

static size_t read_table(const char *path, uint8_t *bytes) {
    FILE *file = fopen(path, "rb");
    size_t length = file ? fread(bytes, 1, MOST_BYTES, file) : 0;
    if (length < 36) {
        fprintf(stderr, "%s: cannot be read, or is no table\n", path);
        exit(2);
    }
    fclose(file);
    return length;
}

static void add_piece(uint64_t address, const uint8_t *bytes, size_t length) {
    struct acpiset_piece piece = {address, bytes, length};
    pieces[pieces_count++] = piece;
}

/* Puts a table at the next page. The XSDT lists all but those that only the FADT names. */
static void place(uint8_t *bytes, size_t length) {
    add_piece(next_address, bytes, length);
    if (memcmp(bytes, "FACS", 4) == 0) facs_address = next_address;
    else if (memcmp(bytes, "DSDT", 4) == 0) dsdt_address = next_address;
    else set(xsdt + 36 + 8 * slots++, next_address, 8);
    if (memcmp(bytes, "FACP", 4) == 0 && length >= 116) {
        fadt = bytes;
        fadt_length = length;
    }
    next_address = (next_address + length + 0x1000) & ~UINT64_C(0xfff);
}

/* Writes an address into a field of the FADT, and 0 into its other field, of 8 bytes, if the table has that. */
static void set_address(uint64_t address, size_t field, size_t other_field) {
    set(fadt + field, address, 4);
    if (fadt_length >= other_field + 8) set(fadt + other_field, 0, 8);
}

static void make_roots(void) {
    memcpy(xsdt, "XSDT", 4);
    xsdt[8] = 1;
    set(xsdt + 4, 36 + 8 * slots, 4);
    set_checksum(xsdt, 9, 36 + 8 * slots);
    add_piece(XSDT_AT, xsdt, 36 + 8 * slots);
    memcpy(rsdp, "RSD PTR ", 8);
    rsdp[15] = 2;
    set(rsdp + 20, 36, 4);
    set(rsdp + 24, XSDT_AT, 8);
    set_checksum(rsdp, 8, 20);
    set_checksum(rsdp, 32, 36);
    add_piece(RSDP_AT, rsdp, 36);
}

int main(int argc, char **argv) {
    if (argc > MOST_FILES + 1) return 2;
    for (int i = 1; i < argc; i++) place(tables[i - 1], read_table(argv[i], tables[i - 1]));
    if (fadt) {
        set_address(facs_address, 36, 132);
        set_address(dsdt_address, 40, 140);
        set_checksum(fadt, 9, fadt_length);
    }
    make_roots();

    struct acpiset_settings settings = ACPISET_SETTINGS(RSDP_AT);
    struct acpiset_answer answer = acpiset_check(pieces, pieces_count, NULL, 0, &settings);
    switch (answer.kind) {
    case ACPISET_YES: puts("yes"); return 0;
    case ACPISET_NO:
        printf("no %" PRIu32 " %s 0x%" PRIx64 " 0x%" PRIx64 " 0x%" PRIx64 "\n", answer.stage, acpiset_number_name(answer.code),
               answer.at, answer.other, answer.point);
        return 1;
    default: puts(acpiset_kind_name(answer.kind)); return 2;
    }
}
