/* Tables that overlap in full: each begins 64 bytes after the one before it, and all end where the last one does. A million of them have
 * 32 TB together, so a call that reads the bytes of each takes an hour; one that sums the bytes that are lent only once takes a second.
 * usage: overlapping COUNT */
#include "common.h"

#include <stdlib.h>
#include <string.h>

#define RSDP_AT 0xe0000
#define ROOT_AT 0x1000000
#define TABLES_AT 0x10000000
#define HEADER 36
#define APART 64

static void put(uint8_t *bytes, uint64_t number, size_t size) {
    for (size_t i = 0; i < size; i++) bytes[i] = (uint8_t)(number >> 8 * i);
}

/* Sets the byte there so that all of them sum to 0. */
static void close_sum(uint8_t *bytes, size_t length, size_t at) {
    for (size_t i = 0; i < length; i++)
        if (i != at) bytes[at] = (uint8_t)(bytes[at] - bytes[i]);
}

/* An RSDP, an RSDT that lists all tables, and these, of each of which the first 64 bytes sum to 0. */
static void fill(uint8_t *rsdp, uint8_t *root, uint8_t *tables, size_t count) {
    memcpy(rsdp, "RSD PTR ", 8);
    put(rsdp + 16, ROOT_AT, 4);
    close_sum(rsdp, 20, 8);
    memcpy(root, "RSDT", 4);
    put(root + 4, HEADER + 4 * count, 4);
    root[8] = 1;
    for (size_t i = 0; i < count; i++) {
        uint8_t *table = tables + APART * i;
        put(root + HEADER + 4 * i, TABLES_AT + APART * i, 4);
        memcpy(table, "DATA", 4);
        put(table + 4, APART * (count - i), 4);
        close_sum(table, APART, 9);
    }
    close_sum(root, HEADER + 4 * count, 9);
}

/* What docs/SHOW.md says of the set, and how many bytes that is. */
static size_t write_shown(char *text, size_t count) {
    size_t length = (size_t)sprintf(text, "rsdp 0x%x revision 0\nroot 0x%x RSDT length %zu slots %zu\n", RSDP_AT, ROOT_AT, HEADER + 4 * count, count);
    for (size_t i = 0; i < count; i++)
        length += (size_t)sprintf(text + length, "slot %zu 0x%zx DATA length %zu revision 0\n", i, TABLES_AT + APART * i, APART * (count - i));
    return length;
}

/* The first three stages hold, and then no FADT is found. */
static void ask_all(const struct acpiset_piece *pieces, size_t count) {
    struct acpiset_settings settings = ACPISET_SETTINGS(RSDP_AT);
    struct acpiset_answer no_fadt = fault_of(ACPISET_NO_FADT, 0, 0, 0);
    static struct acpiset_finding findings[ACPISET_MOST_FINDINGS];
    const size_t room = 80 * (count + 2);
    char *wanted = (char *)block_of(room), *shown = (char *)block_of(room);
    size_t length = write_shown(wanted, count);
    expect(acpiset_check(pieces, 3, NULL, 0, &settings), no_fadt, "check, %zu tables", count);
    acpiset_lint(pieces, 3, NULL, 0, &settings, findings, ACPISET_MOST_FINDINGS);
    count_case(findings[0].number == ACPISET_NO_FADT, "lint, %zu tables", count);
    expect(acpiset_rebuild(pieces, 3, NULL, 0, &settings, 0, NULL, 0), no_fadt, "rebuild, %zu tables", count);
    expect(acpiset_show(pieces, 3, NULL, 0, &settings, shown, room), answer_of(ACPISET_YES, length, 0), "show, %zu tables", count);
    count_case(memcmp(shown, wanted, length) == 0, "the text of show, %zu tables", count);
    free(wanted);
    free(shown);
}

int main(int argc, char **argv) {
    if (argc != 2) return 2;
    size_t count = (size_t)number_of(argv[1], 10);
    uint8_t *rsdp = (uint8_t *)calloc(1, 20), *root = (uint8_t *)calloc(1, HEADER + 4 * count), *tables = (uint8_t *)calloc(count, APART);
    if (!rsdp || !root || !tables) return 2;
    fill(rsdp, root, tables, count);
    const struct acpiset_piece pieces[] = {{RSDP_AT, rsdp, 20}, {ROOT_AT, root, HEADER + 4 * count}, {TABLES_AT, tables, APART * count}};
    ask_all(pieces, count);
    free(rsdp);
    free(root);
    free(tables);
    return report("overlapping");
}
