/* Input that is refused, and input that only just is not. Each answer is worked out by hand from acpiset.h. */
#include "common.h"

#include <stdlib.h>
#include <string.h>

#define LAST UINT64_MAX
#define LARGEST UINT32_MAX

/* An RSDP and an RSDT that lists nothing: the first three stages hold, and then no FADT is found. */
static const uint8_t rsdp[] = {0x52, 0x53, 0x44, 0x20, 0x50, 0x54, 0x52, 0x20, 0x4b, 0x41,
                               0x41, 0x41, 0x41, 0x41, 0x41, 0x00, 0x00, 0x10, 0x00, 0x00};
static const uint8_t rsdt[] = {0x52, 0x53, 0x44, 0x54, 0x24, 0x00, 0x00, 0x00, 0x01, 0x0a, 0x41, 0x41,
                               0x41, 0x41, 0x41, 0x41, 0x41, 0x41, 0x41, 0x41, 0x41, 0x41, 0x41, 0x41,
                               0x01, 0x00, 0x00, 0x00, 0x41, 0x41, 0x41, 0x41, 0x01, 0x00, 0x00, 0x00};
#define RSDP_AT 0xe0000
#define RSDT_AT 0x1000
static const struct acpiset_piece set[] = {{RSDP_AT, rsdp, sizeof rsdp}, {RSDT_AT, rsdt, sizeof rsdt}};
static const char set_text[] =
    "@e0000\n"
    "52 53 44 20 50 54 52 20 4b 41 41 41 41 41 41 00\n"
    "00 10 00 00\n"
    "@1000\n"
    "52 53 44 54 24 00 00 00 01 0a 41 41 41 41 41 41\n"
    "41 41 41 41 41 41 41 41 01 00 00 00 41 41 41 41\n"
    "01 00 00 00\n";
#define LINES_OF_SET 7

/* ---- the calls */

enum call { CHECK, CHECK_TEXT, CONFIRM, LINT, SHOW, REBUILD, FIND };
static const char *const names[] = {"check", "check_text", "confirm", "lint", "show", "rebuild", "find"};

/* What docs/SHOW.md says of the set. */
static const char shown[] = "rsdp 0xe0000 revision 0\nroot 0x1000 RSDT length 36 slots 0\n";

struct request {
    const struct acpiset_piece *pieces;
    size_t pieces_count;
    const char *text;
    size_t length;
    const struct acpiset_inputs *inputs;
    size_t inputs_count;
    struct acpiset_settings settings;
    struct acpiset_finding finding;
    uint64_t base;
};

/* The set, and the fault that is in it. */
static struct request request_of_set(void) {
    struct request request = {set, 2, set_text, strlen(set_text), NULL, 0, ACPISET_SETTINGS(RSDP_AT), {ACPISET_NO_FADT, 0, 0, 0}, 0};
    return request;
}

static struct acpiset_answer ask(enum call call, const struct request *it) {
    switch (call) {
    case CHECK: return acpiset_check(it->pieces, it->pieces_count, it->inputs, it->inputs_count, &it->settings);
    case CHECK_TEXT: return acpiset_check_text(it->text, it->length, it->inputs, it->inputs_count, &it->settings);
    case CONFIRM:
        return acpiset_confirm(it->pieces, it->pieces_count, it->inputs, it->inputs_count, &it->settings, &it->finding);
    case LINT: return acpiset_lint(it->pieces, it->pieces_count, it->inputs, it->inputs_count, &it->settings, NULL, 0);
    case SHOW: return acpiset_show(it->pieces, it->pieces_count, it->inputs, it->inputs_count, &it->settings, NULL, 0);
    case REBUILD:
        return acpiset_rebuild(it->pieces, it->pieces_count, it->inputs, it->inputs_count, &it->settings, it->base, NULL, 0);
    default: return acpiset_find(it->pieces, it->pieces_count);
    }
}

/* What a call answers on the set. */
static struct acpiset_answer answer_on_set(enum call call) {
    switch (call) {
    case CONFIRM: return answer_of(ACPISET_YES, 0, 0);
    case LINT: return answer_of(ACPISET_NO, 1, 0);
    case SHOW: return answer_of(ACPISET_YES, strlen(shown), 0);
    case FIND: return answer_of(ACPISET_YES, RSDP_AT, 0);
    default: return fault_of(ACPISET_NO_FADT, 0, 0, 0);
    }
}

/* What it answers on an image that has nothing at the RSDP's address. The fault that is confirmed needs an RSDT. */
static struct acpiset_answer answer_on_nothing(enum call call) {
    switch (call) {
    case CONFIRM: return answer_of(ACPISET_NO, 0, 0);
    case LINT: return answer_of(ACPISET_NO, 1, 0);
    case FIND: return answer_of(ACPISET_NO, 0, 0);
    default: return fault_of(ACPISET_RSDP_OUT, RSDP_AT, 0, 0);
    }
}

static struct acpiset_answer refused(uint32_t kind) { return answer_of(kind, 0, 0); }

/* ---- settings */

/* Calls that are given settings: all but FIND. */
static void expect_settings(const struct request *request, uint32_t kind, const char *setting, uint64_t number) {
    for (int call = CHECK; call <= REBUILD; call++) {
        struct acpiset_answer wanted = kind == ACPISET_YES ? answer_on_set((enum call)call) : refused(kind);
        expect(ask((enum call)call, request), wanted, "%s, %s %llu", names[call], setting, (unsigned long long)number);
    }
}

static void sizes(void) {
    static const size_t wrong[] = {0, 31, 33, 40, 256 + 32, SIZE_MAX, ((size_t)1 << 32) + 32};
    struct request request = request_of_set();
    expect_settings(&request, ACPISET_YES, "size", 32);
    for (size_t i = 0; i < sizeof wrong / sizeof wrong[0]; i++) {
        request.settings.size = wrong[i];
        expect_settings(&request, ACPISET_BAD_SIZE, "size", wrong[i]);
    }
}

/* Numbers of inputs: those outside 1 to 256, also where their low bits are a good number. */
static const uint32_t bad_counts[] = {0, 257, 65536 + 24, 0x80000018, LARGEST};
static const uint32_t good_counts[] = {1, 24, 255, 256};
#define COUNTS(numbers) (sizeof numbers / sizeof numbers[0])

static void default_inputs(void) {
    struct request request = request_of_set();
    for (size_t i = 0; i < COUNTS(bad_counts); i++) {
        request.settings.default_inputs = bad_counts[i];
        expect_settings(&request, ACPISET_BAD_DEFAULT_INPUTS, "default_inputs", bad_counts[i]);
    }
    for (size_t i = 0; i < COUNTS(good_counts); i++) {
        request.settings.default_inputs = good_counts[i];
        expect_settings(&request, ACPISET_YES, "default_inputs", good_counts[i]);
    }
}

static void hotplug_and_processors(void) {
    static const uint32_t bad[] = {2, 256, 257, 65536, LARGEST};
    struct request request = request_of_set();
    for (size_t i = 0; i < COUNTS(bad); i++) {
        request.settings.hotplug = bad[i];
        expect_settings(&request, ACPISET_BAD_HOTPLUG, "hotplug", bad[i]);
    }
    request.settings.hotplug = ACPISET_HOTPLUG_APART;
    expect_settings(&request, ACPISET_YES, "hotplug", ACPISET_HOTPLUG_APART);
    for (size_t i = 0; i < COUNTS(bad); i++) {
        request.settings.processors = bad[i];
        expect_settings(&request, ACPISET_BAD_PROCESSORS, "processors", bad[i]);
    }
    request.settings.processors = ACPISET_PROCESSORS_USABLE;
    expect_settings(&request, ACPISET_YES, "processors", ACPISET_PROCESSORS_USABLE);
}

/* The last stage, at which only a check looks. */
static void through(void) {
    static const uint32_t bad[] = {0, 19, 255, 256 + 18, 65536 + 1, LARGEST};
    struct request request = request_of_set();
    for (size_t i = 0; i < COUNTS(bad); i++) {
        request.settings.through = bad[i];
        for (int call = CHECK; call <= REBUILD; call++) {
            struct acpiset_answer wanted = call <= CHECK_TEXT ? refused(ACPISET_BAD_STAGE) : answer_on_set((enum call)call);
            expect(ask((enum call)call, &request), wanted, "%s, through %lu", names[call], (unsigned long)bad[i]);
        }
    }
    for (uint32_t stage = 1; stage <= 18; stage++) {
        request.settings.through = stage;
        for (int call = CHECK; call <= CHECK_TEXT; call++) {
            struct acpiset_answer wanted = stage <= 3 ? answer_of(ACPISET_YES, 0, 0) : answer_on_set((enum call)call);
            expect(ask((enum call)call, &request), wanted, "%s, through %lu", names[call], (unsigned long)stage);
        }
    }
}

/* ---- numbers of inputs */

static void inputs(void) {
    struct acpiset_inputs own[4];
    struct request request = request_of_set();
    request.inputs = own;
    request.inputs_count = 4;
    for (size_t i = 0; i < COUNTS(bad_counts); i++) {
        for (size_t at = 0; at < 4; at++) {
            for (size_t j = 0; j < 4; j++) {
                own[j].address = 0xfec00000 + 0x1000 * (uint32_t)j;
                own[j].count = j == at ? bad_counts[i] : 24;
            }
            for (int call = CHECK; call <= REBUILD; call++)
                expect(ask((enum call)call, &request), answer_of(ACPISET_BAD_INPUTS, at, 0), "%s, inputs %lu at %zu", names[call],
                       (unsigned long)bad_counts[i], at);
        }
    }
    /* The first of two that are refused; and one of an address that has a number already. */
    static const struct acpiset_inputs two[] = {{1, 1}, {2, 0}, {3, 257}};
    static const struct acpiset_inputs repeated[] = {{1, 1}, {2, 256}, {1, 0}};
    static const struct acpiset_inputs good[] = {{1, 1}, {2, 256}, {1, 2}, {0, 1}, {LARGEST, 1}};
    request.inputs = two;
    request.inputs_count = 3;
    expect(ask(CHECK, &request), answer_of(ACPISET_BAD_INPUTS, 1, 0), "the first of two numbers of inputs");
    request.inputs = repeated;
    expect(ask(CHECK, &request), answer_of(ACPISET_BAD_INPUTS, 2, 0), "inputs of an address that is repeated");
    request.inputs_count = 2;
    expect(ask(CHECK, &request), answer_on_set(CHECK), "inputs up to the one that is refused");
    request.inputs = good;
    request.inputs_count = 5;
    expect_settings(&request, ACPISET_YES, "inputs", 5);
}

/* The only number that is refused comes late. */
static void late_inputs(void) {
    enum { COUNT = 50000, LATE = 40000 };
    static struct acpiset_inputs own[COUNT];
    struct request request = request_of_set();
    request.inputs = own;
    request.inputs_count = COUNT;
    for (uint32_t i = 0; i < COUNT; i++) {
        own[i].address = 16 * i;
        own[i].count = 1 + i % 256;
    }
    expect_settings(&request, ACPISET_YES, "inputs", COUNT);
    for (size_t i = 0; i < COUNTS(bad_counts); i++) {
        own[LATE].count = bad_counts[i];
        for (int call = CHECK; call <= REBUILD; call++)
            expect(ask((enum call)call, &request), answer_of(ACPISET_BAD_INPUTS, LATE, 0), "%s, inputs %lu at %d", names[call],
                   (unsigned long)bad_counts[i], LATE);
    }
}

/* ---- codes */

static void codes(void) {
    static const uint32_t bad[] = {0, 60, 100, 101, 128, 129, 184, 185, 256 + 1, 256 + 19, 65536 + 19, LARGEST};
    struct request request = request_of_set();
    for (size_t i = 0; i < COUNTS(bad); i++) {
        request.finding.number = bad[i];
        expect(ask(CONFIRM, &request), refused(ACPISET_BAD_CODE), "confirm, code %lu", (unsigned long)bad[i]);
    }
    for (uint32_t code = 1; code <= 59; code++) {
        request.finding.number = code;
        expect(ask(CONFIRM, &request), answer_of(code == ACPISET_NO_FADT ? ACPISET_YES : ACPISET_NO, 0, 0), "confirm, code %lu",
               (unsigned long)code);
    }
    request = request_of_set();
    for (int number = 0; number < 3; number++) {
        request.finding.at = number == 0 ? 1 : 0;
        request.finding.other = number == 1 ? 1 : 0;
        request.finding.point = number == 2 ? LAST : 0;
        expect(ask(CONFIRM, &request), answer_of(ACPISET_NO, 0, 0), "confirm, a number that the code does not use");
    }
}

/* ---- base addresses */

static void bases(void) {
    static const uint64_t bad[] = {1, 2, 32, 63, 65, 0xfffff, ((uint64_t)1 << 32) + 8, LAST - 62, LAST};
    static const struct acpiset_piece twice[] = {{RSDP_AT, rsdp, 1}, {RSDP_AT, rsdp, 1}};
    static const struct acpiset_inputs none = {1, 0};
    for (size_t i = 0; i < COUNTS(bad); i++) {
        struct request request = request_of_set();
        request.base = bad[i];
        expect(ask(REBUILD, &request), refused(ACPISET_UNALIGNED), "rebuild, base %llx", (unsigned long long)bad[i]);
        /* before the pieces, and after the numbers of inputs */
        request.pieces = twice;
        expect(ask(REBUILD, &request), refused(ACPISET_UNALIGNED), "rebuild, base %llx and an overlap", (unsigned long long)bad[i]);
        request.inputs = &none;
        request.inputs_count = 1;
        expect(ask(REBUILD, &request), refused(ACPISET_BAD_INPUTS), "rebuild, base %llx and inputs", (unsigned long long)bad[i]);
    }
    for (int bit = 6; bit < 64; bit++) {
        struct request request = request_of_set();
        request.base = (uint64_t)1 << bit;
        expect(ask(REBUILD, &request), answer_on_set(REBUILD), "rebuild, base 2^%d", bit);
        request.base = LAST << bit;
        expect(ask(REBUILD, &request), answer_on_set(REBUILD), "rebuild, base 2^64 - 2^%d", bit);
    }
}

/* ---- pieces */

static const uint8_t zeros[64] = {0};

struct piece_case {
    const char *name;
    struct acpiset_piece pieces[4];
    size_t count;
    uint32_t kind; /* ACPISET_YES: not refused */
    uint64_t at, other;
};

#define PIECE(address, length) {(address), zeros, (length)}

static const struct piece_case piece_cases[] = {
    /* up to the last address and past it */
    {"16 bytes up to the end", {PIECE(LAST - 15, 16)}, 1, ACPISET_YES, 0, 0},
    {"17 bytes past the end", {PIECE(LAST - 15, 17)}, 1, ACPISET_PIECE_PAST_END, 0, 0},
    {"a byte at the last address", {PIECE(LAST, 1)}, 1, ACPISET_YES, 0, 0},
    {"two bytes at the last address", {PIECE(LAST, 2)}, 1, ACPISET_PIECE_PAST_END, 0, 0},
    {"no bytes at the last address", {PIECE(LAST, 0)}, 1, ACPISET_YES, 0, 0},
    {"a second piece past the end", {PIECE(0x1000, 16), PIECE(LAST - 7, 9)}, 2, ACPISET_PIECE_PAST_END, 1, 0},
    {"the first and the last address", {PIECE(0, 1), PIECE(LAST, 1)}, 2, ACPISET_YES, 0, 0},
    {"the first address, and past the end", {PIECE(0, 1), PIECE(LAST, 2)}, 2, ACPISET_PIECE_PAST_END, 1, 0},
    {"falling pieces, and one past the end",
     {PIECE(0x3000, 16), PIECE(0x2000, 16), PIECE(0x1000, 16), PIECE(LAST, 64)}, 4, ACPISET_PIECE_PAST_END, 3, 0},
    /* pieces that share addresses */
    {"the same piece twice", {PIECE(0x1000, 16), PIECE(0x1000, 16)}, 2, ACPISET_PIECES_OVERLAP, 1, 0x1000},
    {"the end of a piece", {PIECE(0x1000, 16), PIECE(0x1008, 16)}, 2, ACPISET_PIECES_OVERLAP, 1, 0x1008},
    {"the last byte of a piece", {PIECE(0x1000, 16), PIECE(0x100f, 16)}, 2, ACPISET_PIECES_OVERLAP, 1, 0x100f},
    {"the start of a piece", {PIECE(0x1000, 16), PIECE(0xff8, 16)}, 2, ACPISET_PIECES_OVERLAP, 1, 0x1000},
    {"the first byte of a piece", {PIECE(0x1000, 16), PIECE(0xff1, 16)}, 2, ACPISET_PIECES_OVERLAP, 1, 0x1000},
    {"a piece inside another", {PIECE(0x1000, 64), PIECE(0x1010, 1)}, 2, ACPISET_PIECES_OVERLAP, 1, 0x1010},
    {"a piece around another", {PIECE(0x1000, 16), PIECE(0xff0, 64)}, 2, ACPISET_PIECES_OVERLAP, 1, 0x1000},
    {"pieces that touch", {PIECE(0x1000, 16), PIECE(0x1010, 16), PIECE(0xff0, 16)}, 3, ACPISET_YES, 0, 0},
    {"the last of three", {PIECE(0x1000, 16), PIECE(0x1010, 16), PIECE(0x100f, 2)}, 3, ACPISET_PIECES_OVERLAP, 2, 0x100f},
    {"the least address of two overlaps",
     {PIECE(0x1010, 16), PIECE(0x1000, 8), PIECE(0x1007, 16)}, 3, ACPISET_PIECES_OVERLAP, 2, 0x1007},
    {"the least address, of the later piece",
     {PIECE(0x1020, 16), PIECE(0x1000, 16), PIECE(0x1008, 64)}, 3, ACPISET_PIECES_OVERLAP, 2, 0x1008},
    {"the least address, of the earlier piece",
     {PIECE(0x1000, 16), PIECE(0x1020, 16), PIECE(0x1008, 64)}, 3, ACPISET_PIECES_OVERLAP, 2, 0x1008},
    {"the first of two overlaps",
     {PIECE(0x1000, 16), PIECE(0x1004, 1), PIECE(0x1000, 1)}, 3, ACPISET_PIECES_OVERLAP, 1, 0x1004},
    {"the first address twice", {PIECE(0, 1), PIECE(0, 1)}, 2, ACPISET_PIECES_OVERLAP, 1, 0},
    {"the last address twice", {PIECE(LAST, 1), PIECE(LAST, 1)}, 2, ACPISET_PIECES_OVERLAP, 1, LAST},
    {"the last address, and a piece up to it", {PIECE(LAST, 1), PIECE(LAST - 7, 8)}, 2, ACPISET_PIECES_OVERLAP, 1, LAST},
    {"the last address, and two bytes from it on", {PIECE(LAST, 1), PIECE(LAST, 2)}, 2, ACPISET_PIECE_PAST_END, 1, 0},
    {"no bytes at the last address, and pieces before it",
     {PIECE(LAST, 0), PIECE(0x1000, 16), PIECE(0x1008, 1)}, 3, ACPISET_PIECES_OVERLAP, 2, 0x1008},
    /* which comes first */
    {"past the end, and an overlap of one piece", {PIECE(LAST, 1), PIECE(LAST - 7, 9)}, 2, ACPISET_PIECE_PAST_END, 1, 0},
    {"an overlap, and then past the end",
     {PIECE(0x1000, 16), PIECE(0x1008, 16), PIECE(LAST, 2)}, 3, ACPISET_PIECES_OVERLAP, 1, 0x1008},
    {"past the end, and then an overlap",
     {PIECE(LAST, 2), PIECE(0x1000, 16), PIECE(0x1008, 16)}, 3, ACPISET_PIECE_PAST_END, 0, 0},
    /* pieces without bytes */
    {"no bytes inside a piece",
     {PIECE(0x1000, 16), PIECE(0x1008, 0), {0x1000, NULL, 0}, {LAST, NULL, 0}}, 4, ACPISET_YES, 0, 0},
    {"no bytes before a piece", {PIECE(0x1008, 0), {0x1008, NULL, 0}, PIECE(0x1000, 16)}, 4, ACPISET_YES, 0, 0},
    {"an overlap after pieces without bytes",
     {PIECE(0x1000, 16), PIECE(0x1008, 0), {0x1000, NULL, 0}, PIECE(0x1000, 1)}, 4, ACPISET_PIECES_OVERLAP, 3, 0x1000},
};

static void pieces(void) {
    for (size_t i = 0; i < COUNTS(piece_cases); i++) {
        const struct piece_case *it = &piece_cases[i];
        struct request request = request_of_set();
        request.pieces = it->pieces;
        request.pieces_count = it->count;
        for (int call = CHECK; call <= FIND; call++) {
            if (call == CHECK_TEXT) continue;
            struct acpiset_answer wanted =
                it->kind == ACPISET_YES ? answer_on_nothing((enum call)call) : answer_of(it->kind, it->at, it->other);
            expect(ask((enum call)call, &request), wanted, "%s, %s", names[call], it->name);
        }
    }
}

/* Each call on the first pieces, of which the last or a later one is refused. */
static void expect_refused(const struct acpiset_piece *pieces, size_t count, struct acpiset_answer wanted, const char *name) {
    struct request request = request_of_set();
    request.pieces = pieces;
    request.pieces_count = count;
    for (int call = CHECK; call <= FIND; call++)
        if (call != CHECK_TEXT)
            expect(ask((enum call)call, &request), wanted, "%s, %zu pieces, %s", names[call], count, name);
}

/* The piece that is refused comes late: it passes the end, or repeats an earlier one, and is the last one or others follow. The pieces
 * rise or fall; the first one may be long, and is then above all others. */
static void late_pieces(void) {
    enum { LATEST = 70000, FOLLOWING = 3 };
    static const size_t places[] = {100, 101, 255, 256, 300, 1024, LATEST};
    static const char *const kinds[] = {"rising", "falling", "falling from a long one"};
    static const uint8_t page[4096] = {0};
    static struct acpiset_piece own[LATEST + 1 + FOLLOWING];
    static const struct acpiset_piece past_end = {LAST, zeros, 2};
    for (int kind = 0; kind < 3; kind++)
        for (size_t i = 0; i < COUNTS(places); i++) {
            const size_t late = places[i], end = late + 1 + FOLLOWING;
            for (size_t j = 0; j < end; j++) {
                struct acpiset_piece piece = {0x1000 + 16 * (uint64_t)(kind == 0 ? j : end - j), zeros, 1};
                own[j] = piece;
            }
            if (kind == 2) {
                own[0].bytes = page;
                own[0].length = sizeof page;
            }
            own[late] = past_end;
            for (size_t count = late + 1; count <= end; count += FOLLOWING)
                expect_refused(own, count, answer_of(ACPISET_PIECE_PAST_END, late, 0), kinds[kind]);
            own[late] = own[late / 2];
            for (size_t count = late + 1; count <= end; count += FOLLOWING)
                expect_refused(own, count, answer_of(ACPISET_PIECES_OVERLAP, late, own[late].address), kinds[kind]);
        }
}

/* Pieces without bytes anywhere among those of the set, and both in any order. */
static void pieces_without_bytes(void) {
    const struct acpiset_piece mixed[] = {
        {LAST, NULL, 0},           {RSDP_AT, NULL, 0},  {RSDT_AT + 4, zeros, 0}, set[1], {RSDT_AT + 4, NULL, 0},
        {RSDP_AT + 19, zeros, 0},  set[0],              {RSDP_AT, zeros, 0},     {0, NULL, 0}, {LAST, zeros, 0},
    };
    struct request request = request_of_set();
    request.pieces = mixed;
    request.pieces_count = COUNTS(mixed);
    for (int call = CHECK; call <= FIND; call++)
        expect(ask((enum call)call, &request), answer_on_set((enum call)call), "%s, pieces without bytes among others", names[call]);
}

/* The set byte by byte, from the last byte to the first. */
static void pieces_of_one_byte(void) {
    struct acpiset_piece bytes[sizeof rsdp + sizeof rsdt];
    size_t used = 0;
    for (size_t i = sizeof rsdp; i-- > 0;) {
        struct acpiset_piece piece = {RSDP_AT + i, rsdp + i, 1};
        bytes[used++] = piece;
    }
    for (size_t i = sizeof rsdt; i-- > 0;) {
        struct acpiset_piece piece = {RSDT_AT + i, rsdt + i, 1};
        bytes[used++] = piece;
    }
    struct request request = request_of_set();
    request.pieces = bytes;
    request.pieces_count = used;
    for (int call = CHECK; call <= FIND; call++)
        expect(ask((enum call)call, &request), answer_on_set((enum call)call), "%s, pieces of one byte", names[call]);
    /* the RSDP's last byte is missing */
    request.pieces = bytes + 1;
    request.pieces_count = used - 1;
    for (int call = CHECK; call <= FIND; call++)
        if (call != CHECK_TEXT)
            expect(ask((enum call)call, &request), answer_on_nothing((enum call)call), "%s, all but one byte of the RSDP", names[call]);
}

/* An image text that is passed as bytes of memory is none. */
static void text_as_piece(void) {
    struct acpiset_piece piece = {RSDP_AT, (const uint8_t *)set_text, sizeof set_text - 1};
    struct request request = request_of_set();
    request.pieces = &piece;
    request.pieces_count = 1;
    expect(ask(CHECK, &request), fault_of(ACPISET_RSDP_SIGNATURE, RSDP_AT, 0, 0), "check, a text as a piece");
    expect(ask(FIND, &request), answer_of(ACPISET_NO, 0, 0), "find, a text as a piece");
}

/* ---- texts */

struct text_case {
    const char *text;
    uint32_t kind; /* ACPISET_YES: not refused */
    uint64_t at, other;
};

static const struct text_case text_cases[] = {
    {"", ACPISET_YES, 0, 0},
    {"\n\r\n# nothing\n \t \n", ACPISET_YES, 0, 0},
    {"@0\n@FFFFFFFFFFFFFFFF\n", ACPISET_YES, 0, 0},
    {"@1000\n00aA 0b\t0c # four\r\n", ACPISET_YES, 0, 0},
    /* lines that are none */
    {"zz", ACPISET_BAD_LINE, 1, 0},
    {"# one\r\n\n@1000\n0g\n", ACPISET_BAD_LINE, 4, 0},
    {"@\n", ACPISET_BAD_LINE, 1, 0},
    {"@ 1000\n", ACPISET_BAD_LINE, 1, 0},
    {"@0x1000\n", ACPISET_BAD_LINE, 1, 0},
    {"@12345678901234567\n", ACPISET_BAD_LINE, 1, 0},
    {"@1000 00\n", ACPISET_BAD_LINE, 1, 0},
    {"@1000\n00 0", ACPISET_BAD_LINE, 2, 0},
    {"@1000\n0 0\n", ACPISET_BAD_LINE, 2, 0},
    {"@1000\r\r\n", ACPISET_BAD_LINE, 1, 0},
    {"\n\n\xff\n", ACPISET_BAD_LINE, 3, 0},
    /* data without an address */
    {"00", ACPISET_NO_ADDRESS, 1, 0},
    {"\n# two\n00 01\n@1000\n", ACPISET_NO_ADDRESS, 3, 0},
    /* addresses with a second byte */
    {"@1000\n00 01\n@1001\n02\n", ACPISET_TEXT_OVERLAP, 0, 0x1001},
    {"@1000\n00 01 02 03\n@ffe\n00 01 02 03 04 05 06 07\n", ACPISET_TEXT_OVERLAP, 0, 0x1000},
    {"@ffffffffffffffff\n00\n@ffffffffffffffff\n00\n", ACPISET_TEXT_OVERLAP, 0, LAST},
    {"@0\n00\n@0\n00\n", ACPISET_TEXT_OVERLAP, 0, 0},
    /* data past the last address */
    {"@ffffffffffffffff\n00\n", ACPISET_YES, 0, 0},
    {"@ffffffffffffffff\n00 00\n", ACPISET_TEXT_PAST_END, 2, 0},
    {"@ffffffffffffffff\n00\n01\n", ACPISET_TEXT_PAST_END, 3, 0},
    {"@ffffffffffffffff\n00\n# no more\n\n", ACPISET_YES, 0, 0},
    /* which comes first */
    {"zz\n00\n", ACPISET_BAD_LINE, 1, 0},
    {"00\nzz\n", ACPISET_NO_ADDRESS, 1, 0},
    {"0", ACPISET_BAD_LINE, 1, 0},
    {"@ffffffffffffffff\n00\n@fffffffffffffffe\n00 00 00\n", ACPISET_TEXT_PAST_END, 4, 0},
    {"@0\n00\n@0\n00\nzz\n", ACPISET_TEXT_OVERLAP, 0, 0},
};

static struct acpiset_answer ask_text(const char *text, size_t length) {
    struct request request = request_of_set();
    request.text = text;
    request.length = length;
    return ask(CHECK_TEXT, &request);
}

static void texts(void) {
    for (size_t i = 0; i < COUNTS(text_cases); i++) {
        const struct text_case *it = &text_cases[i];
        struct acpiset_answer wanted = it->kind == ACPISET_YES ? answer_on_nothing(CHECK_TEXT) : answer_of(it->kind, it->at, it->other);
        expect(ask_text(it->text, strlen(it->text)), wanted, "check_text, text %zu", i);
    }
    /* The length ends the text, and a zero byte does not. */
    expect(ask_text(set_text, sizeof set_text - 1), answer_on_set(CHECK_TEXT), "check_text, a text without its zero byte");
    expect(ask_text(set_text, sizeof set_text), answer_of(ACPISET_BAD_LINE, LINES_OF_SET + 1, 0), "check_text, a text with its zero byte");
    expect(ask_text("zz", 0), answer_on_nothing(CHECK_TEXT), "check_text, none of the bytes");
    expect(ask_text("@0\nzz", 3), answer_on_nothing(CHECK_TEXT), "check_text, the first line alone");
    expect(ask_text("@0\nzz", 4), answer_of(ACPISET_BAD_LINE, 2, 0), "check_text, a part of the second line");
}

/* The longest line and the longest text. */
static void long_texts(void) {
    const size_t line = 65536, text = 67108864;
    char *room = (char *)block_of(text + 1);
    memset(room, '#', line + 1);
    expect(ask_text(room, line), answer_on_nothing(CHECK_TEXT), "check_text, the longest line");
    expect(ask_text(room, line + 1), refused(ACPISET_TEXT_TOO_LONG), "check_text, a line that is too long");
    room[line] = '\n';
    expect(ask_text(room, line + 1), answer_on_nothing(CHECK_TEXT), "check_text, the longest line and its end");
    room[line - 1] = '\r';
    expect(ask_text(room, line + 1), answer_on_nothing(CHECK_TEXT), "check_text, the longest line, of which a CR is a byte");
    memset(room, 'z', line + 1);
    expect(ask_text(room, line), answer_of(ACPISET_BAD_LINE, 1, 0), "check_text, the longest bad line");
    expect(ask_text(room, line + 1), refused(ACPISET_TEXT_TOO_LONG), "check_text, a bad line that is too long");
    room[1] = '\n';
    expect(ask_text(room, line + 3), answer_of(ACPISET_BAD_LINE, 1, 0), "check_text, a bad line, and then one that is too long");
    memset(room, '\n', text + 1);
    expect(ask_text(room, text), answer_on_nothing(CHECK_TEXT), "check_text, the longest text");
    expect(ask_text(room, text + 1), refused(ACPISET_TEXT_TOO_LONG), "check_text, a text that is too long");
    free(room);
}

/* ---- nothing at all */

static void nulls(void) {
    struct request request = request_of_set();
    request.pieces = NULL;
    request.pieces_count = 0;
    request.text = NULL;
    request.length = 0;
    for (int call = CHECK; call <= FIND; call++)
        expect(ask((enum call)call, &request), answer_on_nothing((enum call)call), "%s, nothing", names[call]);
    request.settings.rsdp = LAST;
    expect(ask(CHECK, &request), fault_of(ACPISET_RSDP_OUT, LAST, 0, 0), "check, an RSDP at the last address");
    request.settings.rsdp = 0;
    expect(ask(CHECK, &request), fault_of(ACPISET_RSDP_OUT, 0, 0, 0), "check, an RSDP at the address 0");
    struct acpiset_piece none = {RSDP_AT, NULL, 0};
    request = request_of_set();
    request.pieces = &none;
    request.pieces_count = 1;
    for (int call = CHECK; call <= FIND; call++)
        if (call != CHECK_TEXT)
            expect(ask((enum call)call, &request), answer_on_nothing((enum call)call), "%s, a piece without bytes", names[call]);
}

/* ---- which refusal comes first */

/* All of the request is wrong, and is put right step by step. */
static void order(void) {
    static const struct acpiset_piece overlapping[] = {{0x1000, zeros, 16}, {0x1008, zeros, 16}};
    static const struct acpiset_inputs wrong_inputs[] = {{1, 1}, {2, 0}};
    struct request it = {overlapping, 2, "zz", 2, wrong_inputs, 2, {31, RSDP_AT, 0, 2, 2, 0}, {0, 0, 0, 0}, 1};
    const struct acpiset_answer overlap = answer_of(ACPISET_PIECES_OVERLAP, 1, 0x1008);
    const struct acpiset_answer bad_line = answer_of(ACPISET_BAD_LINE, 1, 0);

    expect_settings(&it, ACPISET_BAD_SIZE, "all wrong, and size", it.settings.size);
    it.settings.size = 32;
    expect_settings(&it, ACPISET_BAD_DEFAULT_INPUTS, "wrong, and default_inputs", it.settings.default_inputs);
    it.settings.default_inputs = 24;
    expect_settings(&it, ACPISET_BAD_HOTPLUG, "wrong, and hotplug", it.settings.hotplug);
    it.settings.hotplug = 0;
    expect_settings(&it, ACPISET_BAD_PROCESSORS, "wrong, and processors", it.settings.processors);
    it.settings.processors = 0;
    for (int call = CHECK; call <= REBUILD; call++)
        expect(ask((enum call)call, &it), answer_of(ACPISET_BAD_INPUTS, 1, 0), "%s, inputs and more are wrong", names[call]);
    it.inputs_count = 1;
    expect(ask(CHECK, &it), refused(ACPISET_BAD_STAGE), "check, the last stage and the pieces are wrong");
    expect(ask(CHECK_TEXT, &it), refused(ACPISET_BAD_STAGE), "check_text, the last stage and the text are wrong");
    expect(ask(CONFIRM, &it), refused(ACPISET_BAD_CODE), "confirm, the code and the pieces are wrong");
    expect(ask(LINT, &it), overlap, "lint, the pieces are wrong");
    expect(ask(SHOW, &it), overlap, "show, the pieces are wrong");
    expect(ask(REBUILD, &it), refused(ACPISET_UNALIGNED), "rebuild, the base and the pieces are wrong");
    it.base = 64;
    expect(ask(REBUILD, &it), overlap, "rebuild, the pieces are wrong");
    it.settings.through = 18;
    it.finding.number = ACPISET_NO_FADT;
    expect(ask(CHECK, &it), overlap, "check, the pieces are wrong");
    expect(ask(CHECK_TEXT, &it), bad_line, "check_text, the text is wrong");
    expect(ask(CONFIRM, &it), overlap, "confirm, the pieces are wrong");
    expect(ask(FIND, &it), overlap, "find, the pieces are wrong");
    it.pieces = set;
    it.text = set_text;
    it.length = sizeof set_text - 1;
    for (int call = CHECK; call <= FIND; call++)
        expect(ask((enum call)call, &it), answer_on_set((enum call)call), "%s, nothing is wrong", names[call]);
}

int main(void) {
    count_case(acpiset_abi() == ACPISET_ABI, "acpiset_abi");
    sizes();
    default_inputs();
    hotplug_and_processors();
    through();
    inputs();
    late_inputs();
    codes();
    bases();
    pieces();
    late_pieces();
    pieces_without_bytes();
    pieces_of_one_byte();
    text_as_piece();
    texts();
    long_texts();
    nulls();
    order();
    return report("bad_input");
}
