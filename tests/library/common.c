#include "common.h"

#include <inttypes.h>
#include <stdarg.h>
#include <stdlib.h>
#include <string.h>

/* ---- memory and files */

static void fail(const char *what) {
    fprintf(stderr, "%s\n", what);
    exit(2);
}

void *block_of(size_t size) {
    void *block = malloc(size ? size : 1);
    if (!block) fail("out of memory");
    return block;
}

uint8_t *copy_of(const void *bytes, size_t size) {
    uint8_t *copy = (uint8_t *)block_of(size);
    if (size) memcpy(copy, bytes, size);
    return copy;
}

char *read_stream(FILE *stream, size_t *size) {
    size_t room = 1 << 16, used = 0;
    char *text = (char *)block_of(room);
    size_t count;
    while ((count = fread(text + used, 1, room - used - 1, stream)) > 0) {
        used += count;
        if (used + 1 == room) {
            text = (char *)realloc(text, room *= 2);
            if (!text) fail("out of memory");
        }
    }
    if (ferror(stream)) fail("a read failed");
    text[used] = 0;
    *size = used;
    return text;
}

char *read_file(const char *path, size_t *size) {
    FILE *stream = fopen(path, "rb");
    if (!stream) fail(path);
    char *text = read_stream(stream, size);
    fclose(stream);
    return text;
}

uint64_t number_of(const char *text, int base) {
    char *end;
    uint64_t number = strtoull(text, &end, base);
    if (end == text || *end) fail(text);
    return number;
}

/* ---- images */

static int digit_of(char c) {
    if (c >= '0' && c <= '9') return c - '0';
    if (c >= 'a' && c <= 'f') return c - 'a' + 10;
    if (c >= 'A' && c <= 'F') return c - 'A' + 10;
    return -1;
}

/* Appends the data of a line, without its comment, to the bytes. Returns how many there are now. */
static size_t read_data(const char *line, const char *end, uint8_t *bytes, size_t used) {
    for (const char *at = line; at < end; at++) {
        int high = digit_of(*at);
        if (high < 0) {
            if (*at != ' ' && *at != '\t' && *at != '\r') fail("bad line");
            continue;
        }
        int low = ++at < end ? digit_of(*at) : -1;
        if (low < 0) fail("bad line");
        bytes[used++] = (uint8_t)(16 * high + low);
    }
    return used;
}

static void add_piece(struct image *image, uint64_t address, const uint8_t *bytes, size_t length) {
    if (!length) return;
    image->pieces = (struct acpiset_piece *)realloc(image->pieces, (image->count + 1) * sizeof *image->pieces);
    if (!image->pieces) fail("out of memory");
    struct acpiset_piece piece = {address, copy_of(bytes, length), length};
    image->pieces[image->count++] = piece;
}

struct image read_image(const char *text, size_t length) {
    struct image image = {NULL, 0};
    uint8_t *bytes = (uint8_t *)block_of(length / 2);
    size_t used = 0;
    uint64_t address = 0;
    const char *end = text + length;
    for (const char *line = text; line < end;) {
        const char *next = (const char *)memchr(line, '\n', (size_t)(end - line));
        next = next ? next : end;
        const char *comment = (const char *)memchr(line, '#', (size_t)(next - line));
        const char *last = comment ? comment : next;
        while (line < last && (*line == ' ' || *line == '\t')) line++;
        if (line < last && *line == '@') {
            add_piece(&image, address, bytes, used);
            used = 0;
            address = strtoull(line + 1, NULL, 16);
        } else {
            used = read_data(line, last, bytes, used);
        }
        line = next + 1;
    }
    add_piece(&image, address, bytes, used);
    free(bytes);
    return image;
}

void free_image(struct image *image) {
    for (size_t i = 0; i < image->count; i++) free((void *)image->pieces[i].bytes);
    free(image->pieces);
}

/* ---- answers */

struct acpiset_answer answer_of(uint32_t kind, uint64_t at, uint64_t other) {
    struct acpiset_answer answer = {kind, 0, 0, at, other, 0};
    return answer;
}

struct acpiset_answer fault_of(uint32_t code, uint64_t at, uint64_t other, uint64_t point) {
    struct acpiset_answer answer = {ACPISET_NO, acpiset_stage_of(code), code, at, other, point};
    return answer;
}

bool same_answers(struct acpiset_answer one, struct acpiset_answer other) {
    return one.kind == other.kind && one.stage == other.stage && one.code == other.code && one.at == other.at &&
           one.other == other.other && one.point == other.point;
}

/* ---- cases */

static unsigned long passed, failed;

static void count(bool is_right, const char *format, va_list arguments) {
    if (is_right) {
        passed++;
        return;
    }
    failed++;
    vprintf(format, arguments);
    putchar('\n');
}

void count_case(bool is_right, const char *format, ...) {
    va_list arguments;
    va_start(arguments, format);
    count(is_right, format, arguments);
    va_end(arguments);
}

static void print_answer(const char *what, struct acpiset_answer answer) {
    printf("  %s %s, stage %" PRIu32 ", code %" PRIu32 " %s, 0x%" PRIx64 " 0x%" PRIx64 " 0x%" PRIx64 "\n", what,
           acpiset_kind_name(answer.kind), answer.stage, answer.code, acpiset_number_name(answer.code), answer.at,
           answer.other, answer.point);
}

void expect(struct acpiset_answer got, struct acpiset_answer wanted, const char *format, ...) {
    bool is_right = same_answers(got, wanted);
    va_list arguments;
    va_start(arguments, format);
    count(is_right, format, arguments);
    va_end(arguments);
    if (!is_right) {
        print_answer("answered", got);
        print_answer("expected", wanted);
    }
}

int report(const char *program) {
    printf("%s: %lu passed, %lu failed\n", program, passed, failed);
    return failed ? 1 : 0;
}
