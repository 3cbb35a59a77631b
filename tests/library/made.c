/* The bytes that acpiset_show and acpiset_rebuild write: as many as fit and nothing else. The set that is rebuilt is valid at its new
 * address, and its memory is that of the same set rebuilt there again.
 * usage: made RSDP FILE [RSDP FILE].. */
#include "calls.h"

#include <stdlib.h>
#include <string.h>

#define FILLER 0xa5
enum { EXTRA = 64 };

/* A call with a room of this size, which has room for more behind it. */
static struct acpiset_answer ask_with(enum call call, struct subject *it, uint8_t *room, size_t size) {
    it->shown = (char *)room;
    it->shown_size = size;
    it->rebuilt = room;
    it->rebuilt_size = size;
    return ask(call, it);
}

/* Whether the room begins with this many of the bytes, and the rest of it is untouched. */
static bool is_written(const uint8_t *room, size_t size, const uint8_t *bytes, size_t length) {
    if (length && memcmp(room, bytes, length) != 0) return false;
    for (size_t i = length; i < size; i++)
        if (room[i] != FILLER) return false;
    return true;
}

/* All bytes of a call that answers yes. Asks with rooms of several sizes too. */
static uint8_t *bytes_of_call(enum call call, struct subject *it, size_t *length) {
    struct acpiset_answer answer = ask_with(call, it, NULL, 0);
    *length = (size_t)answer.at;
    uint8_t *all = (uint8_t *)block_of(*length), *room = (uint8_t *)block_of(*length + EXTRA);
    expect(ask_with(call, it, all, *length), answer, "%s: %s, in a room of its length", it->name, call_names[call]);
    const size_t sizes[] = {0, 1, *length / 2, *length - 1, *length, *length + 1, *length + EXTRA};
    for (size_t i = 0; i < sizeof sizes / sizeof sizes[0]; i++) {
        memset(room, FILLER, *length + EXTRA);
        expect(ask_with(call, it, room, sizes[i]), answer, "%s: %s, in %zu bytes", it->name, call_names[call], sizes[i]);
        count_case(is_written(room, *length + EXTRA, all, sizes[i] < *length ? sizes[i] : *length),
                   "%s: %s, in %zu bytes: what was written", it->name, call_names[call], sizes[i]);
    }
    free(room);
    return all;
}

/* A call that answers no or refuses: it writes nothing. */
static void writes_nothing(enum call call, struct subject *it) {
    uint8_t room[EXTRA];
    memset(room, FILLER, sizeof room);
    struct acpiset_answer answer = ask_with(call, it, room, sizeof room);
    count_case(is_written(room, sizeof room, NULL, 0) && answer.kind != ACPISET_YES, "%s: %s writes nothing", it->name, call_names[call]);
}

/* The first fault that a check through these stages finds, or what it answers else. */
static struct acpiset_answer checked(const struct subject *it, uint32_t through) {
    struct subject other = *it;
    other.settings.through = through;
    return ask(CHECK, &other);
}

/* All bytes of a call that answers yes if and only if a check through these stages does. Otherwise it answers as that check and writes
 * nothing; then NULL. */
static uint8_t *bytes_if_checked(enum call call, struct subject *it, uint32_t through, size_t *length) {
    struct acpiset_answer judged = checked(it, through), answer = ask_with(call, it, NULL, 0);
    if (judged.kind != ACPISET_YES) {
        expect(answer, judged, "%s: %s answers as a check through stage %u", it->name, call_names[call], through);
        writes_nothing(call, it);
        return NULL;
    }
    expect(answer, answer_of(ACPISET_YES, answer.at, 0), "%s: %s", it->name, call_names[call]);
    return bytes_of_call(call, it, length);
}

static void show(struct subject *it) {
    size_t length;
    uint8_t *text = bytes_if_checked(SHOW, it, 3, &length);
    if (!text) return;
    count_case(length > 5 && memcmp(text, "rsdp ", 5) == 0 && text[length - 1] == '\n' && !memchr(text, 0, length),
               "%s: show writes lines", it->name);
    free(text);
}

/* The memory is a valid set at its address, and the same set is rebuilt from it at this address. */
static void is_valid_there(const struct subject *it, uint8_t *bytes, size_t length) {
    struct acpiset_piece piece = {BASE, bytes, length};
    struct subject moved = *it;
    moved.image.pieces = &piece;
    moved.image.count = 1;
    moved.settings.rsdp = BASE;
    expect(checked(&moved, 18), answer_of(ACPISET_YES, 0, 0), "%s: rebuilt, it is valid", it->name);
    size_t again_length;
    uint8_t *again = bytes_of_call(REBUILD, &moved, &again_length);
    count_case(again_length == length && memcmp(again, bytes, length) == 0, "%s: rebuilt twice, it is the same", it->name);
    free(again);
}

/* At the highest base at which it fits, and at the next one. The FADT of no subject is too short for the FACS's address there. */
static void at_the_end(const struct subject *it, size_t length) {
    uint64_t last = (UINT64_MAX - length + 1) / 64 * 64;
    for (int beyond = 0; beyond < 2; beyond++) {
        struct acpiset_answer answer = acpiset_rebuild(it->image.pieces, it->image.count, it->inputs, it->inputs_count, &it->settings,
                                                       last + (beyond ? 64 : 0), NULL, 0);
        if (answer.kind == ACPISET_NEEDS_LOW) continue;
        expect(answer, beyond ? answer_of(ACPISET_PAST_END, 0, 0) : answer_of(ACPISET_YES, length, 0), "%s: rebuilt at the end, %d",
               it->name, beyond);
    }
}

static void rebuild(struct subject *it) {
    size_t length;
    uint8_t *bytes = bytes_if_checked(REBUILD, it, 18, &length);
    if (!bytes) return;
    count_case(length > 36 && memcmp(bytes, "RSD PTR ", 8) == 0, "%s: rebuild begins with the RSDP", it->name);
    is_valid_there(it, bytes, length);
    at_the_end(it, length);
    free(bytes);
}

int main(int argc, char **argv) {
    size_t count;
    struct subject *subjects = subjects_of(argc, argv, &count);
    for (size_t i = 0; i < count; i++) {
        show(&subjects[i]);
        rebuild(&subjects[i]);
        subjects[i].settings.default_inputs = 0;
        writes_nothing(SHOW, &subjects[i]);
        writes_nothing(REBUILD, &subjects[i]);
    }
    free_subjects(subjects, count);
    return report("made");
}
