/* All that is passed lies between pages that nobody may touch, at the start of a page and then at the end of one, and all but the
 * rooms for results may not be written to: a read or write outside ends the program.
 * usage: guarded RSDP FILE [RSDP FILE].. */
#define _DEFAULT_SOURCE
#include "calls.h"

#include <stdlib.h>
#include <string.h>
#include <sys/mman.h>
#include <unistd.h>

static size_t page;
static bool is_at_end;

/* Maps that are given back all at once. */
struct map {
    void *start;
    size_t size;
};
static struct map *maps;
static size_t maps_count;

/* A copy of the bytes between two guarded pages. */
static void *guarded(const void *bytes, size_t size, int protection) {
    size_t inside = (size + page - 1) / page * page;
    size_t size_of_map = inside + 2 * page;
    char *start = (char *)mmap(NULL, size_of_map, PROT_NONE, MAP_PRIVATE | MAP_ANONYMOUS, -1, 0);
    if (start == MAP_FAILED) exit(2);
    char *first = start + page + (is_at_end ? inside - size : 0);
    if (inside) {
        if (mprotect(start + page, inside, PROT_READ | PROT_WRITE) != 0) exit(2);
        memcpy(first, bytes, size);
        if (mprotect(start + page, inside, protection) != 0) exit(2);
    }
    maps = (struct map *)realloc(maps, (maps_count + 1) * sizeof *maps);
    if (!maps) exit(2);
    struct map map = {start, size_of_map};
    maps[maps_count++] = map;
    return first;
}

static void unmap_all(void) {
    for (size_t i = 0; i < maps_count; i++) munmap(maps[i].start, maps[i].size);
    maps_count = 0;
}

/* The subject with all that is passed guarded, and two pieces more, which have no bytes. */
static struct subject guarded_subject(const struct subject *subject) {
    struct subject it = *subject;
    size_t count = subject->image.count + 2;
    struct acpiset_piece *pieces = (struct acpiset_piece *)block_of(count * sizeof *pieces);
    for (size_t i = 0; i < subject->image.count; i++) {
        pieces[i] = subject->image.pieces[i];
        pieces[i].bytes = (const uint8_t *)guarded(pieces[i].bytes, pieces[i].length, PROT_READ);
    }
    for (size_t i = subject->image.count; i < count; i++) {
        pieces[i].address = i;
        pieces[i].bytes = (const uint8_t *)guarded(NULL, 0, PROT_READ);
        pieces[i].length = 0;
    }
    it.image.pieces = (struct acpiset_piece *)guarded(pieces, count * sizeof *pieces, PROT_READ);
    it.image.count = count;
    free(pieces);
    it.text = (const char *)guarded(subject->text, subject->length, PROT_READ);
    it.inputs = (const struct acpiset_inputs *)guarded(subject->inputs, subject->inputs_count * sizeof *subject->inputs, PROT_READ);
    return it;
}

/* The calls again, with a fault that is guarded too, and as many bytes of the settings as they say that they have. */
static struct acpiset_answer ask_guarded(enum call call, const struct subject *it) {
    const struct acpiset_settings *settings =
        (const struct acpiset_settings *)guarded(&it->settings, it->settings.size, PROT_READ);
    const struct acpiset_finding *fault = (const struct acpiset_finding *)guarded(&it->fault, sizeof it->fault, PROT_READ);
    const struct acpiset_piece *pieces = it->image.pieces;
    size_t count = it->image.count;
    switch (call) {
    case CHECK: return acpiset_check(pieces, count, it->inputs, it->inputs_count, settings);
    case CHECK_TEXT: return acpiset_check_text(it->text, it->length, it->inputs, it->inputs_count, settings);
    case CONFIRM: return acpiset_confirm(pieces, count, it->inputs, it->inputs_count, settings, fault);
    case LINT: return acpiset_lint(pieces, count, it->inputs, it->inputs_count, settings, it->findings, it->findings_count);
    case SHOW: return acpiset_show(pieces, count, it->inputs, it->inputs_count, settings, it->shown, it->shown_size);
    case REBUILD:
        return acpiset_rebuild(pieces, count, it->inputs, it->inputs_count, settings, BASE, it->rebuilt, it->rebuilt_size);
    default: return acpiset_find(pieces, count);
    }
}

/* A room for this many bytes, which are 0. */
static void *guarded_room(size_t size) {
    void *zeros = block_of(size);
    memset(zeros, 0, size);
    void *room = guarded(zeros, size, PROT_READ | PROT_WRITE);
    free(zeros);
    return room;
}

/* acpiset_show and acpiset_rebuild with rooms for none of the bytes, for some, for all, and for one more. */
static void ask_for_bytes(struct subject *it) {
    size_t shown = (size_t)ask(SHOW, it).at, rebuilt = (size_t)ask(REBUILD, it).at;
    struct acpiset_answer wanted[2] = {ask(SHOW, it), ask(REBUILD, it)};
    for (int size = -2; size <= 1; size++) {
        it->shown_size = size == -2 ? 1 : shown + (size_t)(size + 1) - (shown ? 1 : 0);
        it->rebuilt_size = size == -2 ? 1 : rebuilt + (size_t)(size + 1) - (rebuilt ? 1 : 0);
        it->shown = (char *)guarded_room(it->shown_size);
        it->rebuilt = (uint8_t *)guarded_room(it->rebuilt_size);
        expect(ask_guarded(SHOW, it), wanted[0], "%s: show, a guarded room of %zu", it->name, it->shown_size);
        expect(ask_guarded(REBUILD, it), wanted[1], "%s: rebuild, a guarded room of %zu", it->name, it->rebuilt_size);
    }
}

/* Each call, and those with rooms of several sizes: acpiset_lint with every size up to one more than is needed. */
static void ask_all(const struct subject *subject) {
    struct subject it = guarded_subject(subject);
    for (int call = 0; call < CALLS; call++)
        expect(ask_guarded((enum call)call, &it), ask((enum call)call, subject), "%s: %s, guarded", subject->name, call_names[call]);
    struct acpiset_answer answer = ask(LINT, subject);
    static const struct acpiset_finding empty[ACPISET_MOST_FINDINGS + 1] = {{0, 0, 0, 0}};
    size_t total = (size_t)(answer.at + answer.other);
    for (size_t room = 0; room <= total + 1; room++) {
        it.findings = (struct acpiset_finding *)guarded(empty, room * sizeof empty[0], PROT_READ | PROT_WRITE);
        it.findings_count = room;
        expect(ask_guarded(LINT, &it), answer, "%s: lint, a guarded array of %zu", subject->name, room);
    }
    ask_for_bytes(&it);
    unmap_all();
}

/* Settings of fewer bytes, as another header may have them, between guarded pages. */
static void ask_short(const struct subject *subject) {
    struct subject it = guarded_subject(subject);
    for (size_t size = sizeof it.settings.size; size < sizeof it.settings; size += sizeof it.settings.size) {
        it.settings.size = size;
        for (int call = CHECK; call <= REBUILD; call++)
            expect(ask_guarded((enum call)call, &it), answer_of(ACPISET_BAD_SIZE, 0, 0), "%s, settings of %zu bytes", call_names[call], size);
    }
    unmap_all();
}

int main(int argc, char **argv) {
    page = (size_t)sysconf(_SC_PAGESIZE);
    size_t count;
    struct subject *subjects = subjects_of(argc, argv, &count);
    for (int place = 0; place < 2; place++) {
        is_at_end = place == 1;
        for (size_t i = 0; i < count; i++) ask_all(&subjects[i]);
        ask_short(&subjects[0]);
    }
    free(maps);
    free_subjects(subjects, count);
    return report("guarded");
}
