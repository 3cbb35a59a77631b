/* Arrays of several sizes for findings: as many as fit are written, by number, and the rest of the array stays as it is. One of
 * these sizes is what an earlier header, of a library with fewer rules, says to be the most.
 * usage: findings RSDP FILE [RSDP FILE].. */
#include "calls.h"

#include <stdlib.h>
#include <string.h>

#define FILLER 0xa5
#define ROOM (ACPISET_MOST_FINDINGS + 2)
#define EARLIER_MOST 87

static struct acpiset_finding room[ROOM], all[ROOM];
/* The most findings of a set. */
static size_t most;

/* Whether the elements from this one on were not written to, their padding included. */
static bool is_untouched_from(size_t first) {
    for (size_t i = first * sizeof room[0]; i < sizeof room; i++)
        if (((const unsigned char *)room)[i] != FILLER) return false;
    return true;
}

static bool same_findings(const struct acpiset_finding *one, const struct acpiset_finding *other) {
    return one->number == other->number && one->at == other->at && one->other == other->other && one->point == other->point;
}

static struct acpiset_answer ask_lint(struct subject *subject, struct acpiset_finding *findings, size_t count) {
    memset(room, FILLER, sizeof room);
    subject->findings = findings;
    subject->findings_count = count;
    return ask(LINT, subject);
}

/* The faults come first, and numbers rise. */
static bool is_in_order(struct acpiset_answer answer) {
    size_t count = (size_t)(answer.at + answer.other);
    for (size_t i = 0; i < count; i++) {
        bool is_fault = i < answer.at;
        if (is_fault ? all[i].number < 1 || all[i].number > 59 : all[i].number < 101 || all[i].number > 311) return false;
        if (i > 0 && all[i].number <= all[i - 1].number) return false;
    }
    return true;
}

static void sizes(struct subject *subject) {
    struct acpiset_answer answer = ask_lint(subject, room, ROOM);
    memcpy(all, room, sizeof all);
    size_t total = (size_t)(answer.at + answer.other);
    if (total > most) most = total;
    bool is_right = total <= ACPISET_MOST_FINDINGS && answer.kind == (answer.at ? ACPISET_NO : ACPISET_YES);
    count_case(is_right, "%s: how many findings", subject->name);
    count_case(is_in_order(answer), "%s: the order of findings", subject->name);
    count_case(is_untouched_from(total), "%s: the elements after all findings", subject->name);
    expect(ask_lint(subject, NULL, 0), answer, "%s: no array", subject->name);
    const size_t rooms[] = {0, 1, 2, total / 2, total ? total - 1 : 0, total, total + 1, EARLIER_MOST, ACPISET_MOST_FINDINGS, ROOM};
    for (size_t i = 0; i < sizeof rooms / sizeof rooms[0]; i++) {
        expect(ask_lint(subject, room, rooms[i]), answer, "%s: an array of %zu", subject->name, rooms[i]);
        size_t written = rooms[i] < total ? rooms[i] : total;
        bool is_same = true;
        for (size_t j = 0; j < written; j++) is_same = is_same && same_findings(&room[j], &all[j]);
        count_case(is_same, "%s: findings in an array of %zu", subject->name, rooms[i]);
        count_case(is_untouched_from(written), "%s: the elements after an array of %zu", subject->name, rooms[i]);
    }
}

/* A program of an earlier header: its array ends where it says, and the answer has the counts of all findings. */
static void earlier(struct subject *subject) {
    struct acpiset_finding *own = (struct acpiset_finding *)malloc(EARLIER_MOST * sizeof *own);
    struct acpiset_answer answer = ask_lint(subject, room, ROOM);
    memcpy(all, room, sizeof all);
    expect(ask_lint(subject, own, EARLIER_MOST), answer, "%s: an array of its own, of %d", subject->name, EARLIER_MOST);
    size_t total = (size_t)(answer.at + answer.other);
    bool is_same = true;
    for (size_t i = 0; i < total && i < EARLIER_MOST; i++) is_same = is_same && same_findings(&own[i], &all[i]);
    count_case(is_same, "%s: findings in an array of its own", subject->name);
    free(own);
}

/* Each finding that is a fault is confirmed; one of advice has the number of no code. */
static void confirmed(struct subject *subject) {
    struct acpiset_answer answer = ask_lint(subject, room, ROOM);
    memcpy(all, room, sizeof all);
    for (size_t i = 0; i < answer.at + answer.other; i++) {
        subject->fault = all[i];
        uint32_t kind = i < answer.at ? ACPISET_YES : ACPISET_BAD_CODE;
        expect(ask(CONFIRM, subject), answer_of(kind, 0, 0), "%s: finding %zu confirmed", subject->name, i);
    }
}

/* A call that is refused writes nothing. */
static void refused(struct subject *subject) {
    struct subject it = *subject;
    it.settings.size = 0;
    expect(ask_lint(&it, room, ROOM), answer_of(ACPISET_BAD_SIZE, 0, 0), "%s: a wrong size", it.name);
    count_case(is_untouched_from(0), "%s: findings after a wrong size", it.name);

    static const struct acpiset_inputs inputs[] = {{1, 0}};
    it = *subject;
    it.inputs = inputs;
    it.inputs_count = 1;
    expect(ask_lint(&it, room, ROOM), answer_of(ACPISET_BAD_INPUTS, 0, 0), "%s: wrong inputs", it.name);
    count_case(is_untouched_from(0), "%s: findings after wrong inputs", it.name);

    static const uint8_t byte = 0;
    static const struct acpiset_piece twice[] = {{0x1000, &byte, 1}, {0x1000, &byte, 1}};
    it = *subject;
    it.image.pieces = (struct acpiset_piece *)twice;
    it.image.count = 2;
    expect(ask_lint(&it, room, ROOM), answer_of(ACPISET_PIECES_OVERLAP, 1, 0x1000), "%s: an overlap", it.name);
    count_case(is_untouched_from(0), "%s: findings after an overlap", it.name);
}

int main(int argc, char **argv) {
    size_t count;
    struct subject *subjects = subjects_of(argc, argv, &count);
    for (size_t i = 0; i < count; i++) {
        sizes(&subjects[i]);
        earlier(&subjects[i]);
        confirmed(&subjects[i]);
        refused(&subjects[i]);
    }
    free_subjects(subjects, count);
    count_case(most > EARLIER_MOST, "no set has more than %d findings", EARLIER_MOST);
    return report("findings");
}
