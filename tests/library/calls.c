#include "calls.h"

#include <stdlib.h>

const char *const call_names[CALLS] = {"check", "check_text", "confirm", "lint", "show", "rebuild", "find"};

/* None of them changes an answer: the addresses are those of no I/O APIC, or the number is the usual one. */
static const struct acpiset_inputs some_inputs[] = {
    {0xfec00000, 24}, {1, 256}, {2, 1}, {3, 24}, {4, 100}, {5, 7}, {6, 8}, {7, 9}, {8, 10}, {9, 11}, {10, 12}, {11, 13},
};

static struct subject subject_of(const char *rsdp, const char *path) {
    struct subject subject = {path,        NULL, 0, {NULL, 0}, some_inputs, sizeof some_inputs / sizeof some_inputs[0],
                              ACPISET_SETTINGS(0), {ACPISET_NO_FADT, 0, 0, 0}, NULL, 0, NULL, 0, NULL, 0};
    subject.text = read_file(path, &subject.length);
    subject.image = read_image(subject.text, subject.length);
    subject.settings.rsdp = number_of(rsdp, 16);
    struct acpiset_answer answer = ask(CHECK, &subject);
    if (answer.kind == ACPISET_NO) {
        struct acpiset_finding fault = {answer.code, answer.at, answer.other, answer.point};
        subject.fault = fault;
    }
    return subject;
}

struct subject *subjects_of(int argc, char **argv, size_t *count) {
    if (argc < 3 || argc % 2 == 0) {
        fprintf(stderr, "usage: %s RSDP FILE [RSDP FILE]..\n", argv[0]);
        exit(2);
    }
    *count = (size_t)(argc - 1) / 2;
    struct subject *subjects = (struct subject *)block_of(*count * sizeof *subjects);
    for (size_t i = 0; i < *count; i++) subjects[i] = subject_of(argv[1 + 2 * i], argv[2 + 2 * i]);
    return subjects;
}

void free_subjects(struct subject *subjects, size_t count) {
    for (size_t i = 0; i < count; i++) {
        free((void *)subjects[i].text);
        free_image(&subjects[i].image);
    }
    free(subjects);
}

struct acpiset_answer ask(enum call call, const struct subject *it) {
    const struct acpiset_piece *pieces = it->image.pieces;
    size_t count = it->image.count;
    switch (call) {
    case CHECK: return acpiset_check(pieces, count, it->inputs, it->inputs_count, &it->settings);
    case CHECK_TEXT: return acpiset_check_text(it->text, it->length, it->inputs, it->inputs_count, &it->settings);
    case CONFIRM: return acpiset_confirm(pieces, count, it->inputs, it->inputs_count, &it->settings, &it->fault);
    case LINT:
        return acpiset_lint(pieces, count, it->inputs, it->inputs_count, &it->settings, it->findings, it->findings_count);
    case SHOW: return acpiset_show(pieces, count, it->inputs, it->inputs_count, &it->settings, it->shown, it->shown_size);
    case REBUILD:
        return acpiset_rebuild(pieces, count, it->inputs, it->inputs_count, &it->settings, BASE, it->rebuilt, it->rebuilt_size);
    default: return acpiset_find(pieces, count);
    }
}
