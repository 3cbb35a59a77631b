/* Every call on one image, for programs that ask the same again and again. */
#ifndef CALLS_H
#define CALLS_H

#include "common.h"

enum call { CHECK, CHECK_TEXT, CONFIRM, LINT, SHOW, REBUILD, FIND, CALLS };

/* Where a set is rebuilt. */
#define BASE 0x200000

extern const char *const call_names[CALLS];

/* An image as text and as pieces, and the arguments of the calls on it. */
struct subject {
    const char *name;
    const char *text;
    size_t length;
    struct image image;
    const struct acpiset_inputs *inputs;
    size_t inputs_count;
    struct acpiset_settings settings;
    struct acpiset_finding fault; /* the first one; of a clean image NO_FADT, which is not in it */
    struct acpiset_finding *findings;
    size_t findings_count;
    char *shown;
    size_t shown_size;
    uint8_t *rebuilt;
    size_t rebuilt_size;
};

/* The subjects that the arguments name: an RSDP's address in hex and a file of image text, for each. */
struct subject *subjects_of(int argc, char **argv, size_t *count);
void free_subjects(struct subject *subjects, size_t count);

struct acpiset_answer ask(enum call call, const struct subject *subject);

#endif
