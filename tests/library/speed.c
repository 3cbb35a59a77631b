/* Prints how long each call takes: the best of many rounds.
 * usage: speed RSDP FILE [RSDP FILE].. */
#define _POSIX_C_SOURCE 200809L
#include "calls.h"

#include <stdlib.h>
#include <time.h>

static double seconds(void) {
    struct timespec now;
    clock_gettime(CLOCK_MONOTONIC, &now);
    return (double)now.tv_sec + 1e-9 * (double)now.tv_nsec;
}

/* The least time of one call, in microseconds, over rounds of some milliseconds each. */
static double microseconds(enum call call, const struct subject *subject) {
    double best = 1e9, begun = seconds();
    long times = 1;
    while (seconds() - begun < 0.1) {
        double from = seconds();
        for (long i = 0; i < times; i++)
            if (ask(call, subject).kind > ACPISET_NO) exit(2);
        double took = seconds() - from;
        if (took < 0.002) times *= 2;
        if (1e6 * took / (double)times < best) best = 1e6 * took / (double)times;
    }
    return best;
}

int main(int argc, char **argv) {
    size_t count;
    struct subject *subjects = subjects_of(argc, argv, &count);
    static struct acpiset_finding findings[ACPISET_MOST_FINDINGS];
    for (size_t i = 0; i < count; i++) {
        struct subject *it = &subjects[i];
        it->findings = findings;
        it->findings_count = ACPISET_MOST_FINDINGS;
        it->inputs_count = 0;
        size_t bytes = 0;
        for (size_t j = 0; j < it->image.count; j++) bytes += it->image.pieces[j].length;
        printf("%s, %zu pieces of %zu bytes, microseconds a call:", it->name, it->image.count, bytes);
        for (int call = 0; call < CALLS; call++) printf(" %s %.2f", call_names[call], microseconds((enum call)call, it));
        printf("\n");
    }
    free_subjects(subjects, count);
    return 0;
}
