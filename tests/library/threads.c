/* Four threads ask the same of the same images at the same time: each answer is that of one thread alone, and no block is left.
 * usage: threads RSDP FILE [RSDP FILE].. */
#define _POSIX_C_SOURCE 200809L
#include "calls.h"
#include "counted_memory.h"

#include <pthread.h>
#include <stdlib.h>

#define THREADS 4
#define ROUNDS 200

static struct subject *subjects;
static size_t subjects_count;
/* The answers of one thread, by subject and call. */
static struct acpiset_answer *answers;

/* What a thread found: how many answers were right and how many wrong. Each has rooms of its own. */
struct work {
    pthread_t thread;
    unsigned seed;
    unsigned long right, wrong;
    struct acpiset_finding findings[ACPISET_MOST_FINDINGS];
    char shown[4096];
    uint8_t rebuilt[4096];
};

static void *ask_again_and_again(void *argument) {
    struct work *work = (struct work *)argument;
    for (size_t round = 0; round < ROUNDS * subjects_count * CALLS; round++) {
        /* each thread in an order of its own */
        size_t place = (round * 7 + work->seed) % (subjects_count * CALLS);
        struct subject subject = subjects[place / CALLS];
        subject.findings = work->findings;
        subject.findings_count = ACPISET_MOST_FINDINGS;
        subject.shown = work->shown;
        subject.shown_size = sizeof work->shown;
        subject.rebuilt = work->rebuilt;
        subject.rebuilt_size = sizeof work->rebuilt;
        struct acpiset_answer answer = ask((enum call)(place % CALLS), &subject);
        if (same_answers(answer, answers[place])) work->right++;
        else work->wrong++;
    }
    return NULL;
}

int main(int argc, char **argv) {
    subjects = subjects_of(argc, argv, &subjects_count);
    answers = (struct acpiset_answer *)block_of(subjects_count * CALLS * sizeof *answers);
    for (size_t place = 0; place < subjects_count * CALLS; place++) {
        answers[place] = ask((enum call)(place % CALLS), &subjects[place / CALLS]);
        count_case(answers[place].kind <= ACPISET_NO, "%s: %s", subjects[place / CALLS].name, call_names[place % CALLS]);
    }
    long before = live_blocks();
    static struct work works[THREADS];
    for (int i = 0; i < THREADS; i++) {
        works[i].seed = (unsigned)i;
        if (pthread_create(&works[i].thread, NULL, ask_again_and_again, &works[i]) != 0) exit(2);
    }
    for (int i = 0; i < THREADS; i++) {
        pthread_join(works[i].thread, NULL);
        count_case(works[i].wrong == 0, "thread %d: %lu answers are wrong", i, works[i].wrong);
        count_case(works[i].right == ROUNDS * subjects_count * CALLS, "thread %d: %lu answers", i, works[i].right);
    }
    count_case(live_blocks() == before, "%ld blocks are left", live_blocks() - before);
    free(answers);
    free_subjects(subjects, subjects_count);
    count_case(live_blocks() == 0, "%ld blocks are left of the program's own", live_blocks());
    return report("threads");
}
