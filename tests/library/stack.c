/* How much of the stack each call takes: it is asked in a thread whose stack has a known content, and what differs later was used.
 * Then it is asked once more in a thread with a small stack, where too little of it would end the program.
 * usage: stack MOST COUNTS RSDP FILE [RSDP FILE]..; MOST is how many bytes a call may take, and COUNTS how many I/O APICs, at the
 * addresses from 0 on, have a count of inputs. */
#define _DEFAULT_SOURCE
#include "calls.h"

#include <pthread.h>
#include <stdlib.h>
#include <string.h>
#include <sys/mman.h>

#define SIZE ((size_t)1 << 20)
#define FILLER 0xa5
/* What a thread has by default with musl. */
#define SMALL ((size_t)128 << 10)

/* A call on a subject; of none of them only the thread's own bytes are counted. */
struct question {
    enum call call;
    const struct subject *subject;
};

#ifdef PLANTED
/* A mistake that this program has to see: so many bytes of the stack are taken around each call. */
static void ask_with_more(enum call call, const struct subject *subject) {
    volatile unsigned char block[PLANTED];
    block[0] = 1;
    ask(call, subject);
    block[PLANTED - 1] = block[0];
}
#define ask ask_with_more
#endif

static void *ask_one(void *argument) {
    const struct question *question = (const struct question *)argument;
    if (question->subject) ask(question->call, question->subject);
    return NULL;
}

/* Asks in a thread with such a stack, of which the attributes are then destroyed. */
static void ask_in_thread(pthread_attr_t *attributes, struct question *question) {
    pthread_t thread;
    if (pthread_create(&thread, attributes, ask_one, question) != 0) exit(2);
    pthread_join(thread, NULL);
    pthread_attr_destroy(attributes);
}

/* How many bytes of its stack a thread with this question uses. */
static size_t used_by(struct question question) {
    unsigned char *stack = (unsigned char *)mmap(NULL, SIZE, PROT_READ | PROT_WRITE, MAP_PRIVATE | MAP_ANONYMOUS, -1, 0);
    if (stack == MAP_FAILED) exit(2);
    memset(stack, FILLER, SIZE);
    pthread_attr_t attributes;
    pthread_attr_init(&attributes);
    if (pthread_attr_setstack(&attributes, stack, SIZE) != 0) exit(2);
    ask_in_thread(&attributes, &question);
    size_t unused = 0;
    while (unused < SIZE && stack[unused] == FILLER) unused++;
    munmap(stack, SIZE);
    return SIZE - unused;
}

static void ask_with_small_stack(struct question question) {
    pthread_attr_t attributes;
    pthread_attr_init(&attributes);
    if (pthread_attr_setstacksize(&attributes, SMALL) != 0) exit(2);
    ask_in_thread(&attributes, &question);
}

/* Counts of inputs for so many I/O APICs. */
static struct acpiset_inputs *counts_of(size_t count) {
    struct acpiset_inputs *inputs = (struct acpiset_inputs *)block_of(count * sizeof *inputs);
    for (size_t i = 0; i < count; i++) {
        inputs[i].address = (uint32_t)i;
        inputs[i].count = 1 + (uint32_t)(i % 24);
    }
    return inputs;
}

int main(int argc, char **argv) {
    size_t count;
    if (argc < 3) exit(2);
    size_t limit = strtoul(argv[1], NULL, 10), inputs_count = strtoul(argv[2], NULL, 10);
    struct acpiset_inputs *inputs = counts_of(inputs_count);
    struct subject *subjects = subjects_of(argc - 2, argv + 2, &count);
    static struct acpiset_finding findings[ACPISET_MOST_FINDINGS];
    struct question nothing = {CHECK, NULL};
    size_t own = used_by(nothing);
    printf("bytes of stack:");
    for (int call = 0; call < CALLS; call++) {
        size_t most = 0;
        for (size_t i = 0; i < count; i++) {
            subjects[i].findings = findings;
            subjects[i].findings_count = ACPISET_MOST_FINDINGS;
            subjects[i].inputs = inputs;
            subjects[i].inputs_count = inputs_count;
            struct question question = {(enum call)call, &subjects[i]};
            size_t used = used_by(question);
            if (used > own && used - own > most) most = used - own;
        }
        printf(" %s %zu", call_names[call], most);
        count_case(most < limit, "%s takes %zu bytes", call_names[call], most);
    }
    printf("\n");
    fflush(stdout);
    for (int call = 0; call < CALLS; call++) {
        for (size_t i = 0; i < count; i++) {
            struct question question = {(enum call)call, &subjects[i]};
            ask_with_small_stack(question);
        }
    }
    free_subjects(subjects, count);
    free(inputs);
    return report("stack");
}
