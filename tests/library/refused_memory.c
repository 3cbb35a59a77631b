/* Each request for memory of each call is refused in its turn, alone and with all that follow: the answer is OUT_OF_MEMORY, no block
 * is left, and nothing is written to the caller's rooms. Only numbers that are out of range, and a fault of a text up to its first line
 * of data, are told all the same.
 * usage: refused_memory RSDP FILE [RSDP FILE].. */
#include "calls.h"
#include "counted_memory.h"

#include <string.h>

#define FILLER 0xa5

/* The rooms that the calls write to. */
static struct {
    struct acpiset_finding findings[ACPISET_MOST_FINDINGS];
    char shown[4096];
    uint8_t rebuilt[4096];
} rooms;

static bool is_untouched(void) {
    for (size_t i = 0; i < sizeof rooms; i++)
        if (((const unsigned char *)&rooms)[i] != FILLER) return false;
    return true;
}

/* A call with this request refused. */
static void refuse(enum call call, const struct subject *subject, long number, bool and_later) {
    const char *name = call_names[call], *how = and_later ? " and later ones" : "";
    memset(&rooms, FILLER, sizeof rooms);
    long before = live_blocks();
    refuse_request(number, and_later);
    struct acpiset_answer answer = ask(call, subject);
    refuse_request(0, false);
    expect(answer, answer_of(ACPISET_OUT_OF_MEMORY, 0, 0), "%s: %s, request %ld%s", subject->name, name, number, how);
    count_case(live_blocks() == before, "%s: %s, request %ld%s: %ld blocks are left", subject->name, name, number, how,
               live_blocks() - before);
    count_case(is_untouched(), "%s: %s, request %ld%s: a room was written to", subject->name, name, number, how);
}

/* How many requests a call makes. */
static long refuse_each(enum call call, const struct subject *subject) {
    long before = live_blocks();
    refuse_request(0, false);
    struct acpiset_answer usual = ask(call, subject);
    long requests = requests_made();
    count_case(usual.kind <= ACPISET_NO, "%s: %s", subject->name, call_names[call]);
    count_case(live_blocks() == before, "%s: %s: %ld blocks are left", subject->name, call_names[call], live_blocks() - before);
    for (long number = 1; number <= requests; number++) {
        refuse(call, subject, number, false);
        refuse(call, subject, number, true);
    }
    expect(ask(call, subject), usual, "%s: %s, asked again", subject->name, call_names[call]);
    return requests;
}

/* Many numbers of inputs, of which a late one may be out of range: then that is the answer, whether or not there is memory. */
static void refuse_inputs(const struct subject *subject) {
    enum { COUNT = 50000, LATE = 40000 };
    static struct acpiset_inputs inputs[COUNT];
    static const uint32_t counts[] = {24, 0, 257};
    struct subject it = *subject;
    it.inputs = inputs;
    it.inputs_count = COUNT;
    for (uint32_t i = 0; i < COUNT; i++) {
        inputs[i].address = i;
        inputs[i].count = 24;
    }
    for (int call = CHECK; call <= REBUILD; call++) {
        refuse_request(0, false);
        ask((enum call)call, &it);
        long requests = requests_made();
        /* A tree of counts makes thousands of requests: of the later ones a sample. */
        for (long number = 1; number <= requests; number += 1 + number / 20) {
            for (size_t i = 0; i < sizeof counts / sizeof counts[0]; i++) {
                inputs[LATE].count = counts[i];
                refuse_request(number, true);
                struct acpiset_answer answer = ask((enum call)call, &it);
                refuse_request(0, false);
                expect(answer, answer_of(counts[i] == 24 ? ACPISET_OUT_OF_MEMORY : ACPISET_BAD_INPUTS, counts[i] == 24 ? 0 : LATE, 0),
                       "%s: inputs %lu at %d, request %ld and later ones", call_names[call], (unsigned long)counts[i], LATE, number);
            }
            inputs[LATE].count = 24;
        }
    }
}

/* A text that is refused at its first line of data: then that is the answer, whether or not there is memory. */
static void refuse_texts(void) {
    static const struct {
        const char *text;
        enum acpiset_kind kind;
        uint64_t line;
    } refused[] = {
        {"00\n", ACPISET_NO_ADDRESS, 1},
        {"@ffffffffffffffff\n00 00\n", ACPISET_TEXT_PAST_END, 2},
        {"@0\n00 0g\n", ACPISET_BAD_LINE, 2},
    };
    struct acpiset_settings settings = ACPISET_SETTINGS(0);
    for (size_t i = 0; i < sizeof refused / sizeof refused[0]; i++) {
        const char *text = refused[i].text;
        long requests = 1;
        for (long number = 0; number <= requests; number++) {
            refuse_request(number, true);
            struct acpiset_answer answer = acpiset_check_text(text, strlen(text), NULL, 0, &settings);
            if (number == 0) requests = requests_made();
            refuse_request(0, false);
            expect(answer, answer_of(refused[i].kind, refused[i].line, 0), "text %zu, request %ld and later ones", i, number);
        }
        count_case(requests > 0, "text %zu: no request was made", i);
    }
}

int main(int argc, char **argv) {
    size_t count;
    struct subject *subjects = subjects_of(argc, argv, &count);
    long requests[CALLS] = {0};
    for (size_t i = 0; i < count; i++) {
        subjects[i].findings = rooms.findings;
        subjects[i].findings_count = ACPISET_MOST_FINDINGS;
        subjects[i].shown = rooms.shown;
        subjects[i].shown_size = sizeof rooms.shown;
        subjects[i].rebuilt = rooms.rebuilt;
        subjects[i].rebuilt_size = sizeof rooms.rebuilt;
        for (int call = 0; call < CALLS; call++) requests[call] += refuse_each((enum call)call, &subjects[i]);
    }
    refuse_inputs(&subjects[0]);
    refuse_texts();
    refuse_request(0, false);
    count_case(acpiset_abi() == ACPISET_ABI && requests_made() == 0, "acpiset_abi takes no memory");
    printf("requests for memory, each refused:");
    for (int call = 0; call < CALLS; call++) printf(" %s %ld", call_names[call], requests[call]);
    printf("\n");
    free_subjects(subjects, count);
    count_case(live_blocks() == 0, "%ld blocks are left of the program's own", live_blocks());
    return report("refused_memory");
}
