/* Takes the commands of the program acpiset, calls the library, and prints the lines that the program prints.
 * usage: through_pieces COMMAND [OPTION].. [ADDRESS=COUNT].. < TEXT
 *        through_pieces --batch < JOBS
 *
 * COMMAND is check, lint, confirm, find, show or rebuild, with the options that it has there; what is rebuilt is printed as one run of
 * image text, with the zeros between the parts. It reads image text; the data after each address
 * is a piece. Two options more say how the image is passed:
 *   --text         as text (check alone; the RSDP is still looked for among the pieces)
 *   --pieces SEED  as pieces that are cut at random places, mixed with pieces without bytes, and in another order
 *
 * Jobs come one after another: the number of arguments and a line end, each argument and a line end, the number of bytes of the text
 * and a line end, and the text. The lines of each answer are followed by a line with `=` and the status. */
#include "common.h"

#include <inttypes.h>
#include <stdlib.h>
#include <string.h>

enum command { CHECK, LINT, CONFIRM, FIND, SHOW, REBUILD };

struct request {
    enum command command;
    bool has_rsdp, is_text, is_shuffled;
    uint64_t seed;
    struct acpiset_settings settings;
    struct acpiset_inputs *inputs;
    size_t inputs_count;
    struct acpiset_finding witness;
    uint64_t base;
};

static void fail(const char *what, const char *word) {
    fprintf(stderr, "through_pieces: %s: %s\n", what, word);
    exit(2);
}

/* ---- arguments */

static uint32_t choice(const char *word, const char *first, const char *second) {
    if (strcmp(word, first) != 0 && strcmp(word, second) != 0) fail("neither of two words", word);
    return strcmp(word, second) == 0;
}

/* A fault as the program writes it: its stage, its name and its three numbers. */
static struct acpiset_finding witness_of(const char *word) {
    struct acpiset_finding witness = {0, 0, 0, 0};
    unsigned stage;
    char name[64];
    if (sscanf(word, "%u %63s %" SCNx64 " %" SCNx64 " %" SCNx64, &stage, name, &witness.at, &witness.other, &witness.point) != 5)
        fail("no fault", word);
    for (uint32_t code = 1; *acpiset_number_name(code); code++)
        if (strcmp(acpiset_number_name(code), name) == 0 && acpiset_stage_of(code) == stage) witness.number = code;
    if (!witness.number) fail("no name of a code", word);
    return witness;
}

static void add_inputs(struct request *request, const char *word) {
    char *count;
    struct acpiset_inputs inputs = {(uint32_t)strtoull(word, &count, 16), 0};
    if (*count != '=') fail("no argument", word);
    inputs.count = (uint32_t)number_of(count + 1, 10);
    request->inputs = (struct acpiset_inputs *)realloc(request->inputs, (request->inputs_count + 1) * sizeof inputs);
    if (!request->inputs) fail("out of memory", word);
    request->inputs[request->inputs_count++] = inputs;
}

static enum command command_of(const char *word) {
    static const char *const commands[] = {"check", "lint", "confirm", "find", "show", "rebuild"};
    for (int command = CHECK; command <= REBUILD; command++)
        if (strcmp(word, commands[command]) == 0) return (enum command)command;
    fail("no command", word);
    return CHECK;
}

static struct request request_of(char **words, size_t count) {
    struct request request = {CHECK, false, false, false, 0, ACPISET_SETTINGS(0), NULL, 0, {0, 0, 0, 0}, 0};
    if (count == 0) fail("no command", "");
    request.command = command_of(words[0]);
    for (size_t i = 1; i < count; i++) {
        const char *word = words[i];
        if (word[0] != '-') {
            add_inputs(&request, word);
            continue;
        }
        if (strcmp(word, "--text") == 0) {
            request.is_text = true;
            continue;
        }
        if (i + 1 == count) fail("no value", word);
        const char *value = words[++i];
        if (strcmp(word, "--rsdp") == 0) {
            request.has_rsdp = true;
            request.settings.rsdp = number_of(value, 16);
        } else if (strcmp(word, "--through") == 0) {
            request.settings.through = (uint32_t)number_of(value, 10);
        } else if (strcmp(word, "--default-inputs") == 0) {
            request.settings.default_inputs = (uint32_t)number_of(value, 10);
        } else if (strcmp(word, "--hotplug") == 0) {
            request.settings.hotplug = choice(value, "counted", "apart");
        } else if (strcmp(word, "--processors") == 0) {
            request.settings.processors = choice(value, "enabled", "usable");
        } else if (strcmp(word, "--witness") == 0) {
            request.witness = witness_of(value);
        } else if (strcmp(word, "--base") == 0) {
            request.base = number_of(value, 16);
        } else if (strcmp(word, "--pieces") == 0) {
            request.is_shuffled = true;
            request.seed = number_of(value, 10);
        } else {
            fail("no option", word);
        }
    }
    return request;
}

/* ---- pieces in another way */

static uint64_t state;

/* A number below the bound, at random (splitmix64). */
static uint64_t below(uint64_t bound) {
    uint64_t z = state += 0x9e3779b97f4a7c15;
    z = (z ^ (z >> 30)) * 0xbf58476d1ce4e5b9;
    z = (z ^ (z >> 27)) * 0x94d049bb133111eb;
    return (z ^ (z >> 31)) % bound;
}

static void push(struct image *image, uint64_t address, const uint8_t *bytes, size_t length) {
    if ((image->count & (image->count + 1)) == 0) {
        size_t room = 2 * image->count + 2;
        image->pieces = (struct acpiset_piece *)realloc(image->pieces, room * sizeof *image->pieces);
        if (!image->pieces) fail("out of memory", "pieces");
    }
    struct acpiset_piece piece = {address, bytes, length};
    image->pieces[image->count++] = piece;
}

/* Adds a piece without bytes: at an address of the image, at a random one, or at the last one. */
static void push_nothing(struct image *image, const struct acpiset_piece *near) {
    const uint64_t addresses[] = {near->address, near->address + near->length / 2, below(UINT64_MAX), UINT64_MAX};
    push(image, addresses[below(4)], below(2) ? NULL : copy_of("", 0), 0);
}

/* The same image, cut at random places and in a random order. Each piece has a block of its own. */
static struct image shuffled(const struct image *image, uint64_t seed) {
    struct image other = {NULL, 0};
    state = seed;
    for (size_t i = 0; i < image->count; i++) {
        const struct acpiset_piece *piece = &image->pieces[i];
        /* some 40 parts at most */
        size_t longest = 1 + (size_t)below(piece->length < 64 ? 8 : piece->length / 20);
        for (size_t at = 0; at < piece->length;) {
            size_t length = 1 + (size_t)below(longest);
            if (length > piece->length - at) length = piece->length - at;
            push(&other, piece->address + at, copy_of(piece->bytes + at, length), length);
            at += length;
            if (below(8) == 0) push_nothing(&other, piece);
        }
    }
    for (size_t i = other.count; i > 1; i--) {
        size_t j = (size_t)below(i);
        struct acpiset_piece piece = other.pieces[i - 1];
        other.pieces[i - 1] = other.pieces[j];
        other.pieces[j] = piece;
    }
    return other;
}

/* ---- answers */

static void print_finding(const char *kind, uint32_t number, uint64_t at, uint64_t other, uint64_t point) {
    printf("%s %s 0x%" PRIx64 " 0x%" PRIx64 " 0x%" PRIx64 "\n", kind, acpiset_number_name(number), at, other, point);
}

static void print_fault(uint32_t code, uint64_t at, uint64_t other, uint64_t point) {
    char kind[16];
    snprintf(kind, sizeof kind, "no %" PRIu32, acpiset_stage_of(code));
    print_finding(kind, code, at, other, point);
}

/* What the program writes on standard error where it refuses a text, and its status. */
static int print_refusal(struct acpiset_answer answer) {
    switch (answer.kind) {
    case ACPISET_OUT_OF_MEMORY: puts("out of memory"); return 4;
    case ACPISET_BAD_LINE: printf("line %" PRIu64 ": bad line\n", answer.at); return 3;
    case ACPISET_NO_ADDRESS: printf("line %" PRIu64 ": no address\n", answer.at); return 3;
    case ACPISET_TEXT_OVERLAP: printf("address 0x%" PRIx64 " twice\n", answer.other); return 3;
    case ACPISET_TEXT_PAST_END: printf("line %" PRIu64 ": past the end\n", answer.at); return 3;
    case ACPISET_TEXT_TOO_LONG: puts("too long"); return 3;
    default:
        printf("%s at %" PRIu64 " other 0x%" PRIx64 "\n", acpiset_kind_name(answer.kind), answer.at, answer.other);
        return 2;
    }
}

static int print_check(struct acpiset_answer answer) {
    if (answer.kind > ACPISET_NO) return print_refusal(answer);
    if (answer.kind == ACPISET_YES) {
        puts("yes");
    } else if (acpiset_stage_of(answer.code) != answer.stage) {
        printf("code %" PRIu32 " of stage %" PRIu32 "\n", answer.code, answer.stage);
    } else {
        print_fault(answer.code, answer.at, answer.other, answer.point);
    }
    return (int)answer.kind;
}

static int print_confirm(struct acpiset_answer answer) {
    if (answer.kind > ACPISET_NO) return print_refusal(answer);
    puts(answer.kind == ACPISET_YES ? "true" : "false");
    return (int)answer.kind;
}

static int print_lint(struct acpiset_answer answer, const struct acpiset_finding *findings) {
    if (answer.kind > ACPISET_NO) return print_refusal(answer);
    if (answer.kind == ACPISET_YES) puts("yes");
    for (uint64_t i = 0; i < answer.at + answer.other && i < ACPISET_MOST_FINDINGS; i++) {
        const struct acpiset_finding *it = &findings[i];
        if (i < answer.at) print_fault(it->number, it->at, it->other, it->point);
        else print_finding("advice", it->number, it->at, it->other, it->point);
    }
    return (int)answer.kind;
}

static int print_find(struct acpiset_answer answer) {
    if (answer.kind > ACPISET_NO) return print_refusal(answer);
    if (answer.kind == ACPISET_YES) printf("rsdp 0x%" PRIx64 "\n", answer.at);
    else puts("rsdp none");
    return (int)answer.kind;
}

/* ---- bytes that are written */

static struct acpiset_answer made(const struct request *it, const struct image *image, uint8_t *room, size_t size) {
    const struct acpiset_piece *pieces = image->pieces;
    if (it->command == SHOW)
        return acpiset_show(pieces, image->count, it->inputs, it->inputs_count, &it->settings, (char *)room, size);
    return acpiset_rebuild(pieces, image->count, it->inputs, it->inputs_count, &it->settings, it->base, room, size);
}

static void print_run(uint64_t address, const uint8_t *bytes, size_t length) {
    printf("@%" PRIx64 "\n", address);
    for (size_t i = 0; i < length; i++) printf("%02x%c", bytes[i], i % 16 == 15 || i + 1 == length ? '\n' : ' ');
}

static int print_made(const struct request *it, const struct image *image) {
    struct acpiset_answer answer = made(it, image, NULL, 0);
    if (answer.kind >= ACPISET_UNALIGNED) {
        printf("refused %s\n", acpiset_kind_name(answer.kind));
        return 1;
    }
    if (answer.kind != ACPISET_YES) return print_check(answer);
    size_t length = (size_t)answer.at;
    uint8_t *bytes = (uint8_t *)block_of(length);
    if (!same_answers(made(it, image, bytes, length), answer)) fail("another answer", "with a room");
    if (it->command == SHOW) fwrite(bytes, 1, length, stdout);
    else print_run(it->base, bytes, length);
    free(bytes);
    return 0;
}

static int answer_on(struct request *it, const struct image *image, const char *text, size_t length) {
    const struct acpiset_piece *pieces = image->pieces;
    size_t count = image->count;
    if (it->command == FIND) return print_find(acpiset_find(pieces, count));
    if (!it->has_rsdp) {
        struct acpiset_answer found = acpiset_find(pieces, count);
        if (found.kind > ACPISET_NO) return print_refusal(found);
        if (found.kind == ACPISET_NO) {
            puts("no rsdp");
            return 1;
        }
        it->settings.rsdp = found.at;
    }
    if (it->command == CONFIRM)
        return print_confirm(acpiset_confirm(pieces, count, it->inputs, it->inputs_count, &it->settings, &it->witness));
    if (it->command == LINT) {
        struct acpiset_finding findings[ACPISET_MOST_FINDINGS];
        struct acpiset_answer answer =
            acpiset_lint(pieces, count, it->inputs, it->inputs_count, &it->settings, findings, ACPISET_MOST_FINDINGS);
        return print_lint(answer, findings);
    }
    if (it->command == SHOW || it->command == REBUILD) return print_made(it, image);
    if (it->is_text) return print_check(acpiset_check_text(text, length, it->inputs, it->inputs_count, &it->settings));
    return print_check(acpiset_check(pieces, count, it->inputs, it->inputs_count, &it->settings));
}

/* Prints the answer, and returns the status. A text with the RSDP's address is read by the library alone: it may have faults. */
static int answer(char **words, size_t words_count, const char *text, size_t length) {
    struct request request = request_of(words, words_count);
    struct image image = {NULL, 0};
    if (!request.is_text || !request.has_rsdp) image = read_image(text, length);
    if (request.is_shuffled) {
        struct image other = shuffled(&image, request.seed);
        free_image(&image);
        image = other;
    }
    int status = answer_on(&request, &image, text, length);
    free_image(&image);
    free(request.inputs);
    return status;
}

/* ---- jobs */

/* The line that begins at the place, with a zero byte instead of its end. The place moves to the next line. */
static char *next_line(char **place) {
    char *line = *place, *end = strchr(line, '\n');
    if (!end) fail("no line end", line);
    *end = 0;
    *place = end + 1;
    return line;
}

static void answer_all(char *jobs, size_t size) {
    for (char *place = jobs; place < jobs + size;) {
        size_t count = (size_t)number_of(next_line(&place), 10);
        char **words = (char **)block_of(count * sizeof *words);
        for (size_t i = 0; i < count; i++) words[i] = next_line(&place);
        size_t length = (size_t)number_of(next_line(&place), 10);
        /* a block of the text alone, so that a sanitizer sees a read past it */
        char *text = (char *)copy_of(place, length);
        int status = answer(words, count, text, length);
        printf("= %d\n", status);
        place += length;
        free(text);
        free(words);
    }
}

int main(int argc, char **argv) {
    size_t size;
    int status = 0;
    if (acpiset_abi() != ACPISET_ABI) fail("another version of the library", "acpiset_abi");
    char *text = read_stream(stdin, &size);
    if (argc == 2 && strcmp(argv[1], "--batch") == 0) answer_all(text, size);
    else status = answer(argv + 1, (size_t)argc - 1, text, size);
    free(text);
    return status;
}
