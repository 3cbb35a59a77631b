/* What the library says of each number, beside the functions of the header. */
#include "common.h"

#include <string.h>

enum { ROOM = 4096, LAST = 400 };

static char room[ROOM];

typedef size_t write_text(uint32_t number, char *room, size_t count);

/* Whether the text is written as far as there is room, and nothing else. */
static bool is_written(write_text *write, uint32_t number, size_t count, const char *text, size_t length) {
    memset(room, '#', ROOM);
    if (write(number, room, count) != length) return false;
    size_t most = length < count ? length : count;
    if (memcmp(room, text, most) != 0) return false;
    for (size_t i = most; i < ROOM; i++) {
        if (room[i] != '#') return false;
    }
    return true;
}

static void named(uint32_t number) {
    const char *name = acpiset_number_name(number);
    size_t length = strlen(name);
    count_case(acpiset_name(number, NULL, 0) == length, "the name of %u: its length", number);
    for (size_t count = 0; count <= length + 1; count++) {
        count_case(is_written(acpiset_name, number, count, name, length), "the name of %u in %zu bytes", number, count);
    }
}

static void explained(uint32_t number) {
    static char text[ROOM];
    size_t length = acpiset_explain(number, text, ROOM);
    bool is_known = acpiset_number_name(number)[0] != 0;
    count_case(acpiset_explain(number, NULL, 0) == length && length < ROOM, "the text of %u: its length", number);
    if (!is_known) {
        count_case(length == 0, "the text of %u, which means nothing", number);
        return;
    }
    text[length] = 0;
    const char *first = number < 101 ? "Wrong: " : "Found: ";
    count_case(strncmp(text, first, strlen(first)) == 0 && strstr(text, "\nFix: ") != NULL, "the text of %u: %s", number, text);
    count_case(is_written(acpiset_explain, number, length - 1, text, length), "the text of %u in one byte less", number);
    count_case(is_written(acpiset_explain, number, length + 1, text, length), "the text of %u in one byte more", number);
}

int main(void) {
    static const uint32_t others[] = {512 + 1, 512 + 101, 65536 + 1, 0x80000000u + 1, UINT32_MAX};
    for (uint32_t number = 0; number < LAST; number++) {
        count_case(acpiset_stage(number) == acpiset_stage_of(number), "the stage of %u", number);
        count_case(acpiset_severity(number) == acpiset_severity_of(number), "the severity of %u", number);
        named(number);
        explained(number);
    }
    for (size_t i = 0; i < sizeof others / sizeof others[0]; i++) {
        count_case(acpiset_stage(others[i]) == 0 && acpiset_severity(others[i]) == 0, "%u means nothing", others[i]);
        count_case(is_written(acpiset_name, others[i], ROOM, "", 0), "no name of %u", others[i]);
        count_case(is_written(acpiset_explain, others[i], ROOM, "", 0), "no text of %u", others[i]);
    }
    return report("meanings");
}
