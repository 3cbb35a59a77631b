/* A library of a later version, for later_library.rs: VERSION is that of its functions and structs. It answers with numbers that
 * this version of the crate does not know. */
#include "acpiset.h"

uint32_t acpiset_abi(void)
{
    return VERSION;
}

struct acpiset_answer acpiset_check(const struct acpiset_piece *pieces, size_t pieces_count,
                                    const struct acpiset_inputs *inputs, size_t inputs_count,
                                    const struct acpiset_settings *settings)
{
    (void)pieces, (void)pieces_count, (void)inputs, (void)inputs_count, (void)settings;
    return (struct acpiset_answer){ACPISET_NO, 19, 60, 1, 2, 3};
}

struct acpiset_answer acpiset_check_text(const char *text, size_t length,
                                         const struct acpiset_inputs *inputs, size_t inputs_count,
                                         const struct acpiset_settings *settings)
{
    (void)text, (void)length, (void)inputs, (void)inputs_count, (void)settings;
    return (struct acpiset_answer){77, 0, 0, 5, 6, 0};
}

struct acpiset_answer acpiset_confirm(const struct acpiset_piece *pieces, size_t pieces_count,
                                      const struct acpiset_inputs *inputs, size_t inputs_count,
                                      const struct acpiset_settings *settings, const struct acpiset_finding *finding)
{
    (void)pieces, (void)pieces_count, (void)inputs, (void)inputs_count, (void)settings, (void)finding;
    return (struct acpiset_answer){ACPISET_BAD_SIZE, 0, 0, 0, 0, 0};
}

/* 70 faults, of the codes 1 to 70, and 100 findings of advice, of the rules 101 to 184 and 1001 to 1016. */
struct acpiset_answer acpiset_lint(const struct acpiset_piece *pieces, size_t pieces_count,
                                   const struct acpiset_inputs *inputs, size_t inputs_count,
                                   const struct acpiset_settings *settings,
                                   struct acpiset_finding *findings, size_t findings_count)
{
    (void)pieces, (void)pieces_count, (void)inputs, (void)inputs_count, (void)settings;
    for (uint32_t own = 0; own < 170 && own < findings_count; own++)
        findings[own] = (struct acpiset_finding){own + (own < 70 ? 1 : own < 154 ? 31 : 847), own, 0, 0};
    return (struct acpiset_answer){ACPISET_NO, 0, 0, 70, 100, 0};
}

struct acpiset_answer acpiset_find(const struct acpiset_piece *pieces, size_t pieces_count)
{
    (void)pieces, (void)pieces_count;
    return (struct acpiset_answer){ACPISET_OUT_OF_MEMORY, 0, 0, 0, 0, 0};
}

struct acpiset_answer acpiset_show(const struct acpiset_piece *pieces, size_t pieces_count,
                                   const struct acpiset_inputs *inputs, size_t inputs_count,
                                   const struct acpiset_settings *settings, char *text, size_t size)
{
    (void)pieces, (void)pieces_count, (void)inputs, (void)inputs_count, (void)settings, (void)text, (void)size;
    return (struct acpiset_answer){78, 0, 0, 7, 8, 0};
}

struct acpiset_answer acpiset_rebuild(const struct acpiset_piece *pieces, size_t pieces_count,
                                      const struct acpiset_inputs *inputs, size_t inputs_count,
                                      const struct acpiset_settings *settings,
                                      uint64_t base, uint8_t *bytes, size_t size)
{
    (void)pieces, (void)pieces_count, (void)inputs, (void)inputs_count, (void)settings, (void)base, (void)bytes, (void)size;
    return (struct acpiset_answer){ACPISET_NO, 19, 60, 1, 2, 3};
}

uint32_t acpiset_stage(uint32_t number)
{
    return number < 70 ? 1 : 0;
}

uint32_t acpiset_severity(uint32_t number)
{
    return number < 70 ? ACPISET_FAULT : ACPISET_LIKELY_WRONG;
}

size_t acpiset_name(uint32_t number, char *room, size_t room_count)
{
    (void)number, (void)room, (void)room_count;
    return 0;
}

size_t acpiset_explain(uint32_t number, char *room, size_t room_count)
{
    (void)number, (void)room, (void)room_count;
    return 0;
}
