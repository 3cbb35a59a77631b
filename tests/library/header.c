/* Prints what acpiset.h says: each number with its name, its stage and its severity, and then each kind. Nothing is included before the header,
 * and the header is included twice. */
#include "acpiset.h"
#include "acpiset.h"

#include <stdio.h>

int main(void) {
    for (uint32_t number = 0; number < 400; number++) {
        const char *name = acpiset_number_name(number);
        if (*name || acpiset_stage_of(number) || acpiset_severity_of(number))
            printf("%lu %s %lu %lu\n", (unsigned long)number, name, (unsigned long)acpiset_stage_of(number),
                   (unsigned long)acpiset_severity_of(number));
    }
    for (uint32_t kind = 0; kind < 300; kind++)
        if (*acpiset_kind_name(kind)) printf("kind %lu %s\n", (unsigned long)kind, acpiset_kind_name(kind));
    /* far outside, and with the low bits of good ones */
    static const uint32_t none[] = {512 + 1, 65536 + 1, 0x80000001, UINT32_MAX};
    for (int i = 0; i < 4; i++)
        if (*acpiset_number_name(none[i]) || acpiset_stage_of(none[i]) || acpiset_severity_of(none[i]) || *acpiset_kind_name(none[i]))
            printf("%lu has a name, a stage or a severity\n", (unsigned long)none[i]);
    struct acpiset_settings settings = ACPISET_SETTINGS(0xe0000);
    printf("settings %lu %lx %lu %lu %lu %lu\n", (unsigned long)settings.size, (unsigned long)settings.rsdp,
           (unsigned long)settings.default_inputs, (unsigned long)settings.hotplug, (unsigned long)settings.processors,
           (unsigned long)settings.through);
    printf("abi %d %lu\n", ACPISET_ABI, (unsigned long)acpiset_abi());
    return 0;
}
