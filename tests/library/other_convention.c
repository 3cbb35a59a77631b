/* Calls the library, and no other one, from functions that are compiled with another calling convention. */
#include "acpiset.h"

int main(void) {
    static const uint8_t byte = 0;
    const struct acpiset_piece piece = {0x1000, &byte, 1};
    const struct acpiset_inputs inputs = {0xfec00000, 24};
    const struct acpiset_settings settings = ACPISET_SETTINGS(0xe0000);
    struct acpiset_finding finding = {0, 0, 0, 0};
    struct acpiset_answer checked = acpiset_check(&piece, 1, &inputs, 1, &settings);
    struct acpiset_answer text = acpiset_check_text("@1000\n00\n", 9, &inputs, 1, &settings);
    struct acpiset_answer linted = acpiset_lint(&piece, 1, &inputs, 1, &settings, &finding, 1);
    struct acpiset_answer confirmed = acpiset_confirm(&piece, 1, &inputs, 1, &settings, &finding);
    struct acpiset_answer found = acpiset_find(&piece, 1);
    if (acpiset_abi() != ACPISET_ABI) return 1;
    if (checked.kind != ACPISET_NO || checked.stage != 1 || checked.code != ACPISET_RSDP_OUT || checked.at != 0xe0000) return 2;
    if (text.kind != ACPISET_NO || text.code != ACPISET_RSDP_OUT) return 3;
    if (linted.kind != ACPISET_NO || linted.at == 0 || finding.number != ACPISET_RSDP_OUT) return 4;
    if (confirmed.kind != ACPISET_YES || found.kind != ACPISET_NO) return 5;
    return 0;
}
