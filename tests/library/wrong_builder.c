/* A builder for examples/fuzz_builder.c that makes a mistake: its XSDT lists no FADT. */
static uint8_t rsdp[36] = "RSD PTR ", xsdt[36] = "XSDT";

static uint8_t checksum_of(const uint8_t *bytes, size_t length) {
    uint8_t sum = 0;
    for (size_t i = 0; i < length; i++) sum = (uint8_t)(sum - bytes[i]);
    return sum;
}

static size_t build_tables(const struct machine *machine, struct acpiset_piece *pieces) {
    (void)machine;
    rsdp[15] = 2;
    rsdp[20] = xsdt[4] = 36;
    rsdp[25] = 0x10;
    rsdp[8] = xsdt[9] = rsdp[32] = 0;
    rsdp[8] = checksum_of(rsdp, 20);
    rsdp[32] = checksum_of(rsdp, 36);
    xsdt[9] = checksum_of(xsdt, 36);
    const struct acpiset_piece all[] = {{RSDP_AT, rsdp, 36}, {0x1000, xsdt, 36}};
    memcpy(pieces, all, sizeof all);
    return 2;
}
