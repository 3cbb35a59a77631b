/* Many pieces in several orders: the answer is the same, and an overlap with any of them is seen.
 * usage: many_pieces COUNT */
#include "common.h"

#include <stdlib.h>

enum order { RISING, FALLING, HALVES, SHUFFLED, ORDERS };
static const char *const order_names[ORDERS] = {"rising", "falling", "every second one first", "shuffled"};

#define FIRST UINT64_C(0x100000)
static const uint8_t byte = 0;

/* The numbers below the count in this order. */
static size_t *numbers_in(enum order order, size_t count) {
    size_t *numbers = (size_t *)block_of(count * sizeof *numbers);
    uint64_t state = 1;
    for (size_t i = 0; i < count; i++) numbers[i] = order == FALLING ? count - 1 - i : i;
    if (order == HALVES)
        for (size_t i = 0; i < count; i++) numbers[i] = i < (count + 1) / 2 ? 2 * i : 2 * (i - (count + 1) / 2) + 1;
    for (size_t i = count; order == SHUFFLED && i > 1; i--) {
        state = state * UINT64_C(6364136223846793005) + UINT64_C(1442695040888963407);
        size_t j = (size_t)(state >> 33) % i, number = numbers[i - 1];
        numbers[i - 1] = numbers[j];
        numbers[j] = number;
    }
    return numbers;
}

static struct acpiset_answer check(const struct acpiset_piece *pieces, size_t count) {
    struct acpiset_settings settings = ACPISET_SETTINGS(0);
    return acpiset_check(pieces, count, NULL, 0, &settings);
}

/* Pieces of one byte, so far apart. There is no RSDP at 0. */
static void check_order(enum order order, size_t count, size_t distance) {
    size_t *numbers = numbers_in(order, count);
    struct acpiset_piece *pieces = (struct acpiset_piece *)block_of((count + 1) * sizeof *pieces);
    for (size_t i = 0; i < count; i++) {
        struct acpiset_piece piece = {FIRST + distance * numbers[i], &byte, 1};
        pieces[i] = piece;
    }
    const char *name = order_names[order];
    expect(check(pieces, count), fault_of(ACPISET_RSDP_OUT, 0, 0, 0), "%zu pieces, %s", count, name);
    for (size_t i = 0; i < 5; i++) {
        size_t place = i * (count - 1) / 4;
        pieces[count] = pieces[place];
        expect(check(pieces, count + 1), answer_of(ACPISET_PIECES_OVERLAP, count, pieces[place].address), "%zu pieces, %s, piece %zu again",
               count, name, place);
    }
    struct acpiset_piece past_end = {UINT64_MAX, (const uint8_t *)"\0", 2};
    pieces[count] = past_end;
    expect(check(pieces, count + 1), answer_of(ACPISET_PIECE_PAST_END, count, 0), "%zu pieces, %s, and one past the end", count, name);
    free(pieces);
    free(numbers);
}

int main(int argc, char **argv) {
    if (argc != 2) return 2;
    size_t count = (size_t)number_of(argv[1], 10);
    for (int order = 0; order < ORDERS; order++) {
        check_order((enum order)order, count, 1);
        check_order((enum order)order, count, 1000);
    }
    return report("many_pieces");
}
