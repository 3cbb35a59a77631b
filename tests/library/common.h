/* What the test programs share. All of them are C11 and C++17. */
#ifndef COMMON_H
#define COMMON_H

#include "acpiset.h"

#include <stdbool.h>
#include <stddef.h>
#include <stdint.h>
#include <stdio.h>

/* ---- memory and files; what fails ends the program */

/* A block of so many bytes, which may be 0. */
void *block_of(size_t size);

/* A block of these bytes and no more, so that a sanitizer sees a read past them. */
uint8_t *copy_of(const void *bytes, size_t size);

/* The rest of a stream or a file, and its size; a zero byte follows it. */
char *read_stream(FILE *stream, size_t *size);
char *read_file(const char *path, size_t *size);

/* A number from an argument, in hex or decimal. */
uint64_t number_of(const char *text, int base);

/* ---- images */

/* An image as pieces, each with a block of its own. */
struct image {
    struct acpiset_piece *pieces;
    size_t count;
};

/* The image of a valid image text: one piece for the data after each address. */
struct image read_image(const char *text, size_t length);
void free_image(struct image *image);

/* ---- answers */

struct acpiset_answer answer_of(uint32_t kind, uint64_t at, uint64_t other);
struct acpiset_answer fault_of(uint32_t code, uint64_t at, uint64_t other, uint64_t point);
bool same_answers(struct acpiset_answer one, struct acpiset_answer other);

/* ---- cases */

/* Counts a case, and prints its name if it failed. */
void count_case(bool is_right, const char *format, ...);

/* Counts a case of an answer, and prints both answers if they differ. */
void expect(struct acpiset_answer got, struct acpiset_answer wanted, const char *format, ...);

/* Prints how many cases passed, and returns the status of the program. */
int report(const char *program);

#endif
