/* malloc, realloc and free with counts of their blocks, and requests that are refused. A program with them is linked with
 * -Wl,--wrap=malloc,--wrap=realloc,--wrap=free. */
#ifndef COUNTED_MEMORY_H
#define COUNTED_MEMORY_H

#include <stdbool.h>

/* How many blocks are not freed yet. */
long live_blocks(void);

/* Begins to count requests from 1 on, and refuses the one with this number, or also all later ones; none if it is 0. */
void refuse_request(long number, bool and_later);

/* How many requests were made since then. */
long requests_made(void);

#endif
