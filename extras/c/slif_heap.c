/* The heap of the library, over malloc. The toolchain takes the contracts of these three as written: an answer is a new block of n
   bytes, or of a where n is 0, aligned to a, which divides 16; or `ok` is false, and nothing changed. */
#include <stddef.h>
#include <stdlib.h>

typedef struct { _Bool ok; void *p; } tried;

/* A pointer that is not null and owns nothing. */
static char nothing;

static tried tried_of(void *block) { return (tried){block != 0, block ? block : &nothing}; }

tried rattle_alloc(size_t n, size_t a) { return tried_of(malloc(n ? n : a)); }

tried rattle_realloc(void *block, size_t kept, size_t n, size_t a) {
    (void)kept;
    return tried_of(realloc(block, n ? n : a));
}

void rattle_dealloc(void *block) { free(block); }
