/* What a static library of Rattle asks of the program's heap. A block of no bytes is asked for as
 * one of `align` bytes, so that null means refused. No alignment past that of malloc is asked for.
 */
#include <stdbool.h>
#include <stddef.h>
#include <stdlib.h>

struct tried {
    bool is_given;
    void *block;
};

static char nothing;

static struct tried tried(void *block) {
    return block ? (struct tried){true, block} : (struct tried){false, &nothing};
}

struct tried rattle_alloc(size_t size, size_t align) { return tried(malloc(size ? size : align)); }

struct tried rattle_realloc(void *block, size_t kept, size_t size, size_t align) {
    (void)kept;
    return tried(realloc(block, size ? size : align));
}

void rattle_dealloc(void *block) { free(block); }
