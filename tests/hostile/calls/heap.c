/* The three heap functions that a Rattle program calls, in place of the kit's own, and one by which the program has growths refused. */
#include <stdint.h>
#include <stdlib.h>

struct tried {
    _Bool ok;
    void *block;
};

/* How many growths there were, and how many were refused, since the program last said which; the first that is refused, 0 for none. */
static uint64_t growths, refused, first;
static _Bool with_later;
static char nothing;

/* From now on the growth of this number, counted from 1, is refused, and all later ones where that is asked for; with 0 none is.
   Answers how many were refused since the last call. */
uint64_t hostile_refuse(uint64_t growth, _Bool later) {
    uint64_t answer = refused;
    growths = refused = 0;
    first = growth;
    with_later = later;
    return answer;
}

static struct tried answer(void *block) {
    struct tried tried = {block != NULL, block == NULL ? &nothing : block};
    return tried;
}

static int is_refused(void) {
    growths++;
    int is_met = first != 0 && (growths == first || (with_later && growths > first));
    refused += is_met;
    return is_met;
}

struct tried rattle_alloc(size_t size, size_t align) { return answer(is_refused() ? NULL : malloc(size == 0 ? align : size)); }

struct tried rattle_realloc(void *block, size_t kept, size_t size, size_t align) {
    (void)kept;
    return answer(is_refused() ? NULL : realloc(block, size == 0 ? align : size));
}

void rattle_dealloc(void *block) { free(block); }
