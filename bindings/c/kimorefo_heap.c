/* The calls by which the library takes and gives back memory, over those of the C library. */
#include <stddef.h>
#include <stdint.h>
#include <stdlib.h>

/* A block, or none, whose pointer is not NULL either. */
struct kimorefo_block {
    uint8_t is_there;
    void *at;
};

static struct kimorefo_block block(void *at) {
    static uint8_t none;
    struct kimorefo_block found = {at != NULL, at ? at : &none};
    return found;
}

struct kimorefo_block rattle_alloc(size_t bytes, size_t align) {
    return block(malloc(bytes ? bytes : align));
}

struct kimorefo_block rattle_realloc(void *old, size_t old_bytes, size_t bytes, size_t align) {
    (void)old_bytes;
    return block(realloc(old, bytes ? bytes : align));
}

void rattle_dealloc(void *old) {
    free(old);
}
