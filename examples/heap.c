/* What the archive asks of a C library: memory. These three functions stand over malloc, realloc and free, which have
 * to come from one allocator. Nothing checks them: they are trusted, as the C library is. */
#include <stdbool.h>
#include <stddef.h>
#include <stdlib.h>

/* Whether there is memory, and where. */
typedef struct Tried {
    bool ok;
    void *block;
} Tried;

Tried rattle_alloc(size_t size, size_t align);
Tried rattle_realloc(void *block, size_t kept, size_t size, size_t align);
void rattle_dealloc(void *block);

/* Stands where there is no memory: a pointer that is not null. */
static unsigned char nothing;

static Tried tried(void *block) {
    Tried answer = {block != NULL, block != NULL ? block : &nothing};
    return answer;
}

/* A block of `size` bytes. `align` is 16 at most, so malloc aligns it; of no bytes malloc may give null. */
Tried rattle_alloc(size_t size, size_t align) {
    return tried(malloc(size != 0 ? size : align));
}

/* The block, made one of `size` bytes, of which the first `kept` are as they were. */
Tried rattle_realloc(void *block, size_t kept, size_t size, size_t align) {
    (void)kept;
    return tried(realloc(block, size != 0 ? size : align));
}

void rattle_dealloc(void *block) {
    free(block);
}
