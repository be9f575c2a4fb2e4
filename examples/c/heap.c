/* The three functions that libstabby_c.a needs, over malloc. Link this, or the kit's liblibc_c.a. */
#include <stddef.h>
#include <stdlib.h>

/* Whether there was memory, and where: with none, some address that isn't null. */
struct tried {
    size_t ok;
    void *at;
};

static char none;

static struct tried tried(void *at) {
    return (struct tried){at != NULL, at != NULL ? at : &none};
}

struct tried rattle_alloc(size_t size, size_t align) {
    return tried(malloc(size != 0 ? size : align));
}

struct tried rattle_realloc(void *at, size_t old_size, size_t size, size_t align) {
    (void)old_size;
    return tried(realloc(at, size != 0 ? size : align));
}

void rattle_dealloc(void *at) {
    free(at);
}
