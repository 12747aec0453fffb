/* The library's memory, over malloc, realloc and free: what Rattle's own runtime does for its programs. */
#include <stdbool.h>
#include <stddef.h>
#include <stdlib.h>

struct tried { bool ok; void *p; };

/* Where there is no memory, the pointer is to this byte. */
static char none;

static struct tried told(void *p) {
    return (struct tried){p != NULL, p != NULL ? p : &none};
}

struct tried rattle_alloc(size_t size, size_t align) {
    return told(malloc(size != 0 ? size : align));
}

struct tried rattle_realloc(void *p, size_t kept, size_t size, size_t align) {
    (void)kept;
    return told(realloc(p, size != 0 ? size : align));
}

void rattle_dealloc(void *p) {
    free(p);
}
