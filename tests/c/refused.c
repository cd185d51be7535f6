/* A malloc that refuses one allocation, which is loaded before that of the C library.
 *
 * The program of crates/refusals asks for BEGIN bytes where a call begins, and for END bytes where
 * it ends. Of the allocations between, the one of the number REFUSED of the environment, counted
 * from 1, is refused, and then that of END bytes is, too: so the program knows that one was. */
#include <errno.h>
#include <stddef.h>
#include <stdlib.h>

#define BEGIN 4194301
#define END 4194299

void *__libc_malloc(size_t size);
void *__libc_realloc(void *old, size_t size);

static int in_call;
static int was_refused;
static long count;

/* Whether the next allocation is refused. */
static int refuses(size_t size) {
    if (size == BEGIN) {
        in_call = 1;
        was_refused = 0;
        count = 0;
        return 0;
    }
    if (size == END) {
        in_call = 0;
        return was_refused;
    }
    if (!in_call) {
        return 0;
    }
    const char *refused = getenv("REFUSED");
    count++;
    if (refused != NULL && count == atol(refused)) {
        was_refused = 1;
        return 1;
    }
    return 0;
}

void *malloc(size_t size) {
    if (refuses(size)) {
        errno = ENOMEM;
        return NULL;
    }
    return __libc_malloc(size);
}

void *realloc(void *old, size_t size) {
    if (refuses(size)) {
        errno = ENOMEM;
        return NULL;
    }
    return __libc_realloc(old, size);
}
