/* Counts tests, and prints a line for each that fails. */
#include <stdbool.h>
#include <stddef.h>
#include <stdio.h>

static int passed;
static int failed;

static void is(const char *name, size_t wanted, size_t given) {
    if (wanted == given) {
        passed++;
    } else {
        failed++;
        printf("FAILED: %s: wanted %lu, given %lu\n", name, (unsigned long)wanted,
               (unsigned long)given);
    }
}

static void holds(const char *name, bool is_so) {
    is(name, 1, is_so);
}
