/* The proved half is given a bool that is one, whatever the caller's has before. The linker puts
 * the functions of this file between the halves, by --wrap. */
#include "data_encoding.h"
#include "tests.h"

#include <stdlib.h>
#include <string.h>

de_status __real_de_numbered_is_canonical(de_number number, bool *canonical);
de_status __real_de_custom_is_canonical(const unsigned char *held, bool *canonical);
de_status __wrap_de_numbered_is_canonical(de_number number, bool *canonical);
de_status __wrap_de_custom_is_canonical(const unsigned char *held, bool *canonical);

static int calls;

static void is_bool(const bool *given) {
    unsigned char byte;
    memcpy(&byte, given, 1);
    calls++;
    holds("a bool", byte <= 1);
}

de_status __wrap_de_numbered_is_canonical(de_number number, bool *canonical) {
    is_bool(canonical);
    return __real_de_numbered_is_canonical(number, canonical);
}

de_status __wrap_de_custom_is_canonical(const unsigned char *held, bool *canonical) {
    is_bool(canonical);
    return __real_de_custom_is_canonical(held, canonical);
}

int main(void) {
    de_specification asked = DE_SPECIFICATION;
    de_encoding own;
    bool given;
    asked.symbols = "01";
    asked.symbols_len = 2;
    is("own", DE_OK, de_encoding_new(&own, &asked, NULL));
    memset(&given, 0xa5, 1);
    is("by number", DE_OK, de_is_canonical(DE_HEXLOWER, &given));
    holds("by number", given);
    memset(&given, 0xa5, 1);
    is("own", DE_OK, de_encoding_is_canonical(&own, &given));
    holds("own", given);
    is("calls", 2, (size_t)calls);
    printf("%d passed, %d failed\n", passed, failed);
    return failed == 0 ? EXIT_SUCCESS : EXIT_FAILURE;
}
