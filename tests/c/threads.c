/* Two threads that share one encoding. */
#include "data_encoding.h"

#include <pthread.h>
#include <stdio.h>
#include <stdlib.h>
#include <string.h>

static de_encoding encoding;

static void *run(void *failed) {
    int turn;
    for (turn = 0; turn < 2000; turn++) {
        char text[64];
        unsigned char data[64];
        size_t len = 0;
        de_decoded decoded = {0, 0, 0};
        if (de_encoding_encode(&encoding, "shared", 6, text, sizeof text, &len) != DE_OK ||
            len != 16 || memcmp(text, "3466414134462544", 16) != 0 ||
            de_encoding_decode(&encoding, text, len, data, sizeof data, &decoded) != DE_OK ||
            decoded.written != 6 || memcmp(data, "shared", 6) != 0) {
            *(int *)failed = 1;
        }
    }
    return NULL;
}

int main(void) {
    de_specification asked = DE_SPECIFICATION;
    pthread_t other;
    int failed = 0;
    int also_failed = 0;
    asked.symbols = "01234567";
    asked.symbols_len = 8;
    if (de_encoding_new(&encoding, &asked, NULL) != DE_OK ||
        pthread_create(&other, NULL, run, &also_failed) != 0) {
        return EXIT_FAILURE;
    }
    run(&failed);
    if (pthread_join(other, NULL) != 0 || failed || also_failed) {
        puts("FAILED");
        return EXIT_FAILURE;
    }
    return EXIT_SUCCESS;
}
