/* Prints how many nanoseconds a call takes of de_encode and de_decode by number, and of the same
 * calls by an encoding of the caller's own, for data of 16 bytes, 1 KiB and 64 KiB; with OWN_CALLS
 * (comparisons/calls) beside the library's own call, in Rattle, each row being taken in turns. */
#define _POSIX_C_SOURCE 199309L
#include "data_encoding.h"

#include <stdio.h>
#include <stdlib.h>
#include <string.h>
#include <time.h>

#define DATA_LIMIT 65536
#define ROUNDS 9

static unsigned char data[DATA_LIMIT];
static unsigned char decoded_data[DATA_LIMIT + 2];
static char text[2 * DATA_LIMIT];
static size_t data_len;
static size_t text_len;
static de_encoding own;

#ifdef OWN_CALLS
/* They make the library's own call that many times, `encode_mut` or `decode_mut` alone, or, where
 * sized, with the length that a call from C finds too: comparisons/memory.rt.in, where base64 is 3. */
size_t own_encode(unsigned number, size_t times, const unsigned char *input, size_t input_len,
                  unsigned char *output, size_t output_len);
size_t own_encode_sized(unsigned number, size_t times, const unsigned char *input,
                        size_t input_len, unsigned char *output, size_t output_len);
size_t own_decode(unsigned number, size_t times, const unsigned char *input, size_t input_len,
                  unsigned char *output, size_t output_len);
size_t own_decode_sized(unsigned number, size_t times, const unsigned char *input,
                        size_t input_len, unsigned char *output, size_t output_len);
#endif

/* Makes a call so many times. */
typedef void (*calls)(size_t times);

static void check(de_status status) {
    if (status != DE_OK) {
        exit(EXIT_FAILURE);
    }
}

static void encode_by_number(size_t times) {
    for (; times > 0; times--) {
        check(de_encode(DE_BASE64, data, data_len, text, sizeof text, &text_len));
    }
}

static void encode_by_own(size_t times) {
    for (; times > 0; times--) {
        check(de_encoding_encode(&own, data, data_len, text, sizeof text, &text_len));
    }
}

static void decode_by_number(size_t times) {
    de_decoded decoded;
    for (; times > 0; times--) {
        check(de_decode(DE_BASE64, text, text_len, decoded_data, sizeof decoded_data, &decoded));
    }
}

static void decode_by_own(size_t times) {
    de_decoded decoded;
    for (; times > 0; times--) {
        check(de_encoding_decode(&own, text, text_len, decoded_data, sizeof decoded_data,
                                 &decoded));
    }
}

#ifdef OWN_CALLS
static void encode_in_library(size_t times) {
    text_len = own_encode(3, times, data, data_len, (unsigned char *)text, sizeof text);
}

static void encode_sized(size_t times) {
    text_len = own_encode_sized(3, times, data, data_len, (unsigned char *)text, sizeof text);
}

static void check_len(size_t len) {
    if (len != data_len) {
        exit(EXIT_FAILURE);
    }
}

static void decode_in_library(size_t times) {
    check_len(own_decode(3, times, (const unsigned char *)text, text_len, decoded_data,
                         sizeof decoded_data));
}

static void decode_sized(size_t times) {
    check_len(own_decode_sized(3, times, (const unsigned char *)text, text_len, decoded_data,
                               sizeof decoded_data));
}
#endif

static double now(void) {
    struct timespec time;
    clock_gettime(CLOCK_MONOTONIC, &time);
    return (double)time.tv_sec * 1e9 + (double)time.tv_nsec;
}

#ifdef OWN_CALLS
static const calls columns[] = {
    encode_by_number, encode_by_own, encode_in_library, encode_sized,
    decode_by_number, decode_by_own, decode_in_library, decode_sized,
};
static const char title[] =
    "base64, ns a call: encode by number, by an own encoding, in the library, there with the\n"
    "length; decode the same";
#else
static const calls columns[] = {encode_by_number, encode_by_own, decode_by_number, decode_by_own};
static const char title[] =
    "base64, ns a call: encode by number, by an own encoding; decode by number, by an own";
#endif

#define COLUMNS (sizeof columns / sizeof *columns)

/* The nanoseconds of each column: the least of some rounds, since what else runs only adds. */
static void nanoseconds(double *least, size_t times) {
    size_t each;
    int round;
    for (round = 0; round < ROUNDS; round++) {
        for (each = 0; each < COLUMNS; each++) {
            double start = now();
            double taken;
            columns[each](times);
            taken = (now() - start) / (double)times;
            least[each] = round == 0 || taken < least[each] ? taken : least[each];
        }
    }
}

int main(void) {
    static const size_t sizes[] = {16, 1024, DATA_LIMIT};
    de_specification asked = DE_SPECIFICATION;
    size_t index;
    asked.symbols = "ABCDEFGHIJKLMNOPQRSTUVWXYZabcdefghijklmnopqrstuvwxyz0123456789+/";
    asked.symbols_len = 64;
    asked.padding = '=';
    check(de_encoding_new(&own, &asked, NULL));
    for (index = 0; index < DATA_LIMIT; index++) {
        data[index] = (unsigned char)(index * index >> 3);
    }
    puts(title);
    for (index = 0; index < sizeof sizes / sizeof *sizes; index++) {
        double least[COLUMNS];
        size_t each;
        data_len = sizes[index];
        nanoseconds(least, 20000000 / (data_len + 1000));
        printf("%6lu bytes", (unsigned long)data_len);
        for (each = 0; each < COLUMNS; each++) {
            printf("%12.1f", least[each]);
        }
        puts("");
        if (memcmp(data, decoded_data, data_len) != 0) {
            return EXIT_FAILURE;
        }
    }
    return EXIT_SUCCESS;
}
