/* Times the calls of memory.rt.in beside those of memory.rs, and prints a table of the ratios:
 * below 1 the proved library takes less time. In brackets are its megabytes a second. Without
 * ORIGINAL the cells are `-`.
 *
 * A sample repeats a call for some 100 microseconds. Samples of the two libraries take turns, and a
 * ratio is that of their medians. */
#include <stdbool.h>
#include <stdio.h>
#include <stdlib.h>
#include <string.h>
#include <time.h>

typedef unsigned char byte;
typedef size_t repeated(unsigned number, size_t times, const byte *input, size_t input_len,
                        byte *output, size_t output_len);

repeated own_encode, own_decode;
#ifdef ORIGINAL
repeated original_encode, original_decode;
#else
#define original_encode NULL
#define original_decode NULL
#endif

enum { SAMPLES = 101, SIZES = 3, NAMES = 5, ROOM = 1 << 14 };

static const char *const names[NAMES] = {"HEXLOWER", "BASE32", "BASE32_DNSCURVE", "BASE64",
                                         "BASE64_MIME"};
static const size_t sizes[SIZES] = {16, 64, 1024};

static byte data[ROOM], text[ROOM], output[ROOM];

static double now(void) {
    struct timespec time;
    clock_gettime(CLOCK_MONOTONIC, &time);
    return (double)time.tv_sec * 1e9 + (double)time.tv_nsec;
}

/* What one call of a library turns into what. */
struct conversion {
    unsigned number;
    const byte *input;
    size_t input_len;
    const byte *wanted;
    size_t wanted_len;
};

/* The nanoseconds of so many calls, which write what is wanted. */
static double sample(repeated *call, const struct conversion *one, size_t times) {
    double start = now();
    size_t len = call(one->number, times, one->input, one->input_len, output, sizeof output);
    double time = now() - start;
    if (len != one->wanted_len || memcmp(output, one->wanted, len) != 0) {
        fputs("other bytes\n", stderr);
        exit(1);
    }
    return time;
}

static int compared(const void *one, const void *other) {
    double a = *(const double *)one, b = *(const double *)other;
    return (a > b) - (a < b);
}

static double median(double *times) {
    qsort(times, SAMPLES, sizeof *times, compared);
    return times[SAMPLES / 2];
}

/* How often a call is repeated in a sample. */
static size_t repetitions(repeated *call, const struct conversion *one) {
    size_t times = 1;
    while (sample(call, one, times) < 1e5) times *= 2;
    return times;
}

/* Prints the time of one library divided by the other's, and the megabytes of data a second of the
 * first. */
static void print_cell(repeated *own, repeated *original, const struct conversion *one,
                       size_t size) {
    double own_times[SAMPLES], original_times[SAMPLES];
    if (original == NULL) {
        sample(own, one, 1);
        printf(" - |");
        return;
    }
    size_t times = repetitions(own, one);
    for (int index = 0; index < SAMPLES; index++) {
        own_times[index] = sample(own, one, times);
        original_times[index] = sample(original, one, times);
    }
    double own_time = median(own_times);
    printf(" %.2f (%.0f) |", own_time / median(original_times),
           (double)(size * times) * 1e3 / own_time);
}

/* The data of that size to a text, or that text to its data. */
static struct conversion conversion_of(unsigned number, size_t size, bool decodes) {
    size_t len = own_encode(number, 1, data, size, text, sizeof text);
    if (decodes) return (struct conversion){number, text, len, data, size};
    return (struct conversion){number, data, size, text, len};
}

static void print_row(unsigned number) {
    struct conversion one;
    printf("| %s |", names[number]);
    for (int at = 0; at < SIZES; at++) {
        one = conversion_of(number, sizes[at], false);
        print_cell(own_encode, original_encode, &one, sizes[at]);
    }
    for (int at = 0; at < SIZES; at++) {
        one = conversion_of(number, sizes[at], true);
        print_cell(own_decode, original_decode, &one, sizes[at]);
    }
    printf("\n");
}

int main(void) {
    for (size_t index = 0; index < sizeof data; index++) data[index] = (byte)(index * 151 + 7);
    printf("| Bytes of data | encode 16 | 64 | 1024 | decode 16 | 64 | 1024 |\n");
    printf("|---|---|---|---|---|---|---|\n");
    for (unsigned number = 0; number < NAMES; number++) print_row(number);
    return 0;
}
