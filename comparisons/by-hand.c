/* Times the library for C beside code that is written by hand for base64 alone, with AVX2 or, if
 * DE_CPU=baseline is set, with SSSE3. It follows W. Mula and D. Lemire, "Faster Base64 Encoding and
 * Decoding Using AVX2 Instructions", 2018. The code by hand accepts or refuses a text and finds no
 * position. It looks the last symbols up in a table, so it is not constant-time.
 *
 * Prints a row for each size of data, for encoding, for decoding, and for decoding into the data's
 * room: the library's time divided by the other's, and in brackets its megabytes a second. */
#define _POSIX_C_SOURCE 199309L
#include "data_encoding.h"

#include <immintrin.h>
#include <stdbool.h>
#include <stdio.h>
#include <stdlib.h>
#include <string.h>
#include <time.h>

#define ALONE __attribute__((noinline))
#define AVX2 __attribute__((target("avx2")))

typedef unsigned char byte;

enum { ROUNDS = 101, CALLS = 5, ROOM = 1 << 17 };

static const char symbols[] = "ABCDEFGHIJKLMNOPQRSTUVWXYZabcdefghijklmnopqrstuvwxyz0123456789+/";
static byte values[256]; /* 255 if a byte is not a symbol */

static __m128i load(const void *from) {
    return _mm_loadu_si128(from);
}

static AVX2 __m256i load_twice(const void *from) {
    return _mm256_broadcastsi128_si256(load(from));
}

/* Two pairs of bytes with the bits of each three bytes, so that four products are four digits. */
static const char pairs[16] = {1, 0, 2, 1, 4, 3, 5, 4, 7, 6, 8, 7, 10, 9, 11, 10};

/* Symbol minus value, by class: lower-case letters, ten digits, `+`, `/`, upper-case letters. */
static const char symbol_offsets[16] = {71, -4, -4, -4, -4, -4, -4, -4, -4, -4, -4, -19, -16, 65};

static __m128i encode_lanes(__m128i data) {
    data = _mm_shuffle_epi8(data, load(pairs));
    __m128i one = _mm_mulhi_epu16(_mm_and_si128(data, _mm_set1_epi32(0x0fc0fc00)),
                                  _mm_set1_epi32(0x04000040));
    __m128i other = _mm_mullo_epi16(_mm_and_si128(data, _mm_set1_epi32(0x003f03f0)),
                                    _mm_set1_epi32(0x01000010));
    __m128i digits = _mm_or_si128(one, other);
    __m128i is_upper = _mm_cmpgt_epi8(_mm_set1_epi8(26), digits);
    __m128i class = _mm_or_si128(_mm_subs_epu8(digits, _mm_set1_epi8(51)),
                                 _mm_and_si128(is_upper, _mm_set1_epi8(13)));
    return _mm_add_epi8(digits, _mm_shuffle_epi8(load(symbol_offsets), class));
}

static AVX2 __m256i encode_wide_lanes(__m256i data) {
    data = _mm256_shuffle_epi8(data, load_twice(pairs));
    __m256i one = _mm256_mulhi_epu16(_mm256_and_si256(data, _mm256_set1_epi32(0x0fc0fc00)),
                                     _mm256_set1_epi32(0x04000040));
    __m256i other = _mm256_mullo_epi16(_mm256_and_si256(data, _mm256_set1_epi32(0x003f03f0)),
                                       _mm256_set1_epi32(0x01000010));
    __m256i digits = _mm256_or_si256(one, other);
    __m256i is_upper = _mm256_cmpgt_epi8(_mm256_set1_epi8(26), digits);
    __m256i class = _mm256_or_si256(_mm256_subs_epu8(digits, _mm256_set1_epi8(51)),
                                    _mm256_and_si256(is_upper, _mm256_set1_epi8(13)));
    return _mm256_add_epi8(digits, _mm256_shuffle_epi8(load_twice(symbol_offsets), class));
}

/* Encodes 12 bytes at a time, each load having 16, and then group by group. Returns the length. */
static size_t encode_rest(const byte *data, size_t len, char *text) {
    char *start = text;
    for (; len >= 16; data += 12, len -= 12, text += 16)
        _mm_storeu_si128((void *)text, encode_lanes(load(data)));
    for (; len > 0; text += 4) {
        size_t count = len < 3 ? len : 3;
        unsigned group = (unsigned)data[0] << 16 | (unsigned)(count > 1 ? data[1] : 0) << 8 |
                         (unsigned)(count > 2 ? data[2] : 0);
        text[0] = symbols[group >> 18];
        text[1] = symbols[group >> 12 & 63];
        text[2] = count > 1 ? symbols[group >> 6 & 63] : '=';
        text[3] = count > 2 ? symbols[group & 63] : '=';
        data += count;
        len -= count;
    }
    return (size_t)(text - start);
}

static ALONE size_t encode(const byte *data, size_t len, char *text) {
    return encode_rest(data, len, text);
}

static ALONE AVX2 size_t encode_wide(const byte *data, size_t len, char *text) {
    char *start = text;
    for (; len >= 32; data += 24, len -= 24, text += 32) {
        __m256i two = _mm256_set_m128i(load(data + 12), load(data));
        _mm256_storeu_si256((void *)text, encode_wide_lanes(two));
    }
    return (size_t)(text - start) + encode_rest(data, len, text);
}

/* Bits by the lower and by the upper half of a byte. If both have one, the byte is not a symbol. */
static const char lower_bits[16] = {0x15, 0x11, 0x11, 0x11, 0x11, 0x11, 0x11, 0x11,
                                    0x11, 0x11, 0x13, 0x1a, 0x1b, 0x1b, 0x1b, 0x1a};
static const char upper_bits[16] = {0x10, 0x10, 0x01, 0x02, 0x04, 0x08, 0x04, 0x08,
                                    0x10, 0x10, 0x10, 0x10, 0x10, 0x10, 0x10, 0x10};

/* Value minus symbol, by the upper half of the symbol, which is one less for `/`. */
static const char value_offsets[16] = {0, 16, 19, 4, -65, -65, -71, -71};

/* The three bytes of each word of four values, first byte first. */
static const char joined[16] = {2, 1, 0, 6, 5, 4, 10, 9, 8, 14, 13, 12, -1, -1, -1, -1};

static bool decode_lanes(__m128i text, __m128i *data) {
    __m128i half = _mm_set1_epi8(0x2f);
    __m128i upper = _mm_and_si128(_mm_srli_epi32(text, 4), half);
    __m128i wrong = _mm_and_si128(_mm_shuffle_epi8(load(lower_bits), _mm_and_si128(text, half)),
                                  _mm_shuffle_epi8(load(upper_bits), upper));
    if (_mm_movemask_epi8(_mm_cmpgt_epi8(wrong, _mm_setzero_si128())) != 0) return false;
    __m128i class = _mm_add_epi8(_mm_cmpeq_epi8(text, half), upper);
    __m128i digits = _mm_add_epi8(text, _mm_shuffle_epi8(load(value_offsets), class));
    __m128i halves = _mm_maddubs_epi16(digits, _mm_set1_epi32(0x01400140));
    *data = _mm_shuffle_epi8(_mm_madd_epi16(halves, _mm_set1_epi32(0x00011000)), load(joined));
    return true;
}

static AVX2 bool decode_wide_lanes(__m256i text, __m256i *data) {
    __m256i half = _mm256_set1_epi8(0x2f);
    __m256i upper = _mm256_and_si256(_mm256_srli_epi32(text, 4), half);
    __m256i lower = _mm256_shuffle_epi8(load_twice(lower_bits), _mm256_and_si256(text, half));
    __m256i other = _mm256_shuffle_epi8(load_twice(upper_bits), upper);
    if (!_mm256_testz_si256(lower, other)) return false;
    __m256i class = _mm256_add_epi8(_mm256_cmpeq_epi8(text, half), upper);
    __m256i digits = _mm256_add_epi8(text, _mm256_shuffle_epi8(load_twice(value_offsets), class));
    __m256i halves = _mm256_maddubs_epi16(digits, _mm256_set1_epi32(0x01400140));
    __m256i words = _mm256_madd_epi16(halves, _mm256_set1_epi32(0x00011000));
    *data = _mm256_permutevar8x32_epi32(_mm256_shuffle_epi8(words, load_twice(joined)),
                                        _mm256_setr_epi32(0, 1, 2, 4, 5, 6, 3, 7));
    return true;
}

/* Decodes the groups of a text. Returns the end of the data, or NULL if the text is invalid. */
static byte *decode_groups(const byte *text, size_t len, byte *data) {
    if (len % 4 != 0) return NULL;
    for (; len > 0; text += 4, len -= 4) {
        size_t count = len > 4 || text[3] != '=' ? 3 : text[2] != '=' ? 2 : 1;
        byte one = values[text[0]], two = values[text[1]];
        byte three = count > 1 ? values[text[2]] : 0, four = count > 2 ? values[text[3]] : 0;
        if ((one | two | three | four) & 128) return NULL;
        if ((count == 1 && two & 15) || (count == 2 && three & 3)) return NULL;
        *data++ = (byte)(one << 2 | two >> 4);
        if (count > 1) *data++ = (byte)(two << 4 | three >> 2);
        if (count > 2) *data++ = (byte)(three << 6 | four);
    }
    return data;
}

/* Decodes 16 symbols at a time while the text has 8 more, since each store has 16 bytes. */
static byte *decode_rest(const byte *text, size_t len, byte *data) {
    __m128i found;
    for (; len >= 24 && decode_lanes(load(text), &found); text += 16, len -= 16, data += 12)
        _mm_storeu_si128((void *)data, found);
    return decode_groups(text, len, data);
}

static ALONE byte *decode(const byte *text, size_t len, byte *data) {
    return decode_rest(text, len, data);
}

static ALONE AVX2 byte *decode_wide(const byte *text, size_t len, byte *data) {
    __m256i found;
    for (; len >= 48; text += 32, len -= 32, data += 24) {
        if (!decode_wide_lanes(_mm256_loadu_si256((const void *)text), &found)) break;
        _mm256_storeu_si256((void *)data, found);
    }
    return decode_rest(text, len, data);
}

/* What is timed: each makes its call so many times. */

static byte data[ROOM], decoded[ROOM + 32];
static char text[2 * ROOM];
static size_t data_len, text_len;
static bool is_wide;

static void check(bool holds) {
    if (holds) return;
    fputs("other bytes\n", stderr);
    exit(EXIT_FAILURE);
}

static void library_encodes(size_t times) {
    for (; times > 0; times--)
        check(de_encode(DE_BASE64, data, data_len, text, sizeof text, &text_len) == DE_OK);
}

static void hand_encodes(size_t times) {
    for (; times > 0; times--)
        text_len = (is_wide ? encode_wide : encode)(data, data_len, text);
}

static void library_decodes(size_t times, size_t room) {
    de_decoded found;
    for (; times > 0; times--)
        check(de_decode(DE_BASE64, text, text_len, decoded, room, &found) == DE_OK);
}

static void library_decodes_amply(size_t times) {
    library_decodes(times, text_len / 4 * 3);
}

static void library_decodes_exactly(size_t times) {
    library_decodes(times, data_len);
}

static void hand_decodes(size_t times) {
    for (; times > 0; times--)
        check((is_wide ? decode_wide : decode)((const byte *)text, text_len, decoded) ==
              decoded + data_len);
}

static void (*const calls[CALLS])(size_t times) = {
    library_encodes, hand_encodes, library_decodes_amply, library_decodes_exactly, hand_decodes,
};

static double time_of(int call, size_t times) {
    struct timespec start, end;
    clock_gettime(CLOCK_MONOTONIC, &start);
    calls[call](times);
    clock_gettime(CLOCK_MONOTONIC, &end);
    return (double)(end.tv_sec - start.tv_sec) * 1e9 + (double)(end.tv_nsec - start.tv_nsec);
}

static int compared(const void *one, const void *other) {
    double a = *(const double *)one, b = *(const double *)other;
    return (a > b) - (a < b);
}

/* The nanoseconds of each call: the median of rounds in which the calls take turns. */
static void measure(double *nanoseconds) {
    static double found[CALLS][ROUNDS];
    size_t times = 1;
    while (time_of(0, times) < 5e4) times *= 2;
    for (int round = 0; round < ROUNDS; round++)
        for (int call = 0; call < CALLS; call++) found[call][round] = time_of(call, times);
    for (int call = 0; call < CALLS; call++) {
        qsort(found[call], ROUNDS, sizeof found[call][0], compared);
        nanoseconds[call] = found[call][ROUNDS / 2] / (double)times;
    }
}

/* That both write the same, and refuse a text with a faulty byte at each of its positions. */
static void compare(void) {
    char wanted[256];
    for (data_len = 0; data_len < 180; data_len++) {
        hand_encodes(1);
        memcpy(wanted, text, text_len);
        library_encodes(1);
        check(memcmp(text, wanted, text_len) == 0);
        for (int call = 2; call < CALLS; call++) {
            memset(decoded, 0, sizeof decoded);
            calls[call](1);
            check(memcmp(decoded, data, data_len) == 0);
        }
        for (size_t at = 0; at < text_len; at++) {
            char kept = text[at];
            text[at] = '!';
            check((is_wide ? decode_wide : decode)((const byte *)text, text_len, decoded) == NULL);
            text[at] = kept;
        }
    }
}

int main(void) {
    static const size_t sizes[] = {1, 16, 32, 64, 1024, 65536};
    is_wide = getenv("DE_CPU") == NULL;
    memset(values, 255, sizeof values);
    for (byte value = 0; value < 64; value++) values[(byte)symbols[value]] = value;
    for (size_t at = 0; at < sizeof data; at++) data[at] = (byte)(at * 151 + at / 256);
    compare();
    for (size_t at = 0; at < sizeof sizes / sizeof *sizes; at++) {
        double time[CALLS];
        data_len = sizes[at];
        measure(time);
        printf("| %zu |", data_len);
        for (int call = 0; call < 4; call++)
            if (call != 1)
                printf(" %.2f (%.0f) |", time[call] / time[call == 0 ? 1 : 4],
                       (double)data_len * 1e3 / time[call]);
        printf("\n");
    }
    return 0;
}
