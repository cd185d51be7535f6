/* Encodes data in pieces, cut everywhere, by number and by an encoding of the caller's own, and
 * compares with the text that de_encode writes of the whole; gives each specification back; and
 * compares the lengths that are known when the program is built with those of the calls. Prints a
 * line for each test that fails, and then how many passed. */
/* Null pointers are passed, and refused. */
#define DE_NONNULL(...)
#include "data_encoding.h"
#include "tests.h"

#include <stdio.h>
#include <stdlib.h>
#include <string.h>

#define NUMBERS 18
#define MOST 200

/* By which encoding data is encoded: one of the caller's own, or where that is null a number. */
struct by {
    const de_encoding *own;
    de_number number;
};

static de_status whole(const struct by *by, const unsigned char *data, size_t len, char *output,
                       size_t room, size_t *written) {
    return by->own != NULL ? de_encoding_encode(by->own, data, len, output, room, written)
                           : de_encode(by->number, data, len, output, room, written);
}

static de_status most(const struct by *by, const de_encoder *encoder, size_t len, size_t *size) {
    return by->own != NULL ? de_encoding_encoder_most(by->own, encoder, len, size)
                           : de_encoder_most(by->number, encoder, len, size);
}

static de_status read_piece(const struct by *by, de_encoder *encoder, const void *input, size_t len,
                            char *output, size_t room, size_t *written) {
    return by->own != NULL
               ? de_encoding_encoder_read(by->own, encoder, input, len, output, room, written)
               : de_encoder_read(by->number, encoder, input, len, output, room, written);
}

static de_status finish(const struct by *by, const de_encoder *encoder, char *output, size_t room,
                        size_t *written) {
    return by->own != NULL ? de_encoding_encoder_finish(by->own, encoder, output, room, written)
                           : de_encoder_finish(by->number, encoder, output, room, written);
}

static de_status align_of(const struct by *by, size_t *align) {
    return by->own != NULL ? de_encoding_encode_align(by->own, align)
                           : de_encode_align(by->number, align);
}

static de_status width_of(const struct by *by, size_t *width) {
    return by->own != NULL ? de_encoding_bit_width(by->own, width) : de_bit_width(by->number, width);
}

static de_status specification_of(const struct by *by, de_specification *given, char *texts,
                                  size_t room) {
    return by->own != NULL ? de_encoding_specification(by->own, given, texts, room)
                           : de_specification_of(by->number, given, texts, room);
}

/* Reads a piece into exactly as much room as it asks for, and refuses less. Each piece is in memory
 * of its own, so that sanitizers see a read past it. */
static size_t read_on(const struct by *by, de_encoder *encoder, const unsigned char *piece,
                      size_t len, char *output) {
    char room[2048];
    unsigned char *input = malloc(len + 1);
    de_encoder before = *encoder;
    size_t size = 7777;
    size_t written = 7777;
    if (input == NULL) {
        exit(EXIT_FAILURE);
    }
    memcpy(input, piece, len);
    memset(room, 0x25, sizeof room);
    is("most", DE_OK, most(by, encoder, len, &size));
    if (size > 0) {
        is("short", DE_SHORT_BUFFER, read_piece(by, encoder, input, len, room, size - 1, &written));
        holds("nothing is changed", written == 7777 && room[0] == 0x25 &&
                                        memcmp(&before, encoder, sizeof before) == 0);
    }
    is("read", DE_OK, read_piece(by, encoder, input, len, room, size, &written));
    is("as much as it asks for", size, written);
    holds("what is after it stays", room[size] == 0x25);
    memcpy(output, room, written);
    free(input);
    return written;
}

/* The data in three pieces has the text of the whole. */
static void cut(const struct by *by, const unsigned char *data, size_t len, size_t one,
                size_t other) {
    char wanted[2048];
    char given[2048];
    char last[DE_LAST_TEXT_LIMIT + 1];
    size_t size = 7777;
    size_t written;
    size_t more = 7777;
    de_encoder encoder;
    is("the whole", DE_OK, whole(by, data, len, wanted, sizeof wanted, &size));
    is("new", DE_OK, de_encoder_new(&encoder));
    written = read_on(by, &encoder, data, one, given);
    written += read_on(by, &encoder, data + one, other - one, given + written);
    written += read_on(by, &encoder, data + other, len - other, given + written);
    memset(last, 0x25, sizeof last);
    is("finish", DE_OK, finish(by, &encoder, last, DE_LAST_TEXT_LIMIT, &more));
    holds("what is after it stays", more <= DE_LAST_TEXT_LIMIT && last[more] == 0x25);
    if (more > 0) {
        size_t refused = 7777;
        is("short", DE_SHORT_BUFFER, finish(by, &encoder, last, more - 1, &refused));
        is("nothing is changed", 7777, refused);
    }
    memcpy(given + written, last, more);
    is("length", size, written + more);
    holds("text", memcmp(wanted, given, size) == 0);
}

static void cuts(const struct by *by, const unsigned char *data) {
    size_t align = 0;
    size_t len;
    size_t other;
    is("align", DE_OK, align_of(by, &align));
    for (len = 0; len <= MOST; len += len < 17 ? 1 : align + 13) {
        for (other = 0; other <= len; other += len < 17 ? 1 : 19) {
            cut(by, data, len, other / 2, other);
            cut(by, data, len, other, other);
        }
    }
}

/* The encoding that is asked for by what is given back has the same layout; of the encoding the same
 * is given back. */
static void given_back(const struct by *by) {
    char texts[DE_TEXTS_LIMIT + 1];
    char again[DE_TEXTS_LIMIT];
    unsigned char layout[DE_LAYOUT_LIMIT];
    unsigned char other[DE_LAYOUT_LIMIT];
    de_specification given = DE_SPECIFICATION;
    de_specification same = DE_SPECIFICATION;
    de_encoding made;
    de_encoding remade;
    size_t len = 0;
    size_t layout_len = 0;
    size_t other_len = 1;
    size_t width = 0;
    memset(texts, 0x25, sizeof texts);
    is("given back", DE_OK, specification_of(by, &given, texts, DE_TEXTS_LIMIT));
    len = given.symbols_len + given.ignore_len + given.wrap_separator_len +
          given.translate_from_len + given.translate_to_len;
    holds("what is after them stays", texts[len] == 0x25);
    is("width", DE_OK, width_of(by, &width));
    is("symbols", (size_t)1 << width, given.symbols_len);
    is("made", DE_OK, de_encoding_new(&made, &given, NULL));
    is("again", DE_OK, de_encoding_specification(&made, &same, again, len));
    holds("the same texts", memcmp(texts, again, len) == 0);
    holds("the same numbers", given.wrap_width == same.wrap_width &&
                                  given.padding == same.padding &&
                                  given.least_significant_first == same.least_significant_first &&
                                  given.check_trailing_bits == same.check_trailing_bits &&
                                  given.concatenate == same.concatenate);
    is("made again", DE_OK, de_encoding_new(&remade, &same, NULL));
    is("layout", DE_OK, de_encoding_layout(&made, layout, sizeof layout, &layout_len));
    is("layout", DE_OK, de_encoding_layout(&remade, other, sizeof other, &other_len));
    holds("the same layout", layout_len == other_len && memcmp(layout, other, layout_len) == 0);
    if (by->own != NULL) {
        is("layout", DE_OK, de_encoding_layout(by->own, other, sizeof other, &other_len));
        holds("its layout", layout_len == other_len && memcmp(layout, other, layout_len) == 0);
    }
    same.symbols = NULL;
    is("short", DE_SHORT_BUFFER, specification_of(by, &same, texts, len - 1));
    holds("nothing is changed", same.symbols == NULL);
    is("null", DE_NULL_POINTER, specification_of(by, NULL, texts, DE_TEXTS_LIMIT));
    is("null", DE_NULL_POINTER, specification_of(by, &same, NULL, DE_TEXTS_LIMIT));
}

static void statuses(const struct by *by) {
    char output[8];
    size_t size = 77;
    size_t align = 0;
    de_encoder encoder;
    is("new", DE_OK, de_encoder_new(&encoder));
    is("null", DE_NULL_POINTER, de_encoder_new(NULL));
    is("null", DE_NULL_POINTER, most(by, NULL, 1, &size));
    is("null", DE_NULL_POINTER, most(by, &encoder, 1, NULL));
    is("null", DE_NULL_POINTER, read_piece(by, NULL, "Z", 1, output, 8, &size));
    is("null", DE_NULL_POINTER, read_piece(by, &encoder, NULL, 1, output, 8, &size));
    is("null", DE_NULL_POINTER, read_piece(by, &encoder, "Z", 1, NULL, 8, &size));
    is("null", DE_NULL_POINTER, read_piece(by, &encoder, "Z", 1, output, 8, NULL));
    is("null", DE_NULL_POINTER, finish(by, NULL, output, 8, &size));
    is("null", DE_NULL_POINTER, finish(by, &encoder, NULL, 8, &size));
    is("null", DE_NULL_POINTER, finish(by, &encoder, output, 8, NULL));
    is("null", DE_NULL_POINTER, align_of(by, NULL));
    is("null", DE_NULL_POINTER, width_of(by, NULL));
    is("no bytes at null", DE_OK, read_piece(by, &encoder, NULL, 0, NULL, 0, &size));
    is("no bytes at null", 0, size);
    is("no bytes at null", DE_OK, finish(by, &encoder, NULL, 0, &size));
    is("too long", DE_TOO_LONG, most(by, &encoder, (size_t)DE_ENCODE_LIMIT + 1, &size));
    is("long", DE_OK, most(by, &encoder, DE_ENCODE_LIMIT, &size));
    is("too long", DE_TOO_LONG,
       read_piece(by, &encoder, "", (size_t)DE_ENCODE_LIMIT + 1, output, sizeof output, &size));
    is("align", DE_OK, align_of(by, &align));
    encoder.count = align - 1;
    is("held", DE_OK, most(by, &encoder, 0, &size));
    encoder.count = align;
    size = 77;
    is("a whole block", DE_NO_ENCODER, most(by, &encoder, 1, &size));
    is("a whole block", DE_NO_ENCODER, read_piece(by, &encoder, "Z", 1, output, 8, &size));
    is("a whole block", DE_NO_ENCODER, finish(by, &encoder, output, 8, &size));
    encoder.count = (size_t)-1;
    is("a whole block", DE_NO_ENCODER, finish(by, &encoder, output, 8, &size));
    is("nothing is changed", 77, size);
    is("text", 0, strcmp(de_status_text(DE_NO_ENCODER), "no encoder"));
}

#define EACH(LEN)                                                                                  \
    LEN(HEXLOWER) LEN(HEXLOWER_PERMISSIVE) LEN(HEXUPPER) LEN(HEXUPPER_PERMISSIVE) LEN(BASE32)      \
    LEN(BASE32_NOPAD) LEN(BASE32_NOPAD_NOCASE) LEN(BASE32_NOPAD_VISUAL) LEN(BASE32HEX)             \
    LEN(BASE32HEX_NOPAD) LEN(BASE32_DNSSEC) LEN(BASE32_DNSCURVE) LEN(BASE64) LEN(BASE64_NOPAD)     \
    LEN(BASE64_MIME) LEN(BASE64_MIME_PERMISSIVE) LEN(BASE64URL) LEN(BASE64URL_NOPAD)

#define LENGTHS(NAME)                                                                              \
    {                                                                                              \
        size_t size = 7777;                                                                        \
        is(#NAME, DE_OK, de_encode_len(DE_##NAME, n, &size));                                      \
        is(#NAME, size, DE_##NAME##_ENCODED_LEN(n));                                               \
        if (de_decode_len(DE_##NAME, n, &size) == DE_OK) {                                         \
            is(#NAME, size, DE_##NAME##_DECODED_LEN(n));                                           \
        }                                                                                          \
    }

static void lengths(void) {
    /* Constants, as sizes of arrays have to be. */
    static char text[DE_BASE64_ENCODED_LEN(5)];
    static unsigned char data[DE_BASE64_DECODED_LEN(sizeof text)];
    size_t written = 0;
    de_decoded decoded;
    size_t n;
    is("an array", 8, sizeof text);
    is("an array", 6, sizeof data);
    is("a text", DE_OK, de_encode(DE_BASE64, "Hello", 5, text, sizeof text, &written));
    is("its data", DE_OK, de_decode(DE_BASE64, text, written, data, sizeof data, &decoded));
    for (n = 0; n <= 700; n++) {
        EACH(LENGTHS)
    }
    n = DE_ENCODE_LIMIT;
    EACH(LENGTHS)
}

/* Bytes of a block, and bits of a symbol. */
static const size_t aligns[NUMBERS] = {1, 1, 1, 1, 5, 5, 5, 5, 5, 5, 5, 5, 3, 3, 57, 57, 3, 3};
static const size_t widths[NUMBERS] = {4, 4, 4, 4, 5, 5, 5, 5, 5, 5, 5, 5, 6, 6, 6, 6, 6, 6};

int main(void) {
    static unsigned char data[MOST];
    de_specification asked = DE_SPECIFICATION;
    de_encoding own;
    struct by by = {NULL, DE_HEXLOWER};
    struct by by_own = {NULL, DE_HEXLOWER};
    size_t index;
    for (index = 0; index < MOST; index++) {
        data[index] = (unsigned char)(index * 37 + 11);
    }
    /* Lines of as many bytes of data as there may be: 252 characters of 189 bytes. */
    asked.symbols = "ABCDEFGHIJKLMNOPQRSTUVWXYZabcdefghijklmnopqrstuvwxyz0123456789+/";
    asked.symbols_len = 64;
    asked.padding = '=';
    asked.wrap_width = 252;
    asked.wrap_separator = "\r\n";
    asked.wrap_separator_len = 2;
    asked.translate_from = "-_";
    asked.translate_from_len = 2;
    asked.translate_to = "+/";
    asked.translate_to_len = 2;
    is("own", DE_OK, de_encoding_new(&own, &asked, NULL));
    by_own.own = &own;
    for (by.number = 0; by.number < NUMBERS; by.number++) {
        size_t found = 0;
        is("align", DE_OK, align_of(&by, &found));
        is("align", aligns[by.number], found);
        is("width", DE_OK, width_of(&by, &found));
        is("width", widths[by.number], found);
        cuts(&by, data);
        given_back(&by);
        statuses(&by);
    }
    {
        size_t found = 0;
        is("align", DE_OK, align_of(&by_own, &found));
        is("align", 189, found);
    }
    cuts(&by_own, data);
    given_back(&by_own);
    statuses(&by_own);
    lengths();
    {
        char output[8];
        size_t size = 77;
        de_specification given = DE_SPECIFICATION;
        de_encoder encoder;
        is("new", DE_OK, de_encoder_new(&encoder));
        is("unknown", DE_UNKNOWN_ENCODING, most(&by, &encoder, 1, &size));
        is("unknown", DE_UNKNOWN_ENCODING, read_piece(&by, &encoder, "Z", 1, output, 8, &size));
        is("unknown", DE_UNKNOWN_ENCODING, finish(&by, &encoder, output, 8, &size));
        is("unknown", DE_UNKNOWN_ENCODING, align_of(&by, &size));
        is("unknown", DE_UNKNOWN_ENCODING, width_of(&by, &size));
        is("unknown", DE_UNKNOWN_ENCODING, specification_of(&by, &given, output, 8));
        memset(&own, 0, sizeof own);
        is("not made", DE_NO_ENCODING, most(&by_own, &encoder, 1, &size));
        is("not made", DE_NO_ENCODING, read_piece(&by_own, &encoder, "Z", 1, output, 8, &size));
        is("not made", DE_NO_ENCODING, finish(&by_own, &encoder, output, 8, &size));
        is("not made", DE_NO_ENCODING, align_of(&by_own, &size));
        is("not made", DE_NO_ENCODING, width_of(&by_own, &size));
        is("not made", DE_NO_ENCODING, specification_of(&by_own, &given, output, 8));
        is("nothing is changed", 77, size);
    }
    printf("%d passed, %d failed\n", passed, failed);
    return failed == 0 ? EXIT_SUCCESS : EXIT_FAILURE;
}
