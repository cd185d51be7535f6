/* Encodes and decodes secret data of many lengths, for tests/constant-time.sh, which compares the
 * instructions and the addresses of runs with different secrets. A store to `begun` precedes each
 * call, and one to `ended` follows it: what runs between them is compared.
 *
 * usage: constant-time [SEED]: a character, from which the secret is drawn. Without it, prints a line
 * for each call, in their order: the number of the encoding, the length, the text, the call.
 *        constant-time SEED LEAK: makes one call instead, of a function here that depends on the
 * secret: by an `address`, or by a `branch`. */
#include "data_encoding.h"
#include <stdbool.h>
#include <stdio.h>
#include <stdlib.h>
#include <string.h>

enum { SECRET_LEN = 1024, EACH_LEN = 300, PIECES_LEN = 64, TEXT_LIMIT = 16384 };

/* Lines of texts with ignored bytes are at most this long. */
enum { LINE_LIMIT = 40 };

/* The predefined encodings, and those that follow them. */
enum { NUMBERS = DE_BASE64URL_NOPAD + 1, OWN_COUNT = 7 };

/* No symbol, padding or ignored byte of any encoding here. */
enum { INVALID = '!' };

/* No index of a symbol in its group. */
enum { ALL = 8 };

volatile unsigned begun;
volatile unsigned ended;
static unsigned char secret[SECRET_LEN];
static unsigned char data[TEXT_LIMIT];
static char text[TEXT_LIMIT];
static de_encoding own[OWN_COUNT];
static bool prints;
static unsigned calls;

/* An encoding: a number, or an encoding of the caller's own after all numbers. */
static unsigned by;

/* What it is, and its groups. */
static de_specification parts;
static char texts[DE_TEXTS_LIMIT];
static size_t width;
static size_t group_symbols;
static size_t group_bytes;

/* The bytes that it ignores, and for each byte one that is translated to it, or the byte itself. */
static char ignored[8];
static size_t ignored_len;
static char twin[256];

/* A text to be decoded. */
static const char *kind;
static char given[TEXT_LIMIT];
static size_t given_len;

static void begin(size_t len, const char *call) {
    calls++;
    if (prints) {
        printf("%u %lu %s %s\n", by, (unsigned long)len, kind, call);
    }
    begun = calls;
}

/* Ends the call, which must have this status, so that the text is what it is taken for. */
static void end(de_status status, de_status wanted) {
    ended = calls;
    if (status != wanted) {
        fprintf(stderr, "encoding %u, call %u, %s: status %lu, and not %lu\n", by, calls, kind,
                (unsigned long)status, (unsigned long)wanted);
        exit(EXIT_FAILURE);
    }
}

static void expect_ok(de_status status) {
    end(status, DE_OK);
}

static const de_encoding *its_own(void) {
    return &own[by - NUMBERS];
}

/* Encodes, and returns the length of the text. */
static size_t encode(size_t len, size_t room, de_status wanted, const char *call) {
    size_t written = 0;
    de_status status;
    begin(len, call);
    status = by < NUMBERS ? de_encode(by, secret, len, text, room, &written)
                          : de_encoding_encode(its_own(), secret, len, text, room, &written);
    end(status, wanted);
    return written;
}

static void decode(size_t room, de_status wanted, const char *call) {
    de_decoded decoded;
    de_status status;
    begin(given_len, call);
    status = by < NUMBERS
                 ? de_decode(by, given, given_len, data, room, &decoded)
                 : de_encoding_decode(its_own(), given, given_len, data, room, &decoded);
    end(status, wanted);
}

static void read_data(de_encoder *encoder, const unsigned char *piece, size_t len) {
    size_t most;
    size_t written;
    de_status status;
    expect_ok(by < NUMBERS ? de_encoder_most(by, encoder, len, &most)
                           : de_encoding_encoder_most(its_own(), encoder, len, &most));
    begin(len, "encoder_read");
    status = by < NUMBERS ? de_encoder_read(by, encoder, piece, len, text, most, &written)
                          : de_encoding_encoder_read(its_own(), encoder, piece, len, text, most,
                                                     &written);
    end(status, DE_OK);
}

/* Encodes in three pieces. */
static void encode_pieces(size_t len) {
    de_encoder encoder;
    size_t third = len / 3;
    size_t written;
    de_status status;
    de_encoder_new(&encoder);
    read_data(&encoder, secret, third);
    read_data(&encoder, secret + third, third + len % 3);
    read_data(&encoder, secret + len - third, third);
    begin(len, "encoder_finish");
    status = by < NUMBERS ? de_encoder_finish(by, &encoder, text, sizeof text, &written)
                          : de_encoding_encoder_finish(its_own(), &encoder, text, sizeof text,
                                                       &written);
    end(status, DE_OK);
}

static void read_text(de_decoder *decoder, const char *piece, size_t len) {
    size_t most;
    size_t written;
    de_status status;
    expect_ok(by < NUMBERS ? de_decoder_most(by, decoder, len, &most)
                           : de_encoding_decoder_most(its_own(), decoder, len, &most));
    begin(len, "decoder_read");
    status = by < NUMBERS ? de_decoder_read(by, decoder, piece, len, data, most, &written)
                          : de_encoding_decoder_read(its_own(), decoder, piece, len, data, most,
                                                     &written);
    end(status, DE_OK);
}

/* Decodes in three pieces. */
static void decode_pieces(de_status wanted) {
    de_decoder decoder;
    de_decoded decoded;
    size_t third = given_len / 3;
    de_status status;
    de_decoder_new(&decoder);
    read_text(&decoder, given, third);
    read_text(&decoder, given + third, third + given_len % 3);
    read_text(&decoder, given + given_len - third, third);
    begin(given_len, "decoder_finish");
    status = by < NUMBERS
                 ? de_decoder_finish(by, &decoder, data, sizeof data, &decoded)
                 : de_encoding_decoder_finish(its_own(), &decoder, data, sizeof data, &decoded);
    end(status, wanted);
}

static bool is_ignored(char byte) {
    return memchr(ignored, byte, ignored_len) != NULL;
}

/* Decodes the text of len bytes to outputs with more room than it needs, with just enough and, if
 * there can be, with too little. */
static void decode_valid(size_t len) {
    decode(sizeof data, DE_OK, "decode");
    decode(len, DE_OK, "decode to just enough room");
    if (len > 0) {
        decode(len - 1, DE_SHORT_BUFFER, "decode to a byte too little");
        decode(len / 2, DE_SHORT_BUFFER, "decode to half the room");
    }
    if (len <= PIECES_LEN) {
        decode_pieces(DE_OK);
    }
}

/* Decodes a faulty text, made of the text of len bytes. */
static void decode_faulty(size_t len, de_status wanted) {
    decode(sizeof data, wanted, "decode");
    decode(len, wanted, "decode to the room of the data");
    decode(len / 2, wanted, "decode to half the room");
    if (len <= PIECES_LEN) {
        decode_pieces(wanted);
    }
}

/* Takes the text that was encoded, with its symbols translated if `translates`, and with lines of
 * line_len symbols if that isn't 0. Ends of lines are all the ignored bytes. */
static void take(const char *name, size_t text_len, bool translates, size_t line_len) {
    kind = name;
    given_len = 0;
    for (size_t index = 0; index < text_len; index++) {
        if (line_len != 0 && index % line_len == line_len - 1) {
            memcpy(given + given_len, ignored, ignored_len);
            given_len += ignored_len;
        }
        given[given_len++] = translates ? twin[(unsigned char)text[index]] : text[index];
    }
}

/* Writes the byte over the symbol or padding of a group of the text with this index in it, or over
 * all for the index ALL. */
static void overwrite(const char *name, size_t group, size_t in_group, char byte) {
    size_t index = 0;
    kind = name;
    for (size_t at = 0; at < given_len; at++) {
        if (!is_ignored(given[at])) {
            if (index / group_symbols == group &&
                (in_group == ALL || index % group_symbols == in_group)) {
                given[at] = byte;
            }
            index++;
        }
    }
}

/* Decodes texts with a fault: an invalid symbol among those of the secret, and then faults in a group that
 * has none of these. */
static void decode_faults(size_t len, size_t text_len, size_t line_len) {
    size_t groups = len / group_bytes;
    size_t rest = len % group_bytes;
    bool has_trailing = rest * 8 % width != 0;
    if (groups > 0) {
        size_t faulty = len % 3 == 0 ? 0 : len % 3 == 1 ? groups / 2 : groups - 1;
        take("", text_len, false, line_len);
        overwrite("invalid-symbol", faulty, len % group_symbols, INVALID);
        decode_faulty(len, DE_INVALID_SYMBOL);
        overwrite("invalid-symbols", faulty, ALL, INVALID);
        decode_faulty(len, DE_INVALID_SYMBOL);
        if (parts.padding >= 0) {
            overwrite("invalid-padding", faulty, ALL, (char)parts.padding);
            decode_faulty(len, DE_INVALID_PADDING);
        }
    }
    if (rest == 0) {
        take("invalid-length", text_len, false, line_len);
        given[given_len++] = parts.symbols[0];
        decode_faulty(len, DE_INVALID_LENGTH);
    } else if (parts.check_trailing_bits && has_trailing && parts.padding < 0) {
        take("", text_len, false, line_len);
        overwrite("invalid-trailing-bits", groups, ALL, parts.symbols[parts.symbols_len - 1]);
        decode_faulty(len, DE_INVALID_TRAILING_BITS);
    }
}

/* Encodes len bytes, and decodes the text and others that are made of it. */
static void both(size_t len) {
    size_t line_len = 1 + len % LINE_LIMIT;
    size_t text_len;
    kind = "data";
    text_len = encode(len, sizeof text, DE_OK, "encode");
    encode(len, text_len, DE_OK, "encode to just enough room");
    if (text_len > 0) {
        encode(len, text_len - 1, DE_SHORT_BUFFER, "encode to a byte too little");
    }
    if (len <= PIECES_LEN) {
        encode_pieces(len);
        encode(len, sizeof text, DE_OK, "encode");
    }
    take("text", text_len, false, 0);
    decode_valid(len);
    decode_faults(len, text_len, 0);
    if (parts.translate_from_len > 0) {
        take("translated", text_len, true, 0);
        decode_valid(len);
    }
    if (ignored_len > 0) {
        take("in-lines", text_len, false, line_len);
        decode_valid(len);
        decode_faults(len, text_len, line_len);
        take("translated-in-lines", text_len, true, line_len);
        decode_valid(len);
    }
}

/* One without an offset form, one with lines, one with the least significant bit first, one with
 * ignored bytes and translated ones, the two with the fewest symbols, and the fourth without a check
 * of trailing bits. */
static void make_own(void) {
    static const char mixed[] = "Aq0Bw1Ce2Dr3Et4Fy5Gu6Hi7Io8Jp9KaLsMdNfOgPhQjRkSlTzUxVcWvXbYnZm+/";
    static const char plain[] = "0123456789abcdefghijklmnopqrstuv";
    static const char upper[] = "ABCDEFGHIJKLMNOPQRSTUV";
    de_specification asked[OWN_COUNT] = {DE_SPECIFICATION, DE_SPECIFICATION, DE_SPECIFICATION,
                                         DE_SPECIFICATION, DE_SPECIFICATION, DE_SPECIFICATION,
                                         DE_SPECIFICATION};
    asked[0].symbols = mixed;
    asked[0].symbols_len = 64;
    asked[1].symbols = plain;
    asked[1].symbols_len = 32;
    asked[1].padding = '=';
    asked[1].wrap_separator = "\r\n";
    asked[1].wrap_separator_len = 2;
    asked[1].wrap_width = 24;
    asked[2].symbols = plain;
    asked[2].symbols_len = 8;
    asked[2].least_significant_first = true;
    asked[3].symbols = plain;
    asked[3].symbols_len = 32;
    asked[3].ignore = " -";
    asked[3].ignore_len = 2;
    asked[3].translate_from = upper;
    asked[3].translate_from_len = 22;
    asked[3].translate_to = plain + 10;
    asked[3].translate_to_len = 22;
    asked[4].symbols = plain;
    asked[4].symbols_len = 2;
    asked[5].symbols = "ACGT";
    asked[5].symbols_len = 4;
    asked[5].translate_from = "acgt";
    asked[5].translate_from_len = 4;
    asked[5].translate_to = "ACGT";
    asked[5].translate_to_len = 4;
    asked[6] = asked[3];
    asked[6].check_trailing_bits = false;
    for (size_t index = 0; index < OWN_COUNT; index++) {
        expect_ok(de_encoding_new(&own[index], &asked[index], NULL));
    }
}

/* Finds what the encoding `by` is. */
static void describe(void) {
    static const char candidates[] = " -\r\n";
    expect_ok(by < NUMBERS ? de_specification_of(by, &parts, texts, sizeof texts)
                           : de_encoding_specification(its_own(), &parts, texts, sizeof texts));
    width = 0;
    while ((size_t)1 << width < parts.symbols_len) {
        width++;
    }
    group_symbols = 8;
    while (group_symbols * width % 16 == 0) {
        group_symbols /= 2;
    }
    group_bytes = group_symbols * width / 8;
    for (size_t byte = 0; byte < sizeof twin; byte++) {
        twin[byte] = (char)byte;
    }
    for (size_t index = 0; index < parts.translate_from_len; index++) {
        twin[(unsigned char)parts.translate_to[index]] = parts.translate_from[index];
    }
    ignored_len = 0;
    for (const char *byte = candidates; *byte != 0; byte++) {
        de_decoded decoded;
        if ((by < NUMBERS ? de_decode(by, byte, 1, data, sizeof data, &decoded)
                          : de_encoding_decode(its_own(), byte, 1, data, sizeof data,
                                               &decoded)) == DE_OK) {
            ignored[ignored_len++] = *byte;
        }
    }
}

/* What the comparison must find: an address, and a branch, that depend on the secret. */
static volatile unsigned char planted[256];

__attribute__((noinline)) static void leak_by_address(void) {
    for (size_t index = 0; index < SECRET_LEN; index++) {
        planted[secret[index]] = 1;
    }
}

__attribute__((noinline)) static void leak_by_branch(void) {
    for (size_t index = 0; index < SECRET_LEN; index++) {
        if (secret[index] >= 128) {
            planted[0] = 1;
        }
    }
}

int main(int count, char **words) {
    /* In the highest bits, so that the first bytes of two secrets differ too. */
    unsigned state = count > 1 ? (unsigned)(unsigned char)words[1][0] << 24 : 0;
    prints = count < 2;
    for (size_t index = 0; index < SECRET_LEN; index++) {
        state = state * 1664525 + 1013904223;
        secret[index] = state >> 24 & 255;
    }
    kind = "";
    if (count > 2) {
        begin(SECRET_LEN, words[2]);
        if (strcmp(words[2], "address") == 0) {
            leak_by_address();
        } else {
            leak_by_branch();
        }
        ended = calls;
        return EXIT_SUCCESS;
    }
    make_own();
    for (by = 0; by < NUMBERS + OWN_COUNT; by++) {
        describe();
        for (size_t len = 0; len <= EACH_LEN; len++) {
            both(len);
        }
        both(SECRET_LEN);
    }
    return EXIT_SUCCESS;
}
