/* Makes some hundred thousand calls, with data, texts and specifications that are drawn by a fixed
 * rule, and prints how many there were and a digest of all that they return and write. It is the
 * same for each processor and build. */
#include "data_encoding.h"

#include <inttypes.h>
#include <stdio.h>
#include <stdlib.h>
#include <string.h>

enum { MOST_DATA = 1200, ROOM = 16384, ROUNDS = 320, DRAWN = 160 };

static uint64_t drawn_state = 1;
static uint64_t digest = 14695981039346656037u;
static unsigned long calls;

/* A number below the limit. */
static size_t draw(size_t limit) {
    drawn_state ^= drawn_state << 13;
    drawn_state ^= drawn_state >> 7;
    drawn_state ^= drawn_state << 17;
    return (size_t)((drawn_state >> 20) % limit);
}

static void add(const void *bytes, size_t len) {
    size_t index;
    for (index = 0; index < len; index++) {
        digest = (digest ^ ((const unsigned char *)bytes)[index]) * 1099511628211u;
    }
}

static void add_number(uint64_t number) {
    unsigned char bytes[8];
    size_t index;
    for (index = 0; index < sizeof bytes; index++) {
        bytes[index] = (unsigned char)(number >> 8 * index);
    }
    add(bytes, sizeof bytes);
}

/* A call that was made: its status, a length it gave, and that many bytes that it wrote. */
static void told(de_status status, size_t len, const void *bytes) {
    calls++;
    add_number(status);
    add_number(len);
    if (bytes != NULL) {
        add(bytes, len);
    }
}

/* By which encoding: one of the caller's own, or where that is null a number. */
struct by {
    const de_encoding *own;
    de_number number;
};

static size_t encode(const struct by *by, const unsigned char *data, size_t len, char *text) {
    size_t written = 0;
    de_status status = by->own != NULL
                           ? de_encoding_encode(by->own, data, len, text, ROOM, &written)
                           : de_encode(by->number, data, len, text, ROOM, &written);
    told(status, written, text);
    return written;
}

/* After DE_SHORT_BUFFER the output is unspecified. Returns the length of the data. */
static size_t decode_to(const struct by *by, const char *text, size_t len, size_t room) {
    static unsigned char output[ROOM];
    de_decoded decoded = {0, 0, 0};
    de_status status = by->own != NULL
                           ? de_encoding_decode(by->own, text, len, output, room, &decoded)
                           : de_decode(by->number, text, len, output, room, &decoded);
    told(status, decoded.written, status != DE_SHORT_BUFFER ? output : NULL);
    add_number(decoded.read);
    add_number(decoded.position);
    return decoded.written;
}

/* To an output with room for any text, and to one of about the length of the data. */
static void decode(const struct by *by, const char *text, size_t len) {
    size_t room = decode_to(by, text, len, ROOM) + draw(4);
    decode_to(by, text, len, room > 0 ? room - 1 : 0);
}

static void decode_pieces(const struct by *by, const char *text, size_t len) {
    static unsigned char output[ROOM];
    de_decoder decoder;
    de_decoded decoded = {0, 0, 0};
    de_status status;
    size_t at = 0;
    de_decoder_new(&decoder);
    while (at < len) {
        size_t piece = 1 + draw(len - at);
        size_t written = 0;
        status = by->own != NULL ? de_encoding_decoder_read(by->own, &decoder, text + at, piece,
                                                            output, ROOM, &written)
                                 : de_decoder_read(by->number, &decoder, text + at, piece, output,
                                                   ROOM, &written);
        told(status, written, output);
        at += piece;
    }
    status = by->own != NULL
                 ? de_encoding_decoder_finish(by->own, &decoder, output, ROOM, &decoded)
                 : de_decoder_finish(by->number, &decoder, output, ROOM, &decoded);
    told(status, decoded.written, output);
    add_number(decoded.position);
}

static void encode_pieces(const struct by *by, const unsigned char *data, size_t len) {
    static char output[ROOM];
    de_encoder encoder;
    de_status status;
    size_t at = 0;
    size_t written = 0;
    de_encoder_new(&encoder);
    while (at < len) {
        size_t piece = 1 + draw(len - at);
        status = by->own != NULL ? de_encoding_encoder_read(by->own, &encoder, data + at, piece,
                                                            output, ROOM, &written)
                                 : de_encoder_read(by->number, &encoder, data + at, piece, output,
                                                   ROOM, &written);
        told(status, written, output);
        at += piece;
    }
    status = by->own != NULL
                 ? de_encoding_encoder_finish(by->own, &encoder, output, ROOM, &written)
                 : de_encoder_finish(by->number, &encoder, output, ROOM, &written);
    told(status, written, output);
}

/* Changes, removes or repeats one byte of the text, and returns its length. */
static size_t damage(char *text, size_t len) {
    size_t at;
    if (len == 0) {
        text[0] = (char)draw(256);
        return 1;
    }
    at = draw(len);
    switch (draw(4)) {
    case 0:
        memmove(text + at, text + at + 1, len - at - 1);
        return len - 1;
    case 1:
        memmove(text + at + 1, text + at, len - at);
        return len + 1;
    case 2:
        text[at] = text[draw(len)];
        return len;
    default:
        text[at] = (char)draw(256);
        return len;
    }
}

/* Mostly short data, for which other code runs than for long data. */
static size_t draw_len(void) {
    static const size_t limits[] = {12, 40, 100, 260, MOST_DATA};
    return draw(limits[draw(sizeof limits / sizeof *limits)]);
}

static void round_of(const struct by *by) {
    static unsigned char data[MOST_DATA];
    static char text[ROOM];
    size_t len = draw_len();
    size_t text_len;
    size_t index;
    for (index = 0; index < len; index++) {
        data[index] = (unsigned char)draw(256);
    }
    text_len = encode(by, data, len, text);
    encode_pieces(by, data, len);
    decode(by, text, text_len);
    decode_pieces(by, text, text_len);
    for (index = 0; index < 4; index++) {
        text_len = damage(text, text_len);
        decode(by, text, text_len);
        decode_pieces(by, text, text_len);
    }
}

/* Draws a specification; whether it is refused is part of the digest. */
static bool draw_encoding(de_encoding *encoding) {
    static const char ignored[] = " \n-";
    char symbols[128];
    char from = 0;
    size_t detail = 0;
    size_t index;
    de_status status;
    de_specification drawn = DE_SPECIFICATION;
    drawn.symbols = symbols;
    drawn.symbols_len = (size_t)1 << (1 + draw(6));
    for (index = 0; index < sizeof symbols; index++) {
        symbols[index] = (char)index;
    }
    for (index = 0; index < sizeof symbols; index++) {
        size_t other = draw(sizeof symbols);
        char kept = symbols[index];
        symbols[index] = symbols[other];
        symbols[other] = kept;
    }
    if (draw(2) == 0) {
        drawn.padding = symbols[100];
    }
    drawn.ignore = ignored;
    drawn.ignore_len = draw(3);
    if (draw(3) == 0) {
        drawn.wrap_separator = symbols + 101;
        drawn.wrap_separator_len = 1 + draw(2);
        drawn.wrap_width = 8 * (1 + draw(10));
    }
    if (draw(3) == 0) {
        from = symbols[110];
        drawn.translate_from = &from;
        drawn.translate_from_len = 1;
        drawn.translate_to = symbols;
        drawn.translate_to_len = 1;
    }
    drawn.least_significant_first = draw(2) == 0;
    drawn.check_trailing_bits = draw(2) == 0;
    drawn.concatenate = draw(2) == 0;
    status = de_encoding_new(encoding, &drawn, &detail);
    told(status, detail, NULL);
    return status == DE_OK;
}

int main(void) {
    static de_encoding own;
    struct by by = {NULL, 0};
    int count;
    for (by.number = DE_HEXLOWER; by.number <= DE_BASE64URL_NOPAD; by.number++) {
        for (count = 0; count < ROUNDS; count++) {
            round_of(&by);
        }
    }
    by.own = &own;
    for (count = 0; count < DRAWN; count++) {
        if (draw_encoding(&own)) {
            int again;
            for (again = 0; again < ROUNDS / 16; again++) {
                round_of(&by);
            }
        }
    }
    printf("%lu calls, digest %016" PRIx64 "\n", calls, digest);
    return 0;
}
