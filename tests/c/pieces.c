/* Decodes short texts in two and three pieces, cut everywhere, by number and by an encoding of the
 * caller's own, and compares with what de_decode tells of the whole; and calls so that each status
 * of a decoder is returned. Prints a line for each test that fails, and then how many passed. */
/* Null pointers are passed, and refused. */
#define DE_NONNULL(...)
#include "data_encoding.h"
#include "tests.h"

#include <stdio.h>
#include <stdlib.h>
#include <string.h>

/* By which encoding a text is decoded: one of the caller's own, or where that is null a number. */
struct by {
    const de_encoding *own;
    de_number number;
};

static de_status whole(const struct by *by, const char *text, size_t len, void *output,
                       size_t room, de_decoded *decoded) {
    return by->own != NULL ? de_encoding_decode(by->own, text, len, output, room, decoded)
                           : de_decode(by->number, text, len, output, room, decoded);
}

static de_status most(const struct by *by, const de_decoder *decoder, size_t len, size_t *size) {
    return by->own != NULL ? de_encoding_decoder_most(by->own, decoder, len, size)
                           : de_decoder_most(by->number, decoder, len, size);
}

static de_status read_piece(const struct by *by, de_decoder *decoder, const char *input,
                            size_t len, void *output, size_t room, size_t *written) {
    return by->own != NULL
               ? de_encoding_decoder_read(by->own, decoder, input, len, output, room, written)
               : de_decoder_read(by->number, decoder, input, len, output, room, written);
}

static de_status finish(const struct by *by, const de_decoder *decoder, void *output, size_t room,
                        de_decoded *decoded) {
    return by->own != NULL ? de_encoding_decoder_finish(by->own, decoder, output, room, decoded)
                           : de_decoder_finish(by->number, decoder, output, room, decoded);
}

/* Reads a piece into exactly as much room as it asks for, and refuses less; what follows is
 * unchanged. Each piece is in memory of its own, so that sanitizers see a read past it. */
static size_t read_on(const struct by *by, de_decoder *decoder, const char *piece, size_t len,
                      unsigned char *output) {
    unsigned char room[64];
    char *input = malloc(len + 1);
    de_decoder before = *decoder;
    size_t size = 77;
    size_t written = 77;
    if (input == NULL) {
        exit(EXIT_FAILURE);
    }
    memcpy(input, piece, len);
    memset(room, 0xa5, sizeof room);
    is("most", DE_OK, most(by, decoder, len, &size));
    holds("most", size <= len + 7);
    if (size > 0) {
        is("short", DE_SHORT_BUFFER, read_piece(by, decoder, input, len, room, size - 1, &written));
        holds("nothing is changed", written == 77 && room[0] == 0xa5 &&
                                        memcmp(&before, decoder, sizeof before) == 0);
    }
    is("read", DE_OK, read_piece(by, decoder, input, len, room, size, &written));
    holds("within", written <= size && room[size] == 0xa5);
    memcpy(output, room, written);
    free(input);
    return written;
}

/* The text in three pieces has the verdict of the whole, and its data, or where it has a fault a
 * beginning of them that what was read of it means. */
static void cut(const struct by *by, const char *text, size_t one, size_t other) {
    unsigned char wanted[64];
    unsigned char given[64];
    size_t len = strlen(text);
    size_t written;
    de_decoded all = {0, 0, 0};
    de_decoded told = {77, 77, 77};
    de_decoder decoder;
    de_status status = whole(by, text, len, wanted, sizeof wanted, &all);
    is("new", DE_OK, de_decoder_new(&decoder));
    written = read_on(by, &decoder, text, one, given);
    written += read_on(by, &decoder, text + one, other - one, given + written);
    written += read_on(by, &decoder, text + other, len - other, given + written);
    is("verdict", status, finish(by, &decoder, given + written, 5, &told));
    is("length", len, told.read);
    is("position", all.position, told.position);
    written += told.written;
    if (status == DE_OK) {
        is("data", all.written, written);
    }
    holds("data", written >= all.written && memcmp(wanted, given, all.written) == 0);
}

static void cuts(const struct by *by, const char *text) {
    size_t one;
    size_t other;
    for (other = 0; other <= strlen(text); other++) {
        for (one = 0; one <= other; one++) {
            cut(by, text, one, other);
        }
    }
}

/* The data of a text in pieces up to a fault are those of the groups before it. */
static void front(const struct by *by, const char *text, const char *data, de_status status,
                  size_t position) {
    unsigned char given[64];
    de_decoder decoder;
    de_decoded told = {77, 77, 77};
    size_t written;
    size_t index;
    is("new", DE_OK, de_decoder_new(&decoder));
    for (written = 0, index = 0; index < strlen(text); index++) {
        written += read_on(by, &decoder, text + index, 1, given + written);
    }
    is(text, status, finish(by, &decoder, given + written, 5, &told));
    is(text, position, told.position);
    written += told.written;
    holds(text, written == strlen(data) && memcmp(given, data, written) == 0);
}

/* Numbers that no call leaves are refused, and nothing is changed. */
static void refused(const char *name, const struct by *by, const de_decoder *decoder) {
    unsigned char output[8] = {0xa5};
    de_decoder copy = *decoder;
    de_decoded told = {77, 77, 77};
    size_t size = 77;
    is(name, DE_NO_DECODER, most(by, &copy, 1, &size));
    is(name, DE_NO_DECODER, read_piece(by, &copy, "Zm9v", 4, output, sizeof output, &size));
    is(name, DE_NO_DECODER, finish(by, &copy, output, sizeof output, &told));
    holds(name, size == 77 && output[0] == 0xa5 && told.read == 77 &&
                    memcmp(&copy, decoder, sizeof copy) == 0);
}

static void statuses(const struct by *by) {
    unsigned char output[8];
    size_t size = 77;
    de_decoded told = {77, 77, 77};
    de_decoder decoder;
    de_decoder other;
    is("new", DE_OK, de_decoder_new(&decoder));
    is("null", DE_NULL_POINTER, de_decoder_new(NULL));
    is("null", DE_NULL_POINTER, most(by, NULL, 1, &size));
    is("null", DE_NULL_POINTER, most(by, &decoder, 1, NULL));
    is("null", DE_NULL_POINTER, read_piece(by, NULL, "Z", 1, output, 8, &size));
    is("null", DE_NULL_POINTER, read_piece(by, &decoder, NULL, 1, output, 8, &size));
    is("null", DE_NULL_POINTER, read_piece(by, &decoder, "Z", 1, NULL, 8, &size));
    is("null", DE_NULL_POINTER, read_piece(by, &decoder, "Z", 1, output, 8, NULL));
    is("null", DE_NULL_POINTER, finish(by, NULL, output, 8, &told));
    is("null", DE_NULL_POINTER, finish(by, &decoder, NULL, 8, &told));
    is("null", DE_NULL_POINTER, finish(by, &decoder, output, 8, NULL));
    is("no bytes at null", DE_OK, read_piece(by, &decoder, NULL, 0, NULL, 0, &size));
    is("no bytes at null", 0, size);
    is("no bytes at null", DE_OK, finish(by, &decoder, NULL, 0, &told));
    is("too long", DE_TOO_LONG, most(by, &decoder, DE_DECODE_LIMIT + 1, &size));
    is("long", DE_OK, most(by, &decoder, DE_DECODE_LIMIT, &size));
    is("too long", DE_TOO_LONG,
       read_piece(by, &decoder, "", DE_DECODE_LIMIT + 1, output, sizeof output, &size));
    other = decoder;
    other.len = DE_DECODE_LIMIT;
    is("too long", DE_TOO_LONG, most(by, &other, 1, &size));
    is("too long", DE_TOO_LONG, read_piece(by, &other, "Z", 1, output, sizeof output, &size));
    other.len = (size_t)DE_DECODE_LIMIT + 1;
    refused("length", by, &other);
    other.len = 3;
    other.count = 4;
    refused("held", by, &other);
    other.count = (size_t)-1;
    refused("held", by, &other);
    other = decoder;
    other.count = 1;
    refused("more than the text", by, &other);
    other.len = 3;
    other.fault = DE_INVALID_SYMBOL;
    refused("after a fault", by, &other);
    other.count = 0;
    is("after a fault", DE_OK, most(by, &other, 100, &size));
    is("after a fault", 0, size);
    other.fault = DE_SHORT_BUFFER;
    refused("no fault", by, &other);
    is("text", 0, strcmp(de_status_text(DE_NO_DECODER), "no decoder"));
}

int main(void) {
    static const char *const texts[] = {
        "Zm9vYmFy",     "Zm9vYg==",     "Zm9vYg==Zm9v", "Zm9vYg=",   "Zm9v!mFy",
        "Zm9vYh==Zm9v", "Zm9v\r\nYmE=", "\r\nZ!",       "Zm9vYg==!", "=",
        "MZXW6YTBOI",   "MZXW6YTB!I",   "666f6f",       "666",       ""};
    static const de_number numbers[] = {DE_BASE64,       DE_BASE64_NOPAD, DE_BASE64_MIME,
                                        DE_BASE32_NOPAD, DE_BASE32,       DE_HEXLOWER,
                                        DE_BASE64_MIME_PERMISSIVE};
    de_specification asked = DE_SPECIFICATION;
    de_encoding own;
    struct by by = {NULL, DE_BASE64};
    struct by by_own = {NULL, DE_BASE64};
    size_t number;
    size_t text;
    asked.symbols = "ABCDEFGHIJKLMNOPQRSTUVWXYZabcdefghijklmnopqrstuvwxyz0123456789+/";
    asked.symbols_len = 64;
    asked.padding = '=';
    asked.concatenate = false;
    is("own", DE_OK, de_encoding_new(&own, &asked, NULL));
    by_own.own = &own;
    for (text = 0; text < sizeof texts / sizeof *texts; text++) {
        for (number = 0; number < sizeof numbers / sizeof *numbers; number++) {
            by.number = numbers[number];
            cuts(&by, texts[text]);
        }
        cuts(&by_own, texts[text]);
    }
    by.number = DE_BASE64;
    front(&by, "Zm9vYmF!Zm9v", "foo", DE_INVALID_SYMBOL, 7);
    front(&by, "Zm9vYg==Zm9v", "foobfoo", DE_OK, 12);
    front(&by_own, "Zm9vYg==Zm9v", "foob", DE_INVALID_PADDING, 8);
    statuses(&by);
    statuses(&by_own);
    by.number = (de_number)18;
    {
        unsigned char output[8];
        size_t size = 77;
        de_decoded told;
        de_decoder decoder;
        is("new", DE_OK, de_decoder_new(&decoder));
        is("unknown", DE_UNKNOWN_ENCODING, most(&by, &decoder, 1, &size));
        is("unknown", DE_UNKNOWN_ENCODING, read_piece(&by, &decoder, "Z", 1, output, 8, &size));
        is("unknown", DE_UNKNOWN_ENCODING, finish(&by, &decoder, output, 8, &told));
        memset(&own, 0, sizeof own);
        is("not made", DE_NO_ENCODING, most(&by_own, &decoder, 1, &size));
        is("not made", DE_NO_ENCODING, read_piece(&by_own, &decoder, "Z", 1, output, 8, &size));
        is("not made", DE_NO_ENCODING, finish(&by_own, &decoder, output, 8, &told));
    }
    printf("%d passed, %d failed\n", passed, failed);
    return failed == 0 ? EXIT_SUCCESS : EXIT_FAILURE;
}
