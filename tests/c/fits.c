/* Decodes texts to outputs of each length around that of the data and around that of de_decode_len:
 * by number and by encodings of the caller's own, with padding, without, in lines, with ignored
 * bytes and with faults. Prints a line for each test that fails, and then how many passed. */
#include "data_encoding.h"
#include "tests.h"

#include <stdio.h>
#include <stdlib.h>
#include <string.h>

enum { MOST_DATA = 1100, MOST_TEXT = 16 * MOST_DATA };

static unsigned char data[MOST_DATA];
static char text[MOST_TEXT];
static unsigned char whole[MOST_TEXT];

/* By which encoding a text is decoded: one of the caller's own, or where that is null a number. */
struct by {
    const de_encoding *own;
    de_number number;
};

static size_t encode(const struct by *by, size_t len) {
    size_t written = 0;
    is("encoded", DE_OK,
       by->own != NULL ? de_encoding_encode(by->own, data, len, text, sizeof text, &written)
                       : de_encode(by->number, data, len, text, sizeof text, &written));
    return written;
}

static size_t most(const struct by *by, size_t len) {
    size_t size = 0;
    is("most", DE_OK, by->own != NULL ? de_encoding_decode_len(by->own, len, &size)
                                      : de_decode_len(by->number, len, &size));
    return size;
}

static de_status decode(const struct by *by, size_t len, void *output, size_t room,
                        de_decoded *decoded) {
    return by->own != NULL ? de_encoding_decode(by->own, text, len, output, room, decoded)
                           : de_decode(by->number, text, len, output, room, decoded);
}

static void wrote(const de_decoded *decoded, size_t read, size_t written, size_t position) {
    is("read", read, decoded->read);
    is("written", written, decoded->written);
    is("position", position, decoded->position);
}

static bool are_unchanged(const unsigned char *output, size_t len) {
    size_t index;
    for (index = 0; index < len; index++) {
        if (output[index] != 0xa5) {
            return false;
        }
    }
    return true;
}

/* The text, of a length for which `size` bytes may be needed, decoded to an output of `room` bytes.
 * The output is memory of its own, so that sanitizers see a byte that is written past it. */
static void to_room(const struct by *by, size_t len, size_t size, size_t room) {
    de_decoded all = {77, 77, 77};
    de_decoded decoded = {77, 77, 77};
    de_status wanted = decode(by, len, whole, sizeof whole, &all);
    unsigned char *output = malloc(room + 1);
    de_status status;
    if (output == NULL) {
        exit(EXIT_FAILURE);
    }
    memset(output, 0xa5, room + 1);
    status = decode(by, len, output, room, &decoded);
    holds("nothing after the output", output[room] == 0xa5);
    if (room >= size) {
        is("room for all", wanted, status);
        wrote(&decoded, all.read, all.written, all.position);
        holds("nothing after the greatest length", are_unchanged(output + size, room - size));
    } else if (wanted != DE_OK) {
        is("a fault", wanted, status);
        wrote(&decoded, 0, 0, all.position);
    } else if (room < all.written) {
        is("short", DE_SHORT_BUFFER, status);
        wrote(&decoded, 0, all.written, 0);
    } else {
        is("fits", DE_OK, status);
        wrote(&decoded, len, all.written, len);
    }
    if (status != DE_SHORT_BUFFER) {
        holds("the data", memcmp(output, whole, decoded.written) == 0);
    }
    free(output);
}

/* To outputs of no bytes, and of some lengths around each of both. */
static void to_rooms(const struct by *by, size_t len, size_t data_len) {
    size_t size = most(by, len);
    size_t room;
    to_room(by, len, size, 0);
    for (room = data_len < 3 ? 0 : data_len - 3; room <= data_len + 2; room++) {
        to_room(by, len, size, room);
    }
    for (room = size < 2 ? 0 : size - 2; room <= size + 1; room++) {
        to_room(by, len, size, room);
    }
}

/* Data of a length: its text, and with a fault in its middle and at its end. */
static void of_len(const struct by *by, size_t data_len) {
    size_t len = encode(by, data_len);
    to_rooms(by, len, data_len);
    if (len > 0) {
        char kept = text[len / 2];
        text[len / 2] = '\x80';
        to_rooms(by, len, data_len);
        text[len / 2] = kept;
        text[len - 1] = '\x80';
        to_rooms(by, len, data_len);
    }
}

static void of_each_len(const struct by *by) {
    /* Where the pieces end in which such a text is decoded, for each width. */
    static const size_t lens[] = {63,  64,  65,  127, 128, 129, 191, 192, 193,  255, 256, 257,
                                  319, 320, 321, 383, 384, 385, 387, 511, 512, 513, 768, 1100};
    size_t len;
    for (len = 0; len <= 40; len++) {
        of_len(by, len);
    }
    for (len = 0; len < sizeof lens / sizeof *lens; len++) {
        of_len(by, lens[len]);
    }
}

static void own(const char *symbols, int padding, const char *ignored, size_t width) {
    de_specification asked = DE_SPECIFICATION;
    de_encoding encoding;
    struct by by = {&encoding, 0};
    asked.symbols = symbols;
    asked.symbols_len = strlen(symbols);
    asked.padding = padding;
    asked.ignore = ignored;
    asked.ignore_len = strlen(ignored);
    asked.wrap_width = width;
    asked.wrap_separator = "\n";
    asked.wrap_separator_len = width > 0 ? 1 : 0;
    is("an encoding", DE_OK, de_encoding_new(&encoding, &asked, NULL));
    of_each_len(&by);
}

/* A key of 32 bytes, with a line end after each character. */
static void spread(void) {
    struct by by = {NULL, DE_BASE64_MIME};
    size_t len = encode(&by, 32) - 2;
    size_t index;
    for (index = len; index-- > 0;) {
        text[3 * index] = text[index];
        text[3 * index + 1] = '\r';
        text[3 * index + 2] = '\n';
    }
    to_rooms(&by, 3 * len, 32);
}

/* Texts with padding, one after the other, of which only the first groups fit. */
static void concatenated(void) {
    struct by by = {NULL, DE_BASE64};
    memcpy(text, "Zg==Zg==Zg==Zg==Zg==", 20);
    to_rooms(&by, 20, 5);
}

/* A length that de_decode_len refuses leaves the output unchanged, and a fault in a short output
 * leaves both numbers 0. */
static void refused(void) {
    unsigned char output[6];
    de_decoded decoded = {77, 77, 77};
    memset(output, 0xa5, sizeof output);
    is("a length", DE_INVALID_LENGTH,
       de_decode(DE_BASE64, "Zm9vYm!", 7, output, sizeof output, &decoded));
    wrote(&decoded, 0, 0, 4);
    holds("an unchanged output", are_unchanged(output, sizeof output));
    is("a symbol", DE_INVALID_SYMBOL, de_decode(DE_BASE64, "Zm9vYm!y", 8, output, 3, &decoded));
    wrote(&decoded, 0, 0, 6);
    holds("nothing after three bytes", are_unchanged(output + 3, sizeof output - 3));
}

int main(void) {
    struct by by = {NULL, 0};
    size_t index;
    for (index = 0; index < sizeof data; index++) {
        data[index] = (unsigned char)(index * index + index / 7);
    }
    for (by.number = DE_HEXLOWER; by.number <= DE_BASE64URL_NOPAD; by.number++) {
        of_each_len(&by);
    }
    own("01", -1, "", 0);
    own("01", -1, " ", 0);
    own("0123", -1, "", 8);
    own("01234567", '=', " ", 0);
    own("01234567", -1, "", 24);
    own("0123456789abcdefghjkmnpqrstvwxyz", '=', "", 8);
    own("ABCDEFGHIJKLMNOPQRSTUVWXYZabcdefghijklmnopqrstuvwxyz0123456789-_", -1, "", 64);
    spread();
    concatenated();
    refused();
    printf("%d passed, %d failed\n", passed, failed);
    return failed != 0;
}
