/* Calls each function of data_encoding.h with vectors from outside, with damaged texts, and so that
 * each status is returned. Prints a line for each test that fails, and then how many passed. */
/* Null pointers are passed, and refused. */
#define DE_NONNULL(...)
#include "data_encoding.h"
#include "tests.h"

#include <stdio.h>
#include <stdlib.h>
#include <string.h>

static const char *const names[] = {
    "HEXLOWER", "HEXLOWER_PERMISSIVE", "HEXUPPER", "HEXUPPER_PERMISSIVE", "BASE32",
    "BASE32_NOPAD", "BASE32_NOPAD_NOCASE", "BASE32_NOPAD_VISUAL", "BASE32HEX", "BASE32HEX_NOPAD",
    "BASE32_DNSSEC", "BASE32_DNSCURVE", "BASE64", "BASE64_NOPAD", "BASE64_MIME",
    "BASE64_MIME_PERMISSIVE", "BASE64URL", "BASE64URL_NOPAD"};

/* The texts of "foobar" but for BASE32_DNSCURVE: RFC 4648, section 10, with padding and without;
 * that of DNSCurve is of the bytes 0x64 0x88, as its paper has it. */
static const char *const foobar[] = {
    "666f6f626172", "666f6f626172", "666F6F626172", "666F6F626172", "MZXW6YTBOI======",
    "MZXW6YTBOI", "MZXW6YTBOI", "MZXW6YTBOI", "CPNMUOJ1E8======", "CPNMUOJ1E8", "cpnmuoj1e8",
    NULL, "Zm9vYmFy", "Zm9vYmFy", "Zm9vYmFy\r\n", "Zm9vYmFy\r\n", "Zm9vYmFy", "Zm9vYmFy"};

static void vector(de_number number, const char *data, size_t data_len, const char *text) {
    const char *name = names[number];
    char output[64];
    char back[64];
    size_t len = 0;
    size_t written = 0;
    de_decoded decoded = {0, 0, 0};
    is(name, DE_OK, de_encode_len(number, data_len, &len));
    is(name, strlen(text), len);
    is(name, DE_OK, de_encode(number, data, data_len, output, sizeof output, &written));
    is(name, len, written);
    holds(name, memcmp(output, text, len) == 0);
    is(name, DE_OK, de_decode_len(number, len, &written));
    is(name, DE_OK, de_decode(number, text, len, back, written, &decoded));
    is(name, len, decoded.read);
    is(name, len, decoded.position);
    is(name, data_len, decoded.written);
    holds(name, memcmp(back, data, data_len) == 0);
}

/* What was read of a faulty text means what was written, and nothing else is written. */
static void fault(de_number number, const char *text, size_t len, de_status status,
                  const de_decoded *decoded, const unsigned char *output, size_t most) {
    unsigned char front[64];
    de_decoded again = {0, 0, 0};
    size_t index;
    holds("a status of a text", status >= DE_INVALID_LENGTH && status <= DE_INVALID_PADDING);
    holds("read before the fault", decoded->read <= decoded->position);
    holds("a fault within the text", decoded->position < len);
    is("the front of a text", DE_OK,
       de_decode(number, text, decoded->read, front, sizeof front, &again));
    is("as many bytes", decoded->written, again.written);
    holds("the same bytes", memcmp(front, output, again.written) == 0);
    for (index = most; index < 64; index++) {
        if (output[index] != 0xa5) {
            holds("nothing after what is due", false);
        }
    }
}

/* A text with one byte replaced by each other. */
static void damaged(de_number number, const char *text, size_t len) {
    char copy[64];
    unsigned char output[64];
    size_t position;
    int byte;
    for (position = 0; position < len; position++) {
        for (byte = 0; byte < 256; byte++) {
            de_decoded decoded = {77, 77, 77};
            size_t most = 0;
            de_status status;
            memcpy(copy, text, len);
            memset(output, 0xa5, sizeof output);
            copy[position] = (char)byte;
            is("due", DE_OK, de_decode_len(number, len, &most));
            status = de_decode(number, copy, len, output, most, &decoded);
            if (status != DE_OK) {
                fault(number, copy, len, status, &decoded, output, most);
            } else {
                is("all is read", len, decoded.read);
            }
            /* Of these two each byte tells by itself whether it is a symbol. */
            if (number == DE_HEXLOWER || number == DE_BASE64_NOPAD) {
                const char *symbols = number == DE_HEXLOWER
                    ? "0123456789abcdef"
                    : "ABCDEFGHIJKLMNOPQRSTUVWXYZabcdefghijklmnopqrstuvwxyz0123456789+/";
                bool is_symbol = byte != 0 && strchr(symbols, byte) != NULL;
                is("a symbol", is_symbol, status == DE_OK);
                if (!is_symbol) {
                    is("no symbol", DE_INVALID_SYMBOL, status);
                    is("where it is none", position, decoded.position);
                }
            }
        }
    }
}

static void numbers(void) {
    int number;
    for (number = 0; number < 18; number++) {
        const char *text = foobar[number];
        if (text != NULL) {
            vector((de_number)number, "foobar", 6, text);
            damaged((de_number)number, text, strlen(text));
        } else {
            vector((de_number)number, "\x64\x88", 2, "4321");
            damaged((de_number)number, "4321", 4);
        }
        vector((de_number)number, "", 0, "");
    }
}

static void canonical(void) {
    const int are[] = {1, 0, 1, 0, 0, 1, 0, 0, 0, 1, 0, 0, 0, 1, 0, 0, 0, 1};
    int number;
    for (number = 0; number < 18; number++) {
        bool given = number % 2 == 0;
        is("canonical", DE_OK, de_is_canonical((de_number)number, &given));
        is(names[number], (size_t)are[number], given);
    }
}

static void named(void) {
    int number;
    for (number = 0; number < 18; number++) {
        const char *name = names[number];
        size_t len = strlen(name);
        char output[DE_NAME_LIMIT + 1];
        size_t written = 77;
        de_number found = (de_number)77;
        memset(output, '.', sizeof output);
        is(name, DE_SHORT_BUFFER, de_name((de_number)number, output, len - 1, &written));
        holds(name, output[0] == '.' && written == 77);
        is(name, DE_OK, de_name((de_number)number, output, DE_NAME_LIMIT, &written));
        is(name, len, written);
        holds(name, memcmp(output, name, len) == 0 && output[len] == '.');
        is(name, DE_OK, de_number_named(name, len, &found));
        is(name, (size_t)number, (size_t)found);
    }
}

/* The library writes four bytes to a number, whatever a compiler takes for an enum. */
static void sizes(void) {
    struct {
        de_number number;
        unsigned char next[4];
    } found = {77, {1, 2, 3, 4}};
    is("the size of a status", 4, sizeof(de_status));
    is("the size of a number", 4, sizeof(de_number));
    is("a number and no more", DE_OK, de_number_named("HEXUPPER", 8, &found.number));
    is("a number and no more", DE_HEXUPPER, found.number);
    holds("a number and no more", memcmp(found.next, "\1\2\3\4", 4) == 0);
}

static void no_names(void) {
    char output[8] = "untold!";
    size_t size = 77;
    de_number number = (de_number)77;
    is("unknown", DE_UNKNOWN_ENCODING, de_name((de_number)18, output, 8, &size));
    is("unknown", DE_UNKNOWN_ENCODING, de_number_named("base64", 6, &number));
    is("unknown", DE_UNKNOWN_ENCODING, de_number_named("BASE64 ", 7, &number));
    is("unknown", DE_UNKNOWN_ENCODING, de_number_named("BASE", 4, &number));
    is("unknown", DE_UNKNOWN_ENCODING, de_number_named("BASE64\xff", 7, &number));
    is("unknown", DE_UNKNOWN_ENCODING, de_number_named(NULL, 0, &number));
    /* Nothing can be read there. */
    is("too long", DE_UNKNOWN_ENCODING,
       de_number_named((const char *)1, DE_NAME_LIMIT + 1, &number));
    is("too long", DE_UNKNOWN_ENCODING, de_number_named((const char *)1, SIZE_MAX, &number));
    is("null", DE_NULL_POINTER, de_name(DE_BASE64, NULL, 8, &size));
    is("null", DE_NULL_POINTER, de_name(DE_BASE64, output, 8, NULL));
    is("null", DE_NULL_POINTER, de_number_named(NULL, 6, &number));
    is("null", DE_NULL_POINTER, de_number_named("BASE64", 6, NULL));
    is("no room at null", DE_SHORT_BUFFER, de_name(DE_BASE64, NULL, 0, &size));
    holds("nothing is changed", memcmp(output, "untold!", 8) == 0 && size == 77 &&
                                    (unsigned)number == 77);
}

static void statuses(void) {
    char text[8] = "untold!";
    unsigned char data[8] = "untold!";
    size_t size = 77;
    bool given = true;
    de_decoded decoded = {77, 78, 79};
    de_number unknown = (de_number)18;
    /* Never read: the length is refused. */
    const char *far = text;

    is("unknown", DE_UNKNOWN_ENCODING, de_encode_len(unknown, 1, &size));
    is("unknown", DE_UNKNOWN_ENCODING, de_encode(unknown, "a", 1, text, 8, &size));
    is("unknown", DE_UNKNOWN_ENCODING, de_decode_len(unknown, 1, &size));
    is("unknown", DE_UNKNOWN_ENCODING, de_decode(unknown, "a", 1, data, 8, &decoded));
    is("unknown", DE_UNKNOWN_ENCODING, de_is_canonical(unknown, &given));
    is("null", DE_NULL_POINTER, de_encode_len(DE_BASE64, 1, NULL));
    is("null", DE_NULL_POINTER, de_encode(DE_BASE64, NULL, 1, text, 8, &size));
    is("null", DE_NULL_POINTER, de_encode(DE_BASE64, "a", 1, NULL, 8, &size));
    is("null", DE_NULL_POINTER, de_encode(DE_BASE64, "a", 1, text, 8, NULL));
    is("null", DE_NULL_POINTER, de_decode_len(DE_BASE64, 1, NULL));
    is("null", DE_NULL_POINTER, de_decode(DE_BASE64, NULL, 1, data, 8, &decoded));
    is("null", DE_NULL_POINTER, de_decode(DE_BASE64, "a", 1, NULL, 8, &decoded));
    is("null", DE_NULL_POINTER, de_decode(DE_BASE64, "a", 1, data, 8, NULL));
    is("null", DE_NULL_POINTER, de_is_canonical(DE_BASE64, NULL));
    is("too long", DE_TOO_LONG, de_encode_len(DE_BASE64, DE_ENCODE_LIMIT + 1, &size));
    is("too long", DE_TOO_LONG, de_encode(DE_BASE64, far, DE_ENCODE_LIMIT + 1, text, 8, &size));
    is("too long", DE_TOO_LONG, de_decode_len(DE_BASE64, DE_DECODE_LIMIT + 1, &size));
    is("too long", DE_TOO_LONG,
       de_decode(DE_BASE64, far, DE_DECODE_LIMIT + 1, data, 8, &decoded));
    is("short", DE_SHORT_BUFFER, de_encode(DE_BASE64, "foobarf", 7, text, 8, &size));
    holds("nothing is changed", memcmp(text, "untold!", 8) == 0 && size == 77 && given);
    holds("nothing is changed", memcmp(data, "untold!", 8) == 0 && decoded.read == 77 &&
                                    decoded.written == 78 && decoded.position == 79);
    is("short", DE_SHORT_BUFFER, de_decode(DE_BASE64, "Zm9v", 4, data, 2, &decoded));
    holds("what is needed",
          decoded.read == 0 && decoded.written == 3 && decoded.position == 0);

    is("the limit", DE_OK, de_encode_len(DE_HEXLOWER, DE_ENCODE_LIMIT, &size));
    is("the limit", 2 * DE_ENCODE_LIMIT, size);
    is("the limit", DE_OK, de_decode_len(DE_HEXLOWER, DE_DECODE_LIMIT - 1, &size));
    is("no bytes at null", DE_OK, de_encode(DE_BASE64, NULL, 0, NULL, 0, &size));
    is("no bytes at null", 0, size);
    is("no text at null", DE_OK, de_decode(DE_BASE64, NULL, 0, NULL, 0, &decoded));
    is("no text at null", 0, decoded.written);
    is("a length of no text", DE_INVALID_LENGTH, de_decode_len(DE_BASE64, 7, &size));
    is("a length of no text", 4, size);
    is("a length of no text", DE_INVALID_LENGTH,
       de_decode(DE_BASE64, "Zm9vYmF", 7, data, 0, &decoded));
    holds("a length of no text",
          decoded.read == 0 && decoded.written == 0 && decoded.position == 4);
    is("trailing bits", DE_INVALID_TRAILING_BITS,
       de_decode(DE_BASE64, "Zm9vZh==", 8, data, 8, &decoded));
    holds("trailing bits",
          decoded.read == 4 && decoded.written == 3 && decoded.position == 5);
    is("padding", DE_INVALID_PADDING, de_decode(DE_BASE64, "Zm9vZ===", 8, data, 8, &decoded));
    is("padding", 5, decoded.position);
}

static de_status made(const de_specification *asked, size_t *detail) {
    de_encoding encoding;
    de_status status;
    memset(&encoding, 0xa5, sizeof encoding);
    status = de_encoding_new(&encoding, asked, detail);
    if (status != DE_OK) {
        holds("nothing is made", encoding.made[0] == 0xa5 && encoding.tables[0] == 0xa5 &&
                                     encoding.tables[DE_TABLES - 1] == 0xa5);
    }
    return status;
}

static void refusals(void) {
    de_specification asked = DE_SPECIFICATION;
    size_t detail = 77;
    is("no symbols", DE_SYMBOL_COUNT, made(&asked, &detail));
    asked.symbols_len = 1;
    is("null symbols", DE_NULL_POINTER, made(&asked, &detail));
    asked.symbols = "01";
    is("one symbol", DE_OK, (asked.symbols_len = 2, made(&asked, NULL)));
    asked.symbols = "0\xc3";
    is("no UTF-8", DE_NOT_ASCII, made(&asked, &detail));
    asked.symbols_len = 1;
    is("the number of symbols first", DE_SYMBOL_COUNT, made(&asked, &detail));
    asked.symbols_len = 2;
    asked.symbols = "\xc3\xa9";
    is("two bytes of one character", DE_NOT_ASCII, made(&asked, &detail));
    is("no detail", 77, detail);
    asked.symbols = "\n\n";
    is("twice", DE_DUPLICATE, made(&asked, &detail));
    is("twice", '\n', detail);
    asked.symbols = "''";
    is("twice", DE_DUPLICATE, made(&asked, &detail));
    is("twice", '\'', detail);
    asked.symbols = "\x7f\x7f";
    is("twice", DE_DUPLICATE, made(&asked, &detail));
    is("twice", 127, detail);
    asked.symbols = "\x01\x01";
    is("twice", DE_DUPLICATE, made(&asked, NULL));
    is("twice", DE_DUPLICATE, made(&asked, &detail));
    is("twice", 1, detail);
    asked.symbols = "01";
    asked.padding = '=';
    is("padding of bits", DE_EXTRA_PADDING, made(&asked, &detail));
    asked.symbols = "01234567";
    asked.symbols_len = 8;
    is("padding of octal", DE_OK, made(&asked, &detail));
    asked.padding = 200;
    is("padding from 128 on", DE_NOT_ASCII, made(&asked, &detail));
    asked.padding = 1024;
    is("padding over 255", DE_NOT_ASCII, made(&asked, &detail));
    asked.padding = -1;
    asked.wrap_width = 256;
    asked.wrap_separator = "\n";
    asked.wrap_separator_len = 1;
    is("long lines", DE_WRAP_LENGTH, made(&asked, &detail));
    asked.wrap_width = 12;
    is("broken lines", DE_WRAP_WIDTH, made(&asked, &detail));
    is("broken lines", 8, detail);
    asked.wrap_width = 16;
    is("lines", DE_OK, made(&asked, &detail));
    asked.translate_from = "ab";
    asked.translate_from_len = 2;
    asked.translate_to = "1";
    asked.translate_to_len = 1;
    is("unequal", DE_TRANSLATE_LENGTH, made(&asked, &detail));
    asked.translate_to = "1z";
    asked.translate_to_len = 2;
    is("undefined", DE_UNDEFINED, made(&asked, &detail));
    is("undefined", 'z', detail);
    asked.translate_to = "17";
    is("translated", DE_OK, made(&asked, &detail));
    is("null", DE_NULL_POINTER, made(NULL, &detail));
    is("null", DE_NULL_POINTER, de_encoding_new(NULL, &asked, &detail));
}

static void own(void) {
    de_specification asked = DE_SPECIFICATION;
    de_encoding encoding;
    de_encoding copy;
    char text[16];
    unsigned char data[16];
    size_t size = 0;
    bool given = true;
    de_decoded decoded = {0, 0, 0};
    asked.symbols = "01234567";
    asked.symbols_len = 8;
    asked.padding = '=';
    asked.ignore = " ";
    asked.ignore_len = 1;
    is("octal", DE_OK, de_encoding_new(&encoding, &asked, NULL));
    copy = encoding;
    is("octal", DE_OK, de_encoding_encode_len(&copy, 1, &size));
    is("octal", 8, size);
    is("octal", DE_OK, de_encoding_encode(&copy, "\xff", 1, text, sizeof text, &size));
    holds("octal", size == 8 && memcmp(text, "776=====", 8) == 0);
    is("octal", DE_OK, de_encoding_decode_len(&copy, 9, &size));
    is("octal", 3, size);
    is("octal", DE_OK, de_encoding_decode(&copy, "7 76=====", 9, data, size, &decoded));
    holds("octal", decoded.written == 1 && data[0] == 0xff);
    is("octal", DE_OK, de_encoding_is_canonical(&copy, &given));
    is("octal", 0, given);
    memset(&copy, 0, sizeof copy);
    is("not made", DE_NO_ENCODING, de_encoding_encode_len(&copy, 1, &size));
    is("not made", DE_NO_ENCODING, de_encoding_decode_len(&copy, 1, &size));
    is("not made", DE_NO_ENCODING, de_encoding_decode(&copy, "7", 1, data, 16, &decoded));
    is("not made", DE_NO_ENCODING, de_encoding_is_canonical(&copy, &given));
    is("not made", DE_NO_ENCODING, de_encoding_encode(&copy, "a", 1, text, 16, &size));
    is("not made", DE_NO_ENCODING, de_encoding_layout(&copy, text, 16, &size));
    is("null", DE_NULL_POINTER, de_encoding_encode_len(NULL, 1, &size));
    is("null", DE_NULL_POINTER, de_encoding_encode(NULL, "a", 1, text, 16, &size));
    is("null", DE_NULL_POINTER, de_encoding_decode_len(NULL, 1, &size));
    is("null", DE_NULL_POINTER, de_encoding_decode(NULL, "7", 1, data, 16, &decoded));
    is("null", DE_NULL_POINTER, de_encoding_is_canonical(NULL, &given));
    is("null", DE_NULL_POINTER, de_encoding_encode(&encoding, NULL, 1, text, 16, &size));
    is("null", DE_NULL_POINTER, de_encoding_decode(&encoding, NULL, 1, data, 16, &decoded));
    is("no bytes at null", DE_OK, de_encoding_encode(&encoding, NULL, 0, NULL, 0, &size));
}

/* Base64 without concatenated texts, as docs/C.md describes it. */
static void one_text(void) {
    de_specification asked;
    de_encoding encoding;
    char texts[DE_TEXTS_LIMIT];
    unsigned char data[8];
    de_decoded decoded = {0, 0, 0};
    is("base64", DE_OK, de_specification_of(DE_BASE64, &asked, texts, sizeof texts));
    asked.concatenate = false;
    is("one text", DE_OK, de_encoding_new(&encoding, &asked, NULL));
    is("two texts", DE_OK, de_decode(DE_BASE64, "AA==AAA=", 8, data, sizeof data, &decoded));
    is("two texts", 3, decoded.written);
    is("not one text", DE_INVALID_PADDING,
       de_encoding_decode(&encoding, "AA==AAA=", 8, data, sizeof data, &decoded));
    is("not one text", 4, decoded.position);
    is("trailing bits", DE_INVALID_TRAILING_BITS,
       de_encoding_decode(&encoding, "SGl=", 4, data, sizeof data, &decoded));
    is("trailing bits", 2, decoded.position);
    is("one text", DE_OK, de_encoding_decode(&encoding, "SGk=", 4, data, sizeof data, &decoded));
    holds("one text", decoded.written == 2 && memcmp(data, "Hi", 2) == 0);
}

/* A de_encoding is refused where any byte of its mark is another, and where all its bytes are the
 * same. */
static void unmade(void) {
    de_specification asked = DE_SPECIFICATION;
    de_encoding encoding;
    de_encoding copy;
    size_t size = 77;
    size_t index;
    int byte;
    asked.symbols = "01";
    asked.symbols_len = 2;
    is("bits", DE_OK, de_encoding_new(&encoding, &asked, NULL));
    is("bytes of the mark", 8, sizeof encoding.made);
    for (index = 0; index < sizeof encoding.made; index++) {
        copy = encoding;
        copy.made[index] ^= 1;
        is("another mark", DE_NO_ENCODING, de_encoding_encode_len(&copy, 1, &size));
    }
    for (byte = 0; byte < 256; byte++) {
        memset(&copy, byte, sizeof copy);
        is("one byte", DE_NO_ENCODING, de_encoding_encode_len(&copy, 1, &size));
    }
    is("nothing is changed", 77, size);
    is("bits", DE_OK, de_encoding_encode_len(&encoding, 1, &size));
    is("bits", 8, size);
}

/* What a layout is read as has this layout again, and encodes alike; a layout of which one byte is
 * changed is refused, or is that of another encoding. */
static void layouts(const de_specification *asked) {
    unsigned char layout[DE_LAYOUT_LIMIT + 1];
    unsigned char again[DE_LAYOUT_LIMIT];
    char text[64];
    char other[64];
    de_encoding encoding;
    de_encoding copy;
    size_t len = 77;
    size_t size = 77;
    size_t index;
    is("made", DE_OK, de_encoding_new(&encoding, asked, NULL));
    memset(layout, 0xa5, sizeof layout);
    is("short", DE_SHORT_BUFFER, de_encoding_layout(&encoding, layout, 513, &len));
    is("no room at null", DE_SHORT_BUFFER, de_encoding_layout(&encoding, NULL, 0, &len));
    holds("nothing is changed", len == 77 && layout[0] == 0xa5);
    is("a layout", DE_OK, de_encoding_layout(&encoding, layout, DE_LAYOUT_LIMIT, &len));
    holds("a layout", len >= 514 && len <= DE_LAYOUT_LIMIT && layout[len] == 0xa5);
    is("read", DE_OK, de_encoding_read(&copy, layout, len));
    is("again", DE_OK, de_encoding_layout(&copy, again, len, &size));
    holds("again", size == len && memcmp(layout, again, len) == 0);
    is("alike", DE_OK, de_encoding_encode(&encoding, "foobar", 6, text, sizeof text, &size));
    is("alike", DE_OK, de_encoding_encode(&copy, "foobar", 6, other, sizeof other, &len));
    holds("alike", size == len && memcmp(text, other, size) == 0);
    is("a layout", DE_OK, de_encoding_layout(&encoding, layout, DE_LAYOUT_LIMIT, &len));
    is("too few", DE_NO_ENCODING, de_encoding_read(&copy, layout, 513));
    is("none", DE_NO_ENCODING, de_encoding_read(&copy, NULL, 0));
    for (index = 0; index < len; index++) {
        unsigned char was = layout[index];
        layout[index] ^= 1;
        if (de_encoding_read(&copy, layout, len) == DE_OK) {
            is("another", DE_OK, de_encoding_layout(&copy, again, sizeof again, &size));
            holds("another", size == len && memcmp(layout, again, len) == 0);
        } else {
            is("unchanged", DE_OK, de_encoding_encode_len(&copy, 1, &size));
        }
        layout[index] = was;
    }
    is("null", DE_NULL_POINTER, de_encoding_read(NULL, layout, len));
    is("null", DE_NULL_POINTER, de_encoding_read(&copy, NULL, 1));
    is("null", DE_NULL_POINTER, de_encoding_layout(NULL, layout, len, &size));
    is("null", DE_NULL_POINTER, de_encoding_layout(&encoding, NULL, 1, &size));
    is("null", DE_NULL_POINTER, de_encoding_layout(&encoding, layout, len, NULL));
}

static void stored(void) {
    de_specification asked = DE_SPECIFICATION;
    asked.symbols = "ABCDEFGHIJKLMNOPQRSTUVWXYZabcdefghijklmnopqrstuvwxyz0123456789+/";
    asked.symbols_len = 64;
    layouts(&asked);
    asked.padding = '=';
    asked.concatenate = false;
    asked.check_trailing_bits = false;
    asked.wrap_separator = "\r\n";
    asked.wrap_separator_len = 2;
    asked.wrap_width = 76;
    layouts(&asked);
    asked.symbols = "0123456789abcdef";
    asked.symbols_len = 16;
    asked.padding = -1;
    asked.wrap_width = 0;
    asked.wrap_separator = "\xff";
    asked.wrap_separator_len = 1;
    asked.ignore = " -";
    asked.ignore_len = 2;
    asked.translate_from = "ABCDEF";
    asked.translate_from_len = 6;
    asked.translate_to = "abcdef";
    asked.translate_to_len = 6;
    asked.least_significant_first = true;
    layouts(&asked);
}

int main(void) {
    numbers();
    canonical();
    named();
    sizes();
    no_names();
    statuses();
    refusals();
    own();
    one_text();
    unmade();
    stored();
    holds("the version", strcmp(de_version(), DE_VERSION) == 0);
    holds("a text", strcmp(de_status_text(DE_INVALID_SYMBOL), "invalid symbol") == 0);
    holds("a text", strcmp(de_status_text(DE_NO_ENCODING), "no encoding") == 0);
    holds("a text", strcmp(de_status_text((de_status)99), "unknown status") == 0);
    printf("%d passed, %d failed\n", passed, failed);
    return failed == 0 ? EXIT_SUCCESS : EXIT_FAILURE;
}
