/* Specifications and layouts: what is refused, and the encodings of the others. */
#include "fuzz.h"

static unsigned char *input;
static unsigned char *other_input;
static struct output output;
static struct output again;

/* Some bytes of the input as a text of a specification. */
static size_t some_text(struct words *words, size_t limit, const char **text) {
    size_t len = next(words) % (limit + 1);
    len = len < words->left ? len : words->left;
    *text = (const char *)words->at;
    words->at += len;
    words->left -= len;
    return len;
}

/* A specification, most of which are valid: symbols of a power of two in a turned order. */
static de_specification some_specification(struct words *words, char *symbols) {
    static const char ascii[] = "ABCDEFGHIJKLMNOPQRSTUVWXYZabcdefghijklmnopqrstuvwxyz0123456789+/";
    de_specification asked = DE_SPECIFICATION;
    unsigned flags = next(words);
    unsigned start = next(words);
    size_t index;
    asked.symbols = symbols;
    asked.symbols_len = (size_t)1 << (1 + flags % 6);
    for (index = 0; index < asked.symbols_len; index++) {
        symbols[index] = ascii[(start + index) % 64];
    }
    if (start == 255) {
        asked.symbols_len = some_text(words, 70, &asked.symbols);
    }
    asked.least_significant_first = (flags & 8) != 0;
    asked.check_trailing_bits = (flags & 16) != 0;
    asked.concatenate = (flags & 32) != 0;
    asked.padding = (flags & 64) != 0 ? (int)next(words) - 60 : -1;
    if ((flags & 128) != 0) {
        asked.ignore_len = some_text(words, 20, &asked.ignore);
        asked.wrap_separator_len = some_text(words, 3, &asked.wrap_separator);
        asked.wrap_width = next(words);
        asked.translate_from_len = some_text(words, 5, &asked.translate_from);
        asked.translate_to_len = some_text(words, 5, &asked.translate_to);
    }
    return asked;
}

/* The layout of an encoding, in `output`. */
static size_t layout_of(const de_encoding *encoding) {
    size_t len = 0;
    LAW("a layout", de_encoding_layout(encoding, fresh(&output, DE_LAYOUT_LIMIT), DE_LAYOUT_LIMIT,
                                       &len) == DE_OK);
    check_guards(&output, len);
    LAW("a layout in its length", len == 0 || de_encoding_layout(encoding, fresh(&again, len - 1),
                                                                 len - 1, &len) == DE_SHORT_BUFFER);
    check_guards(&again, 0);
    return len;
}

static bool same_tables(const de_encoding *one, const de_encoding *other) {
    return memcmp(one, other, sizeof *one) == 0;
}

/* An encoding is read from its layout, and is the encoding of the specification that it gives. */
static void check_encoding(const de_encoding *encoding) {
    de_encoding other;
    de_specification given;
    size_t len = layout_of(encoding);
    char *texts = (char *)fresh(&again, DE_TEXTS_LIMIT);
    size_t texts_len;
    memset(&other, 0, sizeof other);
    LAW("a layout is read",
        de_encoding_read(&other, copy_at_end(&other_input, output.memory + GUARD, len), len) ==
            DE_OK);
    LAW("the encoding of the layout", same_tables(encoding, &other));
    LAW("a specification",
        de_encoding_specification(encoding, &given, texts, DE_TEXTS_LIMIT) == DE_OK);
    texts_len = given.symbols_len + given.ignore_len + given.wrap_separator_len +
                given.translate_from_len + given.translate_to_len;
    check_guards(&again, texts_len);
    LAW("the texts one after another",
        given.symbols == texts && given.translate_to + given.translate_to_len == texts + texts_len);
    memset(&other, 0, sizeof other);
    LAW("the encoding of the specification",
        de_encoding_new(&other, &given, NULL) == DE_OK && same_tables(encoding, &other));
    LAW("texts in a shorter room",
        de_encoding_specification(encoding, &given, (char *)fresh(&again, texts_len - 1),
                                  texts_len - 1) == DE_SHORT_BUFFER);
    check_guards(&again, 0);
}

/* Data becomes a text, and is the data of it, by either build. */
static void check_data(const de_encoding *encoding, const uint8_t *bytes, size_t len) {
    struct by by = {true, 0, *encoding};
    size_t text_len = 0;
    int which;
    const void *data = copy_at_end(&input, bytes, len);
    LAW("the length of a text", encode_len(&by, len, &text_len) == DE_OK);
    for (which = 0; which < 2; which++) {
        de_decoded decoded;
        const void *text;
        size_t written = 0;
        LAW("a text", encode(&builds[which], &by, data, len, fresh(&output, text_len), text_len,
                             &written) == DE_OK &&
                          written == text_len);
        check_guards(&output, text_len);
        text = copy_at_end(&other_input, output.memory + GUARD, text_len);
        LAW("round trip", decode(&builds[1 - which], &by, text, text_len, fresh(&again, len), len,
                                 &decoded) == DE_OK &&
                              decoded.written == len && decoded.read == text_len &&
                              (len == 0 || memcmp(again.memory + GUARD, bytes, len) == 0));
        check_guards(&again, len);
    }
}

static void check_specification(struct words *words) {
    static de_encoding encoding;
    de_encoding before;
    char symbols[64];
    de_specification asked = some_specification(words, symbols);
    size_t detail = 777;
    de_status status;
    memset(&encoding, FILL, sizeof encoding);
    before = encoding;
    status = de_encoding_new(&encoding, &asked, &detail);
    if (status == DE_OK) {
        LAW("no detail", detail == 777);
        check_encoding(&encoding);
        check_data(&encoding, words->at, words->left < 600 ? words->left : 600);
        return;
    }
    LAW("a refusal", status >= DE_SYMBOL_COUNT && status <= DE_UNDEFINED);
    LAW("a refused specification changes nothing", same_tables(&encoding, &before));
    LAW("the detail", (detail == 777) == (status != DE_DUPLICATE && status != DE_WRAP_WIDTH &&
                                          status != DE_UNDEFINED));
}

/* Any bytes are a layout, of which they are the layout again, or refused. */
static void check_layout(const uint8_t *bytes, size_t len) {
    static de_encoding encoding;
    de_encoding before;
    de_status status;
    memset(&encoding, FILL, sizeof encoding);
    before = encoding;
    status = de_encoding_read(&encoding, copy_at_end(&input, bytes, len), len);
    if (status == DE_OK) {
        LAW("the layout of what was read",
            layout_of(&encoding) == len && memcmp(output.memory + GUARD, bytes, len) == 0);
        check_encoding(&encoding);
        check_data(&encoding, bytes, len);
        return;
    }
    LAW("bytes that are no layout", status == DE_NO_ENCODING);
    LAW("refused bytes change nothing", same_tables(&encoding, &before));
}

int LLVMFuzzerTestOneInput(const uint8_t *bytes, size_t len) {
    struct words words = {bytes, len};
    if (len > 4096) {
        return 0;
    }
    if (next(&words) % 2 == 0) {
        check_specification(&words);
    } else {
        check_layout(words.at, words.left);
    }
    return 0;
}
