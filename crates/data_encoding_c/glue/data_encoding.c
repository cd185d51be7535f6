/* The calls of data_encoding.h, on top of the proved ones, which take no null pointers. */

/* Without this, a compiler could assume that pointers are not null, and remove the tests. */
#define DE_NONNULL(...)
#include "data_encoding.h"

#ifdef __x86_64__
#include <cpuid.h>
#endif
#ifdef DE_WIDE
#include <stdlib.h>
#endif
#include <string.h>

typedef unsigned char byte;

struct form {
    size_t wrap_width;
    byte padding;
    bool has_padding;
    bool least_significant_first;
    bool check_trailing_bits;
    bool concatenate;
};

de_status de_numbered_encode_len(de_number number, size_t len, size_t *text_len);
de_status de_numbered_decode_len(de_number number, size_t len, size_t *most);
de_status de_numbered_is_canonical(de_number number, bool *answer);
de_status de_numbered_name(de_number number, byte *output, size_t output_len, size_t *written);
de_status de_named_number(const byte *name, size_t name_len, de_number *number);

/* The result of a call that makes an encoding. */
struct made {
    de_status status;
    size_t detail;
    byte held[DE_TABLES];
};

struct made de_custom_new(const struct form *form, const byte *symbols, size_t symbols_len,
                        const byte *ignore, size_t ignore_len, const byte *separator,
                        size_t separator_len, const byte *from, size_t from_len, const byte *to,
                        size_t to_len);
struct made de_custom_read(const byte *bytes, size_t bytes_len);
de_status de_custom_layout(const byte *held, byte *output, size_t output_len, size_t *written);
de_status de_custom_encode_len(const byte *held, size_t len, size_t *text_len);
de_status de_custom_decode_len(const byte *held, size_t len, size_t *most);
de_status de_custom_is_canonical(const byte *held, bool *answer);
void de_plain_decoder_new(de_decoder *decoder);
de_status de_numbered_decoder_most(de_number number, const de_decoder *decoder, size_t len,
                                   size_t *most);
de_status de_numbered_decoder_finish(de_number number, const de_decoder *decoder, byte *output,
                                     size_t output_len, de_decoded *decoded);
de_status de_custom_decoder_most(const byte *held, const de_decoder *decoder, size_t len,
                               size_t *most);
de_status de_custom_decoder_finish(const byte *held, const de_decoder *decoder, byte *output,
                                 size_t output_len, de_decoded *decoded);

/* The numbers of a specification that is returned, and the lengths of its texts, which are one
 * after another. */
struct text_lengths {
    size_t symbols;
    size_t ignore;
    size_t separator;
    size_t translate_from;
    size_t translate_to;
};

de_status de_numbered_encode_align(de_number number, size_t *align);
de_status de_numbered_bit_width(de_number number, size_t *width);
de_status de_numbered_specification(de_number number, struct form *form,
                                    struct text_lengths *lengths, byte *texts, size_t texts_len);
de_status de_custom_encode_align(const byte *held, size_t *align);
de_status de_custom_bit_width(const byte *held, size_t *width);
de_status de_custom_specification(const byte *held, struct form *form, struct text_lengths *lengths,
                                byte *texts, size_t texts_len);
void de_plain_encoder_new(de_encoder *encoder);
de_status de_numbered_encoder_most(de_number number, const de_encoder *encoder, size_t len,
                                   size_t *most);
de_status de_numbered_encoder_finish(de_number number, const de_encoder *encoder, byte *output,
                                     size_t output_len, size_t *written);
de_status de_custom_encoder_most(const byte *held, const de_encoder *encoder, size_t len,
                               size_t *most);
de_status de_custom_encoder_finish(const byte *held, const de_encoder *encoder, byte *output,
                                 size_t output_len, size_t *written);

#define CALL(name) de_##name
#include "bytes.h"
#undef CALL

#ifdef DE_WIDE
/* The same calls, built for x86-64-v3. */
#define CALL(name) de_wide_##name
#include "bytes.h"
#undef CALL

/* True if they run on this processor, and DE_CPU does not ask for the others. */
static bool is_wide;

/* The least length in bytes from which they take less time. */
enum { WIDE_FROM = 64 };

#define BY_PROCESSOR(name, len, arguments)                                                         \
    (is_wide && (len) >= WIDE_FROM ? de_wide_##name arguments : de_##name arguments)

/* Returns true if the processor has x86-64-v3, and the system saves the wide registers. */
static bool has_wide(void) {
    unsigned a, b, c = 0, d, more = 0;
    __builtin_cpu_init();
    if (!__get_cpuid(1, &a, &b, &c, &d) || !__get_cpuid(0x80000001, &a, &b, &more, &d)) {
        return false;
    }
    return (c & bit_MOVBE) != 0 && (c & bit_F16C) != 0 && (more & bit_LZCNT) != 0 &&
           __builtin_cpu_supports("avx2") && __builtin_cpu_supports("fma") &&
           __builtin_cpu_supports("bmi") && __builtin_cpu_supports("bmi2");
}

__attribute__((constructor)) static void choose(void) {
    const char *asked = getenv("DE_CPU");
    is_wide = (asked == NULL || strcmp(asked, "baseline") != 0) && has_wide();
}
#else
#define BY_PROCESSOR(name, len, arguments) de_##name arguments
#endif

/* The mark of a de_encoding that was made: eight bytes without a pattern. */
static const byte made_mark[8] = {0xde, 0x3b, 0x92, 0x67, 0xf4, 0x0d, 0xa8, 0x51};

/* Where no bytes are read from, and written to. */
static const byte no_bytes[1];
static byte no_room[1];

/* The bytes to read: none for a null pointer of length 0, or NULL if they are missing. */
static const byte *in(const void *bytes, size_t len) {
    if (bytes != NULL) {
        return (const byte *)bytes;
    }
    return len == 0 ? no_bytes : NULL;
}

/* The same for bytes to write to. */
static byte *out(void *bytes, size_t len) {
    if (bytes != NULL) {
        return (byte *)bytes;
    }
    return len == 0 ? no_room : NULL;
}

/* Returns true if the bytes to read and those to write have one in common. An input that is too long
 * is left to the call. */
static bool overlap(const byte *from, size_t from_len, const byte *to, size_t to_len) {
    uintptr_t input = (uintptr_t)from;
    uintptr_t output = (uintptr_t)to;
    if (from_len == 0 || from_len > DE_ENCODE_LIMIT || to_len == 0) {
        return false;
    }
    return input <= output ? output - input < from_len : input - output < to_len;
}

static bool is_held(const de_encoding *encoding) {
    return memcmp(encoding->made, made_mark, sizeof made_mark) == 0;
}

/* Stores an encoding, if one was made. */
static de_status stored(de_encoding *encoding, const struct made *made) {
    if (made->status == DE_OK) {
        memcpy(encoding->made, made_mark, sizeof made_mark);
        memcpy(encoding->tables, made->held, sizeof encoding->tables);
    }
    return made->status;
}

const char *de_version(void) {
    return DE_VERSION;
}

#ifdef __x86_64__
/* What x86-64-v2 adds, as the processor reports it. */
enum { V2 = bit_SSE3 | bit_SSSE3 | bit_CMPXCHG16B | bit_SSE4_1 | bit_SSE4_2 | bit_POPCNT };

bool de_is_supported(void) {
    unsigned a, b, c = 0, d;
    return __get_cpuid(1, &a, &b, &c, &d) != 0 && (c & V2) == V2;
}
#else
bool de_is_supported(void) {
    return true;
}
#endif

const char *de_status_text(de_status status) {
    static const char *const texts[] = {
        "no fault",
        "unknown encoding",
        "null pointer",
        "too long",
        "output too short",
        "the output overlaps the input",
        "invalid length",
        "invalid symbol",
        "non-zero trailing bits",
        "invalid padding length",
        "invalid number of symbols",
        "non-ascii character",
        "conflicting definitions of a character",
        "unnecessary padding",
        "invalid wrap width or separator length",
        "wrap width not a multiple of a group",
        "translate from/to length mismatch",
        "undefined character",
        "no encoding",
        "no decoder",
        "no encoder",
    };
    return status < sizeof texts / sizeof *texts ? texts[status] : "unknown status";
}

de_status de_encode_len(de_number number, size_t len, size_t *text_len) {
    if (text_len == NULL) {
        return DE_NULL_POINTER;
    }
    return de_numbered_encode_len(number, len, text_len);
}

de_status de_encode(de_number number, const void *input, size_t input_len, char *output,
                    size_t output_len, size_t *written) {
    const byte *from = in(input, input_len);
    byte *to = out(output, output_len);
    if (from == NULL || to == NULL || written == NULL) {
        return DE_NULL_POINTER;
    }
    if (overlap(from, input_len, to, output_len)) {
        return DE_OVERLAP;
    }
    return BY_PROCESSOR(numbered_encode, input_len,
                        (number, from, input_len, to, output_len, written));
}

de_status de_decode_len(de_number number, size_t len, size_t *most) {
    if (most == NULL) {
        return DE_NULL_POINTER;
    }
    return de_numbered_decode_len(number, len, most);
}

de_status de_decode(de_number number, const char *input, size_t input_len, void *output,
                    size_t output_len, de_decoded *decoded) {
    const byte *from = in(input, input_len);
    byte *to = out(output, output_len);
    if (from == NULL || to == NULL || decoded == NULL) {
        return DE_NULL_POINTER;
    }
    if (overlap(from, input_len, to, output_len)) {
        return DE_OVERLAP;
    }
    return BY_PROCESSOR(numbered_decode, input_len,
                        (number, from, input_len, to, output_len, decoded));
}

/* A caller's bool may be invalid before the call: the answer is written to another one first. */
de_status de_is_canonical(de_number number, bool *canonical) {
    bool answer = false;
    de_status status;
    if (canonical == NULL) {
        return DE_NULL_POINTER;
    }
    status = de_numbered_is_canonical(number, &answer);
    if (status == DE_OK) {
        *canonical = answer;
    }
    return status;
}

de_status de_name(de_number number, char *output, size_t output_len, size_t *written) {
    byte *to = out(output, output_len);
    if (to == NULL || written == NULL) {
        return DE_NULL_POINTER;
    }
    return de_numbered_name(number, to, output_len, written);
}

de_status de_number_named(const char *name, size_t name_len, de_number *number) {
    const byte *from = in(name, name_len);
    de_number found = 0;
    de_status status;
    if (from == NULL || number == NULL) {
        return DE_NULL_POINTER;
    }
    /* No name is longer: such a one need not be read, however long it is said to be. */
    if (name_len > DE_NAME_LIMIT) {
        return DE_UNKNOWN_ENCODING;
    }
    status = de_named_number(from, name_len, &found);
    if (status == DE_OK) {
        *number = found;
    }
    return status;
}

de_status de_encoding_new(de_encoding *encoding, const de_specification *asked, size_t *detail) {
    const byte *symbols;
    const byte *ignore;
    const byte *separator;
    const byte *from;
    const byte *to;
    struct form form;
    struct made made;
    if (encoding == NULL || asked == NULL) {
        return DE_NULL_POINTER;
    }
    symbols = in(asked->symbols, asked->symbols_len);
    ignore = in(asked->ignore, asked->ignore_len);
    separator = in(asked->wrap_separator, asked->wrap_separator_len);
    from = in(asked->translate_from, asked->translate_from_len);
    to = in(asked->translate_to, asked->translate_to_len);
    if (symbols == NULL || ignore == NULL || separator == NULL || from == NULL || to == NULL) {
        return DE_NULL_POINTER;
    }
    form.wrap_width = asked->wrap_width;
    form.has_padding = asked->padding >= 0;
    /* No character from 128 on is ASCII. */
    form.padding = (byte)(asked->padding < 0 ? 0 : asked->padding < 128 ? asked->padding : 128);
    form.least_significant_first = asked->least_significant_first;
    form.check_trailing_bits = asked->check_trailing_bits;
    form.concatenate = asked->concatenate;
    made = de_custom_new(&form, symbols, asked->symbols_len, ignore, asked->ignore_len, separator,
                       asked->wrap_separator_len, from, asked->translate_from_len, to,
                       asked->translate_to_len);
    if (detail != NULL && (made.status == DE_DUPLICATE || made.status == DE_WRAP_WIDTH ||
                           made.status == DE_UNDEFINED)) {
        *detail = made.detail;
    }
    return stored(encoding, &made);
}

de_status de_encoding_layout(const de_encoding *encoding, void *output, size_t output_len,
                             size_t *written) {
    byte *to = out(output, output_len);
    if (encoding == NULL || to == NULL || written == NULL) {
        return DE_NULL_POINTER;
    }
    if (!is_held(encoding)) {
        return DE_NO_ENCODING;
    }
    return de_custom_layout(encoding->tables, to, output_len, written);
}

de_status de_encoding_read(de_encoding *encoding, const void *layout, size_t len) {
    const byte *from = in(layout, len);
    struct made made;
    if (encoding == NULL || from == NULL) {
        return DE_NULL_POINTER;
    }
    made = de_custom_read(from, len);
    return stored(encoding, &made);
}

de_status de_encoding_encode_len(const de_encoding *encoding, size_t len, size_t *text_len) {
    if (encoding == NULL || text_len == NULL) {
        return DE_NULL_POINTER;
    }
    if (!is_held(encoding)) {
        return DE_NO_ENCODING;
    }
    return de_custom_encode_len(encoding->tables, len, text_len);
}

de_status de_encoding_encode(const de_encoding *encoding, const void *input, size_t input_len,
                             char *output, size_t output_len, size_t *written) {
    const byte *from = in(input, input_len);
    byte *to = out(output, output_len);
    if (encoding == NULL || from == NULL || to == NULL || written == NULL) {
        return DE_NULL_POINTER;
    }
    if (!is_held(encoding)) {
        return DE_NO_ENCODING;
    }
    if (overlap(from, input_len, to, output_len)) {
        return DE_OVERLAP;
    }
    return BY_PROCESSOR(custom_encode, input_len,
                        (encoding->tables, from, input_len, to, output_len, written));
}

de_status de_encoding_decode_len(const de_encoding *encoding, size_t len, size_t *most) {
    if (encoding == NULL || most == NULL) {
        return DE_NULL_POINTER;
    }
    if (!is_held(encoding)) {
        return DE_NO_ENCODING;
    }
    return de_custom_decode_len(encoding->tables, len, most);
}

de_status de_encoding_decode(const de_encoding *encoding, const char *input, size_t input_len,
                             void *output, size_t output_len, de_decoded *decoded) {
    const byte *from = in(input, input_len);
    byte *to = out(output, output_len);
    if (encoding == NULL || from == NULL || to == NULL || decoded == NULL) {
        return DE_NULL_POINTER;
    }
    if (!is_held(encoding)) {
        return DE_NO_ENCODING;
    }
    if (overlap(from, input_len, to, output_len)) {
        return DE_OVERLAP;
    }
    return BY_PROCESSOR(custom_decode, input_len,
                        (encoding->tables, from, input_len, to, output_len, decoded));
}

de_status de_encoding_is_canonical(const de_encoding *encoding, bool *canonical) {
    bool answer = false;
    de_status status;
    if (encoding == NULL || canonical == NULL) {
        return DE_NULL_POINTER;
    }
    if (!is_held(encoding)) {
        return DE_NO_ENCODING;
    }
    status = de_custom_is_canonical(encoding->tables, &answer);
    if (status == DE_OK) {
        *canonical = answer;
    }
    return status;
}

de_status de_decoder_new(de_decoder *decoder) {
    if (decoder == NULL) {
        return DE_NULL_POINTER;
    }
    de_plain_decoder_new(decoder);
    return DE_OK;
}

de_status de_decoder_most(de_number number, const de_decoder *decoder, size_t len, size_t *most) {
    if (decoder == NULL || most == NULL) {
        return DE_NULL_POINTER;
    }
    return de_numbered_decoder_most(number, decoder, len, most);
}

de_status de_decoder_read(de_number number, de_decoder *decoder, const char *input,
                          size_t input_len, void *output, size_t output_len, size_t *written) {
    const byte *from = in(input, input_len);
    byte *to = out(output, output_len);
    if (decoder == NULL || from == NULL || to == NULL || written == NULL) {
        return DE_NULL_POINTER;
    }
    if (overlap(from, input_len, to, output_len)) {
        return DE_OVERLAP;
    }
    return BY_PROCESSOR(numbered_decoder_read, input_len,
                        (number, decoder, from, input_len, to, output_len, written));
}

de_status de_decoder_finish(de_number number, const de_decoder *decoder, void *output,
                            size_t output_len, de_decoded *decoded) {
    byte *to = out(output, output_len);
    if (decoder == NULL || to == NULL || decoded == NULL) {
        return DE_NULL_POINTER;
    }
    return de_numbered_decoder_finish(number, decoder, to, output_len, decoded);
}

de_status de_encoding_decoder_most(const de_encoding *encoding, const de_decoder *decoder,
                                   size_t len, size_t *most) {
    if (encoding == NULL || decoder == NULL || most == NULL) {
        return DE_NULL_POINTER;
    }
    if (!is_held(encoding)) {
        return DE_NO_ENCODING;
    }
    return de_custom_decoder_most(encoding->tables, decoder, len, most);
}

de_status de_encoding_decoder_read(const de_encoding *encoding, de_decoder *decoder,
                                   const char *input, size_t input_len, void *output,
                                   size_t output_len, size_t *written) {
    const byte *from = in(input, input_len);
    byte *to = out(output, output_len);
    if (encoding == NULL || decoder == NULL || from == NULL || to == NULL || written == NULL) {
        return DE_NULL_POINTER;
    }
    if (!is_held(encoding)) {
        return DE_NO_ENCODING;
    }
    if (overlap(from, input_len, to, output_len)) {
        return DE_OVERLAP;
    }
    return BY_PROCESSOR(custom_decoder_read, input_len,
                        (encoding->tables, decoder, from, input_len, to, output_len, written));
}

de_status de_encoding_decoder_finish(const de_encoding *encoding, const de_decoder *decoder,
                                     void *output, size_t output_len, de_decoded *decoded) {
    byte *to = out(output, output_len);
    if (encoding == NULL || decoder == NULL || to == NULL || decoded == NULL) {
        return DE_NULL_POINTER;
    }
    if (!is_held(encoding)) {
        return DE_NO_ENCODING;
    }
    return de_custom_decoder_finish(encoding->tables, decoder, to, output_len, decoded);
}

de_status de_encode_align(de_number number, size_t *align) {
    if (align == NULL) {
        return DE_NULL_POINTER;
    }
    return de_numbered_encode_align(number, align);
}

de_status de_bit_width(de_number number, size_t *width) {
    if (width == NULL) {
        return DE_NULL_POINTER;
    }
    return de_numbered_bit_width(number, width);
}

/* Fills in the specification that is returned, if there is one. Then `texts` is not null: there are
 * two symbols or more. */
static de_status given_back(de_status status, de_specification *given, const struct form *form,
                            const struct text_lengths *lengths, const char *texts) {
    if (status != DE_OK) {
        return status;
    }
    given->symbols = texts;
    given->symbols_len = lengths->symbols;
    given->ignore = given->symbols + given->symbols_len;
    given->ignore_len = lengths->ignore;
    given->wrap_separator = given->ignore + given->ignore_len;
    given->wrap_separator_len = lengths->separator;
    given->wrap_width = form->wrap_width;
    given->translate_from = given->wrap_separator + given->wrap_separator_len;
    given->translate_from_len = lengths->translate_from;
    given->translate_to = given->translate_from + given->translate_from_len;
    given->translate_to_len = lengths->translate_to;
    given->padding = form->has_padding ? form->padding : -1;
    given->least_significant_first = form->least_significant_first;
    given->check_trailing_bits = form->check_trailing_bits;
    given->concatenate = form->concatenate;
    return DE_OK;
}

de_status de_specification_of(de_number number, de_specification *specification, char *texts,
                              size_t texts_len) {
    byte *to = out(texts, texts_len);
    struct form form = {0, 0, false, false, false, false};
    struct text_lengths lengths = {0, 0, 0, 0, 0};
    de_status status;
    if (specification == NULL || to == NULL) {
        return DE_NULL_POINTER;
    }
    status = de_numbered_specification(number, &form, &lengths, to, texts_len);
    return given_back(status, specification, &form, &lengths, texts);
}

de_status de_encoding_specification(const de_encoding *encoding, de_specification *specification,
                                    char *texts, size_t texts_len) {
    byte *to = out(texts, texts_len);
    struct form form = {0, 0, false, false, false, false};
    struct text_lengths lengths = {0, 0, 0, 0, 0};
    de_status status;
    if (encoding == NULL || specification == NULL || to == NULL) {
        return DE_NULL_POINTER;
    }
    if (!is_held(encoding)) {
        return DE_NO_ENCODING;
    }
    status = de_custom_specification(encoding->tables, &form, &lengths, to, texts_len);
    return given_back(status, specification, &form, &lengths, texts);
}

de_status de_encoding_encode_align(const de_encoding *encoding, size_t *align) {
    if (encoding == NULL || align == NULL) {
        return DE_NULL_POINTER;
    }
    if (!is_held(encoding)) {
        return DE_NO_ENCODING;
    }
    return de_custom_encode_align(encoding->tables, align);
}

de_status de_encoding_bit_width(const de_encoding *encoding, size_t *width) {
    if (encoding == NULL || width == NULL) {
        return DE_NULL_POINTER;
    }
    if (!is_held(encoding)) {
        return DE_NO_ENCODING;
    }
    return de_custom_bit_width(encoding->tables, width);
}

de_status de_encoder_new(de_encoder *encoder) {
    if (encoder == NULL) {
        return DE_NULL_POINTER;
    }
    de_plain_encoder_new(encoder);
    return DE_OK;
}

de_status de_encoder_most(de_number number, const de_encoder *encoder, size_t len, size_t *most) {
    if (encoder == NULL || most == NULL) {
        return DE_NULL_POINTER;
    }
    return de_numbered_encoder_most(number, encoder, len, most);
}

de_status de_encoder_read(de_number number, de_encoder *encoder, const void *input,
                          size_t input_len, char *output, size_t output_len, size_t *written) {
    const byte *from = in(input, input_len);
    byte *to = out(output, output_len);
    if (encoder == NULL || from == NULL || to == NULL || written == NULL) {
        return DE_NULL_POINTER;
    }
    if (overlap(from, input_len, to, output_len)) {
        return DE_OVERLAP;
    }
    return BY_PROCESSOR(numbered_encoder_read, input_len,
                        (number, encoder, from, input_len, to, output_len, written));
}

de_status de_encoder_finish(de_number number, const de_encoder *encoder, char *output,
                            size_t output_len, size_t *written) {
    byte *to = out(output, output_len);
    if (encoder == NULL || to == NULL || written == NULL) {
        return DE_NULL_POINTER;
    }
    return de_numbered_encoder_finish(number, encoder, to, output_len, written);
}

de_status de_encoding_encoder_most(const de_encoding *encoding, const de_encoder *encoder,
                                   size_t len, size_t *most) {
    if (encoding == NULL || encoder == NULL || most == NULL) {
        return DE_NULL_POINTER;
    }
    if (!is_held(encoding)) {
        return DE_NO_ENCODING;
    }
    return de_custom_encoder_most(encoding->tables, encoder, len, most);
}

de_status de_encoding_encoder_read(const de_encoding *encoding, de_encoder *encoder,
                                   const void *input, size_t input_len, char *output,
                                   size_t output_len, size_t *written) {
    const byte *from = in(input, input_len);
    byte *to = out(output, output_len);
    if (encoding == NULL || encoder == NULL || from == NULL || to == NULL || written == NULL) {
        return DE_NULL_POINTER;
    }
    if (!is_held(encoding)) {
        return DE_NO_ENCODING;
    }
    if (overlap(from, input_len, to, output_len)) {
        return DE_OVERLAP;
    }
    return BY_PROCESSOR(custom_encoder_read, input_len,
                        (encoding->tables, encoder, from, input_len, to, output_len, written));
}

de_status de_encoding_encoder_finish(const de_encoding *encoding, const de_encoder *encoder,
                                     char *output, size_t output_len, size_t *written) {
    byte *to = out(output, output_len);
    if (encoding == NULL || encoder == NULL || to == NULL || written == NULL) {
        return DE_NULL_POINTER;
    }
    if (!is_held(encoding)) {
        return DE_NO_ENCODING;
    }
    return de_custom_encoder_finish(encoding->tables, encoder, to, output_len, written);
}
