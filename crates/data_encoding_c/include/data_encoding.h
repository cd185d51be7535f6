/* Base encodings with proofs: data as text over an alphabet of symbols, and back.
 *
 * For C99 and C++. Each call returns a status and checks every length that it is given. Any number
 * of threads may make calls at once, even with the same encoding.
 *
 * The caller must ensure the following, which no call checks:
 * - A pointer points to as many bytes as the length after it, or to a value of its type.
 * - Memory that a call writes to does not overlap any other argument, except that an output may
 *   overlap the input: DE_OVERLAP refuses it.
 * - Nothing else writes to an argument while the call runs.
 * - A de_encoding was made by de_encoding_new or de_encoding_read, or is a copy of such a value.
 *
 * A pointer to bytes may be null if its length is 0. For any other null pointer the status is
 * DE_NULL_POINTER (but see DE_NONNULL).
 *
 * Lengths are in bytes. No call writes a NUL after a text. No call allocates memory.
 *
 * On x86-64 and ARM64 the calls that encode and decode are constant-time, as is tested: SECURITY.md
 * of the sources has the promise and its limits.
 *
 * The library is for Linux with glibc, on x86-64 (x86-64-v2 or newer) and 64-bit ARM (ARMv8-A or
 * newer). On x86-64-v3 it uses calls made for that level. On an older x86-64 processor a call ends
 * the program with an illegal instruction, except those that return texts: de_is_supported tells.
 */
#ifndef DATA_ENCODING_H
#define DATA_ENCODING_H

#include <stdbool.h>
#include <stddef.h>
#include <stdint.h>

#ifdef __cplusplus
extern "C" {
#endif

/* The version of this header. Before 1.0.0 calls may change with DE_VERSION_MINOR. */
#define DE_VERSION_MAJOR 0
#define DE_VERSION_MINOR 1
#define DE_VERSION_PATCH 0
#define DE_VERSION "0.1.0"

/* The number in the name of the shared library. It increases when programs that were built with an
 * earlier library do not run with the new one. */
#define DE_INTERFACE 0

/* Attributes of the calls for the compiler. A program may define each of these before it includes
 * this header, even as nothing. */

/* A shared library exports the call, even one that is linked from the static library. */
#ifndef DE_EXPORT
#ifdef __GNUC__
#define DE_EXPORT __attribute__((visibility("default")))
#else
#define DE_EXPORT
#endif
#endif

/* The compiler warns if the status is ignored. */
#ifndef DE_NODISCARD
#if defined(__GNUC__)
#define DE_NODISCARD __attribute__((warn_unused_result))
#elif defined(__cplusplus) && __cplusplus >= 201703L
#define DE_NODISCARD [[nodiscard]]
#else
#define DE_NODISCARD
#endif
#endif

/* The compiler warns if one of these parameters, counted from 1, is a null pointer. It may also
 * assume that none is, and remove what the program does about null pointers. A program that relies
 * on DE_NULL_POINTER defines this as nothing. */
#ifndef DE_NONNULL
#ifdef __GNUC__
#define DE_NONNULL(...) __attribute__((nonnull(__VA_ARGS__)))
#else
#define DE_NONNULL(...)
#endif
#endif

/* Returns the version of the library, which may differ from DE_VERSION of the header. The result is
 * never null, and valid until the program ends. */
DE_EXPORT
const char *de_version(void);

/* Returns true if the processor has x86-64-v2, or is for 64-bit ARM. It runs on any processor, and
 * no other call tests for this. */
DE_EXPORT DE_NODISCARD
bool de_is_supported(void);

/* The greatest length of data that one call encodes, and of a text that one call decodes. */
#define DE_ENCODE_LIMIT (SIZE_MAX / 512)
#define DE_DECODE_LIMIT (SIZE_MAX / 8)

/* The status of a call. After DE_OK and the four DE_INVALID_ statuses of an invalid text, the
 * outputs are as the call describes. After any other status nothing has changed, except *detail
 * where the status sets it, and the outputs of de_decode after DE_SHORT_BUFFER. */
typedef uint32_t de_status;
enum {
    DE_OK = 0,

    /* No predefined encoding has the number, or the name. */
    DE_UNKNOWN_ENCODING = 1,

    /* A pointer that must not be null is null. */
    DE_NULL_POINTER = 2,

    /* The data is longer than DE_ENCODE_LIMIT, or the text than DE_DECODE_LIMIT. */
    DE_TOO_LONG = 3,

    /* The output is too short. de_encode_len writes the length that a text needs, and de_decode the
     * length that its data needs. */
    DE_SHORT_BUFFER = 4,

    /* The output overlaps the input. The calls that encode, decode or read a piece check this, for an
     * input of at most DE_ENCODE_LIMIT bytes. */
    DE_OVERLAP = 5,

    /* No valid text has this length. */
    DE_INVALID_LENGTH = 6,

    /* A byte is not a symbol. */
    DE_INVALID_SYMBOL = 7,

    /* The bits after the last byte are not zeros. */
    DE_INVALID_TRAILING_BITS = 8,

    /* The number of padding characters is wrong, or a group follows a padded one although texts may
     * not be concatenated. */
    DE_INVALID_PADDING = 9,

    /* The statuses from DE_SYMBOL_COUNT to DE_UNDEFINED are of de_encoding_new only: the
     * specification is invalid. They are checked in this order, except that DE_NOT_ASCII and
     * DE_DUPLICATE are checked at each byte as it gets its meaning. */

    /* The number of symbols is not 2, 4, 8, 16, 32 or 64. */
    DE_SYMBOL_COUNT = 10,

    /* A character is not ASCII. */
    DE_NOT_ASCII = 11,

    /* The byte `detail` is given two meanings. */
    DE_DUPLICATE = 12,

    /* There is a padding character, but symbols of 1, 2 or 4 bits never need one. */
    DE_EXTRA_PADDING = 13,

    /* The width of lines or the length of their separator is above 255. */
    DE_WRAP_LENGTH = 14,

    /* The width of lines is not a multiple of `detail`. */
    DE_WRAP_WIDTH = 15,

    /* The two texts of a translation differ in length. */
    DE_TRANSLATE_LENGTH = 16,

    /* A byte is translated to the byte `detail`, which is not defined. */
    DE_UNDEFINED = 17,

    /* The bytes are not a layout, or the de_encoding was not made by a call. */
    DE_NO_ENCODING = 18,

    /* The de_decoder is not valid for this encoding. */
    DE_NO_DECODER = 19,

    /* The de_encoder is not valid for this encoding. */
    DE_NO_ENCODER = 20
};

/* Returns a short description of a status. The result is never null, and valid until the program
 * ends. */
DE_EXPORT
const char *de_status_text(de_status status);

/* The predefined encodings. */
typedef uint32_t de_number;
enum {
    DE_HEXLOWER = 0,
    DE_HEXLOWER_PERMISSIVE = 1,
    DE_HEXUPPER = 2,
    DE_HEXUPPER_PERMISSIVE = 3,
    DE_BASE32 = 4,
    DE_BASE32_NOPAD = 5,
    DE_BASE32_NOPAD_NOCASE = 6,
    DE_BASE32_NOPAD_VISUAL = 7,
    DE_BASE32HEX = 8,
    DE_BASE32HEX_NOPAD = 9,
    DE_BASE32_DNSSEC = 10,
    DE_BASE32_DNSCURVE = 11,
    DE_BASE64 = 12,
    DE_BASE64_NOPAD = 13,
    DE_BASE64_MIME = 14,
    DE_BASE64_MIME_PERMISSIVE = 15,
    DE_BASE64URL = 16,
    DE_BASE64URL_NOPAD = 17
};

/* The result of decoding, if the status is DE_OK, one of the four of an invalid text, or
 * DE_SHORT_BUFFER of de_decode. */
typedef struct de_decoded {
    /* The number of bytes of the text that were read; they decode to the bytes that were written.
     * For an invalid text, these are at least the bytes before the first faulty group, or 0 if the
     * output is shorter than de_decode_len writes. After DE_SHORT_BUFFER it is 0. */
    size_t read;

    /* The number of bytes that were written. After DE_SHORT_BUFFER, the length of the data, which
     * is the length that the output needs. */
    size_t written;

    /* After DE_OK, the length of the text. After DE_SHORT_BUFFER it is 0. Otherwise the index of
     * the invalid byte or, for an invalid length in an encoding that ignores no byte, the greatest
     * valid length below it. */
    size_t position;
} de_decoded;

/* Writes the length of the text of len bytes, with its padding and line ends, to *text_len.
 * DE_TOO_LONG if len is above DE_ENCODE_LIMIT. */
DE_EXPORT DE_NODISCARD DE_NONNULL(3)
de_status de_encode_len(de_number number, size_t len, size_t *text_len);

/* Writes the text of input to the start of output, and its length to *written. The rest of output
 * is unchanged. DE_TOO_LONG, DE_SHORT_BUFFER. */
DE_EXPORT DE_NODISCARD DE_NONNULL(6)
de_status de_encode(de_number number, const void *input, size_t input_len, char *output,
                    size_t output_len, size_t *written);

/* Writes the greatest number of bytes that a text of len bytes decodes to, to *most. If no valid
 * text has this length, the status is DE_INVALID_LENGTH, and *most is the greatest valid length
 * below it. DE_TOO_LONG. */
DE_EXPORT DE_NODISCARD DE_NONNULL(3)
de_status de_decode_len(de_number number, size_t len, size_t *most);

/* Writes the data of the text input to the start of output, and how far the text was decoded to
 * *decoded. Any output that holds the data is long enough. If the data of a valid text does not
 * fit, the status is DE_SHORT_BUFFER, and decoded->written is the length of the data.
 *
 * The status of an invalid text is one of the four DE_INVALID_. If output has the length that
 * de_decode_len writes, the first decoded->read bytes of input then decode to the first
 * decoded->written bytes of output. With a shorter output both numbers are 0, and all of output is
 * unspecified. If de_decode_len refuses the length, nothing is read and output is unchanged.
 *
 * Within the length of de_decode_len, output after the decoded->written bytes is unspecified. After
 * DE_SHORT_BUFFER all of output is. If the encoding ignores bytes, a text is decoded faster to an
 * output of the length that de_decode_len writes. DE_TOO_LONG. */
DE_EXPORT DE_NODISCARD DE_NONNULL(6)
de_status de_decode(de_number number, const char *input, size_t input_len, void *output,
                    size_t output_len, de_decoded *decoded);

/* Sets *canonical to true if no two different texts decode to the same data, and else to false. */
DE_EXPORT DE_NODISCARD DE_NONNULL(2)
de_status de_is_canonical(de_number number, bool *canonical);

/* The state of a decoder of a text that comes in pieces. It is plain data, which may be copied and
 * needs no cleanup; a copy continues from where it was made. It may hold the bytes of an unfinished
 * group.
 *
 * Any numbers may be passed. A call refuses these with DE_NO_DECODER:
 * - a len above DE_DECODE_LIMIT
 * - a count above len, or of a whole group or more
 * - positions that do not ascend or are not below len
 * - a held byte that the encoding ignores
 * - a fault that is neither 0 nor one of the four statuses DE_INVALID_
 * - with a fault: a count other than 0, a fault_position that is not below len, or a fault that no
 *   whole group has: DE_INVALID_LENGTH, DE_INVALID_TRAILING_BITS if the encoding does not check
 *   them, DE_INVALID_PADDING if it is without padding
 * - without a fault: an ended of 1 if texts may be concatenated
 *
 * Other numbers that no call has written may be accepted. Then the decoded data is unspecified, but
 * no call reads or writes outside its arrays, and the position that de_decoder_finish writes is
 * below len, or is len with DE_OK. */
typedef struct de_decoder {
    /* The length of the text so far. */
    size_t len;

    /* The number of bytes of an unfinished group, and their positions in the text. */
    size_t count;
    size_t positions[8];

    /* The first fault of the whole groups: its position, and its status or 0. */
    size_t fault_position;
    de_status fault;

    /* 1 if no further group may follow, else 0. */
    uint32_t ended;

    /* The bytes of the unfinished group. */
    unsigned char bytes[8];
} de_decoder;

/* Sets *decoder to a decoder that has read nothing, for any encoding. The status is DE_OK or
 * DE_NULL_POINTER, so it may be ignored. */
DE_EXPORT DE_NONNULL(1)
de_status de_decoder_new(de_decoder *decoder);

/* Writes the greatest number of bytes of data that len more bytes of text complete to *most: at
 * most len + 7, and 0 after a fault. DE_NO_DECODER; DE_TOO_LONG if the text would then be longer
 * than DE_DECODE_LIMIT. */
DE_EXPORT DE_NODISCARD DE_NONNULL(2, 4)
de_status de_decoder_most(de_number number, const de_decoder *decoder, size_t len, size_t *most);

/* Reads a piece of the text, which may be cut anywhere. Writes the data of the groups that it
 * completes, up to the first faulty one, to the start of output, and its length to *written. The
 * output needs the length that de_decoder_most writes. Within that length, output after the data is
 * unspecified; after it, output is unchanged. de_decoder_finish reports a fault. DE_NO_DECODER,
 * DE_TOO_LONG, DE_SHORT_BUFFER. */
DE_EXPORT DE_NODISCARD DE_NONNULL(2, 7)
de_status de_decoder_read(de_number number, de_decoder *decoder, const char *input,
                          size_t input_len, void *output, size_t output_len, size_t *written);

/* Ends the text. Writes the data of a last group, at most 5 bytes, to the start of output, and
 * leaves the rest of output and the decoder unchanged. Writes to *decoded the length of the text,
 * the number of bytes written, and the position of the fault, or the length if the text is valid.
 * The status equals the status of de_decode for the whole text, or is DE_NO_DECODER or
 * DE_SHORT_BUFFER. */
DE_EXPORT DE_NODISCARD DE_NONNULL(2, 5)
de_status de_decoder_finish(de_number number, const de_decoder *decoder, void *output,
                            size_t output_len, de_decoded *decoded);

/* Writes the block size to *align: the number of bytes of data in a group of symbols, or in a line
 * if there are lines. It is from 1 to 189. The joined texts of pieces of data are the text of all
 * the data if the length of each piece but the last is a multiple of it. */
DE_EXPORT DE_NODISCARD DE_NONNULL(2)
de_status de_encode_align(de_number number, size_t *align);

/* Writes the number of bits of a symbol, from 1 to 6, to *width. */
DE_EXPORT DE_NODISCARD DE_NONNULL(2)
de_status de_bit_width(de_number number, size_t *width);

/* The state of an encoder of data that comes in pieces. It is plain data, which may be copied and
 * needs no cleanup; a copy continues from where it was made. It holds the bytes of an unfinished
 * block. Any numbers may be passed: a call refuses a count of a whole block or more with
 * DE_NO_ENCODER, and treats any other state as that of an encoder which has read just these
 * bytes. */
typedef struct de_encoder {
    /* The number of bytes of an unfinished block, and the bytes. */
    size_t count;
    unsigned char bytes[189];
} de_encoder;

/* Sets *encoder to an encoder that has read nothing, for any encoding. The status is DE_OK or
 * DE_NULL_POINTER, so it may be ignored. */
DE_EXPORT DE_NONNULL(1)
de_status de_encoder_new(de_encoder *encoder);

/* Writes the length of the text that de_encoder_read writes for a piece of len bytes to *most.
 * DE_NO_ENCODER; DE_TOO_LONG if len is above DE_ENCODE_LIMIT. */
DE_EXPORT DE_NODISCARD DE_NONNULL(2, 4)
de_status de_encoder_most(de_number number, const de_encoder *encoder, size_t len, size_t *most);

/* Reads a piece of the data, which may be cut anywhere. Writes the text of the blocks that it
 * completes to the start of output, and its length to *written. The rest of output is unchanged.
 * DE_NO_ENCODER, DE_TOO_LONG, DE_SHORT_BUFFER. */
DE_EXPORT DE_NODISCARD DE_NONNULL(2, 7)
de_status de_encoder_read(de_number number, de_encoder *encoder, const void *input,
                          size_t input_len, char *output, size_t output_len, size_t *written);

/* Ends the data. Writes the text of the held bytes, with its padding and line end, to the start of
 * output, and its length to *written: the length that de_encode_len writes for encoder->count, at
 * most DE_LAST_TEXT_LIMIT. All texts that were written, joined, are the text of all the data. The
 * rest of output and the encoder are unchanged. DE_NO_ENCODER, DE_SHORT_BUFFER. */
#define DE_LAST_TEXT_LIMIT 510
DE_EXPORT DE_NODISCARD DE_NONNULL(2, 5)
de_status de_encoder_finish(de_number number, const de_encoder *encoder, char *output,
                            size_t output_len, size_t *written);

/* The length of the longest name of a predefined encoding. */
#define DE_NAME_LIMIT 22

/* Writes the name of the encoding, such as "BASE64_NOPAD" for DE_BASE64_NOPAD, to the start of
 * output, and its length to *written. The rest of output is unchanged. DE_SHORT_BUFFER, never for
 * DE_NAME_LIMIT bytes or more. */
DE_EXPORT DE_NODISCARD DE_NONNULL(4)
de_status de_name(de_number number, char *output, size_t output_len, size_t *written);

/* Writes the number of the encoding with this name to *number. Names are in upper case.
 * DE_UNKNOWN_ENCODING. A name of more than DE_NAME_LIMIT bytes is not read. */
DE_EXPORT DE_NODISCARD DE_NONNULL(3)
de_status de_number_named(const char *name, size_t name_len, de_number *number);

/* The parameters of an encoding. DE_SPECIFICATION has the defaults, and no symbols. */
typedef struct de_specification {
    /* The symbols in order of value: 2, 4, 8, 16, 32 or 64 ASCII characters. */
    const char *symbols;
    size_t symbols_len;

    /* Bytes that decoding ignores, anywhere in a text. */
    const char *ignore;
    size_t ignore_len;

    /* The separator after each line of wrap_width characters. There are lines if neither the width
     * nor the length of the separator is 0. */
    const char *wrap_separator;
    size_t wrap_separator_len;
    size_t wrap_width;

    /* A translation: each byte of translate_from is decoded like the byte of translate_to at the
     * same index. */
    const char *translate_from;
    size_t translate_from_len;
    const char *translate_to;
    size_t translate_to_len;

    /* The character that fills the last group of a text, or a negative number for none. */
    int padding;

    /* If true, the least significant bit of a byte comes first, else the most significant. */
    bool least_significant_first;

    /* If true, the bits after the last byte must be zeros. */
    bool check_trailing_bits;

    /* If true, concatenated padded texts are decoded as one. */
    bool concatenate;
} de_specification;

#define DE_SPECIFICATION {NULL, 0, NULL, 0, NULL, 0, 0, NULL, 0, NULL, 0, -1, false, true, true}

/* The length that the texts of any specification need. */
#define DE_TEXTS_LIMIT 703

/* Writes the specification of the encoding to *specification. Its pointers point into texts. The
 * call writes to the start of texts and leaves the rest unchanged. de_encoding_new makes the same
 * encoding from it. DE_SHORT_BUFFER, never for DE_TEXTS_LIMIT bytes or more. */
DE_EXPORT DE_NODISCARD DE_NONNULL(2)
de_status de_specification_of(de_number number, de_specification *specification, char *texts,
                              size_t texts_len);

/* The length of the tables of an encoding. */
#define DE_TABLES 843

/* An encoding that the caller made. It is plain bytes, which may be copied within the program and
 * need no cleanup. Calls trust its tables and do not check them: to pass an encoding to another
 * program, use its layout. Calls refuse an encoding that was not made with DE_NO_ENCODING, except
 * if its bytes `made` equal those of a made one. */
typedef struct de_encoding {
    unsigned char made[8];
    unsigned char tables[DE_TABLES];
} de_encoding;

/* Writes the encoding with this specification to *encoding. After DE_DUPLICATE, DE_WRAP_WIDTH and
 * DE_UNDEFINED, writes the byte or the number to *detail if detail is not null, and leaves
 * *encoding unchanged. */
DE_EXPORT DE_NODISCARD DE_NONNULL(1, 2)
de_status de_encoding_new(de_encoding *encoding, const de_specification *specification,
                          size_t *detail);

/* The greatest length of a layout. */
#define DE_LAYOUT_LIMIT 770

/* Writes the layout of the encoding to the start of output, and its length to *written. A layout
 * describes an encoding completely, and may be stored or sent. The rest of output is unchanged.
 * DE_SHORT_BUFFER, never for DE_LAYOUT_LIMIT bytes or more. */
DE_EXPORT DE_NODISCARD DE_NONNULL(1, 4)
de_status de_encoding_layout(const de_encoding *encoding, void *output, size_t output_len,
                             size_t *written);

/* Writes the encoding with this layout to *encoding. Any bytes may be passed: the status is
 * DE_NO_ENCODING if they are not a layout. */
DE_EXPORT DE_NODISCARD DE_NONNULL(1)
de_status de_encoding_read(de_encoding *encoding, const void *layout, size_t len);

/* Like the calls above without `encoding_` in their names, for an encoding of the caller. The
 * status is DE_NO_ENCODING instead of DE_UNKNOWN_ENCODING. */
DE_EXPORT DE_NODISCARD DE_NONNULL(1, 3)
de_status de_encoding_encode_len(const de_encoding *encoding, size_t len, size_t *text_len);
DE_EXPORT DE_NODISCARD DE_NONNULL(1, 6)
de_status de_encoding_encode(const de_encoding *encoding, const void *input, size_t input_len,
                             char *output, size_t output_len, size_t *written);
DE_EXPORT DE_NODISCARD DE_NONNULL(1, 3)
de_status de_encoding_decode_len(const de_encoding *encoding, size_t len, size_t *most);
DE_EXPORT DE_NODISCARD DE_NONNULL(1, 6)
de_status de_encoding_decode(const de_encoding *encoding, const char *input, size_t input_len,
                             void *output, size_t output_len, de_decoded *decoded);
DE_EXPORT DE_NODISCARD DE_NONNULL(1, 2)
de_status de_encoding_is_canonical(const de_encoding *encoding, bool *canonical);
DE_EXPORT DE_NODISCARD DE_NONNULL(1, 2, 4)
de_status de_encoding_decoder_most(const de_encoding *encoding, const de_decoder *decoder,
                                   size_t len, size_t *most);
DE_EXPORT DE_NODISCARD DE_NONNULL(1, 2, 7)
de_status de_encoding_decoder_read(const de_encoding *encoding, de_decoder *decoder,
                                   const char *input, size_t input_len, void *output,
                                   size_t output_len, size_t *written);
DE_EXPORT DE_NODISCARD DE_NONNULL(1, 2, 5)
de_status de_encoding_decoder_finish(const de_encoding *encoding, const de_decoder *decoder,
                                     void *output, size_t output_len, de_decoded *decoded);

DE_EXPORT DE_NODISCARD DE_NONNULL(1, 2)
de_status de_encoding_encode_align(const de_encoding *encoding, size_t *align);
DE_EXPORT DE_NODISCARD DE_NONNULL(1, 2)
de_status de_encoding_bit_width(const de_encoding *encoding, size_t *width);
DE_EXPORT DE_NODISCARD DE_NONNULL(1, 2, 4)
de_status de_encoding_encoder_most(const de_encoding *encoding, const de_encoder *encoder,
                                   size_t len, size_t *most);
DE_EXPORT DE_NODISCARD DE_NONNULL(1, 2, 7)
de_status de_encoding_encoder_read(const de_encoding *encoding, de_encoder *encoder,
                                   const void *input, size_t input_len, char *output,
                                   size_t output_len, size_t *written);
DE_EXPORT DE_NODISCARD DE_NONNULL(1, 2, 5)
de_status de_encoding_encoder_finish(const de_encoding *encoding, const de_encoder *encoder,
                                     char *output, size_t output_len, size_t *written);
DE_EXPORT DE_NODISCARD DE_NONNULL(1, 2)
de_status de_encoding_specification(const de_encoding *encoding, de_specification *specification,
                                    char *texts, size_t texts_len);

/* DE_NAME_ENCODED_LEN(n) is the length of the text of n bytes of data, as de_encode_len writes it.
 * DE_NAME_DECODED_LEN(n) is the greatest number of bytes that a text of n bytes decodes to, as
 * de_decode_len writes it if a valid text has that length. Both are constants for a constant n, for
 * the size of an array. n must not have side effects, and is at most DE_ENCODE_LIMIT or
 * DE_DECODE_LIMIT. */
#ifdef __cplusplus
#define DE_SIZE(n) static_cast<size_t>(n)
#else
#define DE_SIZE(n) ((size_t)(n))
#endif
#define DE_LEN_BITS(n, bits)                                                                       \
    (DE_SIZE(n) / (bits) * 8 + (DE_SIZE(n) % (bits) * 8 + (bits) - 1) / (bits))
#define DE_DATA_BITS(n, bits) (DE_SIZE(n) / 8 * (bits) + DE_SIZE(n) % 8 * (bits) / 8)
#define DE_LEN_GROUPS(n, bytes, symbols) ((DE_SIZE(n) + (bytes) - 1) / (bytes) * (symbols))
#define DE_DATA_GROUPS(n, bytes, symbols) (DE_SIZE(n) / (symbols) * (bytes))
#define DE_LEN_LINES(len) ((len) + ((len) + 75) / 76 * 2)
#define DE_HEXLOWER_ENCODED_LEN(n) DE_LEN_BITS(n, 4)
#define DE_HEXLOWER_DECODED_LEN(n) DE_DATA_BITS(n, 4)
#define DE_HEXLOWER_PERMISSIVE_ENCODED_LEN(n) DE_LEN_BITS(n, 4)
#define DE_HEXLOWER_PERMISSIVE_DECODED_LEN(n) DE_DATA_BITS(n, 4)
#define DE_HEXUPPER_ENCODED_LEN(n) DE_LEN_BITS(n, 4)
#define DE_HEXUPPER_DECODED_LEN(n) DE_DATA_BITS(n, 4)
#define DE_HEXUPPER_PERMISSIVE_ENCODED_LEN(n) DE_LEN_BITS(n, 4)
#define DE_HEXUPPER_PERMISSIVE_DECODED_LEN(n) DE_DATA_BITS(n, 4)
#define DE_BASE32_ENCODED_LEN(n) DE_LEN_GROUPS(n, 5, 8)
#define DE_BASE32_DECODED_LEN(n) DE_DATA_GROUPS(n, 5, 8)
#define DE_BASE32_NOPAD_ENCODED_LEN(n) DE_LEN_BITS(n, 5)
#define DE_BASE32_NOPAD_DECODED_LEN(n) DE_DATA_BITS(n, 5)
#define DE_BASE32_NOPAD_NOCASE_ENCODED_LEN(n) DE_LEN_BITS(n, 5)
#define DE_BASE32_NOPAD_NOCASE_DECODED_LEN(n) DE_DATA_BITS(n, 5)
#define DE_BASE32_NOPAD_VISUAL_ENCODED_LEN(n) DE_LEN_BITS(n, 5)
#define DE_BASE32_NOPAD_VISUAL_DECODED_LEN(n) DE_DATA_BITS(n, 5)
#define DE_BASE32HEX_ENCODED_LEN(n) DE_LEN_GROUPS(n, 5, 8)
#define DE_BASE32HEX_DECODED_LEN(n) DE_DATA_GROUPS(n, 5, 8)
#define DE_BASE32HEX_NOPAD_ENCODED_LEN(n) DE_LEN_BITS(n, 5)
#define DE_BASE32HEX_NOPAD_DECODED_LEN(n) DE_DATA_BITS(n, 5)
#define DE_BASE32_DNSSEC_ENCODED_LEN(n) DE_LEN_BITS(n, 5)
#define DE_BASE32_DNSSEC_DECODED_LEN(n) DE_DATA_BITS(n, 5)
#define DE_BASE32_DNSCURVE_ENCODED_LEN(n) DE_LEN_BITS(n, 5)
#define DE_BASE32_DNSCURVE_DECODED_LEN(n) DE_DATA_BITS(n, 5)
#define DE_BASE64_ENCODED_LEN(n) DE_LEN_GROUPS(n, 3, 4)
#define DE_BASE64_DECODED_LEN(n) DE_DATA_GROUPS(n, 3, 4)
#define DE_BASE64_NOPAD_ENCODED_LEN(n) DE_LEN_BITS(n, 6)
#define DE_BASE64_NOPAD_DECODED_LEN(n) DE_DATA_BITS(n, 6)
#define DE_BASE64_MIME_ENCODED_LEN(n) DE_LEN_LINES(DE_LEN_GROUPS(n, 3, 4))
#define DE_BASE64_MIME_DECODED_LEN(n) DE_DATA_GROUPS(n, 3, 4)
#define DE_BASE64_MIME_PERMISSIVE_ENCODED_LEN(n) DE_LEN_LINES(DE_LEN_GROUPS(n, 3, 4))
#define DE_BASE64_MIME_PERMISSIVE_DECODED_LEN(n) DE_DATA_GROUPS(n, 3, 4)
#define DE_BASE64URL_ENCODED_LEN(n) DE_LEN_GROUPS(n, 3, 4)
#define DE_BASE64URL_DECODED_LEN(n) DE_DATA_GROUPS(n, 3, 4)
#define DE_BASE64URL_NOPAD_ENCODED_LEN(n) DE_LEN_BITS(n, 6)
#define DE_BASE64URL_NOPAD_DECODED_LEN(n) DE_DATA_BITS(n, 6)

#ifdef __cplusplus
}
#endif

#endif
