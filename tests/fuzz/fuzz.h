/* What the targets share: words of the input, memory with guards, encodings, and the calls by both
 * builds. The library itself has no sanitizer: so each input ends where memory ends, and the bytes
 * around each output are checked. */
#define DE_NONNULL(...)
#include "data_encoding.h"

#include <stdint.h>
#include <stdio.h>
#include <stdlib.h>
#include <string.h>
#include <sys/mman.h>

#define LAW(name, holds)                                                                           \
    ((holds) ? (void)0                                                                             \
             : (fprintf(stderr, "%s:%d: not so: %s\n", __FILE__, __LINE__, name), abort()))

int LLVMFuzzerTestOneInput(const uint8_t *bytes, size_t len);

/* The words of an input, from its front. After its end they are 0. */
struct words {
    const uint8_t *at;
    size_t left;
};

static inline unsigned next(struct words *words) {
    if (words->left == 0) {
        return 0;
    }
    words->left--;
    return *words->at++;
}

/* A number up to `most`, of two bytes of the input. */
static inline size_t up_to(struct words *words, size_t most) {
    size_t value = next(words);
    return (value | (size_t)next(words) << 8) % (most + 1);
}

enum { PAGE = 4096, ROOM = 1 << 16, GUARD = 64, FILL = 0xa5 };

/* `len` bytes at the end of a memory. A read of the byte after them ends the program. */
static inline unsigned char *at_end(unsigned char **memory, size_t len) {
    if (*memory == NULL) {
        *memory =
            mmap(NULL, ROOM + PAGE, PROT_READ | PROT_WRITE, MAP_PRIVATE | MAP_ANONYMOUS, -1, 0);
        LAW("memory", *memory != MAP_FAILED && mprotect(*memory + ROOM, PAGE, PROT_NONE) == 0);
    }
    LAW("an input fits", len <= ROOM);
    return *memory + ROOM - len;
}

static inline const void *copy_at_end(unsigned char **memory, const void *bytes, size_t len) {
    unsigned char *at = at_end(memory, len);
    if (len != 0) {
        memcpy(at, bytes, len);
    }
    return at;
}

/* An output: `len` bytes between guards, all FILL before a call. */
struct output {
    unsigned char memory[GUARD + ROOM + GUARD];
    size_t len;
};

static inline unsigned char *fresh(struct output *output, size_t len) {
    LAW("an output fits", len <= ROOM);
    output->len = len;
    memset(output->memory, FILL, GUARD + len + GUARD);
    return output->memory + GUARD;
}

/* No byte is changed outside the first `len` bytes of the output. */
static inline void check_guards(const struct output *output, size_t len) {
    size_t index;
    LAW("written bytes are within the output", len <= output->len);
    for (index = 0; index < GUARD; index++) {
        LAW("nothing is written before the output", output->memory[index] == FILL);
    }
    for (index = GUARD + len; index < GUARD + output->len + GUARD; index++) {
        LAW("nothing is written after what a call may write", output->memory[index] == FILL);
    }
}

/* By which encoding a call is: one that the caller made, if `is_own`, or a number. */
struct by {
    bool is_own;
    de_number number;
    de_encoding own;
};

/* The calls that have two builds. */
struct build {
    de_status (*encode)(de_number, const void *, size_t, char *, size_t, size_t *);
    de_status (*own_encode)(const de_encoding *, const void *, size_t, char *, size_t, size_t *);
    de_status (*decode)(de_number, const char *, size_t, void *, size_t, de_decoded *);
    de_status (*own_decode)(const de_encoding *, const char *, size_t, void *, size_t,
                            de_decoded *);
    de_status (*decode_piece)(de_number, de_decoder *, const char *, size_t, void *, size_t,
                              size_t *);
    de_status (*own_decode_piece)(const de_encoding *, de_decoder *, const char *, size_t, void *,
                                  size_t, size_t *);
    de_status (*encode_piece)(de_number, de_encoder *, const void *, size_t, char *, size_t,
                              size_t *);
    de_status (*own_encode_piece)(const de_encoding *, de_encoder *, const void *, size_t, char *,
                                  size_t, size_t *);
};

/* The build for this processor, and the one for each, which build.sh names so. */
#define BUILD(name)                                                                                \
    {                                                                                              \
        name##_encode, name##_encoding_encode, name##_decode, name##_encoding_decode,              \
            name##_decoder_read, name##_encoding_decoder_read, name##_encoder_read,                \
            name##_encoding_encoder_read                                                           \
    }
de_status baseline_encode(de_number, const void *, size_t, char *, size_t, size_t *);
de_status baseline_encoding_encode(const de_encoding *, const void *, size_t, char *, size_t,
                                   size_t *);
de_status baseline_decode(de_number, const char *, size_t, void *, size_t, de_decoded *);
de_status baseline_encoding_decode(const de_encoding *, const char *, size_t, void *, size_t,
                                   de_decoded *);
de_status baseline_decoder_read(de_number, de_decoder *, const char *, size_t, void *, size_t,
                                size_t *);
de_status baseline_encoding_decoder_read(const de_encoding *, de_decoder *, const char *, size_t,
                                         void *, size_t, size_t *);
de_status baseline_encoder_read(de_number, de_encoder *, const void *, size_t, char *, size_t,
                                size_t *);
de_status baseline_encoding_encoder_read(const de_encoding *, de_encoder *, const void *, size_t,
                                         char *, size_t, size_t *);
static const struct build builds[2] = {BUILD(de), BUILD(baseline)};

static inline de_status encode(const struct build *build, const struct by *by, const void *data,
                               size_t len, void *text, size_t room, size_t *written) {
    return by->is_own ? build->own_encode(&by->own, data, len, text, room, written)
                      : build->encode(by->number, data, len, text, room, written);
}

static inline de_status decode(const struct build *build, const struct by *by, const void *text,
                               size_t len, void *data, size_t room, de_decoded *decoded) {
    return by->is_own ? build->own_decode(&by->own, text, len, data, room, decoded)
                      : build->decode(by->number, text, len, data, room, decoded);
}

static inline de_status encode_len(const struct by *by, size_t len, size_t *text_len) {
    return by->is_own ? de_encoding_encode_len(&by->own, len, text_len)
                      : de_encode_len(by->number, len, text_len);
}

static inline de_status decode_len(const struct by *by, size_t len, size_t *most) {
    return by->is_own ? de_encoding_decode_len(&by->own, len, most)
                      : de_decode_len(by->number, len, most);
}

/* The encodings: the predefined ones, the same as the caller's own, and some that differ from all.
 */
static inline struct by some_encoding(struct words *words) {
    static const de_specification others[] = {
        {"01", 2, " ", 1, "\r\n", 2, 8, "oO", 2, "00", 2, -1, true, true, false},
        {"01234567", 8, NULL, 0, NULL, 0, 0, NULL, 0, NULL, 0, '=', true, false, true},
        {"ABCDEFGHIJKLMNOPQRSTUVWXYZabcdefghijklmnopqrstuvwxyz0123456789+/", 64, " \n\t", 3, "\n",
         1, 8, "-_", 2, "+/", 2, '.', true, false, false},
        {"abcdefghijklmnopqrstuvwxyz234567", 32, "-", 1, "-", 1, 16, NULL, 0, NULL, 0, '=', false,
         false, true},
    };
    unsigned word = next(words) % (2 * 18 + 4);
    struct by by = {word >= 18, word % 18, {{0}, {0}}};
    if (word >= 2 * 18) {
        LAW("an encoding is made", de_encoding_new(&by.own, &others[word - 36], NULL) == DE_OK);
    } else if (by.is_own) {
        de_specification given;
        char texts[DE_TEXTS_LIMIT];
        LAW("a specification",
            de_specification_of(by.number, &given, texts, sizeof texts) == DE_OK);
        LAW("the encoding of it", de_encoding_new(&by.own, &given, NULL) == DE_OK);
    }
    return by;
}
