/* Decodes texts with ignored bytes, for tests/cost.sh, which counts the instructions of each call
 * of `counted`. Prints a line for each of these calls, in their order: the name of its bound,
 * its length and its name. A second line has the bound `same`, for a plain text of that length.
 * Texts of the bound `pieces` are decoded in pieces of PIECE_LEN bytes, which end anywhere in a group.
 *
 * usage: cost LEN..: the lengths that the texts have at least. */
#include "data_encoding.h"
#include "tests.h"
#include <stdlib.h>
#include <string.h>

/* The greatest LEN, and the room for the last part of a text. */
enum { LEN_LIMIT = 65536, PART_LIMIT = 2048 };

enum { PIECE_LEN = 4097 };

static char text[LEN_LIMIT + PART_LIMIT];
static size_t len;
static unsigned char data[LEN_LIMIT + PART_LIMIT];
static unsigned long state;
static const char *alphabet;

/* An encoding, with its symbols, and how many of them a group has. */
struct kind {
    de_number number;
    const char *symbols;
    const char *ignored;
    size_t group_len;
    de_encoding encoding;
};

static struct kind base64 = {
    DE_BASE64,
    "ABCDEFGHIJKLMNOPQRSTUVWXYZabcdefghijklmnopqrstuvwxyz0123456789+/",
    "\r\n ",
    4,
    {{0}, {0}},
};
static struct kind base32 = {
    DE_BASE32, "ABCDEFGHIJKLMNOPQRSTUVWXYZ234567", "\n", 8, {{0}, {0}},
};

static struct kind base64_nopad = {
    DE_BASE64_NOPAD,
    "ABCDEFGHIJKLMNOPQRSTUVWXYZabcdefghijklmnopqrstuvwxyz0123456789+/",
    "\n",
    4,
    {{0}, {0}},
};
static struct kind base32_nopad = {
    DE_BASE32_NOPAD, "ABCDEFGHIJKLMNOPQRSTUVWXYZ234567", "\n", 8, {{0}, {0}},
};

/* A text is made of parts: `part` appends the one that `turn` others come before. */
struct row {
    const char *bound;
    const char *name;
    struct kind *kind;
    void (*part)(size_t turn);
    de_status status;
};

static size_t number_below(size_t limit) {
    state = (state * 1664525 + 1013904223) % 4294967296;
    return (state >> 12) % limit;
}

static void repeat(const char *characters, size_t times) {
    for (; times > 0; times--) {
        memcpy(text + len, characters, strlen(characters));
        len += strlen(characters);
    }
}

static void symbols(size_t count) {
    for (; count > 0; count--) {
        text[len++] = alphabet[number_below(strlen(alphabet))];
    }
}

static void line(size_t count, const char *end) {
    symbols(count);
    repeat(end, 1);
}

static void plain(size_t turn) {
    (void)turn;
    symbols(16);
}

static void lines_of_76(size_t turn) {
    (void)turn;
    line(76, "\r\n");
}

static void lines_of_60(size_t turn) {
    (void)turn;
    line(60, "\n");
}

static void lines_of_12(size_t turn) {
    (void)turn;
    line(12, "\n");
}

static void lines_of_16(size_t turn) {
    (void)turn;
    line(16, "\n");
}

static void lines_of_64(size_t turn) {
    (void)turn;
    line(64, "\n");
}

/* The data is zeros, and so are the trailing bits where a piece ends. */
static void zeros_in_lines_of_64(size_t turn) {
    (void)turn;
    repeat("A", 64);
    repeat("\n", 1);
}

static void lines_of_36(size_t turn) {
    (void)turn;
    line(36, "\n");
}

static void lines_of_40(size_t turn) {
    (void)turn;
    line(40, "\n");
}

static void ragged_lines(size_t turn) {
    (void)turn;
    line(50 + number_below(27), "\n");
}

static void shrinking_lines(size_t turn) {
    line(64 - 4 * (turn % 9), "\n\n\n\n\n");
}

static void spaces_after_1(size_t turn) {
    (void)turn;
    line(1, " ");
}

static void spaces_after_4(size_t turn) {
    (void)turn;
    line(4, " ");
}

static void spaces_after_30(size_t turn) {
    (void)turn;
    line(30, " ");
}

static void spaces_in_8(size_t turn) {
    (void)turn;
    line(1, number_below(8) == 0 ? " " : "");
}

static void spaces_in_64(size_t turn) {
    (void)turn;
    line(1, number_below(64) == 0 ? " " : "");
}

static void spaces_in_256(size_t turn) {
    (void)turn;
    line(1, number_below(256) == 0 ? " " : "");
}

static void broken_then_1600(size_t turn) {
    (void)turn;
    repeat("A\nAAA", 3);
    symbols(1600);
}

static void broken_then_60(size_t turn) {
    (void)turn;
    repeat("A\nAAA", 2);
    symbols(60);
}

static void padded_lines(size_t turn) {
    symbols(28);
    line(turn % 4 == 3 ? 0 : 4, turn % 4 == 3 ? "AA==\n" : "\n");
}

static void padded_bytes(size_t turn) {
    (void)turn;
    repeat("AA==", 1);
}

static void padded_texts_of_20(size_t turn) {
    (void)turn;
    symbols(26);
    repeat("A=\n", 1);
}

static void line_ends_alone(size_t turn) {
    line(turn == 0, "\n");
}

static const struct row rows[] = {
    {"gaps", "lines of 76 with CR LF", &base64, lines_of_76, DE_OK},
    {"gaps", "lines of 60", &base64, lines_of_60, DE_OK},
    {"gaps", "lines of 12", &base64, lines_of_12, DE_OK},
    {"gaps", "lines of 36", &base64, lines_of_36, DE_OK},
    {"gaps", "lines of 40", &base64, lines_of_40, DE_OK},
    {"gaps", "base32 in lines of 16", &base32, lines_of_16, DE_OK},
    {"gaps", "base32 in lines of 40", &base32, lines_of_40, DE_OK},
    {"gaps", "lines of 50 to 76", &base64, ragged_lines, DE_OK},
    {"gaps", "lines of 64, 60, 56 and so on to 32", &base64, shrinking_lines, DE_OK},
    {"gaps", "a space after each symbol", &base64, spaces_after_1, DE_OK},
    {"gaps", "a space after each 4 symbols", &base64, spaces_after_4, DE_OK},
    {"gaps", "a space after each 30 symbols", &base64, spaces_after_30, DE_OK},
    {"gaps", "a space after 1 of 8 symbols", &base64, spaces_in_8, DE_OK},
    {"gaps", "a space after 1 of 64 symbols", &base64, spaces_in_64, DE_OK},
    {"gaps", "a space after 1 of 256 symbols", &base64, spaces_in_256, DE_OK},
    {"gaps", "two broken groups and 60 symbols by turns", &base64, broken_then_60, DE_OK},
    {"gaps", "three broken groups and 1600 symbols by turns", &base64, broken_then_1600, DE_OK},
    {"ignored", "one symbol and line ends", &base64, line_ends_alone, DE_INVALID_LENGTH},
    {"padded", "lines of 32, each fourth with padding", &base64, padded_lines, DE_OK},
    {"padded", "padded texts of one byte", &base64, padded_bytes, DE_OK},
    {"padded", "padded texts of 20 bytes", &base64, padded_texts_of_20, DE_OK},
    {"pieces", "lines of 64, in pieces", &base64, lines_of_64, DE_OK},
    {"pieces", "lines of 64 without padding, in pieces", &base64_nopad, lines_of_64, DE_OK},
    {"pieces", "zeros without padding, in pieces", &base64_nopad, zeros_in_lines_of_64, DE_OK},
    {"pieces", "base32 zeros without padding, in pieces", &base32_nopad, zeros_in_lines_of_64, DE_OK},
    {"plain", "plain", &base64, plain, DE_OK},
};

static void make_encoding(struct kind *kind) {
    char texts[DE_TEXTS_LIMIT];
    de_specification asked;
    is("a specification", DE_OK, de_specification_of(kind->number, &asked, texts, sizeof texts));
    asked.ignore = kind->ignored;
    asked.ignore_len = strlen(kind->ignored);
    is("an encoding", DE_OK, de_encoding_new(&kind->encoding, &asked, NULL));
}

static size_t count_symbols(const struct kind *kind) {
    size_t count = 0;
    size_t index;
    for (index = 0; index < len; index++) {
        count += strchr(kind->ignored, text[index]) == NULL;
    }
    return count;
}

/* Makes a text of parts, which has at least that length and ends in a whole group. */
static void make(const struct row *row, size_t wanted) {
    size_t turn;
    len = 0;
    state = 1;
    alphabet = row->kind->symbols;
    for (turn = 0; len < wanted; turn++) {
        row->part(turn);
    }
    if (row->status == DE_OK) {
        symbols((0 - count_symbols(row->kind)) % row->kind->group_len);
    }
}

static de_status decode_pieces(const de_encoding *encoding, de_decoded *decoded) {
    de_decoder decoder;
    size_t read;
    size_t total = 0;
    de_status status;
    de_decoder_new(&decoder);
    for (read = 0; read < len; read += PIECE_LEN) {
        size_t piece_len = len - read < PIECE_LEN ? len - read : PIECE_LEN;
        size_t written;
        status = de_encoding_decoder_read(encoding, &decoder, text + read, piece_len, data + total,
                                          sizeof data - total, &written);
        if (status != DE_OK) {
            return status;
        }
        total += written;
    }
    status = de_encoding_decoder_finish(encoding, &decoder, data + total, sizeof data - total,
                                        decoded);
    decoded->written += total;
    return status;
}

/* The function whose instructions are counted. */
de_status counted(const struct row *row, de_decoded *decoded) {
    const de_encoding *encoding = &row->kind->encoding;
    if (strcmp(row->bound, "pieces") == 0) {
        return decode_pieces(encoding, decoded);
    }
    return de_encoding_decode(encoding, text, len, data, sizeof data, decoded);
}

static void decode(const struct row *row) {
    de_decoded decoded;
    de_decoded again;
    /* The first call of a program also finds the functions that it calls. */
    is(row->name, row->status,
       de_encoding_decode(&row->kind->encoding, text, len, data, sizeof data, &decoded));
    is(row->name, row->status, counted(row, &again));
    is(row->name, decoded.written, again.written);
    holds(row->name, row->status != DE_OK || again.read == len);
    printf("%s\t%lu\t%s\n", row->bound, (unsigned long)len, row->name);
}

static void decode_row(const struct row *row, size_t wanted) {
    struct row same = {"same", row->name, row->kind, plain, DE_OK};
    make(row, wanted);
    decode(row);
    make(&same, len);
    decode(&same);
}

int main(int count, char **words) {
    int each;
    make_encoding(&base64);
    make_encoding(&base32);
    make_encoding(&base64_nopad);
    make_encoding(&base32_nopad);
    for (each = 1; each < count; each++) {
        size_t wanted = strtoul(words[each], NULL, 10);
        size_t index;
        if (wanted > LEN_LIMIT) {
            return 2;
        }
        for (index = 0; index < sizeof rows / sizeof *rows; index++) {
            decode_row(&rows[index], wanted);
        }
    }
    return failed != 0;
}
