/* Texts and data in pieces, cut anywhere, against the whole. */
#include "fuzz.h"

static unsigned char *input;
static unsigned char *piece_input;
static struct output output;
static struct output piece_output;
static unsigned char joined[ROOM];

/* Decodes a piece by both builds, which agree, and appends its data to `joined`. */
static size_t decode_piece(const struct by *by, de_decoder *decoder, const uint8_t *piece,
                           size_t len, size_t done) {
    de_decoder states[2];
    size_t written[2] = {77, 77};
    size_t most = 0;
    int which;
    piece = copy_at_end(&piece_input, piece, len);
    LAW("the most of a piece",
        (by->is_own ? de_encoding_decoder_most(&by->own, decoder, len, &most)
                    : de_decoder_most(by->number, decoder, len, &most)) == DE_OK &&
            most <= len + 7);
    for (which = 1; which >= 0; which--) {
        const struct build *build = &builds[which];
        const char *text = (const char *)piece;
        unsigned char *room = fresh(&piece_output, most);
        states[which] = *decoder;
        if (most > 0) {
            LAW("a short output",
                (by->is_own ? build->own_decode_piece(&by->own, &states[which], text, len, room,
                                                      most - 1, &written[which])
                            : build->decode_piece(by->number, &states[which], text, len, room,
                                                  most - 1, &written[which])) == DE_SHORT_BUFFER);
            check_guards(&piece_output, 0);
            LAW("a refused piece changes nothing",
                memcmp(&states[which], decoder, sizeof *decoder) == 0);
        }
        LAW("a piece", (by->is_own ? build->own_decode_piece(&by->own, &states[which], text, len,
                                                             room, most, &written[which])
                                   : build->decode_piece(by->number, &states[which], text, len,
                                                         room, most, &written[which])) == DE_OK);
        LAW("data of a piece is within the output", written[which] <= most);
        check_guards(&piece_output, most);
        LAW("both builds write the same",
            which == 1 || memcmp(joined + done, room, written[0]) == 0);
        memcpy(joined + done, room, written[which]);
    }
    LAW("both builds agree",
        written[0] == written[1] && memcmp(&states[0], &states[1], sizeof states[0]) == 0);
    *decoder = states[0];
    return written[0];
}

static size_t encode_piece(const struct by *by, de_encoder *encoder, const uint8_t *piece,
                           size_t len, size_t done) {
    de_encoder states[2];
    size_t written[2] = {77, 77};
    size_t most = 0;
    int which;
    piece = copy_at_end(&piece_input, piece, len);
    LAW("the text of a piece",
        (by->is_own ? de_encoding_encoder_most(&by->own, encoder, len, &most)
                    : de_encoder_most(by->number, encoder, len, &most)) == DE_OK);
    for (which = 1; which >= 0; which--) {
        const struct build *build = &builds[which];
        unsigned char *room = fresh(&piece_output, most);
        states[which] = *encoder;
        LAW("a piece",
            (by->is_own ? build->own_encode_piece(&by->own, &states[which], piece, len,
                                                  (char *)room, most, &written[which])
                        : build->encode_piece(by->number, &states[which], piece, len, (char *)room,
                                              most, &written[which])) == DE_OK);
        LAW("the length of a piece", written[which] == most);
        check_guards(&piece_output, most);
        LAW("both builds write the same", which == 1 || memcmp(joined + done, room, most) == 0);
        memcpy(joined + done, room, most);
    }
    LAW("both builds agree", states[0].count == states[1].count &&
                                 memcmp(states[0].bytes, states[1].bytes, states[0].count) == 0);
    *encoder = states[0];
    return most;
}

/* The length of the next piece: short ones and long ones. */
static size_t next_len(struct words *cuts, size_t left) {
    size_t len = next(cuts);
    len = len < 128 ? len % 8 : len < 250 ? len - 100 : 16 * (len - 240);
    return len < left ? len : left;
}

static void check_text(const struct by *by, struct words cuts, const uint8_t *bytes, size_t len) {
    de_decoded whole = {0, 0, 0};
    de_decoded told = {77, 77, 77};
    de_decoder decoder;
    size_t done = 0;
    size_t at = 0;
    const void *text = copy_at_end(&input, bytes, len);
    de_status status = decode(&builds[0], by, text, len, fresh(&output, len), len, &whole);
    LAW("a decoder", de_decoder_new(&decoder) == DE_OK);
    while (at < len) {
        size_t piece = cuts.left == 0 ? len - at : next_len(&cuts, len - at);
        done += decode_piece(by, &decoder, bytes + at, piece, done);
        at += piece;
    }
    LAW("the end of the pieces",
        status ==
            (by->is_own
                 ? de_encoding_decoder_finish(&by->own, &decoder, fresh(&piece_output, 5), 5, &told)
                 : de_decoder_finish(by->number, &decoder, fresh(&piece_output, 5), 5, &told)));
    check_guards(&piece_output, told.written);
    LAW("all pieces are read", told.read == len);
    LAW("the position of a fault",
        told.position == whole.position || (status == DE_INVALID_LENGTH && told.position <= len));
    memcpy(joined + done, piece_output.memory + GUARD, told.written);
    done += told.written;
    LAW("the length of the data", status == DE_OK ? done == whole.written : done >= whole.written);
    LAW("the data of the whole", memcmp(joined, output.memory + GUARD, whole.written) == 0);
}

static void check_data(const struct by *by, struct words cuts, const uint8_t *bytes, size_t len) {
    de_encoder encoder;
    size_t text_len = 0;
    size_t last = 0;
    size_t done = 0;
    size_t at = 0;
    const void *data = copy_at_end(&input, bytes, len);
    size_t room = 0;
    LAW("the length of the whole", encode_len(by, len, &room) == DE_OK);
    LAW("the text of the whole",
        encode(&builds[0], by, data, len, fresh(&output, room), room, &text_len) == DE_OK);
    LAW("an encoder", de_encoder_new(&encoder) == DE_OK);
    while (at < len) {
        size_t piece = cuts.left == 0 ? len - at : next_len(&cuts, len - at);
        done += encode_piece(by, &encoder, bytes + at, piece, done);
        at += piece;
    }
    LAW("the end of the data",
        (by->is_own ? de_encoding_encoder_finish(&by->own, &encoder,
                                                 (char *)fresh(&piece_output, DE_LAST_TEXT_LIMIT),
                                                 DE_LAST_TEXT_LIMIT, &last)
                    : de_encoder_finish(by->number, &encoder,
                                        (char *)fresh(&piece_output, DE_LAST_TEXT_LIMIT),
                                        DE_LAST_TEXT_LIMIT, &last)) == DE_OK);
    check_guards(&piece_output, last);
    memcpy(joined + done, piece_output.memory + GUARD, last);
    LAW("the texts joined",
        done + last == text_len && memcmp(joined, output.memory + GUARD, text_len) == 0);
}

int LLVMFuzzerTestOneInput(const uint8_t *bytes, size_t len) {
    struct words words = {bytes, len};
    struct by by = some_encoding(&words);
    struct words cuts = {words.at, 0};
    cuts.left = next(&words) % 16;
    cuts.at = words.at;
    cuts.left = cuts.left < words.left ? cuts.left : words.left;
    words.at += cuts.left;
    words.left -= cuts.left;
    if (words.left <= 2048) {
        check_text(&by, cuts, words.at, words.left);
        check_data(&by, cuts, words.at, words.left);
    }
    return 0;
}
