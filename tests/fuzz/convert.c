/* One call: any bytes are encoded and decoded, into any room. */
#include "fuzz.h"

static unsigned char *input;
static unsigned char *other_input;
static struct output output;
static struct output again;

/* Data becomes a text of the length that is promised, which means the data. No shorter room will
 * do. */
static void check_encode(const struct by *by, const uint8_t *bytes, size_t len, size_t room) {
    const void *data = copy_at_end(&input, bytes, len);
    size_t text_len = 0;
    int which;
    LAW("the length of a text", encode_len(by, len, &text_len) == DE_OK);
    for (which = 0; which < 2; which++) {
        size_t written = 77;
        de_decoded decoded;
        const void *text;
        de_status status =
            encode(&builds[which], by, data, len, fresh(&output, room), room, &written);
        if (room < text_len) {
            LAW("a short output", status == DE_SHORT_BUFFER && written == 77);
            check_guards(&output, 0);
            continue;
        }
        LAW("a text", status == DE_OK && written == text_len);
        check_guards(&output, text_len);
        text = copy_at_end(&other_input, output.memory + GUARD, text_len);
        LAW("the text is valid", decode(&builds[1 - which], by, text, text_len, fresh(&again, len),
                                        len, &decoded) == DE_OK);
        LAW("the text is read",
            decoded.read == text_len && decoded.position == text_len && decoded.written == len);
        LAW("round trip", len == 0 || memcmp(again.memory + GUARD, bytes, len) == 0);
        check_guards(&again, len);
    }
}

static bool is_fault(de_status status) {
    return status >= DE_INVALID_LENGTH && status <= DE_INVALID_PADDING;
}

/* The result for the whole room, which a call by either build and into any other room agrees with.
 */
struct result {
    de_status status;
    de_decoded decoded;
};

static struct result check_whole(const struct by *by, const void *text, size_t len, size_t most,
                                 bool has_most) {
    struct result result;
    de_decoded front;
    result.status = decode(&builds[0], by, text, len, fresh(&output, most), most, &result.decoded);
    LAW("a text has data or a fault", result.status == DE_OK || is_fault(result.status));
    LAW("a length that no text has", has_most || result.status == DE_INVALID_LENGTH);
    check_guards(&output, has_most ? most : 0);
    LAW("data is within the output", result.decoded.written <= most);
    if (result.status == DE_OK) {
        LAW("all is read", result.decoded.read == len && result.decoded.position == len);
        return result;
    }
    LAW("a fault is inside the text", result.decoded.position < len);
    LAW("no more is read", result.decoded.read <= len);
    if (has_most) {
        LAW("the bytes before a fault are valid",
            decode(&builds[0], by, copy_at_end(&other_input, text, result.decoded.read),
                   result.decoded.read, fresh(&again, most), most, &front) == DE_OK);
        LAW("and mean what was written",
            front.written == result.decoded.written &&
                memcmp(again.memory + GUARD, output.memory + GUARD, front.written) == 0);
    }
    return result;
}

static void check_decode(const struct by *by, const uint8_t *bytes, size_t len, size_t room) {
    const void *text = copy_at_end(&input, bytes, len);
    size_t most = 0;
    bool has_most = decode_len(by, len, &most) == DE_OK;
    struct result whole = check_whole(by, text, len, has_most ? most : 0, has_most);
    int which;
    if (!has_most) {
        LAW("the greatest valid length",
            whole.decoded.position == most && decode_len(by, most, &most) == DE_OK);
        return;
    }
    for (which = 0; which < 2; which++) {
        de_decoded decoded = {77, 77, 77};
        de_status status =
            decode(&builds[which], by, text, len, fresh(&again, room), room, &decoded);
        check_guards(&again, room < most ? room : most);
        if (whole.status == DE_OK && room < whole.decoded.written) {
            LAW("a short output", status == DE_SHORT_BUFFER);
            LAW("the room that is needed", decoded.written == whole.decoded.written &&
                                               decoded.read == 0 && decoded.position == 0);
            continue;
        }
        LAW("the status in any room", status == whole.status);
        LAW("the position in any room", decoded.position == whole.decoded.position);
        if (status == DE_OK || room >= most) {
            LAW("the data in any room",
                decoded.read == whole.decoded.read && decoded.written == whole.decoded.written &&
                    memcmp(again.memory + GUARD, output.memory + GUARD, decoded.written) == 0);
        } else {
            LAW("no data after a fault", decoded.read == 0 && decoded.written == 0);
        }
    }
}

/* A text with data that an encoding reads in one way only is the text of its data. */
static void check_canonical(const struct by *by, const uint8_t *bytes, size_t len) {
    bool canonical = false;
    de_decoded decoded;
    size_t text_len;
    LAW("canonical or not", (by->is_own ? de_encoding_is_canonical(&by->own, &canonical)
                                        : de_is_canonical(by->number, &canonical)) == DE_OK);
    if (!canonical ||
        decode(&builds[0], by, bytes, len, fresh(&again, len), len, &decoded) != DE_OK) {
        return;
    }
    LAW("the text of the data", encode(&builds[0], by, again.memory + GUARD, decoded.written,
                                       fresh(&output, len), len, &text_len) == DE_OK &&
                                    text_len == len &&
                                    memcmp(output.memory + GUARD, bytes, len) == 0);
}

int LLVMFuzzerTestOneInput(const uint8_t *bytes, size_t len) {
    struct words words = {bytes, len};
    struct by by = some_encoding(&words);
    size_t room = up_to(&words, 4 * len);
    if (words.left <= 4096) {
        check_encode(&by, words.at, words.left, room);
        check_encode(&by, words.at, words.left, 9 * words.left + 600);
        check_decode(&by, words.at, words.left, room);
        check_decode(&by, words.at, words.left, words.left);
        check_canonical(&by, words.at, words.left);
    }
    return 0;
}
