/* An output that overlaps the input is refused by each call that reads bytes and writes bytes, and
 * nothing changes. One that is beside the input is not. */
#include "data_encoding.h"
#include "tests.h"

#include <string.h>

enum { ROOM = 64, LEN = 16, AT = 24 };

/* The calls: of a number, and of an encoding. */
enum { ENCODE, DECODE, READ_TEXT, READ_DATA, CALLS };

static de_encoding own;

static de_status call(int which, bool is_own, const char *input, size_t len, char *output,
                      size_t room) {
    de_decoded decoded;
    de_decoder decoder;
    de_encoder encoder;
    size_t written;
    de_decoder_new(&decoder);
    de_encoder_new(&encoder);
    switch (which) {
    case ENCODE:
        return is_own ? de_encoding_encode(&own, input, len, output, room, &written)
                      : de_encode(DE_HEXLOWER, input, len, output, room, &written);
    case DECODE:
        return is_own ? de_encoding_decode(&own, input, len, output, room, &decoded)
                      : de_decode(DE_HEXLOWER, input, len, output, room, &decoded);
    case READ_TEXT:
        return is_own ? de_encoding_decoder_read(&own, &decoder, input, len, output, room, &written)
                      : de_decoder_read(DE_HEXLOWER, &decoder, input, len, output, room, &written);
    default:
        return is_own ? de_encoding_encoder_read(&own, &encoder, input, len, output, room, &written)
                      : de_encoder_read(DE_HEXLOWER, &encoder, input, len, output, room, &written);
    }
}

/* Calls with an output of room bytes from an index on; the input has LEN bytes from AT on. */
static void with_output(int which, bool is_own, size_t index, size_t room) {
    char memory[ROOM];
    char before[ROOM];
    bool is_beside = room == 0 || index + room <= AT || index >= AT + LEN;
    de_status status;
    memset(memory, '4', sizeof memory);
    memcpy(before, memory, sizeof memory);
    status = call(which, is_own, memory + AT, LEN, memory + index, room);
    if (is_beside) {
        holds("an output beside the input", status == DE_OK || status == DE_SHORT_BUFFER);
    } else {
        is("an output in the input", DE_OVERLAP, status);
        holds("nothing changes", memcmp(memory, before, sizeof memory) == 0);
    }
}

int main(void) {
    de_specification asked = DE_SPECIFICATION;
    char memory[ROOM];
    int which;
    asked.symbols = "0123456789abcdef";
    asked.symbols_len = 16;
    is("an encoding", DE_OK, de_encoding_new(&own, &asked, NULL));
    memset(memory, '4', sizeof memory);
    for (which = 0; which < CALLS; which++) {
        size_t index;
        size_t room;
        for (index = 0; index < ROOM; index++) {
            for (room = 0; index + room <= ROOM; room++) {
                with_output(which, false, index, room);
                with_output(which, true, index, room);
            }
        }
        is("no input", DE_OK, call(which, false, memory + 8, 0, memory, ROOM));
        is("no input", DE_OK, call(which, true, NULL, 0, memory, ROOM));
    }
    holds("a text", strcmp(de_status_text(DE_OVERLAP), "the output overlaps the input") == 0);
    printf("%d passed, %d failed\n", passed, failed);
    return failed != 0;
}
