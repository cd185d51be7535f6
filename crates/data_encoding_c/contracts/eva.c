/* Each call of the header, with any pointers and lengths that the header allows: for Eva, which
 * knows memory by bytes. The exports are what their contracts say. */
#include "data_encoding.c"
#include "words.h"
#include "exports.h"

/*@ assigns \result \from \nothing; ensures valid_read_string(\result); */
const char *de_version(void);
/*@ assigns \result \from status; ensures valid_read_string(\result); */
const char *de_status_text(de_status status);

extern volatile int any;
extern volatile size_t any_size;

enum { MOST = 100 };
static byte data[MOST];
static byte room[MOST];
static char texts_room[DE_TEXTS_LIMIT];

/*@ assigns \result \from any_size, most; ensures \result <= most; */
size_t up_to(size_t most);

static size_t size, other;
static de_decoded decoded_room;
static bool answer_room;
static de_number found_room;
static de_encoding encoding_room;
static de_decoder decoder_room;
static de_encoder encoder_room;
static de_specification asked_room = DE_SPECIFICATION;
static de_specification given_room;

static de_status calls(const void *input, size_t input_len, byte *output, size_t output_len,
                       size_t *to_size, size_t *detail, de_decoded *decoded, bool *answer,
                       de_number *found, de_encoding *encoding, de_decoder *decoder,
                       de_encoder *encoder, de_specification *asked, de_specification *given,
                       char *texts, size_t texts_len) {
    de_number number = (de_number)any;
    size_t len = any_size;
    de_status status = 0;
    while (any) {
        switch (any) {
        case 0: status = de_encode_len(number, len, to_size); break;
        case 1:
            status = de_encode(number, input, input_len, (char *)output, output_len, to_size);
            break;
        case 2: status = de_decode_len(number, len, to_size); break;
        case 3: status = de_decode(number, input, input_len, output, output_len, decoded); break;
        case 4: status = de_is_canonical(number, answer); break;
        case 5: status = de_name(number, (char *)output, output_len, to_size); break;
        case 6: status = de_number_named(input, input_len, found); break;
        case 7:
            asked_room.symbols = input;
            asked_room.symbols_len = input_len;
            asked_room.wrap_separator = input;
            asked_room.wrap_separator_len = input_len;
            asked_room.wrap_width = any_size;
            asked_room.translate_to = input;
            asked_room.translate_to_len = input_len;
            asked_room.padding = any;
            asked_room.concatenate = any != 0;
            status = de_encoding_new(encoding, asked, detail);
            break;
        case 8: status = de_encoding_layout(encoding, output, output_len, to_size); break;
        case 9: status = de_encoding_read(encoding, input, input_len); break;
        case 10: status = de_encoding_encode_len(encoding, len, to_size); break;
        case 11:
            status =
                de_encoding_encode(encoding, input, input_len, (char *)output, output_len, to_size);
            break;
        case 12: status = de_encoding_decode_len(encoding, len, to_size); break;
        case 13:
            status = de_encoding_decode(encoding, input, input_len, output, output_len, decoded);
            break;
        case 14: status = de_encoding_is_canonical(encoding, answer); break;
        case 15: status = de_decoder_new(decoder); break;
        case 16: status = de_decoder_most(number, decoder, len, to_size); break;
        case 17:
            status =
                de_decoder_read(number, decoder, input, input_len, output, output_len, to_size);
            break;
        case 18: status = de_decoder_finish(number, decoder, output, output_len, decoded); break;
        case 19: status = de_encoding_decoder_most(encoding, decoder, len, to_size); break;
        case 20:
            status = de_encoding_decoder_read(encoding, decoder, input, input_len, output,
                                              output_len, to_size);
            break;
        case 21:
            status = de_encoding_decoder_finish(encoding, decoder, output, output_len, decoded);
            break;
        case 22: status = de_encode_align(number, to_size); break;
        case 23: status = de_bit_width(number, to_size); break;
        case 24: status = de_specification_of(number, given, texts, texts_len); break;
        case 25: status = de_encoding_specification(encoding, given, texts, texts_len); break;
        case 26: status = de_encoding_encode_align(encoding, to_size); break;
        case 27: status = de_encoding_bit_width(encoding, to_size); break;
        case 28: status = de_encoder_new(encoder); break;
        case 29: status = de_encoder_most(number, encoder, len, to_size); break;
        case 30:
            status = de_encoder_read(number, encoder, input, input_len, (char *)output, output_len,
                                     to_size);
            break;
        case 31:
            status = de_encoder_finish(number, encoder, (char *)output, output_len, to_size);
            break;
        case 32: status = de_encoding_encoder_most(encoding, encoder, len, to_size); break;
        case 33:
            status = de_encoding_encoder_read(encoding, encoder, input, input_len, (char *)output,
                                              output_len, to_size);
            break;
        default:
            status =
                de_encoding_encoder_finish(encoding, encoder, (char *)output, output_len, to_size);
        }
    }
    return status;
}

int main(void) {
#ifdef DE_WIDE
    choose();
#endif
    (void)de_version();
    (void)de_is_supported();
    (void)de_status_text((de_status)any);
    // Every pointer, and bytes of any length.
    calls(data, up_to(MOST), room, up_to(MOST), &size, &other, &decoded_room, &answer_room,
          &found_room, &encoding_room, &decoder_room, &encoder_room, &asked_room, &given_room,
          texts_room, up_to(DE_TEXTS_LIMIT));
    // An output that is the input.
    size_t bytes = up_to(MOST - 1) + 1;
    calls(data, bytes, data, bytes, &size, &other, &decoded_room, &answer_room, &found_room,
          &encoding_room, &decoder_room, &encoder_room, &asked_room, &given_room, texts_room,
          up_to(DE_TEXTS_LIMIT));
    // No bytes.
    calls(NULL, 0, NULL, 0, &size, NULL, &decoded_room, &answer_room, &found_room, &encoding_room,
          &decoder_room, &encoder_room, &asked_room, &given_room, NULL, 0);
    // Any pointer is null, with any length.
    calls(NULL, any_size, NULL, any_size, &size, NULL, &decoded_room, &answer_room, &found_room,
          &encoding_room, &decoder_room, &encoder_room, &asked_room, &given_room, NULL, any_size);
    calls(data, up_to(MOST), room, up_to(MOST), NULL, NULL, NULL, NULL, NULL,
          any ? NULL : &encoding_room, any ? NULL : &decoder_room, any ? NULL : &encoder_room,
          any ? NULL : &asked_room, NULL, texts_room, up_to(DE_TEXTS_LIMIT));
    return 0;
}
