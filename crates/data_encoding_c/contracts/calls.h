/* What the calls of data_encoding.h promise. Proved. */

#define TABLES BYTES(encoding->tables, DE_TABLES)
#define BASE base_of_plain(TABLES)
#define TELLS(Does, by, new) Does(\old(by), len, \old(*new), *new, \result)
#define CONVERTS(Does, by, new) \
    Does(\old(by), \old(BYTES(input, input_len)), \old(BYTES(output, output_len)), \
        BYTES(output, output_len), \old(*new), *new, \result)
#define WRITES(Does, by) \
    Does(\old(by), \old(BYTES(output, output_len)), BYTES(output, output_len), \old(*written), \
        *written, \result)
#define TELLS_MOST(Does, by, state) Does(\old(by), \old(*state), len, \old(*most), *most, \result)
#define READS(Does, by, state) \
    Does(\old(by), \old(BYTES(input, input_len)), \old(*state), *state, \
        \old(BYTES(output, output_len)), BYTES(output, output_len), \old(*written), *written, \
        \result)
#define FINISHES(Does, by, state, new) \
    Does(\old(by), \old(*state), \old(BYTES(output, output_len)), BYTES(output, output_len), \
        \old(*new), *new, \result)

/* The cases, in their order: a pointer is missing, the encoding was not made, the output overlaps the
 * input, or the call is an export's. */
#define REFUSES(no_pointer) \
    terminates yes; exits no; \
    behavior null: \
      assumes no_pointer; \
      assigns \nothing; \
      ensures \result == DE_NULL_POINTER;
#define REFUSES_UNMADE(no_pointer) \
    requires was_made(encoding); \
    REFUSES(encoding == \null || (no_pointer)) \
    behavior none: \
      assumes !(encoding == \null || (no_pointer)) && !marked(encoding); \
      assigns \nothing; \
      ensures \result == DE_NO_ENCODING;
#define IS_MADE(no_pointer) (!(encoding == \null || (no_pointer)) && marked(encoding))
#define OVERLAPS overlaps(input, input_len, output, output_len)
#define REFUSES_OVERLAP(otherwise) \
    behavior overlap: \
      assumes otherwise && OVERLAPS; \
      assigns \nothing; \
      ensures \result == DE_OVERLAP; \
    behavior call: \
      assumes otherwise && !OVERLAPS; \
      requires input_len > DE_ENCODE_LIMIT ==> \
        \separated(SPAN(input, input_len), SPAN(output, output_len));
#define CALL_UNLESS(no_pointer) \
    REFUSES(no_pointer) \
    behavior call: \
      assumes !(no_pointer);
#define CALL_IF_MADE(no_pointer) \
    REFUSES_UNMADE(no_pointer) \
    behavior call: \
      assumes IS_MADE(no_pointer);
#define CONVERT_UNLESS(no_pointer) \
    REFUSES(no_pointer) \
    REFUSES_OVERLAP(!(no_pointer))
#define CONVERT_IF_MADE(no_pointer) \
    REFUSES_UNMADE(no_pointer) \
    REFUSES_OVERLAP(IS_MADE(no_pointer))
#define CASES complete behaviors; disjoint behaviors;
#define VALUE(p) (p == \null || \valid(p))
#define VALUE_READ(p) (p == \null || \valid_read(p))

/*@ terminates \true; exits \false;
  @ assigns \result \from \nothing;
  @ ensures valid_read_string(\result);
  @*/
const char *de_version(void);
/*@ terminates \true; exits \false;
  @ assigns \result \from \nothing;
  @ ensures \result <==> has_v2;
  @*/
bool de_is_supported(void);
/*@ terminates \true; exits \false;
  @ assigns \result \from status;
  @ ensures valid_read_string(\result);
  @*/
const char *de_status_text(de_status status);

/*@ requires VALUE(text_len);
  @ CALL_UNLESS(text_len == \null)
  @   assigns *text_len;
  @   ensures TELLS(TellsTextLengthByNumber, number, text_len);
  @ CASES
  @*/
de_status de_encode_len(de_number number, size_t len, size_t *text_len);
/*@ requires chosen;
  @ requires in_bytes(input, input_len) && out_bytes(output, output_len) && VALUE(written);
  @ CONVERT_UNLESS(missing(input, input_len) || missing(output, output_len) || written == \null)
  @   requires \separated(SPAN(input, input_len), written);
  @   requires \separated(SPAN(output, output_len), written);
  @   assigns ((byte *)output)[0 .. output_len - 1], *written;
  @   ensures CONVERTS(EncodesByNumber, number, written);
  @ CASES
  @*/
de_status de_encode(de_number number, const void *input, size_t input_len, char *output,
                    size_t output_len, size_t *written);
/*@ requires VALUE(most);
  @ CALL_UNLESS(most == \null)
  @   assigns *most;
  @   ensures TELLS(TellsMostByNumber, number, most);
  @ CASES
  @*/
de_status de_decode_len(de_number number, size_t len, size_t *most);
/*@ requires chosen;
  @ requires in_bytes(input, input_len) && out_bytes(output, output_len) && VALUE(decoded);
  @ CONVERT_UNLESS(missing(input, input_len) || missing(output, output_len) || decoded == \null)
  @   requires \separated(SPAN(input, input_len), decoded);
  @   requires \separated(SPAN(output, output_len), decoded);
  @   assigns ((byte *)output)[0 .. output_len - 1], *decoded;
  @   ensures CONVERTS(DecodesByNumber, number, decoded);
  @ CASES
  @*/
de_status de_decode(de_number number, const char *input, size_t input_len, void *output,
                    size_t output_len, de_decoded *decoded);
/*@ requires VALUE(canonical);
  @ CALL_UNLESS(canonical == \null)
  @   assigns *canonical;
  @   ensures \exists integer answer; is_bool(answer) &&
  @     TellsIfCanonicalByNumber(number, answer, \result, 0) &&
  @     *canonical == (\result == DE_OK ? answer : \old(*canonical));
  @ CASES
  @*/
de_status de_is_canonical(de_number number, bool *canonical);
/*@ requires out_bytes(output, output_len) && VALUE(written);
  @ CALL_UNLESS(missing(output, output_len) || written == \null)
  @   requires \separated(SPAN(output, output_len), written);
  @   assigns ((byte *)output)[0 .. output_len - 1], *written;
  @   ensures WRITES(WritesName, number);
  @ CASES
  @*/
de_status de_name(de_number number, char *output, size_t output_len, size_t *written);
/*@ requires name_len <= DE_NAME_LIMIT ==> in_bytes(name, name_len);
  @ requires VALUE(number);
  @ REFUSES(missing(name, name_len) || number == \null)
  @ behavior long_name:
  @   assumes !(missing(name, name_len) || number == \null) && name_len > DE_NAME_LIMIT;
  @   assigns \nothing;
  @   ensures \result == DE_UNKNOWN_ENCODING;
  @ behavior call:
  @   assumes !(missing(name, name_len) || number == \null) && name_len <= DE_NAME_LIMIT;
  @   requires \separated(SPAN(name, name_len), number);
  @   assigns *number;
  @   ensures \exists integer found; FindsNumber(\old(BYTES(name, name_len)), 0, found, \result) &&
  @     *number == (\result == DE_OK ? found : \old(*number));
  @ CASES
  @*/
de_status de_number_named(const char *name, size_t name_len, de_number *number);

/* The specification that the caller's fields are. */
#define ASKED \
    base_of(fields_asked( \
        form_of(asked->wrap_width, \
            asked->padding < 0 ? 0 : asked->padding < 128 ? asked->padding : 128, \
            asked->padding < 0 ? 0 : 1, asked->least_significant_first, \
            asked->check_trailing_bits, asked->concatenate), \
        BYTES(asked->symbols, asked->symbols_len), BYTES(asked->ignore, asked->ignore_len), \
        BYTES(asked->wrap_separator, asked->wrap_separator_len), \
        BYTES(asked->translate_from, asked->translate_from_len), \
        BYTES(asked->translate_to, asked->translate_to_len)))
/* The encoding is what was made, if one was, and otherwise as before. */
#define STORES(held) \
    (\result == DE_OK ? marked(encoding) && TABLES == held && KeepsRules(held) \
        : *encoding == \old(*encoding))
#define NO_TEXTS(asked) \
    (missing(asked->symbols, asked->symbols_len) || missing(asked->ignore, asked->ignore_len) || \
     missing(asked->wrap_separator, asked->wrap_separator_len) || \
     missing(asked->translate_from, asked->translate_from_len) || \
     missing(asked->translate_to, asked->translate_to_len))
/*@ requires VALUE(encoding) && VALUE_READ(asked) && VALUE(detail);
  @ requires asked != \null ==>
  @   in_bytes(asked->symbols, asked->symbols_len) && in_bytes(asked->ignore, asked->ignore_len) &&
  @   in_bytes(asked->wrap_separator, asked->wrap_separator_len) &&
  @   in_bytes(asked->translate_from, asked->translate_from_len) &&
  @   in_bytes(asked->translate_to, asked->translate_to_len);
  @ requires asked != \null ==> \object_pointer(asked->symbols) &&
  @   \object_pointer(asked->ignore) && \object_pointer(asked->wrap_separator) &&
  @   \object_pointer(asked->translate_from) && \object_pointer(asked->translate_to);
  @ requires asked != \null ==> is_bool(asked->least_significant_first) &&
  @   is_bool(asked->check_trailing_bits) && is_bool(asked->concatenate);
  @ CALL_UNLESS(encoding == \null || asked == \null || NO_TEXTS(asked))
  @   requires \separated(encoding, asked, detail);
  @   requires \separated(encoding, SPAN(asked->symbols, asked->symbols_len));
  @   assigns *encoding, *detail;
  @   ensures \exists byte_list held, integer named;
  @     Makes(\old(ASKED), made_of(\result, named, held)) && STORES(held) &&
  @     (detail != \null ==> *detail ==
  @       (\result == DE_DUPLICATE || \result == DE_WRAP_WIDTH || \result == DE_UNDEFINED ?
  @         named : \old(*detail)));
  @ CASES
  @*/
de_status de_encoding_new(de_encoding *encoding, const de_specification *asked, size_t *detail);
/*@ requires out_bytes(output, output_len) && VALUE(written);
  @ CALL_IF_MADE(missing(output, output_len) || written == \null)
  @   requires \separated(encoding, SPAN(output, output_len), written);
  @   assigns ((byte *)output)[0 .. output_len - 1], *written;
  @   ensures WRITES(WritesFront, layout(BASE));
  @ CASES
  @*/
de_status de_encoding_layout(const de_encoding *encoding, void *output, size_t output_len,
                             size_t *written);
/*@ requires VALUE(encoding) && in_bytes(layout, len);
  @ CALL_UNLESS(encoding == \null || missing(layout, len))
  @   requires \separated(encoding, SPAN(layout, len));
  @   assigns *encoding;
  @   ensures \exists byte_list held, integer named;
  @     MakesOfLayout(\old(BYTES(layout, len)), made_of(\result, named, held)) && STORES(held);
  @ CASES
  @*/
de_status de_encoding_read(de_encoding *encoding, const void *layout, size_t len);
/*@ requires VALUE(text_len);
  @ CALL_IF_MADE(text_len == \null)
  @   requires \separated(encoding, text_len);
  @   assigns *text_len;
  @   ensures TELLS(TellsTextLength, BASE, text_len);
  @ CASES
  @*/
de_status de_encoding_encode_len(const de_encoding *encoding, size_t len, size_t *text_len);
/*@ requires chosen;
  @ requires in_bytes(input, input_len) && out_bytes(output, output_len) && VALUE(written);
  @ CONVERT_IF_MADE(missing(input, input_len) || missing(output, output_len) || written == \null)
  @   requires \separated(SPAN(input, input_len), written);
  @   requires \separated(encoding, SPAN(output, output_len), written);
  @   assigns ((byte *)output)[0 .. output_len - 1], *written;
  @   ensures CONVERTS(Encodes, BASE, written);
  @ CASES
  @*/
de_status de_encoding_encode(const de_encoding *encoding, const void *input, size_t input_len,
                             char *output, size_t output_len, size_t *written);
/*@ requires VALUE(most);
  @ CALL_IF_MADE(most == \null)
  @   requires \separated(encoding, most);
  @   assigns *most;
  @   ensures TELLS(TellsMost, BASE, most);
  @ CASES
  @*/
de_status de_encoding_decode_len(const de_encoding *encoding, size_t len, size_t *most);
/*@ requires chosen;
  @ requires in_bytes(input, input_len) && out_bytes(output, output_len) && VALUE(decoded);
  @ CONVERT_IF_MADE(missing(input, input_len) || missing(output, output_len) || decoded == \null)
  @   requires \separated(SPAN(input, input_len), decoded);
  @   requires \separated(encoding, SPAN(output, output_len), decoded);
  @   assigns ((byte *)output)[0 .. output_len - 1], *decoded;
  @   ensures CONVERTS(Decodes, BASE, decoded);
  @ CASES
  @*/
de_status de_encoding_decode(const de_encoding *encoding, const char *input, size_t input_len,
                             void *output, size_t output_len, de_decoded *decoded);
/*@ requires VALUE(canonical);
  @ CALL_IF_MADE(canonical == \null)
  @   requires \separated(encoding, canonical);
  @   assigns *canonical;
  @   ensures \exists integer answer; is_bool(answer) &&
  @     TellsIfCanonical(\old(BASE), answer, \result) &&
  @     *canonical == (\result == DE_OK ? answer : \old(*canonical));
  @ CASES
  @*/
de_status de_encoding_is_canonical(const de_encoding *encoding, bool *canonical);

/*@ requires VALUE(decoder);
  @ CALL_UNLESS(decoder == \null)
  @   assigns *decoder;
  @   ensures \result == DE_OK && EachWasGiven(*decoder);
  @ CASES
  @*/
de_status de_decoder_new(de_decoder *decoder);
/*@ requires VALUE_READ(decoder) && VALUE(most);
  @ CALL_UNLESS(decoder == \null || most == \null)
  @   requires \separated(decoder, most);
  @   assigns *most;
  @   ensures TELLS_MOST(TellsRoomByNumber, number, decoder);
  @ CASES
  @*/
de_status de_decoder_most(de_number number, const de_decoder *decoder, size_t len, size_t *most);
/*@ requires chosen;
  @ requires in_bytes(input, input_len) && out_bytes(output, output_len);
  @ requires VALUE(decoder) && VALUE(written);
  @ CONVERT_UNLESS(decoder == \null || missing(input, input_len) ||
  @     missing(output, output_len) || written == \null)
  @   requires \separated(SPAN(input, input_len), decoder, written);
  @   requires \separated(SPAN(output, output_len), decoder, written);
  @   assigns ((byte *)output)[0 .. output_len - 1], *decoder, *written;
  @   ensures READS(ReadsPieceByNumber, number, decoder);
  @ CASES
  @*/
de_status de_decoder_read(de_number number, de_decoder *decoder, const char *input,
                          size_t input_len, void *output, size_t output_len, size_t *written);
/*@ requires VALUE_READ(decoder) && out_bytes(output, output_len) && VALUE(decoded);
  @ CALL_UNLESS(decoder == \null || missing(output, output_len) || decoded == \null)
  @   requires \separated(decoder, SPAN(output, output_len), decoded);
  @   assigns ((byte *)output)[0 .. output_len - 1], *decoded;
  @   ensures FINISHES(FinishesTextByNumber, number, decoder, decoded);
  @ CASES
  @*/
de_status de_decoder_finish(de_number number, const de_decoder *decoder, void *output,
                            size_t output_len, de_decoded *decoded);
/*@ requires VALUE_READ(decoder) && VALUE(most);
  @ CALL_IF_MADE(decoder == \null || most == \null)
  @   requires \separated(decoder, most) && \separated(encoding, most);
  @   assigns *most;
  @   ensures TELLS_MOST(TellsRoom, BASE, decoder);
  @ CASES
  @*/
de_status de_encoding_decoder_most(const de_encoding *encoding, const de_decoder *decoder,
                                   size_t len, size_t *most);
/*@ requires chosen;
  @ requires in_bytes(input, input_len) && out_bytes(output, output_len);
  @ requires VALUE(decoder) && VALUE(written);
  @ CONVERT_IF_MADE(decoder == \null || missing(input, input_len) ||
  @     missing(output, output_len) || written == \null)
  @   requires \separated(SPAN(input, input_len), decoder, written);
  @   requires \separated(encoding, SPAN(output, output_len), decoder, written);
  @   assigns ((byte *)output)[0 .. output_len - 1], *decoder, *written;
  @   ensures READS(ReadsPieceByCustom, TABLES, decoder);
  @ CASES
  @*/
de_status de_encoding_decoder_read(const de_encoding *encoding, de_decoder *decoder,
                                   const char *input, size_t input_len, void *output,
                                   size_t output_len, size_t *written);
/*@ requires VALUE_READ(decoder) && out_bytes(output, output_len) && VALUE(decoded);
  @ CALL_IF_MADE(decoder == \null || missing(output, output_len) || decoded == \null)
  @   requires \separated(decoder, SPAN(output, output_len), decoded);
  @   requires \separated(encoding, SPAN(output, output_len), decoded);
  @   assigns ((byte *)output)[0 .. output_len - 1], *decoded;
  @   ensures FINISHES(FinishesText, BASE, decoder, decoded);
  @ CASES
  @*/
de_status de_encoding_decoder_finish(const de_encoding *encoding, const de_decoder *decoder,
                                     void *output, size_t output_len, de_decoded *decoded);

/*@ requires VALUE(align);
  @ CALL_UNLESS(align == \null)
  @   assigns *align;
  @   ensures TellsAlignmentByNumber(number, *align, \result, \old(*align));
  @ CASES
  @*/
de_status de_encode_align(de_number number, size_t *align);
/*@ requires VALUE(width);
  @ CALL_UNLESS(width == \null)
  @   assigns *width;
  @   ensures TellsWidthByNumber(number, *width, \result, \old(*width));
  @ CASES
  @*/
de_status de_bit_width(de_number number, size_t *width);

/* What an export writes for a specification, from zeros, is what *specification gets. The first
 * clause only names the texts as they are after the call, for the provers. */
#define GIVES(Gives, by)                                                                           \
    length_of(BYTES(texts, texts_len)) == texts_len &&                                             \
    \exists integer width, pad, has_pad, least, checks, joins, symbols_n, ignore_n, separator_n,   \
        from_n, to_n;                                                                              \
    Gives(by, form_of(0, 0, 0, 0, 0, 0), form_of(width, pad, has_pad, least, checks, joins),       \
        lengths_of(0, 0, 0, 0, 0), lengths_of(symbols_n, ignore_n, separator_n, from_n, to_n),     \
        \old(BYTES(texts, texts_len)), BYTES(texts, texts_len), \result) &&                        \
    (\result == DE_OK ? GIVEN(specification, width, pad, has_pad, least, checks, joins, symbols_n, \
                              ignore_n, separator_n, from_n, to_n)                                 \
        : *specification == \old(*specification))
/*@ requires VALUE(specification) && out_bytes(texts, texts_len);
  @ CALL_UNLESS(specification == \null || missing(texts, texts_len))
  @   requires \separated(specification, SPAN(texts, texts_len));
  @   assigns *specification, ((byte *)texts)[0 .. texts_len - 1];
  @   ensures GIVES(GivesBackByNumber, number);
  @ CASES
  @*/
de_status de_specification_of(de_number number, de_specification *specification, char *texts,
                              size_t texts_len);
/*@ requires VALUE(specification) && out_bytes(texts, texts_len);
  @ CALL_IF_MADE(specification == \null || missing(texts, texts_len))
  @   requires \separated(encoding, specification, SPAN(texts, texts_len));
  @   assigns *specification, ((byte *)texts)[0 .. texts_len - 1];
  @   ensures GIVES(GivesBackByCustom, \old(TABLES));
  @ CASES
  @*/
de_status de_encoding_specification(const de_encoding *encoding, de_specification *specification,
                                    char *texts, size_t texts_len);
/*@ requires VALUE(align);
  @ CALL_IF_MADE(align == \null)
  @   requires \separated(encoding, align);
  @   assigns *align;
  @   ensures TellsAlignment(\old(BASE), *align, \result);
  @ CASES
  @*/
de_status de_encoding_encode_align(const de_encoding *encoding, size_t *align);
/*@ requires VALUE(width);
  @ CALL_IF_MADE(width == \null)
  @   requires \separated(encoding, width);
  @   assigns *width;
  @   ensures TellsWidth(\old(BASE), *width, \result);
  @ CASES
  @*/
de_status de_encoding_bit_width(const de_encoding *encoding, size_t *width);

/*@ requires VALUE(encoder);
  @ CALL_UNLESS(encoder == \null)
  @   assigns *encoder;
  @   ensures \result == DE_OK && EachHasWritten(*encoder);
  @ CASES
  @*/
de_status de_encoder_new(de_encoder *encoder);
/*@ requires VALUE_READ(encoder) && VALUE(most);
  @ CALL_UNLESS(encoder == \null || most == \null)
  @   requires \separated(encoder, most);
  @   assigns *most;
  @   ensures TELLS_MOST(TellsDueByNumber, number, encoder);
  @ CASES
  @*/
de_status de_encoder_most(de_number number, const de_encoder *encoder, size_t len, size_t *most);
/*@ requires chosen;
  @ requires in_bytes(input, input_len) && out_bytes(output, output_len);
  @ requires VALUE(encoder) && VALUE(written);
  @ CONVERT_UNLESS(encoder == \null || missing(input, input_len) ||
  @     missing(output, output_len) || written == \null)
  @   requires \separated(SPAN(input, input_len), encoder, written);
  @   requires \separated(SPAN(output, output_len), encoder, written);
  @   assigns ((byte *)output)[0 .. output_len - 1], *encoder, *written;
  @   ensures READS(EncodesPieceByNumber, number, encoder);
  @ CASES
  @*/
de_status de_encoder_read(de_number number, de_encoder *encoder, const void *input,
                          size_t input_len, char *output, size_t output_len, size_t *written);
/*@ requires VALUE_READ(encoder) && out_bytes(output, output_len) && VALUE(written);
  @ CALL_UNLESS(encoder == \null || missing(output, output_len) || written == \null)
  @   requires \separated(encoder, SPAN(output, output_len), written);
  @   assigns ((byte *)output)[0 .. output_len - 1], *written;
  @   ensures FINISHES(FinishesDataByNumber, number, encoder, written);
  @ CASES
  @*/
de_status de_encoder_finish(de_number number, const de_encoder *encoder, char *output,
                            size_t output_len, size_t *written);
/*@ requires VALUE_READ(encoder) && VALUE(most);
  @ CALL_IF_MADE(encoder == \null || most == \null)
  @   requires \separated(encoder, most) && \separated(encoding, most);
  @   assigns *most;
  @   ensures TELLS_MOST(TellsDue, BASE, encoder);
  @ CASES
  @*/
de_status de_encoding_encoder_most(const de_encoding *encoding, const de_encoder *encoder,
                                   size_t len, size_t *most);
/*@ requires chosen;
  @ requires in_bytes(input, input_len) && out_bytes(output, output_len);
  @ requires VALUE(encoder) && VALUE(written);
  @ CONVERT_IF_MADE(encoder == \null || missing(input, input_len) ||
  @     missing(output, output_len) || written == \null)
  @   requires \separated(SPAN(input, input_len), encoder, written);
  @   requires \separated(encoding, SPAN(output, output_len), encoder, written);
  @   assigns ((byte *)output)[0 .. output_len - 1], *encoder, *written;
  @   ensures READS(EncodesPieceByCustom, TABLES, encoder);
  @ CASES
  @*/
de_status de_encoding_encoder_read(const de_encoding *encoding, de_encoder *encoder,
                                   const void *input, size_t input_len, char *output,
                                   size_t output_len, size_t *written);
/*@ requires VALUE_READ(encoder) && out_bytes(output, output_len) && VALUE(written);
  @ CALL_IF_MADE(encoder == \null || missing(output, output_len) || written == \null)
  @   requires \separated(encoder, SPAN(output, output_len), written);
  @   requires \separated(encoding, SPAN(output, output_len), written);
  @   assigns ((byte *)output)[0 .. output_len - 1], *written;
  @   ensures FINISHES(FinishesData, BASE, encoder, written);
  @ CASES
  @*/
de_status de_encoding_encoder_finish(const de_encoding *encoding, const de_encoder *encoder,
                                     char *output, size_t output_len, size_t *written);
