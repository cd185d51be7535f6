/* What the proved exports require and ensure: written by docs/exports.py from src/, do not edit.
 * Assumed here, proved there.
 *
 * The relations have no definitions here. `RByNumber` is `ByNumber .. (λ base. R base ..)`, and
 * `EachR` is an R of every base. */

/*@ axiomatic Relations {
  @   type value;
  @   type form_value;
  @   logic form_value form_of(integer wrap_width, integer padding, integer has_padding,
  @     integer least_significant_first, integer check_trailing_bits, integer concatenate);
  @   type lengths_value;
  @   logic lengths_value lengths_of(integer symbols, integer ignore, integer separator,
  @     integer translate_from, integer translate_to);
  @   type made_value;
  @   logic made_value made_of(integer status, integer detail, byte_list held);
  @   logic value fields_asked(form_value a, byte_list b, byte_list c, byte_list d, byte_list e,
  @     byte_list f);
  @   logic value base_of(value a);
  @   predicate Makes(value a, made_value b);
  @   logic value base_of_plain(byte_list a);
  @   predicate TellsTextLength(value a, integer b, integer c, integer d, integer e);
  @   predicate Encodes(value a, byte_list b, byte_list c, byte_list d, integer e, integer f,
  @     integer g);
  @   predicate TellsMost(value a, integer b, integer c, integer d, integer e);
  @   predicate Decodes(value a, byte_list b, byte_list c, byte_list d, de_decoded e, de_decoded f,
  @     integer g);
  @   predicate TellsIfCanonical(value a, integer b, integer c);
  @   logic value layout(value a);
  @   predicate WritesFront(value a, byte_list b, byte_list c, integer d, integer e, integer f);
  @   predicate MakesOfLayout(byte_list a, made_value b);
  @   predicate EachWasGiven(de_decoder a);
  @   predicate TellsRoomByNumber(integer a, de_decoder b, integer c, integer d, integer e,
  @     integer f);
  @   predicate ReadsPieceByNumber(integer a, byte_list b, de_decoder c, de_decoder d, byte_list e,
  @     byte_list f, integer g, integer h, integer i);
  @   predicate FinishesTextByNumber(integer a, de_decoder b, byte_list c, byte_list d,
  @     de_decoded e, de_decoded f, integer g);
  @   predicate TellsRoom(value a, de_decoder b, integer c, integer d, integer e, integer f);
  @   predicate ReadsPieceByCustom(byte_list a, byte_list b, de_decoder c, de_decoder d,
  @     byte_list e, byte_list f, integer g, integer h, integer i);
  @   predicate FinishesText(value a, de_decoder b, byte_list c, byte_list d, de_decoded e,
  @     de_decoded f, integer g);
  @   predicate EachHasWritten(de_encoder a);
  @   predicate TellsDueByNumber(integer a, de_encoder b, integer c, integer d, integer e,
  @     integer f);
  @   predicate EncodesPieceByNumber(integer a, byte_list b, de_encoder c, de_encoder d,
  @     byte_list e, byte_list f, integer g, integer h, integer i);
  @   predicate FinishesDataByNumber(integer a, de_encoder b, byte_list c, byte_list d, integer e,
  @     integer f, integer g);
  @   predicate TellsDue(value a, de_encoder b, integer c, integer d, integer e, integer f);
  @   predicate EncodesPieceByCustom(byte_list a, byte_list b, de_encoder c, de_encoder d,
  @     byte_list e, byte_list f, integer g, integer h, integer i);
  @   predicate FinishesData(value a, de_encoder b, byte_list c, byte_list d, integer e, integer f,
  @     integer g);
  @   predicate WritesName(integer a, byte_list b, byte_list c, integer d, integer e, integer f);
  @   predicate FindsNumber(byte_list a, integer b, integer c, integer d);
  @   predicate TellsTextLengthByNumber(integer a, integer b, integer c, integer d, integer e);
  @   predicate EncodesByNumber(integer a, byte_list b, byte_list c, byte_list d, integer e,
  @     integer f, integer g);
  @   predicate TellsMostByNumber(integer a, integer b, integer c, integer d, integer e);
  @   predicate DecodesByNumber(integer a, byte_list b, byte_list c, byte_list d, de_decoded e,
  @     de_decoded f, integer g);
  @   predicate TellsIfCanonicalByNumber(integer a, integer b, integer c, integer d);
  @   predicate TellsAlignmentByNumber(integer a, integer b, integer c, integer d);
  @   predicate TellsAlignment(value a, integer b, integer c);
  @   predicate TellsWidthByNumber(integer a, integer b, integer c, integer d);
  @   predicate TellsWidth(value a, integer b, integer c);
  @   predicate GivesBackByNumber(integer a, form_value b, form_value c, lengths_value d,
  @     lengths_value e, byte_list f, byte_list g, integer h);
  @   predicate GivesBackByCustom(byte_list a, form_value b, form_value c, lengths_value d,
  @     lengths_value e, byte_list f, byte_list g, integer h);
  @ }
  @*/

#define FORM(p) form_of((p)->wrap_width, (p)->padding, (p)->has_padding,                           \
    (p)->least_significant_first, (p)->check_trailing_bits, (p)->concatenate)
#define LENGTHS(p) lengths_of((p)->symbols, (p)->ignore, (p)->separator, (p)->translate_from,      \
    (p)->translate_to)

/* Makes (base_of (fields_asked form.now symbols.now ignore.now separator.now from.now to.now))
 * result */
/*@ requires \valid_read(form);
  @ requires \initialized(&form->has_padding) && is_bool(form->has_padding);
  @ requires \initialized(&form->least_significant_first) && is_bool(form->least_significant_first);
  @ requires \initialized(&form->check_trailing_bits) && is_bool(form->check_trailing_bits);
  @ requires \initialized(&form->concatenate) && is_bool(form->concatenate);
  @ requires slice(symbols, symbols_len);
  @ requires slice(ignore, ignore_len);
  @ requires slice(separator, separator_len);
  @ requires slice(from, from_len);
  @ requires slice(to, to_len);
  @ terminates \true; exits \false;
  @ assigns \result \from *form, symbols[0 .. symbols_len - 1], ignore[0 .. ignore_len - 1],
  @   separator[0 .. separator_len - 1], from[0 .. from_len - 1], to[0 .. to_len - 1], symbols_len,
  @   ignore_len, separator_len, from_len, to_len;
  @ ensures \exists byte_list held; ARE_BYTES(\result.held, DE_TABLES, held) && KeepsRules(held) &&
  @   Makes(base_of(fields_asked(\old(FORM(form)), \old(BYTES(symbols, symbols_len)),
  @   \old(BYTES(ignore, ignore_len)), \old(BYTES(separator, separator_len)), \old(BYTES(from,
  @   from_len)), \old(BYTES(to, to_len)))), made_of(\result.status, \result.detail, held));
  @*/
struct made de_custom_new(const struct form *form, const byte *symbols, size_t symbols_len,
    const byte *ignore, size_t ignore_len, const byte *separator, size_t separator_len,
    const byte *from, size_t from_len, const byte *to, size_t to_len);

/* TellsTextLength (base_of_plain held.now) len text_len.old text_len.new result */
/*@ requires slice(held, DE_TABLES);
  @ requires KeepsRules(BYTES(held, DE_TABLES));
  @ requires \valid(text_len);
  @ requires \separated(SPAN(held, DE_TABLES), text_len);
  @ terminates \true; exits \false;
  @ assigns *text_len, \result \from held[0 .. DE_TABLES - 1], len, *text_len;
  @ ensures TellsTextLength(base_of_plain(\old(BYTES(held, DE_TABLES))), len, \old(*text_len),
  @   *text_len, \result);
  @*/
de_status de_custom_encode_len(const byte *held, size_t len, size_t *text_len);

/* Encodes (base_of_plain held.now) input.now output.old output.new written.old written.new
 * result */
/*@ requires slice(held, DE_TABLES);
  @ requires KeepsRules(BYTES(held, DE_TABLES));
  @ requires slice(input, input_len);
  @ requires slice_mut(output, output_len);
  @ requires \valid(written);
  @ requires \separated(SPAN(held, DE_TABLES), SPAN(output, output_len), written);
  @ requires \separated(SPAN(input, input_len), SPAN(output, output_len), written);
  @ terminates \true; exits \false;
  @ assigns output[0 .. output_len - 1], *written, \result \from held[0 .. DE_TABLES - 1],
  @   input[0 .. input_len - 1], output[0 .. output_len - 1], *written, input_len, output_len;
  @ ensures Encodes(base_of_plain(\old(BYTES(held, DE_TABLES))), \old(BYTES(input, input_len)),
  @   \old(BYTES(output, output_len)), BYTES(output, output_len), \old(*written), *written,
  @   \result);
  @*/
de_status de_custom_encode(const byte *held, const byte *input, size_t input_len, byte *output,
    size_t output_len, size_t *written);

/* TellsMost (base_of_plain held.now) len most.old most.new result */
/*@ requires slice(held, DE_TABLES);
  @ requires KeepsRules(BYTES(held, DE_TABLES));
  @ requires \valid(most);
  @ requires \separated(SPAN(held, DE_TABLES), most);
  @ terminates \true; exits \false;
  @ assigns *most, \result \from held[0 .. DE_TABLES - 1], len, *most;
  @ ensures TellsMost(base_of_plain(\old(BYTES(held, DE_TABLES))), len, \old(*most), *most,
  @   \result);
  @*/
de_status de_custom_decode_len(const byte *held, size_t len, size_t *most);

/* Decodes (base_of_plain held.now) input.now output.old output.new decoded.old decoded.new
 * result */
/*@ requires slice(held, DE_TABLES);
  @ requires KeepsRules(BYTES(held, DE_TABLES));
  @ requires slice(input, input_len);
  @ requires slice_mut(output, output_len);
  @ requires \valid(decoded);
  @ requires \separated(SPAN(held, DE_TABLES), SPAN(output, output_len), decoded);
  @ requires \separated(SPAN(input, input_len), SPAN(output, output_len), decoded);
  @ terminates \true; exits \false;
  @ assigns output[0 .. output_len - 1], *decoded, \result \from held[0 .. DE_TABLES - 1],
  @   input[0 .. input_len - 1], output[0 .. output_len - 1], *decoded, input_len, output_len;
  @ ensures Decodes(base_of_plain(\old(BYTES(held, DE_TABLES))), \old(BYTES(input, input_len)),
  @   \old(BYTES(output, output_len)), BYTES(output, output_len), \old(*decoded), *decoded,
  @   \result);
  @*/
de_status de_custom_decode(const byte *held, const byte *input, size_t input_len, byte *output,
    size_t output_len, de_decoded *decoded);

/* TellsIfCanonical (base_of_plain held.now) answer.new result */
/*@ requires slice(held, DE_TABLES);
  @ requires KeepsRules(BYTES(held, DE_TABLES));
  @ requires \valid(answer);
  @ requires \initialized(&*answer) && is_bool(*answer);
  @ requires \separated(SPAN(held, DE_TABLES), answer);
  @ terminates \true; exits \false;
  @ assigns *answer, \result \from held[0 .. DE_TABLES - 1], *answer;
  @ ensures \initialized(&*answer) && is_bool(*answer);
  @ ensures TellsIfCanonical(base_of_plain(\old(BYTES(held, DE_TABLES))), *answer, \result);
  @*/
de_status de_custom_is_canonical(const byte *held, bool *answer);

/* WritesFront (layout (base_of_plain held.now)) output.old output.new written.old written.new
 * result */
/*@ requires slice(held, DE_TABLES);
  @ requires KeepsRules(BYTES(held, DE_TABLES));
  @ requires slice_mut(output, output_len);
  @ requires \valid(written);
  @ requires \separated(SPAN(held, DE_TABLES), SPAN(output, output_len), written);
  @ terminates \true; exits \false;
  @ assigns output[0 .. output_len - 1], *written, \result \from held[0 .. DE_TABLES - 1],
  @   output[0 .. output_len - 1], *written, output_len;
  @ ensures WritesFront(layout(base_of_plain(\old(BYTES(held, DE_TABLES)))), \old(BYTES(output,
  @   output_len)), BYTES(output, output_len), \old(*written), *written, \result);
  @*/
de_status de_custom_layout(const byte *held, byte *output, size_t output_len, size_t *written);

/* MakesOfLayout bytes.now result */
/*@ requires slice(bytes, bytes_len);
  @ terminates \true; exits \false;
  @ assigns \result \from bytes[0 .. bytes_len - 1], bytes_len;
  @ ensures \exists byte_list held; ARE_BYTES(\result.held, DE_TABLES, held) && KeepsRules(held) &&
  @   MakesOfLayout(\old(BYTES(bytes, bytes_len)), made_of(\result.status, \result.detail, held));
  @*/
struct made de_custom_read(const byte *bytes, size_t bytes_len);

/* (base : Base) → IsSpecified base → WasGiven base decoder.new [] */
/*@ requires \valid(decoder);
  @ terminates \true; exits \false;
  @ assigns *decoder \from *decoder;
  @ ensures EachWasGiven(*decoder);
  @*/
void de_plain_decoder_new(de_decoder *decoder);

/* ByNumber number result (most.new ≡ most.old) (λ base. TellsRoom base decoder.now len most.old
 * most.new result) */
/*@ requires \valid_read(decoder);
  @ requires \valid(most);
  @ requires \separated(decoder, most);
  @ terminates \true; exits \false;
  @ assigns *most, \result \from number, *decoder, len, *most;
  @ ensures TellsRoomByNumber(number, \old(*decoder), len, \old(*most), *most, \result);
  @*/
de_status de_numbered_decoder_most(de_number number, const de_decoder *decoder, size_t len,
    size_t *most);

/* ReadsPieceByNumber number piece.now decoder.old decoder.new output.old output.new written.old
 * written.new result */
/*@ requires \valid(decoder);
  @ requires slice(piece, piece_len);
  @ requires slice_mut(output, output_len);
  @ requires \valid(written);
  @ requires \separated(SPAN(piece, piece_len), decoder, SPAN(output, output_len), written);
  @ terminates \true; exits \false;
  @ assigns *decoder, output[0 .. output_len - 1], *written, \result \from number, *decoder,
  @   piece[0 .. piece_len - 1], output[0 .. output_len - 1], *written, piece_len, output_len;
  @ ensures ReadsPieceByNumber(number, \old(BYTES(piece, piece_len)), \old(*decoder), *decoder,
  @   \old(BYTES(output, output_len)), BYTES(output, output_len), \old(*written), *written,
  @   \result);
  @*/
de_status de_numbered_decoder_read(de_number number, de_decoder *decoder, const byte *piece,
    size_t piece_len, byte *output, size_t output_len, size_t *written);

/* FinishesTextByNumber number decoder.now output.old output.new decoded.old decoded.new result */
/*@ requires \valid_read(decoder);
  @ requires slice_mut(output, output_len);
  @ requires \valid(decoded);
  @ requires \separated(decoder, SPAN(output, output_len), decoded);
  @ terminates \true; exits \false;
  @ assigns output[0 .. output_len - 1], *decoded, \result \from number, *decoder,
  @   output[0 .. output_len - 1], *decoded, output_len;
  @ ensures FinishesTextByNumber(number, \old(*decoder), \old(BYTES(output, output_len)),
  @   BYTES(output, output_len), \old(*decoded), *decoded, \result);
  @*/
de_status de_numbered_decoder_finish(de_number number, const de_decoder *decoder, byte *output,
    size_t output_len, de_decoded *decoded);

/* TellsRoom (base_of_plain held.now) decoder.now len most.old most.new result */
/*@ requires slice(held, DE_TABLES);
  @ requires KeepsRules(BYTES(held, DE_TABLES));
  @ requires \valid_read(decoder);
  @ requires \valid(most);
  @ requires \separated(SPAN(held, DE_TABLES), most);
  @ requires \separated(decoder, most);
  @ terminates \true; exits \false;
  @ assigns *most, \result \from held[0 .. DE_TABLES - 1], *decoder, len, *most;
  @ ensures TellsRoom(base_of_plain(\old(BYTES(held, DE_TABLES))), \old(*decoder), len, \old(*most),
  @   *most, \result);
  @*/
de_status de_custom_decoder_most(const byte *held, const de_decoder *decoder, size_t len,
    size_t *most);

/* ReadsPieceByCustom held.now piece.now decoder.old decoder.new output.old output.new written.old
 * written.new result */
/*@ requires slice(held, DE_TABLES);
  @ requires KeepsRules(BYTES(held, DE_TABLES));
  @ requires \valid(decoder);
  @ requires slice(piece, piece_len);
  @ requires slice_mut(output, output_len);
  @ requires \valid(written);
  @ requires \separated(SPAN(held, DE_TABLES), decoder, SPAN(output, output_len), written);
  @ requires \separated(SPAN(piece, piece_len), decoder, SPAN(output, output_len), written);
  @ terminates \true; exits \false;
  @ assigns *decoder, output[0 .. output_len - 1], *written, \result \from held[0 .. DE_TABLES - 1],
  @   *decoder, piece[0 .. piece_len - 1], output[0 .. output_len - 1], *written, piece_len,
  @   output_len;
  @ ensures ReadsPieceByCustom(\old(BYTES(held, DE_TABLES)), \old(BYTES(piece, piece_len)),
  @   \old(*decoder), *decoder, \old(BYTES(output, output_len)), BYTES(output, output_len),
  @   \old(*written), *written, \result);
  @*/
de_status de_custom_decoder_read(const byte *held, de_decoder *decoder, const byte *piece,
    size_t piece_len, byte *output, size_t output_len, size_t *written);

/* FinishesText (base_of_plain held.now) decoder.now output.old output.new decoded.old decoded.new
 * result */
/*@ requires slice(held, DE_TABLES);
  @ requires KeepsRules(BYTES(held, DE_TABLES));
  @ requires \valid_read(decoder);
  @ requires slice_mut(output, output_len);
  @ requires \valid(decoded);
  @ requires \separated(SPAN(held, DE_TABLES), SPAN(output, output_len), decoded);
  @ requires \separated(decoder, SPAN(output, output_len), decoded);
  @ terminates \true; exits \false;
  @ assigns output[0 .. output_len - 1], *decoded, \result \from held[0 .. DE_TABLES - 1], *decoder,
  @   output[0 .. output_len - 1], *decoded, output_len;
  @ ensures FinishesText(base_of_plain(\old(BYTES(held, DE_TABLES))), \old(*decoder),
  @   \old(BYTES(output, output_len)), BYTES(output, output_len), \old(*decoded), *decoded,
  @   \result);
  @*/
de_status de_custom_decoder_finish(const byte *held, const de_decoder *decoder, byte *output,
    size_t output_len, de_decoded *decoded);

/* (base : Base) → IsSpecified base → HasWritten base encoder.new [] [] */
/*@ requires \valid(encoder);
  @ terminates \true; exits \false;
  @ assigns *encoder \from *encoder;
  @ ensures EachHasWritten(*encoder);
  @*/
void de_plain_encoder_new(de_encoder *encoder);

/* ByNumber number result (most.new ≡ most.old) (λ base. TellsDue base encoder.now len most.old
 * most.new result) */
/*@ requires \valid_read(encoder);
  @ requires \valid(most);
  @ requires \separated(encoder, most);
  @ terminates \true; exits \false;
  @ assigns *most, \result \from number, *encoder, len, *most;
  @ ensures TellsDueByNumber(number, \old(*encoder), len, \old(*most), *most, \result);
  @*/
de_status de_numbered_encoder_most(de_number number, const de_encoder *encoder, size_t len,
    size_t *most);

/* EncodesPieceByNumber number piece.now encoder.old encoder.new output.old output.new written.old
 * written.new result */
/*@ requires \valid(encoder);
  @ requires slice(piece, piece_len);
  @ requires slice_mut(output, output_len);
  @ requires \valid(written);
  @ requires \separated(SPAN(piece, piece_len), encoder, SPAN(output, output_len), written);
  @ terminates \true; exits \false;
  @ assigns *encoder, output[0 .. output_len - 1], *written, \result \from number, *encoder,
  @   piece[0 .. piece_len - 1], output[0 .. output_len - 1], *written, piece_len, output_len;
  @ ensures EncodesPieceByNumber(number, \old(BYTES(piece, piece_len)), \old(*encoder), *encoder,
  @   \old(BYTES(output, output_len)), BYTES(output, output_len), \old(*written), *written,
  @   \result);
  @*/
de_status de_numbered_encoder_read(de_number number, de_encoder *encoder, const byte *piece,
    size_t piece_len, byte *output, size_t output_len, size_t *written);

/* FinishesDataByNumber number encoder.now output.old output.new written.old written.new result */
/*@ requires \valid_read(encoder);
  @ requires slice_mut(output, output_len);
  @ requires \valid(written);
  @ requires \separated(encoder, SPAN(output, output_len), written);
  @ terminates \true; exits \false;
  @ assigns output[0 .. output_len - 1], *written, \result \from number, *encoder,
  @   output[0 .. output_len - 1], *written, output_len;
  @ ensures FinishesDataByNumber(number, \old(*encoder), \old(BYTES(output, output_len)),
  @   BYTES(output, output_len), \old(*written), *written, \result);
  @*/
de_status de_numbered_encoder_finish(de_number number, const de_encoder *encoder, byte *output,
    size_t output_len, size_t *written);

/* TellsDue (base_of_plain held.now) encoder.now len most.old most.new result */
/*@ requires slice(held, DE_TABLES);
  @ requires KeepsRules(BYTES(held, DE_TABLES));
  @ requires \valid_read(encoder);
  @ requires \valid(most);
  @ requires \separated(SPAN(held, DE_TABLES), most);
  @ requires \separated(encoder, most);
  @ terminates \true; exits \false;
  @ assigns *most, \result \from held[0 .. DE_TABLES - 1], *encoder, len, *most;
  @ ensures TellsDue(base_of_plain(\old(BYTES(held, DE_TABLES))), \old(*encoder), len, \old(*most),
  @   *most, \result);
  @*/
de_status de_custom_encoder_most(const byte *held, const de_encoder *encoder, size_t len,
    size_t *most);

/* EncodesPieceByCustom held.now piece.now encoder.old encoder.new output.old output.new written.old
 * written.new result */
/*@ requires slice(held, DE_TABLES);
  @ requires KeepsRules(BYTES(held, DE_TABLES));
  @ requires \valid(encoder);
  @ requires slice(piece, piece_len);
  @ requires slice_mut(output, output_len);
  @ requires \valid(written);
  @ requires \separated(SPAN(held, DE_TABLES), encoder, SPAN(output, output_len), written);
  @ requires \separated(SPAN(piece, piece_len), encoder, SPAN(output, output_len), written);
  @ terminates \true; exits \false;
  @ assigns *encoder, output[0 .. output_len - 1], *written, \result \from held[0 .. DE_TABLES - 1],
  @   *encoder, piece[0 .. piece_len - 1], output[0 .. output_len - 1], *written, piece_len,
  @   output_len;
  @ ensures EncodesPieceByCustom(\old(BYTES(held, DE_TABLES)), \old(BYTES(piece, piece_len)),
  @   \old(*encoder), *encoder, \old(BYTES(output, output_len)), BYTES(output, output_len),
  @   \old(*written), *written, \result);
  @*/
de_status de_custom_encoder_read(const byte *held, de_encoder *encoder, const byte *piece,
    size_t piece_len, byte *output, size_t output_len, size_t *written);

/* FinishesData (base_of_plain held.now) encoder.now output.old output.new written.old written.new
 * result */
/*@ requires slice(held, DE_TABLES);
  @ requires KeepsRules(BYTES(held, DE_TABLES));
  @ requires \valid_read(encoder);
  @ requires slice_mut(output, output_len);
  @ requires \valid(written);
  @ requires \separated(SPAN(held, DE_TABLES), SPAN(output, output_len), written);
  @ requires \separated(encoder, SPAN(output, output_len), written);
  @ terminates \true; exits \false;
  @ assigns output[0 .. output_len - 1], *written, \result \from held[0 .. DE_TABLES - 1], *encoder,
  @   output[0 .. output_len - 1], *written, output_len;
  @ ensures FinishesData(base_of_plain(\old(BYTES(held, DE_TABLES))), \old(*encoder),
  @   \old(BYTES(output, output_len)), BYTES(output, output_len), \old(*written), *written,
  @   \result);
  @*/
de_status de_custom_encoder_finish(const byte *held, const de_encoder *encoder, byte *output,
    size_t output_len, size_t *written);

/* WritesName number output.old output.new written.old written.new result */
/*@ requires slice_mut(output, output_len);
  @ requires \valid(written);
  @ requires \separated(SPAN(output, output_len), written);
  @ terminates \true; exits \false;
  @ assigns output[0 .. output_len - 1], *written, \result \from number,
  @   output[0 .. output_len - 1], *written, output_len;
  @ ensures WritesName(number, \old(BYTES(output, output_len)), BYTES(output, output_len),
  @   \old(*written), *written, \result);
  @*/
de_status de_numbered_name(de_number number, byte *output, size_t output_len, size_t *written);

/* FindsNumber name.now number.old number.new result */
/*@ requires slice(name, name_len);
  @ requires \valid(number);
  @ requires \separated(SPAN(name, name_len), number);
  @ terminates \true; exits \false;
  @ assigns *number, \result \from name[0 .. name_len - 1], *number, name_len;
  @ ensures FindsNumber(\old(BYTES(name, name_len)), \old(*number), *number, \result);
  @*/
de_status de_named_number(const byte *name, size_t name_len, de_number *number);

/* ByNumber number result (text_len.new ≡ text_len.old) (λ base. TellsTextLength base len
 * text_len.old text_len.new result) */
/*@ requires \valid(text_len);
  @ terminates \true; exits \false;
  @ assigns *text_len, \result \from number, len, *text_len;
  @ ensures TellsTextLengthByNumber(number, len, \old(*text_len), *text_len, \result);
  @*/
de_status de_numbered_encode_len(de_number number, size_t len, size_t *text_len);

/* EncodesByNumber number input.now output.old output.new written.old written.new result */
/*@ requires slice(input, input_len);
  @ requires slice_mut(output, output_len);
  @ requires \valid(written);
  @ requires \separated(SPAN(input, input_len), SPAN(output, output_len), written);
  @ terminates \true; exits \false;
  @ assigns output[0 .. output_len - 1], *written, \result \from number, input[0 .. input_len - 1],
  @   output[0 .. output_len - 1], *written, input_len, output_len;
  @ ensures EncodesByNumber(number, \old(BYTES(input, input_len)), \old(BYTES(output, output_len)),
  @   BYTES(output, output_len), \old(*written), *written, \result);
  @*/
de_status de_numbered_encode(de_number number, const byte *input, size_t input_len, byte *output,
    size_t output_len, size_t *written);

/* ByNumber number result (most.new ≡ most.old) (λ base. TellsMost base len most.old most.new
 * result) */
/*@ requires \valid(most);
  @ terminates \true; exits \false;
  @ assigns *most, \result \from number, len, *most;
  @ ensures TellsMostByNumber(number, len, \old(*most), *most, \result);
  @*/
de_status de_numbered_decode_len(de_number number, size_t len, size_t *most);

/* DecodesByNumber number input.now output.old output.new decoded.old decoded.new result */
/*@ requires slice(input, input_len);
  @ requires slice_mut(output, output_len);
  @ requires \valid(decoded);
  @ requires \separated(SPAN(input, input_len), SPAN(output, output_len), decoded);
  @ terminates \true; exits \false;
  @ assigns output[0 .. output_len - 1], *decoded, \result \from number, input[0 .. input_len - 1],
  @   output[0 .. output_len - 1], *decoded, input_len, output_len;
  @ ensures DecodesByNumber(number, \old(BYTES(input, input_len)), \old(BYTES(output, output_len)),
  @   BYTES(output, output_len), \old(*decoded), *decoded, \result);
  @*/
de_status de_numbered_decode(de_number number, const byte *input, size_t input_len, byte *output,
    size_t output_len, de_decoded *decoded);

/* ByNumber number result (answer.new ≡ answer.old) (λ base. TellsIfCanonical base answer.new
 * result) */
/*@ requires \valid(answer);
  @ requires \initialized(&*answer) && is_bool(*answer);
  @ terminates \true; exits \false;
  @ assigns *answer, \result \from number, *answer;
  @ ensures \initialized(&*answer) && is_bool(*answer);
  @ ensures TellsIfCanonicalByNumber(number, *answer, \result, \old(*answer));
  @*/
de_status de_numbered_is_canonical(de_number number, bool *answer);

/* ByNumber number result (align.new ≡ align.old) (λ base. TellsAlignment base align.new result) */
/*@ requires \valid(align);
  @ terminates \true; exits \false;
  @ assigns *align, \result \from number, *align;
  @ ensures TellsAlignmentByNumber(number, *align, \result, \old(*align));
  @*/
de_status de_numbered_encode_align(de_number number, size_t *align);

/* TellsAlignment (base_of_plain held.now) align.new result */
/*@ requires slice(held, DE_TABLES);
  @ requires KeepsRules(BYTES(held, DE_TABLES));
  @ requires \valid(align);
  @ requires \separated(SPAN(held, DE_TABLES), align);
  @ terminates \true; exits \false;
  @ assigns *align, \result \from held[0 .. DE_TABLES - 1], *align;
  @ ensures TellsAlignment(base_of_plain(\old(BYTES(held, DE_TABLES))), *align, \result);
  @*/
de_status de_custom_encode_align(const byte *held, size_t *align);

/* ByNumber number result (width.new ≡ width.old) (λ base. TellsWidth base width.new result) */
/*@ requires \valid(width);
  @ terminates \true; exits \false;
  @ assigns *width, \result \from number, *width;
  @ ensures TellsWidthByNumber(number, *width, \result, \old(*width));
  @*/
de_status de_numbered_bit_width(de_number number, size_t *width);

/* TellsWidth (base_of_plain held.now) width.new result */
/*@ requires slice(held, DE_TABLES);
  @ requires KeepsRules(BYTES(held, DE_TABLES));
  @ requires \valid(width);
  @ requires \separated(SPAN(held, DE_TABLES), width);
  @ terminates \true; exits \false;
  @ assigns *width, \result \from held[0 .. DE_TABLES - 1], *width;
  @ ensures TellsWidth(base_of_plain(\old(BYTES(held, DE_TABLES))), *width, \result);
  @*/
de_status de_custom_bit_width(const byte *held, size_t *width);

/* GivesBackByNumber number form.old form.new lengths.old lengths.new texts.old texts.new result */
/*@ requires \valid(form);
  @ requires \initialized(&form->has_padding) && is_bool(form->has_padding);
  @ requires \initialized(&form->least_significant_first) && is_bool(form->least_significant_first);
  @ requires \initialized(&form->check_trailing_bits) && is_bool(form->check_trailing_bits);
  @ requires \initialized(&form->concatenate) && is_bool(form->concatenate);
  @ requires \valid(lengths);
  @ requires slice_mut(texts, texts_len);
  @ requires \separated(form, lengths, SPAN(texts, texts_len));
  @ terminates \true; exits \false;
  @ assigns *form, *lengths, texts[0 .. texts_len - 1], \result \from number, *form, *lengths,
  @   texts[0 .. texts_len - 1], texts_len;
  @ ensures \initialized(&form->has_padding) && is_bool(form->has_padding);
  @ ensures \initialized(&form->least_significant_first) && is_bool(form->least_significant_first);
  @ ensures \initialized(&form->check_trailing_bits) && is_bool(form->check_trailing_bits);
  @ ensures \initialized(&form->concatenate) && is_bool(form->concatenate);
  @ ensures GivesBackByNumber(number, \old(FORM(form)), FORM(form), \old(LENGTHS(lengths)),
  @   LENGTHS(lengths), \old(BYTES(texts, texts_len)), BYTES(texts, texts_len), \result);
  @*/
de_status de_numbered_specification(de_number number, struct form *form,
    struct text_lengths *lengths, byte *texts, size_t texts_len);

/* GivesBackByCustom held.now form.old form.new lengths.old lengths.new texts.old texts.new
 * result */
/*@ requires slice(held, DE_TABLES);
  @ requires KeepsRules(BYTES(held, DE_TABLES));
  @ requires \valid(form);
  @ requires \initialized(&form->has_padding) && is_bool(form->has_padding);
  @ requires \initialized(&form->least_significant_first) && is_bool(form->least_significant_first);
  @ requires \initialized(&form->check_trailing_bits) && is_bool(form->check_trailing_bits);
  @ requires \initialized(&form->concatenate) && is_bool(form->concatenate);
  @ requires \valid(lengths);
  @ requires slice_mut(texts, texts_len);
  @ requires \separated(SPAN(held, DE_TABLES), form, lengths, SPAN(texts, texts_len));
  @ terminates \true; exits \false;
  @ assigns *form, *lengths, texts[0 .. texts_len - 1], \result \from held[0 .. DE_TABLES - 1],
  @   *form, *lengths, texts[0 .. texts_len - 1], texts_len;
  @ ensures \initialized(&form->has_padding) && is_bool(form->has_padding);
  @ ensures \initialized(&form->least_significant_first) && is_bool(form->least_significant_first);
  @ ensures \initialized(&form->check_trailing_bits) && is_bool(form->check_trailing_bits);
  @ ensures \initialized(&form->concatenate) && is_bool(form->concatenate);
  @ ensures GivesBackByCustom(\old(BYTES(held, DE_TABLES)), \old(FORM(form)), FORM(form),
  @   \old(LENGTHS(lengths)), LENGTHS(lengths), \old(BYTES(texts, texts_len)), BYTES(texts,
  @   texts_len), \result);
  @*/
de_status de_custom_specification(const byte *held, struct form *form, struct text_lengths *lengths,
    byte *texts, size_t texts_len);

#ifdef DE_WIDE
/* EncodesByNumber number input.now output.old output.new written.old written.new result */
/*@ requires has_v3(0);
  @ requires slice(input, input_len);
  @ requires slice_mut(output, output_len);
  @ requires \valid(written);
  @ requires \separated(SPAN(input, input_len), SPAN(output, output_len), written);
  @ terminates \true; exits \false;
  @ assigns output[0 .. output_len - 1], *written, \result \from number, input[0 .. input_len - 1],
  @   output[0 .. output_len - 1], *written, input_len, output_len;
  @ ensures EncodesByNumber(number, \old(BYTES(input, input_len)), \old(BYTES(output, output_len)),
  @   BYTES(output, output_len), \old(*written), *written, \result);
  @*/
de_status de_wide_numbered_encode(de_number number, const byte *input, size_t input_len,
    byte *output, size_t output_len, size_t *written);

/* DecodesByNumber number input.now output.old output.new decoded.old decoded.new result */
/*@ requires has_v3(0);
  @ requires slice(input, input_len);
  @ requires slice_mut(output, output_len);
  @ requires \valid(decoded);
  @ requires \separated(SPAN(input, input_len), SPAN(output, output_len), decoded);
  @ terminates \true; exits \false;
  @ assigns output[0 .. output_len - 1], *decoded, \result \from number, input[0 .. input_len - 1],
  @   output[0 .. output_len - 1], *decoded, input_len, output_len;
  @ ensures DecodesByNumber(number, \old(BYTES(input, input_len)), \old(BYTES(output, output_len)),
  @   BYTES(output, output_len), \old(*decoded), *decoded, \result);
  @*/
de_status de_wide_numbered_decode(de_number number, const byte *input, size_t input_len,
    byte *output, size_t output_len, de_decoded *decoded);

/* Encodes (base_of_plain held.now) input.now output.old output.new written.old written.new
 * result */
/*@ requires has_v3(0);
  @ requires slice(held, DE_TABLES);
  @ requires KeepsRules(BYTES(held, DE_TABLES));
  @ requires slice(input, input_len);
  @ requires slice_mut(output, output_len);
  @ requires \valid(written);
  @ requires \separated(SPAN(held, DE_TABLES), SPAN(output, output_len), written);
  @ requires \separated(SPAN(input, input_len), SPAN(output, output_len), written);
  @ terminates \true; exits \false;
  @ assigns output[0 .. output_len - 1], *written, \result \from held[0 .. DE_TABLES - 1],
  @   input[0 .. input_len - 1], output[0 .. output_len - 1], *written, input_len, output_len;
  @ ensures Encodes(base_of_plain(\old(BYTES(held, DE_TABLES))), \old(BYTES(input, input_len)),
  @   \old(BYTES(output, output_len)), BYTES(output, output_len), \old(*written), *written,
  @   \result);
  @*/
de_status de_wide_custom_encode(const byte *held, const byte *input, size_t input_len, byte *output,
    size_t output_len, size_t *written);

/* Decodes (base_of_plain held.now) input.now output.old output.new decoded.old decoded.new
 * result */
/*@ requires has_v3(0);
  @ requires slice(held, DE_TABLES);
  @ requires KeepsRules(BYTES(held, DE_TABLES));
  @ requires slice(input, input_len);
  @ requires slice_mut(output, output_len);
  @ requires \valid(decoded);
  @ requires \separated(SPAN(held, DE_TABLES), SPAN(output, output_len), decoded);
  @ requires \separated(SPAN(input, input_len), SPAN(output, output_len), decoded);
  @ terminates \true; exits \false;
  @ assigns output[0 .. output_len - 1], *decoded, \result \from held[0 .. DE_TABLES - 1],
  @   input[0 .. input_len - 1], output[0 .. output_len - 1], *decoded, input_len, output_len;
  @ ensures Decodes(base_of_plain(\old(BYTES(held, DE_TABLES))), \old(BYTES(input, input_len)),
  @   \old(BYTES(output, output_len)), BYTES(output, output_len), \old(*decoded), *decoded,
  @   \result);
  @*/
de_status de_wide_custom_decode(const byte *held, const byte *input, size_t input_len, byte *output,
    size_t output_len, de_decoded *decoded);

/* ReadsPieceByNumber number piece.now decoder.old decoder.new output.old output.new written.old
 * written.new result */
/*@ requires has_v3(0);
  @ requires \valid(decoder);
  @ requires slice(piece, piece_len);
  @ requires slice_mut(output, output_len);
  @ requires \valid(written);
  @ requires \separated(SPAN(piece, piece_len), decoder, SPAN(output, output_len), written);
  @ terminates \true; exits \false;
  @ assigns *decoder, output[0 .. output_len - 1], *written, \result \from number, *decoder,
  @   piece[0 .. piece_len - 1], output[0 .. output_len - 1], *written, piece_len, output_len;
  @ ensures ReadsPieceByNumber(number, \old(BYTES(piece, piece_len)), \old(*decoder), *decoder,
  @   \old(BYTES(output, output_len)), BYTES(output, output_len), \old(*written), *written,
  @   \result);
  @*/
de_status de_wide_numbered_decoder_read(de_number number, de_decoder *decoder, const byte *piece,
    size_t piece_len, byte *output, size_t output_len, size_t *written);

/* ReadsPieceByCustom held.now piece.now decoder.old decoder.new output.old output.new written.old
 * written.new result */
/*@ requires has_v3(0);
  @ requires slice(held, DE_TABLES);
  @ requires KeepsRules(BYTES(held, DE_TABLES));
  @ requires \valid(decoder);
  @ requires slice(piece, piece_len);
  @ requires slice_mut(output, output_len);
  @ requires \valid(written);
  @ requires \separated(SPAN(held, DE_TABLES), decoder, SPAN(output, output_len), written);
  @ requires \separated(SPAN(piece, piece_len), decoder, SPAN(output, output_len), written);
  @ terminates \true; exits \false;
  @ assigns *decoder, output[0 .. output_len - 1], *written, \result \from held[0 .. DE_TABLES - 1],
  @   *decoder, piece[0 .. piece_len - 1], output[0 .. output_len - 1], *written, piece_len,
  @   output_len;
  @ ensures ReadsPieceByCustom(\old(BYTES(held, DE_TABLES)), \old(BYTES(piece, piece_len)),
  @   \old(*decoder), *decoder, \old(BYTES(output, output_len)), BYTES(output, output_len),
  @   \old(*written), *written, \result);
  @*/
de_status de_wide_custom_decoder_read(const byte *held, de_decoder *decoder, const byte *piece,
    size_t piece_len, byte *output, size_t output_len, size_t *written);

/* EncodesPieceByNumber number piece.now encoder.old encoder.new output.old output.new written.old
 * written.new result */
/*@ requires has_v3(0);
  @ requires \valid(encoder);
  @ requires slice(piece, piece_len);
  @ requires slice_mut(output, output_len);
  @ requires \valid(written);
  @ requires \separated(SPAN(piece, piece_len), encoder, SPAN(output, output_len), written);
  @ terminates \true; exits \false;
  @ assigns *encoder, output[0 .. output_len - 1], *written, \result \from number, *encoder,
  @   piece[0 .. piece_len - 1], output[0 .. output_len - 1], *written, piece_len, output_len;
  @ ensures EncodesPieceByNumber(number, \old(BYTES(piece, piece_len)), \old(*encoder), *encoder,
  @   \old(BYTES(output, output_len)), BYTES(output, output_len), \old(*written), *written,
  @   \result);
  @*/
de_status de_wide_numbered_encoder_read(de_number number, de_encoder *encoder, const byte *piece,
    size_t piece_len, byte *output, size_t output_len, size_t *written);

/* EncodesPieceByCustom held.now piece.now encoder.old encoder.new output.old output.new written.old
 * written.new result */
/*@ requires has_v3(0);
  @ requires slice(held, DE_TABLES);
  @ requires KeepsRules(BYTES(held, DE_TABLES));
  @ requires \valid(encoder);
  @ requires slice(piece, piece_len);
  @ requires slice_mut(output, output_len);
  @ requires \valid(written);
  @ requires \separated(SPAN(held, DE_TABLES), encoder, SPAN(output, output_len), written);
  @ requires \separated(SPAN(piece, piece_len), encoder, SPAN(output, output_len), written);
  @ terminates \true; exits \false;
  @ assigns *encoder, output[0 .. output_len - 1], *written, \result \from held[0 .. DE_TABLES - 1],
  @   *encoder, piece[0 .. piece_len - 1], output[0 .. output_len - 1], *written, piece_len,
  @   output_len;
  @ ensures EncodesPieceByCustom(\old(BYTES(held, DE_TABLES)), \old(BYTES(piece, piece_len)),
  @   \old(*encoder), *encoder, \old(BYTES(output, output_len)), BYTES(output, output_len),
  @   \old(*written), *written, \result);
  @*/
de_status de_wide_custom_encoder_read(const byte *held, de_encoder *encoder, const byte *piece,
    size_t piece_len, byte *output, size_t output_len, size_t *written);

#endif
