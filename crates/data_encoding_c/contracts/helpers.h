/* What the functions of glue/data_encoding.c promise each other. Proved. */

/*@ terminates \true; exits \false;
  @ assigns \result \from bytes, len, &no_bytes;
  @ ensures bytes != \null ==> \result == (byte *)bytes;
  @ ensures missing(bytes, len) <==> \result == \null;
  @ ensures \result != \null ==> BYTES(\result, len) == BYTES(bytes, len);
  @ ensures \result != \null && in_bytes(bytes, len) ==> slice(\result, len);
  @ ensures bytes == \null ==> \result == \null || \result == &no_bytes[0];
  @*/
static const byte *in(const void *bytes, size_t len);
/*@ terminates \true; exits \false;
  @ assigns \result \from bytes, len, &no_room;
  @ ensures bytes != \null ==> \result == (byte *)bytes;
  @ ensures missing(bytes, len) <==> \result == \null;
  @ ensures \result != \null ==> BYTES(\result, len) == BYTES(bytes, len);
  @ ensures \result != \null && out_bytes(bytes, len) ==> slice_mut(\result, len);
  @ ensures bytes == \null ==> \result == \null || \result == &no_room[0];
  @*/
static byte *out(void *bytes, size_t len);
/*@ terminates \true; exits \false;
  @ assigns \result \from from, from_len, to, to_len;
  @ ensures \result <==> overlaps(from, from_len, to, to_len);
  @*/
static bool overlap(const byte *from, size_t from_len, const byte *to, size_t to_len);
/*@ requires \valid_read(encoding);
  @ terminates \true; exits \false;
  @ assigns \result \from encoding->made[0 .. 7];
  @ ensures \result <==> marked(encoding);
  @*/
static bool is_held(const de_encoding *encoding);
/*@ requires \valid(encoding) && \valid_read(made) && \separated(encoding, made);
  @ terminates \true; exits \false;
  @ assigns *encoding;
  @ ensures \result == made->status;
  @ ensures \result == DE_OK ==> marked(encoding) &&
  @   \forall integer i; 0 <= i < DE_TABLES ==> encoding->tables[i] == made->held[i];
  @ ensures \result != DE_OK ==>
  @   (\forall integer i; 0 <= i < 8 ==> encoding->made[i] == \old(encoding->made[i])) &&
  @   (\forall integer i; 0 <= i < DE_TABLES ==> encoding->tables[i] == \old(encoding->tables[i]));
  @*/
static de_status stored(de_encoding *encoding, const struct made *made);
/* The specification in *given has these numbers, and its texts one after another from `texts`. */
#define GIVEN(given, width, pad, has_pad, least, checks, joins, symbols_n, ignore_n, separator_n,  \
              from_n, to_n)                                                                        \
    given->symbols == texts && given->symbols_len == symbols_n &&                                  \
    given->ignore == texts + symbols_n && given->ignore_len == ignore_n &&                         \
    given->wrap_separator == texts + (symbols_n + ignore_n) &&                                     \
    given->wrap_separator_len == separator_n &&                                                    \
    given->translate_from == texts + (symbols_n + ignore_n + separator_n) &&                       \
    given->translate_from_len == from_n &&                                                         \
    given->translate_to == texts + (symbols_n + ignore_n + separator_n + from_n) &&                \
    given->translate_to_len == to_n && given->wrap_width == width &&                               \
    given->padding == (has_pad != 0 ? pad : -1) && given->least_significant_first == least &&      \
    given->check_trailing_bits == checks && given->concatenate == joins
/*@ requires \valid(given) && \valid_read(form) && \valid_read(lengths);
  @ requires \separated(given, form, lengths);
  @ requires status == DE_OK ==> 0 < lengths->symbols &&
  @   \valid((byte *)texts + (0 .. lengths->symbols + lengths->ignore + lengths->separator +
  @     lengths->translate_from + lengths->translate_to - 1));
  @ requires is_bool(form->has_padding) && is_bool(form->least_significant_first) &&
  @   is_bool(form->check_trailing_bits) && is_bool(form->concatenate);
  @ terminates \true; exits \false;
  @ assigns *given;
  @ ensures \result == status;
  @ ensures status != DE_OK ==> *given == \old(*given);
  @ ensures status == DE_OK ==> GIVEN(given, form->wrap_width, form->padding,
  @   form->has_padding, form->least_significant_first, form->check_trailing_bits,
  @   form->concatenate, lengths->symbols, lengths->ignore, lengths->separator,
  @   lengths->translate_from, lengths->translate_to);
  @*/
static de_status given_back(de_status status, de_specification *given, const struct form *form,
                            const struct text_lengths *lengths, const char *texts);
#ifdef DE_WIDE
/*@ terminates \true; exits \false;
  @ assigns \nothing;
  @ admit ensures \result ==> has_v3(0);
  @*/
static bool has_wide(void);
/*@ terminates \true; exits \false;
  @ assigns is_wide;
  @ ensures chosen;
  @*/
static void choose(void);
#endif
