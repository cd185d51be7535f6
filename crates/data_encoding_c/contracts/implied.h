/* What relations of the exports imply by their definitions, which are in Rattle. Assumed. */

/*@ axiomatic Implied {
  @   // A specification has two symbols or more. Where it is written, its texts fit.
  @   axiom given_by_number: \forall integer number, form_value old_form, new_form,
  @     lengths_value old_lengths, byte_list old_texts, new_texts,
  @     integer symbols, ignore, separator, from, to;
  @     GivesBackByNumber(number, old_form, new_form, old_lengths,
  @       lengths_of(symbols, ignore, separator, from, to), old_texts, new_texts, DE_OK) ==>
  @     2 <= symbols && symbols + ignore + separator + from + to <= length_of(old_texts);
  @   axiom given_by_custom: \forall byte_list held, form_value old_form, new_form,
  @     lengths_value old_lengths, byte_list old_texts, new_texts,
  @     integer symbols, ignore, separator, from, to;
  @     KeepsRules(held) && GivesBackByCustom(held, old_form, new_form, old_lengths,
  @       lengths_of(symbols, ignore, separator, from, to), old_texts, new_texts, DE_OK) ==>
  @     2 <= symbols && symbols + ignore + separator + from + to <= length_of(old_texts);
  @ }
  @*/
