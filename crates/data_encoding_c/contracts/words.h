/* The words of the contracts for Frama-C, with which glue/data_encoding.c is proved.
 *
 * The contracts are beside the source, on declarations after it: Frama-C takes both together. */

#include "__fc_string_axiomatic.h"

/*@ axiomatic Words {
  @   // The bytes of an array as one value, as a contract in Rattle has them.
  @   type byte_list;
  @   logic byte_list bytes_at{L}(byte *p, integer n) reads p[0 .. n - 1];
  @   logic integer byte_of(byte_list list, integer i);
  @   logic integer length_of(byte_list list);
  @   axiom byte_is{L}: \forall byte *p, integer n, i;
  @     0 <= i < n ==> byte_of(bytes_at{L}(p, n), i) == p[i];
  @   axiom length_is{L}: \forall byte *p, integer n;
  @     0 <= n ==> length_of(bytes_at{L}(p, n)) == n;
  @   axiom same_bytes{K, L}: \forall byte *p, *q, integer n;
  @     (\forall integer i; 0 <= i < n ==> \at(p[i], K) == \at(q[i], L)) ==>
  @     bytes_at{K}(p, n) == bytes_at{L}(q, n);
  @   axiom are_bytes{L}: \forall byte *p, byte_list list, integer n;
  @     (\forall integer i; 0 <= i < n ==> p[i] == byte_of(list, i)) && length_of(list) == n ==>
  @     bytes_at{L}(p, n) == list;
  @ }
  @*/

/*@ // For macros: stdbool.h has others called true and false.
  @ predicate yes = \true;
  @ predicate no = \false;
  @*/

/* Eva has no values for these words, and takes them to hold. */
#ifdef EVA
#define has_v3(unused) yes
#define KeepsRules(tables) yes
#else
/*@ axiomatic Rules {
  @   // The processor has x86-64-v3, and the system saves the wide registers.
  @   predicate has_v3(integer unused);
  @   // The bytes are those of a PlainEncoding, with its ghost field `kept`.
  @   predicate KeepsRules(byte_list tables);
  @ }
  @*/
#endif

/*@ predicate is_bool(integer b) = b == 0 || b == 1;
  @
  @ // What a caller may pass for bytes to read or to write.
  @ predicate in_bytes{L}(void *p, integer n) =
  @   p != \null ==> \valid_read((byte *)p + (0 .. n - 1));
  @ predicate out_bytes{L}(void *p, integer n) = p != \null ==> \valid((byte *)p + (0 .. n - 1));
  @ predicate missing(void *p, integer n) = p == \null && n != 0;
  @
  @ // What a slice in Rattle is: never null.
  @ predicate slice{L}(byte *p, integer n) = p != \null && \valid_read(p + (0 .. n - 1));
  @ predicate slice_mut{L}(byte *p, integer n) = p != \null && \valid(p + (0 .. n - 1));
  @
  @ // The addresses of the bytes at p and of those at q have one in common. More than
  @ // DE_ENCODE_LIMIT bytes at p are not compared.
  @ logic integer address(void *p) = (uintptr_t)p;
  @ predicate overlaps(void *p, integer n, void *q, integer m) =
  @   0 < n <= DE_ENCODE_LIMIT && 0 < m &&
  @   (address(p) <= address(q) < address(p) + n || address(q) <= address(p) < address(q) + m);
  @
  @ predicate marked{L}(de_encoding *encoding) =
  @   \forall integer i; 0 <= i < 8 ==> encoding->made[i] == made_mark[i];
  @ // What the header asks of a de_encoding: one with the mark was made by a call.
  @ predicate was_made{L}(de_encoding *encoding) =
  @   encoding != \null ==> \valid_read(encoding) &&
  @   (marked(encoding) ==> KeepsRules(bytes_at(&encoding->tables[0], DE_TABLES)));
  @*/
/* Bytes without a common address are separate memory. Assumed: WP does not know addresses. */
/*@ axiomatic Addresses {
  @   axiom apart{L}: \forall byte *p, *q, integer n, m;
  @     \valid_read(p + (0 .. n - 1)) && \valid(q + (0 .. m - 1)) && n <= DE_ENCODE_LIMIT &&
  @     !overlaps(p, n, q, m) ==> \separated(p + (0 .. n - 1), q + (0 .. m - 1));
  @ }
  @*/
#ifdef DE_WIDE
/*@ predicate chosen{L} = is_wide ==> has_v3(0); */
#else
/*@ predicate chosen{L} = \true; */
#endif

#ifdef __x86_64__
/*@ predicate has_v2 = has_leaf(1) && (leaf_c(1) & V2) == V2; */
#else
/*@ predicate has_v2 = \true; */
#endif

/* Abbreviations. */
#define BYTES(p, n) bytes_at((byte *)(p), n)
#define SPAN(p, n) ((byte *)(p) + (0 .. (n) - 1))
#define ARE_BYTES(array, n, list)                                                                  \
    (length_of(list) == (n) && \forall integer i; 0 <= i < (n) ==> array[i] == byte_of(list, i))
