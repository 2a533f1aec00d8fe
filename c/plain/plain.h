/* Documents 01 and 02 in plain C, written from the documents and apart from the library: what the library is compared with
 * (c/compare.c) and measured against (c/bench). One function an entry; each answers for all inputs.
 *
 * number and place are the refusal's, both 0 where there is none; with a refusal every other number is 0. */
#ifndef PLAIN_H
#define PLAIN_H

#include <stddef.h>
#include <stdint.h>

struct plain_answer { uint64_t number, place, value; };
struct plain_verdict { uint64_t number, place, cost, operators, steps; };
struct plain_found { uint64_t number, place, applied, length; };

/* How many sections the problem's text has. */
struct plain_answer plain_sections(uint64_t bound, uint64_t form, const uint8_t *table, size_t table_length);

/* Writes section index into the text from byte at on; the value is its length. */
struct plain_answer plain_section(uint64_t bound, uint64_t form, const uint8_t *table, size_t table_length,
                                  uint64_t index, uint8_t *text, size_t room, uint64_t at);

/* Hands the whole text, part after part, to the sink; the value is its length. A refusal hands it nothing. */
typedef void plain_sink(void *to, const char *bytes, size_t length);
struct plain_answer plain_emit(uint64_t bound, uint64_t form, const uint8_t *table, size_t table_length,
                               plain_sink *sink, void *to);

struct plain_verdict plain_check(uint64_t bound, uint64_t form, const uint8_t *table, size_t table_length,
                                 const uint8_t *plan, size_t plan_length);

/* Writes the steps of an accepted plan, two bytes each; the value is their length in bytes. */
struct plain_answer plain_expand(uint64_t bound, uint64_t form, const uint8_t *table, size_t table_length,
                                 const uint8_t *plan, size_t plan_length, uint8_t *steps, size_t room);

/* The value is the least bound of the form, 0 where no bound up to 64 empties the stack. */
struct plain_answer plain_least(uint64_t form, const uint8_t *table, size_t table_length);

/* Writes the text of the first plan of at most `limit` operators, found by applying at most `budget`; length is the text's. */
struct plain_found plain_search(uint64_t bound, uint64_t form, uint64_t limit, uint64_t budget,
                                const uint8_t *table, size_t table_length, uint8_t *text, size_t room);

#endif
