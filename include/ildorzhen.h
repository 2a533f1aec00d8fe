/* Ildorzhen: tables of approved procedures, and plans for them, checked, expanded into steps and found. c/example.c is a short
 * example, c/march.c a longer one; c/words.c has words for the refusals.
 *
 * A call takes numbers and byte slices (a pointer, then the number of bytes there) and hands back one number. Where an answer
 * has several numbers there is a call for each, to be made with the same arguments. Nothing has to be checked before a call:
 * whatever the numbers and the bytes are, it ends in a result or in a refusal.
 *
 * Results and refusals
 *   .._number hands back 0 if there is no refusal, otherwise the refusal's number.
 *   .._place hands back 0 if there is no refusal, otherwise the refusal's place, which may be 0 too.
 *   Every other call hands back its result, or 0 if there is a refusal. A result may be 0 too: .._number tells them apart.
 *
 * Memory
 *   Only a call whose name ends in _write writes to the caller's memory, to the bytes that its comment names and no others; where
 *   it refuses it writes none. All other slices are only read. A slice of length 0 may have a null pointer; any other has to
 *   point to as many bytes as it says, and one that is written must not overlap another slice of the call.
 *   No call keeps a pointer, allocates, or remembers anything from call to call, so threads may call at the same time. A call
 *   takes less than 128 KB of the stack.
 *
 * The header is C99 and later, and C++. Its constants are plain numbers, for #if, case and the length of an array. */
#ifndef ILDORZHEN_H
#define ILDORZHEN_H

#include <stddef.h>
#include <stdint.h>

/* The version: the minor number rises where something is added, the major where a call that was there is declared or answers
 * otherwise. ILDORZHEN_VERSION has both, to compare with: from 3001 on it is 3.1 or later. The archive does not carry it: header
 * and archive belong together. */
#define ILDORZHEN_VERSION_MAJOR 3
#define ILDORZHEN_VERSION_MINOR 0
#define ILDORZHEN_VERSION (1000 * ILDORZHEN_VERSION_MAJOR + ILDORZHEN_VERSION_MINOR)

/* Forms of a problem, and of the plans for it. */
#define ILDORZHEN_PLAIN 0  /* an operator is one action or one method */
#define ILDORZHEN_PREFIX 1 /* a method takes the actions with it that its subtasks begin with */

/* Limits: the most there may be of each. */
#define ILDORZHEN_MOST_FACTS 64
#define ILDORZHEN_MOST_ACTIONS 255
#define ILDORZHEN_MOST_TASKS 256 /* actions and abstract tasks together */
#define ILDORZHEN_MOST_METHODS 512
#define ILDORZHEN_MOST_SUBTASKS 8 /* of one method */
#define ILDORZHEN_MOST_COST 65535 /* of one action */
#define ILDORZHEN_MOST_BOUND 64
#define ILDORZHEN_MOST_TABLE_BYTES 32768
#define ILDORZHEN_MOST_PLAN_BYTES 65536
#define ILDORZHEN_MOST_SECTION_BYTES 2048
#define ILDORZHEN_MOST_LIMIT 256        /* operators of a plan that is searched for */
#define ILDORZHEN_MOST_BUDGET 1000000   /* operators that a search applies */
#define ILDORZHEN_MOST_FOUND_BYTES 2560 /* of a plan that was found: a line has ten at most */
#define ILDORZHEN_METHOD_WORDS 1024 /* in a step list the words from here on are methods, those below are actions */

/* Refusals. Of several the first in this list is told; of 5 to 8 the one of the first number at fault, of 11 to 13 that of the
 * first line. README says who is to do what about each.
 *                                       when                                                   place */
#define ILDORZHEN_BAD_BOUND 1         /* the bound is not 1 to 64                               0 */
#define ILDORZHEN_BAD_FORM 2          /* the form is neither 0 (plain) nor 1 (prefix)           0 */
#define ILDORZHEN_BAD_LIMITS 17       /* the limit is not 1 to 256, or budget over 1,000,000    0 */
#define ILDORZHEN_TABLE_TOO_LONG 3    /* the table is longer than 32,768 bytes                  0 */
#define ILDORZHEN_PLAN_TOO_LONG 4     /* the plan is longer than 65,536 bytes                   0 */
#define ILDORZHEN_TABLE_ENDS 5        /* the table ends before or inside a number               table byte where it begins */
#define ILDORZHEN_BAD_NUMBER 6        /* a number is not in its shortest form, or over 64 bits  the same */
#define ILDORZHEN_OUT_OF_RANGE 7      /* a count or a cost is beyond its range                  the same */
#define ILDORZHEN_NOT_THERE 8         /* a fact or a task is not there, or of the wrong kind    the same */
#define ILDORZHEN_BYTES_AFTER_TABLE 9 /* bytes follow the table                                 the first of them */
#define ILDORZHEN_NO_SUCH_SECTION 10  /* there is no such section                               0 */
#define ILDORZHEN_LINE_SHAPE 11       /* a line of the plan has another shape, or no line feed  its line, from 1, comments too */
#define ILDORZHEN_NOT_EMITTED 12      /* its operator does not exist, or not at that position   the same */
#define ILDORZHEN_NOT_APPLICABLE 13   /* its operator may not run where it stands               the same */
#define ILDORZHEN_STACK_NOT_EMPTY 14  /* the stack is not empty at the end                      how many lines the plan has */
#define ILDORZHEN_GOAL_MISSING 15     /* a goal fact is missing at the end                      the same */
#define ILDORZHEN_OVER_BUDGET 19      /* a search applies more operators than the budget says   0 */
#define ILDORZHEN_NO_PLAN 18          /* there is no plan of at most so many operators          how many were applied */
#define ILDORZHEN_NO_ROOM 16          /* the caller's room is too small                         bytes to be written */

#ifdef __cplusplus
extern "C" {
#endif

/* Count the sections of the problem that a table is turned into, with a bound and a form.
 * _count hands back how many there are.
 * Refusals: 1, 2, 3, 5 to 9. Writes: nothing. */
uint64_t ildorzhen_sections_number(uint64_t bound, uint64_t form, const uint8_t *table, size_t table_length);
uint64_t ildorzhen_sections_place(uint64_t bound, uint64_t form, const uint8_t *table, size_t table_length);
uint64_t ildorzhen_sections_count(uint64_t bound, uint64_t form, const uint8_t *table, size_t table_length);

/* Write one section of that problem's text, number index from 0 on, from byte at of the caller's text on.
 * _length hands back the section's length, at most 2,048; _write writes the section and hands back the same.
 * Refusals: 1, 2, 3, 5 to 9, 10, 16; a place past the end of the text, up to 2^64 - 1, is no room.
 * Writes: _write alone, the section's bytes from text[at] on; all others stay. */
uint64_t ildorzhen_section_number(uint64_t bound, uint64_t form, const uint8_t *table, size_t table_length,
                                  uint64_t index, const uint8_t *text, size_t text_length, uint64_t at);
uint64_t ildorzhen_section_place(uint64_t bound, uint64_t form, const uint8_t *table, size_t table_length,
                                 uint64_t index, const uint8_t *text, size_t text_length, uint64_t at);
uint64_t ildorzhen_section_length(uint64_t bound, uint64_t form, const uint8_t *table, size_t table_length,
                                  uint64_t index, const uint8_t *text, size_t text_length, uint64_t at);
uint64_t ildorzhen_section_write(uint64_t bound, uint64_t form, const uint8_t *table, size_t table_length,
                                 uint64_t index, uint8_t *text, size_t text_length, uint64_t at);

/* Give the least bound of a table, for a form.
 * _bound hands back the smallest bound, 1 to 64, with which the stack alone, facts ignored, can be emptied; or 0, with no refusal,
 * if there is none. In form 0 the height counts after every action and every method; in form 1 after a method together with the
 * actions that it takes with it, and after any other action. Where form 0 has one form 1 has one, not above it and at most 7 below.
 * It is a hint: with a smaller bound, or with any if it is 0, no plan of that form is accepted or found; a plan may still need a
 * greater one, or there may be none, since facts are ignored.
 * Refusals: 2, 3, 5 to 9. Writes: nothing. */
uint64_t ildorzhen_least_number(uint64_t form, const uint8_t *table, size_t table_length);
uint64_t ildorzhen_least_place(uint64_t form, const uint8_t *table, size_t table_length);
uint64_t ildorzhen_least_bound(uint64_t form, const uint8_t *table, size_t table_length);

/* Check a plan for a table, with a bound and a form. _number hands back 0 for a whole plan, and only for one: every line is in
 * shape, every operator may run where it stands, the stack is empty at the end and the goal facts hold.
 * A line ends with a line feed, or with a carriage return and a line feed, each line on its own; anywhere else a carriage return is
 * 11, except in a comment, where it is content. plan_length counts it.
 * _cost hands back what the plan's actions cost by the table, _operators how many operators its lines run, _steps how many
 * steps these take, each method and each action being one.
 * Refusals: 1 to 9, 11 to 15. Writes: nothing. */
uint64_t ildorzhen_check_number(uint64_t bound, uint64_t form, const uint8_t *table, size_t table_length,
                                const uint8_t *plan, size_t plan_length);
uint64_t ildorzhen_check_place(uint64_t bound, uint64_t form, const uint8_t *table, size_t table_length,
                               const uint8_t *plan, size_t plan_length);
uint64_t ildorzhen_check_cost(uint64_t bound, uint64_t form, const uint8_t *table, size_t table_length,
                              const uint8_t *plan, size_t plan_length);
uint64_t ildorzhen_check_operators(uint64_t bound, uint64_t form, const uint8_t *table, size_t table_length,
                                   const uint8_t *plan, size_t plan_length);
uint64_t ildorzhen_check_steps(uint64_t bound, uint64_t form, const uint8_t *table, size_t table_length,
                               const uint8_t *plan, size_t plan_length);

/* Expand a plan into its steps: the check first, then a word of 16 bits for each step, low byte first, action k as k, method k as
 * ILDORZHEN_METHOD_WORDS + k, a method before the steps of its subtasks.
 * _length hands back how many bytes the steps take, two each; _write writes them and hands back the same, which is 0 only where
 * it refuses: an accepted plan has a step.
 * Refusals: 1 to 9, 11 to 15, then 16. Asked with no room (a null pointer and 0), 16 has the room needed as its place.
 * Writes: _write the first bytes of steps, as many as it hands back, and those after them stay; the other three nothing. */
uint64_t ildorzhen_expand_number(uint64_t bound, uint64_t form, const uint8_t *table, size_t table_length,
                                 const uint8_t *plan, size_t plan_length, const uint8_t *steps, size_t steps_length);
uint64_t ildorzhen_expand_place(uint64_t bound, uint64_t form, const uint8_t *table, size_t table_length,
                                const uint8_t *plan, size_t plan_length, const uint8_t *steps, size_t steps_length);
uint64_t ildorzhen_expand_length(uint64_t bound, uint64_t form, const uint8_t *table, size_t table_length,
                                 const uint8_t *plan, size_t plan_length, const uint8_t *steps, size_t steps_length);
uint64_t ildorzhen_expand_write(uint64_t bound, uint64_t form, const uint8_t *table, size_t table_length,
                                const uint8_t *plan, size_t plan_length, uint8_t *steps, size_t steps_length);

/* Search for a plan for a table, with a bound and a form: depth first, the methods of a task in the table's order. The plan found
 * is the first in that order of at most limit operators; the check accepts it with the same bound and form.
 * An operator is applied for each list of 1 to limit operators that may run from the start, a list before those that continue it,
 * up to the plan found and with it; where there is no plan, for all such lists. budget says how many may be: a number equal to it
 * is allowed, and a search that comes to one more ends there.
 * _applied hands back how many were applied, _length the length of the plan's text, whose lines end with a line feed alone; _write
 * writes the text and hands back its length, which is 0 only where it refuses. Each call is a search of its own: _write with room
 * for ILDORZHEN_MOST_FOUND_BYTES first, and the others where more is to be known.
 * Refusals: 1, 2, 17, 3, 5 to 9, 19, 18, 16. Asked with no room (a null pointer and 0), 16 has the room needed as its place.
 * Writes: _write the first bytes of text, as many as it hands back, and those after them stay; the other four nothing. */
uint64_t ildorzhen_search_number(uint64_t bound, uint64_t form, uint64_t limit, uint64_t budget,
                                 const uint8_t *table, size_t table_length, const uint8_t *text, size_t text_length);
uint64_t ildorzhen_search_place(uint64_t bound, uint64_t form, uint64_t limit, uint64_t budget,
                                const uint8_t *table, size_t table_length, const uint8_t *text, size_t text_length);
uint64_t ildorzhen_search_applied(uint64_t bound, uint64_t form, uint64_t limit, uint64_t budget,
                                  const uint8_t *table, size_t table_length, const uint8_t *text, size_t text_length);
uint64_t ildorzhen_search_length(uint64_t bound, uint64_t form, uint64_t limit, uint64_t budget,
                                 const uint8_t *table, size_t table_length, const uint8_t *text, size_t text_length);
uint64_t ildorzhen_search_write(uint64_t bound, uint64_t form, uint64_t limit, uint64_t budget,
                                const uint8_t *table, size_t table_length, uint8_t *text, size_t text_length);

#ifdef __cplusplus
}
#endif

#endif
