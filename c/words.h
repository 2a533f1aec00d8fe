/* Words for the refusals of ildorzhen.h. A console takes words.h and words.c as they are. C99 and later, and C++. */
#ifndef ILDORZHEN_WORDS_H
#define ILDORZHEN_WORDS_H

#include <stdint.h>

#ifdef __cplusplus
extern "C" {
#endif

/* Number, words for the place, place, sentence: "refused 14 after line 2: the plan stops with work left on the stack". */
struct ildorzhen_wording {
    const char *place;    /* what its place is: "after line" */
    const char *sentence; /* what to tell the technician */
};

/* The words for what a .._number call handed back. Every number has some, 0 (no refusal) and those newer than words.c too. */
struct ildorzhen_wording ildorzhen_words(uint64_t number);

#ifdef __cplusplus
}
#endif

#endif
