/* The comparer for programs in C: the calls of a sheet over tables of flags. docs/HOST.md has the whole of it.
 *
 * A byte area is passed as a pointer, which is never null, and how many bytes it has. Areas may be longer than they
 * have to be: what is past that is neither read nor written. An area that a call may write overlaps no other.
 *
 * A table of n states is the number n, an area of labels and an area of steps:
 *   labels   four bytes a state, low byte first: bit i of the number is flag i
 *   steps    n*n bytes: a step from s to t where the byte at s*n+t is not 0
 * A sheet with its memory is three areas, which only these calls should write:
 *   sheet    four bytes: n, settled (0: no), and the number of strikes, low byte first
 *   pairs    n*n bytes: the pair (s, t) at s*n+t, 0 where it is struck
 *   strikes  four bytes for each of n*n strikes: s, t, 0 for label or 1 for step, and the state stepped to (0 for label)
 *
 * Each call but comparer_fits returns 0 where it went well, and else the number of its refusal, and then no area is
 * written. A good answer is written at the front of the area `answer`. */
#ifndef COMPARER_H
#define COMPARER_H

#include <stdbool.h>
#include <stddef.h>
#include <stdint.h>

enum {
    COMPARER_NO_STATES = 5,     /* begin: n is 0 or above 64 */
    COMPARER_SHORT_MEMORY = 6,  /* an area is too short */
    COMPARER_NO_SUCH_STATE = 7, /* a number is no state of the sheet */
    COMPARER_OTHER_SHEET = 8,   /* the sheet is of no states or of another count, or does not add up */
    COMPARER_NOT_SETTLED = 9,   /* class, below, answer: the sheet is not settled */
    COMPARER_OTHER_PAIR = 10,   /* answer: the pair is struck; reason: it stands, or has no record */
    COMPARER_NO_SUCH_STEP = 11  /* answer: there is no such step, or no walk answers it */
};

enum {
    COMPARER_MOST_STATES = 64,
    COMPARER_LABEL_BYTES = 4,
    COMPARER_SHEET_BYTES = 4,
    COMPARER_STRIKE_BYTES = 4,
    COMPARER_TRY_BYTES = 5,    /* the answer of comparer_try */
    COMPARER_SWEEP_BYTES = 2,  /* of comparer_sweep */
    COMPARER_SETTLE_BYTES = 4  /* of comparer_settle; that of comparer_reason is a strike, the others have one byte */
};

/* The first byte that comparer_try answers. */
enum {
    COMPARER_STAYS_STRUCK = 0,
    COMPARER_STAYS = 1,
    COMPARER_STRUCK = 2
};

/* Whether there are from 1 to 64 states, with labels and steps for all of them. */
bool comparer_fits(size_t n, const uint8_t *labels, size_t labels_len, const uint8_t *steps, size_t steps_len);

/* Begins a sheet: every pair stands, and nothing is struck. Writes the sheet and the pairs, and not the strikes. */
uint8_t comparer_begin(size_t n, const uint8_t *labels, size_t labels_len, const uint8_t *steps, size_t steps_len,
                       uint8_t *sheet, size_t sheet_len, uint8_t *pairs, size_t pairs_len,
                       const uint8_t *strikes, size_t strikes_len);

/* Tries the pair (s, t), and strikes it if it stands and has a ground. Answers five bytes: the verdict, and the strike
 * where the pair is struck now, else zeros. */
uint8_t comparer_try(size_t n, const uint8_t *labels, size_t labels_len, const uint8_t *steps, size_t steps_len,
                     uint8_t *sheet, size_t sheet_len, uint8_t *pairs, size_t pairs_len,
                     uint8_t *strikes, size_t strikes_len, size_t s, size_t t, uint8_t *answer, size_t answer_len);

/* Tries the pairs (s, 0), (s, 1), ... in turn. Answers how many it struck, in two bytes, low byte first. */
uint8_t comparer_sweep(size_t n, const uint8_t *labels, size_t labels_len, const uint8_t *steps, size_t steps_len,
                       uint8_t *sheet, size_t sheet_len, uint8_t *pairs, size_t pairs_len,
                       uint8_t *strikes, size_t strikes_len, size_t s, uint8_t *answer, size_t answer_len);

/* Sweeps all rows, pass after pass, until a whole pass strikes nothing, and marks the sheet settled. Answers how many
 * strikes it made and the passes taken, two bytes each, low byte first. */
uint8_t comparer_settle(size_t n, const uint8_t *labels, size_t labels_len, const uint8_t *steps, size_t steps_len,
                        uint8_t *sheet, size_t sheet_len, uint8_t *pairs, size_t pairs_len,
                        uint8_t *strikes, size_t strikes_len, uint8_t *answer, size_t answer_len);

/* Answers in one byte the smallest state that is s or stands both ways with s. */
uint8_t comparer_class(size_t n, const uint8_t *labels, size_t labels_len, const uint8_t *steps, size_t steps_len,
                       const uint8_t *sheet, size_t sheet_len, const uint8_t *pairs, size_t pairs_len,
                       size_t s, uint8_t *answer, size_t answer_len);

/* Answers in one byte whether (s, t) stands: 1 for yes, 0 for no. */
uint8_t comparer_below(size_t n, const uint8_t *labels, size_t labels_len, const uint8_t *steps, size_t steps_len,
                       const uint8_t *sheet, size_t sheet_len, const uint8_t *pairs, size_t pairs_len,
                       size_t s, size_t t, uint8_t *answer, size_t answer_len);

/* Answers the first strike of the struck pair (s, t), four bytes. */
uint8_t comparer_reason(size_t n, const uint8_t *labels, size_t labels_len, const uint8_t *steps, size_t steps_len,
                        const uint8_t *sheet, size_t sheet_len, const uint8_t *pairs, size_t pairs_len,
                        const uint8_t *strikes, size_t strikes_len, size_t s, size_t t, uint8_t *answer, size_t answer_len);

/* Writes into `walk`, which has n bytes or more, the states of a walk of the fewest steps that answers the step from s to
 * u from t. Answers in one byte how many states it has. */
uint8_t comparer_answer(size_t n, const uint8_t *labels, size_t labels_len, const uint8_t *steps, size_t steps_len,
                        const uint8_t *sheet, size_t sheet_len, const uint8_t *pairs, size_t pairs_len,
                        size_t s, size_t t, size_t u, uint8_t *walk, size_t walk_len,
                        uint8_t *answer, size_t answer_len);

#endif
