/* Compares the two machines of README.md, the right's states after the left's in one table, and prints what the program
 * `compare` prints of them. It makes each of the nine calls. */
#include <stdio.h>

#include "comparer.h"

enum { STATES = 3, LEFT_START = 0, RIGHT_START = 2 };

static const uint8_t labels[STATES * COMPARER_LABEL_BYTES] = {
    1, 0, 0, 0,
    2, 0, 0, 0,
    1, 0, 0, 0,
};

static const uint8_t steps[STATES * STATES] = {
    0, 1, 0,
    0, 0, 0,
    0, 0, 0,
};

static uint8_t sheet[COMPARER_SHEET_BYTES];
static uint8_t pairs[STATES * STATES];
static uint8_t strikes[STATES * STATES * COMPARER_STRIKE_BYTES];

#define TABLE STATES, labels, sizeof labels, steps, sizeof steps
#define SHEET sheet, sizeof sheet, pairs, sizeof pairs
#define STRIKES strikes, sizeof strikes

/* Settling alone would strike the same, in the same order; a try and a sweep before it show what they are for. */
static int settle(void)
{
    uint8_t answer[COMPARER_TRY_BYTES];
    if (!comparer_fits(TABLE))
        return COMPARER_NO_STATES;
    int refused = comparer_begin(TABLE, SHEET, STRIKES);
    if (refused == 0)
        refused = comparer_try(TABLE, SHEET, STRIKES, 0, 1, answer, sizeof answer);
    if (refused == 0)
        refused = comparer_sweep(TABLE, SHEET, STRIKES, 0, answer, sizeof answer);
    if (refused == 0)
        refused = comparer_settle(TABLE, SHEET, STRIKES, answer, sizeof answer);
    return refused;
}

static int print_classes(void)
{
    printf("(compared %d)\n", STATES);
    for (size_t s = 0; s < STATES; s++) {
        uint8_t class[1];
        int refused = comparer_class(TABLE, SHEET, s, class, sizeof class);
        if (refused != 0)
            return refused;
        printf("(class %zu %u)\n", s, class[0]);
    }
    return 0;
}

/* The strikes in the order made, each as the reason of its pair. */
static int print_strikes(void)
{
    unsigned made = sheet[2] + 256u * sheet[3];
    for (const uint8_t *k = strikes; k < strikes + made * COMPARER_STRIKE_BYTES; k += COMPARER_STRIKE_BYTES) {
        uint8_t reason[COMPARER_STRIKE_BYTES];
        int refused = comparer_reason(TABLE, SHEET, STRIKES, k[0], k[1], reason, sizeof reason);
        if (refused != 0)
            return refused;
        if (reason[2] == 0)
            printf("(strike %u %u label)\n", reason[0], reason[1]);
        else
            printf("(strike %u %u step %u)\n", reason[0], reason[1], reason[3]);
    }
    return 0;
}

static int print_start(void)
{
    uint8_t is_below[1];
    int refused = comparer_below(TABLE, SHEET, LEFT_START, RIGHT_START, is_below, sizeof is_below);
    if (refused == 0)
        printf("(start %d %d %s)\n", LEFT_START, RIGHT_START, is_below[0] != 0 ? "yes" : "no");
    return refused;
}

/* State 0 answers its own step to state 1 by that step, so the walk is 0, 1. */
static int look_at_walk(void)
{
    uint8_t walk[STATES], places[1];
    int refused = comparer_answer(TABLE, SHEET, 0, 0, 1, walk, sizeof walk, places, sizeof places);
    if (refused == 0 && (places[0] != 2 || walk[0] != 0 || walk[1] != 1))
        return COMPARER_NO_SUCH_STEP;
    return refused;
}

int main(void)
{
    int (*const parts[])(void) = {settle, print_classes, print_strikes, print_start, look_at_walk};
    for (size_t i = 0; i < sizeof parts / sizeof *parts; i++) {
        int refused = parts[i]();
        if (refused != 0) {
            fprintf(stderr, "refused %d\n", refused);
            return 1;
        }
    }
    return 0;
}
