/* What the programs here do with an answer: the code first, then the place. */
#ifndef ANSWER_H
#define ANSWER_H

#include <inttypes.h>
#include <stdio.h>
#include <stdlib.h>

#include "rule_deck.h"

/* The place of an accepted answer; a refusal is said in a sentence and ends the program. */
static inline uint64_t done(const char *what, uint64_t answer) {
    unsigned code = RULE_DECK_CODE(answer);
    if (code != RULE_DECK_DONE) {
        printf("%s is refused, %u at %" PRIu64 ": %s\n", what, code, RULE_DECK_PLACE(answer), rule_deck_message(code));
        exit(1);
    }
    return RULE_DECK_PLACE(answer);
}

/* Ends the program if a call does not answer this code and place. */
static inline void expect(const char *call, uint64_t answer, unsigned code, uint64_t place) {
    if (RULE_DECK_CODE(answer) == code && RULE_DECK_PLACE(answer) == place) return;
    printf("%s: %u at %" PRIu64 ", not %u at %" PRIu64 "\n", call, RULE_DECK_CODE(answer), RULE_DECK_PLACE(answer), code,
           place);
    exit(1);
}

#define EXPECT(call, code, place) expect(#call, call, code, place)

#endif
