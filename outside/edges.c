/* The C boundary: NULL with length 0 is an empty slice, in every place of every call; calls on memory of their own may
 * run at once. */
#include <pthread.h>
#include <string.h>

#include "answer.h"

enum { EDITION = RULE_DECK_STUDIO, LIST = RULE_DECK_EXCEPT_FEED_WORDS };

static uint8_t deck[200];
static size_t length;
static const uint8_t no_words[] = {0, 0, 0, 0};

/* Two lent tables, larger than any row. */
static uint32_t numbers[8], others[8];
static uint64_t values[RULE_DECK_VALUE_WIDTH];

/* A rule whose name is empty, with a list of one empty word: both are given as NULL. */
static void build(void) {
    length = done("start", rule_deck_start(deck, sizeof deck));
    length = done("add rule", rule_deck_add_rule(EDITION, deck, sizeof deck, length, NULL, 0, 0, true, 0, 0, 0, 0, LIST,
                                                 no_words, sizeof no_words));
    length = done("add word", rule_deck_add_word(EDITION, deck, sizeof deck, length, NULL, 0));
    EXPECT(rule_deck_rename(EDITION, deck, sizeof deck, length, 0, NULL, 0), RULE_DECK_DONE, length);
}

static void no_deck(void) {
    EXPECT(rule_deck_check(EDITION, NULL, 0), RULE_DECK_FAULT_CUT, 0);
    EXPECT(rule_deck_read(EDITION, NULL, 0, numbers, 8, others, 8), RULE_DECK_FAULT_CUT, 0);
    EXPECT(rule_deck_name(EDITION, NULL, 0, 0), RULE_DECK_FAULT_CUT, 0);
    EXPECT(rule_deck_name_part(EDITION, NULL, 0, 0, numbers, 8), RULE_DECK_FAULT_CUT, 0);
    EXPECT(rule_deck_word(EDITION, NULL, 0, 0, 0, 0), RULE_DECK_FAULT_CUT, 0);
    EXPECT(rule_deck_word_part(EDITION, NULL, 0, 0, 0, 0, numbers, 8), RULE_DECK_FAULT_CUT, 0);
    EXPECT(rule_deck_fields(EDITION, NULL, 0, 0, numbers, 8), RULE_DECK_FAULT_CUT, 0);
    EXPECT(rule_deck_to_2(EDITION, NULL, 0, deck, sizeof deck), RULE_DECK_FAULT_CUT, 0);
    EXPECT(rule_deck_to_1(EDITION, NULL, 0, deck, sizeof deck), RULE_DECK_FAULT_CUT, 0);
}

static void no_table(void) {
    EXPECT(rule_deck_read(EDITION, deck, length, NULL, 0, numbers, 8), RULE_DECK_FAULT_TABLE, 0);
    EXPECT(rule_deck_read(EDITION, deck, length, numbers, 8, NULL, 0), RULE_DECK_FAULT_TABLE, 1);
    EXPECT(rule_deck_name_part(EDITION, deck, length, 0, NULL, 0), RULE_DECK_FAULT_TABLE, 0);
    EXPECT(rule_deck_word_part(EDITION, deck, length, 0, 0, 0, NULL, 0), RULE_DECK_FAULT_TABLE, 0);
    EXPECT(rule_deck_fields(EDITION, deck, length, 0, NULL, 0), RULE_DECK_FAULT_TABLE, 0);
    EXPECT(rule_deck_kind(EDITION, LIST, NULL, 0), RULE_DECK_FAULT_TABLE, 0);
    EXPECT(rule_deck_value(EDITION, LIST, no_words, sizeof no_words, NULL, 0), RULE_DECK_FAULT_TABLE, 0);
    EXPECT(rule_deck_moment(0, NULL, 0), RULE_DECK_FAULT_TABLE, 0);
}

static void no_buffer(void) {
    values[RULE_DECK_VALUE_CASE] = RULE_DECK_CASE_MARKER;
    EXPECT(rule_deck_put_value(EDITION, RULE_DECK_MARKER, values, RULE_DECK_VALUE_WIDTH, NULL, 0),
           RULE_DECK_FAULT_ROOM, 0);
    EXPECT(rule_deck_start(NULL, 0), RULE_DECK_FAULT_ROOM, 0);
    EXPECT(rule_deck_switch(EDITION, NULL, 0, 0, 0, true), RULE_DECK_FAULT_CUT, 0);
    EXPECT(rule_deck_switch(EDITION, NULL, 0, 1, 0, true), RULE_DECK_FAULT_STATED, 0);
    EXPECT(rule_deck_rename(EDITION, NULL, 0, 0, 0, NULL, 0), RULE_DECK_FAULT_CUT, 0);
    EXPECT(rule_deck_remove(EDITION, NULL, 0, 0, 0), RULE_DECK_FAULT_CUT, 0);
    EXPECT(rule_deck_insert(EDITION, NULL, 0, 0, 0, deck, length, 0), RULE_DECK_FAULT_CUT, 0);
    EXPECT(rule_deck_add_rule(EDITION, NULL, 0, 0, NULL, 0, 0, true, 0, 0, 0, 0, LIST, no_words, sizeof no_words),
           RULE_DECK_FAULT_CUT, 0);
    EXPECT(rule_deck_add_element(EDITION, NULL, 0, 0, LIST, no_words, sizeof no_words), RULE_DECK_FAULT_CUT, 0);
    EXPECT(rule_deck_add_word(EDITION, NULL, 0, 0, NULL, 0), RULE_DECK_FAULT_CUT, 0);
    uint8_t other[sizeof deck];
    uint64_t n = done("to 2", rule_deck_to_2(EDITION, deck, length, other, sizeof other));
    EXPECT(rule_deck_to_2(EDITION, deck, length, NULL, 0), RULE_DECK_FAULT_ROOM, 0);
    EXPECT(rule_deck_to_1(EDITION, other, n, NULL, 0), RULE_DECK_FAULT_ROOM, 0);
}

static void nothing_given(void) {
    const unsigned cut = RULE_DECK_GIVEN + RULE_DECK_FAULT_CUT, field = RULE_DECK_GIVEN + RULE_DECK_FAULT_FIELD;
    EXPECT(rule_deck_value(EDITION, LIST, NULL, 0, values, RULE_DECK_VALUE_WIDTH), cut, 0);
    EXPECT(rule_deck_put_value(EDITION, RULE_DECK_MARKER, NULL, 0, deck, sizeof deck), field, 0);
    EXPECT(rule_deck_insert(EDITION, deck, sizeof deck, length, 0, NULL, 0, 0), cut, 0);
    EXPECT(rule_deck_add_rule(EDITION, deck, sizeof deck, length, NULL, 0, 0, true, 0, 0, 0, 0, LIST, NULL, 0), cut, 0);
    EXPECT(rule_deck_add_element(EDITION, deck, sizeof deck, length, LIST, NULL, 0), cut, 0);
}

/* Builds and edits a deck of its own and reads the shared one; all answers, folded into one number. */
static uint64_t work(void) {
    uint8_t own[2000];
    uint32_t rules[RULE_DECK_RULE_WIDTH], elements[RULE_DECK_ELEMENT_WIDTH];
    uint64_t at = done("start", rule_deck_start(own, sizeof own)), said = 0;
    for (uint64_t k = 0; k < 40; k++) {
        at = done("insert", rule_deck_insert(EDITION, own, sizeof own, at, k / 2, deck, length, 0));
        at = done("switch", rule_deck_switch(EDITION, own, sizeof own, at, k, k % 2 == 0));
        said = 31 * said + done("word", rule_deck_word(EDITION, own, at, k, 0, 0));
        said += done("read", rule_deck_read(EDITION, deck, length, rules, RULE_DECK_RULE_WIDTH, elements,
                                            RULE_DECK_ELEMENT_WIDTH));
    }
    for (uint64_t i = 0; i < at; i++) said = 31 * said + own[i];
    return said;
}

/* Whether the work comes out as it did alone, each time. */
static void *again(void *alone) {
    for (int i = 0; i < 50; i++)
        if (work() != *(uint64_t *)alone) return "differs";
    return NULL;
}

static void threads(void) {
    uint64_t alone = work();
    pthread_t other;
    void *said;
    if (pthread_create(&other, NULL, again, &alone) != 0) exit(2);
    void *here = again(&alone);
    pthread_join(other, &said);
    if (said == NULL && here == NULL) return;
    printf("two threads at once: an answer differs\n");
    exit(1);
}

int main(void) {
    uint8_t before[sizeof deck];
    build();
    memcpy(before, deck, sizeof deck);
    no_deck();
    no_table();
    no_buffer();
    nothing_given();
    threads();
    return memcmp(before, deck, sizeof deck) != 0;
}
