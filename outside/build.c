/* Builds a deck, edits it and prints it: two rules, a list of words, the first rule removed, the other one duplicated;
 * then to version 2, where a rule is found by its offset, and back. */
#include <string.h>

#include "answer.h"

enum { EDITION = RULE_DECK_STUDIO };

static uint8_t deck[1000];
static uint64_t length;

/* The new length. */
static void edited(const char *what, uint64_t answer) {
    length = done(what, answer);
    printf("%s %" PRIu64 "\n", what, length);
}

/* The data of a simple element; its length. */
static size_t simple_data(uint32_t identifier, uint8_t *data) {
    uint64_t value[RULE_DECK_VALUE_WIDTH] = {RULE_DECK_CASE_SIMPLE, identifier};
    return done("put value", rule_deck_put_value(EDITION, identifier, value, RULE_DECK_VALUE_WIDTH, data,
                                                 RULE_DECK_MOST_VALUE_BYTES));
}

/* Adds a rule that has a name of one unit and a simple element. */
static void add_rule(char name, bool on, uint32_t identifier) {
    const uint8_t unit[] = {(uint8_t)name, 0};
    uint8_t data[RULE_DECK_MOST_VALUE_BYTES];
    size_t data_len = simple_data(identifier, data);
    edited("add rule", rule_deck_add_rule(EDITION, deck, sizeof deck, length, unit, sizeof unit, 0, on, 0, 0, 0, 0,
                                          identifier, data, data_len));
}

/* Adds a list that has one word to the last rule. */
static void add_list(void) {
    static const uint8_t no_words[] = {0, 0, 0, 0}, feed[] = {'f', 0, 'e', 0, 'e', 0, 'd', 0};
    edited("add element", rule_deck_add_element(EDITION, deck, sizeof deck, length, RULE_DECK_EXCEPT_RECIPIENT_WORDS,
                                                no_words, sizeof no_words));
    edited("add word", rule_deck_add_word(EDITION, deck, sizeof deck, length, feed, sizeof feed));
}

/* Duplicates rule k. A second deck must not lie in the buffer, so the deck is copied out first. */
static void duplicate(uint64_t k) {
    static uint8_t copy[sizeof deck];
    memcpy(copy, deck, length);
    edited("insert", rule_deck_insert(EDITION, deck, sizeof deck, length, k + 1, copy, length, k));
}

static void print_rule(uint64_t k, const uint32_t *row) {
    uint32_t name[RULE_DECK_PART_WIDTH], word[RULE_DECK_PART_WIDTH];
    done("name", rule_deck_name_part(EDITION, deck, length, k, name, RULE_DECK_PART_WIDTH));
    done("word", rule_deck_word_part(EDITION, deck, length, k, 1, 0, word, RULE_DECK_PART_WIDTH));
    printf("rule %" PRIu64 ", named %c, %s, from %u to %u, %u elements; its word is %u bytes from %u on\n", k,
           deck[name[RULE_DECK_PART_FIRST]], deck[row[RULE_DECK_RULE_ENABLED]] ? "on" : "off",
           row[RULE_DECK_RULE_START], row[RULE_DECK_RULE_END], row[RULE_DECK_RULE_ELEMENTS],
           word[RULE_DECK_PART_BYTES], word[RULE_DECK_PART_FIRST]);
}

static void print(void) {
    uint32_t rules[2 * RULE_DECK_RULE_WIDTH], elements[4 * RULE_DECK_ELEMENT_WIDTH];
    uint64_t n = done("read", rule_deck_read(EDITION, deck, length, rules, 2 * RULE_DECK_RULE_WIDTH, elements,
                                             4 * RULE_DECK_ELEMENT_WIDTH));
    for (uint64_t k = 0; k < n; k++) print_rule(k, rules + RULE_DECK_RULE_WIDTH * k);
}

/* Where rule k of a deck of version 2 starts, without a walk. */
static uint32_t start_of(const uint8_t *indexed, uint64_t k) {
    const uint8_t *offset = indexed + RULE_DECK_OFFSETS + 4 * k;
    return offset[0] | offset[1] << 8 | offset[2] << 16 | (uint32_t)offset[3] << 24;
}

static void convert(void) {
    static uint8_t indexed[sizeof deck], again[sizeof deck];
    uint64_t n = done("to 2", rule_deck_to_2(EDITION, deck, length, indexed, sizeof indexed));
    printf("to 2 %" PRIu64 ", rule 1 starts at %u\n", n, start_of(indexed, 1));
    n = done("to 1", rule_deck_to_1(EDITION, indexed, n, again, sizeof again));
    printf("to 1 %" PRIu64 ", %s\n", n, n == length && memcmp(deck, again, n) == 0 ? "the same bytes" : "other bytes");
}

int main(void) {
    static const uint8_t c[] = {'C', 0};
    edited("start", rule_deck_start(deck, sizeof deck));
    add_rule('A', true, RULE_DECK_EXCEPT_ONLY_TO_ME);
    add_rule('B', false, RULE_DECK_IF_ANY_FEED);
    add_list();
    edited("switch", rule_deck_switch(EDITION, deck, sizeof deck, length, 1, true));
    edited("remove", rule_deck_remove(EDITION, deck, sizeof deck, length, 0));
    duplicate(0);
    edited("rename", rule_deck_rename(EDITION, deck, sizeof deck, length, 1, c, sizeof c));
    print();
    convert();
    return 0;
}
