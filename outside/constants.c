/* The header's constants against the archive: its version, the codes' messages, the widths of rows, a String's forms,
 * the place of a rule's state and of an offset, the limits. */
#include <string.h>

#include "answer.h"

enum { EDITION = RULE_DECK_STUDIO, LIST = RULE_DECK_EXCEPT_SENDER_WORDS };

static uint8_t deck[RULE_DECK_MOST_BYTES + 1];
static uint64_t length;
static const uint8_t no_words[] = {0, 0, 0, 0};
static uint8_t text[RULE_DECK_MOST_TEXT + 2];

static uint64_t add_rule(void) {
    return rule_deck_add_rule(EDITION, deck, sizeof deck, length, NULL, 0, 0, true, 0, 0, 0, 0, LIST, no_words,
                              sizeof no_words);
}

static uint64_t add_element(void) {
    return rule_deck_add_element(EDITION, deck, sizeof deck, length, LIST, no_words, sizeof no_words);
}

static uint64_t add_word(void) { return rule_deck_add_word(EDITION, deck, sizeof deck, length, NULL, 0); }

static uint64_t rename_rule(size_t bytes) {
    return rule_deck_rename(EDITION, deck, sizeof deck, length, 0, text, bytes);
}

/* A deck that has one rule, whose list has one word. */
static void build(void) {
    length = done("start", rule_deck_start(deck, sizeof deck));
    length = done("add rule", add_rule());
    length = done("add word", add_word());
}

static void versions(void) {
    if (rule_deck_version() == RULE_DECK_VERSION) return;
    printf("the archive's version is %" PRIu64 ", the header's %u\n", rule_deck_version(), RULE_DECK_VERSION);
    exit(1);
}

static bool is_code(unsigned code) {
    return code <= RULE_DECK_FAULT_LAST || code == RULE_DECK_FAULT_OFFSET ||
           (RULE_DECK_GIVEN + RULE_DECK_FAULT_LONG <= code && code <= RULE_DECK_GIVEN + RULE_DECK_FAULT_OVER) ||
           code == RULE_DECK_GIVEN + RULE_DECK_FAULT_OFFSET;
}

/* Each code has a message, and no two have the same; other numbers have one that says that they are none. */
static void messages(void) {
    const char *none = rule_deck_message(255);
    for (unsigned i = 0; i < 256; i++) {
        const char *said = rule_deck_message(i);
        bool right = *said != 0 && is_code(i) == (strcmp(said, none) != 0);
        for (unsigned j = 0; j < i && is_code(i); j++) right = right && strcmp(said, rule_deck_message(j)) != 0;
        if (right) continue;
        printf("the message of %u: %s\n", i, said);
        exit(1);
    }
}

/* A row fits a table of its width, and none that is one number shorter. */
#define FITS(width, call) \
    for (size_t n = width; n + 1 >= width; n--) EXPECT(call, n == width ? RULE_DECK_DONE : RULE_DECK_FAULT_TABLE, 0)

static void widths(void) {
    uint32_t t[8], u[8];
    uint64_t v[8];
    const size_t one = RULE_DECK_RULE_WIDTH, its = RULE_DECK_ELEMENT_WIDTH;
    EXPECT(rule_deck_read(EDITION, deck, length, t, one, u, its), RULE_DECK_DONE, 1);
    EXPECT(rule_deck_read(EDITION, deck, length, t, one - 1, u, its - 1), RULE_DECK_FAULT_TABLE, 0);
    EXPECT(rule_deck_read(EDITION, deck, length, t, one, u, its - 1), RULE_DECK_FAULT_TABLE, 1);
    FITS(RULE_DECK_KIND_WIDTH, rule_deck_kind(EDITION, LIST, t, n));
    FITS(RULE_DECK_FIELDS_WIDTH, rule_deck_fields(EDITION, deck, length, 0, t, n));
    FITS(RULE_DECK_PART_WIDTH, rule_deck_name_part(EDITION, deck, length, 0, t, n));
    FITS(RULE_DECK_PART_WIDTH, rule_deck_word_part(EDITION, deck, length, 0, 0, 0, t, n));
    FITS(RULE_DECK_MOMENT_WIDTH, rule_deck_moment(0, t, n));
    FITS(RULE_DECK_VALUE_WIDTH, rule_deck_value(EDITION, LIST, no_words, sizeof no_words, v, n));
}

static void name_is(uint32_t form, uint32_t first) {
    uint32_t name[RULE_DECK_PART_WIDTH];
    done("name part", rule_deck_name_part(EDITION, deck, length, 0, name, RULE_DECK_PART_WIDTH));
    if (name[RULE_DECK_PART_FORM] == form && name[RULE_DECK_PART_FIRST] == first) return;
    printf("the name has form %u and its units start at %u\n", name[RULE_DECK_PART_FORM], name[RULE_DECK_PART_FIRST]);
    exit(1);
}

/* An empty name is told in the form that it has; a rename gives it the shortest. */
static void forms(void) {
    static const uint8_t long_form[] = {0xFF, 0, 0};
    uint8_t *string = deck + RULE_DECK_LEAST_BYTES + 4;
    build();
    name_is(RULE_DECK_FORM_SHORT, 12);
    memmove(string + 3, string + 1, length - 12);
    memcpy(string, long_form, sizeof long_form);
    length += 2;
    name_is(RULE_DECK_FORM_LONG, 14);
    length = done("rename", rename_rule(0));
    name_is(RULE_DECK_FORM_SHORT, 12);
    length = done("rename", rename_rule(RULE_DECK_MOST_TEXT));
    name_is(RULE_DECK_FORM_LONG, 14);
}

static bool is_on(void) {
    uint32_t rule[RULE_DECK_RULE_WIDTH], list[RULE_DECK_ELEMENT_WIDTH];
    done("read", rule_deck_read(EDITION, deck, length, rule, RULE_DECK_RULE_WIDTH, list, RULE_DECK_ELEMENT_WIDTH));
    return deck[rule[RULE_DECK_RULE_ENABLED]] == 1;
}

/* The state is at its column's place, whichever form the name's String has. */
static void states(void) {
    for (int i = 0; i < 4; i++) {
        bool on = i % 2 == 0;
        length = done("rename", rename_rule(i < 2 ? 0 : RULE_DECK_MOST_TEXT));
        length = done("switch", rule_deck_switch(EDITION, deck, sizeof deck, length, 0, on));
        if (is_on() == on) continue;
        printf("the state is not at RULE_DECK_RULE_ENABLED\n");
        exit(1);
    }
}

/* The first rule of a deck of version 2 starts where its offset says; else it is refused at the offset. */
static void offsets(void) {
    static uint8_t other[sizeof deck];
    build();
    uint64_t n = done("to 2", rule_deck_to_2(EDITION, deck, length, other, sizeof other));
    uint8_t *offset = other + RULE_DECK_OFFSETS;
    uint32_t rule[RULE_DECK_RULE_WIDTH], list[RULE_DECK_ELEMENT_WIDTH];
    done("read", rule_deck_read(EDITION, other, n, rule, RULE_DECK_RULE_WIDTH, list, RULE_DECK_ELEMENT_WIDTH));
    if (n != length + 4 || rule[RULE_DECK_RULE_START] != offset[0]) {
        printf("of %" PRIu64 " bytes, the first offset is %u\n", n, offset[0]);
        exit(1);
    }
    (*offset)++;
    EXPECT(rule_deck_check(EDITION, other, n), RULE_DECK_FAULT_OFFSET, RULE_DECK_OFFSETS);
    EXPECT(rule_deck_insert(EDITION, deck, sizeof deck, length, 0, other, n, 0),
           RULE_DECK_GIVEN + RULE_DECK_FAULT_OFFSET, RULE_DECK_OFFSETS);
}

/* Repeats an edit until it is refused: there were that many before. */
static void up_to(uint64_t had, uint64_t most, uint64_t (*edit)(void), unsigned code) {
    for (; had < most; had++) length = done("a limit", edit());
    EXPECT(edit(), code, 0);
}

static void counts(void) {
    build();
    up_to(1, RULE_DECK_MOST_WORDS, add_word, RULE_DECK_FAULT_FULL);
    up_to(1, RULE_DECK_MOST_RULE_ELEMENTS, add_element, RULE_DECK_FAULT_FULL);
    up_to(1, RULE_DECK_MOST_RULES, add_rule, RULE_DECK_FAULT_RULES);
}

static void bytes(void) {
    uint64_t dates[RULE_DECK_VALUE_WIDTH] = {RULE_DECK_CASE_DATES};
    uint8_t data[RULE_DECK_MOST_VALUE_BYTES];
    const size_t room = sizeof data;
    EXPECT(rule_deck_put_value(EDITION, RULE_DECK_IF_RECEIVED, dates, RULE_DECK_VALUE_WIDTH, data, room - 1),
           RULE_DECK_FAULT_ROOM, 0);
    EXPECT(rule_deck_put_value(EDITION, RULE_DECK_IF_RECEIVED, dates, RULE_DECK_VALUE_WIDTH, data, room), RULE_DECK_DONE,
           RULE_DECK_MOST_VALUE_BYTES);
    build();
    EXPECT(rename_rule(RULE_DECK_MOST_TEXT + 2), RULE_DECK_FAULT_TEXT, 0);
    length = done("rename", rename_rule(RULE_DECK_MOST_TEXT));
    EXPECT(rule_deck_start(deck, RULE_DECK_LEAST_BYTES - 1), RULE_DECK_FAULT_ROOM, 0);
    EXPECT(rule_deck_start(deck, RULE_DECK_LEAST_BYTES), RULE_DECK_DONE, RULE_DECK_LEAST_BYTES);
    EXPECT(rule_deck_check(EDITION, deck, RULE_DECK_MOST_BYTES), RULE_DECK_FAULT_OVER, RULE_DECK_LEAST_BYTES);
    EXPECT(rule_deck_check(EDITION, deck, RULE_DECK_MOST_BYTES + 1), RULE_DECK_FAULT_LONG, RULE_DECK_MOST_BYTES);
}

_Static_assert(RULE_DECK_MOST_ELEMENTS == (RULE_DECK_MOST_BYTES - RULE_DECK_LEAST_BYTES) / 10, "10 bytes each");

int main(void) {
    versions();
    messages();
    build();
    widths();
    states();
    forms();
    offsets();
    counts();
    bytes();
    return 0;
}
