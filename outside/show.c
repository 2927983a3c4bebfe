/* Shows a deck as a product would: show EDITION FILE. Each rule with its name and state, each element with its kind, its
 * role and its value. A refusal is a sentence and ends it. */
#include "answer.h"

static uint64_t edition;
static uint8_t deck[RULE_DECK_MOST_BYTES + 1]; /* one more, so that a file that is too long is refused as such */
static size_t deck_len;
static uint32_t rules[RULE_DECK_MOST_RULES * RULE_DECK_RULE_WIDTH];
static uint32_t elements[RULE_DECK_MOST_ELEMENTS * RULE_DECK_ELEMENT_WIDTH];

static const char *const kinds[] = {
    [RULE_DECK_ROW_MARKER] = "marker",           [RULE_DECK_ROW_SIMPLE_CONDITION] = "simple",
    [RULE_DECK_ROW_SIMPLE_ACTION] = "simple",    [RULE_DECK_ROW_SIMPLE_EXCEPTION] = "simple",
    [RULE_DECK_ROW_WORDS] = "words",             [RULE_DECK_ROW_SIZE] = "size",
    [RULE_DECK_ROW_DATES] = "dates",
};

static const char *const roles[] = {
    [RULE_DECK_ROLE_NONE] = "",
    [RULE_DECK_ROLE_CONDITION] = " condition",
    [RULE_DECK_ROLE_ACTION] = " action",
    [RULE_DECK_ROLE_EXCEPTION] = " exception",
};

static const struct {
    uint32_t identifier;
    const char *text;
} texts[] = {
    {RULE_DECK_MARKER, "of unknown meaning"},
    {RULE_DECK_IF_IN_TO, "if my name is in To"},
    {RULE_DECK_IF_ONLY_TO_ME, "if sent to me only"},
    {RULE_DECK_IF_NOT_IN_TO, "if my name is not in To"},
    {RULE_DECK_IF_ATTACHMENT, "if it has an attachment"},
    {RULE_DECK_IF_IN_CC, "if my name is in Cc"},
    {RULE_DECK_IF_IN_TO_OR_CC, "if my name is in To or Cc"},
    {RULE_DECK_IF_ANY_FEED, "if it is from a feed"},
    {RULE_DECK_DO_DELETE, "delete it"},
    {RULE_DECK_DO_CLEAR_FLAG, "clear its flag"},
    {RULE_DECK_DO_NOTIFY_READ, "tell me when it is read"},
    {RULE_DECK_DO_NOTIFY_DELIVERED, "tell me when it is delivered"},
    {RULE_DECK_DO_STOP, "take no more rules"},
    {RULE_DECK_DO_DELETE_PERMANENTLY, "delete it for good"},
    {RULE_DECK_DO_MARK_READ, "mark it as read"},
    {RULE_DECK_DO_ALERT, "show an alert"},
    {RULE_DECK_DO_CLEAR_CATEGORIES, "clear its categories"},
    {RULE_DECK_EXCEPT_IN_TO, "except if my name is in To"},
    {RULE_DECK_EXCEPT_ONLY_TO_ME, "except if sent to me only"},
    {RULE_DECK_EXCEPT_NOT_IN_TO, "except if my name is not in To"},
    {RULE_DECK_EXCEPT_AUTOMATIC_REPLY, "except if it is an automatic reply"},
    {RULE_DECK_EXCEPT_ATTACHMENT, "except if it has an attachment"},
    {RULE_DECK_EXCEPT_IN_CC, "except if my name is in Cc"},
    {RULE_DECK_EXCEPT_IN_TO_OR_CC, "except if my name is in To or Cc"},
    {RULE_DECK_EXCEPT_MEETING, "except if it is about a meeting"},
    {RULE_DECK_EXCEPT_ANY_CATEGORY, "except if it has a category"},
    {RULE_DECK_EXCEPT_ANY_FEED, "except if it is from a feed"},
    {RULE_DECK_EXCEPT_RECIPIENT_WORDS, "except for words in the recipient's address"},
    {RULE_DECK_EXCEPT_SENDER_WORDS, "except for words in the sender's address"},
    {RULE_DECK_EXCEPT_HEADER_WORDS, "except for words in the header"},
    {RULE_DECK_EXCEPT_FEED_WORDS, "except for words in a feed's title"},
    {RULE_DECK_IF_SIZE, "if its size in KB is"},
    {RULE_DECK_EXCEPT_SIZE, "except if its size in KB is"},
    {RULE_DECK_IF_RECEIVED, "if received"},
    {RULE_DECK_EXCEPT_RECEIVED, "except if received"},
};

static const char *text_of(uint32_t identifier) {
    for (size_t i = 0; i < sizeof texts / sizeof texts[0]; i++)
        if (texts[i].identifier == identifier) return texts[i].text;
    return "?";
}

static void put_utf8(uint32_t c) {
    static const uint8_t lead[] = {0, 0xC0, 0xE0, 0xF0};
    int more = c < 0x80 ? 0 : c < 0x800 ? 1 : c < 0x10000 ? 2 : 3; /* bytes behind the first, six bits in each */
    putchar((int)(lead[more] | c >> 6 * more));
    while (more-- > 0) putchar((int)(0x80 | (c >> 6 * more & 0x3F)));
}

static uint32_t unit(const uint8_t *at) { return at[0] | (uint32_t)at[1] << 8; }

static bool is_high(uint32_t u) { return u >> 10 == 0xD800 >> 10; }
static bool is_low(uint32_t u) { return u >> 10 == 0xDC00 >> 10; }

/* Units as UTF-8: a pair of surrogates is one character, a lone one is U+FFFD. */
static void put_units(const uint32_t *part) {
    const uint8_t *at = deck + part[RULE_DECK_PART_FIRST], *end = at + part[RULE_DECK_PART_BYTES];
    for (; at < end; at += 2) {
        uint32_t u = unit(at);
        if (is_high(u) && at + 2 < end && is_low(unit(at + 2))) {
            at += 2;
            put_utf8(0x10000 + ((u & 0x3FF) << 10 | (unit(at) & 0x3FF)));
        } else {
            put_utf8(is_high(u) || is_low(u) ? 0xFFFD : u);
        }
    }
}

static void put_date(const char *which, uint64_t flag, uint64_t bits) {
    uint32_t m[RULE_DECK_MOMENT_WIDTH];
    done("a date", rule_deck_moment(bits, m, RULE_DECK_MOMENT_WIDTH));
    uint32_t s = m[RULE_DECK_MOMENT_SECOND];
    printf(" %s %04u-%02u-%02u %02u:%02u:%02u%s", which, m[RULE_DECK_MOMENT_YEAR], m[RULE_DECK_MOMENT_MONTH],
           m[RULE_DECK_MOMENT_DAY], s / 3600, s / 60 % 60, s % 60, flag ? "" : " (does not count)");
}

static void put_words(uint64_t k, uint64_t e, uint64_t count) {
    uint32_t part[RULE_DECK_PART_WIDTH];
    printf(" (%" PRIu64 ")", count);
    for (uint64_t w = 0; w < count; w++) {
        done("a word", rule_deck_word_part(edition, deck, deck_len, k, e, w, part, RULE_DECK_PART_WIDTH));
        printf(w == 0 ? ": [" : ", [");
        put_units(part);
        putchar(']');
    }
}

static void put_value(uint64_t k, uint64_t e, const uint32_t *row) {
    uint64_t v[RULE_DECK_VALUE_WIDTH];
    uint32_t start = row[RULE_DECK_ELEMENT_START], end = row[RULE_DECK_ELEMENT_END];
    done("a value", rule_deck_value(edition, row[RULE_DECK_ELEMENT_IDENTIFIER], deck + start, end - start, v,
                                    RULE_DECK_VALUE_WIDTH));
    switch (v[RULE_DECK_VALUE_CASE]) {
    case RULE_DECK_CASE_SIZE:
        printf(" %" PRIu64 " to %" PRIu64, v[RULE_DECK_VALUE_MINIMUM], v[RULE_DECK_VALUE_MAXIMUM]);
        break;
    case RULE_DECK_CASE_DATES:
        put_date("after", v[RULE_DECK_VALUE_AFTER_FLAG], v[RULE_DECK_VALUE_AFTER_BITS]);
        put_date("and before", v[RULE_DECK_VALUE_BEFORE_FLAG], v[RULE_DECK_VALUE_BEFORE_BITS]);
        break;
    case RULE_DECK_CASE_WORDS:
        put_words(k, e, v[RULE_DECK_VALUE_COUNT]);
        break;
    }
}

static void show_element(uint64_t k, uint64_t e, const uint32_t *row) {
    uint32_t kind[RULE_DECK_KIND_WIDTH], identifier = row[RULE_DECK_ELEMENT_IDENTIFIER];
    done("a kind", rule_deck_kind(edition, identifier, kind, RULE_DECK_KIND_WIDTH));
    printf("  %s%s: %s", kinds[kind[RULE_DECK_KIND_ROW]], roles[kind[RULE_DECK_KIND_ROLE]], text_of(identifier));
    put_value(k, e, row);
    putchar('\n');
}

static void show_rule(uint64_t k, const uint32_t *row) {
    uint32_t name[RULE_DECK_PART_WIDTH];
    done("a name", rule_deck_name_part(edition, deck, deck_len, k, name, RULE_DECK_PART_WIDTH));
    printf("rule %" PRIu64 ", %s: [", k, deck[row[RULE_DECK_RULE_ENABLED]] ? "on" : "off");
    put_units(name);
    printf("]\n");
}

/* The rows of all elements follow each other, rule by rule. */
static void show(uint64_t count) {
    const uint32_t *rule = rules, *element = elements;
    for (uint64_t k = 0; k < count; k++, rule += RULE_DECK_RULE_WIDTH) {
        show_rule(k, rule);
        uint32_t n = rule[RULE_DECK_RULE_ELEMENTS];
        for (uint32_t e = 0; e < n; e++, element += RULE_DECK_ELEMENT_WIDTH) show_element(k, e, element);
    }
}

int main(int argc, char **argv) {
    FILE *f = argc == 3 ? fopen(argv[2], "rb") : NULL;
    if (f == NULL || rule_deck_version() != RULE_DECK_VERSION) {
        fprintf(stderr, f == NULL ? "show EDITION FILE\n" : "header and archive differ\n");
        return 2;
    }
    edition = strtoull(argv[1], NULL, 10);
    deck_len = fread(deck, 1, sizeof deck, f);
    fclose(f);
    show(done("the deck", rule_deck_read(edition, deck, deck_len, rules, sizeof rules / sizeof rules[0], elements,
                                         sizeof elements / sizeof elements[0])));
    return 0;
}
