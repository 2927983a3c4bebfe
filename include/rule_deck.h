/* Rule decks for C: the calls of librule_deck.a (Linux, x86-64), and what a caller has to know of a deck.
 *
 * In this order: versions and answers; the deck; elements; refusals; tables; what is lent; the calls. */
#ifndef RULE_DECK_H
#define RULE_DECK_H

#include <stdbool.h>
#include <stddef.h>
#include <stdint.h>

#ifdef __cplusplus
extern "C" {
#endif

/* ---- versions and answers */

/* The version of this header. Header and archive belong together where rule_deck_version() answers the same. */
#define RULE_DECK_MAJOR 1
#define RULE_DECK_MINOR 3
#define RULE_DECK_VERSION (256 * RULE_DECK_MAJOR + RULE_DECK_MINOR)

/* The editions. */
#define RULE_DECK_DESK 1
#define RULE_DECK_STUDIO 2

/* Each call (but rule_deck_version) answers one 64-bit number, code plus 256 times place. Code RULE_DECK_DONE is
 * success, and each call says below what its place then is. Any other code is a refusal: the place is where, and
 * no byte of any buffer and no number of any table was changed. So look at the code before the place. */
#define RULE_DECK_CODE(answer) ((unsigned)((answer) & 0xFF))
#define RULE_DECK_PLACE(answer) ((answer) >> 8)

/* ---- the deck
 *
 * Numbers are little-endian. Each number, constant, mark or String below is a field, with a place of its own:
 *
 *   a deck      3 bytes   mark, "RDK"
 *               2         version, 1 or 2
 *               2         number of rules, 0 to 256
 *               4 each    in version 2 the offsets, one for each rule: the place in the deck where it starts
 *                         the rules, back to back, to the last byte
 *
 *   a rule      4 bytes   signature with Unknown1, any number
 *                         name, a String
 *               4         Enabled, 0 off or 1 on
 *               4 x 4     Unknown2 to Unknown5, any numbers
 *               4         Data Size, the number of bytes behind it, to the end of the rule
 *               2         number of elements, 1 to 64
 *               18        head of the first rule: 0xFFFF, 0, 12 (2 bytes each) and "CRuleElement";
 *               2         of any other rule: 0x8001
 *                         the elements, with 0x8001 (2 bytes) between two
 *
 *   a String    1 byte    short form: number of units, 0 to 254;
 *               1 and 2   long form: 255, and number of units, 0 to 255
 *                         the units
 *
 *   a word      4 bytes   0
 *                         a String
 *
 *   an element  4 bytes   identifier
 *                         data, by the identifier's kind
 *
 * A unit is 2 bytes, little-endian UTF-16, and may have any value: zero and lone surrogates, too. Up to 254 units may
 * have either form, and keep it: a String is written as it was read. Only a name or a word that a call is given gets
 * the shortest form, the long one for 255 units alone. The elements of a rule may come in any order.
 *
 * Every call but the two conversions takes decks of both versions. An edit keeps the version, and puts the offsets
 * afresh. In a sound deck of version 2 the 4 bytes at RULE_DECK_OFFSETS + 4 * k say where rule k starts. */

#define RULE_DECK_LEAST_BYTES 7       /* of a deck: an empty one, of either version */
#define RULE_DECK_MOST_BYTES 60000    /* of a deck, its offsets among them */
#define RULE_DECK_OFFSETS 7           /* the place of the first offset */
#define RULE_DECK_MOST_RULES 256      /* of a deck */
#define RULE_DECK_MOST_ELEMENTS 5999  /* of a deck: each takes at least 10 bytes of it */
#define RULE_DECK_MOST_RULE_ELEMENTS 64
#define RULE_DECK_MOST_WORDS 64       /* of a list */
#define RULE_DECK_MOST_TEXT 510       /* bytes of a name's or a word's units */
#define RULE_DECK_MOST_VALUE_BYTES 40 /* of the data that rule_deck_put_value writes */

/* ---- elements */

/* The identifiers: IF a message is such, DO this with it, EXCEPT where it is such. Numbers that are not here are
 * refused, whatever bits they share with one that is. Desk has the marker and the simple conditions and actions. */
enum rule_deck_identifier {
    RULE_DECK_MARKER = 0x64, /* of unknown meaning; the mail program puts one into every rule */

    /* simple conditions */
    RULE_DECK_IF_IN_TO = 0xC8,       /* my name is in To */
    RULE_DECK_IF_ONLY_TO_ME = 0xC9,  /* sent to nobody else */
    RULE_DECK_IF_NOT_IN_TO = 0xCA,   /* my name is not in To */
    RULE_DECK_IF_ATTACHMENT = 0xDE,  /* has an attachment */
    RULE_DECK_IF_IN_CC = 0xE2,       /* my name is in Cc */
    RULE_DECK_IF_IN_TO_OR_CC = 0xE3, /* my name is in To or in Cc */
    RULE_DECK_IF_ANY_FEED = 0xF5,    /* from an RSS feed, whichever */

    /* simple actions */
    RULE_DECK_DO_DELETE = 0x12D,
    RULE_DECK_DO_CLEAR_FLAG = 0x132,       /* take the message's flag away */
    RULE_DECK_DO_NOTIFY_READ = 0x13A,      /* tell me when it has been read */
    RULE_DECK_DO_NOTIFY_DELIVERED = 0x13B, /* tell me when it has arrived */
    RULE_DECK_DO_STOP = 0x142,             /* no further rules */
    RULE_DECK_DO_DELETE_PERMANENTLY = 0x14A,
    RULE_DECK_DO_MARK_READ = 0x14C,
    RULE_DECK_DO_ALERT = 0x14F,            /* show an alert on the desktop */
    RULE_DECK_DO_CLEAR_CATEGORIES = 0x152, /* take the message's categories away */

    /* simple exceptions */
    RULE_DECK_EXCEPT_IN_TO = 0x1F4,
    RULE_DECK_EXCEPT_ONLY_TO_ME = 0x1F5,
    RULE_DECK_EXCEPT_NOT_IN_TO = 0x1F6,
    RULE_DECK_EXCEPT_AUTOMATIC_REPLY = 0x208,
    RULE_DECK_EXCEPT_ATTACHMENT = 0x20A,
    RULE_DECK_EXCEPT_IN_CC = 0x20E,
    RULE_DECK_EXCEPT_IN_TO_OR_CC = 0x20F,
    RULE_DECK_EXCEPT_MEETING = 0x216,      /* an invitation to a meeting, or a change of one */
    RULE_DECK_EXCEPT_ANY_CATEGORY = 0x21A, /* has a category, whichever */
    RULE_DECK_EXCEPT_ANY_FEED = 0x21B,

    /* word lists, exceptions: the words are in .. */
    RULE_DECK_EXCEPT_RECIPIENT_WORDS = 0x211, /* .. the recipient's address */
    RULE_DECK_EXCEPT_SENDER_WORDS = 0x212,    /* .. the sender's address */
    RULE_DECK_EXCEPT_HEADER_WORDS = 0x213,    /* .. the message's header */
    RULE_DECK_EXCEPT_FEED_WORDS = 0x219,      /* .. the title of an RSS feed */

    /* sizes: within a range */
    RULE_DECK_IF_SIZE = 0xE0,
    RULE_DECK_EXCEPT_SIZE = 0x20C,

    /* dates: received within a span */
    RULE_DECK_IF_RECEIVED = 0xE1,
    RULE_DECK_EXCEPT_RECEIVED = 0x20D
};

/* The kinds, and the data of each. Numbers are 4 bytes each, flags are 0 or 1, and a date is the 8 bytes of a double:
 * days from 30 December 1899, above -657435 and below 2958466, whether or not its flag is set (rule_deck_moment). */
enum rule_deck_row {
    RULE_DECK_ROW_MARKER = 0,           /* 1, 0, 1 */
    RULE_DECK_ROW_SIMPLE_CONDITION = 1, /* 1, 0 */
    RULE_DECK_ROW_SIMPLE_ACTION = 2,    /* 1, 0 */
    RULE_DECK_ROW_SIMPLE_EXCEPTION = 3, /* 1, 0 */
    RULE_DECK_ROW_WORDS = 4,            /* number of words, 0 to 64; the words */
    RULE_DECK_ROW_SIZE = 5,             /* 1, 0, minimum, maximum: kilobytes, the minimum may be the larger */
    RULE_DECK_ROW_DATES = 6             /* 1, 0, flag, 0, after date, flag, 0, before date */
};

/* What an identifier is in its rule. */
enum rule_deck_role {
    RULE_DECK_ROLE_NONE = 0,
    RULE_DECK_ROLE_CONDITION = 1,
    RULE_DECK_ROLE_ACTION = 2,
    RULE_DECK_ROLE_EXCEPTION = 3
};

/* The cases of an element's value, and the columns of a value's table that each has (rule_deck_value_column). */
enum rule_deck_case {
    RULE_DECK_CASE_MARKER = 0, /* none */
    RULE_DECK_CASE_SIMPLE = 1, /* IDENTIFIER */
    RULE_DECK_CASE_SIZE = 2,   /* MINIMUM, MAXIMUM */
    RULE_DECK_CASE_DATES = 3,  /* AFTER_FLAG, BEFORE_FLAG, AFTER_BITS, BEFORE_BITS */
    RULE_DECK_CASE_WORDS = 4   /* COUNT; the words are shown by rule_deck_word_part */
};

/* The forms of a String (the deck, above): the one that it has, whatever its number of units. */
enum rule_deck_form {
    RULE_DECK_FORM_SHORT = 0,
    RULE_DECK_FORM_LONG = 1
};

/* ---- refusals */

/* The codes, with the place of each; what each means is its message, below. */
enum rule_deck_code {
    RULE_DECK_DONE = 0,
    RULE_DECK_FAULT_EDITION = 1,  /* 0 */
    RULE_DECK_FAULT_LONG = 2,     /* 60000 */
    RULE_DECK_FAULT_CUT = 3,      /* the start of the field, or of the String */
    RULE_DECK_FAULT_MARK = 4,     /* 0 */
    RULE_DECK_FAULT_VERSION = 5,  /* 3 */
    RULE_DECK_FAULT_COUNT = 6,    /* the count */
    RULE_DECK_FAULT_FORM = 7,     /* the String */
    RULE_DECK_FAULT_FIELD = 8,    /* the field */
    RULE_DECK_FAULT_UNKNOWN = 9,  /* the identifier; 0 where it is an argument */
    RULE_DECK_FAULT_FOREIGN = 10, /* as for 9 */
    RULE_DECK_FAULT_DATE = 11,    /* the date; 0 where it is an argument */
    RULE_DECK_FAULT_SIZE = 12,    /* the Data Size */
    RULE_DECK_FAULT_OVER = 13,    /* the first byte left over */
    RULE_DECK_FAULT_TABLE = 14,   /* 0; 1 for the elements of rule_deck_read */
    RULE_DECK_FAULT_STATED = 15,  /* 0 */
    RULE_DECK_FAULT_ABSENT = 16,  /* 0 for k; 1 for j or e; 2 for w, or where e is no word list */
    RULE_DECK_FAULT_TEXT = 17,    /* 0, as for all that follow up to 22 */
    RULE_DECK_FAULT_RULES = 18,
    RULE_DECK_FAULT_LARGE = 19,
    RULE_DECK_FAULT_ROOM = 20,
    RULE_DECK_FAULT_FULL = 21,
    RULE_DECK_FAULT_LAST = 22,
    RULE_DECK_FAULT_OFFSET = 29, /* the offset */
    RULE_DECK_GIVEN = 32 /* plus 2 to 13, or 29: that fault in a second deck or a given element, its place there */
};

/* At each call below, the codes that it may give, in the order in which they are judged; the first that holds is
 * answered. For short:
 *
 *   DECK    1; then 2; then 3 to 13 from left to right, each field as soon as it is read; of a String its length, 7,
 *           its units; 12 after the rule's last element, 13 after the last rule; in version 2 also 29, before the first
 *           field of the offset's rule.
 *   EDIT    1; then 15; then 2 to 13 and 29 as in DECK.
 *   SECOND  34 to 45 and 61: 2 to 13 and 29 as in DECK, of the second deck.
 *   GIVEN   41, 42; then 35, 38, 39, 40 and 43 in the data from left to right; then 45. */

/* What a code says, without its place. */
static inline const char *rule_deck_message(unsigned code) {
#define RULE_DECK_SAYS(fault, text) \
    case RULE_DECK_FAULT_##fault: \
        return text;
#define RULE_DECK_SAYS_GIVEN(fault, text) \
    RULE_DECK_SAYS(fault, text) \
    case RULE_DECK_FAULT_##fault + RULE_DECK_GIVEN: \
        return "in the second deck or the given element: " text;
    switch (code) {
    case RULE_DECK_DONE:
        return "done";
        RULE_DECK_SAYS(EDITION, "the edition is neither 1 (Desk) nor 2 (Studio)")
        RULE_DECK_SAYS_GIVEN(LONG, "the deck has over 60,000 bytes")
        RULE_DECK_SAYS_GIVEN(CUT, "a field runs past the end")
        RULE_DECK_SAYS_GIVEN(MARK, "the mark is wrong")
        RULE_DECK_SAYS_GIVEN(VERSION, "the version is wrong")
        RULE_DECK_SAYS_GIVEN(COUNT, "a number of rules, elements or words is out of its range")
        RULE_DECK_SAYS_GIVEN(FORM, "a String has over 255 units")
        RULE_DECK_SAYS_GIVEN(FIELD, "a field or a value is not what it has to be")
        RULE_DECK_SAYS_GIVEN(UNKNOWN, "no edition has the identifier")
        RULE_DECK_SAYS_GIVEN(FOREIGN, "this edition does not have the identifier")
        RULE_DECK_SAYS_GIVEN(DATE, "a date is out of range")
        RULE_DECK_SAYS_GIVEN(SIZE, "a Data Size is wrong")
        RULE_DECK_SAYS_GIVEN(OVER, "bytes are left over")
        RULE_DECK_SAYS(TABLE, "a table is too small")
        RULE_DECK_SAYS(STATED, "the stated length is beyond the buffer")
        RULE_DECK_SAYS(ABSENT, "there is no such rule, place, element, word list or word")
        RULE_DECK_SAYS(TEXT, "the name or word has an odd number of bytes, or over 510")
        RULE_DECK_SAYS(RULES, "the result has over 256 rules")
        RULE_DECK_SAYS(LARGE, "the result has over 60,000 bytes")
        RULE_DECK_SAYS(ROOM, "the result is longer than the buffer")
        RULE_DECK_SAYS(FULL, "the rule has 64 elements, or the list 64 words")
        RULE_DECK_SAYS(LAST, "there is no rule, or the last element is no word list")
        RULE_DECK_SAYS_GIVEN(OFFSET, "an offset is not the start of its rule")
    default:
        return "no code of this version";
    }
#undef RULE_DECK_SAYS_GIVEN
#undef RULE_DECK_SAYS
}

/* ---- tables
 *
 * The columns of a row, and its WIDTH, the number of columns. The length of a table is in numbers, not in bytes. It may
 * be longer than needed: the later numbers stay as they were. */

/* rule_deck_read: a row for each rule. Places count from the deck's first byte; an end is the first byte behind. */
enum rule_deck_rule_column {
    RULE_DECK_RULE_START,
    RULE_DECK_RULE_END,
    RULE_DECK_RULE_NAME,     /* the first byte of the name's units */
    RULE_DECK_RULE_ELEMENTS, /* their number */
    RULE_DECK_RULE_ENABLED,  /* the first byte of Enabled; in the deck that byte is 1 for on, 0 for off */
    RULE_DECK_RULE_WIDTH
};

/* rule_deck_read: a row for each element of the deck, in the order of the rules. */
enum rule_deck_element_column {
    RULE_DECK_ELEMENT_IDENTIFIER,
    RULE_DECK_ELEMENT_RULE,  /* the number of its rule, from 0 */
    RULE_DECK_ELEMENT_START, /* of its data */
    RULE_DECK_ELEMENT_END,   /* of its data */
    RULE_DECK_ELEMENT_WIDTH
};

/* rule_deck_kind */
enum rule_deck_kind_column {
    RULE_DECK_KIND_ROW,  /* enum rule_deck_row */
    RULE_DECK_KIND_ROLE, /* enum rule_deck_role */
    RULE_DECK_KIND_WIDTH
};

/* rule_deck_fields */
enum rule_deck_fields_column {
    RULE_DECK_FIELDS_SIGNATURE, /* with Unknown1 */
    RULE_DECK_FIELDS_ENABLED,
    RULE_DECK_FIELDS_UNKNOWN2,
    RULE_DECK_FIELDS_UNKNOWN3,
    RULE_DECK_FIELDS_UNKNOWN4,
    RULE_DECK_FIELDS_UNKNOWN5,
    RULE_DECK_FIELDS_WIDTH
};

/* rule_deck_name_part, rule_deck_word_part: the units of a name or a word, as a part of the deck's bytes. */
enum rule_deck_part_column {
    RULE_DECK_PART_FIRST, /* the first byte, counted from the deck's */
    RULE_DECK_PART_BYTES, /* their number, two for each unit */
    RULE_DECK_PART_FORM,  /* that the String has there, enum rule_deck_form */
    RULE_DECK_PART_WIDTH
};

/* rule_deck_moment */
enum rule_deck_moment_column {
    RULE_DECK_MOMENT_YEAR,   /* 100 to 9999 */
    RULE_DECK_MOMENT_MONTH,  /* 1 to 12 */
    RULE_DECK_MOMENT_DAY,    /* 1 to 31 */
    RULE_DECK_MOMENT_SECOND, /* of the day, 0 to 86399 */
    RULE_DECK_MOMENT_WIDTH
};

/* rule_deck_value, rule_deck_put_value: the case, then the columns that it has. The room is always WIDTH; columns that
 * a case lacks stay as they were in the first call and are not looked at in the second. */
enum rule_deck_value_column {
    RULE_DECK_VALUE_CASE = 0, /* enum rule_deck_case */
    RULE_DECK_VALUE_IDENTIFIER = 1,
    RULE_DECK_VALUE_MINIMUM = 1, /* kilobytes */
    RULE_DECK_VALUE_MAXIMUM = 2,
    RULE_DECK_VALUE_AFTER_FLAG = 1, /* whether the date counts, 0 or 1 */
    RULE_DECK_VALUE_BEFORE_FLAG = 2,
    RULE_DECK_VALUE_AFTER_BITS = 3, /* the bits of the double */
    RULE_DECK_VALUE_BEFORE_BITS = 4,
    RULE_DECK_VALUE_COUNT = 1, /* words */
    RULE_DECK_VALUE_WIDTH = 5
};

/* ---- what is lent
 *
 * A slice is a pointer and, behind it, the true number of its bytes (of a table: of its numbers). NULL with length 0 is
 * an empty slice. A table is aligned as its type is; bytes may stand anywhere. A bool is 0 or 1.
 *
 * What is lent to be written must not overlap anything else that is lent to the same call. So a name, a word, data, a
 * second deck or a deck to convert must not lie in the buffer: the call moves or writes the buffer's bytes while it
 * still reads what is given. To make a copy of a rule, or to use a name that is in the buffer, copy it out first.
 *
 * Editions, stated lengths, and numbers of rules, elements and words are any 64-bit numbers: those that do not fit are
 * refused. The lengths of slices are not: they are believed.
 *
 * Calls keep no state and allocate nothing: any number may run at once, in any threads, as long as no memory that one
 * of them writes is lent to another. The archive needs no symbol from elsewhere but memset. */

/* ---- calls: the version */

/* The archive's RULE_DECK_VERSION: 256 times the major number plus the minor one. */
uint64_t rule_deck_version(void);

/* ---- calls: reading */

/* The deck check. Done: the number of rules.
 * Codes: DECK. */
uint64_t rule_deck_check(uint64_t edition, const uint8_t *deck, size_t deck_len);

/* Reads a deck into two tables of rules_len and elements_len numbers (not bytes): a row of RULE_DECK_RULE_WIDTH for
 * each rule, a row of RULE_DECK_ELEMENT_WIDTH for each element. Done: the number of rules.
 * Codes: DECK, 14 at 0 (rules), 14 at 1 (elements). */
uint64_t rule_deck_read(uint64_t edition, const uint8_t *deck, size_t deck_len, uint32_t *rules, size_t rules_len,
                        uint32_t *elements, size_t elements_len);

/* The name of rule k. Done: the first byte of its units in the deck.
 * Codes: DECK, 16 at 0. */
uint64_t rule_deck_name(uint64_t edition, const uint8_t *deck, size_t deck_len, uint64_t k);

/* The same with all of the part, in a table of part_len numbers (not bytes), RULE_DECK_PART_WIDTH of them. Done: 0.
 * Codes: DECK, 16 at 0, 14. */
uint64_t rule_deck_name_part(uint64_t edition, const uint8_t *deck, size_t deck_len, uint64_t k, uint32_t *part,
                             size_t part_len);

/* Word w of element e of rule k, each counted from 0. Done: the first byte of its units in the deck.
 * Codes: DECK, 16 at 0, 16 at 1, 16 at 2. */
uint64_t rule_deck_word(uint64_t edition, const uint8_t *deck, size_t deck_len, uint64_t k, uint64_t e, uint64_t w);

/* The same with all of the part, in a table of part_len numbers (not bytes), RULE_DECK_PART_WIDTH of them. Done: 0.
 * Codes: DECK, 16 at 0, 16 at 1, 16 at 2, 14. */
uint64_t rule_deck_word_part(uint64_t edition, const uint8_t *deck, size_t deck_len, uint64_t k, uint64_t e, uint64_t w,
                             uint32_t *part, size_t part_len);

/* The fixed fields of rule k, in a table of fields_len numbers (not bytes), RULE_DECK_FIELDS_WIDTH of them. Done: 0.
 * Codes: DECK, 16 at 0, 14. */
uint64_t rule_deck_fields(uint64_t edition, const uint8_t *deck, size_t deck_len, uint64_t k, uint32_t *fields,
                          size_t fields_len);

/* ---- calls: elements */

/* The kind and the role of an identifier, in a table of kind_len numbers (not bytes), RULE_DECK_KIND_WIDTH of them.
 * Done: 0.
 * Codes: 1, 9, 10, 14. */
uint64_t rule_deck_kind(uint64_t edition, uint32_t identifier, uint32_t *kind, size_t kind_len);

/* The value of an element's data, in a table of value_len numbers of 64 bits (not bytes), RULE_DECK_VALUE_WIDTH of
 * them. Done: 0.
 * Codes: 1, GIVEN, 14. */
uint64_t rule_deck_value(uint64_t edition, uint32_t identifier, const uint8_t *data, size_t data_len, uint64_t *value,
                         size_t value_len);

/* The way back: writes the data of a value, a table of value_len numbers of 64 bits (not bytes), at the start of the
 * buffer, and no byte behind it. Done: the number of bytes written. A word list has no way back, since its words are
 * not in the table.
 * Codes: 1; 41, 42; 40 at 0 where the table is no value of the identifier (it has fewer than RULE_DECK_VALUE_WIDTH
 * numbers; its case is of another kind, or a word list's; its identifier is another; a size has over 32 bits; a flag is
 * above 1); 43 at 16 for the after date, at 32 for the before date; 20. */
uint64_t rule_deck_put_value(uint64_t edition, uint32_t identifier, const uint64_t *value, size_t value_len,
                             uint8_t *buf, size_t buf_len);

/* What a date says, given as the bits of its double, in a table of moment_len numbers (not bytes),
 * RULE_DECK_MOMENT_WIDTH of them. The whole part, cut toward zero, is the day, counted from 30 December 1899 by the
 * Gregorian calendar; the size of the fraction is the time of that day, cut down to a second, also where the number is
 * negative. Done: 0.
 * Codes: 11 at 0, 14. */
uint64_t rule_deck_moment(uint64_t bits, uint32_t *moment, size_t moment_len);

/* ---- calls: building and editing
 *
 * The deck is the first `stated` bytes of the buffer. Done: its new length, which is stated in the next call. Where it
 * shrank, the bytes from the new length to the old one are 0; those beyond the larger of the two stay.
 *
 * A deck is built from its front: start; add a rule, with its first element; add that rule's other elements, each in
 * its turn, and to a word list its words as long as the list is the last element; then the next rule. Only the last
 * rule takes an element. No call changes, moves or removes an element: to do so, build the rule afresh in a deck of its
 * own, insert it and remove the old one.
 *
 * What is given must not lie in the buffer, whose bytes are moved while it is read (what is lent, above). */

/* Starts an empty deck of version 1 in the first RULE_DECK_LEAST_BYTES bytes. Done: their number.
 * Codes: 20. */
uint64_t rule_deck_start(uint8_t *buf, size_t buf_len);

/* Switches rule k on or off.
 * Codes: EDIT, 16 at 0. */
uint64_t rule_deck_switch(uint64_t edition, uint8_t *buf, size_t buf_len, uint64_t stated, uint64_t k, bool on);

/* Renames rule k. The name is the bytes of its units and must not lie in the buffer. It gets the shortest form,
 * whichever the old one had.
 * Codes: EDIT, 16 at 0, 17, 19, 20. */
uint64_t rule_deck_rename(uint64_t edition, uint8_t *buf, size_t buf_len, uint64_t stated, uint64_t k,
                          const uint8_t *name, size_t name_len);

/* Removes rule k.
 * Codes: EDIT, 16 at 0. */
uint64_t rule_deck_remove(uint64_t edition, uint8_t *buf, size_t buf_len, uint64_t stated, uint64_t k);

/* Inserts at place k, 0 to the number of rules, a copy of rule j of a second deck, which is read in the same edition,
 * may have either version and must not lie in the buffer. The copy's name and words keep their forms.
 * Codes: EDIT, SECOND, 16 at 0, 16 at 1, 18, 19, 20. */
uint64_t rule_deck_insert(uint64_t edition, uint8_t *buf, size_t buf_len, uint64_t stated, uint64_t k,
                          const uint8_t *second, size_t second_len, uint64_t j);

/* Adds a rule at the end, with its name (the bytes of its units), its fixed fields (the signature is with Unknown1) and
 * its first element, an identifier and its data. Name and data must not lie in the buffer. The name gets the shortest
 * form; words in the data keep theirs.
 * Codes: EDIT, 17, GIVEN, 18, 19, 20. */
uint64_t rule_deck_add_rule(uint64_t edition, uint8_t *buf, size_t buf_len, uint64_t stated, const uint8_t *name,
                            size_t name_len, uint32_t signature, bool on, uint32_t unknown2, uint32_t unknown3,
                            uint32_t unknown4, uint32_t unknown5, uint32_t identifier, const uint8_t *data,
                            size_t data_len);

/* Adds an element to the end of the last rule. The data must not lie in the buffer; words in it keep their forms.
 * Codes: EDIT, 22, 21, GIVEN, 19, 20. */
uint64_t rule_deck_add_element(uint64_t edition, uint8_t *buf, size_t buf_len, uint64_t stated, uint32_t identifier,
                               const uint8_t *data, size_t data_len);

/* Adds a word, the bytes of its units, to the end of the list that is the last element of the last rule. It must not
 * lie in the buffer. It gets the shortest form; the words before it keep theirs.
 * Codes: EDIT, 22, 21, 17, 19, 20. */
uint64_t rule_deck_add_word(uint64_t edition, uint8_t *buf, size_t buf_len, uint64_t stated, const uint8_t *word,
                            size_t word_len);

/* ---- calls: the other version
 *
 * The deck of the same rules in the other version, written at the start of the buffer, and no byte behind it. There and
 * back gives the same bytes. Done: the new deck's length. The deck that is given must not lie in the buffer. */

/* From version 1 to version 2: 4 bytes more for each rule. Any other version than 1 is 5, as soon as it is read.
 * Codes: DECK, 19, 20. */
uint64_t rule_deck_to_2(uint64_t edition, const uint8_t *deck, size_t deck_len, uint8_t *buf, size_t buf_len);

/* From version 2 to version 1: 4 bytes less for each rule. Any other version than 2 is 5, as soon as it is read.
 * Codes: DECK, 20. */
uint64_t rule_deck_to_1(uint64_t edition, const uint8_t *deck, size_t deck_len, uint8_t *buf, size_t buf_len);

#ifdef __cplusplus
}
#endif

#endif
