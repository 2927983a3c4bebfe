/* Prints the deck check of a file: check EDITION FILE. */
#include <stdio.h>
#include <stdlib.h>

#include "rule_deck.h"

int main(int argc, char **argv) {
    static uint8_t deck[60001];
    FILE *f = argc == 3 ? fopen(argv[2], "rb") : NULL;
    if (f == NULL) return 2;
    size_t n = fread(deck, 1, sizeof deck, f);
    uint64_t answer = rule_deck_check(strtoull(argv[1], NULL, 10), deck, n);
    printf("%u %llu\n", RULE_DECK_CODE(answer), (unsigned long long)RULE_DECK_PLACE(answer));
    return fclose(f);
}
