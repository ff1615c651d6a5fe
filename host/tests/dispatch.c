/* Prints what kadunfo_dispatch tells of a case's file: dispatch FILE INTERVAL TARGET FIGURES SET POWER .. / SET BLOCK CAP
   FLOOR PRICE .., and both lists as it leaves them. */
#include "kadunfo.h"

#include <inttypes.h>
#include <stdio.h>
#include <stdlib.h>
#include <string.h>

static uint8_t kase[KADUNFO_LONGEST_CASE];
static uint64_t sets[64], powers[64], figures[4] = {1, 2, 3, 4};
static struct kadunfo_offer offers[KADUNFO_MOST_OFFERS];

static uint64_t number(const char *word) { return strtoull(word, NULL, 10); }

int main(int count, char **words) {
    if (count < 5) {
        return 1;
    }
    FILE *file = fopen(words[1], "rb");
    if (file == NULL) {
        perror(words[1]);
        return 1;
    }
    size_t length = fread(kase, 1, sizeof kase, file), named = 0, listed = 0;
    fclose(file);
    int at = 5;
    for (; at + 1 < count && strcmp(words[at], "/") != 0; at += 2, named++) {
        sets[named] = number(words[at]);
        powers[named] = number(words[at + 1]);
    }
    for (at++; at + 4 < count; at += 5, listed++) {
        struct kadunfo_offer offer = {number(words[at]), number(words[at + 1]), number(words[at + 2]), number(words[at + 3]),
                                      strtoll(words[at + 4], NULL, 10)};
        offers[listed] = offer;
    }
    uint64_t word = kadunfo_dispatch(kase, length, number(words[2]), sets, named, powers, named, offers, listed,
                                     number(words[3]), figures, number(words[4]));
    printf("%" PRIu64 " figures %" PRIu64 " %" PRIu64 " %" PRIu64 " %" PRIu64 "\n", word, figures[0], figures[1],
           figures[2], figures[3]);
    for (size_t i = 0; i < named; i++) {
        printf("set %" PRIu64 " power %" PRIu64 "\n", sets[i], powers[i]);
    }
    for (size_t i = 0; i < listed; i++) {
        printf("offer %" PRIu64 " %" PRIu64 " %" PRIu64 " %" PRIu64 " %" PRId64 "\n", offers[i].set, offers[i].block,
               offers[i].cap, offers[i].floor, offers[i].price);
    }
    return word == KADUNFO_DISPATCHED || word == KADUNFO_NOT_DISPATCHED || word == KADUNFO_CASE_REFUSED
                   || word == KADUNFO_FIGURES_SHORT
               ? 0
               : 1;
}
