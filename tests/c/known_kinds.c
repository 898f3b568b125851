/* The library knows the kinds of the header's list and no others: prints each number that is a kind on one side alone, and how many it asked. */
#include <inttypes.h>
#include <stdio.h>

#include "towerplank.h"

static uint64_t book[TOWERPLANK_WORDS];

static int is_listed(uint64_t kind)
{
    switch (kind) {
#define LISTED(number, name, text) case number: return 1;
        TOWERPLANK_KINDS(LISTED)
    default: return 0;
    }
}

static void ask(uint64_t kind)
{
    uint64_t answer[4];
    towerplank_request(book, TOWERPLANK_WORDS, kind, UINT64_MAX, UINT64_MAX, UINT64_MAX, answer);
    if ((answer[0] != TOWERPLANK_UNKNOWN_KIND) != is_listed(kind)) printf("kind %" PRIu64 " is known to one side alone\n", kind);
}

int main(void)
{
    for (uint64_t kind = 0; kind < 1000; kind++) ask(kind);
    for (int bit = 10; bit < 64; bit++) ask(UINT64_C(1) << bit);
    ask(UINT64_MAX);
    printf("1055 numbers asked\n");
    return 0;
}
