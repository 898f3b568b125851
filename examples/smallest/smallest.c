/*
 * The smallest program over the library, in C and in C++ alike: a book in static memory, some requests, the audit.
 * examples/smallest/run builds it with the library and runs it; expected.txt has what it must print.
 */
#include <inttypes.h>
#include <stdio.h>

#include "towerplank.h"

/* All zeros: a blank book. */
static uint64_t book[TOWERPLANK_WORDS];

/* Puts a request and prints what is asked for and what the book says. */
static void ask(uint64_t kind, uint64_t a, uint64_t b, uint64_t c)
{
    uint64_t answer[4];
    towerplank_request(book, TOWERPLANK_WORDS, kind, a, b, c, answer);
    printf("%s, a = %" PRIu64 ", b = %" PRIu64 ": ", towerplank_kind_text(kind), a, b);
    printf("%" PRIu64 " %" PRIu64 " %" PRIu64 " %" PRIu64 ", ", answer[0], answer[1], answer[2], answer[3]);
    printf("%s\n", towerplank_answer_text(answer[0]));
}

int main(void)
{
    uint64_t answer[4];
    printf("towerplank %s\n", TOWERPLANK_VERSION);
    ask(TOWERPLANK_DEFINE_TASK, 0, 0, 0);
    ask(TOWERPLANK_DEFINE_TASK, 1, 0, 0);
    ask(TOWERPLANK_DEFINE_ROLE, 0, 0, 0);
    ask(TOWERPLANK_SME, 0, 1, 0);
    ask(TOWERPLANK_ASSIGN_TASK, 0, 0, 0);
    ask(TOWERPLANK_ASSIGN_TASK, 1, 0, 0);
    towerplank_audit(book, TOWERPLANK_WORDS, answer);
    printf("audit: %s\n", towerplank_finding_text(answer[0]));
    return 0;
}
