/*
 * Prints the lists of the header, a row to a line, and DIFFERS where an enumerator, a text or a count isn't that of the row.
 * C and C++ alike. It needs the header alone, not the library.
 */
#include <stdio.h>

#include "towerplank.h"

static int is_text(const char *one, const char *other)
{
    while (*one != '\0' && *one == *other) {
        one++;
        other++;
    }
    return *one == *other;
}

static void row(const char *list, int number, int named, const char *name, const char *text, const char *given)
{
    printf("%s %d %s %s%s\n", list, number, name, text, number == named && is_text(text, given) ? "" : " DIFFERS");
}

#define KIND(number, name, text) row("kind", number, TOWERPLANK_##name, #name, text, towerplank_kind_text(number));
#define ANSWER(number, name, text) row("answer", number, TOWERPLANK_##name, #name, text, towerplank_answer_text(number));
#define RULE(n, text) \
    row("finding", 40 + n, TOWERPLANK_BROKEN_RULE_##n, "BROKEN_RULE_" #n, "rule " #n " is broken: " text, towerplank_finding_text(40 + n));
#define ONE_KIND(number, name, text) kinds++;

int main(void)
{
    int kinds = 0;
    TOWERPLANK_KINDS(KIND)
    TOWERPLANK_ANSWERS(ANSWER)
    TOWERPLANK_RULES(RULE)
    TOWERPLANK_KINDS(ONE_KIND)
    printf("%s\n", kinds == TOWERPLANK_KIND_COUNT ? "kinds counted" : "kinds DIFFER");
    printf("words %d\n", TOWERPLANK_WORDS);
    printf("no kind: %s, %s\n", towerplank_kind_text(0), towerplank_kind_text(UINT64_MAX));
    printf("no answer: %s\n", towerplank_answer_text(12345));
    printf("the audit: %s; %s; %s; %s\n", towerplank_finding_text(TOWERPLANK_SOUND), towerplank_finding_text(TOWERPLANK_WRONG_LENGTH),
           towerplank_finding_text(TOWERPLANK_BAD_WORD), towerplank_finding_text(3));
    printf("version %d.%d.%d is %s is %d\n", TOWERPLANK_VERSION_MAJOR, TOWERPLANK_VERSION_MINOR, TOWERPLANK_VERSION_PATCH,
           TOWERPLANK_VERSION, TOWERPLANK_VERSION_NUMBER);
    return 0;
}
