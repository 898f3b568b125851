/*
 * Compares the library with plain C, both in this one process: `answers` whether they do the same, `times` and `sizes` what it costs.
 * bench/run calls it, and says what comes out.
 */
#include <stdio.h>

#include "measure.h"

static int is(const char *word, const char *name)
{
    while (*word && *word == *name) word++, name++;
    return *word == *name;
}

/* A word that means nothing is an error: else a run that measures nothing would look like one that found nothing wrong. */
int main(int count, char **words)
{
    const char *what = count == 2 ? words[1] : "";
    if (is(what, "answers")) return !compare_answers();
    if (is(what, "times")) return print_times(), 0;
    if (is(what, "sizes")) return print_sizes(), 0;
    printf("measure answers | times | sizes\n");
    return 2;
}
