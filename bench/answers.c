/*
 * Whether the programs answer and carry out alike: every request that is tried or timed, and every one that makes a book, is put to the
 * library and to plain C, and the four words and the whole book have to agree. And how deep their stacks go.
 */
#include <stdio.h>

#include "measure.h"

enum { ACTIVE = 452, LAST_NUMBER = 50 };

static u64 copies[PROGRAMS][WORDS];
static unsigned long put_to_both, differing, put_to_other, other_differing;
static u64 deepest[PROGRAMS];
static int met[LAST_NUMBER + 1];

/* ---- the same answers */

static int same_answer(const u64 one[4], const u64 two[4])
{
    int same = 1;
    for (int i = 0; i < 4; i++) same &= one[i] == two[i];
    return same;
}

static int same_words(const u64 *one, const u64 *two, int from, int to)
{
    u64 apart = 0;
    for (int i = from; i < to; i++) apart |= one[i] ^ two[i];
    return apart == 0;
}

/* Puts q to the library on one book and to plain C on another that is alike, and counts where they differ; answer is the library's. */
static void put(u64 *book, u64 *twin, request q, u64 answer[4])
{
    u64 told[4];
    call(LIBRARY, book, q, answer);
    call(PLAIN, twin, q, told);
    put_to_both++;
    differing += !same_answer(answer, told) || !same_words(book, twin, 0, WORDS);
}

/*
 * The other program's book is document 01's: there kind 10 sets an active word, which since M-101 it does not, and 31 and 32 name the
 * lowest task of those that ours has all of since M-105. Its audit asks less in rule 9, so a book that passes ours passes it as well, and
 * one with a bad word is told alike: the books here are no others.
 */
static void put_beside(request q, const u64 answer[4])
{
    u64 told[4];
    if (!is_there(OTHER) || !knows(OTHER, q.kind)) return;
    call(OTHER, copies[OTHER], q, told);
    const u64 asked[4] = {answer[0], answer[1], lowest_y(answer), answer[3]};
    int same = same_answer(asked, told) && same_words(copies[LIBRARY], copies[OTHER], 0, ACTIVE);
    same &= q.kind == 10 || same_words(copies[LIBRARY], copies[OTHER], ACTIVE, ACTIVE + 64);
    put_to_other++;
    other_differing += !(same && same_words(copies[LIBRARY], copies[OTHER], ACTIVE + 64, WORDS));
}

/* every program's copy as the book again */
static void restore(const u64 *book)
{
    for (int program = 0; program < PROGRAMS; program++)
        if (program != AGAIN && is_there(program)) copy_words(copies[program], book);
}

/* Puts q to all, and returns the number it is answered. Only an accepted request changes the book, or a wrong program. */
static u64 agree(const u64 *book, request q)
{
    u64 answer[4];
    put(copies[LIBRARY], copies[PLAIN], q, answer);
    put_beside(q, answer);
    if (answer[0] == 0 || differing || other_differing) restore(book);
    return answer[0];
}

static void compare(const u64 *book, request q)
{
    u64 number = agree(book, q);
    if (number <= LAST_NUMBER) met[number] = 1;
}

static void compare_kind(u64 kind, int n)
{
    request q;
    for (int form = form_for(kind); form <= OPEN; form++) {
        restore(books[n][form]);
        for (int i = 0; tried(&q, kind, i); i++) compare(books[n][form], q);
    }
    restore(books[n][DAMAGED]);
    tried(&q, kind, 0);
    compare(books[n][DAMAGED], q);
}

static void compare_stream(int n)
{
    u64 state = 1;
    for (int i = 0; i < STREAM; i++) {
        request q = stream_request(&state, n);
        restore(books[n][form_for(q.kind)]);
        agree(books[n][form_for(q.kind)], q);
    }
}

/* A step of making a book, put to both too: only here does kind 10 meet subjects that act in no role. */
static int make_step(u64 *book, u64 kind, u64 a, u64 b, u64 c)
{
    u64 answer[4];
    copy_words(copies[PLAIN], book);
    put(book, copies[PLAIN], (request){kind, a, b, c}, answer);
    return answer[0] == 0;
}

/* Makes the book of long chains at each size, and returns how many of its requests were refused. */
static int compare_sizes(void)
{
    static u64 chain[FORMS][WORDS];
    int refused = 0;
    for (int n = 0; n < SIZES; n++) {
        refused += make_chain(sizes[n], make_step, chain[CLOSED], chain[OPEN]);
        for (int i = 0; i < SIZED; i++) {
            request q = sized_request(sizes[n], i);
            restore(chain[form_for(q.kind)]);
            refused += agree(chain[form_for(q.kind)], q) != 0;
        }
    }
    return refused;
}

/* ---- stack */

static void note_stack(u64 kind, int n)
{
    path paths[PATHS];
    int count = paths_of(kind, n, paths);
    for (int i = 0; i < count; i++) {
        restore(books[n][paths[i].form]);
        for (int program = LIBRARY; program <= PLAIN; program++) {
            u64 used = stack_of(program, copies[program], paths[i].q);
            if (used > deepest[program]) deepest[program] = used;
        }
    }
}

/* the numbers that a request or an audit which is timed is answered, on at least one book; those of the mixed stream alone don't count */
static void print_met(void)
{
    printf("- Numbers met:");
    for (int number = 0; number <= LAST_NUMBER; number++)
        if (met[number]) printf(" %d", number);
    printf("\n");
}

int compare_answers(void)
{
    int refused = make_all_books(make_step) + compare_sizes();
    for (int n = 0; n < BOOKS; n++) printf("%s: %s.\n", book_names[n], book_tells[n]);
    printf("\n");
    if (refused) printf("%d requests that make the books, or are measured as accepted ones, were refused.\n", refused);
    for (int n = 0; n < BOOKS; n++) {
        for (u64 kind = 0; kind < KINDS; kind++) {
            compare_kind(kind, n);
            note_stack(kind, n);
        }
        compare_stream(n);
    }
    printf("- %lu requests and audits were put to both: %lu were answered or carried out differently.\n", put_to_both, differing);
    if (put_to_other) printf("- %lu of them were put to the other program: %lu differ.\n", put_to_other, other_differing);
    print_met();
    printf("- Deepest stack of a call: %lu bytes; plain C: %lu bytes.\n", deepest[LIBRARY], deepest[PLAIN]);
    return differing == 0 && other_differing == 0 && refused == 0;
}
