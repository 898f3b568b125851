/* The requests that are put to the programs, and the books they are put to. Which they are is fixed: every run has the same ones. */
#include "measure.h"

u64 books[BOOKS][FORMS][WORDS];

static u64 scratch[WORDS];

/* ---- books */

/* Few words differ, mostly. A loop that wrote them all would become a call of memcpy, which is slow under an emulator. */
void copy_words(u64 *to, const u64 *from)
{
    for (int i = 0; i < WORDS; i++)
        if (to[i] != from[i]) to[i] = from[i];
}

int make_all_books(putting *with)
{
    int refused = 0;
    for (int n = 0; n < BOOKS; n++) {
        refused += make_books(n, with, books[n][CLOSED], books[n][OPEN]);
        copy_words(books[n][DAMAGED], books[n][OPEN]);
        books[n][DAMAGED][WORDS - 1] = 1; /* a subject without a role is bad in every cell, and this one is looked at last */
    }
    return refused;
}

/* kinds 4 to 7 and 18 to 21 need a book without open orders; with some they are refused 7 */
int form_for(u64 kind) { return (kind >= 4 && kind <= 7) || (kind >= 18 && kind <= 21) ? CLOSED : OPEN; }

/* ---- some hundreds of each kind */

enum { NUMBERS = 20, NEEDS_NO_ORDER = 7 };

/* what a, b and c are tried with: the roles of the cell, the ends of each block of the books, two tasks of the cell that are SME, one of
 * its people who did not change the line, and two numbers that are out of range */
static const u64 numbers[NUMBERS] = {0, 1, 2, 3, 4, 5, 6, 7, 15, 16, 31, 32, 47, 62, 63, 18, 19, 9, 64, UINT64_MAX};

int tried(request *q, u64 kind, int i)
{
    static const u64 masks[4] = {0xf, 0, 0x3f, UINT64_MAX};
    int a = i % NUMBERS, b = i / NUMBERS % NUMBERS, c = i / NUMBERS / NUMBERS;
    *q = (request){kind, numbers[a], numbers[b], 0};
    if (kind == AUDIT || kind == UNKNOWN_KIND) return i == 0;
    if (kind == 12) q->c = masks[b % 4];
    if (kind == 13 && c < NUMBERS) q->c = numbers[c];
    return c < (kind == 13 ? NUMBERS : 1);
}

/* ---- paths */

enum { SME = 4 };

static path soonest[NUMBERS_OF_A_KIND], furthest[NUMBERS_OF_A_KIND];
static int numbers_given;

u64 lowest_y(const u64 answer[4])
{
    int is_mask = (answer[0] == 31 || answer[0] == 32) && answer[2] != 0;
    return is_mask ? (u64)__builtin_ctzll(answer[2]) : answer[2];
}

/*
 * How far the search went that ended with this answer: by orders, then by x, then by y. Of 31 and 32, which go through all that x owns, the
 * lowest task only orders the paths. An accepted request found nothing; one of kind 13 goes further where its task is SME to another, since
 * all open orders are looked through then.
 */
static u64 found_at(request q, const u64 *book, const u64 answer[4])
{
    if (answer[0] == 0) return q.kind == 13 && book[SME + q.a] != 0;
    return 64 * (64 * answer[3] + answer[1]) + lowest_y(answer);
}

/* the path that a request goes by plain C, on scratch, which is as the book again afterwards */
static path path_of(request q, int n, int form)
{
    u64 answer[4];
    call(PLAIN, scratch, q, answer);
    if (answer[0] == 0) copy_words(scratch, books[n][form]);
    return (path){q, form, answer[0], found_at(q, books[n][form], answer)};
}

static void note(path p)
{
    int k = 0;
    while (k < numbers_given && soonest[k].number != p.number) k++;
    if (k == NUMBERS_OF_A_KIND) return;
    if (k == numbers_given) soonest[k] = furthest[k] = p, numbers_given++;
    if (p.found < soonest[k].found) soonest[k] = p;
    if (p.found >= furthest[k].found) furthest[k] = p;
}

/* What a kind that needs a book without open orders is answered on one with them is the same, but for the one number that says so. */
int paths_of(u64 kind, int n, path paths[PATHS])
{
    int count = 0;
    request q;
    numbers_given = 0;
    for (int form = form_for(kind); form <= OPEN; form++) {
        copy_words(scratch, books[n][form]);
        for (int i = 0; tried(&q, kind, i); i++) {
            path p = path_of(q, n, form);
            if (form == form_for(kind) || p.number == NEEDS_NO_ORDER) note(p);
        }
    }
    for (int k = 0; k < numbers_given; k++) {
        request s = soonest[k].q, f = furthest[k].q;
        paths[count++] = soonest[k];
        if (s.a != f.a || s.b != f.b || s.c != f.c) paths[count++] = furthest[k];
    }
    return count;
}

/* ---- the mixed stream */

/* the generator of Marsaglia with 13, 7, 17 */
static u64 random_word(u64 *state)
{
    *state ^= *state << 13;
    *state ^= *state >> 7;
    *state ^= *state << 17;
    return *state;
}

/* a number about as large as those of the book; one in sixteen is out of range or not defined */
static u64 random_number(u64 *state, u64 size)
{
    u64 word = random_word(state) >> 20;
    return word % 16 == 0 ? word / 16 % 80 : word / 16 % size;
}

request stream_request(u64 *state, int n)
{
    static const u64 about[BOOKS] = {6, 12, 64, 64};
    request q;
    q.kind = 1 + (random_word(state) >> 20) % LAST_KIND;
    q.a = random_number(state, about[n]);
    q.b = random_number(state, about[n]);
    q.c = q.kind == 12 ? random_word(state) & books[n][OPEN][0] : random_number(state, about[n]);
    return q;
}

/* ---- growing books */

const int sizes[SIZES] = {4, 8, 16, 24, 32, 48, 64};

request sized_request(int size, int i)
{
    u64 last = (u64)size - 1;
    const request requests[SIZED] = {{4, last - 1, last, 0}, {8, 1, chain_lack(size), 0}, {13, 0, 0, 0}, {AUDIT, 0, 0, 0}};
    return requests[i];
}
