/*
 * The order of clicking does not matter (M-102), played through the library. On many sound books it draws lists of requests of kinds 4 to
 * 10 that are accepted one after the other, and plays each list in other orders on copies of the book: all have to be accepted again, and
 * every word has to end the same. Each request is also taken back at once, which has to leave no trace.
 * Before that, three pairs of requests whose order does matter show that the comparison can fail.
 * tests/orders.sh builds it with the library and runs it. The noise that it draws from has a fixed start, so that each run plays the same.
 */
#include <inttypes.h>
#include <stdbool.h>
#include <stdint.h>
#include <stdio.h>

#include "books.h"
#include "towerplank.h"

/* Where things stand in a book: document 01. */
enum { TASKS = 0, ROLES = 1, SUBJECTS = 2, SME_ROWS = 4, DME_ROWS = 68, RB_ROWS = 132, SB_ROWS = 196 };
enum { JUNIORS_OF = 260, TASKS_OF = 324, ROLES_OF = 388, ACTIVE_OF = 452, ORDERS = 516, CELLS = 580, NUMBERS = 64 };

/* The most requests of a list; the most of one that is played in every order; lists on one book; wrongs after which the rest is spared. */
enum { LONGEST = 40, FEW = 4, LISTS = 8, ENOUGH = 40 };

/* Masks of kinds: those of the lists, and those among them that are taken while an order is open. */
#define KINDS_4_TO_10 (UINT64_C(0x7f) << TOWERPLANK_SME)
#define KINDS_8_TO_10 (UINT64_C(0x7) << TOWERPLANK_ASSIGN_TASK)

typedef struct {
    uint64_t kind, a, b;
} request;

typedef struct {
    request requests[LONGEST];
    uint32_t length;
} list;

/* What requests are drawn from: masks of tasks, of roles and of subjects, and of kinds. */
typedef struct {
    uint64_t numbers[3], kinds;
} choice;

/* For kinds 4 to 10: the masks that a and b are members of, and the first row of the table. What is added is bit a of row b. */
typedef struct {
    uint64_t a, b, rows;
} form;

static const form forms[] = {
    [TOWERPLANK_SME] = {TASKS, TASKS, SME_ROWS},
    [TOWERPLANK_DME] = {TASKS, TASKS, DME_ROWS},
    [TOWERPLANK_RB] = {TASKS, TASKS, RB_ROWS},
    [TOWERPLANK_SB] = {TASKS, TASKS, SB_ROWS},
    [TOWERPLANK_ASSIGN_TASK] = {TASKS, ROLES, TASKS_OF},
    [TOWERPLANK_JUNIOR] = {ROLES, ROLES, JUNIORS_OF},
    [TOWERPLANK_ASSIGN_ROLE] = {ROLES, SUBJECTS, ROLES_OF},
};

/* The book that lists are played on, where the first order of a list ends, and two for a moment. */
static uint64_t book[TOWERPLANK_WORDS], ended[TOWERPLANK_WORDS], before[TOWERPLANK_WORDS], other[TOWERPLANK_WORDS];

static uint64_t answer[4]; /* to the last request or audit */
static list drawn, stock;  /* the list, and what was taken from the book before, so that the list may put it back */
static unsigned long books, open_books, in_hand, lists, orders, listed, played, taken_back, stood[TOWERPLANK_KIND_COUNT + 1];
static uint32_t longest;

/* ---- what must not be */

typedef enum { NOT_MADE, UNSOUND, UNSOUND_LATER, NOT_TAKEN_BACK, TRACE_LEFT, REFUSED_LATER, OTHER_BOOK, ORDER_UNSEEN, RARE, FAULTS } fault;

static const char *const told[FAULTS] = {
    "a request that makes a book is refused",
    "a book fails the audit before its list",
    "a book fails the audit after its list",
    "what was accepted can't be taken back at once",
    "what is taken back at once leaves a trace",
    "a list is accepted in one order and not in another",
    "a list ends in different books in different orders",
    "an order that matters is not seen to",
    "a kind hardly stands in the lists, or hardly a book has open orders",
};

static unsigned long wrong, wrong_of[FAULTS], first_list[FAULTS];

static void must(bool holds, fault f)
{
    if (holds) return;
    if (wrong_of[f] == 0) first_list[f] = lists;
    wrong_of[f]++;
    wrong++;
}

/* ---- noise */

static uint64_t noise(void)
{
    static uint64_t state = 102;
    state ^= state << 13;
    state ^= state >> 7;
    state ^= state << 17;
    return state;
}

/* ---- books */

/* It writes the few words that differ: else a compiler makes memcpy of it, which under the kit's emulator takes longer than a request. */
static void copy(uint64_t *to, const uint64_t *from)
{
    for (int i = 0; i < TOWERPLANK_WORDS; i++)
        if (to[i] != from[i]) to[i] = from[i];
}

/* The lowest word in which two books differ; with none, the count of words. */
static uint64_t first_difference(const uint64_t *one, const uint64_t *two)
{
    uint64_t i = 0;
    while (i < TOWERPLANK_WORDS && one[i] == two[i]) i++;
    return i;
}

static bool is_same(const uint64_t *one, const uint64_t *two) { return first_difference(one, two) == TOWERPLANK_WORDS; }

/* Every request goes through here, so that tests/orders.sh can bend what comes of it. Returns whether it was accepted. */
static int put(uint64_t *on, uint64_t kind, uint64_t a, uint64_t b, uint64_t c)
{
    towerplank_request(on, TOWERPLANK_WORDS, kind, a, b, c, answer);
    return answer[0] == TOWERPLANK_ACCEPTED;
}

static uint64_t audit(const uint64_t *of)
{
    towerplank_audit(of, TOWERPLANK_WORDS, answer);
    return answer[0];
}

/* The third number is not used, and may be anything. */
static int add(uint64_t *to, request q) { return put(to, q.kind, q.a, q.b, noise()); }

/* Kinds 4 to 7 are taken back by 18 to 21, and 8 to 10 by 15 to 17. */
static int take_back(uint64_t *from, request q)
{
    const uint64_t further = q.kind <= TOWERPLANK_SB ? TOWERPLANK_TAKE_SME - TOWERPLANK_SME : TOWERPLANK_TAKE_TASK - TOWERPLANK_ASSIGN_TASK;
    return put(from, q.kind + further, q.a, q.b, noise());
}

/* ---- drawing from masks */

/* A member of a mask, which has one. */
static uint64_t one_of(uint64_t mask)
{
    uint64_t count = 0, lowest = 0;
    for (uint64_t rest = mask; rest != 0; rest &= rest - 1) count++;
    for (uint64_t skipped = noise() % count; skipped > 0; skipped--) mask &= mask - 1;
    while (!(mask >> lowest & 1)) lowest++;
    return lowest;
}

/* A part of a mask, or all of it; it has two members where the mask has. */
static uint64_t some_of(uint64_t mask)
{
    for (uint64_t times = noise() % 4; times > 0; times--) {
        const uint64_t fewer = mask & noise();
        if (fewer & (fewer - 1)) mask = fewer;
    }
    return mask;
}

/* ---- a list in an order */

/* Plays a list on a book; returns how many of it are refused. */
static uint32_t play(uint64_t *on, const list *of)
{
    uint32_t refused = 0;
    for (uint32_t i = 0; i < of->length; i++) refused += !add(on, of->requests[i]);
    return refused;
}

/* An order of the list that is not the first: all have to be accepted, and the book has to end as there. */
static void try_order(const list *rearranged)
{
    copy(other, book);
    must(play(other, rearranged) == 0, REFUSED_LATER);
    must(is_same(other, ended), OTHER_BOOK);
    orders++;
    played += rearranged->length;
}

static void try_rotated(uint32_t by, bool backwards)
{
    list rearranged = {.length = drawn.length};
    for (uint32_t i = 0; i < drawn.length; i++) {
        const uint32_t from = (i + by) % drawn.length;
        rearranged.requests[i] = drawn.requests[backwards ? drawn.length - 1 - from : from];
    }
    try_order(&rearranged);
}

/* A digit of n says which of those that are left comes next: n from 0 to below the factorial gives each order once, and 0 the first. */
static void try_nth(uint64_t n)
{
    list left = drawn, rearranged = {.length = 0};
    while (left.length > 0) {
        const uint32_t at = n % left.length;
        n /= left.length;
        rearranged.requests[rearranged.length++] = left.requests[at];
        left.length--;
        for (uint32_t i = at; i < left.length; i++) left.requests[i] = left.requests[i + 1];
    }
    try_order(&rearranged);
}

static void try_shuffled(void)
{
    list rearranged = drawn;
    for (uint32_t i = drawn.length; i > 1; i--) {
        const uint32_t at = noise() % i;
        const request last = rearranged.requests[i - 1];
        rearranged.requests[i - 1] = rearranged.requests[at];
        rearranged.requests[at] = last;
    }
    try_order(&rearranged);
}

static void try_orders(void)
{
    if (drawn.length <= FEW) {
        uint64_t all = 1;
        for (uint64_t i = 2; i <= drawn.length; i++) all *= i;
        for (uint64_t n = 1; n < all; n++) try_nth(n);
        return;
    }
    try_rotated(0, true);
    try_rotated(1 + noise() % (drawn.length - 1), false);
    try_rotated(1 + noise() % (drawn.length - 1), true);
    for (int i = 0; i < 4; i++) try_shuffled();
}

/* ---- drawing a list */

static bool has_open_order(void)
{
    int p = 0;
    while (p < NUMBERS && book[ORDERS + p] == 0) p++;
    return p < NUMBERS;
}

/* Takes some of what stands in the book back, and keeps it in stock: a full book has room for a list then, and the list fills it again. */
static void thin(uint64_t times, uint64_t kinds)
{
    stock.length = 0;
    for (; times > 0; times--) {
        request q = {one_of(kinds), 0, 0};
        const uint64_t *rows = book + forms[q.kind].rows;
        uint64_t filled = 0;
        for (uint64_t i = 0; i < NUMBERS; i++) filled |= (uint64_t)(rows[i] != 0) << i;
        if (filled == 0) continue;
        q.b = one_of(filled);
        q.a = one_of(rows[q.b]);
        must(take_back(book, q), NOT_MADE);
        stock.requests[stock.length++] = q;
    }
}

/* A request that may well be accepted: what was taken, or something of the choice. */
static request likely(const choice *from)
{
    if (stock.length > 0 && noise() % 2) return stock.requests[noise() % stock.length];
    const uint64_t kind = one_of(from->kinds);
    return (request){kind, one_of(from->numbers[forms[kind].a]), one_of(from->numbers[forms[kind].b])};
}

/* On the book `before`, q was accepted, which gave the book `ended`. A pair may be named the other way round. */
static void try_taking_back(request q)
{
    const bool turned = q.kind <= TOWERPLANK_SB && noise() % 2;
    copy(other, ended);
    must(take_back(other, turned ? (request){q.kind, q.b, q.a} : q), NOT_TAKEN_BACK);
    must(is_same(other, before), TRACE_LEFT);
    taken_back++;
}

/* A list of at most so many. It speaks of some numbers of the book alone, so that its requests have to do with each other. */
static void draw(uint32_t length, uint64_t kinds)
{
    const choice from = {{some_of(book[TASKS]), some_of(book[ROLES]), some_of(book[SUBJECTS])}, some_of(kinds)};
    copy(ended, book);
    copy(before, book);
    drawn.length = 0;
    for (uint32_t tries = 0; tries < 3 * length && drawn.length < length; tries++) {
        const request q = likely(&from);
        if (!add(ended, q)) continue;
        try_taking_back(q);
        copy(before, ended);
        drawn.requests[drawn.length++] = q;
    }
}

static void try_list(void)
{
    const uint64_t kinds = has_open_order() ? KINDS_8_TO_10 : KINDS_4_TO_10;
    thin(noise() % LONGEST / 2, kinds);
    must(audit(book) == TOWERPLANK_SOUND, UNSOUND);
    draw(2 + (uint32_t)(noise() % (noise() % 4 ? 9 : LONGEST - 1)), kinds);
    if (drawn.length < 2) return;
    must(audit(ended) == TOWERPLANK_SOUND, UNSOUND_LATER);
    lists++;
    orders++; /* the first */
    listed += drawn.length;
    played += drawn.length;
    if (drawn.length > longest) longest = drawn.length;
    for (uint32_t i = 0; i < drawn.length; i++) stood[drawn.requests[i].kind]++;
    try_orders();
}

/* Some lists on the book. Each goes on where the one before ended. */
static void try_lists(void)
{
    books++;
    open_books += has_open_order();
    for (int i = CELLS; i < CELLS + NUMBERS * NUMBERS; i++) in_hand += book[i] % 128 != 0;
    for (int i = 0; i < LISTS && wrong < ENOUGH; i++) {
        try_list();
        copy(book, ended);
    }
}

/* ---- books of noise */

/* Defines so many, of the 64 numbers anywhere: steps of an odd width meet each number once. */
static void define(uint64_t kind, uint64_t count)
{
    const uint64_t from = noise(), step = noise() | 1;
    for (uint64_t i = 0; i < count; i++) must(put(book, kind, (from + i * step) % NUMBERS, 0, 0), NOT_MADE);
}

/* Half of those who have a role act in one. */
static void activate(void)
{
    for (uint64_t s = 0; s < NUMBERS; s++)
        if (book[ROLES_OF + s] != 0 && noise() % 2) must(put(book, TOWERPLANK_ACTIVATE, one_of(book[ROLES_OF + s]), s, 0), NOT_MADE);
}

/* Some orders, and in each some tasks for those who act in a role that has the task, where nothing stands against it. */
static void open_orders(void)
{
    for (uint64_t count = 1 + noise() % 6; count > 0; count--) {
        const uint64_t p = noise() % NUMBERS;
        put(book, TOWERPLANK_OPEN, p, 0, some_of(book[TASKS]));
        for (uint64_t s = 0; s < NUMBERS; s++) {
            const uint64_t active = book[ACTIVE_OF + s], fit = active == 0 ? 0 : book[TASKS_OF + active - 1] & book[ORDERS + p];
            if (fit != 0) put(book, TOWERPLANK_ALLOCATE, one_of(fit), p, s);
        }
    }
}

static void make_book(const uint64_t counts[3], uint64_t tries)
{
    static const uint64_t blank[TOWERPLANK_WORDS];
    copy(book, blank);
    define(TOWERPLANK_DEFINE_TASK, counts[TASKS]);
    define(TOWERPLANK_DEFINE_ROLE, counts[ROLES]);
    define(TOWERPLANK_DEFINE_SUBJECT, counts[SUBJECTS]);
    /* Not every kind of pair: with many bindings all tasks are one group, where hardly anything excludes and nothing can be allocated. */
    const choice from = {{book[TASKS], book[ROLES], book[SUBJECTS]}, KINDS_8_TO_10 | (KINDS_4_TO_10 & noise())};
    stock.length = 0;
    for (; tries > 0; tries--) add(book, likely(&from));
    activate();
}

/* Books of each size, from empty ones to full ones; every third has open orders. */
static void try_books_of_noise(void)
{
    enum { SIZES = 10, BOOKS_OF_A_SIZE = 9 };
    static const uint64_t sizes[SIZES][3] = {{2, 1, 1}, {2, 2, 1}, {3, 2, 2},   {4, 3, 2},    {6, 4, 3},
                                             {6, 6, 6}, {9, 7, 4}, {20, 8, 12}, {40, 20, 30}, {64, 64, 64}};
    for (int i = 0; i < SIZES * BOOKS_OF_A_SIZE && wrong < ENOUGH; i++) {
        const uint64_t *counts = sizes[i % SIZES];
        const int nth = i / SIZES;
        make_book(counts, (uint64_t)nth * (counts[TASKS] + counts[ROLES] + counts[SUBJECTS]) / 2);
        if (nth % 3 == 2) open_orders();
        try_lists();
    }
}

/* The books that are measured, too: small, typical, and as full and as long in their chains as can be. */
static void try_measured_books(void)
{
    static uint64_t closed[BOOKS][TOWERPLANK_WORDS], open[BOOKS][TOWERPLANK_WORDS];
    for (int n = 0; n < BOOKS && wrong < ENOUGH; n++) {
        must(make_books(n, put, closed[n], open[n]) == 0, NOT_MADE);
        copy(book, closed[n]);
        try_lists();
        copy(book, open[n]);
        try_lists();
    }
}

/* ---- where the order matters */

static void print_answer(void) { printf("%" PRIu64 " %" PRIu64 " %" PRIu64 " %" PRIu64, answer[0], answer[1], answer[2], answer[3]); }

/* Plays a request and then another on a copy of the book, and prints the answers; returns how many are refused. */
static uint32_t play_two(uint64_t *on, request one, request two)
{
    const list first = {{one}, 1}, second = {{two}, 1};
    copy(on, book);
    uint32_t refused = play(on, &first);
    print_answer();
    printf(" and ");
    refused += play(on, &second);
    print_answer();
    return refused;
}

/* Two requests on the book, in both orders: the comparison has to see so many refused ones, and books that differ in this word. */
static void try_control(const char *what, request one, request two, uint32_t refused, uint64_t word)
{
    printf("%s (audit %" PRIu64 "): ", what, audit(book));
    uint32_t found = play_two(ended, one, two);
    printf("; the other way round ");
    found += play_two(other, two, one);
    const uint64_t difference = first_difference(ended, other);
    printf("; the lowest word that differs is %" PRIu64 "\n", difference);
    must(found == refused && difference == word, ORDER_UNSEEN);
}

/* Tasks 0 and 1, role 0 with task 0 and role 1 with task 1, and a subject without a role; the two rows of SME are given. */
static void set_up(uint64_t subject, uint64_t row_0, uint64_t row_1)
{
    static const uint64_t blank[TOWERPLANK_WORDS];
    copy(book, blank);
    book[TASKS] = book[ROLES] = 3;
    book[SUBJECTS] = UINT64_C(1) << subject;
    book[SME_ROWS] = row_0;
    book[SME_ROWS + 1] = row_1;
    book[TASKS_OF] = 1;
    book[TASKS_OF + 1] = 2;
}

/* M-102 is said of accepted requests, of kinds 4 to 10, and of books that pass the audit. Without each of these the order matters. */
static void try_controls(void)
{
    const request role_0 = {TOWERPLANK_ASSIGN_ROLE, 0, 0}, role_1 = {TOWERPLANK_ASSIGN_ROLE, 1, 0};
    set_up(0, 2, 1);
    try_control("a list with a refused one", role_0, role_1, 2, ROLES_OF);
    set_up(5, 0, 0);
    book[ROLES_OF + 5] = 3;
    try_control("a list with kind 11", (request){TOWERPLANK_ACTIVATE, 0, 5}, (request){TOWERPLANK_ACTIVATE, 1, 5}, 0, ACTIVE_OF + 5);
    set_up(0, 2, 0);
    try_control("a book with SME in one direction", role_1, role_0, 1, ROLES_OF);
}

/* ---- what is told */

static void print_counts(void)
{
    printf("%lu sound books, %lu of them with open orders, where %lu tasks are in hand\n", books, open_books, in_hand);
    printf("%lu lists of 2 to %" PRIu32 " requests, %lu in all, played in %lu orders: %lu requests put\n", lists, longest, listed, orders, played);
    printf("%lu requests taken back at once\nkinds 4 to 10 stand in the lists:", taken_back);
    for (int kind = TOWERPLANK_SME; kind <= TOWERPLANK_ASSIGN_ROLE; kind++) printf(" %lu", stood[kind]);
    printf(" times\n");
    for (int f = 0; f < FAULTS; f++)
        if (wrong_of[f] > 0) printf("WRONG: %s: %lu times, first with %lu lists played\n", told[f], wrong_of[f], first_list[f]);
}

int main(void)
{
    enum { OFTEN = 100 };
    try_controls();
    try_books_of_noise();
    try_measured_books();
    for (int kind = TOWERPLANK_SME; kind <= TOWERPLANK_ASSIGN_ROLE && wrong < ENOUGH; kind++) must(stood[kind] >= OFTEN, RARE);
    must(wrong >= ENOUGH || 5 * open_books >= books, RARE);
    print_counts();
    return wrong != 0;
}
