/*
 * Tries the two copies: the power is cut at every store of every request of a shift, in many manners. What is loaded afterwards has
 * to be the book before the request or the book after it, each time. Before that, memories are tried that were never written, and
 * words are damaged at rest. examples/two-copies/run builds it with the library and runs it; expected.txt has what it must print.
 */
#include <inttypes.h>
#include <stdbool.h>
#include <stdint.h>
#include <stdio.h>

#include "failing_store.h"
#include "store.h"
#include "towerplank.h"
#include "two_copies.h"

typedef struct {
    uint64_t kind, a, b, c;
} request;

#define ALL_TASKS UINT64_MAX

/* The shift whose requests are cut, each accepted. Each kind is among them, and allocating and closing with many cells too. */
static const request shift[] = {
    {TOWERPLANK_DEFINE_TASK, 63, 0, 0}, {TOWERPLANK_DEFINE_ROLE, 3, 0, 0},  {TOWERPLANK_DEFINE_SUBJECT, 2, 0, 0},
    {TOWERPLANK_SME, 0, 1, 0},          {TOWERPLANK_DME, 2, 3, 0},          {TOWERPLANK_RB, 4, 5, 0},
    {TOWERPLANK_SB, 5, 6, 0},           {TOWERPLANK_ASSIGN_TASK, 0, 3, 0},  {TOWERPLANK_JUNIOR, 1, 2, 0},
    {TOWERPLANK_ASSIGN_ROLE, 2, 1, 0},  {TOWERPLANK_ASSIGN_ROLE, 3, 1, 0},  {TOWERPLANK_ACTIVATE, 3, 1, 0},
    {TOWERPLANK_ACTIVATE, 2, 1, 0},     {TOWERPLANK_OPEN, 0, 0, ALL_TASKS}, {TOWERPLANK_OPEN, 63, 0, ALL_TASKS},
    {TOWERPLANK_ALLOCATE, 4, 0, 1},     {TOWERPLANK_ALLOCATE, 8, 0, 1},     {TOWERPLANK_ALLOCATE, 38, 63, 1},
    {TOWERPLANK_TAKE_TASK, 0, 3, 0},    {TOWERPLANK_TAKE_JUNIOR, 1, 2, 0},  {TOWERPLANK_TAKE_ROLE, 3, 1, 0},
    {TOWERPLANK_CLOSE, 0, 0, 0},        {TOWERPLANK_CLOSE, 63, 0, 0},       {TOWERPLANK_TAKE_SME, 0, 1, 0},
    {TOWERPLANK_TAKE_DME, 2, 3, 0},     {TOWERPLANK_TAKE_RB, 4, 5, 0},      {TOWERPLANK_TAKE_SB, 5, 6, 0},
};

static uint64_t book[TOWERPLANK_WORDS];
static two_copies copies;

/* The moment before the request that is cut (the store keeps its own part of it), and the book after it. */
static uint64_t old_book[TOWERPLANK_WORDS], new_book[TOWERPLANK_WORDS];
static two_copies old_copies;

static bool damaged; /* the other copy was damaged before, so that loading may tell so */
static unsigned long cuts, old_found, new_found, wrong;

static void copy(uint64_t *to, const uint64_t *from)
{
    for (int i = 0; i < TOWERPLANK_WORDS; i++) to[i] = from[i];
}

static bool is_same(const uint64_t *one, const uint64_t *other)
{
    int i = 0;
    while (i < TOWERPLANK_WORDS && one[i] == other[i]) i++;
    return i == TOWERPLANK_WORDS;
}

/* Tells and counts what must not be. */
static void must(bool holds, const char *what)
{
    if (holds) return;
    if (wrong < 10) printf("WRONG: %s\n", what);
    wrong++;
}

/* ---- a request */

static void serve(request q)
{
    uint64_t answer[4];
    const bool stored = two_copies_request(&copies, book, q.kind, q.a, q.b, q.c, answer);
    must(answer[0] == TOWERPLANK_ACCEPTED, towerplank_answer_text(answer[0]));
    must(stored || !has_power(), "an accepted request is not stored");
}

/* Serves a request and keeps the moment before it; returns its stores. */
static uint32_t keep_and_serve(request q)
{
    keep_memory();
    copy(old_book, book);
    old_copies = copies;
    power_up();
    serve(q);
    copy(new_book, book);
    cuts = old_found = new_found = 0;
    return stores_made();
}

static void back(void)
{
    restore_memory();
    copy(book, old_book);
    copies = old_copies;
}

/* ---- cuts */

/* Serves a request with the power cut at a store, and loads. True: the old book is there again. */
static bool cut_leaves_old(request q, uint32_t store, manner how)
{
    cut_power_at(store, how);
    serve(q);
    power_up();
    const two_copies_loaded loaded = two_copies_load(&copies, book);
    must(loaded == TWO_COPIES_LOADED || (damaged && loaded == TWO_COPIES_OLDER), "a cut is not survived");
    const bool old = is_same(book, old_book);
    must(old || is_same(book, new_book), "neither the old book nor the new one");
    cuts++;
    old_found += old;
    new_found += !old;
    return old;
}

/* A request that was lost is asked again; then it is there. */
static void ask_again(request q)
{
    serve(q);
    power_up();
    must(two_copies_load(&copies, book) == TWO_COPIES_LOADED && is_same(book, new_book), "asked again, a request is not there");
}

static void print_cuts(void) { printf("%lu cuts, the old book %lu times, the new one %lu times\n", cuts, old_found, new_found); }

/* Every store of a request, in every manner, the last of them some times over. Ends at the moment before the request. */
static void try_request(request q)
{
    enum { TIMES = 3 };
    const uint32_t stores = keep_and_serve(q);
    for (uint32_t store = 1; store <= stores; store++)
        for (int how = NOTHING; how < IN_ANY_ORDER + TIMES; how++) {
            back();
            if (cut_leaves_old(q, store, how < IN_ANY_ORDER ? (manner)how : IN_ANY_ORDER) && how == NOISE) ask_again(q);
        }
    printf("kind %" PRIu64 ", %" PRIu32 " stores: ", q.kind, stores);
    print_cuts();
    back();
}

/* Two cuts: the request that the first one lost is asked again, and cut again at every store. Ends as try_request does. */
static void try_request_twice(request q)
{
    static const manner hows[] = {NOTHING, EITHER_BIT, BOTH_BITS, NOISE};
    const uint32_t stores = keep_and_serve(q);
    for (uint32_t i = 0; i < 16 * stores * stores; i++) {
        back();
        if (cut_leaves_old(q, 1 + i / 16 % stores, hows[i % 4])) cut_leaves_old(q, 1 + i / 16 / stores, hows[i / 4 % 4]);
    }
    printf("kind %" PRIu64 ", cut twice: ", q.kind);
    print_cuts();
    back();
}

/* What a request is answered that is asked again although it had reached the book. */
static uint64_t second_answer(uint64_t kind)
{
    switch (kind) {
    case TOWERPLANK_ACTIVATE:
        return TOWERPLANK_ACCEPTED;
    case TOWERPLANK_ALLOCATE:
        return TOWERPLANK_HAS_SUBJECT;
    case TOWERPLANK_CLOSE:
        return TOWERPLANK_BAD_ARGUMENT;
    case TOWERPLANK_TAKE_TASK:
    case TOWERPLANK_TAKE_JUNIOR:
    case TOWERPLANK_TAKE_ROLE:
    case TOWERPLANK_TAKE_SME:
    case TOWERPLANK_TAKE_DME:
    case TOWERPLANK_TAKE_RB:
    case TOWERPLANK_TAKE_SB:
        return TOWERPLANK_NOT_THERE;
    default:
        return TOWERPLANK_ALREADY_SET;
    }
}

/* Serves a request, and asks it again: it is told as done, and a refusal stores nothing. */
static void serve_and_ask_again(request q)
{
    uint64_t answer[4];
    serve(q);
    power_up();
    must(two_copies_request(&copies, book, q.kind, q.a, q.b, q.c, answer), "a second answer is not stored");
    must(answer[0] == second_answer(q.kind) && (q.kind != TOWERPLANK_ALLOCATE || answer[1] == q.c), "another second answer");
    must(answer[0] == TOWERPLANK_ACCEPTED || stores_made() == 0, "a refused request is stored");
}

/* ---- the shift */

static void define(uint64_t kind, uint64_t count)
{
    for (uint64_t i = 0; i < count; i++) serve((request){kind, i, 0, 0});
}

/* What the shift starts from, made from the blank book: tasks 7 to 38 are bound to one person, and role 1 has tasks 2 to 62. */
static void make_cell(void)
{
    define(TOWERPLANK_DEFINE_TASK, 63);
    define(TOWERPLANK_DEFINE_ROLE, 3);
    define(TOWERPLANK_DEFINE_SUBJECT, 2);
    for (uint64_t task = 8; task < 39; task++) serve((request){TOWERPLANK_SB, 7, task, 0});
    for (uint64_t task = 2; task < 63; task++) serve((request){TOWERPLANK_ASSIGN_TASK, task, 1, 0});
}

static void try_shift(void)
{
    bool tried[TOWERPLANK_KIND_COUNT + 1] = {true};
    for (size_t i = 0; i < sizeof shift / sizeof shift[0] && wrong == 0; i++) {
        try_request(shift[i]);
        if (shift[i].kind == TOWERPLANK_RB) try_request_twice(shift[i]); /* one request, which changes two words */
        serve_and_ask_again(shift[i]);
        tried[shift[i].kind] = true;
    }
    for (int kind = 1; kind <= TOWERPLANK_KIND_COUNT; kind++) must(tried[kind], "a kind is not in the shift");
}

/* ---- damage at rest */

static bool loads(two_copies_loaded how, const uint64_t *as)
{
    return two_copies_load(&copies, book) == how && is_same(book, as);
}

/* A bit turned round in a place of the newest copy: the copy before it is loaded, and told as older, unless a count was hit. */
static void damage_place(uint32_t newest, uint32_t place)
{
    const bool in_a_count = place == 0 || place == TWO_COPIES_COPY - 1;
    damage(newest * TWO_COPIES_COPY + place, UINT64_C(1) << (noise() >> 58));
    must(loads(in_a_count ? TWO_COPIES_LOADED : TWO_COPIES_OLDER, old_book), "damage is not noticed");
    restore_memory();
}

static void try_damage(void)
{
    enum { STEP = 11 };
    const request last = {TOWERPLANK_DEFINE_SUBJECT, 62, 0, 0}, next = {TOWERPLANK_DEFINE_SUBJECT, 63, 0, 0};
    uint32_t places = 0;
    keep_and_serve(last);
    keep_memory();
    const uint32_t newest = 1 - copies.spare;
    for (uint32_t place = 0; place < TWO_COPIES_COPY; place += place < TWO_COPIES_COPY - STEP ? STEP : 1) {
        damage_place(newest, place);
        places++;
    }
    printf("one word of the newest copy damaged, at %" PRIu32 " places: the copy before it is loaded\n", places);

    damage(7, 1);
    damage(7 + TWO_COPIES_COPY, 1);
    must(two_copies_load(&copies, book) == TWO_COPIES_LOST, "two damaged copies are not noticed");
    restore_memory();
    must(loads(TWO_COPIES_LOADED, new_book), "undamaged again, the newest copy is not loaded");
    printf("a word of both copies damaged: none is loaded\n");

    book[3] = 1;
    must(two_copies_save(&copies, book) && loads(TWO_COPIES_OLDER, new_book), "a book that fails the audit is loaded");
    restore_memory();
    printf("a book saved that fails the audit: the copy before it is loaded\n");

    /* The copy that was fallen back to is served on, and cut: the damaged one, mended on the way, does not come back. */
    damage(newest * TWO_COPIES_COPY + 1, 1);
    must(loads(TWO_COPIES_OLDER, old_book), "damage is not noticed");
    damaged = true;
    try_request(next);
    damaged = false;
    serve(next);
}

/* ---- a memory never written by us */

static void try_fresh(const char *what, uint64_t word, bool noisy)
{
    static const uint64_t blank[TOWERPLANK_WORDS];
    for (uint32_t place = 0; place < TWO_COPIES_STORE; place++) damage(place, store_read(place) ^ (noisy ? noise() : word));
    must(two_copies_load(&copies, book) == TWO_COPIES_LOST, "a book is found where none was saved");
    must(two_copies_begin(&copies, blank) && loads(TWO_COPIES_LOADED, blank), "the blank book is not there");
    printf("a memory of %s: none is loaded; begun anew, the blank book is\n", what);
}

int main(void)
{
    try_fresh("zeros", 0, false);
    try_fresh("ones", UINT64_MAX, false);
    try_fresh("noise", 0, true);
    make_cell();
    if (wrong == 0) try_damage();
    if (wrong == 0) try_shift();
    printf("%lu wrong\n", wrong);
    return wrong != 0;
}
