/*
 * The books that the measurements run on. Each is made from the blank one by requests, so each is well-formed and passes the audit:
 * a request is then judged to the end, and the audit asks all ten rules.
 */
#include "books.h"

typedef uint64_t u64;

const char *const book_names[BOOKS] = {"B", "cell", "dense", "long"};
const char *const book_tells[BOOKS] = {
    "book B of document 01, order 0 open with two of its tasks allocated",
    "a typical cell: 20 tasks, 8 roles, 12 subjects, 6 open orders with two tasks in three allocated, most people in several of them",
    "64 of everything, rows nearly as full as the audit allows, 64 orders of all tasks, allocated but for 16 tasks of order 0",
    "64 of everything, one chain of 64 roles and one of 63 tasks, 64 orders of all tasks, allocated but for order 0"};

enum { TASK = 1, ROLE, SUBJECT, SME, DME, RB, SB, GIVE_TASK, JUNIOR, GIVE_ROLE, ACTIVATE, OPEN, ALLOCATE, TAKE_ROLE = 17 };

static u64 *book;
static putting *put;
static int refused;

static int ask(u64 kind, u64 a, u64 b, u64 c) { return put(book, kind, a, b, c); }

/* a step that has to be accepted */
static void step(u64 kind, u64 a, u64 b, u64 c) { refused += !ask(kind, a, b, c); }

static void define(u64 tasks, u64 roles, u64 subjects)
{
    for (u64 i = 0; i < tasks; i++) step(TASK, i, 0, 0);
    for (u64 i = 0; i < roles; i++) step(ROLE, i, 0, 0);
    for (u64 i = 0; i < subjects; i++) step(SUBJECT, i, 0, 0);
}

/* a subject that has a role and acts in it */
static void staff(u64 role, u64 subject)
{
    step(GIVE_ROLE, role, subject, 0);
    step(ACTIVATE, role, subject, 0);
}

/* a pair table filled between the tasks from..to and from2..to2, but for the one pair that is left for the measured request */
static void relate(u64 kind, u64 from, u64 to, u64 from2, u64 to2, u64 left, u64 left2)
{
    for (u64 a = from; a < to; a++)
        for (u64 b = from2 > a ? from2 : a + 1; b < to2; b++)
            if (a != left || b != left2) step(kind, a, b, 0);
}

/* ---- book B */

static void book_b(void)
{
    static const u64 tasks_of[6] = {0, 1, 2, 2, 3, 3};
    define(6, 4, 3);
    step(SME, 0, 1, 0);
    step(DME, 2, 4, 0);
    step(SB, 2, 3, 0);
    step(RB, 3, 5, 0);
    for (u64 t = 0; t < 6; t++) step(GIVE_TASK, t, tasks_of[t], 0);
    step(JUNIOR, 2, 3, 0);
    staff(0, 0);
    staff(3, 1);
    staff(3, 2);
}

static void orders_b(void)
{
    step(OPEN, 0, 0, 60);
    step(ALLOCATE, 2, 0, 1);
}

/* ---- a typical cell: two lines of three stations, each line with its senior role */

static void book_cell(void)
{
    static const u64 sme[4][2] = {{2, 9}, {5, 12}, {8, 15}, {18, 19}}, dme[4][2] = {{0, 3}, {4, 6}, {9, 12}, {13, 15}};
    static const u64 rb[4][2] = {{1, 2}, {6, 7}, {12, 13}, {16, 17}}, sb[4][2] = {{0, 1}, {3, 4}, {9, 10}, {10, 11}};
    define(20, 8, 12);
    for (int i = 0; i < 4; i++) {
        step(SME, sme[i][0], sme[i][1], 0);
        step(DME, dme[i][0], dme[i][1], 0);
        step(RB, rb[i][0], rb[i][1], 0);
        step(SB, sb[i][0], sb[i][1], 0);
    }
    for (u64 t = 0; t < 20; t++) step(GIVE_TASK, t, t < 18 ? t / 3 : t - 12, 0);
    for (u64 r = 0; r < 6; r++) step(JUNIOR, r, r < 3 ? 6 : 7, 0);
    for (u64 s = 0; s < 12; s++) staff(s < 8 ? s : s % 2 ? 7 : 6, s);
    /* Two help on the other line: they own tasks that no one role owns, so some requests are refused for a subject alone. */
    step(GIVE_ROLE, 5, 0, 0);
    step(GIVE_ROLE, 3, 1, 0);
}

/* One in `role` gets a task of an order and then changes the line, with that task in hand: it excludes one there, in whatever order. */
static void change_line(u64 subject, u64 role, u64 new_role, u64 task, u64 order)
{
    step(ALLOCATE, task, order, subject);
    step(TAKE_ROLE, role, subject, 0);
    staff(new_role, subject);
}

/*
 * Two change the line, one with a task of the first order in hand and one with a task of the last: what is in the way is found at once, or
 * when all orders were looked through. One holds a task that excludes another in its own order alone; one acts in a role that was taken
 * back.
 */
static void change_shift(void)
{
    change_line(6, 6, 7, 18, 0);
    change_line(7, 7, 6, 19, 5);
    step(ALLOCATE, 13, 3, 9);
    step(TAKE_ROLE, 5, 5, 0);
}

/* Each order is offered to the people from two further on, so that most of them work in several orders. */
static void orders_cell(void)
{
    for (u64 p = 0; p < 6; p++) {
        step(OPEN, p, 0, p % 2 ? 0xcffff : 0xfffff);
        for (u64 t = 0; t < 12; t++)
            for (u64 s = 0; s < 12; s++)
                if (ask(ALLOCATE, t, p, (s + 2 * p) % 12)) break;
    }
    change_shift();
}

/* ---- dense rows: two halves that exclude each other, each of two blocks bound in themselves */

static void book_dense(void)
{
    define(64, 64, 64);
    relate(SME, 0, 32, 32, 64, 0, 32);
    relate(DME, 0, 16, 16, 32, 0, 16);
    relate(DME, 32, 48, 48, 64, 64, 64);
    for (u64 t = 0; t < 64; t += 16) relate(SB, t, t + 16, t, t + 16, 0, 2);
    for (u64 t = 0; t < 64; t += 32) relate(RB, t, t + 32, t, t + 32, 0, 2);
    for (u64 r = 0; r < 64; r++)
        for (u64 t = 0; t < 32; t++)
            if (r != 5 || t != 1) step(GIVE_TASK, r / 32 * 32 + t, r, 0);
    for (u64 r = 0; r < 64; r++)
        for (u64 q = r / 32 * 32; q < r; q++)
            if (r != 5 || q != 3) step(JUNIOR, q, r, 0);
    for (u64 s = 0; s < 64; s++) {
        for (u64 r = 0; r < 31; r++)
            if (s != 4 || r != 2) step(GIVE_ROLE, s / 32 * 32 + r, s, 0);
        staff(s / 32 * 32 + 31, s);
    }
}

/* One of the upper half goes to the lower one, with all that it holds. */
static void change_half(u64 subject)
{
    for (u64 r = 32; r < 64; r++) step(TAKE_ROLE, r, subject, 0);
    staff(31, subject);
}

/* Each subject has one block of its half in two orders, and the other block in the two before. Of the two who change the half one holds
 * tasks of the first order, and one of the last four alone. */
static void orders_dense(void)
{
    for (u64 p = 0; p < 64; p++) {
        step(OPEN, p, 0, UINT64_MAX);
        for (u64 t = p ? 0 : 16; t < 64; t += 16) step(ALLOCATE, t, p, t / 32 * 32 + (p / 2 + t / 16 % 2) % 32);
    }
    change_half(32);
    change_half(63);
}

/* ---- long chains: each role has the next lower one as its only junior, each subject the highest; the last task stands alone */

static u64 length = 64;

u64 chain_lack(int size) { return 5 * (u64)size / 64; }

static void book_long(void)
{
    u64 last = length - 1;
    define(length, length, length);
    for (u64 t = 0; t + 1 < last; t++) step(SB, t, t + 1, 0);
    for (u64 t = 0; t + 2 < last; t++) step(t < last / 2 ? SME : DME, t, last, 0);
    for (u64 r = 0; r < length; r++)
        for (u64 t = 0; t < last; t++)
            if (r != chain_lack((int)length) || t != 1) step(GIVE_TASK, t, r, 0);
    for (u64 r = 1; r < length; r++) step(JUNIOR, r - 1, r, 0);
    for (u64 s = 0; s < length; s++) staff(last, s);
}

static void orders_long(void)
{
    for (u64 p = 0; p < length; p++) {
        step(OPEN, p, 0, UINT64_MAX >> (64 - length));
        if (p) step(ALLOCATE, p % (length - 1), p, p);
    }
}

/* ---- making them */

static int make(void tables(void), void orders(void), putting *with, u64 *closed, u64 *open)
{
    refused = 0;
    put = with;
    book = closed;
    tables();
    for (int i = 0; i < WORDS; i++) open[i] = closed[i];
    book = open;
    orders();
    return refused;
}

int make_books(int n, putting *with, u64 *closed, u64 *open)
{
    static void (*const tables[BOOKS])(void) = {book_b, book_cell, book_dense, book_long};
    static void (*const orders[BOOKS])(void) = {orders_b, orders_cell, orders_dense, orders_long};
    length = 64;
    return make(tables[n], orders[n], with, closed, open);
}

int make_chain(int size, putting *with, u64 *closed, u64 *open)
{
    length = (u64)size;
    for (int i = 0; i < WORDS; i++) closed[i] = 0;
    return make(book_long, orders_long, with, closed, open);
}
