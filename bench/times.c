/*
 * What the requests cost: one line for each path of each kind on each book, for the mixed stream, and for books of growing size, with
 * the least time of some rounds for each program. bench/run takes several such turns and judges the least of them all; the lines are
 * for it, in nanoseconds, and nobody else prints them.
 */
#include <stdio.h>
#include <time.h>

#include "measure.h"

enum { ROUNDS = 2 };

typedef struct { u64 at, was; } undo;

static u64 work[WORDS];
static undo undos[WORDS];
static int undo_count;

static double now(void)
{
    struct timespec t;
    clock_gettime(CLOCK_MONOTONIC, &t);
    return 1e9 * (double)t.tv_sec + (double)t.tv_nsec;
}

static void put_back(void)
{
    for (int i = 0; i < undo_count; i++) work[undos[i].at] = undos[i].was;
}

/*
 * Looks which words a request changes on work, a copy of the book: they are put back one by one after each call, and nothing else is.
 * What the library changes is what plain C changes; the other program may set one word more.
 */
static void note_changes(const u64 *book, request q)
{
    undo_count = 0;
    for (int program = PLAIN; program < PROGRAMS; program++) {
        u64 answer[4];
        if (program == AGAIN || !is_there(program) || !knows(program, q.kind)) continue;
        call(program, work, q, answer);
        for (u64 i = 0; answer[0] == 0 && i < WORDS; i++) {
            if (work[i] == book[i]) continue;
            undos[undo_count++] = (undo){i, book[i]};
            work[i] = book[i];
        }
    }
}

/* the time of so many calls, and of putting back what each changed */
static double spent(int program, request q, int times)
{
    u64 answer[4];
    double began = now();
    for (int i = 0; i < times; i++) {
        call(program, work, q, answer);
        put_back();
    }
    return now() - began;
}

/* as many calls as take long enough for the clock */
static int enough(request q)
{
    int times = 1;
    while (spent(PLAIN, q, times) < 2e5) times *= 2;
    return times;
}

/* The least of some rounds, the programs in turn, so that whatever else the machine does falls on all of them. */
static void take_least(request q, int times, double least[PROGRAMS])
{
    for (int program = 0; program < PROGRAMS; program++) least[program] = 1e18;
    for (int i = 0; i < ROUNDS; i++)
        for (int program = 0; program < PROGRAMS; program++) {
            if (!is_there(program) || !knows(program, q.kind)) continue;
            double each = spent(program, q, times) / times;
            if (each < least[program]) least[program] = each;
        }
}

/* ---- the lines: what is measured, on which book, the kind, its three numbers, the number it is answered, and a time for each program */

static void print_line(const char *what, const char *book, request q, u64 number, const double times[PROGRAMS])
{
    printf("%s\t%s\t", what, book);
    if (q.kind == AUDIT) printf("audit");
    else if (q.kind == UNKNOWN_KIND) printf("unknown");
    else printf("%lu", q.kind);
    printf("\t%lu %lu %lu\t%lu", q.a, q.b, q.c, number);
    for (int program = 0; program < PROGRAMS; program++) {
        if (times[program] < 1e18) printf("\t%.1f", times[program]);
        else printf("\t-");
    }
    printf("\n");
}

static void print_path(const char *what, const char *name, const u64 *book, path p)
{
    double least[PROGRAMS];
    copy_words(work, book);
    note_changes(book, p.q);
    take_least(p.q, enough(p.q), least);
    print_line(what, name, p.q, p.number, least);
}

/* reading the 4,676 words once, which is the same whoever does it */
static void print_reading(void)
{
    double least = 1e18;
    for (int i = 0; i < 20; i++) {
        double began = now();
        for (int times = 0; times < 64; times++) {
            u64 sum = 0;
            for (int k = 0; k < WORDS; k++) sum += work[k];
            __asm__ volatile("" : : "r"(sum) : "memory");
        }
        double each = (now() - began) / 64;
        if (each < least) least = each;
    }
    print_line("reading", "-", (request){0}, 0, (double[PROGRAMS]){least, least, least, least});
}

/* ---- what is measured */

static void print_kind(u64 kind, int n)
{
    path paths[PATHS];
    int count = paths_of(kind, n, paths);
    for (int i = 0; i < count; i++) print_path("path", book_names[n], books[n][paths[i].form], paths[i]);
}

/* What is asked of a damaged book is all one, so one kind stands for all, one that the other program knows. */
static void print_damaged(int n)
{
    print_path("path", book_names[n], books[n][DAMAGED], (path){{1, 0, 0, 0}, DAMAGED, 2, 0});
    print_path("path", book_names[n], books[n][DAMAGED], (path){{AUDIT, 0, 0, 0}, DAMAGED, 2, 0});
}

/* The sum over the mixed stream, and over those requests of it that the other program knows. */
static void print_stream(int n)
{
    double all[PROGRAMS] = {0}, known[PROGRAMS] = {0};
    u64 state = 1;
    for (int i = 0; i < STREAM; i++) {
        double least[PROGRAMS];
        request q = stream_request(&state, n);
        const u64 *book = books[n][form_for(q.kind)];
        copy_words(work, book);
        note_changes(book, q);
        take_least(q, 1, least);
        for (int program = 0; program < PROGRAMS; program++) {
            all[program] += least[program] / STREAM;
            if (knows(OTHER, q.kind)) known[program] += least[program] / STREAM;
        }
    }
    all[OTHER] = 1e18;
    print_line("stream", book_names[n], (request){0}, 0, all);
    if (is_there(OTHER)) print_line("known", book_names[n], (request){0}, 0, known);
}

static int make_step(u64 *book, u64 kind, u64 a, u64 b, u64 c)
{
    u64 answer[4];
    call(PLAIN, book, (request){kind, a, b, c}, answer);
    return answer[0] == 0;
}

void print_times(void)
{
    make_all_books(make_step);
    print_reading();
    for (int n = 0; n < BOOKS; n++) {
        for (u64 kind = 0; kind < KINDS; kind++) print_kind(kind, n);
        print_damaged(n);
        print_stream(n);
    }
    print_reading();
}

void print_sizes(void)
{
    static u64 chain[FORMS][WORDS];
    print_reading();
    for (int n = 0; n < SIZES; n++) {
        char digits[3] = {(char)('0' + sizes[n] / 10), (char)('0' + sizes[n] % 10), 0}, *name = digits + (sizes[n] < 10);
        make_chain(sizes[n], make_step, chain[CLOSED], chain[OPEN]);
        for (int i = 0; i < SIZED; i++) {
            request q = sized_request(sizes[n], i);
            print_path("size", name, chain[form_for(q.kind)], (path){q, form_for(q.kind), 0, 0});
        }
    }
    print_reading();
}
