/* What the files of the measurement share: the programs that are compared, the books, and the requests that are put to them. */
#ifndef MEASURE_H
#define MEASURE_H

#include <stdint.h>

#include "books.h"

typedef uint64_t u64;
typedef struct { u64 kind, a, b, c; } request; /* kind AUDIT is the audit */

enum { AUDIT = 0, LAST_KIND = 21, UNKNOWN_KIND, KINDS };

/* ---- programs.c */

/* the library, plain C, plain C once more, and another program where one is put beside them */
enum { LIBRARY, PLAIN, AGAIN, OTHER, PROGRAMS };

int is_there(int program);

/*
 * The other program is document 01's book. It takes the kinds from 18 on for unknown ones, and its kind 13 looks at one order alone, where
 * ours goes through all open orders since M-104 and names one: neither its answers nor its times are of the same thing.
 */
int knows(int program, u64 kind);
void call(int program, u64 *book, request q, u64 answer[4]);

/* the bytes of stack that a call uses */
u64 stack_of(int program, u64 *book, request q);

/* ---- requests.c */

enum { CLOSED, OPEN, DAMAGED, FORMS, NUMBERS_OF_A_KIND = 16, PATHS = 2 * NUMBERS_OF_A_KIND };

/* each book without orders, with its orders open, and so with its last word bad */
extern u64 books[BOOKS][FORMS][WORDS];

/* Makes `to` as `from`. */
void copy_words(u64 *to, const u64 *from);

/* Makes the books by requests that are put by `with`; returns how many were refused. */
int make_all_books(putting *with);

/* the form of a book that a kind is measured on; where that is CLOSED, OPEN comes after it, for what is refused with orders open */
int form_for(u64 kind);

/* the request of a kind that is tried as the i-th, in a fixed order; 0 at the end */
int tried(request *q, u64 kind, int i);

/* a request that is answered this number on this form of a book: a way that a request of its kind can go */
typedef struct { request q; int form; u64 number, found; } path;

/* The paths of a kind on book n: for each number that it is answered, where the search ends soonest and where it goes furthest. */
int paths_of(u64 kind, int n, path paths[PATHS]);

/* y, and where that is a mask of tasks (31 and 32, since M-105) the lowest of them, which is what document 01 has there */
u64 lowest_y(const u64 answer[4]);

/* the request of the mixed stream that comes next, on book n */
enum { STREAM = 1000 };
request stream_request(u64 *state, int n);

/* The sizes of the book of long chains, and the requests that are measured on it: accepted ones, which are searched to the end. */
enum { SIZES = 7, SIZED = 4 };
extern const int sizes[SIZES];
request sized_request(int size, int i);

/* ---- answers.c: every request is answered and carried out alike; returns whether it is */
int compare_answers(void);

/* ---- times.c: what the requests cost, one line each */
void print_times(void);
void print_sizes(void);

#endif
