/* The books that the measurements run on, each in two forms: with its orders open, and with none, for the kinds that need that. */
#ifndef BOOKS_H
#define BOOKS_H

#include <stdint.h>

enum { WORDS = 4676, BOOKS = 4 };

/* a name for each book, and what it is */
extern const char *const book_names[BOOKS];
extern const char *const book_tells[BOOKS];

/* Puts a request to a book; returns whether it was accepted. */
typedef int putting(uint64_t *book, uint64_t kind, uint64_t a, uint64_t b, uint64_t c);

/* Makes book n of a blank one, first without orders, then with them, by requests that have to be accepted; returns how many weren't. */
int make_books(int n, putting *with, uint64_t *closed, uint64_t *open);

/* The same of the book `long` with fewer of everything, 4 to 64; the role to which kind 8 can still give task 1 there. */
int make_chain(int size, putting *with, uint64_t *closed, uint64_t *open);
uint64_t chain_lack(int size);

#endif
