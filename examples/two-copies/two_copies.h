/*
 * two_copies.h - a duty book that power loss leaves whole.
 *
 * You serve requests on a book in ordinary memory. Two copies of it stand in a persistent memory (store.h); each save writes the
 * older one, so that the newer one is untouched meanwhile. Whenever the power fails, what is loaded afterwards is the book before
 * the request or the book after it, and never anything else.
 *
 * A copy is a count, the words of the book, a checksum, and the count again. The first count is written before any of the words and
 * the last one after all of them, with a barrier between: while they differ, the copy does not count. The checksum finds what was
 * damaged at other times.
 *
 * One book, one store, one thread at a time. No heap, no recursion, no state besides the struct that you lend.
 */
#ifndef TWO_COPIES_H
#define TWO_COPIES_H

#include <stdbool.h>
#include <stdint.h>

#include "towerplank.h"

/* The places of the store that a copy takes, and that both take. */
#define TWO_COPIES_COPY ((uint32_t)TOWERPLANK_WORDS + 3u)
#define TWO_COPIES_STORE (2u * TWO_COPIES_COPY)

typedef struct {
    uint64_t count; /* that of the newest copy; each save counts one more */
    uint32_t spare; /* the copy that the next save writes: 0 or 1 */
} two_copies;

/* Once, when the controller is commissioned: forgets what the store held and saves the book twice. False: the store failed. */
bool two_copies_begin(two_copies *copies, const uint64_t book[TOWERPLANK_WORDS]);

typedef enum {
    TWO_COPIES_LOST,  /* no copy is whole and sound: the book must not be used. A blank one would know of no exclusion: fetch people. */
    TWO_COPIES_LOADED, /* the newest copy is in the book */
    TWO_COPIES_OLDER  /* the newest was damaged, not by power loss; the one before it is in the book, without the last request */
} two_copies_loaded;

/*
 * At power-up: fills the book from the newest copy that is whole and passes the audit. Where the first number of TOWERPLANK_VERSION has moved,
 * a copy that an older library saved may break a rule that says something else now: it then counts as damaged. See docs/INTEGRATOR.md first.
 */
two_copies_loaded two_copies_load(two_copies *copies, uint64_t book[TOWERPLANK_WORDS]);

/* Saves the book over the older copy. False: it does not read back as written, and the newer copy stands as it was. */
bool two_copies_save(two_copies *copies, const uint64_t book[TOWERPLANK_WORDS]);

/*
 * One request, saved where it is accepted. Act on the answer (start the machine, tell the person) only after this has returned
 * true. False: the store failed. The request then counts as never asked: load again, or stop.
 */
bool two_copies_request(two_copies *copies, uint64_t book[TOWERPLANK_WORDS], uint64_t kind, uint64_t a, uint64_t b, uint64_t c,
                        uint64_t answer[4]);

#endif
