/*
 * Two copies of a duty book on a persistent memory; two_copies.h says what for. Example code, to be taken over as it is or changed:
 * examples/two-copies/run tries it with the power cut at every store.
 */
#include "two_copies.h"

#include "store.h"

/* Where the parts of a copy stand in it. */
#define FIRST_COUNT 0u
#define WORDS 1u
#define CHECKSUM (WORDS + (uint32_t)TOWERPLANK_WORDS)
#define LAST_COUNT (CHECKSUM + 1u)

static uint32_t place(uint32_t copy, uint32_t part) { return (copy * TWO_COPIES_COPY) + part; }

/* Mixes a word in. Each step can be undone, so books that differ in one word alone never have the same checksum. */
static uint64_t mixed(uint64_t sum, uint64_t word)
{
    const uint64_t product = (sum ^ word) * UINT64_C(0x9e3779b97f4a7c15);
    return product ^ (product >> 32u);
}

static uint64_t checksum(const uint64_t book[TOWERPLANK_WORDS], uint64_t count)
{
    uint64_t sum = mixed(0u, count);
    for (uint32_t i = 0u; i < (uint32_t)TOWERPLANK_WORDS; i++) {
        sum = mixed(sum, book[i]);
    }
    return sum;
}

/* The count of a copy, 0 where it does not count: its two counts differ, or it was never written, or it is erased. */
static uint64_t count_of(uint32_t copy)
{
    const uint64_t first = store_read(place(copy, FIRST_COUNT));
    const uint64_t last = store_read(place(copy, LAST_COUNT));
    return ((first == last) && (first != UINT64_MAX)) ? first : 0u;
}

/* Takes the higher of the two counts, also where that copy turns out damaged: no count is ever given twice. */
static void find_newest(two_copies *copies)
{
    const uint64_t of_0 = count_of(0u);
    const uint64_t of_1 = count_of(1u);
    copies->count = (of_0 > of_1) ? of_0 : of_1;
    copies->spare = (of_0 > of_1) ? 1u : 0u;
}

/* Writes a word where another one stands: a save then costs the words that have changed, not 4,676. */
static void put(uint32_t at, uint64_t word)
{
    if (store_read(at) != word) {
        store_write(at, word);
    }
}

/* Reads a copy into the book. True: it counts, it is undamaged, and the book is sound. */
static bool fetch(uint32_t copy, uint64_t book[TOWERPLANK_WORDS])
{
    const uint64_t count = count_of(copy);
    uint64_t finding[4] = {TOWERPLANK_WRONG_LENGTH, 0u, 0u, 0u};
    for (uint32_t i = 0u; i < (uint32_t)TOWERPLANK_WORDS; i++) {
        book[i] = store_read(place(copy, WORDS + i));
    }
    if ((count != 0u) && (store_read(place(copy, CHECKSUM)) == checksum(book, count))) {
        towerplank_audit(book, TOWERPLANK_WORDS, finding);
    }
    return finding[0] == (uint64_t)TOWERPLANK_SOUND;
}

/* Whether a copy reads back as it was written, before its last count is. */
static bool reads_back(uint32_t copy, const uint64_t book[TOWERPLANK_WORDS], uint64_t count, uint64_t sum)
{
    bool same = store_read(place(copy, FIRST_COUNT)) == count;
    for (uint32_t i = 0u; i < (uint32_t)TOWERPLANK_WORDS; i++) {
        if (store_read(place(copy, WORDS + i)) != book[i]) {
            same = false;
        }
    }
    if (store_read(place(copy, CHECKSUM)) != sum) {
        same = false;
    }
    return same;
}

bool two_copies_save(two_copies *copies, const uint64_t book[TOWERPLANK_WORDS])
{
    const uint32_t copy = copies->spare;
    const uint64_t count = copies->count + 1u;
    const uint64_t sum = checksum(book, count);
    bool saved = false;

    put(place(copy, FIRST_COUNT), count);
    store_barrier();
    for (uint32_t i = 0u; i < (uint32_t)TOWERPLANK_WORDS; i++) {
        put(place(copy, WORDS + i), book[i]);
    }
    put(place(copy, CHECKSUM), sum);
    store_barrier();
    if (reads_back(copy, book, count, sum)) {
        put(place(copy, LAST_COUNT), count);
        store_barrier();
        saved = count_of(copy) == count;
    }
    if (saved) {
        copies->count = count;
        copies->spare = 1u - copy;
    }
    return saved;
}

two_copies_loaded two_copies_load(two_copies *copies, uint64_t book[TOWERPLANK_WORDS])
{
    two_copies_loaded loaded = TWO_COPIES_LOST;
    find_newest(copies);
    if (fetch(1u - copies->spare, book)) {
        loaded = TWO_COPIES_LOADED;
    } else if (fetch(copies->spare, book)) {
        loaded = TWO_COPIES_OLDER;
        copies->spare = 1u - copies->spare;
    } else {
        /* both are damaged, or nothing was ever saved */
    }
    return loaded;
}

bool two_copies_begin(two_copies *copies, const uint64_t book[TOWERPLANK_WORDS])
{
    bool saved;
    find_newest(copies);
    saved = two_copies_save(copies, book);
    if (saved) {
        saved = two_copies_save(copies, book);
    }
    return saved;
}

bool two_copies_request(two_copies *copies, uint64_t book[TOWERPLANK_WORDS], uint64_t kind, uint64_t a, uint64_t b, uint64_t c,
                        uint64_t answer[4])
{
    bool stored = true;
    towerplank_request(book, TOWERPLANK_WORDS, kind, a, b, c, answer);
    if (answer[0] == (uint64_t)TOWERPLANK_ACCEPTED) {
        stored = two_copies_save(copies, book);
    }
    return stored;
}
