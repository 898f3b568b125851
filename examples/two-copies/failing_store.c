/* The memory of failing_store.h. */
#include "failing_store.h"

#include "store.h"
#include "two_copies.h"

static uint64_t memory[TWO_COPIES_STORE]; /* what power loss leaves */
static uint64_t seen[TWO_COPIES_STORE];   /* what the running controller reads: that, and what it has written since */
static uint64_t kept[TWO_COPIES_STORE];

/* Places, each once: those written since the last barrier, and those that are not as they were kept. */
typedef struct {
    uint32_t count, place[TWO_COPIES_STORE];
    bool has[TWO_COPIES_STORE];
} places;

static places waiting, changed;
static uint32_t stores, cut_at; /* cut_at 0: the power does not fail */
static manner cut_how;
static bool powered = true;

static void add(places *to, uint32_t place)
{
    if (!to->has[place]) {
        to->has[place] = true;
        to->place[to->count] = place;
        to->count++;
    }
}

static void clear(places *of)
{
    for (uint32_t i = 0u; i < of->count; i++) {
        of->has[of->place[i]] = false;
    }
    of->count = 0u;
}

uint64_t noise(void)
{
    static uint64_t state = 1u;
    state ^= state << 13u;
    state ^= state >> 7u;
    state ^= state << 17u;
    return state;
}

/* What is left of a word in whose place another one was being written. */
static uint64_t left_of(uint64_t old, uint64_t word, manner how)
{
    const uint64_t low = UINT64_C(0xffffffff);
    switch (how) {
    case NOTHING:
        return old;
    case WHOLE:
        return word;
    case LOW_HALF:
        return (old & ~low) | (word & low);
    case HIGH_HALF:
        return (old & low) | (word & ~low);
    case EITHER_BIT:
        return old | word;
    case BOTH_BITS:
        return old & word;
    case ZEROS:
        return 0u;
    case ONES:
        return UINT64_MAX;
    default:
        return noise();
    }
}

static void fail(void)
{
    for (uint32_t i = 0u; i < waiting.count; i++) {
        const uint32_t at = waiting.place[i];
        manner how = cut_how;
        if (cut_how == IN_ANY_ORDER) {
            how = (manner)(noise() % (uint64_t)IN_ANY_ORDER);
        } else if ((i + 1u) < waiting.count) {
            how = WHOLE;
        }
        memory[at] = left_of(memory[at], seen[at], how);
    }
    powered = false;
}

uint64_t store_read(uint32_t place) { return seen[place]; }

void store_write(uint32_t place, uint64_t word)
{
    if (powered) {
        seen[place] = word;
        add(&waiting, place);
        add(&changed, place);
        stores++;
        if (stores == cut_at) {
            fail();
        }
    }
}

void store_barrier(void)
{
    if (powered) {
        for (uint32_t i = 0u; i < waiting.count; i++) {
            memory[waiting.place[i]] = seen[waiting.place[i]];
        }
        clear(&waiting);
    }
}

void cut_power_at(uint32_t store, manner how)
{
    cut_at = stores + store;
    cut_how = how;
}

void power_up(void)
{
    for (uint32_t i = 0u; i < waiting.count; i++) {
        seen[waiting.place[i]] = memory[waiting.place[i]];
    }
    clear(&waiting);
    stores = 0u;
    cut_at = 0u;
    powered = true;
}

bool has_power(void) { return powered; }

uint32_t stores_made(void) { return stores; }

void keep_memory(void)
{
    for (uint32_t i = 0u; i < TWO_COPIES_STORE; i++) {
        kept[i] = memory[i];
    }
    clear(&changed);
}

void restore_memory(void)
{
    power_up();
    for (uint32_t i = 0u; i < changed.count; i++) {
        const uint32_t at = changed.place[i];
        memory[at] = kept[at];
        seen[at] = kept[at];
    }
    clear(&changed);
}

void damage(uint32_t place, uint64_t bits)
{
    memory[place] ^= bits;
    seen[place] = memory[place];
    add(&changed, place);
}
