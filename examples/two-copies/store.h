/*
 * store.h - what the two copies ask of a persistent memory: three functions that you write for yours. power.c has them for a
 * memory whose power fails.
 *
 * The memory has places of 64 bits, numbered from 0; two_copies.h says how many are used. What a place must keep to:
 *   - A word whose store was under way when the power failed may hold anything afterwards: the old word, the new one, halves of
 *     both, noise. Other words keep what they have.
 *   - Where your memory is written in larger units (a page of flash, a sector of a disk), a whole unit may be spoiled so. Then the
 *     two copies must lie in different units.
 */
#ifndef STORE_H
#define STORE_H

#include <stdint.h>

/* The word at a place: what was written last, also before the barrier; after power-up, what the power loss left. */
uint64_t store_read(uint32_t place);

/* Writes a word. It may reach the memory at once or at the next barrier, before or after other words written since the last one. */
void store_write(uint32_t place, uint64_t word);

/*
 * Returns when every word written before is in the memory for good, so that no later one can overtake it.
 *   - Ferroelectric or battery-backed memory on the processor's bus: what empties the caches and write buffers on the way there.
 *     On x86-64, for cached memory, a write-back of each cache line written (clwb or clflush) and then sfence; for memory that
 *     is mapped uncached, sfence alone. The stores themselves go through volatile pointers.
 *   - Memory behind a serial bus: the end of the transfer, and of the device's own write cycle where it has one.
 *   - Flash: the page programmed. A copy has erase blocks of its own; an erased copy (all ones) counts as none.
 *   - A file: fdatasync (or fsync), on a disk that does not lie about it.
 */
void store_barrier(void);

#endif
