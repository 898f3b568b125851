/* A persistent memory for store.h whose power can be cut at any store, in many manners. For trying the two copies. */
#ifndef FAILING_STORE_H
#define FAILING_STORE_H

#include <stdbool.h>
#include <stdint.h>

/*
 * What the store that is under way leaves, of the old word and the new one, where the power fails; all words before it have reached
 * the memory. IN_ANY_ORDER: each word written since the last barrier has reached it or not, in a manner of its own.
 */
typedef enum { NOTHING, WHOLE, LOW_HALF, HIGH_HALF, EITHER_BIT, BOTH_BITS, ZEROS, ONES, NOISE, IN_ANY_ORDER } manner;

/* The power will fail at this store from now on, the next one being 1. */
void cut_power_at(uint32_t store, manner how);

/* The power comes back, and will not fail by itself. What was written and is not in the memory is forgotten. */
void power_up(void);

bool has_power(void);

/* The stores since power-up. */
uint32_t stores_made(void);

/* Keeps the memory as it is now; puts back what was kept, with the power on. */
void keep_memory(void);
void restore_memory(void);

/* Turns bits of a word round, as time does; restore_memory puts them back too. */
void damage(uint32_t place, uint64_t bits);

/* A word of noise; the same ones at each run of the program. */
uint64_t noise(void);

#endif
