/* What the library must not do, for tests/machine-code.sh to see that it would be noticed: a variable, wide registers, the red zone, a segment. */
#include <stdint.h>

uint64_t greedy(uint64_t *words, int count);

static uint64_t calls;
static _Thread_local uint64_t calls_here;

uint64_t greedy(uint64_t *words, int count)
{
    volatile uint64_t below[4] = {0, 1, 2, 3}; /* a function that calls nothing keeps them below the stack pointer */
    for (int i = 0; i < count; i++) words[i] = (words[i] ^ 0x5ca1ab1e) + words[i];
    calls++;
    calls_here++;
    return below[count & 3] + calls + calls_here;
}
