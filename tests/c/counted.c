/* What tests/machine-code.sh must not take for a use of the red zone: a row in the frame of a function that calls, counted from 8. */
#include <stdint.h>

uint64_t counted(uint64_t kind);
uint64_t elsewhere(uint64_t *row);

uint64_t counted(uint64_t kind)
{
    uint64_t row[3] = {5, 4, 6};
    uint64_t sum = elsewhere(row);
    return kind > 7 && kind < 11 ? sum + row[kind - 8] : sum;
}
