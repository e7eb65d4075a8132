/* The header is fit for the library: a program is told, and what comes back is an act that the header names. */
#include <stdio.h>
#include <string.h>

#include "movkresan.h"

static uint64_t memory[MOVKRESAN_MEMORY];
static uint8_t row[MOVKRESAN_ROW];

int main(void)
{
    static const char program[] = "{ print; }";
    uint64_t number = 77;
    uint64_t act = movkresan_step(memory, MOVKRESAN_MEMORY, MOVKRESAN_PROGRAM, (const uint8_t *)program, strlen(program), row, MOVKRESAN_ROW, &number);
    if (act != MOVKRESAN_REFUSED || number != 2) {
        printf("a program: act %llu, number %llu\n", (unsigned long long)act, (unsigned long long)number);
        return 1;
    }
    act = movkresan_step(memory, MOVKRESAN_MEMORY - 1, MOVKRESAN_NEXT, row, 0, row, 0, &number);
    if (act != MOVKRESAN_REFUSED || number != 0) {
        printf("a memory that is too short: act %llu, number %llu\n", (unsigned long long)act, (unsigned long long)number);
        return 1;
    }
    return 0;
}
