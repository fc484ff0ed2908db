/* Sums, products, quotients, shifts and comparisons of numbers of 64 bits. */
#include "numbers.h"

enum { ROUNDS = 16 };

static uint64_t next_long(uint32_t *state)
{
    uint32_t high = next_number(state);
    return (uint64_t)high << 32 | next_number(state);
}

static void write_results(uint64_t left, uint64_t right, uint32_t amount)
{
    write_long(left + right);
    write_long(left - right);
    write_long(left * right);
    write_long((uint64_t)(uint32_t)left * (uint32_t)right);
    write_long((uint64_t)((int64_t)(int32_t)left * (int32_t)right));
    write_long(left / right);
    write_long(left % right);
    write_long(left << amount);
    write_long(left >> amount);
    write_long((uint64_t)((int64_t)left >> amount));
    write_number((left < right) + 2 * (left == right) + 4 * ((int64_t)left < (int64_t)right));
}

void play(void)
{
    uint32_t state = 88172645u;
    for (uint32_t round = 0; round < ROUNDS; round++) {
        uint64_t left = next_long(&state), right = next_long(&state) >> (round * 4);
        write_results(left, right ? right : 1, next_number(&state) & 63);
        write_results(left, left, round * 32 & 63);
    }
}
