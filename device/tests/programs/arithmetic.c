/* Sums, products, quotients, shifts and comparisons of words and of parts of words. */
#include "numbers.h"

enum { ROUNDS = 24 };

static void write_plain(uint32_t left, uint32_t right)
{
    write_number(left + right);
    write_number(left - right);
    write_number(left * right);
    write_number(left / right);
    write_number(left % right);
    write_number(left << (right & 31));
    write_number(left >> (right & 31));
    write_number((left << (right & 31)) | (left >> (-right & 31)));
    write_number((left < right) + 2 * (left == right) + 4 * (left > right));
}

static void write_signed(int32_t left, int32_t right)
{
    write_number((uint32_t)(left / right));
    write_number((uint32_t)(left % right));
    write_number((uint32_t)(left >> (right & 31)));
    write_number((left < right) + 2 * (left <= right) + 4 * (left >= 0));
}

static void write_parts(uint32_t left, uint32_t right)
{
    write_number((uint8_t)(left + right));
    write_number((uint16_t)(left - right));
    write_number((uint32_t)(int8_t)left);
    write_number((uint32_t)(int16_t)right);
    write_number((uint32_t)((int8_t)left * (int16_t)right));
    write_number((left & right) ^ (left | ~right));
}

void play(void)
{
    uint32_t state = 2463534242u;
    for (uint32_t round = 0; round < ROUNDS; round++) {
        uint32_t left = next_number(&state), right = next_number(&state) >> (round & 31);
        right = right ? right : 1;
        write_plain(left, right);
        write_signed((int32_t)left, (int32_t)right);
        write_parts(left, right);
    }
}
