/* A memcpy that is wrong: it leaves out the last byte. */
#include <stddef.h>
#include <stdint.h>

void *memcpy(void *to, const void *from, size_t length)
{
    for (size_t place = 0; place + 1 < length; place++)
        ((uint8_t *)to)[place] = ((const uint8_t *)from)[place];
    return to;
}
