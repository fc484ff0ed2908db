/* What a program on the device asks of the computer that runs it. */
#ifndef DEVICE_HOST_H
#define DEVICE_HOST_H

#include <stdint.h>

/* Writes characters up to a zero byte. */
void host_write(const char *text);

/* Puts a number in decimal digits at a place; the result is the place behind them. */
char *put_number(char *place, uint32_t number);

/* What a program does: start.c calls it once memory is set up. */
void play(void);

#endif
