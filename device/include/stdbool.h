/* The standard header: the kit's compiler comes without it. */
#ifndef DEVICE_STDBOOL_H
#define DEVICE_STDBOOL_H

#define bool _Bool
#define true 1
#define false 0

#endif
