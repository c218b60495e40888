/* In front of libc it gives the gateway the same number at each start, in place of one that the system draws. A run then takes as many instructions
as the last time: where in the tables rows stand follows from that number. */
#include <stddef.h>
#include <string.h>

int getentropy(void *target, size_t count) {
    memset(target, 0x5a, count);
    return 0;
}
