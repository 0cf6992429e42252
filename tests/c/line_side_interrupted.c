/* The line side over a system that does as little as it may: a read or a write is interrupted before it moves a byte, or
 * moves only some. What is printed must not change. The same calls come out the same way every time. */
#include <errno.h>
#include <stddef.h>
#include <stdint.h>
#include <unistd.h>

/* How many of so many bytes this call may move; 0 is an interruption. */
static size_t allowance(size_t most)
{
    static uint32_t state = 2024;
    state = state * 1664525u + 1013904223u;
    switch (state >> 30) {
    case 0: return 0;
    case 1: return 1;
    default: return 1 + (state >> 8) % most;
    }
}

static ssize_t read_some(int file, void *to, size_t room)
{
    size_t most = allowance(room);
    errno = EINTR;
    return most > 0 ? read(file, to, most) : -1;
}

static ssize_t write_some(int file, const void *from, size_t length)
{
    size_t most = allowance(length);
    errno = EINTR;
    return most > 0 ? write(file, from, most) : -1;
}

#define read read_some
#define write write_some
#include "../../host/line_side.c"
