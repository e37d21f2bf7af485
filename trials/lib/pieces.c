// Loaded before the C library: the chosen reads and writes of several bytes move one byte.
#include "counting.h"

static size_t piece(size_t size) {
    if (size < 2) return size;
    return is_chosen() ? 1 : size;
}

ssize_t read(int file, void *bytes, size_t size) { return syscall(SYS_read, file, bytes, piece(size)); }

ssize_t write(int file, const void *bytes, size_t size) {
    return syscall(SYS_write, file, bytes, piece(size));
}
