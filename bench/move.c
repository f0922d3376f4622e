/* Bytes moved within a file, and nothing else: what making or closing a gap costs. */
#include <stddef.h>
#include <stdint.h>
#include <string.h>

void move_bytes(uint8_t *file, size_t from, size_t to, size_t n)
{
    memmove(file + to, file + from, n);
}
