/*
 * memory.c: memcpy, memmove and memset for a firmware without a C library, which is all
 * that the archive asks for.
 *
 * Byte by byte, by the general registers: compile it with -ffreestanding
 * -mgeneral-regs-only -mno-red-zone. The bytes are written through volatile pointers, so
 * that no compiler makes calls of these functions out of their own loops.
 */
#include <stddef.h>
#include <stdint.h>

void *memcpy(void *restrict to, const void *restrict from, size_t length);
void *memmove(void *to, const void *from, size_t length);
void *memset(void *at, int byte, size_t length);

void *memcpy(void *restrict to, const void *restrict from, size_t length)
{
    volatile unsigned char *out = to;
    const unsigned char *in = from;
    for (size_t i = 0; i < length; i++)
        out[i] = in[i];
    return to;
}

/*
 * Backwards where the target begins inside the source, else forwards. The distance is that
 * of the addresses, which wraps round where the target begins before the source: pointers
 * into different objects may not be compared.
 */
void *memmove(void *to, const void *from, size_t length)
{
    volatile unsigned char *out = to;
    const volatile unsigned char *in = from;
    if ((uintptr_t)to - (uintptr_t)from < length) {
        for (size_t i = length; i > 0; i--)
            out[i - 1] = in[i - 1];
    } else {
        for (size_t i = 0; i < length; i++)
            out[i] = in[i];
    }
    return to;
}

void *memset(void *at, int byte, size_t length)
{
    volatile unsigned char *out = at;
    for (size_t i = 0; i < length; i++)
        out[i] = (unsigned char)byte;
    return at;
}
