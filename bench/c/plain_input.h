/*
 * plain_input.h: what the plain C programs read from standard input. Words are read as
 * they are, so it is for a little-endian machine.
 */
#ifndef PLAIN_INPUT_H
#define PLAIN_INPUT_H

#include <stddef.h>
#include <stdint.h>
#include <unistd.h>

enum { TABLE_WORDS_MAX = 641, LIST_WORDS_MAX = 4096, DOMAINS_MAX = 16 };

/* So many bytes, fewer where the input ends; a read that fails counts as its end. */
static inline size_t read_bytes(void *to, size_t count)
{
    size_t have = 0;
    while (have < count) {
        ssize_t got = read(STDIN_FILENO, (char *)to + have, count - have);
        if (got <= 0)
            break;
        have += (size_t)got;
    }
    return have;
}

/* A table after its length in words: 0, or 7 where it can't be had. */
static inline uint32_t read_table(uint32_t *table, uint32_t *length)
{
    if (read_bytes(length, 4) < 4 || *length > TABLE_WORDS_MAX)
        return 7;
    size_t bytes = 4 * (size_t)*length;
    return read_bytes(table, bytes) < bytes ? 7 : 0;
}

#endif /* PLAIN_INPUT_H */
