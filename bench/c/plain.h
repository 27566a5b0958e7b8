/*
 * plain.h: a plain C kernel and table check that do what include/balkwizu.h says,
 * written by hand for speed, with no proof. The bench measures the proved archive
 * against it, and holds both to the same reference implementation.
 *
 * The caller's preconditions are those written in include/balkwizu.h.
 */
#ifndef PLAIN_H
#define PLAIN_H

#include <stddef.h>
#include <stdint.h>

/* As balkwizu_table_check: 0, or 2 to 5. */
uint32_t plain_table_check(const uint8_t *bytes, size_t len);

/* As balkwizu_run: the code in bits 15-0, the number of calls in bits 31-16. */
uint32_t plain_run(uint32_t *table, size_t table_len,
                   const uint32_t *list, size_t list_len,
                   uint32_t *answers, size_t answers_len,
                   uint32_t *holders, size_t holders_len);

#endif /* PLAIN_H */
