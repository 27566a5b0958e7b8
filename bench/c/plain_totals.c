/*
 * plain_totals.c: the job of linetotals on the plain C kernel, with no proof: a table and
 * lists from standard input, the totals of its endpoints over all of them on standard
 * output. `bench totals PROGRAM --speed` measures linetotals against it.
 */
#define _POSIX_C_SOURCE 200809L
#include "plain.h"
#include "plain_input.h"

#include <inttypes.h>
#include <stdio.h>

enum { SEND = 2, RECEIVE = 3 };
enum { WAITING = 2, ENDPOINT_WORDS = 12 };
enum { LISTS_MAX = 65536, ENDPOINTS_MAX = 32 };

static uint32_t table[TABLE_WORDS_MAX];
static uint32_t list[LIST_WORDS_MAX + 1]; /* and the next one's length word */
static uint32_t answers[3 * LIST_WORDS_MAX];
static uint32_t holders[DOMAINS_MAX];
static uint64_t sent[256], received[256]; /* by field B, which has eight bits */

static uint32_t waiting(uint32_t n, uint32_t e)
{
    return table[1 + n * n + ENDPOINT_WORDS * e + WAITING] & 0x0FFFFFFFu;
}

/* Counts the sends and receives of a list that were answered 0. */
static void count(size_t words)
{
    const uint32_t *answer = answers;
    for (size_t i = 0; i < words; i++, answer += 3) {
        uint32_t first = list[i], kind = first >> 28;
        uint32_t done = (*answer & 0xFFFFu) == 0;
        uint32_t e = (first >> 8) & 255u;
        sent[e] += done & (kind == SEND);
        received[e] += done & (kind == RECEIVE);
        i += kind - 1u < 2u && i + 1 < words && list[i + 1] >= 0xF0000000u;
    }
}

/* Runs the lists up to the first that is refused; the code of the last line. */
static uint32_t run_lists(size_t table_len, uint32_t n, uint32_t *ran)
{
    uint32_t length;
    size_t got = read_bytes(&length, 4);
    for (;;) {
        if (got == 0)
            return 0;
        if (*ran == LISTS_MAX)
            return 1;
        if (got < 4)
            return 7;
        if (length > LIST_WORDS_MAX)
            return 1;
        size_t bytes = 4 * (size_t)length;
        got = read_bytes(list, bytes + (*ran + 1 == LISTS_MAX ? 1 : 4));
        if (got < bytes)
            return 7;
        got -= bytes;
        uint32_t next = list[length];
        plain_run(table, table_len, list, length, answers, 3 * LIST_WORDS_MAX, holders, n);
        count(length);
        *ran += 1;
        length = next;
    }
}

int main(void)
{
    uint32_t length, ran = 0, code = read_table(table, &length);
    if (code == 0)
        code = plain_table_check((const uint8_t *)table, 4 * (size_t)length);
    if (code == 0) {
        uint32_t n = (table[0] >> 8) & 255u, m = table[0] & 255u;
        uint32_t start[ENDPOINTS_MAX];
        for (uint32_t e = 0; e < m; e++)
            start[e] = waiting(n, e);
        code = run_lists(length, n, &ran);
        for (uint32_t e = 0; e < m; e++) {
            /* what went in and did not come out was lost */
            uint64_t lost = sent[e] + start[e] - received[e] - waiting(n, e);
            printf("endpoint %" PRIu32 " sent %" PRIu64 " received %" PRIu64 " lost %" PRIu64
                   " start %" PRIu32 " end %" PRIu32 "\n",
                   e, sent[e], received[e], lost, start[e], waiting(n, e));
        }
    }
    printf("lists %" PRIu32 " code %" PRIu32 "\n", ran, code);
    return 0;
}
