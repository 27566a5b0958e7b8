/*
 * plain_linerun.c: the job of linerun on the plain C kernel, with no proof: a table and a
 * list from standard input, a line for each call on standard output. `bench linerun
 * PROGRAM --speed` measures linerun against it. Numbers are written by hand, without
 * printf, and all lines by one write.
 */
#define _POSIX_C_SOURCE 200809L
#include "plain.h"
#include "plain_input.h"

#include <string.h>

enum { LINE_BYTES_MAX = 80 };

static uint32_t table[TABLE_WORDS_MAX];
static uint32_t list[LIST_WORDS_MAX + 1]; /* and one word too many */
static uint32_t answers[3 * LIST_WORDS_MAX];
static uint32_t holders[DOMAINS_MAX];
static char lines[LINE_BYTES_MAX * (LIST_WORDS_MAX + 1)];

static char *put_text(char *to, const char *text)
{
    size_t length = strlen(text);
    memcpy(to, text, length);
    return to + length;
}

static char *put_number(char *to, uint32_t number)
{
    char digits[10];
    size_t count = 0;
    do {
        digits[count++] = (char)('0' + number % 10);
        number /= 10;
    } while (number != 0);
    while (count > 0)
        *to++ = digits[--count];
    return to;
}

static char *put_first(char *to, uint32_t calls, uint32_t code)
{
    to = put_number(put_text(to, "calls "), calls);
    to = put_number(put_text(to, " code "), code);
    return put_text(to, "\n");
}

static char *put_call(char *to, uint32_t number, const uint32_t *answer)
{
    to = put_number(put_text(to, "call "), number);
    to = put_number(put_text(to, " caller "), answer[0] >> 22 & 63u);
    to = put_number(put_text(to, " kind "), answer[0] >> 28);
    to = put_number(put_text(to, " code "), answer[0] & 0xFFFFu);
    to = put_number(put_text(to, " data "), answer[1]);
    to = put_number(put_text(to, " "), answer[2]);
    return put_text(to, "\n");
}

/* The length of the table and of the list in words; 7 or 1 where they can't be had. */
static uint32_t read_input(uint32_t *table_len, size_t *list_len)
{
    if (read_table(table, table_len) != 0)
        return 7;
    size_t bytes = read_bytes(list, sizeof list);
    *list_len = bytes / 4;
    if (*list_len > LIST_WORDS_MAX)
        return 1;
    return bytes % 4 == 0 ? 0 : 7;
}

static int write_all(const char *from, const char *end)
{
    while (from < end) {
        ssize_t put = write(STDOUT_FILENO, from, (size_t)(end - from));
        if (put <= 0)
            return 1;
        from += put;
    }
    return 0;
}

int main(void)
{
    uint32_t table_len = 0, calls = 0;
    size_t list_len = 0;
    uint32_t code = read_input(&table_len, &list_len);
    if (code == 0) {
        uint32_t n = table_len > 0 ? table[0] >> 8 & 255u : 1;
        uint32_t reported = plain_run(table, table_len, list, list_len, answers, 3 * LIST_WORDS_MAX,
                                  holders, n <= DOMAINS_MAX ? n : 1);
        code = reported & 0xFFFFu;
        calls = reported >> 16;
    }
    char *end = put_first(lines, calls, code);
    for (uint32_t i = 0; i < calls; i++)
        end = put_call(end, i, answers + 3 * i);
    return write_all(lines, end);
}
