/*
 * compare.c: calls the C functions of balkwizu.h on cases that target_cases made, and
 * compares what they return and leave with what the reference implementation does, word by
 * word. Words before, between and after the spaces that are lent must stay as they are.
 *
 * With a C library it reads the cases from standard input; without one semihosting.h
 * starts it and reads the file cases.bin. It prints how many cases and words it compared
 * and returns 0, or prints the first difference and returns 1.
 */
#include <stdint.h>

#include "balkwizu.h"

#if __STDC_HOSTED__
#include <stdio.h>
#define READ_BYTES(to, length) fread(to, 1, length, stdin)
#define PRINT(text) fputs(text, stdout)
#else
#include "semihosting.h"
#endif

#define MARK 0xBA1C0000u
#define GUARD 0xA5C3695Au
enum { SPACES = 4, WORDS_MAX = 65536 };

/* The functions by their indices in a case. */
enum function {
    TABLE_CHECK, RUN, RUN_WORKING, RUN_BY_LENGTH, WHO_REACHES, COMPONENT, POTENTIAL,
    COULD_INFLUENCE, REPAIR, WRITE, TURNS_BEGIN, HAND_IN, TURN, STEP, FUNCTIONS
};

/* The words that a case begins with. */
static struct head {
    uint32_t mark, argument[2], length[SPACES], result[2];
} head;
static uint32_t lent[WORDS_MAX + SPACES + 1], expected[WORDS_MAX], *space[SPACES];
static uint8_t image[4 * WORDS_MAX + 4];
static uint32_t cases, words, called[FUNCTIONS];

static void print_number(const char *before, uint32_t number)
{
    char digits[11] = "", *at = digits + sizeof digits - 1;
    do
        *--at = (char)('0' + number % 10);
    while ((number /= 10) > 0);
    PRINT(before);
    PRINT(at);
}

/* Prints what is wrong in the case, and returns 1. */
static int wrong(const char *what, uint32_t number)
{
    print_number("case ", cases);
    print_number(", function ", head.mark & 0xFFFFu);
    print_number(what, number);
    PRINT("\n");
    return 1;
}

/* Checks an image at the offset of the case: it stands there during the call. */
static uint32_t table_check(uint8_t *bytes, uint8_t *there, uint32_t length)
{
    for (uint32_t i = 0; i < length; i++)
        there[i] = bytes[i];
    uint32_t code = balkwizu_table_check(there, length);
    for (uint32_t i = 0; i < length; i++)
        bytes[i] = there[i];
    return code;
}

#define LENT(i) space[i], head.length[i]
/* The word that a function returns, by itself or in a structure. */
#define WORD(result) (*(const uint32_t *)&(__typeof__(result)[1]){ result })

static uint64_t call(uint32_t function, const uint32_t *argument)
{
    switch (function) {
    case TABLE_CHECK: return table_check((uint8_t *)space[0], image + argument[1], argument[0]);
    case RUN: return WORD(balkwizu_run(LENT(0), LENT(1), LENT(2), LENT(3)));
    case RUN_WORKING: return WORD(balkwizu_run_working(LENT(0), LENT(1), LENT(2), LENT(3)));
    case RUN_BY_LENGTH: return WORD(balkwizu_run_by_length(LENT(0), LENT(1), LENT(2), LENT(3)));
    case WHO_REACHES: return WORD(balkwizu_who_reaches(LENT(0), argument[0]));
    case COMPONENT: return WORD(balkwizu_component(LENT(0), argument[0]));
    case POTENTIAL: return balkwizu_potential(LENT(0), argument[0], LENT(1));
    case COULD_INFLUENCE: return WORD(balkwizu_could_influence(LENT(0), argument[0], argument[1]));
    case REPAIR: return WORD(balkwizu_repair(LENT(0), LENT(1)));
    case WRITE: return (balkwizu_write)(LENT(0), LENT(1));
    case TURNS_BEGIN: return balkwizu_turns_begin(LENT(0), LENT(1), LENT(2));
    case HAND_IN: return balkwizu_hand_in(LENT(0), LENT(1), argument[0], LENT(2));
    case STEP: return balkwizu_step(LENT(0), LENT(1), LENT(2), LENT(3));
    default: return WORD(balkwizu_turn(LENT(0), LENT(1), LENT(2), LENT(3)));
    }
}

/* Reads words, and returns whether all of them are there. */
static int read_words(uint32_t *to, uint32_t count)
{
    return READ_BYTES(to, 4 * (size_t)count) == 4 * (size_t)count;
}

/* Reads the spaces of the case, with a guard before, between and after them. */
static int read_spaces(void)
{
    uint32_t *at = lent, total = 0;
    for (uint32_t i = 0; i < SPACES; i++) {
        if (head.length[i] > WORDS_MAX - total)
            return 0;
        total += head.length[i];
        *at++ = GUARD;
        space[i] = at;
        at += head.length[i];
        if (!read_words(space[i], head.length[i]))
            return 0;
    }
    *at = GUARD;
    return read_words(expected, total);
}

/* Compares the spaces and the guards, and returns 0 where all is as expected. */
static int compare_spaces(void)
{
    const uint32_t *at = expected;
    for (uint32_t i = 0; i < SPACES; i++) {
        if (space[i][-1] != GUARD || space[i][head.length[i]] != GUARD)
            return wrong(": a word is written that isn't lent, beside space ", i);
        for (uint32_t k = 0; k < head.length[i]; k++, words++)
            if (space[i][k] != *at++)
                return wrong(": a word is left that isn't expected, in space ", i);
    }
    return 0;
}

static int compare_case(void)
{
    uint32_t function = head.mark - MARK;
    if (function >= FUNCTIONS || !read_spaces())
        return wrong(": that is no case, after words ", words);
    uint64_t result = call(function, head.argument);
    if (result != ((uint64_t)head.result[1] << 32 | head.result[0]))
        return wrong(": the result isn't as expected, but ", (uint32_t)result);
    called[function]++;
    words += 2;
    return compare_spaces();
}

int main(void)
{
    if (balkwizu_version() != BALKWIZU_VERSION || balkwizu_turns_version() != BALKWIZU_VERSION)
        return wrong(": the archives are of another release, ", balkwizu_version());
    for (; read_words((uint32_t *)&head, sizeof head / 4); cases++)
        if (compare_case() != 0)
            return 1;
    for (uint32_t i = 0; i < FUNCTIONS; i++)
        if (called[i] == 0)
            return wrong(": there is no case of function ", i);
    print_number("", cases);
    print_number(" cases, ", words);
    PRINT(" words\n");
    return 0;
}
