/*
 * header_names.c: every name of balkwizu.h used on document 01's table T and list
 * L, on its edges, and on the largest table, and compared with what document 01, as
 * document 02 changes it, says. Numbers on the right of a comparison are the paper's, written out.
 *
 * It is C11 and C++11. It prints what differs, then how many comparisons were
 * made; the exit status is 0 where nothing differs, else 1.
 */
#include <stdio.h>
#include <string.h>

#include "balkwizu.h"
#include "example.h"

static uint32_t table[BALKWIZU_TABLE_WORDS_MAX];
static uint32_t list[BALKWIZU_LIST_WORDS_MAX + 1];
static uint32_t answers[BALKWIZU_ANSWER_WORDS * BALKWIZU_LIST_WORDS_MAX];
static uint32_t holders[BALKWIZU_DOMAINS_MAX + 1];
static unsigned compared, differ;

/* The three runs, which do the same: what a run does is compared with each. */
static const struct {
    const char *name;
    balkwizu_result (*run)(
        uint32_t *BALKWIZU_RESTRICT table, uint64_t table_len,
        const uint32_t *BALKWIZU_RESTRICT list, uint64_t list_len,
        uint32_t *BALKWIZU_RESTRICT answers, uint64_t answers_len,
        uint32_t *BALKWIZU_RESTRICT holders, uint64_t holders_len) BALKWIZU_NOEXCEPT;
} runs[] = {
    { "balkwizu_run", balkwizu_run },
    { "balkwizu_run_working", balkwizu_run_working },
    { "balkwizu_run_by_length", balkwizu_run_by_length },
};
static size_t in_use; /* the one of the three that runs are made by */

static void is(const char *what, uint64_t found, uint64_t wanted)
{
    compared++;
    if (found == wanted)
        return;
    differ++;
    printf("%s: %lX, not %lX (runs by %s)\n", what, (unsigned long)found,
           (unsigned long)wanted, runs[in_use].name);
}

/* Compares and names a value by the text of its expression. */
#define IS(found, wanted) is(#found, BALKWIZU_WORD(found), BALKWIZU_WORD(wanted))
#define IS_LONG(found, wanted) is(#found, found, wanted) /* 64 bits */
#define IS_WRITTEN(found, wanted) is(#found, (found).number, wanted)
#define IS_RESULT(found, wanted) is(#found, (found).word, BALKWIZU_WORD(wanted))

static void put_table_t(void)
{
    memcpy(table, example_table, sizeof example_table);
}

static balkwizu_result run(size_t table_words, const uint32_t *calls, size_t words)
{
    return runs[in_use].run(table, table_words, calls, words, answers, BALKWIZU_COUNT(answers),
                            holders, balkwizu_table_domains(table));
}

/* L on T, with so many words for answers and holders. */
static balkwizu_result run_l(size_t answer_words, size_t holder_words)
{
    return runs[in_use].run(table, EXAMPLE_TABLE_WORDS,
                            example_list, EXAMPLE_LIST_WORDS,
                            answers, answer_words, holders, holder_words);
}

static uint32_t check(size_t words) BALKWIZU_MUST_USE;
static uint32_t check(size_t words)
{
    return balkwizu_table_check((const uint8_t *)table, 4 * words);
}

static uint32_t code_of(size_t call)
{
    return BALKWIZU_ANSWER_CODE(answers[BALKWIZU_ANSWER_AT(call)]);
}

/* "The length is exactly 1 + n * n + 12 * m words, so at most 641." */
static void limits(void)
{
    IS(BALKWIZU_DOMAINS_MAX, 16);
    IS(BALKWIZU_ENDPOINTS_MAX, 32);
    IS(BALKWIZU_TABLE_WORDS_MAX, 641);
    IS(BALKWIZU_TABLE_WORDS(16, 32), 641);
    IS(BALKWIZU_TABLE_WORDS(3, 2), 34);
    IS(BALKWIZU_LIST_WORDS_MAX, 4096);
    IS(BALKWIZU_ANSWER_WORDS, 3);
    IS(BALKWIZU_ENDPOINT_WORDS, 12);
    IS(BALKWIZU_SLOTS, 8);
    IS(BALKWIZU_LOST_MAX, 268435455);
    IS(BALKWIZU_WORD(-1), 0xFFFFFFFF);
    IS(BALKWIZU_CONTENT(0xFEDCBA98), 0x0EDCBA98);
}

/* Table T by the header's words and places. */
static void words_of_t(void)
{
    const uint32_t *word = example_table + BALKWIZU_ENDPOINT_AT(3, 1);
    IS(BALKWIZU_TABLE_HEADER(3, 2), 0x10000302);
    IS(BALKWIZU_RIGHTS_AT(3, 1, 2), 6);
    IS(BALKWIZU_TABLE_RIGHTS(BALKWIZU_RIGHTS_ALL), 0x2000000F);
    IS(example_table[BALKWIZU_RIGHTS_AT(3, 1, 2)], 0x20000007);
    IS(BALKWIZU_RIGHT_SEND, 1);
    IS(BALKWIZU_RIGHT_GRANT, 2);
    IS(BALKWIZU_RIGHT_REMOVE, 4);
    IS(BALKWIZU_RIGHT_REVOKE, 8);
    IS(BALKWIZU_ENDPOINT_AT(3, 0), 10);
    IS(BALKWIZU_ENDPOINT_AT(3, 1), 22);
    IS(word[BALKWIZU_PLACE_NAME], BALKWIZU_TABLE_NAME(0x12));
    IS(word[BALKWIZU_PLACE_INFO], BALKWIZU_TABLE_INFO(2, 1));
    IS(word[BALKWIZU_PLACE_WAITING], BALKWIZU_TABLE_WAITING(0));
    IS(word[BALKWIZU_PLACE_LOST], BALKWIZU_TABLE_LOST(0));
    IS(word[BALKWIZU_PLACE_SLOTS], BALKWIZU_EMPTY_SLOT);
    IS(BALKWIZU_PLACE_SLOTS, 4);
    IS(BALKWIZU_TABLE_NAME(0x11), 0x30000011);
    IS(BALKWIZU_TABLE_INFO(1, 2), 0x40000102);
    IS(BALKWIZU_TABLE_WAITING(2), 0x50000002);
    IS(BALKWIZU_TABLE_LOST(1), 0x60000001);
    IS(BALKWIZU_TABLE_MESSAGE(6), 0xF0000006);
    IS(BALKWIZU_EMPTY_SLOT, 0xF0000000);
}

/* List L by the header's words. */
static void words_of_l(void)
{
    static const uint32_t paper[] = {
        0x20000100, 0xF0000005, 0x60420001, 0x20000100, 0xF0000005, 0x20000100,
        0xF0000006, 0x30800100, 0x30800100, 0xF0000009, 0x50000000, 0x40800000,
    };
    IS(EXAMPLE_LIST_WORDS, BALKWIZU_COUNT(paper));
    for (size_t i = 0; i < BALKWIZU_COUNT(paper); i++)
        IS(example_list[i], paper[i]);
    IS(BALKWIZU_LOOK_UP(2), 0x10800000);
    IS(BALKWIZU_REMOVE(1, 2, BALKWIZU_RIGHT_REMOVE), 0x70420004); /* P11 */
    IS(BALKWIZU_REVOKE(1, 2, 3, BALKWIZU_RIGHT_REVOKE), 0x80420308);
    IS(BALKWIZU_FIRST(BALKWIZU_KIND_REVOKE, 1, 2, 3, 8), 0x80420308);
}

/* The lines of document 01 for L, call 4 as document 02 (a) has it: caller, kind,
 * code, data. */
static const uint32_t lines_of_l[][5] = {
    { 0, 2, 17, 0, 0 },  { 1, 6, 0, 0, 0 },   { 0, 2, 0, 0, 0 },
    { 0, 2, 0, 0, 0 },   { 2, 3, 0, 6, 1 },   { 2, 3, 19, 0, 0 },
    { 0, 15, 10, 0, 0 }, { 0, 5, 0, 272, 0 }, { 2, 4, 0, 2, 0 },
};

static void answers_to_l(void)
{
    put_table_t();
    balkwizu_result result = run(EXAMPLE_TABLE_WORDS, example_list, EXAMPLE_LIST_WORDS);
    IS(BALKWIZU_RUN_CODE(result), BALKWIZU_OK);
    IS(BALKWIZU_RUN_CALLS(result), BALKWIZU_COUNT(lines_of_l));
    for (size_t i = 0; i < BALKWIZU_COUNT(lines_of_l); i++) {
        const uint32_t *answer = answers + BALKWIZU_ANSWER_AT(i);
        IS(BALKWIZU_ANSWER_CALLER(answer[0]), lines_of_l[i][0]);
        IS(BALKWIZU_ANSWER_KIND(answer[0]), lines_of_l[i][1]);
        IS(BALKWIZU_ANSWER_CODE(answer[0]), lines_of_l[i][2]);
        IS(answer[1], lines_of_l[i][3]);
        IS(answer[2], lines_of_l[i][4]);
    }
    const uint32_t *received = answers + BALKWIZU_ANSWER_AT(4);
    IS(balkwizu_answer_message(received), lines_of_l[4][3]);
    IS(balkwizu_answer_lost(received), 1);
    const uint32_t *rights = answers + BALKWIZU_ANSWER_AT(7);
    IS(balkwizu_answer_rights(rights, 0), 0);
    IS(balkwizu_answer_rights(rights, 1), BALKWIZU_RIGHT_SEND);
    IS(balkwizu_answer_rights(rights, 2), BALKWIZU_RIGHT_SEND);
    const uint32_t *endpoints = answers + BALKWIZU_ANSWER_AT(8);
    IS(balkwizu_answer_owns(endpoints, 0), 0);
    IS(balkwizu_answer_owns(endpoints, 1), 1);
}

/* T after L: domain 0 has SEND on domain 2, and endpoint 1 has lost a message. */
static void table_after_l(void)
{
    IS(balkwizu_table_domains(table), 3);
    IS(balkwizu_table_endpoints(table), 2);
    IS(balkwizu_table_rights(table, 0, 1), 1);
    IS(balkwizu_table_rights(table, 0, 2), 1);
    IS(balkwizu_table_rights(table, 1, 2), 7);
    IS(balkwizu_table_rights(table, 2, 1), 0);
    IS(balkwizu_table_name(table, 0), 0x11);
    IS(balkwizu_table_name(table, 1), 0x12);
    IS(balkwizu_table_owner(table, 0), 1);
    IS(balkwizu_table_owner(table, 1), 2);
    IS(balkwizu_table_capacity(table, 0), 2);
    IS(balkwizu_table_capacity(table, 1), 1);
    IS(balkwizu_table_waiting(table, 1), 0);
    IS(balkwizu_table_lost(table, 0), 0);
    IS(balkwizu_table_lost(table, 1), 1);
    IS(balkwizu_table_word(table, 1, BALKWIZU_PLACE_LOST), 0x60000001);
}

/* A list on what L left, so that messages wait, and P11. */
static void messages_that_wait(void)
{
    static const uint32_t calls[] = {
        BALKWIZU_LOOK_UP(2), BALKWIZU_SECOND(0x12),
        BALKWIZU_SEND(0, 0), BALKWIZU_SECOND(8),
        BALKWIZU_SEND(0, 0), BALKWIZU_SECOND(9),
        BALKWIZU_SEND(0, 1), BALKWIZU_SECOND(7),
        BALKWIZU_REMOVE(1, 2, BALKWIZU_RIGHT_REMOVE),
        BALKWIZU_REMOVE(1, 2, BALKWIZU_RIGHT_REMOVE),
    };
    IS_RESULT(run(EXAMPLE_TABLE_WORDS, calls, BALKWIZU_COUNT(calls)), 0x00060000);
    IS(balkwizu_answer_endpoint(answers), 1);
    IS(code_of(4), 0);
    IS(code_of(5), 22);
    IS(balkwizu_table_rights(table, 1, 2), 3);
    IS(balkwizu_table_waiting(table, 0), 2);
    IS(balkwizu_table_message(table, 0, 0), 8);
    IS(balkwizu_table_message(table, 0, 1), 9);
    IS(balkwizu_table_message(table, 1, 0), 7);
    IS(balkwizu_table_word(table, 0, BALKWIZU_PLACE_SLOTS + 1),
       BALKWIZU_TABLE_MESSAGE(9));
    IS(balkwizu_table_word(table, 1, BALKWIZU_PLACE_SLOTS + 1),
       BALKWIZU_EMPTY_SLOT);
}

/* A call for each code of a call, in their order. For the last, 23, domain 2
 * first gets rights on itself, then gives one to a domain it has none on. */
static void codes_of_calls(void)
{
    static const uint32_t calls[] = {
        BALKWIZU_SECOND(9),
        BALKWIZU_FIRST(9, 0, 0, 0, 0),
        BALKWIZU_MY_RIGHTS(3), /* P9 */
        BALKWIZU_FIRST(BALKWIZU_KIND_MY_ENDPOINTS, 0, 1, 0, 0),
        BALKWIZU_FIRST(BALKWIZU_KIND_LOOK_UP, 0, 0, 0, 0),
        BALKWIZU_LOOK_UP(0), BALKWIZU_SECOND(0x13),
        BALKWIZU_FIRST(BALKWIZU_KIND_RECEIVE, 2, 0, 2, 0),
        BALKWIZU_FIRST(BALKWIZU_KIND_SEND, 2, 0, 1, 0), /* the owner itself */
        BALKWIZU_FIRST(BALKWIZU_KIND_SECOND, 0, 0, 0, 1),
        BALKWIZU_RECEIVE(1, 1),
        BALKWIZU_RECEIVE(2, 1),
        BALKWIZU_FIRST(BALKWIZU_KIND_REMOVE, 1, 3, 0, 1),
        BALKWIZU_FIRST(BALKWIZU_KIND_GRANT, 1, 2, 0, 0),
        BALKWIZU_GRANT(0, 1, 0, BALKWIZU_RIGHT_SEND),
        BALKWIZU_GRANT(1, 2, 2, 7),
        BALKWIZU_GRANT(2, 2, 0, BALKWIZU_RIGHT_SEND),
        BALKWIZU_FIRST(BALKWIZU_KIND_MY_RIGHTS, 2, 0, 0, 0),
        BALKWIZU_MY_ENDPOINTS(1),
    };
    static const uint32_t codes[] = {
        BALKWIZU_STRAY,           BALKWIZU_UNKNOWN_KIND,    BALKWIZU_UNKNOWN_CALLER,
        BALKWIZU_UNUSED_FIELD,    BALKWIZU_NO_SECOND_WORD,  BALKWIZU_NO_SUCH_NAME,
        BALKWIZU_NO_SUCH_ENDPOINT, BALKWIZU_MAY_NOT_SEND,   BALKWIZU_NOT_OWNER,
        BALKWIZU_NOTHING_WAITING, BALKWIZU_CALL_BAD_DOMAIN,  BALKWIZU_BAD_RIGHTS,
        BALKWIZU_LACKS_RIGHT,     BALKWIZU_OK,              BALKWIZU_MAY_NOT_GIVE,
        BALKWIZU_OK,              BALKWIZU_OK,
    };
    put_table_t();
    IS(BALKWIZU_RUN_CALLS(run(EXAMPLE_TABLE_WORDS, calls, BALKWIZU_COUNT(calls))),
       BALKWIZU_COUNT(codes));
    for (size_t i = 0; i < BALKWIZU_COUNT(codes); i++)
        IS(code_of(i), codes[i]);
    for (uint32_t i = 0; i < 13; i++)
        IS(codes[i], 10 + i);
    IS(codes[14], 23);
    IS(balkwizu_answer_rights(answers + BALKWIZU_ANSWER_AT(15), 2), 7);
    IS(balkwizu_answer_owns(answers + BALKWIZU_ANSWER_AT(16), 0), 1);
}

/* Each field at its largest number and one beyond it, which no other field takes. */
static void fields_beyond_their_bits(void)
{
    IS(BALKWIZU_BAD_WORD, 0x0FC00000);
    IS(BALKWIZU_BEYOND(255, 8), 0);
    IS(BALKWIZU_BEYOND(256, 8), 1);
    IS(BALKWIZU_FIRST(15, 63, 63, 255, 255), 0xFFFFFFFF);
    IS(BALKWIZU_FIRST(16, 0, 0, 0, 0), BALKWIZU_BAD_WORD);
    IS(BALKWIZU_LOOK_UP(64), BALKWIZU_BAD_WORD);
    IS(BALKWIZU_SEND(64, 0), BALKWIZU_BAD_WORD);
    IS(BALKWIZU_SEND(0, 256), BALKWIZU_BAD_WORD);
    IS(BALKWIZU_RECEIVE(64, 0), BALKWIZU_BAD_WORD);
    IS(BALKWIZU_RECEIVE(0, 256), BALKWIZU_BAD_WORD);
    IS(BALKWIZU_MY_ENDPOINTS(64), BALKWIZU_BAD_WORD);
    IS(BALKWIZU_MY_RIGHTS(64), BALKWIZU_BAD_WORD);
    IS(BALKWIZU_GRANT(0, 64, 0, 1), BALKWIZU_BAD_WORD); /* not domain 1's grant */
    IS(BALKWIZU_GRANT(1, 0, 0, 1), 0x60400001);
    IS(BALKWIZU_GRANT(0, 0, 256, 1), BALKWIZU_BAD_WORD);
    IS(BALKWIZU_GRANT(0, 0, 0, 256), BALKWIZU_BAD_WORD);
    IS(BALKWIZU_REMOVE(0, 64, 1), BALKWIZU_BAD_WORD);
    IS(BALKWIZU_REMOVE(0, 0, 256), BALKWIZU_BAD_WORD);
    IS(BALKWIZU_REVOKE(0, 64, 0, 1), BALKWIZU_BAD_WORD);
    IS(BALKWIZU_REVOKE(0, 0, 256, 1), BALKWIZU_BAD_WORD);
    IS(BALKWIZU_REVOKE(0, 0, 0, 256), BALKWIZU_BAD_WORD);
    IS(BALKWIZU_SECOND(0x0FFFFFFF), 0xFFFFFFFF);
    IS(BALKWIZU_SECOND(0x10000000), BALKWIZU_BAD_WORD);
    IS(BALKWIZU_SEND(-1, 0), BALKWIZU_BAD_WORD);
    IS(BALKWIZU_MY_RIGHTS(UINT64_C(1) << 32), BALKWIZU_BAD_WORD); /* not cut to 0 */
}

/* The same of a table's words. */
static void table_fields_beyond_their_bits(void)
{
    IS(BALKWIZU_TABLE_HEADER(255, 255), 0x1000FFFF);
    IS(BALKWIZU_TABLE_HEADER(256, 0), BALKWIZU_BAD_WORD);
    IS(BALKWIZU_TABLE_HEADER(1, 256), BALKWIZU_BAD_WORD);
    IS(BALKWIZU_TABLE_INFO(0, 258), BALKWIZU_BAD_WORD); /* not owner 1, capacity 2 */
    IS(BALKWIZU_TABLE_INFO(256, 1), BALKWIZU_BAD_WORD);
    IS(BALKWIZU_TABLE_RIGHTS(0x20000001), BALKWIZU_BAD_WORD);
    IS(BALKWIZU_TABLE_NAME(0x10000000), BALKWIZU_BAD_WORD);
    IS(BALKWIZU_TABLE_WAITING(0x10000000), BALKWIZU_BAD_WORD);
    IS(BALKWIZU_TABLE_LOST(-1), BALKWIZU_BAD_WORD);
    IS(BALKWIZU_TABLE_MESSAGE(0x10000000), BALKWIZU_BAD_WORD);
    IS(BALKWIZU_WORD_OF(7, 0x0FFFFFFF), 0x7FFFFFFF);
    IS(BALKWIZU_WORD_OF_TWO(7, 1, 2), 0x70000102);
}

/* T with one word replaced: what the check says. */
static uint32_t check_with(size_t place, uint32_t word)
{
    put_table_t();
    table[place] = word;
    return check(EXAMPLE_TABLE_WORDS);
}

/* What a run and the check make of such words, as the header says it. */
static void bad_words_are_refused(void)
{
    static const uint32_t calls[] = {
        BALKWIZU_GRANT(0, 64, 0, 1),
        BALKWIZU_SEND(0, 256), BALKWIZU_SECOND(5), /* the second word is a stray */
        BALKWIZU_SEND(0, 0), BALKWIZU_SECOND(-1),  /* there is no second word */
        BALKWIZU_MY_RIGHTS(0),
    };
    static const uint32_t codes[] = { 11, 11, 10, 14, 11, 0 };
    put_table_t();
    IS(BALKWIZU_RUN_CALLS(run(EXAMPLE_TABLE_WORDS, calls, BALKWIZU_COUNT(calls))), BALKWIZU_COUNT(codes));
    for (size_t i = 0; i < BALKWIZU_COUNT(codes); i++)
        IS(code_of(i), codes[i]);
    IS(memcmp(table, example_table, sizeof example_table), 0);
    IS(check_with(0, BALKWIZU_TABLE_HEADER(256 + 3, 2)), BALKWIZU_TABLE_BAD_HEADER);
    IS(check_with(9, BALKWIZU_TABLE_RIGHTS(-1)), BALKWIZU_TABLE_BAD_RIGHTS);
    IS(check_with(11, BALKWIZU_TABLE_INFO(0, 258)), BALKWIZU_TABLE_BAD_ENDPOINT);
    IS(check_with(14, BALKWIZU_TABLE_MESSAGE(-1)), BALKWIZU_TABLE_BAD_ENDPOINT);
}

/* The edges P1 to P8 and P10, and a list that is too long. */
static void edges(void)
{
    static const uint32_t p8[] = { BALKWIZU_SEND(0, 1) };
    static const uint32_t p10[] = { BALKWIZU_REMOVE(1, 2, 3) };
    put_table_t();
    IS(check(EXAMPLE_TABLE_WORDS), BALKWIZU_OK);
    IS_RESULT(run(EXAMPLE_TABLE_WORDS, list, 0), 0);
    IS_RESULT(run_l(26, 3), BALKWIZU_WRONG_SPACE);
    IS_RESULT(run_l(27, 2), BALKWIZU_WRONG_SPACE);
    IS_RESULT(run_l(27, 4), BALKWIZU_WRONG_SPACE);
    IS_RESULT(run_l(27, 3), 0x00090000);
    IS(check(33), BALKWIZU_TABLE_BAD_LENGTH);
    IS(check_with(0, 0x10001101), BALKWIZU_TABLE_BAD_HEADER);
    IS(check_with(0, 0x10000002), BALKWIZU_TABLE_BAD_HEADER);
    IS(check_with(9, 0x2000000F), BALKWIZU_OK);
    IS(check_with(9, 0x20000010), BALKWIZU_TABLE_BAD_RIGHTS);
    IS(check_with(24, 0x50000002), BALKWIZU_TABLE_BAD_ENDPOINT);
    put_table_t();
    run(EXAMPLE_TABLE_WORDS, p8, BALKWIZU_COUNT(p8));
    IS(code_of(0), 14);
    run(EXAMPLE_TABLE_WORDS, p10, BALKWIZU_COUNT(p10));
    IS(code_of(0), 0);
    IS(balkwizu_table_rights(table, 1, 2), BALKWIZU_RIGHT_REMOVE);
    IS_RESULT(run(EXAMPLE_TABLE_WORDS, list, BALKWIZU_COUNT(list)), BALKWIZU_LIST_TOO_LONG);
    IS(BALKWIZU_LIST_TOO_LONG, 1);
    IS(BALKWIZU_TABLE_BAD_HEADER, 2);
    IS(BALKWIZU_TABLE_BAD_LENGTH, 3);
    IS(BALKWIZU_TABLE_BAD_RIGHTS, 4);
    IS(BALKWIZU_TABLE_BAD_ENDPOINT, 5);
    IS(BALKWIZU_WRONG_SPACE, 6);
}

/* The largest table: domain 15 owns endpoint 31, whose queue is full and whose
 * lost count is at its top, and has another set of rights on each domain. */
static void put_largest_table(void)
{
    table[0] = BALKWIZU_TABLE_HEADER(BALKWIZU_DOMAINS_MAX, BALKWIZU_ENDPOINTS_MAX);
    for (int holder = 0; holder < 16; holder++)
        for (int target = 0; target < 16; target++)
            table[BALKWIZU_RIGHTS_AT(16, holder, target)] =
                BALKWIZU_TABLE_RIGHTS(holder == 15 ? target : 0);
    for (int e = 0; e < 32; e++) {
        uint32_t *word = table + BALKWIZU_ENDPOINT_AT(16, e);
        word[BALKWIZU_PLACE_NAME] = BALKWIZU_TABLE_NAME(1 + e);
        word[BALKWIZU_PLACE_INFO] = BALKWIZU_TABLE_INFO(e / 2, 8);
        word[BALKWIZU_PLACE_WAITING] = BALKWIZU_TABLE_WAITING(8);
        word[BALKWIZU_PLACE_LOST] = BALKWIZU_TABLE_LOST(BALKWIZU_LOST_MAX);
        for (int slot = 0; slot < BALKWIZU_SLOTS; slot++)
            word[BALKWIZU_PLACE_SLOTS + slot] =
                BALKWIZU_TABLE_MESSAGE(10 * e + slot);
    }
}

static void largest_table(void)
{
    static const uint32_t calls[] = {
        BALKWIZU_MY_RIGHTS(15),
        BALKWIZU_MY_ENDPOINTS(15),
        BALKWIZU_SEND(15, 31), BALKWIZU_SECOND(1), /* the queue is full: 0 */
        BALKWIZU_REVOKE(15, 14, 15, BALKWIZU_RIGHT_GRANT), /* of its own */
        BALKWIZU_REVOKE(15, 14, 13, BALKWIZU_RIGHT_SEND), /* 13 hasn't got it */
        BALKWIZU_REVOKE(15, 7, 15, BALKWIZU_RIGHT_SEND), /* 7 is no REVOKE: 22 */
    };
    put_largest_table();
    IS(check(BALKWIZU_TABLE_WORDS_MAX), 0);
    IS_RESULT(run(BALKWIZU_TABLE_WORDS_MAX, calls, BALKWIZU_COUNT(calls)), 0x00060000);
    for (uint32_t target = 0; target < 16; target++) {
        IS(balkwizu_answer_rights(answers, target), target);
        IS(balkwizu_table_rights(table, 15, target), target == 14 ? 12 : target);
    }
    IS(balkwizu_answer_owns(answers + BALKWIZU_ANSWER_AT(1), 29), 0);
    IS(balkwizu_answer_owns(answers + BALKWIZU_ANSWER_AT(1), 30), 1);
    IS(balkwizu_answer_owns(answers + BALKWIZU_ANSWER_AT(1), 31), 1);
    IS(code_of(2), 0);
    IS(code_of(3), 0);
    IS(code_of(4), 0);
    IS(code_of(5), 22);
    IS(balkwizu_table_domains(table), 16);
    IS(balkwizu_table_endpoints(table), 32);
    IS(balkwizu_table_owner(table, 31), 15);
    IS(balkwizu_table_capacity(table, 31), 8);
    IS(balkwizu_table_waiting(table, 31), 8);
    IS(balkwizu_table_lost(table, 31), 268435455);
    IS(balkwizu_table_message(table, 30, 7), 307);
    IS(balkwizu_table_message(table, 31, 0), 311); /* 310, the oldest, is gone */
    IS(balkwizu_table_message(table, 31, 7), 1);
}

/* On T domains 0 and 1 are joined, and 1 and 2; 2 has no right itself. */
static balkwizu_result component(size_t words, uint32_t domain)
{
    return balkwizu_component(table, words, domain);
}

static void components_of_t(void)
{
    put_table_t();
    IS_RESULT(component(EXAMPLE_TABLE_WORDS, 2), 0x00070000);
    IS_RESULT(component(EXAMPLE_TABLE_WORDS, 3), BALKWIZU_BAD_QUESTION);
    IS(BALKWIZU_BAD_QUESTION, 32);
    IS_RESULT(component(33, 0), BALKWIZU_TABLE_BAD_LENGTH);
    table[BALKWIZU_RIGHTS_AT(3, 1, 2)] = BALKWIZU_TABLE_RIGHTS(0);
    balkwizu_result apart = component(EXAMPLE_TABLE_WORDS, 0);
    IS(BALKWIZU_COMPONENT_CODE(apart), BALKWIZU_OK);
    IS(balkwizu_may_be_in_component(apart, 0), 1);
    IS(balkwizu_may_be_in_component(apart, 1), 1);
    IS(balkwizu_may_be_in_component(apart, 2), 0);
    IS_RESULT(component(EXAMPLE_TABLE_WORDS, 2), 0x00040000);
}

/* The holders of T, by the function that fills them and by an empty list, and after a
 * repair that took all rights on domain 2 away. */
static void holders_filled(void)
{
    uint32_t filled[3], changes[2];
    put_table_t();
    memset(filled, 0xFF, sizeof filled);
    IS(balkwizu_fill_holders(table, EXAMPLE_TABLE_WORDS, filled, 2), BALKWIZU_WRONG_SPACE);
    IS(balkwizu_fill_holders(table, 33, filled, 3), BALKWIZU_TABLE_BAD_LENGTH);
    IS(filled[0], 0xFFFFFFFF);
    IS(balkwizu_fill_holders(table, EXAMPLE_TABLE_WORDS, filled, 3), BALKWIZU_OK);
    IS_RESULT(run(EXAMPLE_TABLE_WORDS, list, 0), 0);
    IS(memcmp(filled, holders, sizeof filled), 0);
    IS(memcmp(table, example_table, sizeof example_table), 0);
    table[BALKWIZU_RIGHTS_AT(3, 1, 2)] = 0;
    IS(balkwizu_fill_holders(table, EXAMPLE_TABLE_WORDS, filled, 3), BALKWIZU_TABLE_BAD_RIGHTS);
    IS_RESULT(balkwizu_repair(table, EXAMPLE_TABLE_WORDS, changes, 2), 0x00010000);
    IS_RESULT(balkwizu_who_reaches(filled, 3, 2), 0x00070000); /* of before */
    IS(balkwizu_fill_holders(table, EXAMPLE_TABLE_WORDS, filled, 3), BALKWIZU_OK);
    IS_RESULT(balkwizu_who_reaches(filled, 3, 2), 0x00040000);
}

/* The holders of T, after an empty list and after L, which gives 0 a right on 2: on T 0
 * and 1 have rights on each other and 1 has some on 2. */
static void holders_of_t(void)
{
    put_table_t();
    memset(holders, 0xFF, sizeof holders);
    IS_RESULT(run(EXAMPLE_TABLE_WORDS, list, 0), 0);
    IS(holders[0], 2);
    IS(holders[1], 1);
    IS(holders[2], 2);
    IS(holders[3], 0xFFFFFFFF);
    IS_RESULT(balkwizu_who_reaches(holders, 3, 2), 0x00070000);
    IS_RESULT(run_l(27, 3), 0x00090000);
    IS(holders[2], 3);
    balkwizu_result reached = balkwizu_who_reaches(holders, 3, 0);
    IS(BALKWIZU_REACHES_CODE(reached), BALKWIZU_OK);
    IS(balkwizu_may_reach(reached, 0), 1);
    IS(balkwizu_may_reach(reached, 1), 1);
    IS(balkwizu_may_reach(reached, 2), 0);
    IS_RESULT(balkwizu_who_reaches(holders, 3, 3), BALKWIZU_BAD_QUESTION);
    IS_RESULT(balkwizu_who_reaches(holders, 1, 0), BALKWIZU_BAD_QUESTION); /* bit 1 of one */
    IS_RESULT(balkwizu_who_reaches(holders, 0, 0), BALKWIZU_BAD_QUESTION);
}

/* On T domain 1 has SEND on 0 and SEND, GRANT and REMOVE on 2: it could give 0 these
 * and have no more itself; if it doesn't act, nothing comes about. */
static void potential_of_t(void)
{
    uint32_t rights[9];
    put_table_t();
    IS(balkwizu_potential(table, EXAMPLE_TABLE_WORDS, 7, rights, 9), BALKWIZU_OK);
    IS(rights[BALKWIZU_POTENTIAL_AT(3, 0, 2)], 7);
    IS(rights[BALKWIZU_POTENTIAL_AT(3, 1, 2)], 7);
    IS(rights[BALKWIZU_POTENTIAL_AT(3, 0, 1)], 1);
    IS(balkwizu_potential(table, EXAMPLE_TABLE_WORDS, 5, rights, 9), BALKWIZU_OK);
    IS(rights[BALKWIZU_POTENTIAL_AT(3, 0, 2)], 0);
    IS(balkwizu_potential(table, EXAMPLE_TABLE_WORDS, 8, rights, 9),
       BALKWIZU_BAD_QUESTION);
    IS(balkwizu_potential(table, EXAMPLE_TABLE_WORDS, 8, rights, 8), 6);
    IS(balkwizu_potential(table, 33, 8, rights, 8), BALKWIZU_TABLE_BAD_LENGTH);
}

/* On T nobody could influence 0 and 1 but these two, and all could influence 2; where 1
 * doesn't act, 0 can't. */
static balkwizu_result could_influence(size_t words, uint32_t actors, uint32_t domain)
{
    return balkwizu_could_influence(table, words, actors, domain);
}

static void influence_of_t(void)
{
    put_table_t();
    IS_RESULT(could_influence(EXAMPLE_TABLE_WORDS, 7, 2), 0x00070000);
    balkwizu_result first = could_influence(EXAMPLE_TABLE_WORDS, 7, 0);
    IS(BALKWIZU_INFLUENCE_CODE(first), BALKWIZU_OK);
    IS(balkwizu_may_influence(first, 0), 1);
    IS(balkwizu_may_influence(first, 1), 1);
    IS(balkwizu_may_influence(first, 2), 0);
    IS_RESULT(could_influence(EXAMPLE_TABLE_WORDS, 5, 2), 0x00040000);
    IS_RESULT(could_influence(EXAMPLE_TABLE_WORDS, 5, 1), 0x00030000);
    IS_RESULT(could_influence(EXAMPLE_TABLE_WORDS, 7, 3), BALKWIZU_BAD_QUESTION);
    IS_RESULT(could_influence(EXAMPLE_TABLE_WORDS, 8, 2), BALKWIZU_BAD_QUESTION);
    IS_RESULT(could_influence(33, 8, 3), BALKWIZU_TABLE_BAD_LENGTH);
}

/* T with a broken rights word and more waiting than there is room for, and T with a
 * broken name too. */
static void repair_of_t(void)
{
    uint32_t changes[BALKWIZU_CHANGES_WORDS_MAX];
    IS(check_with(6, 0x20000010), BALKWIZU_TABLE_BAD_RIGHTS);
    table[24] = 0x50000002;
    IS_RESULT(balkwizu_repair(table, EXAMPLE_TABLE_WORDS, changes, 3),
       BALKWIZU_CHANGES_TOO_SHORT);
    balkwizu_result result = balkwizu_repair(table, EXAMPLE_TABLE_WORDS, changes, 4);
    IS(BALKWIZU_REPAIR_CODE(result), BALKWIZU_OK);
    IS(BALKWIZU_REPAIR_ALTERED(result), 2);
    IS(changes[0], 6);
    IS(changes[1], 0x20000010);
    IS(changes[2], 24);
    IS(changes[3], 0x50000002);
    IS(table[6], 0x20000000);
    IS(table[24], 0x50000000);
    IS(check(EXAMPLE_TABLE_WORDS), BALKWIZU_OK);
    table[10] = 0x30000000;
    IS_RESULT(balkwizu_repair(table, EXAMPLE_TABLE_WORDS, changes, 0),
       BALKWIZU_NOT_REPAIRABLE);
    IS(BALKWIZU_NOT_REPAIRABLE, 33);
    IS(BALKWIZU_CHANGES_TOO_SHORT, 34);
    IS(BALKWIZU_CHANGES_WORDS_MAX, 1152); /* 256 rights words, 10 for each of 32 */
}

/* The calls of L but for its stray, in columns, and what is written of them into a
 * space of so many words. */
static const uint32_t calls_of_l[][BALKWIZU_CALL_COLUMNS] = {
    { BALKWIZU_KIND_SEND, 0, 0, 1, 5 },
    { BALKWIZU_KIND_GRANT, 1, 2, 0, BALKWIZU_RIGHT_SEND },
    { BALKWIZU_KIND_SEND, 0, 0, 1, 5 },
    { BALKWIZU_KIND_SEND, 0, 0, 1, 6 },
    { BALKWIZU_KIND_RECEIVE, 2, 0, 1, 0 },
    { BALKWIZU_KIND_RECEIVE, 2, 0, 1, 0 },
    { BALKWIZU_KIND_MY_RIGHTS, 0, 0, 0, 0 },
    { BALKWIZU_KIND_MY_ENDPOINTS, 2, 0, 0, 0 },
};

static balkwizu_written write_l(size_t columns, size_t space)
{
    memset(list, 0x77, sizeof list);
    return balkwizu_write((const uint32_t *)calls_of_l, columns, list, space);
}

static void list_l_written(void)
{
    size_t columns = sizeof calls_of_l / sizeof *calls_of_l[0];
    IS(BALKWIZU_CALL_COLUMNS, 5);
    balkwizu_written result = write_l(columns, 12);
    IS(BALKWIZU_WRITE_CODE(result), BALKWIZU_OK);
    IS_LONG(BALKWIZU_WRITE_NUMBER(result), 11);
    for (size_t i = 0; i < 11; i++)
        IS(list[i], example_list[i < 9 ? i : i + 1]); /* the stray is word 9 */
    IS(list[11], 0x77777777);
    IS_WRITTEN(write_l(columns, 11), 11);
    IS_WRITTEN(write_l(columns, 10), 4097);
    IS(list[0], 0x77777777);
    IS_WRITTEN(write_l(columns - 1, 10), 4098 + 7); /* four words left over: 30, not 31 */
    IS(list[0], 0x77777777);
    IS_WRITTEN(write_l(0, 0), 0);
    IS(BALKWIZU_BAD_CALL, 30);
    IS(BALKWIZU_WRITTEN_TOO_LONG, 31);
}

/* One call in columns: the result, and its words where it is written. */
static balkwizu_written write_one(uint32_t kind, uint32_t caller, uint32_t a, uint32_t b,
                          uint32_t last)
{
    const uint32_t call[BALKWIZU_CALL_COLUMNS] = { kind, caller, a, b, last };
    return balkwizu_write(call, BALKWIZU_CALL_COLUMNS, list, BALKWIZU_COUNT(list));
}

static void calls_written(void)
{
    IS_WRITTEN(write_one(BALKWIZU_KIND_LOOK_UP, 63, 0, 0, 0x0FFFFFFF), 2);
    IS(list[0], BALKWIZU_LOOK_UP(63));
    IS(list[1], BALKWIZU_SECOND(0x0FFFFFFF));
    IS_WRITTEN(write_one(BALKWIZU_KIND_REMOVE, 1, 2, 0, BALKWIZU_RIGHT_REMOVE), 1);
    IS(list[0], 0x70420004); /* P11 */
    IS_WRITTEN(write_one(BALKWIZU_KIND_REVOKE, 63, 63, 255, 255), 1);
    IS(list[0], 0x8FFFFFFF);
    IS_WRITTEN(write_one(BALKWIZU_KIND_MY_RIGHTS, 64, 0, 0, 0), 4098);
    IS_WRITTEN(write_one(BALKWIZU_KIND_GRANT, 0, 64, 0, 1), 4098);
    IS_WRITTEN(write_one(BALKWIZU_KIND_RECEIVE, 0, 0, 256, 0), 4098);
    IS_WRITTEN(write_one(BALKWIZU_KIND_SEND, 0, 0, 0, 0x10000000), 4098);
    IS_WRITTEN(write_one(BALKWIZU_KIND_RECEIVE, 0, 0, 0, 1), 4098);
    IS_WRITTEN(write_one(BALKWIZU_KIND_SECOND, 0, 0, 0, 0), 4098);
    IS_WRITTEN(write_one(0, 0, 0, 0, 0), 4098);
    IS_WRITTEN(write_one(9, 0, 0, 0, 0), 4098);
    IS(list[0], 0x8FFFFFFF); /* as the last that was written left it */
}

/* What is written, taken apart on both sides of each limit. */
static void results_written(void)
{
    static const uint64_t results[][3] = {
        { 0, 0, 0 }, { 1, 0, 1 }, { 4095, 0, 4095 }, { 4096, 0, 4096 },
        { 4097, 31, 0 }, { 4098, 30, 0 }, { 4099, 30, 1 }, { 69633, 30, 65535 },
        { 69634, 30, 65536 }, { UINT64_MAX, 30, UINT64_MAX - 4098 },
    };
    for (size_t i = 0; i < BALKWIZU_COUNT(results); i++) {
        balkwizu_written result = balkwizu_as_written(results[i][0]);
        IS_LONG(balkwizu_write_code(result), results[i][1]);
        IS_LONG(balkwizu_write_number(result), results[i][2]);
    }
}

/* A bad call behind 65,536 good ones. */
static void bad_call_above_65535(void)
{
    static uint32_t calls[65537][BALKWIZU_CALL_COLUMNS];
    for (size_t i = 0; i < BALKWIZU_COUNT(calls); i++)
        calls[i][0] = BALKWIZU_KIND_MY_RIGHTS;
    size_t columns = BALKWIZU_COUNT(calls) * BALKWIZU_CALL_COLUMNS;
    IS_WRITTEN(balkwizu_write(calls[0], columns, list, BALKWIZU_COUNT(list)), 4097);
    calls[65536][1] = 64;
    IS_WRITTEN(balkwizu_write(calls[0], columns, list, BALKWIZU_COUNT(list)), 4098 + 65536);
}

/* Turns on T, which has three domains: a state of 52 words. */
static uint32_t state[BALKWIZU_TURNS_WORDS_MAX + 1];

static uint32_t hand_in(size_t words, uint32_t domain, const uint32_t *call, size_t len)
{
    return balkwizu_hand_in(table, EXAMPLE_TABLE_WORDS, state, words, domain, call, len);
}

static balkwizu_result turn(size_t words, size_t holder_words, size_t answer_words)
{
    return balkwizu_turn(table, EXAMPLE_TABLE_WORDS, state, words, holders, holder_words,
                         answers, answer_words);
}

static uint32_t begin(size_t words, size_t holder_words)
{
    return balkwizu_turns_begin(table, EXAMPLE_TABLE_WORDS, state, words, holders, holder_words);
}

static void begin_on_t(void)
{
    put_table_t();
    memset(state, 0x77, sizeof state);
    memset(holders, 0x77, sizeof holders);
    memset(answers, 0x77, sizeof answers);
    IS(begin(BALKWIZU_TURNS_WORDS(3), 3), BALKWIZU_OK);
}

/* A step on T, with so many words of a call and for its answer and the holders. */
static uint32_t step(size_t holder_words, const uint32_t *call, size_t words, size_t space)
{
    return balkwizu_step(table, EXAMPLE_TABLE_WORDS, holders, holder_words, call, words,
                         answers, space);
}

/* L on T call by call: the answers, the holders and the table are those of the run. */
static void steps_of_l(void)
{
    static uint32_t of_run[EXAMPLE_TABLE_WORDS];
    put_table_t();
    IS_RESULT(run_l(27, 3), 0x00090000);
    memcpy(of_run, table, sizeof of_run);
    put_table_t();
    for (size_t i = 0, call = 0; i < EXAMPLE_LIST_WORDS; call++) {
        size_t words = i + 1 < EXAMPLE_LIST_WORDS && example_list[i] >> 28 == 2 ? 2 : 1;
        memset(answers, 0x77, sizeof answers);
        memset(holders, 0x77, sizeof holders);
        IS(step(3, example_list + i, words, 4), BALKWIZU_OK);
        IS(BALKWIZU_ANSWER_CALLER(answers[0]), lines_of_l[call][0]);
        IS(BALKWIZU_ANSWER_KIND(answers[0]), lines_of_l[call][1]);
        IS(BALKWIZU_ANSWER_CODE(answers[0]), lines_of_l[call][2]);
        IS(answers[1], lines_of_l[call][3]);
        IS(answers[2], lines_of_l[call][4]);
        IS(answers[3], 0x77777777);
        IS(holders[2], call < 1 ? 2 : 3); /* the grant is call 1 */
        i += words;
    }
    IS(memcmp(table, of_run, sizeof of_run), 0);
}

/* What a step refuses, in the order of its codes: nothing is written. */
static void steps_refused(void)
{
    static const uint32_t call[] = { BALKWIZU_SEND(0, 0), BALKWIZU_SECOND(8), 0 };
    put_table_t();
    memset(answers, 0x77, sizeof answers);
    memset(holders, 0x77, sizeof holders);
    IS(step(3, call, 0, 2), BALKWIZU_NOT_ONE_CALL);
    IS(step(3, call, 3, 2), BALKWIZU_NOT_ONE_CALL);
    IS(step(3, call + 1, 2, 3), BALKWIZU_NOT_ONE_CALL); /* a stray, and another */
    IS(step(2, call, 2, 2), BALKWIZU_WRONG_SPACE);
    IS(step(2, call, 2, 3), BALKWIZU_WRONG_SPACE);
    IS(step(4, call, 2, 3), BALKWIZU_WRONG_SPACE);
    IS(memcmp(table, example_table, sizeof example_table), 0);
    table[9] = 0x20000010; /* P6 */
    IS(step(2, call, 2, 2), BALKWIZU_WRONG_SPACE);
    IS(step(2, call, 2, 3), BALKWIZU_TABLE_BAD_RIGHTS);
    IS(answers[0], 0x77777777);
    IS(holders[0], 0x77777777);
    put_table_t();
    IS(step(3, call, 1, 3), BALKWIZU_OK); /* without its second word: 14 */
    IS(answers[0], 0x2000000E);
    IS(step(3, call + 1, 1, 3), BALKWIZU_OK); /* a stray: 10 */
    IS(answers[0], 0xF000000A);
}

static void words_of_turns(void)
{
    IS(BALKWIZU_PENDING_WORDS, 16);
    IS(BALKWIZU_TURNS_WORDS(3), 52);
    IS(BALKWIZU_TURNS_WORDS_MAX, 273);
    IS(BALKWIZU_TURNS_WORDS(BALKWIZU_DOMAINS_MAX), 273);
    IS(BALKWIZU_TURNS_COUNT_AT(0), 1);
    IS(BALKWIZU_TURNS_COUNT_AT(2), 35);
    begin_on_t();
    for (size_t i = 0; i < 52; i++)
        IS(state[i], 0);
    IS(state[52], 0x77777777);
    IS(holders[0], 2); /* what T says, before the first call */
    IS(holders[1], 1);
    IS(holders[2], 2);
    IS(balkwizu_turns_version(), BALKWIZU_VERSION);
}

/* Domain 1 hands in a grant to domain 0, and domain 0 a send and a look up alone. */
static void turns_of_t(void)
{
    static const uint32_t grant[] = { BALKWIZU_GRANT(1, 2, 0, BALKWIZU_RIGHT_SEND) };
    static const uint32_t send[] = { BALKWIZU_SEND(0, 1), BALKWIZU_SECOND(5) };
    static const uint32_t alone[] = { BALKWIZU_LOOK_UP(0) };
    begin_on_t();
    memset(holders, 0x77, sizeof holders);
    IS_RESULT(turn(52, 3, 3), 0); /* idle: nothing is written */
    IS_RESULT(turn(52, 3, 0), 0); /* and no space for an answer is needed */
    IS(answers[0], 0x77777777);
    IS(holders[0], 0x77777777);
    IS(hand_in(52, 1, grant, 1), BALKWIZU_OK);
    IS(hand_in(52, 0, send, 2), BALKWIZU_OK);
    IS(hand_in(52, 0, alone, 1), BALKWIZU_OK);
    IS(state[BALKWIZU_TURNS_COUNT_AT(0)], 3);
    IS(state[BALKWIZU_TURNS_COUNT_AT(1) + 1], 0x60420001);
    balkwizu_result result = turn(52, 3, 4);
    IS(BALKWIZU_TURN_CODE(result), BALKWIZU_OK);
    IS(BALKWIZU_TURN_SERVED(result), 1);
    IS(answers[0], 0x20000011); /* before the grant: 17 */
    IS(answers[3], 0x77777777);
    IS(holders[2], 2);
    IS(state[0], 1);
    IS_RESULT(turn(52, 3, 3), 0x00010000); /* the grant */
    IS(answers[0], 0x60400000);
    IS(holders[2], 3);
    IS_RESULT(turn(52, 3, 3), 0x00010000); /* the look up, without its second word: 14 */
    IS(answers[0], 0x1000000E);
    IS(state[BALKWIZU_TURNS_COUNT_AT(0)], 0);
    IS_RESULT(turn(52, 3, 3), 0);
}

static void turns_refused(void)
{
    static const uint32_t call[] = { BALKWIZU_MY_RIGHTS(1), BALKWIZU_SECOND(0) };
    begin_on_t();
    IS(hand_in(52, 3, call, 1), BALKWIZU_HAND_IN_BAD_DOMAIN);
    IS(hand_in(51, 3, call, 2), BALKWIZU_HAND_IN_BAD_DOMAIN);
    IS(hand_in(51, 2, call, 1), BALKWIZU_NOT_ONE_CALL);
    IS(hand_in(52, 1, call, 2), BALKWIZU_NOT_ONE_CALL);
    IS(hand_in(52, 1, call + 1, 1), BALKWIZU_NOT_ONE_CALL);
    IS(hand_in(52, 1, call, 0), BALKWIZU_NOT_ONE_CALL);
    IS(hand_in(51, 1, call, 1), BALKWIZU_BAD_TURNS);
    for (int i = 0; i < 16; i++)
        IS(hand_in(52, 1, call, 1), BALKWIZU_OK);
    IS(hand_in(52, 1, call, 1), BALKWIZU_NO_ROOM);
    IS(hand_in(53, 1, call, 1), BALKWIZU_BAD_TURNS);
    IS_RESULT(turn(51, 2, 3), BALKWIZU_WRONG_SPACE);
    IS_RESULT(turn(51, 3, 2), BALKWIZU_BAD_TURNS);
    IS_RESULT(turn(51, 3, 3), BALKWIZU_BAD_TURNS);
    IS_RESULT(turn(52, 3, 2), BALKWIZU_WRONG_SPACE);
    IS(begin(51, 2), BALKWIZU_WRONG_SPACE);
    IS(begin(4 * 52, 3), BALKWIZU_BAD_TURNS); /* a length in bytes */
    IS(state[BALKWIZU_TURNS_COUNT_AT(1)], 16);
    table[9] = 0x20000010; /* P6 */
    IS(hand_in(51, 3, call, 2), BALKWIZU_TABLE_BAD_RIGHTS);
    IS_RESULT(turn(51, 2, 2), BALKWIZU_TABLE_BAD_RIGHTS);
    IS(begin(51, 2), BALKWIZU_TABLE_BAD_RIGHTS);
    IS(answers[0], 0x77777777);
    IS(state[0], 0);
    IS(BALKWIZU_HAND_IN_BAD_DOMAIN, 35);
    IS(BALKWIZU_NOT_ONE_CALL, 36);
    IS(BALKWIZU_NO_ROOM, 37);
    IS(BALKWIZU_BAD_TURNS, 99);
}

/* Every field with all its bits set, which no table and no answer has. */
static void whole_fields(void)
{
    static const uint32_t answer[] = { 0xFFFFFFFF, 0x76543210, 0xFEDCBA98 };
    static const uint32_t sizes[] = { 0x1FFFFFFF };
    static const uint32_t words[] = {
        0x10000101, 0x2FFFFFFF, 0x3FFFFFFF, 0x4FFFFFFF, 0x5FFFFFFF, 0x6FFFFFFF,
        0xFFFFFFFF,
    };
    IS(BALKWIZU_ANSWER_KIND(answer[0]), 15);
    IS(BALKWIZU_ANSWER_CALLER(answer[0]), 63);
    IS(BALKWIZU_ANSWER_CODE(answer[0]), 65535);
    for (uint32_t target = 0; target < 16; target++)
        IS(balkwizu_answer_rights(answer, target), target);
    IS(balkwizu_table_domains(sizes), 255);
    IS(balkwizu_table_endpoints(sizes), 255);
    IS(balkwizu_table_rights(words, 0, 0), 0x0FFFFFFF);
    IS(balkwizu_table_name(words, 0), 0x0FFFFFFF);
    IS(balkwizu_table_owner(words, 0), 255);
    IS(balkwizu_table_capacity(words, 0), 255);
    IS(balkwizu_table_waiting(words, 0), 0x0FFFFFFF);
    IS(balkwizu_table_lost(words, 0), 0x0FFFFFFF);
    IS(balkwizu_table_message(words, 0, 0), 0x0FFFFFFF);
}

/* A result whose two halves differ in each bit, taken apart by every name. */
static void whole_results(void)
{
    const balkwizu_result result = { 0xA5A55A5A };
    IS(BALKWIZU_RUN_CODE(result), 0x5A5A);
    IS(BALKWIZU_RUN_CALLS(result), 0xA5A5);
    IS(BALKWIZU_REACHES_CODE(result), 0x5A5A);
    IS(BALKWIZU_COMPONENT_CODE(result), 0x5A5A);
    IS(BALKWIZU_INFLUENCE_CODE(result), 0x5A5A);
    IS(BALKWIZU_REPAIR_CODE(result), 0x5A5A);
    IS(BALKWIZU_REPAIR_ALTERED(result), 0xA5A5);
    IS(BALKWIZU_TURN_CODE(result), 0x5A5A);
    IS(BALKWIZU_TURN_SERVED(result), 0xA5A5);
    IS(sizeof result, 4); /* as long as the word that the archives return */
}

/* A domain is excluded only by a code of 0 and a bit that is clear, and only where there
 * is a bit for it. */
static void nobody_excluded_in_error(void)
{
    const balkwizu_result answered = { 0x00050000 }, refused = { 32 }, both = { 0xFFFF0020 };
    for (uint32_t domain = 0; domain < 40; domain++) {
        uint32_t open = domain == 0 || domain == 2 || domain >= 16;
        IS(balkwizu_not_excluded(answered, domain), open);
        IS(balkwizu_may_reach(answered, domain), open);
        IS(balkwizu_may_be_in_component(answered, domain), open);
        IS(balkwizu_may_influence(answered, domain), open);
        IS(balkwizu_not_excluded(refused, domain), 1);
        IS(balkwizu_not_excluded(both, domain), 1);
    }
    IS(balkwizu_may_reach(answered, UINT32_MAX), 1);
    IS(balkwizu_may_reach(answered, UINT32_MAX - 15), 1); /* 16 more would be 0 */
}

/* What is not there, read from T: no word beyond it is. */
static void beyond_a_table(void)
{
    static const uint32_t answer[] = { 0, 0xFFFFFFFF, 0xFFFFFFFF };
    IS(balkwizu_table_rights(example_table, 0, 3), 0);
    IS(balkwizu_table_rights(example_table, 3, 0), 0);
    IS(balkwizu_table_rights(example_table, UINT32_MAX, UINT32_MAX), 0);
    IS(balkwizu_table_word(example_table, 2, 0), 0xFFFFFFFF);
    IS(balkwizu_table_word(example_table, 1, 12), 0xFFFFFFFF);
    IS(balkwizu_table_owner(example_table, 2), 255);
    IS(balkwizu_table_capacity(example_table, UINT32_MAX), 255);
    IS(balkwizu_table_message(example_table, 1, 8), 0x0FFFFFFF);
    IS(balkwizu_table_message(example_table, 1, UINT32_MAX), 0x0FFFFFFF);
    IS(balkwizu_answer_owns(answer, 31), 1);
    IS(balkwizu_answer_owns(answer, 32), 0);
    IS(balkwizu_answer_rights(answer, 15), 15);
    IS(balkwizu_answer_rights(answer, 16), 0);
    IS(balkwizu_answer_rights(answer, UINT32_MAX), 0);
}

/* Macros that evaluate an argument once, given a number that goes up each time. */
static uint32_t times;

static balkwizu_result once(void)
{
    balkwizu_result result = { ++times };
    return result;
}

static void evaluated_once(void)
{
    times = 0;
    IS(BALKWIZU_RUN_CODE(once()), 1);
    IS(BALKWIZU_RUN_CALLS(once()), 0);
    IS(BALKWIZU_REACHES_CODE(once()), 3);
    IS(BALKWIZU_COMPONENT_CODE(once()), 4);
    IS(BALKWIZU_INFLUENCE_CODE(once()), 5);
    IS(BALKWIZU_REPAIR_CODE(once()), 6);
    IS(BALKWIZU_REPAIR_ALTERED(once()), 0);
    IS(BALKWIZU_TURN_CODE(once()), 8);
    IS(BALKWIZU_TURN_SERVED(once()), 0);
    IS(BALKWIZU_WRITE_CODE(balkwizu_as_written(once().word)), 0);
    IS(BALKWIZU_WRITE_NUMBER(balkwizu_as_written(once().word)), 11);
    IS(BALKWIZU_ANSWER_KIND(once().word), 0);
    IS(BALKWIZU_ANSWER_CALLER(once().word), 0);
    IS(BALKWIZU_ANSWER_CODE(once().word), 14);
    IS(BALKWIZU_CONTENT(once().word), 15);
    IS(BALKWIZU_ANSWER_AT(once().word), 48);
    IS(BALKWIZU_TURNS_WORDS(once().word), 290);
    IS(BALKWIZU_TURNS_COUNT_AT(once().word), 307);
    IS(BALKWIZU_RIGHTS_AT(3, once().word, 0), 58);
    IS(BALKWIZU_RIGHTS_AT(once().word, 0, 0), 1);
    IS(BALKWIZU_POTENTIAL_AT(3, once().word, 0), 63);
    IS(BALKWIZU_POTENTIAL_AT(3, 0, once().word), 22);
    IS(BALKWIZU_TABLE_WORDS(1, once().word), 278);
    IS(BALKWIZU_ENDPOINT_AT(1, once().word), 290);
    IS(times, 24);
}

/* The header is of the archive's release; no paper has its number. */
static void release(void)
{
    IS(BALKWIZU_VERSION / 65536, BALKWIZU_VERSION_MAJOR);
    IS(BALKWIZU_VERSION / 256 % 256, BALKWIZU_VERSION_MINOR);
    IS(BALKWIZU_VERSION % 256, BALKWIZU_VERSION_PATCH);
    IS(balkwizu_version(), BALKWIZU_VERSION);
}

/* All that a run does, by the one in use. */
static void with_run(void)
{
    answers_to_l();
    table_after_l();
    messages_that_wait();
    codes_of_calls();
    bad_words_are_refused();
    edges();
    largest_table();
    holders_of_t();
    holders_filled();
}

int main(void)
{
    release();
    limits();
    words_of_t();
    words_of_l();
    fields_beyond_their_bits();
    table_fields_beyond_their_bits();
    for (in_use = 0; in_use < BALKWIZU_COUNT(runs); in_use++)
        with_run();
    in_use = 0;
    components_of_t();
    potential_of_t();
    influence_of_t();
    repair_of_t();
    list_l_written();
    calls_written();
    results_written();
    bad_call_above_65535();
    steps_of_l();
    steps_refused();
    words_of_turns();
    turns_of_t();
    turns_refused();
    whole_fields();
    whole_results();
    nobody_excluded_in_error();
    beyond_a_table();
    evaluated_once();
    printf("%u compared, %u differ\n", compared, differ);
    return differ != 0;
}
