/*
 * run_line.c: runs document 01's list L on its table T, prints each answer with
 * what it means, and then who can reach each domain. Table, list, answers and
 * holders are static: nothing is allocated.
 *
 * The exit status is 0 where the list was run, 1 where the run was refused.
 */
#include <stdio.h>
#include <string.h>

#include "balkwizu.h"
#include "codes.h"
#include "example.h"

static uint32_t table[EXAMPLE_TABLE_WORDS];
static uint32_t answers[BALKWIZU_ANSWER_WORDS * EXAMPLE_LIST_WORDS];
static uint32_t holders[BALKWIZU_DOMAINS_MAX];

static void print_answer(uint32_t number, const uint32_t *answer)
{
    uint32_t code = BALKWIZU_ANSWER_CODE(answer[0]);
    printf("call %u caller %u kind %u code %u data %u %u: %s\n", (unsigned)number,
           (unsigned)BALKWIZU_ANSWER_CALLER(answer[0]),
           (unsigned)BALKWIZU_ANSWER_KIND(answer[0]), (unsigned)code,
           (unsigned)answer[1], (unsigned)answer[2], code_meaning(code));
}

/* The panel's question: who has a chain of rights to the domain. */
static void print_reach(uint32_t n, uint32_t domain)
{
    balkwizu_result result = balkwizu_who_reaches(holders, n, domain);
    uint32_t code = BALKWIZU_REACHES_CODE(result);
    if (code != BALKWIZU_OK) {
        printf("domain %u: %s\n", (unsigned)domain, code_meaning(code));
        return;
    }
    printf("domain %u is reached by", (unsigned)domain);
    for (uint32_t u = 0; u < n; u++)
        if (balkwizu_may_reach(result, u))
            printf(" %u", (unsigned)u);
    printf("\n");
}

int main(void)
{
    memcpy(table, example_table, sizeof table);
    uint32_t n = balkwizu_table_domains(table);
    balkwizu_result result =
        balkwizu_run(table, EXAMPLE_TABLE_WORDS, example_list, EXAMPLE_LIST_WORDS,
                     answers, BALKWIZU_COUNT(answers), holders, n);
    uint32_t code = BALKWIZU_RUN_CODE(result), calls = BALKWIZU_RUN_CALLS(result);
    printf("calls %u code %u: %s\n", (unsigned)calls, (unsigned)code,
           code_meaning(code));
    for (uint32_t i = 0; i < calls; i++)
        print_answer(i, answers + BALKWIZU_ANSWER_AT(i));
    for (uint32_t domain = 0; code == BALKWIZU_OK && domain < n; domain++)
        print_reach(n, domain);
    return code == BALKWIZU_OK ? 0 : 1;
}
