/*
 * stack_use.c: how much stack each of the kernel's functions takes, from the stack
 * pointer at the call instruction down to the lowest word that is written: the
 * return address, its own frame, the red zone where it uses that, and the return
 * address of memmove. It is called on a stack of its own that was filled
 * beforehand; what is no longer the filling was used.
 *
 * The figure is the archive's alone. A few instructions of measured.h call the function,
 * so that no frame of a C function is counted; and it is called once before it is
 * measured, since the loader may look up memmove on the same stack at its first
 * call. (The memmove of glibc takes no stack of its own.)
 *
 * The exit status is 0 where each function answers 0 and takes no more than
 * balkwizu.h says, else 1.
 */
#include <stdio.h>

#include "balkwizu.h"
#include "measured.h"

static const uint64_t untouched = 0xA5A5A5A5A5A5A5A5u;

/* Below the two words on it of a call that has more than six things given to it. */
static _Alignas(16) uint64_t stack[STACK_WORDS + 2];
static uint32_t table[BALKWIZU_TABLE_WORDS_MAX];
static uint32_t list[BALKWIZU_LIST_WORDS_MAX];
static uint32_t written[BALKWIZU_LIST_WORDS_MAX];
static uint32_t answers[BALKWIZU_ANSWER_WORDS * BALKWIZU_LIST_WORDS_MAX];
static uint32_t changes[BALKWIZU_CHANGES_WORDS_MAX];
static uint32_t rights[DOMAINS * DOMAINS];
static uint32_t calls[BALKWIZU_LIST_WORDS_MAX][BALKWIZU_CALL_COLUMNS];
static uint32_t holders[DOMAINS];
static uint32_t state[BALKWIZU_TURNS_WORDS(DOMAINS)];
static uint32_t step_words[2]; /* the words of the call that a step runs */
static uint32_t pending[2]; /* the words of the call that a turn serves */

/* Sends that fill queues and more, receives that move them up, and every other
 * kind; the last words are of none. */
static void make_list(void)
{
    for (uint32_t i = 0; i + 17 <= BALKWIZU_LIST_WORDS_MAX; i += 17) {
        uint32_t *word = list + i, e = i / 17 % ENDPOINTS, u = e % DOMAINS;
        for (int k = 0; k < 2; k++) {
            *word++ = BALKWIZU_SEND(u, e);
            *word++ = BALKWIZU_SECOND(i);
            *word++ = BALKWIZU_SEND(u, e);
            *word++ = BALKWIZU_SECOND(i + 1);
            *word++ = BALKWIZU_RECEIVE(u, e);
        }
        *word++ = BALKWIZU_LOOK_UP(u);
        *word++ = BALKWIZU_SECOND(1 + e);
        *word++ = BALKWIZU_MY_ENDPOINTS(u);
        *word++ = BALKWIZU_MY_RIGHTS(u);
        *word++ = BALKWIZU_GRANT(u, u, (u + 1) % DOMAINS, BALKWIZU_RIGHT_SEND);
        *word++ = BALKWIZU_REMOVE(u, (u + 1) % DOMAINS, BALKWIZU_RIGHT_SEND);
        *word++ = BALKWIZU_REVOKE(u, u, (u + 2) % DOMAINS, BALKWIZU_RIGHT_SEND);
    }
}

/* The calls of the list above in columns, to be written again: how many words they
 * are. */
static size_t make_calls(void)
{
    size_t count = 0;
    for (size_t i = 0; i < BALKWIZU_LIST_WORDS_MAX && list[i] != 0; i++) {
        uint32_t *call = calls[count++], kind = list[i] >> 28;
        call[0] = kind;
        call[1] = (list[i] >> 22) & 63u;
        call[2] = (list[i] >> 16) & 63u;
        call[3] = (list[i] >> 8) & 255u;
        call[4] = list[i] & 255u;
        if (kind == BALKWIZU_KIND_LOOK_UP || kind == BALKWIZU_KIND_SEND)
            call[4] = BALKWIZU_CONTENT(list[++i]);
    }
    return count * BALKWIZU_CALL_COLUMNS;
}

/* A state in which the last domain alone has calls pending, as many as there can be. */
static void make_state(void)
{
    uint32_t *own = state + BALKWIZU_TURNS_COUNT_AT(DOMAINS - 1);
    size_t words = pending[1] ? 2 : 1;
    for (size_t i = 0; i < BALKWIZU_TURNS_WORDS(DOMAINS); i++)
        state[i] = 0;
    if (pending[0] == 0)
        return;
    own[0] = BALKWIZU_PENDING_WORDS;
    for (size_t i = 0; i < BALKWIZU_PENDING_WORDS; i++)
        own[1 + i] = pending[i % words];
}

/* The bytes of stack below top that one call takes; result is what it returns. */
static size_t bytes_taken(const struct call *call, uint64_t *result)
{
    size_t lowest = 0;
    for (size_t i = 0; i < STACK_WORDS; i++)
        stack[i] = untouched;
    make_largest_table(table);
    make_state();
    *result = call_on_stack(call, stack + STACK_WORDS + 2, 0);
    while (lowest < STACK_WORDS && stack[lowest] == untouched)
        lowest++;
    return sizeof *stack * (STACK_WORDS - lowest);
}

/* Prints what a call took: 0 where all is well. */
static int say(const char *name, size_t bytes, size_t most, uint32_t code)
{
    printf("%s: %zu bytes of stack, %zu allowed, code %u\n", name, bytes, most,
           (unsigned)code);
    return code != BALKWIZU_OK || bytes > most;
}

/* Measures a call and prints what it took: 0 where all is well. */
static int report(const char *name, const struct call *call, size_t most)
{
    uint64_t result;
    bytes_taken(call, &result);
    size_t bytes = bytes_taken(call, &result);
    return say(name, bytes, most, returned_code(result));
}

/* The same of the function that writes a list. */
static int report_write(const char *name, const struct call *call, size_t most)
{
    uint64_t result;
    bytes_taken(call, &result);
    size_t bytes = bytes_taken(call, &result);
    return say(name, bytes, most, BALKWIZU_WRITE_CODE(balkwizu_as_written(result)));
}

/* The same of a function that answers no code. */
static int report_plain(const char *name, const struct call *call, size_t most)
{
    uint64_t no_code;
    bytes_taken(call, &no_code);
    size_t bytes = bytes_taken(call, &no_code);
    return say(name, bytes, most, BALKWIZU_OK);
}

/* The most that a turn takes: idle, or serving the last domain's calls of the list, of
 * which each kind is there. */
static int report_turn(const struct call *turn)
{
    const uint32_t *calls_of_last = list + 17 * (DOMAINS - 1);
    size_t most = 0;
    uint32_t refused = BALKWIZU_OK;
    uint64_t result;
    for (size_t i = 0; i <= 17; i++) {
        const uint32_t *words = calls_of_last + i;
        int two = i < 16 && words[1] >> 28 == BALKWIZU_KIND_SECOND;
        pending[0] = i < 17 ? words[0] : 0;
        pending[1] = two ? words[1] : 0;
        bytes_taken(turn, &result);
        size_t bytes = bytes_taken(turn, &result);
        most = bytes > most ? bytes : most;
        refused |= returned_code(result);
    }
    pending[0] = pending[1] = 0;
    return say("balkwizu_turn", most, BALKWIZU_TURN_STACK_BYTES, refused);
}

/* The most that a step takes, of the same calls: each as it is in the list, of one word or
 * of two. */
static int report_step(const struct call *of_two, const struct call *of_one)
{
    const uint32_t *calls_of_last = list + 17 * (DOMAINS - 1);
    size_t most = 0;
    uint32_t refused = BALKWIZU_OK;
    uint64_t result;
    for (size_t i = 0; i < 17; i++) {
        int two = i < 16 && calls_of_last[i + 1] >> 28 == BALKWIZU_KIND_SECOND;
        step_words[0] = calls_of_last[i];
        step_words[1] = two ? calls_of_last[i + 1] : 0;
        bytes_taken(two ? of_two : of_one, &result);
        size_t bytes = bytes_taken(two ? of_two : of_one, &result);
        most = bytes > most ? bytes : most;
        refused |= returned_code(result);
    }
    return say("balkwizu_step", most, BALKWIZU_STEP_STACK_BYTES, refused);
}

/* The functions of the turns; the first call of the list is domain 0's. */
static int report_turns(void)
{
    const struct call begin = { (void (*)(void))balkwizu_turns_begin,
                                { (uintptr_t)table, BALKWIZU_TABLE_WORDS_MAX,
                                  (uintptr_t)state, BALKWIZU_TURNS_WORDS(DOMAINS),
                                  (uintptr_t)holders, DOMAINS } };
    const struct call version = { (void (*)(void))balkwizu_turns_version, { 0 } };
    const struct call hand_in = { (void (*)(void))balkwizu_hand_in,
                                  { (uintptr_t)table, BALKWIZU_TABLE_WORDS_MAX,
                                    (uintptr_t)state, BALKWIZU_TURNS_WORDS(DOMAINS),
                                    0, (uintptr_t)list, 2 } };
    const struct call turn = { (void (*)(void))balkwizu_turn,
                               { (uintptr_t)table, BALKWIZU_TABLE_WORDS_MAX,
                                 (uintptr_t)state, BALKWIZU_TURNS_WORDS(DOMAINS),
                                 (uintptr_t)holders, DOMAINS, (uintptr_t)answers,
                                 BALKWIZU_ANSWER_WORDS } };
    const struct call step = { (void (*)(void))balkwizu_step,
                               { (uintptr_t)table, BALKWIZU_TABLE_WORDS_MAX,
                                 (uintptr_t)holders, DOMAINS, (uintptr_t)step_words, 2,
                                 (uintptr_t)answers, BALKWIZU_ANSWER_WORDS } };
    struct call short_step = step;
    short_step.given[5] = 1;
    int failed = report_plain("balkwizu_turns_version", &version,
                            BALKWIZU_TURNS_VERSION_STACK_BYTES);
    failed |= report("balkwizu_turns_begin", &begin, BALKWIZU_TURNS_BEGIN_STACK_BYTES);
    failed |= report("balkwizu_hand_in", &hand_in, BALKWIZU_HAND_IN_STACK_BYTES);
    failed |= report_step(&step, &short_step);
    return failed | report_turn(&turn);
}

int main(void)
{
    const struct call check = { (void (*)(void))balkwizu_table_check,
                                { (uintptr_t)table, sizeof table } };
    const struct call run = { (void (*)(void))balkwizu_run,
                              { (uintptr_t)table, BALKWIZU_TABLE_WORDS_MAX,
                                (uintptr_t)list, BALKWIZU_LIST_WORDS_MAX,
                                (uintptr_t)answers,
                                BALKWIZU_COUNT(answers),
                                (uintptr_t)holders, DOMAINS } };
    struct call run_working = run;
    run_working.function = (void (*)(void))balkwizu_run_working;
    struct call run_by_length = run;
    run_by_length.function = (void (*)(void))balkwizu_run_by_length;
    const struct call who_reaches = { (void (*)(void))balkwizu_who_reaches,
                                      { (uintptr_t)holders, DOMAINS, 0 } };
    const struct call component = { (void (*)(void))balkwizu_component,
                                    { (uintptr_t)table, BALKWIZU_TABLE_WORDS_MAX,
                                      DOMAINS - 1 } };
    const struct call repair = { (void (*)(void))balkwizu_repair,
                                 { (uintptr_t)table, BALKWIZU_TABLE_WORDS_MAX,
                                   (uintptr_t)changes, BALKWIZU_CHANGES_WORDS_MAX } };
    const struct call potential = { (void (*)(void))balkwizu_potential,
                                    { (uintptr_t)table, BALKWIZU_TABLE_WORDS_MAX,
                                      (1u << DOMAINS) - 1, (uintptr_t)rights,
                                      DOMAINS * DOMAINS } };
    const struct call could_influence = { (void (*)(void))balkwizu_could_influence,
                                          { (uintptr_t)table, BALKWIZU_TABLE_WORDS_MAX,
                                            (1u << DOMAINS) - 1, DOMAINS - 1 } };
    make_list();
    const struct call write = { (void (*)(void))balkwizu_write,
                                { (uintptr_t)calls, make_calls(),
                                  (uintptr_t)written, BALKWIZU_LIST_WORDS_MAX } };
    const struct call version = { (void (*)(void))balkwizu_version, { 0 } };
    int failed =
        report("balkwizu_table_check", &check, BALKWIZU_TABLE_CHECK_STACK_BYTES);
    failed |= report_plain("balkwizu_version", &version, BALKWIZU_VERSION_STACK_BYTES);
    failed |= report("balkwizu_component", &component, BALKWIZU_COMPONENT_STACK_BYTES);
    failed |= report("balkwizu_potential", &potential, BALKWIZU_POTENTIAL_STACK_BYTES);
    failed |= report("balkwizu_could_influence", &could_influence,
                   BALKWIZU_COULD_INFLUENCE_STACK_BYTES);
    failed |= report("balkwizu_repair", &repair, BALKWIZU_REPAIR_STACK_BYTES);
    failed |= report_write("balkwizu_write", &write, BALKWIZU_WRITE_STACK_BYTES);
    failed |= report_turns();
    failed |= report("balkwizu_run_working", &run_working,
                   BALKWIZU_RUN_WORKING_STACK_BYTES);
    failed |= report("balkwizu_run_by_length", &run_by_length,
                   BALKWIZU_RUN_BY_LENGTH_STACK_BYTES);
    failed |= report("balkwizu_run", &run, BALKWIZU_RUN_STACK_BYTES);
    /* The run has left the holders: everybody has every right, so that none is added. */
    return failed
           | report("balkwizu_who_reaches", &who_reaches, BALKWIZU_WHO_REACHES_STACK_BYTES);
}
