/*
 * interrupted.c: each of the kernel's functions with an interrupt after every one of its
 * instructions, which leaves to the code that it interrupts the general registers, the
 * flags and what stands at the stack pointer and above, and nothing else: the bytes
 * below the stack pointer and the xmm registers are overwritten. So an interrupt on bare
 * metal does that uses the same stack and saves the general registers alone.
 *
 * Result and lent words must be those of the same call without an interrupt. With the
 * archive of firmware/bare_metal/archive they are. With that of make-archive they are
 * not, which shows that this program can tell; `interrupted stack` and `interrupted
 * registers` overwrite one of the two alone, and `interrupted nothing` neither: it counts
 * the instructions.
 *
 * The interrupt is the processor's trap after an instruction (the trap flag), which the
 * system hands on as a signal; the signal has a stack of its own, so that the system
 * itself writes nothing below the kernel's stack pointer. memory.c is linked with it: the
 * C library's memmove uses the xmm registers.
 *
 * The exit status is 0 where all functions come to the same and none was refused, else 1.
 */
#define _GNU_SOURCE
#include <signal.h>
#include <stdio.h>
#include <string.h>
#include <sys/resource.h>
#include <sys/wait.h>
#include <ucontext.h>
#include <unistd.h>

#include "../measured.h"
#include "balkwizu.h"

enum { LIST_WORDS = 16, BELOW = 4096, JUNK = 0x5A };

/* How long a call may take, of a processor's time. */
enum { LIMIT_SECONDS = 60 };

/* Everything that is lent to the functions, so that it is copied and compared whole. */
static struct lent {
    uint32_t table[BALKWIZU_TABLE_WORDS_MAX], worn[BALKWIZU_TABLE_WORDS_MAX];
    uint32_t list[LIST_WORDS], written[LIST_WORDS];
    uint32_t answers[BALKWIZU_ANSWER_WORDS * LIST_WORDS];
    uint32_t changes[BALKWIZU_CHANGES_WORDS_MAX];
    uint32_t rights[DOMAINS * DOMAINS], holders[DOMAINS];
    uint32_t state[BALKWIZU_TURNS_WORDS(DOMAINS)];
    uint32_t calls[2 * BALKWIZU_CALL_COLUMNS];
} lent, wanted;

/* What a function returns: a code in bits 15-0, which is to be 0, the result of writing a
 * list, or a number. */
enum returns { CODE, WRITTEN, NUMBER };

/* One of the kernel's functions by its name, with what it is called with. */
struct tried {
    const char *name;
    struct call call;
    enum returns returns;
};

static _Alignas(16) uint64_t stack[STACK_WORDS];
static _Alignas(16) unsigned char interrupt_stack[65536];
static volatile sig_atomic_t below_too = 1, registers_too = 1;
static unsigned long interrupts;

/* The interrupt. */
static void interrupt(int number, siginfo_t *info, void *context)
{
    mcontext_t *interrupted = &((ucontext_t *)context)->uc_mcontext;
    (void)number;
    (void)info;
    interrupts++;
    if (below_too)
        memset((unsigned char *)interrupted->gregs[REG_RSP] - BELOW, JUNK, BELOW);
    if (registers_too)
        memset(interrupted->fpregs->_xmm, JUNK, sizeof interrupted->fpregs->_xmm);
}

static void begin_interrupts(void)
{
    const stack_t own = { .ss_sp = interrupt_stack, .ss_size = sizeof interrupt_stack };
    struct sigaction trap = { 0 };
    trap.sa_sigaction = interrupt;
    trap.sa_flags = SA_SIGINFO | SA_ONSTACK;
    sigemptyset(&trap.sa_mask);
    sigaltstack(&own, NULL);
    sigaction(SIGTRAP, &trap, NULL);
}

/* The largest table, with one message in each queue. */
static void make_table(uint32_t *table)
{
    make_largest_table(table);
    for (int e = 0; e < ENDPOINTS; e++) {
        uint32_t *word = table + BALKWIZU_ENDPOINT_AT(DOMAINS, e);
        word[BALKWIZU_PLACE_WAITING] = BALKWIZU_TABLE_WAITING(1);
        word[BALKWIZU_PLACE_SLOTS] = BALKWIZU_SECOND(e);
    }
}

/* A call of each kind, a stray and an unknown one; a table with two broken words; two
 * calls to be written. */
static void make_lent(void)
{
    static const uint32_t list[LIST_WORDS] = {
        BALKWIZU_LOOK_UP(1), BALKWIZU_SECOND(ENDPOINTS), BALKWIZU_SEND(2, 31),
        BALKWIZU_SECOND(77), BALKWIZU_RECEIVE(15, 31), BALKWIZU_RECEIVE(15, 31),
        BALKWIZU_MY_ENDPOINTS(15), BALKWIZU_MY_RIGHTS(3),
        BALKWIZU_REMOVE(4, 9, BALKWIZU_RIGHT_GRANT),
        BALKWIZU_GRANT(5, 9, 4, BALKWIZU_RIGHT_GRANT),
        BALKWIZU_REVOKE(6, 9, 4, BALKWIZU_RIGHT_SEND), BALKWIZU_SECOND(9), 0,
        BALKWIZU_RECEIVE(0, 31), BALKWIZU_SEND(0, 0), BALKWIZU_SECOND(5),
    };
    static const uint32_t calls[2 * BALKWIZU_CALL_COLUMNS] = {
        BALKWIZU_KIND_SEND, 1, 0, 2, 99, BALKWIZU_KIND_REVOKE, 3, 1, 2, 8,
    };
    memset(&lent, JUNK, sizeof lent);
    make_table(lent.table);
    make_table(lent.worn);
    lent.worn[BALKWIZU_RIGHTS_AT(DOMAINS, 3, 3)] = 0;
    lent.worn[BALKWIZU_ENDPOINT_AT(DOMAINS, 7) + BALKWIZU_PLACE_WAITING] = 0;
    memcpy(lent.list, list, sizeof list);
    memcpy(lent.calls, calls, sizeof calls);
    memset(lent.state, 0, sizeof lent.state);
    memset(lent.holders, 0, sizeof lent.holders);
    lent.holders[0] = 2;
    lent.state[BALKWIZU_TURNS_COUNT_AT(2)] = 2; /* the send of domain 2 is pending */
    lent.state[BALKWIZU_TURNS_COUNT_AT(2) + 1] = list[2];
    lent.state[BALKWIZU_TURNS_COUNT_AT(2) + 2] = list[3];
}

#define WORDS(words) (uintptr_t)(words), BALKWIZU_COUNT(words)
#define CALL(returns, function, ...)                                                   \
    { #function, { (void (*)(void))function, { __VA_ARGS__ } }, returns }

static const struct tried all[] = {
    CALL(CODE, balkwizu_table_check, (uintptr_t)lent.table, sizeof lent.table),
    CALL(CODE, balkwizu_run, WORDS(lent.table), WORDS(lent.list),
         WORDS(lent.answers), WORDS(lent.holders)),
    CALL(CODE, balkwizu_run_working, WORDS(lent.table), WORDS(lent.list),
         WORDS(lent.answers), WORDS(lent.holders)),
    CALL(CODE, balkwizu_run_by_length, WORDS(lent.table), WORDS(lent.list),
         WORDS(lent.answers), WORDS(lent.holders)),
    CALL(NUMBER, balkwizu_version, 0),
    CALL(CODE, balkwizu_who_reaches, WORDS(lent.holders), 0),
    CALL(CODE, balkwizu_component, WORDS(lent.table), DOMAINS - 1),
    CALL(CODE, balkwizu_potential, WORDS(lent.table), 5, WORDS(lent.rights)),
    CALL(CODE, balkwizu_could_influence, WORDS(lent.table), 5, DOMAINS - 1),
    CALL(CODE, balkwizu_repair, WORDS(lent.worn), WORDS(lent.changes)),
    CALL(WRITTEN, balkwizu_write, WORDS(lent.calls), WORDS(lent.written)),
    CALL(NUMBER, balkwizu_turns_version, 0),
    CALL(CODE, balkwizu_turns_begin, WORDS(lent.table), WORDS(lent.state),
         WORDS(lent.holders)),
    CALL(CODE, balkwizu_hand_in, WORDS(lent.table), WORDS(lent.state), 3,
         (uintptr_t)(lent.list + 7), 1),
    CALL(CODE, balkwizu_step, WORDS(lent.table), WORDS(lent.holders),
         (uintptr_t)(lent.list + 2), 2, (uintptr_t)lent.answers, BALKWIZU_ANSWER_WORDS),
    CALL(CODE, balkwizu_turn, WORDS(lent.table), WORDS(lent.state), WORDS(lent.holders),
         (uintptr_t)lent.answers, BALKWIZU_ANSWER_WORDS),
};

/* What a call returns, made with these flags: the result of writing is of 64 bits. */
static uint64_t returned(const struct tried *tried, uint64_t flags)
{
    uint64_t result = call_on_stack(&tried->call, stack + STACK_WORDS, flags);
    return tried->returns == WRITTEN ? result : BALKWIZU_WORD(result);
}

/* Whether a result says that the call was refused. */
static int is_refused(const struct tried *tried, uint64_t result)
{
    if (tried->returns == WRITTEN)
        return BALKWIZU_WRITE_CODE(balkwizu_as_written(result)) != BALKWIZU_OK;
    return tried->returns == CODE && returned_code(result) != BALKWIZU_OK;
}

/* In a process of its own, since a call that is disturbed may fault or not end: 0 where
 * it comes to the same with interrupts as without. */
static int try(const struct tried *tried)
{
    const struct rlimit limit = { LIMIT_SECONDS, LIMIT_SECONDS + 1 };
    setrlimit(RLIMIT_CPU, &limit);
    make_lent();
    uint64_t result = returned(tried, 0);
    wanted = lent;
    make_lent();
    begin_interrupts();
    uint64_t interrupted = returned(tried, TRAP_FLAG);
    int same = interrupted == result && memcmp(&lent, &wanted, sizeof lent) == 0;
    int refused = is_refused(tried, result);
    printf("%s: %lu interrupts, %s%s\n", tried->name, interrupts,
           same ? "as without" : "not as without", refused ? ", refused" : "");
    fflush(stdout);
    return !same || refused;
}

/* 0 where the call came to the same. */
static int report(const struct tried *tried)
{
    int status = 0;
    fflush(stdout);
    pid_t child = fork();
    if (child == 0)
        _exit(try(tried));
    if (child < 0 || waitpid(child, &status, 0) != child)
        return 1;
    if (WIFSIGNALED(status))
        printf("%s: ended by signal %d\n", tried->name, WTERMSIG(status));
    return !WIFEXITED(status) || WEXITSTATUS(status) != 0;
}

int main(int count, char **words)
{
    int different = 0;
    if (count > 1) {
        below_too = strcmp(words[1], "stack") == 0;
        registers_too = strcmp(words[1], "registers") == 0;
    }
    for (size_t i = 0; i < BALKWIZU_COUNT(all); i++)
        different |= report(&all[i]);
    return different;
}
