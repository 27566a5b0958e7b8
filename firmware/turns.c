/*
 * turns.c: four domains served by turns, where an interrupt hands in what comes over
 * the wire: between turns at once, and during a turn only when it is over. The layer
 * isn't reentrant, and this is how it is kept so.
 *
 * The interrupt is a signal here, and switched off by blocking it. On a controller
 * interrupts_off and interrupts_on are cli and sti, or mask the one line; the
 * interrupt has a stack of its own and puts the xmm registers back, as balkwizu.h
 * asks. Where it can't, it only stores the words, and the loop below hands them in.
 *
 * Table, state, holders and answer are static: nothing is allocated. The exit status is
 * 0 where no interrupt handed in during a turn, neither the beginning nor a turn was
 * refused, and the holders were what the table says throughout, else 1.
 */
#define _POSIX_C_SOURCE 200809L
#include <signal.h>
#include <stdio.h>

#include "balkwizu.h"
#include "codes.h"

enum { LINK, LOADER, CHUTES, DRIVES, DOMAINS };
enum { TABLE_WORDS = BALKWIZU_TABLE_WORDS(DOMAINS, DOMAINS) };
enum { ARRIVALS = 8 };
enum { STATE_WORDS = BALKWIZU_TURNS_WORDS(DOMAINS) };

static uint32_t table[TABLE_WORDS], state[STATE_WORDS], holders[DOMAINS];
static uint32_t answer[BALKWIZU_ANSWER_WORDS];

/* What comes over the wire, one interrupt each, and what handing it in came to. */
static struct arrival {
    uint32_t domain, words[2];
    size_t len;
    uint32_t code;
} arrivals[ARRIVALS] = {
    { LINK, { BALKWIZU_SEND(LINK, DRIVES), BALKWIZU_SECOND(65) }, 2, 0 },
    { LINK, { BALKWIZU_SEND(LINK, DRIVES), BALKWIZU_SECOND(66) }, 2, 0 },
    { LOADER, { BALKWIZU_GRANT(LOADER, DRIVES, LINK, BALKWIZU_RIGHT_SEND) }, 1, 0 },
    { DRIVES, { BALKWIZU_RECEIVE(DRIVES, DRIVES) }, 1, 0 },
    { CHUTES, { BALKWIZU_SEND(CHUTES, DRIVES), BALKWIZU_SECOND(73) }, 2, 0 },
    { CHUTES, { BALKWIZU_MY_RIGHTS(LINK) }, 1, 0 }, /* another's call */
    { DRIVES, { BALKWIZU_RECEIVE(DRIVES, DRIVES) }, 1, 0 },
    { LINK, { BALKWIZU_SECOND(9) }, 1, 0 }, /* no call at all */
};

/* How many interrupts come before each turn, and during it. */
static const struct { int before, during; } turns[] = {
    { 0, 0 }, { 4, 1 }, { 0, 0 }, { 0, 1 }, { 0, 0 }, { 1, 1 }, { 0, 0 }, { 0, 0 },
};

static volatile sig_atomic_t arrived, beyond, in_turn, handed_in_during_a_turn;
static sigset_t wire;

/* The interrupt. It doesn't print: what it did is reported by the loop. One that nobody
 * waits for is counted, and stores nothing. */
static void on_arrival(int number)
{
    (void)number;
    if (arrived >= ARRIVALS) {
        beyond = 1;
        return;
    }
    struct arrival *next = &arrivals[arrived];
    if (in_turn)
        handed_in_during_a_turn = 1;
    next->code = balkwizu_hand_in(table, TABLE_WORDS, state, STATE_WORDS, next->domain,
                                  next->words, next->len);
    arrived = arrived + 1;
}

static void interrupts_off(void)
{
    sigprocmask(SIG_BLOCK, &wire, NULL);
}

static void interrupts_on(void)
{
    sigprocmask(SIG_UNBLOCK, &wire, NULL);
}

/* A turn, with interrupts that come in the middle of it: they are taken when
 * interrupts are on again. */
static balkwizu_result turn(int interrupts)
{
    interrupts_off();
    in_turn = 1;
    if (interrupts)
        raise(SIGUSR1);
    balkwizu_result result =
        balkwizu_turn(table, TABLE_WORDS, state, STATE_WORDS, holders, DOMAINS,
                      answer, BALKWIZU_ANSWER_WORDS);
    in_turn = 0;
    interrupts_on();
    return result;
}

/* Tells what was handed in since the last time; how much that is in all. */
static int report_arrivals(const char *when, int reported)
{
    for (; reported < arrived; reported++)
        printf("  %s domain %u hands in kind %u: code %u, %s\n", when,
               (unsigned)arrivals[reported].domain, (unsigned)(arrivals[reported].words[0] >> 28),
               (unsigned)arrivals[reported].code, code_meaning(arrivals[reported].code));
    return reported;
}

static void report_turn(unsigned number, balkwizu_result result)
{
    uint32_t code = BALKWIZU_TURN_CODE(result);
    if (code != BALKWIZU_OK)
        printf("turn %u refused with %u: %s\n", number, (unsigned)code, code_meaning(code));
    else if (!BALKWIZU_TURN_SERVED(result))
        printf("turn %u idle\n", number);
    else
        printf("turn %u serves domain %u kind %u code %u data %u %u: %s\n", number,
               (unsigned)BALKWIZU_ANSWER_CALLER(answer[0]),
               (unsigned)BALKWIZU_ANSWER_KIND(answer[0]),
               (unsigned)BALKWIZU_ANSWER_CODE(answer[0]), (unsigned)answer[1],
               (unsigned)answer[2], code_meaning(BALKWIZU_ANSWER_CODE(answer[0])));
}

/* The link may reach the loader, which hands on what the chutes and the drives may be
 * sent. Each has an endpoint, with a capacity of two. */
static void make_table(void)
{
    static const uint32_t rights[DOMAINS][DOMAINS] = {
        { 0, 1, 0, 0 }, { 1, 0, 15, 3 }, { 0, 1, 0, 1 }, { 0, 0, 0, 0 },
    };
    table[0] = BALKWIZU_TABLE_HEADER(DOMAINS, DOMAINS);
    for (int d = 0; d < DOMAINS; d++) {
        uint32_t *word = table + BALKWIZU_ENDPOINT_AT(DOMAINS, d);
        for (int target = 0; target < DOMAINS; target++)
            table[BALKWIZU_RIGHTS_AT(DOMAINS, d, target)] =
                BALKWIZU_TABLE_RIGHTS(rights[d][target]);
        word[BALKWIZU_PLACE_NAME] = BALKWIZU_TABLE_NAME(1 + d);
        word[BALKWIZU_PLACE_INFO] = BALKWIZU_TABLE_INFO(d, 2);
        word[BALKWIZU_PLACE_WAITING] = BALKWIZU_TABLE_WAITING(0);
        word[BALKWIZU_PLACE_LOST] = BALKWIZU_TABLE_LOST(0);
        for (int slot = 0; slot < BALKWIZU_SLOTS; slot++)
            word[BALKWIZU_PLACE_SLOTS + slot] = BALKWIZU_EMPTY_SLOT;
    }
}

/* Whether the holders say of each domain who has a right on it. */
static int holders_are_right(void)
{
    for (unsigned d = 0; d < DOMAINS; d++)
        for (unsigned h = 0; h < DOMAINS; h++)
            if (((holders[d] >> h) & 1u) != (balkwizu_table_rights(table, h, d) != 0))
                return 0;
    return 1;
}

/* Its code; nothing has arrived before it. */
static uint32_t begin(void)
{
    struct sigaction arrival = { 0 };
    arrival.sa_handler = on_arrival;
    sigemptyset(&arrival.sa_mask);
    sigemptyset(&wire);
    sigaddset(&wire, SIGUSR1);
    make_table();
    /* before the first interrupt can come */
    uint32_t code = balkwizu_turns_begin(table, TABLE_WORDS, state, STATE_WORDS, holders, DOMAINS);
    sigaction(SIGUSR1, &arrival, NULL);
    return code;
}

int main(void)
{
    int reported = 0, refused = begin() != BALKWIZU_OK, wrong = !holders_are_right();
    for (unsigned i = 0; i < sizeof turns / sizeof *turns; i++) {
        for (int k = 0; k < turns[i].before; k++)
            raise(SIGUSR1);
        reported = report_arrivals("between turns:", reported);
        balkwizu_result result = turn(turns[i].during);
        refused |= BALKWIZU_TURN_CODE(result) != BALKWIZU_OK;
        wrong |= !holders_are_right();
        report_turn(i + 1, result);
        reported = report_arrivals("kept out until now:", reported);
    }
    printf("interrupts that handed in during a turn: %s\n",
           handed_in_during_a_turn ? "some" : "none");
    printf("holders are what the table says throughout: %s\n", wrong ? "no" : "yes");
    return handed_in_during_a_turn || beyond || refused || wrong;
}
