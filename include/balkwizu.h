/*
 * balkwizu.h: the line controller's capability kernel, for firmware in C11 or
 * C++11, by gcc or clang.
 *
 * The functions are proved code, in the archives libbalkwizu.a and libbalkwizu_turns.a
 * (in a release in lib/); a list below has the functions of each. Link one archive or
 * both, at any address. They allocate nothing, and call nothing of the C library but
 * memcpy, memmove and memset. In the sources `firmware/make-archive balkwizu
 * balkwizu_turns` makes them for x86-64, in the crates' folders out/; firmware/targets/archive
 * makes them from the same proved code for the processors of firmware/targets/targets.txt.
 *
 * No function keeps anything from one call to the next, so they may be called at the
 * same time on different words.
 *
 * Each function is proved for arbitrary words as table, list, answers, holders or state,
 * damaged ones too. No proof covers the preconditions and the requirements of the machine
 * code, both below: no function checks a pointer, or a length against the memory there.
 *
 * Numbers and layouts are those of document 01, "The line controller's
 * capability kernel", with the change requests of document 02. Bit 0 is the lowest
 * bit of a word.
 *
 * Each function has an example. An example is the body of a C function that includes
 * <assert.h>; table points to table_len words that may be written, those of the table
 * under "A table's words". The gate compiles and runs each as it is written here.
 */
#ifndef BALKWIZU_H
#define BALKWIZU_H

#include <stddef.h>
#include <stdint.h>

#if !defined(__BYTE_ORDER__) || __BYTE_ORDER__ != __ORDER_LITTLE_ENDIAN__
#error "balkwizu.h: the archives are for little-endian processors"
#endif
#if defined(_WIN32) ||                                                         \
    (!(defined(__x86_64__) && !defined(__ILP32__)) &&                          \
     !(defined(__aarch64__) && !defined(__ILP32__)) &&                         \
     !(defined(__riscv) && __riscv_xlen == 64) &&                              \
     !(defined(__arm__) && defined(__ARM_EABI__) && __ARM_ARCH >= 7))
#error "balkwizu.h: no archive is made for this processor and its calling convention"
#endif

/*
 * What the declarations state beyond their types: the caller must use what is returned,
 * no two parts that are lent overlap (in C alone, by restrict), and no function throws.
 */
#define BALKWIZU_MUST_USE __attribute__((warn_unused_result))
#ifdef __cplusplus
#define BALKWIZU_RESTRICT
#define BALKWIZU_NOEXCEPT noexcept
#else
#define BALKWIZU_RESTRICT restrict
#define BALKWIZU_NOEXCEPT
#endif

#ifdef __cplusplus
extern "C" {
#endif

/*
 * The release of this header, and its three numbers in one word, so that a later release
 * is a larger number. balkwizu_version returns the archive's.
 */
#define BALKWIZU_VERSION_MAJOR 3
#define BALKWIZU_VERSION_MINOR 0
#define BALKWIZU_VERSION_PATCH 0
#define BALKWIZU_VERSION                                                       \
    (65536u * BALKWIZU_VERSION_MAJOR + 256u * BALKWIZU_VERSION_MINOR +         \
     BALKWIZU_VERSION_PATCH)

/*
 * Preconditions, the same for every function: the caller must provide them
 *
 *   - A pointer points to as many words as the length after it says. Lengths are in words,
 *     never in bytes: BALKWIZU_COUNT counts those of an array. (balkwizu_table_check alone
 *     takes bytes.)
 *   - Words are aligned to four bytes; the bytes of balkwizu_table_check needn't be.
 *   - No pointer is null, also where its length is 0.
 *   - What a pointer to const points to may be read, and is never written. What another
 *     points to may be read and written, and overlaps nothing else that is lent to the
 *     same call, in no word.
 *   - During the call nobody else writes what is lent to it, nor reads what it may write: no
 *     other core, interrupt or transfer.
 *
 * Lengths have 64 bits on every processor, also where size_t has 32.
 *
 * The words of a table, of a list and of holders are in the processor's own byte order.
 */
#ifdef __cplusplus
extern "C++" {
template <typename Element, size_t Number>
constexpr size_t balkwizu_count(Element (&)[Number]) noexcept
{
    return Number;
}
}
#define BALKWIZU_COUNT(array) (balkwizu_count(array))
#else
/* An array's length in elements. Of a pointer it doesn't compile. */
#define BALKWIZU_COUNT(array)                                                  \
    (sizeof(array) / sizeof *(array) +                                         \
     0 * sizeof(char[1 - 2 * __builtin_types_compatible_p(                     \
                             __typeof__(array), __typeof__(&(array)[0]))]))
#endif

/*
 * Macros: one that makes a word of a table or of a list may evaluate an argument twice, and
 * BALKWIZU_TABLE_WORDS and BALKWIZU_ENDPOINT_AT do so with n. Every other macro evaluates
 * its arguments once at most.
 */

/*
 * What the machine code requires of its caller, on x86-64
 *
 * It follows the System V ABI of x86-64, like programs for Linux. On bare metal the
 * firmware must provide what that ABI takes for granted (the bytes of stack below are
 * of x86-64 too):
 *
 *   alignment  The stack pointer is a multiple of 16 at the call instruction.
 *              Where it isn't, the function faults: it stores 16 bytes at a time.
 *   direction  The direction flag is clear at the call instruction. An interrupt that
 *              calls these functions clears it first (cld).
 *   red zone   A function may keep words in the 128 bytes below its stack pointer;
 *              the lines below mark those that do. An interrupt on the same stack
 *              overwrites them, and what the function then returns and writes is
 *              wrong. Interrupts have a stack of their own (an entry of
 *              the interrupt stack table, or a change of privilege), or are off
 *              during the call. No option that the firmware is compiled with alters
 *              this. firmware/bare_metal/archive makes archives that have no red
 *              zone, use general registers alone and never jump by a register: with
 *              these an interrupt may come on the same stack, and SSE may be off.
 *   registers  The general registers and xmm0 to xmm15, by instructions up to SSE2
 *              and without floating-point arithmetic; no x87, MMX or AVX. SSE is
 *              switched on (CR0.EM and CR0.TS are 0, CR4.OSFXSR is 1), and an
 *              interrupt that uses xmm registers puts them back.
 *   jumps      No place that is jumped to by a register is marked as such
 *              (endbr64): indirect branch tracking is off.
 *   stack      The bytes below the stack pointer at the call instruction, return
 *              address and red zone included, are at most those defined here for
 *              each function, on any path through it. What the firmware's own memcpy,
 *              memmove or memset takes comes on top.
 *
 * Which functions each archive has, and what they use of this, as the gate reads it
 * out of the archives:
 *
 *   libbalkwizu.a
 *     balkwizu_component: general and xmm registers, aligned stack
 *     balkwizu_could_influence: general and xmm registers, aligned stack
 *     balkwizu_potential: general and xmm registers, aligned stack
 *     balkwizu_repair: general and xmm registers, aligned stack
 *     balkwizu_run: general and xmm registers, aligned stack, unmarked jumps
 *     balkwizu_run_by_length: general and xmm registers, aligned stack, unmarked jumps
 *     balkwizu_run_working: general and xmm registers, aligned stack, unmarked jumps
 *     balkwizu_table_check: general and xmm registers, aligned stack
 *     balkwizu_version: general registers
 *     balkwizu_who_reaches: general registers
 *     balkwizu_write: general and xmm registers, aligned stack, unmarked jumps
 *   libbalkwizu_turns.a
 *     balkwizu_hand_in: general and xmm registers, aligned stack
 *     balkwizu_step: general and xmm registers, aligned stack, unmarked jumps
 *     balkwizu_turn: general and xmm registers, aligned stack, unmarked jumps
 *     balkwizu_turns_begin: general and xmm registers, aligned stack
 *     balkwizu_turns_version: general registers
 */
#define BALKWIZU_RUN_STACK_BYTES 1280
#define BALKWIZU_RUN_WORKING_STACK_BYTES 6912
#define BALKWIZU_RUN_BY_LENGTH_STACK_BYTES 6912
#define BALKWIZU_TABLE_CHECK_STACK_BYTES 1024
#define BALKWIZU_COMPONENT_STACK_BYTES 1024
#define BALKWIZU_REPAIR_STACK_BYTES 4096
#define BALKWIZU_POTENTIAL_STACK_BYTES 1024
#define BALKWIZU_COULD_INFLUENCE_STACK_BYTES 2304
#define BALKWIZU_WRITE_STACK_BYTES 256
#define BALKWIZU_WHO_REACHES_STACK_BYTES 256
#define BALKWIZU_VERSION_STACK_BYTES 256
#define BALKWIZU_TURNS_BEGIN_STACK_BYTES 1024
#define BALKWIZU_TURNS_VERSION_STACK_BYTES 256
#define BALKWIZU_HAND_IN_STACK_BYTES 1024
#define BALKWIZU_TURN_STACK_BYTES 1024
#define BALKWIZU_STEP_STACK_BYTES 1024

/*
 * How many instructions a call of each function takes, for a watchdog, on x86-64: the
 * most that was found on tables and calls that are constructed to cost much, and a little
 * over. The gate counts these again. It is not proved that no other input takes more, and
 * nothing is stated about time, which depends on the processor.
 *
 * `words` are those of the list, `calls` those to be written. What the firmware's own
 * memcpy, memmove or memset takes comes on top. The archives for bare metal and those for
 * other processors take other numbers, which aren't counted.
 */
#define BALKWIZU_RUN_INSTRUCTIONS(words) (5800u + 350u * (words))
#define BALKWIZU_RUN_WORKING_INSTRUCTIONS(words) (12400u + 175u * (words))
#define BALKWIZU_RUN_BY_LENGTH_INSTRUCTIONS(words) (26000u + 175u * (words))
#define BALKWIZU_TABLE_CHECK_INSTRUCTIONS 4300u
#define BALKWIZU_COMPONENT_INSTRUCTIONS 12600u
#define BALKWIZU_REPAIR_INSTRUCTIONS 17400u
#define BALKWIZU_POTENTIAL_INSTRUCTIONS 155000u
#define BALKWIZU_COULD_INFLUENCE_INSTRUCTIONS 164000u
#define BALKWIZU_WRITE_INSTRUCTIONS(calls) (200u + 185u * (calls))
#define BALKWIZU_WHO_REACHES_INSTRUCTIONS 1700u
#define BALKWIZU_TURNS_BEGIN_INSTRUCTIONS 5800u
#define BALKWIZU_HAND_IN_INSTRUCTIONS 4500u
#define BALKWIZU_TURN_INSTRUCTIONS 6500u
#define BALKWIZU_STEP_INSTRUCTIONS 6300u

/* The most that a table, a list and its answers can have, in words. */
#define BALKWIZU_DOMAINS_MAX 16
#define BALKWIZU_ENDPOINTS_MAX 32
#define BALKWIZU_TABLE_WORDS_MAX 641
#define BALKWIZU_LIST_WORDS_MAX 4096
#define BALKWIZU_ANSWER_WORDS 3 /* for each call */

/* The words of one endpoint, and the message slots among them. */
#define BALKWIZU_ENDPOINT_WORDS 12
#define BALKWIZU_SLOTS 8

/* The right length in words of a table of n domains and m endpoints. */
#define BALKWIZU_TABLE_WORDS(n, m)                                             \
    (1 + (n) * (n) + BALKWIZU_ENDPOINT_WORDS * (m))

/* A number as a word, cut to 32 bits, and the bits of a word below its kind. */
#ifdef __cplusplus
#define BALKWIZU_WORD(number) (static_cast<uint32_t>(number))
#else
#define BALKWIZU_WORD(number) ((uint32_t)(number))
#endif
#define BALKWIZU_CONTENT(word) (BALKWIZU_WORD(word) & 0x0FFFFFFFu)

/*
 * The part of a number above so many bits, 0 where it fits: in 64 bits, so that nothing
 * is cut off before the test. A negative number never fits. Five parts above four bits or
 * more can be added without overflow.
 */
#ifdef __cplusplus
#define BALKWIZU_BEYOND(number, bits) (static_cast<uint64_t>(number) >> (bits))
#else
#define BALKWIZU_BEYOND(number, bits) ((uint64_t)(number) >> (bits))
#endif

/*
 * The word that each macro below makes where a number is beyond its field: kind 0, caller
 * 63. To cut or shift such a number would make another call of it, or another domain's. No
 * accepted table has this word, and no run serves a call of it.
 */
#define BALKWIZU_BAD_WORD 0x0FC00000u

/* A word of a kind: with one number of 28 bits, and with two of eight. */
#define BALKWIZU_WORD_OF(kind, content)                                        \
    (BALKWIZU_BEYOND(content, 28) != 0                                         \
         ? BALKWIZU_BAD_WORD                                                   \
         : ((BALKWIZU_WORD(kind) << 28) | BALKWIZU_WORD(content)))
#define BALKWIZU_WORD_OF_TWO(kind, high, low)                                  \
    (BALKWIZU_BEYOND(high, 8) + BALKWIZU_BEYOND(low, 8) != 0                   \
         ? BALKWIZU_BAD_WORD                                                   \
         : ((BALKWIZU_WORD(kind) << 28) | (BALKWIZU_WORD(high) << 8) |         \
            BALKWIZU_WORD(low)))

/*
 * The result of a function that returns two things: a code in bits 15-0 of the word,
 * which is 0 where nothing was refused, and in bits 31-16 what the function's comment says.
 * It is a structure so that the whole can't be mistaken for the code: to compare it with
 * BALKWIZU_OK doesn't compile. It is returned in the register in which the word would be.
 */
typedef struct {
    uint32_t word;
} balkwizu_result;

/*
 * Returns whether a question about domains leaves a domain possible, on the safe side: 1
 * unless its code is 0 and the bit of the domain is clear. So a question that was refused
 * excludes nobody, nor a domain from 16 on, which has no bit. balkwizu_may_reach,
 * balkwizu_may_be_in_component and balkwizu_may_influence are this function, each by the
 * name of its question.
 */
static inline uint32_t balkwizu_not_excluded(balkwizu_result result, uint32_t domain)
    BALKWIZU_NOEXCEPT
{
    if ((result.word & 0xFFFFu) != 0 || domain >= BALKWIZU_DOMAINS_MAX)
        return 1;
    return (result.word >> (16 + domain)) & 1u;
}

/* Every code that a function or an answer can have, named by what is wrong. */
enum balkwizu_code {
    BALKWIZU_OK = 0,

    /* Of a whole run, or of the table's check, the first that fails: nothing was
       written. (7 is of the programs linerun and linetotals, for input that hasn't
       their form.) */
    BALKWIZU_LIST_TOO_LONG = 1,      /* the list is above 4,096 words */
    BALKWIZU_TABLE_BAD_HEADER = 2,   /* table empty, or word 0 breaks its layout */
    BALKWIZU_TABLE_BAD_LENGTH = 3,   /* not the length that word 0 implies */
    BALKWIZU_TABLE_BAD_RIGHTS = 4,   /* a rights word breaks its layout */
    BALKWIZU_TABLE_BAD_ENDPOINT = 5, /* an endpoint word does, or a name repeats */
    BALKWIZU_WRONG_SPACE = 6,        /* answer space under three words a call, or
                                        other than one word a domain for the
                                        holders */

    /* Of one call, the first that fails: the table is as before it, and the run
       continues with the next call. */
    BALKWIZU_STRAY = 10,           /* a word of kind 15 that is no second word */
    BALKWIZU_UNKNOWN_KIND = 11,    /* kind 0, or 9 to 14 */
    BALKWIZU_UNKNOWN_CALLER = 12,  /* the call's own caller isn't below n */
    BALKWIZU_UNUSED_FIELD = 13,    /* an unused field isn't zero */
    BALKWIZU_NO_SECOND_WORD = 14,  /* look up or send without its second word */
    BALKWIZU_NO_SUCH_NAME = 15,    /* look up: no endpoint has the name */
    BALKWIZU_NO_SUCH_ENDPOINT = 16, /* send, receive: endpoint not below m */
    BALKWIZU_MAY_NOT_SEND = 17,    /* send: no SEND on the endpoint's owner, which
                                      the owner itself needs too */
    BALKWIZU_NOT_OWNER = 18,       /* receive: caller isn't the owner */
    BALKWIZU_NOTHING_WAITING = 19, /* receive: the queue is empty */
    BALKWIZU_CALL_BAD_DOMAIN = 20, /* grant, remove, revoke: A or B, a domain that
                                      the call names, isn't below n */
    BALKWIZU_BAD_RIGHTS = 21,      /* grant, remove, revoke: C is 0 or above
                                      BALKWIZU_RIGHTS_ALL */
    BALKWIZU_LACKS_RIGHT = 22,     /* on the target: grant: no GRANT, or not every
                                      right of C; remove: no REMOVE, or likewise;
                                      revoke: no REVOKE */
    BALKWIZU_MAY_NOT_GIVE = 23,    /* grant: to another, with no right on it;
                                      revoke: from another, likewise */

    /* Of a list that is written: no word was. */
    BALKWIZU_BAD_CALL = 30,        /* a call is none, or has a field that exceeds
                                      its bits */
    BALKWIZU_WRITTEN_TOO_LONG = 31, /* the words would pass 4,096 or the list */

    /* Of a question about domains: no domain is named. */
    BALKWIZU_BAD_QUESTION = 32,    /* the domain or one of the actors isn't below n,
                                      or the words lent can't be the holders of a
                                      table */

    /* Of a repair, the first that fails: nothing was written. */
    BALKWIZU_NOT_REPAIRABLE = 33,  /* word 0, the length, a name or an info is
                                      wrong, or a name repeats */
    BALKWIZU_CHANGES_TOO_SHORT = 34, /* the list of changes is too short */

    /* Of a call that is handed in, the first that fails: nothing was written. 99 is
       also of a beginning and of a turn; here it is tested before 37. */
    BALKWIZU_HAND_IN_BAD_DOMAIN = 35, /* the domain that hands in isn't below n */
    BALKWIZU_NOT_ONE_CALL = 36,    /* the words aren't exactly one call, no stray,
                                      with the domain as its caller; of a step: not
                                      exactly one call */
    BALKWIZU_NO_ROOM = 37,         /* the domain's pending words would pass 16 */
    BALKWIZU_BAD_TURNS = 99        /* the state isn't BALKWIZU_TURNS_WORDS(n) words;
                                      this code is in no paper */
};

/* The kinds of calls, bits 31-28 of a call's first word. */
enum balkwizu_kind {
    BALKWIZU_KIND_LOOK_UP = 1,
    BALKWIZU_KIND_SEND = 2,
    BALKWIZU_KIND_RECEIVE = 3,
    BALKWIZU_KIND_MY_ENDPOINTS = 4,
    BALKWIZU_KIND_MY_RIGHTS = 5,
    BALKWIZU_KIND_GRANT = 6,
    BALKWIZU_KIND_REMOVE = 7,
    BALKWIZU_KIND_REVOKE = 8,
    BALKWIZU_KIND_SECOND = 15 /* the second word of a look up or a send */
};

/* The rights, each one bit of a set, and the set of all of them. */
enum balkwizu_right {
    BALKWIZU_RIGHT_SEND = 1,
    BALKWIZU_RIGHT_GRANT = 2,
    BALKWIZU_RIGHT_REMOVE = 4,
    BALKWIZU_RIGHT_REVOKE = 8,
    BALKWIZU_RIGHTS_ALL = 15
};

/*
 * A table's words, in this order. A word's kind is in bits 31-28, and bits that
 * are not named are zero:
 *
 *   word 0       kind 1: the number of domains n in bits 15-8 (1 to 16), that of
 *                endpoints m in bits 7-0 (0 to 32)
 *   n * n words  kind 2: the rights of a holder on a target, a set of enum
 *                balkwizu_right, at 1 + holder * n + target
 *   then 12 words for each endpoint:
 *     name       kind 3: bits 27-0, not zero, no two endpoints the same
 *     info       kind 4: the owner in bits 15-8 (below n), the capacity in bits
 *                7-0 (1 to 8)
 *     waiting    kind 5: how many messages wait in bits 27-0, at most the capacity
 *     lost       kind 6: the lost count in bits 27-0
 *     8 slots    kind 15: the messages that wait in bits 27-0, oldest first, and
 *                BALKWIZU_EMPTY_SLOT from the waiting count on
 *
 * A run alters rights, waiting, lost and slot words, and no other.
 *
 * The macros of a table's words are constants where what they are given is. A number
 * beyond its field (n, m, owner and capacity have 8 bits, all others 28) makes
 * BALKWIZU_BAD_WORD, and every check of the table refuses it: with 2 in word 0, with 4 in
 * a rights word, with 5 in an endpoint's. A number that fits its field but is wrong, such
 * as 17 domains, is refused likewise.
 *
 * Table of the examples: domain 0 may send to domain 1, which owns endpoint 0, called
 * 17, with space for two messages.
 *
 *     BALKWIZU_TABLE_HEADER(2, 1),
 *     BALKWIZU_TABLE_RIGHTS(0), BALKWIZU_TABLE_RIGHTS(BALKWIZU_RIGHT_SEND),
 *     BALKWIZU_TABLE_RIGHTS(0), BALKWIZU_TABLE_RIGHTS(0),
 *     BALKWIZU_TABLE_NAME(17), BALKWIZU_TABLE_INFO(1, 2),
 *     BALKWIZU_TABLE_WAITING(0), BALKWIZU_TABLE_LOST(0),
 *     BALKWIZU_EMPTY_SLOT, BALKWIZU_EMPTY_SLOT, BALKWIZU_EMPTY_SLOT,
 *     BALKWIZU_EMPTY_SLOT, BALKWIZU_EMPTY_SLOT, BALKWIZU_EMPTY_SLOT,
 *     BALKWIZU_EMPTY_SLOT, BALKWIZU_EMPTY_SLOT
 */
#define BALKWIZU_TABLE_HEADER(n, m) BALKWIZU_WORD_OF_TWO(1, n, m)
#define BALKWIZU_TABLE_RIGHTS(rights) BALKWIZU_WORD_OF(2, rights)
#define BALKWIZU_TABLE_NAME(name) BALKWIZU_WORD_OF(3, name)
#define BALKWIZU_TABLE_INFO(owner, capacity) BALKWIZU_WORD_OF_TWO(4, owner, capacity)
#define BALKWIZU_TABLE_WAITING(count) BALKWIZU_WORD_OF(5, count)
#define BALKWIZU_TABLE_LOST(count) BALKWIZU_WORD_OF(6, count)
#define BALKWIZU_TABLE_MESSAGE(message) BALKWIZU_WORD_OF(15, message)
#define BALKWIZU_EMPTY_SLOT 0xF0000000u

/* The index of the rights of a holder on a target, and of an endpoint's first word. */
#define BALKWIZU_RIGHTS_AT(n, holder, target) (1 + (holder) * (n) + (target))
#define BALKWIZU_ENDPOINT_AT(n, endpoint) BALKWIZU_TABLE_WORDS(n, endpoint)

/* The places of an endpoint's words, counted from the first of them. */
enum balkwizu_place {
    BALKWIZU_PLACE_NAME = 0,
    BALKWIZU_PLACE_INFO = 1,
    BALKWIZU_PLACE_WAITING = 2,
    BALKWIZU_PLACE_LOST = 3,
    BALKWIZU_PLACE_SLOTS = 4 /* the first slot: the oldest message */
};

/*
 * Reading a table that was accepted, or that a run left. These functions read no word
 * beyond the table, whatever they are given: a holder or a target that isn't below n has no
 * rights, 0, and an endpoint that isn't below m, or a place or a slot that it hasn't got,
 * reads as a word of all ones. Its owner is then 255 and its capacity too, which no table
 * has. A table that no check has accepted must not be read by them: they rely on word 0.
 *
 * Example:
 *
 *     uint32_t owner = balkwizu_table_owner(table, 0);
 *     assert(owner == 1 && balkwizu_table_name(table, 0) == 17);
 *     assert(balkwizu_table_rights(table, 0, owner) == BALKWIZU_RIGHT_SEND);
 *     assert(balkwizu_table_owner(table, 1) == 255); // there is no endpoint 1
 */
static inline uint32_t balkwizu_table_domains(const uint32_t *table) BALKWIZU_NOEXCEPT
{
    return (table[0] >> 8) & 0xFFu;
}

static inline uint32_t balkwizu_table_endpoints(const uint32_t *table) BALKWIZU_NOEXCEPT
{
    return table[0] & 0xFFu;
}

static inline uint32_t balkwizu_table_rights(const uint32_t *table,
                                             uint32_t holder, uint32_t target)
    BALKWIZU_NOEXCEPT
{
    uint32_t n = balkwizu_table_domains(table);
    if (holder >= n || target >= n)
        return 0;
    return BALKWIZU_CONTENT(table[BALKWIZU_RIGHTS_AT(n, holder, target)]);
}

/* The word at one of the places of an endpoint. */
static inline uint32_t balkwizu_table_word(const uint32_t *table,
                                           uint32_t endpoint, uint32_t place)
    BALKWIZU_NOEXCEPT
{
    uint32_t n = balkwizu_table_domains(table);
    if (endpoint >= balkwizu_table_endpoints(table) || place >= BALKWIZU_ENDPOINT_WORDS)
        return 0xFFFFFFFFu;
    return table[BALKWIZU_ENDPOINT_AT(n, endpoint) + place];
}

static inline uint32_t balkwizu_table_name(const uint32_t *table,
                                           uint32_t endpoint) BALKWIZU_NOEXCEPT
{
    return BALKWIZU_CONTENT(
        balkwizu_table_word(table, endpoint, BALKWIZU_PLACE_NAME));
}

static inline uint32_t balkwizu_table_owner(const uint32_t *table,
                                            uint32_t endpoint) BALKWIZU_NOEXCEPT
{
    return (balkwizu_table_word(table, endpoint, BALKWIZU_PLACE_INFO) >> 8) & 0xFFu;
}

static inline uint32_t balkwizu_table_capacity(const uint32_t *table,
                                               uint32_t endpoint) BALKWIZU_NOEXCEPT
{
    return balkwizu_table_word(table, endpoint, BALKWIZU_PLACE_INFO) & 0xFFu;
}

static inline uint32_t balkwizu_table_waiting(const uint32_t *table,
                                              uint32_t endpoint) BALKWIZU_NOEXCEPT
{
    return BALKWIZU_CONTENT(
        balkwizu_table_word(table, endpoint, BALKWIZU_PLACE_WAITING));
}

static inline uint32_t balkwizu_table_lost(const uint32_t *table,
                                           uint32_t endpoint) BALKWIZU_NOEXCEPT
{
    return BALKWIZU_CONTENT(
        balkwizu_table_word(table, endpoint, BALKWIZU_PLACE_LOST));
}

/* The message in a slot: it is one where the slot is below the waiting count. */
static inline uint32_t balkwizu_table_message(const uint32_t *table,
                                              uint32_t endpoint, uint32_t slot)
    BALKWIZU_NOEXCEPT
{
    uint32_t place = slot < BALKWIZU_SLOTS ? BALKWIZU_PLACE_SLOTS + slot
                                           : BALKWIZU_ENDPOINT_WORDS;
    return BALKWIZU_CONTENT(balkwizu_table_word(table, endpoint, place));
}

/*
 * The words of a call list. A call's first word has its kind in bits 31-28, the
 * caller in bits 27-22, A in bits 21-16, B in bits 15-8 and C in bits 7-0; a field
 * that the call doesn't use is zero. A second word has kind 15 and its name or
 * message in bits 27-0. It is of one call with a look up or a send directly before
 * it; every other word is a call of its own, a word of kind 15 elsewhere too.
 *
 *   call          uses                         data words, where it isn't refused
 *   look up       second word: the name        the endpoint's number; 0
 *   send          B endpoint;                  0; 0
 *                 second word: the message
 *   receive       B endpoint                   the message; the endpoint's lost
 *                                              count
 *   my endpoints  nothing                      bit e is set for each endpoint e
 *                                              that the caller owns; 0
 *   my rights     nothing                      the caller's rights on target t in
 *                                              bits 4t to 4t + 3; on targets 8 to
 *                                              15 likewise in the second word
 *   grant         A target, B recipient,       0; 0
 *                 C rights
 *   remove        A target, C rights           0; 0
 *   revoke        A target, B holder,          0; 0, whether the holder had the
 *                 C rights                     rights or not
 *
 * A full queue: the oldest message is dropped, the send's own goes last, and the
 * endpoint's lost count rises by 1, up to BALKWIZU_LOST_MAX. The send is answered 0 as
 * if there had been space, so the sender doesn't learn it. The owner sees it in the lost
 * count, and the queue keeps the latest messages.
 *
 * The macros of a list's words are constants where what they are given is. A look up and
 * a send are directly followed by BALKWIZU_SECOND of their name or message, as in the
 * example of balkwizu_run. Kinds have 4 bits, caller and target 6, endpoint, recipient,
 * holder and rights 8, name and message 28. A number beyond its field makes
 * BALKWIZU_BAD_WORD, which no run serves: it is answered with 11, BALKWIZU_UNKNOWN_KIND,
 * for every table, and changes nothing. The words of a call may then be two calls:
 *   - where the first word of a look up or a send is such a word, the second word after
 *     it is a call of its own, answered with 10, BALKWIZU_STRAY;
 *   - where BALKWIZU_SECOND makes it, the call before has no second word and is answered
 *     with 14, and the word itself with 11.
 * So one call more is answered, and the answers of those after it move up by one.
 */
#define BALKWIZU_LOST_MAX 268435455
#define BALKWIZU_FIRST(kind, caller, a, b, c)                                  \
    (BALKWIZU_BEYOND(kind, 4) + BALKWIZU_BEYOND(caller, 6) +                   \
                 BALKWIZU_BEYOND(a, 6) + BALKWIZU_BEYOND(b, 8) +               \
                 BALKWIZU_BEYOND(c, 8) != 0                                    \
         ? BALKWIZU_BAD_WORD                                                   \
         : ((BALKWIZU_WORD(kind) << 28) | (BALKWIZU_WORD(caller) << 22) |      \
            (BALKWIZU_WORD(a) << 16) | (BALKWIZU_WORD(b) << 8) |               \
            BALKWIZU_WORD(c)))
#define BALKWIZU_SECOND(content) BALKWIZU_WORD_OF(15, content)
#define BALKWIZU_LOOK_UP(caller)                                               \
    BALKWIZU_FIRST(BALKWIZU_KIND_LOOK_UP, caller, 0, 0, 0)
#define BALKWIZU_SEND(caller, endpoint)                                        \
    BALKWIZU_FIRST(BALKWIZU_KIND_SEND, caller, 0, endpoint, 0)
#define BALKWIZU_RECEIVE(caller, endpoint)                                     \
    BALKWIZU_FIRST(BALKWIZU_KIND_RECEIVE, caller, 0, endpoint, 0)
#define BALKWIZU_MY_ENDPOINTS(caller)                                          \
    BALKWIZU_FIRST(BALKWIZU_KIND_MY_ENDPOINTS, caller, 0, 0, 0)
#define BALKWIZU_MY_RIGHTS(caller)                                             \
    BALKWIZU_FIRST(BALKWIZU_KIND_MY_RIGHTS, caller, 0, 0, 0)
#define BALKWIZU_GRANT(caller, target, recipient, rights)                      \
    BALKWIZU_FIRST(BALKWIZU_KIND_GRANT, caller, target, recipient, rights)
#define BALKWIZU_REMOVE(caller, target, rights)                                \
    BALKWIZU_FIRST(BALKWIZU_KIND_REMOVE, caller, target, 0, rights)
#define BALKWIZU_REVOKE(caller, target, holder, rights)                        \
    BALKWIZU_FIRST(BALKWIZU_KIND_REVOKE, caller, target, holder, rights)

/* The index of a call's first answer word; calls are counted from 0. */
#define BALKWIZU_ANSWER_AT(call) (BALKWIZU_ANSWER_WORDS * (call))

/*
 * The parts of that word: the call's kind in bits 31-28, its caller in bits
 * 27-22, its code in bits 15-0, the rest zero. A stray word's caller is 0 here.
 */
#define BALKWIZU_ANSWER_KIND(word) (BALKWIZU_WORD(word) >> 28)
#define BALKWIZU_ANSWER_CALLER(word) ((BALKWIZU_WORD(word) >> 22) & 63u)
#define BALKWIZU_ANSWER_CODE(word) (BALKWIZU_WORD(word) & 0xFFFFu)

/*
 * The other two are the data words of a call that was answered with code 0: test the code
 * first. A refused call has no data: both are zero, and read as endpoint 0, message 0, no
 * endpoint owned and no rights. `answer` points to the first of the three; these functions
 * read no other word, whatever the argument.
 */

/* Look up: the number of the endpoint that has the name. */
static inline uint32_t balkwizu_answer_endpoint(const uint32_t *answer) BALKWIZU_NOEXCEPT
{
    return answer[1];
}

/* Receive: the message that was taken out. */
static inline uint32_t balkwizu_answer_message(const uint32_t *answer) BALKWIZU_NOEXCEPT
{
    return answer[1];
}

/* Receive: the endpoint's lost count. */
static inline uint32_t balkwizu_answer_lost(const uint32_t *answer) BALKWIZU_NOEXCEPT
{
    return answer[2];
}

/* My endpoints: 1 where the caller owns the endpoint, 0 where it doesn't, as nobody does
   one from 32 on. */
static inline uint32_t balkwizu_answer_owns(const uint32_t *answer,
                                            uint32_t endpoint) BALKWIZU_NOEXCEPT
{
    return endpoint < BALKWIZU_ENDPOINTS_MAX ? (answer[1] >> endpoint) & 1u : 0u;
}

/* My rights: the caller's rights on a target, a set of enum balkwizu_right; on one from 16
   on it has none. */
static inline uint32_t balkwizu_answer_rights(const uint32_t *answer,
                                              uint32_t target) BALKWIZU_NOEXCEPT
{
    if (target >= BALKWIZU_DOMAINS_MAX)
        return 0;
    return (answer[1 + target / 8] >> (4 * (target % 8))) & 0xFu;
}

/* The parts of what balkwizu_run and the two other runs return. */
#define BALKWIZU_RUN_CODE(result) ((result).word & 0xFFFFu)
#define BALKWIZU_RUN_CALLS(result) ((result).word >> 16)

/*
 * Returns the release of the archive, in the form of BALKWIZU_VERSION. A header must not be
 * used with an archive of another release: firmware may compare them once, when it starts.
 *
 * Example:
 *
 *     assert(balkwizu_version() == BALKWIZU_VERSION);
 */
uint32_t balkwizu_version(void)
    BALKWIZU_NOEXCEPT BALKWIZU_MUST_USE;

/*
 * Checks a table image: len bytes that are little-endian words, as they are in flash or
 * came over a wire. Nothing is written.
 *
 * Returns BALKWIZU_OK (0), or the first of these that fails:
 *   2  BALKWIZU_TABLE_BAD_HEADER    under four bytes, or word 0 breaks its layout
 *   3  BALKWIZU_TABLE_BAD_LENGTH    len isn't four times the right number of words
 *   4  BALKWIZU_TABLE_BAD_RIGHTS    a rights word breaks its layout
 *   5  BALKWIZU_TABLE_BAD_ENDPOINT  an endpoint word does, or a name repeats
 *
 * Example:
 *
 *     const uint8_t *image = (const uint8_t *)table;
 *     assert(balkwizu_table_check(image, 4 * table_len) == BALKWIZU_OK);
 *     assert(balkwizu_table_check(image, 3) == BALKWIZU_TABLE_BAD_HEADER);
 */
uint32_t balkwizu_table_check(
    const uint8_t *BALKWIZU_RESTRICT bytes, uint64_t len)
    BALKWIZU_NOEXCEPT BALKWIZU_MUST_USE;

/*
 * Runs a list of calls on a table.
 *
 * Returns two numbers: the code (BALKWIZU_RUN_CODE), and the number of calls
 * (BALKWIZU_RUN_CALLS).
 *   0  BALKWIZU_OK: the list was run to its end. The table is as the last call
 *      left it. Call i has its three answer words at BALKWIZU_ANSWER_AT(i), its
 *      own code in the first. Words beyond three for each call are untouched.
 *   1  BALKWIZU_LIST_TOO_LONG
 *   2 to 5  as balkwizu_table_check answers, for the table's words
 *   6  BALKWIZU_WRONG_SPACE
 * With 1 to 6 the number of calls is 0, and no word of the table, of the answers
 * or of the holders was written. The list is never written.
 *
 * Holders are one word a domain: holders_len is n. Whatever they held, a list that
 * runs, an empty one too, leaves in word g the domains that have a right on domain g
 * now, bit h for domain h. They are kept call by call, so that nobody needs to search the
 * table after a run. balkwizu_who_reaches takes them; its comment says how long they are
 * right. (Request (h) of document 02.)
 *
 * Codes 10 to 23 are of single calls, in their answers; a call that is refused
 * doesn't end the run. 3 * list_len answer words are always enough.
 *
 * Example:
 *
 *     const uint32_t list[] = {
 *         BALKWIZU_SEND(0, 0), BALKWIZU_SECOND(5),
 *         BALKWIZU_RECEIVE(1, 0),
 *     };
 *     uint32_t answers[2 * BALKWIZU_ANSWER_WORDS], holders[2];
 *     balkwizu_result result =
 *         balkwizu_run(table, table_len, list, BALKWIZU_COUNT(list),
 *                      answers, BALKWIZU_COUNT(answers), holders, BALKWIZU_COUNT(holders));
 *     assert(BALKWIZU_RUN_CODE(result) == BALKWIZU_OK);
 *     assert(BALKWIZU_RUN_CALLS(result) == 2);
 *     const uint32_t *received = answers + BALKWIZU_ANSWER_AT(1);
 *     assert(BALKWIZU_ANSWER_CODE(received[0]) == BALKWIZU_OK);
 *     assert(balkwizu_answer_message(received) == 5);
 *     assert(holders[1] == 1); // domain 0 alone has a right on domain 1
 */
balkwizu_result balkwizu_run(
    uint32_t *BALKWIZU_RESTRICT table, uint64_t table_len,
    const uint32_t *BALKWIZU_RESTRICT list, uint64_t list_len,
    uint32_t *BALKWIZU_RESTRICT answers, uint64_t answers_len,
    uint32_t *BALKWIZU_RESTRICT holders, uint64_t holders_len)
    BALKWIZU_NOEXCEPT BALKWIZU_MUST_USE;

/*
 * Does the same run in a working layout, for long lists. What the comment of balkwizu_run
 * says holds for it too: for every table and every list both return the same result and
 * leave the same answers, holders and table words. (Request (l) of document 02.)
 *
 * After the checks it loads the table, the rights as rows of small numbers and each queue
 * as a ring of eight places, serves all calls on that, and stores the table once, at the
 * end. The layout is on the stack: this run takes BALKWIZU_RUN_WORKING_STACK_BYTES where
 * balkwizu_run takes BALKWIZU_RUN_STACK_BYTES.
 *
 * Each call is cheaper here, but loading and storing come on top. From which length on
 * this run is faster depends on the table, the calls and the processor: from some tens of
 * words where nearly all calls are for rights and names to over a thousand where nearly
 * all are sends and receives. `bench
 * speed --lengths` measures it, and docs/BENCHMARKS.md has what was measured.
 *
 * Example:
 *
 *     const uint32_t list[] = { BALKWIZU_MY_RIGHTS(0) };
 *     uint32_t answer[BALKWIZU_ANSWER_WORDS], holders[2];
 *     balkwizu_result result =
 *         balkwizu_run_working(table, table_len, list, BALKWIZU_COUNT(list), answer,
 *                              BALKWIZU_COUNT(answer), holders, BALKWIZU_COUNT(holders));
 *     assert(BALKWIZU_RUN_CODE(result) == BALKWIZU_OK);
 *     assert(BALKWIZU_ANSWER_CODE(answer[0]) == BALKWIZU_OK);
 *     assert(balkwizu_answer_rights(answer, 1) == BALKWIZU_RIGHT_SEND);
 */
balkwizu_result balkwizu_run_working(
    uint32_t *BALKWIZU_RESTRICT table, uint64_t table_len,
    const uint32_t *BALKWIZU_RESTRICT list, uint64_t list_len,
    uint32_t *BALKWIZU_RESTRICT answers, uint64_t answers_len,
    uint32_t *BALKWIZU_RESTRICT holders, uint64_t holders_len)
    BALKWIZU_NOEXCEPT BALKWIZU_MUST_USE;

/*
 * Does the same run, and chooses by the list's length: a list of 128 words or more runs as
 * by balkwizu_run_working, a shorter one as by balkwizu_run. What the comment of
 * balkwizu_run says holds for it too. Only time and stack show which run it chose.
 *
 * Use this one of the three. Use balkwizu_run where the stack is too small for
 * BALKWIZU_RUN_BY_LENGTH_STACK_BYTES, or where every list is short;
 * balkwizu_run_working where every list is long.
 *
 * Example:
 *
 *     const uint32_t list[] = { BALKWIZU_LOOK_UP(0), BALKWIZU_SECOND(17) };
 *     uint32_t answer[BALKWIZU_ANSWER_WORDS], holders[2];
 *     balkwizu_result result =
 *         balkwizu_run_by_length(table, table_len, list, BALKWIZU_COUNT(list), answer,
 *                                BALKWIZU_COUNT(answer), holders, BALKWIZU_COUNT(holders));
 *     assert(BALKWIZU_RUN_CODE(result) == BALKWIZU_OK);
 *     assert(BALKWIZU_ANSWER_CODE(answer[0]) == BALKWIZU_OK);
 *     assert(balkwizu_answer_endpoint(answer) == 0);
 */
balkwizu_result balkwizu_run_by_length(
    uint32_t *BALKWIZU_RESTRICT table, uint64_t table_len,
    const uint32_t *BALKWIZU_RESTRICT list, uint64_t list_len,
    uint32_t *BALKWIZU_RESTRICT answers, uint64_t answers_len,
    uint32_t *BALKWIZU_RESTRICT holders, uint64_t holders_len)
    BALKWIZU_NOEXCEPT BALKWIZU_MUST_USE;

/*
 * Computes the holders of a table, by a run of no call, which leaves the table as it is.
 * Use it before the first question about a table, and after anything but a run, a step or a
 * turn has written the table: a repair, for example. It is compiled into the firmware and
 * takes its own few words of stack beside BALKWIZU_RUN_STACK_BYTES.
 *
 * Returns one code: 0, 2 to 5 as balkwizu_table_check answers for the table's words, or 6,
 * BALKWIZU_WRONG_SPACE, where holders_len isn't n. With another code than 0 no word was
 * written, and the holders must not be used.
 *
 * Example:
 *
 *     uint32_t holders[2];
 *     uint32_t code =
 *         balkwizu_fill_holders(table, table_len, holders, BALKWIZU_COUNT(holders));
 *     assert(code == BALKWIZU_OK && holders[0] == 0 && holders[1] == 1);
 */
static inline uint32_t balkwizu_fill_holders(
    uint32_t *BALKWIZU_RESTRICT table, uint64_t table_len,
    uint32_t *BALKWIZU_RESTRICT holders, uint64_t holders_len)
    BALKWIZU_NOEXCEPT BALKWIZU_MUST_USE;

static inline uint32_t balkwizu_fill_holders(
    uint32_t *BALKWIZU_RESTRICT table, uint64_t table_len,
    uint32_t *BALKWIZU_RESTRICT holders, uint64_t holders_len) BALKWIZU_NOEXCEPT
{
    const uint32_t no_list[1] = { 0 };
    uint32_t no_answers[1] = { 0 };
    return BALKWIZU_RUN_CODE(balkwizu_run(table, table_len, no_list, 0, no_answers, 0,
                                          holders, holders_len));
}

/* The code in what balkwizu_who_reaches returns. */
#define BALKWIZU_REACHES_CODE(result) ((result).word & 0xFFFFu)

/* Returns 0 where the domain has no chain of rights to the one in question, else 1. */
static inline uint32_t balkwizu_may_reach(balkwizu_result result, uint32_t domain)
    BALKWIZU_NOEXCEPT
{
    return balkwizu_not_excluded(result, domain);
}

/*
 * Finds who can reach a domain: every domain with a chain of rights to it, of any length,
 * itself included, by the holders that are lent. Nothing is written.
 *
 * The answer is about those words alone. It is about a table only where they are its
 * holders: those that a run, balkwizu_step, a turn that served a call,
 * balkwizu_turns_begin or balkwizu_fill_holders left for this table with code 0, until
 * anything else writes the table or them. No function notices holders that are out of
 * date: by words of 0, only the domain itself reaches it. When in doubt, call
 * balkwizu_fill_holders first.
 *
 * Returns two things: the code (BALKWIZU_REACHES_CODE), and in bit 16 + u of the word
 * whether domain u has a chain (balkwizu_may_reach).
 *   0   BALKWIZU_OK
 *   32  BALKWIZU_BAD_QUESTION: holders_len isn't 1 to 16, a word has a bit from
 *       holders_len on, or domain isn't below holders_len; no bit is set, and
 *       balkwizu_may_reach returns 1 for every domain
 *
 * Example:
 *
 *     uint32_t holders[2];
 *     uint32_t code =
 *         balkwizu_fill_holders(table, table_len, holders, BALKWIZU_COUNT(holders));
 *     assert(code == BALKWIZU_OK);
 *     balkwizu_result result = balkwizu_who_reaches(holders, BALKWIZU_COUNT(holders), 1);
 *     assert(BALKWIZU_REACHES_CODE(result) == BALKWIZU_OK);
 *     assert(balkwizu_may_reach(result, 0) == 1);
 *     result = balkwizu_who_reaches(holders, BALKWIZU_COUNT(holders), 0);
 *     assert(BALKWIZU_REACHES_CODE(result) == BALKWIZU_OK);
 *     assert(balkwizu_may_reach(result, 1) == 0); // domain 1 has no right at all
 *     result = balkwizu_who_reaches(holders, BALKWIZU_COUNT(holders), 2);
 *     assert(BALKWIZU_REACHES_CODE(result) == BALKWIZU_BAD_QUESTION);
 *     assert(balkwizu_may_reach(result, 1) == 1); // nothing is known of domain 2
 */
balkwizu_result balkwizu_who_reaches(
    const uint32_t *BALKWIZU_RESTRICT holders, uint64_t holders_len,
    uint32_t domain)
    BALKWIZU_NOEXCEPT BALKWIZU_MUST_USE;

/* The code in what balkwizu_component returns. */
#define BALKWIZU_COMPONENT_CODE(result) ((result).word & 0xFFFFu)

/* Returns 0 where the domain is no member of the component, else 1. */
static inline uint32_t balkwizu_may_be_in_component(balkwizu_result result, uint32_t domain)
    BALKWIZU_NOEXCEPT
{
    return balkwizu_not_excluded(result, domain);
}

/*
 * Finds the connected component of a domain in a table: two domains are joined when either
 * has a right on the other, and the component is the domain with all that such joins
 * connect it with, however many. No list of calls lets a domain influence one outside the
 * component that it has before the list. Without all the calls from outside it, a domain
 * has the same answers, rights, queues and lost counts. This is about calls: a look up
 * also finds endpoints of other components, by their names, which no call alters. Nothing
 * is written.
 *
 * Returns two things: the code (BALKWIZU_COMPONENT_CODE), and in bit 16 + u of the word
 * whether domain u is a member (balkwizu_may_be_in_component).
 *   0       BALKWIZU_OK
 *   2 to 5  as balkwizu_table_check answers, for the table's words
 *   32      BALKWIZU_BAD_QUESTION: the domain isn't below n
 * With 2 to 5 and 32 no bit is set, and balkwizu_may_be_in_component returns 1 for every
 * domain.
 *
 * Example:
 *
 *     balkwizu_result result = balkwizu_component(table, table_len, 0);
 *     assert(BALKWIZU_COMPONENT_CODE(result) == BALKWIZU_OK);
 *     assert(balkwizu_may_be_in_component(result, 1) == 1);
 */
balkwizu_result balkwizu_component(
    const uint32_t *BALKWIZU_RESTRICT table, uint64_t table_len,
    uint32_t domain)
    BALKWIZU_NOEXCEPT BALKWIZU_MUST_USE;

/* The index of the rights that a holder could ever have on a target. */
#define BALKWIZU_POTENTIAL_AT(n, holder, target) ((holder) * (n) + (target))

/*
 * Computes potential rights: those that each domain could ever have on each domain after
 * any list of calls by the actors alone, of any length. Actors are a set of domains, bit u
 * for domain u. They are exact: no list by actors gives a right that isn't among them, and
 * one list gives them all. The table isn't written.
 *
 * Returns one code:
 *   0       BALKWIZU_OK: word BALKWIZU_POTENTIAL_AT(n, h, g) of rights is the set, of
 *           enum balkwizu_right, that domain h could ever have on domain g; what it
 *           has in the table is part of it
 *   2 to 5  as balkwizu_table_check answers, for the table's words
 *   6       BALKWIZU_WRONG_SPACE: rights_len isn't n * n
 *   32      BALKWIZU_BAD_QUESTION: actors has a bit from n on
 * With another code than 0 no word was written.
 *
 * Example:
 *
 *     uint32_t rights[4];
 *     uint32_t everybody = 3; // both domains act
 *     uint32_t code = balkwizu_potential(table, table_len, everybody, rights, 4);
 *     assert(code == BALKWIZU_OK);
 *     assert(rights[BALKWIZU_POTENTIAL_AT(2, 0, 1)] == BALKWIZU_RIGHT_SEND);
 *     assert(rights[BALKWIZU_POTENTIAL_AT(2, 1, 0)] == 0); // and there never is one
 */
uint32_t balkwizu_potential(
    const uint32_t *BALKWIZU_RESTRICT table, uint64_t table_len,
    uint32_t actors,
    uint32_t *BALKWIZU_RESTRICT rights, uint64_t rights_len)
    BALKWIZU_NOEXCEPT BALKWIZU_MUST_USE;

/* The code in what balkwizu_could_influence returns. */
#define BALKWIZU_INFLUENCE_CODE(result) ((result).word & 0xFFFFu)

/* Returns 0 where the domain could never influence the one in question, else 1. */
static inline uint32_t balkwizu_may_influence(balkwizu_result result, uint32_t domain)
    BALKWIZU_NOEXCEPT
{
    return balkwizu_not_excluded(result, domain);
}

/*
 * Finds who could ever influence a domain by any list of calls of the actors alone, of any
 * length: the domain itself, and each actor from which a chain of potential rights
 * (balkwizu_potential) leads to it, through other actors. Actors are a set of domains, bit
 * u for domain u. In any list of their calls, the calls of domains that are not reported
 * can be left out: the domain has the same answers, rights, queues and lost counts without
 * them. Chains of rights in a table don't show this, not even in every table along a list:
 * rights are used, passed on and removed on the way.
 *
 * It is exact for the source set, by which influence along a list is defined: no list by
 * actors makes another domain a source, and one list makes all that are reported
 * sources. A source need not be able to alter what the domain sees: one that has REMOVE on
 * it and no other right is reported too. Nothing is written.
 *
 * Returns two things: the code (BALKWIZU_INFLUENCE_CODE), and in bit 16 + u of the word
 * whether domain u could influence it (balkwizu_may_influence).
 *   0       BALKWIZU_OK
 *   2 to 5  as balkwizu_table_check answers, for the table's words
 *   32      BALKWIZU_BAD_QUESTION: the domain isn't below n, or actors has a bit from
 *           n on
 * With 2 to 5 and 32 no bit is set, and balkwizu_may_influence returns 1 for every domain.
 * The potential rights are computed on the stack, in 1,024 bytes of it.
 *
 * Example:
 *
 *     uint32_t everybody = 3; // both domains act
 *     balkwizu_result result = balkwizu_could_influence(table, table_len, everybody, 1);
 *     assert(BALKWIZU_INFLUENCE_CODE(result) == BALKWIZU_OK);
 *     assert(balkwizu_may_influence(result, 0) == 1);
 *     result = balkwizu_could_influence(table, table_len, everybody, 0);
 *     assert(BALKWIZU_INFLUENCE_CODE(result) == BALKWIZU_OK);
 *     assert(balkwizu_may_influence(result, 1) == 0); // by no list of calls
 */
balkwizu_result balkwizu_could_influence(
    const uint32_t *BALKWIZU_RESTRICT table, uint64_t table_len,
    uint32_t actors,
    uint32_t domain)
    BALKWIZU_NOEXCEPT BALKWIZU_MUST_USE;

/* The parts of what balkwizu_repair returns, and the most words that it needs. */
#define BALKWIZU_REPAIR_CODE(result) ((result).word & 0xFFFFu)
#define BALKWIZU_REPAIR_ALTERED(result) ((result).word >> 16)
#define BALKWIZU_CHANGES_WORDS_MAX 1152

/*
 * Repairs a table that is refused with 4 or 5, without adding a right: a broken rights
 * word becomes an empty set, and an endpoint with a broken waiting, lost or slot word gets
 * an empty queue and lost 0. For each word that was altered, lowest index first, it writes
 * two words to changes: the index, from 0, and the old word. A sound table stays and has
 * no changes. Compute the holders anew after it, with balkwizu_fill_holders.
 *
 * Returns two numbers: the code (BALKWIZU_REPAIR_CODE), and how many words were altered
 * (BALKWIZU_REPAIR_ALTERED).
 *   0   BALKWIZU_OK: balkwizu_table_check accepts the table now
 *   33  BALKWIZU_NOT_REPAIRABLE
 *   34  BALKWIZU_CHANGES_TOO_SHORT
 * With 33 and 34 no word was written. Words of changes after the pairs are untouched.
 * BALKWIZU_CHANGES_WORDS_MAX words are enough for any table. The table is repaired in a
 * copy on the stack first, of 2,564 bytes.
 *
 * Example:
 *
 *     static uint32_t changes[BALKWIZU_CHANGES_WORDS_MAX];
 *     table[1] = 0x20000037u; // as read from a worn card
 *     balkwizu_result result =
 *         balkwizu_repair(table, table_len, changes, BALKWIZU_COUNT(changes));
 *     assert(BALKWIZU_REPAIR_CODE(result) == BALKWIZU_OK);
 *     assert(BALKWIZU_REPAIR_ALTERED(result) == 1);
 *     assert(table[1] == BALKWIZU_TABLE_RIGHTS(0));
 *     assert(changes[0] == 1 && changes[1] == 0x20000037u);
 */
balkwizu_result balkwizu_repair(
    uint32_t *BALKWIZU_RESTRICT table, uint64_t table_len,
    uint32_t *BALKWIZU_RESTRICT changes, uint64_t changes_len)
    BALKWIZU_NOEXCEPT BALKWIZU_MUST_USE;

/*
 * A call as balkwizu_write takes it: five words, here called columns. They are its
 * kind, its caller, A, B, and C or, for a look up and a send, what the second word
 * holds. A column that the call doesn't use is 0:
 *
 *   kind                        caller  A       B          last
 *   BALKWIZU_KIND_LOOK_UP       caller  0       0          name
 *   BALKWIZU_KIND_SEND          caller  0       endpoint   message
 *   BALKWIZU_KIND_RECEIVE       caller  0       endpoint   0
 *   BALKWIZU_KIND_MY_ENDPOINTS  caller  0       0          0
 *   BALKWIZU_KIND_MY_RIGHTS     caller  0       0          0
 *   BALKWIZU_KIND_GRANT         caller  target  recipient  rights
 *   BALKWIZU_KIND_REMOVE        caller  target  0          rights
 *   BALKWIZU_KIND_REVOKE        caller  target  holder     rights
 *
 * In columns a number is a whole word, so that one which exceeds its bits is refused and
 * not cut.
 */
#define BALKWIZU_CALL_COLUMNS 5

/*
 * The result of balkwizu_write: a structure, so that it can't be compared with a code
 * either. The function of the archive returns the number, which on a 32-bit processor is
 * in other registers than a structure of its length. So the macro balkwizu_write makes the
 * structure.
 */
typedef struct {
    uint64_t number;
} balkwizu_written;

static inline balkwizu_written balkwizu_as_written(uint64_t number)
    BALKWIZU_NOEXCEPT BALKWIZU_MUST_USE;

static inline balkwizu_written balkwizu_as_written(uint64_t number) BALKWIZU_NOEXCEPT
{
    balkwizu_written written = { number };
    return written;
}

/* Its parts: the code, and the number that belongs to the code. */
#define BALKWIZU_WRITE_CODE(result) (balkwizu_write_code(result))
#define BALKWIZU_WRITE_NUMBER(result) (balkwizu_write_number(result))

static inline uint32_t balkwizu_write_code(balkwizu_written result) BALKWIZU_NOEXCEPT
{
    if (result.number <= BALKWIZU_LIST_WORDS_MAX)
        return BALKWIZU_OK;
    if (result.number == BALKWIZU_LIST_WORDS_MAX + 1)
        return BALKWIZU_WRITTEN_TOO_LONG;
    return BALKWIZU_BAD_CALL;
}

static inline uint64_t balkwizu_write_number(balkwizu_written result) BALKWIZU_NOEXCEPT
{
    if (result.number <= BALKWIZU_LIST_WORDS_MAX)
        return result.number;
    if (result.number == BALKWIZU_LIST_WORDS_MAX + 1)
        return 0;
    return result.number - (BALKWIZU_LIST_WORDS_MAX + 2);
}

/*
 * Writes a list out of calls, in words that a run decodes into the same calls: none of
 * them is answered with 10, 11, 13 or 14. Two different lists of calls are never written
 * in the same words. No table is used: caller and target have 6 bits, endpoint,
 * recipient, holder and rights 8, name and message 28. A run may still refuse a call for
 * a number that fits its bits.
 *
 * Returns a code (BALKWIZU_WRITE_CODE) and a number (BALKWIZU_WRITE_NUMBER) in one number
 * of 64 bits, the member of a balkwizu_written:
 *   up to 4,096  BALKWIZU_OK, 0: so many words are written at the front of the list.
 *                Words after them are untouched.
 *   4,097        BALKWIZU_WRITTEN_TOO_LONG, 31: every call can be written, but their
 *                words would be more than 4,096 or than list_len. The number is 0.
 *   4,098 + k    BALKWIZU_BAD_CALL, 30: call k, counted from 0, is the first that has an
 *                unknown kind, a column not 0 that it doesn't use, or a field that
 *                exceeds its bits. Fewer than five words at the end are such a call
 *                too. All calls are tested, however many.
 * With 30 and 31 no word of the list was written. The calls are never written.
 *
 * Example:
 *
 *     const uint32_t calls[] = {
 *         BALKWIZU_KIND_SEND, 0, 0, 0, 5,
 *         BALKWIZU_KIND_RECEIVE, 1, 0, 0, 0,
 *     };
 *     static uint32_t list[BALKWIZU_LIST_WORDS_MAX];
 *     balkwizu_written result =
 *         balkwizu_write(calls, BALKWIZU_COUNT(calls), list, BALKWIZU_COUNT(list));
 *     assert(BALKWIZU_WRITE_CODE(result) == BALKWIZU_OK);
 *     assert(BALKWIZU_WRITE_NUMBER(result) == 3);
 *     assert(list[0] == BALKWIZU_SEND(0, 0) && list[1] == BALKWIZU_SECOND(5));
 */
uint64_t balkwizu_write(
    const uint32_t *BALKWIZU_RESTRICT calls, uint64_t calls_len,
    uint32_t *BALKWIZU_RESTRICT list, uint64_t list_len)
    BALKWIZU_NOEXCEPT BALKWIZU_MUST_USE;

#define balkwizu_write(calls, calls_len, list, list_len)                       \
    (balkwizu_as_written((balkwizu_write)(calls, calls_len, list, list_len)))

/*
 * Runs a single call, as a run of a list of that call alone, for a line that uses the
 * holders after each call. `words` are the call's, one or two, as in a list. The function
 * is in libbalkwizu_turns.a and needs no state.
 *
 * Returns one code, the first that applies:
 *   0       BALKWIZU_OK: the call was run, and its own code is in the first of the three
 *           answer words, as in a run. Answer words beyond the third are untouched. The
 *           holders are those of the table now.
 *   36      BALKWIZU_NOT_ONE_CALL: the words aren't exactly one call (a second word alone
 *           is one here as in a list, and answered with 10)
 *   6       BALKWIZU_WRONG_SPACE: answer_len is under 3
 *   2 to 5  as balkwizu_table_check answers, for the table's words
 *   6       BALKWIZU_WRONG_SPACE, after 2 to 5: holders_len isn't n
 * With another code than 0 no word was written.
 *
 * Example:
 *
 *     uint32_t holders[2], answer[BALKWIZU_ANSWER_WORDS];
 *     const uint32_t call[] = { BALKWIZU_SEND(0, 0), BALKWIZU_SECOND(5) };
 *     uint32_t code =
 *         balkwizu_step(table, table_len, holders, BALKWIZU_COUNT(holders),
 *                       call, BALKWIZU_COUNT(call), answer, BALKWIZU_COUNT(answer));
 *     assert(code == BALKWIZU_OK);
 *     assert(BALKWIZU_ANSWER_CODE(answer[0]) == BALKWIZU_OK);
 *     balkwizu_result result = balkwizu_who_reaches(holders, BALKWIZU_COUNT(holders), 1);
 *     assert(BALKWIZU_REACHES_CODE(result) == BALKWIZU_OK);
 *     assert(balkwizu_may_reach(result, 0) == 1);
 */
uint32_t balkwizu_step(
    uint32_t *BALKWIZU_RESTRICT table, uint64_t table_len,
    uint32_t *BALKWIZU_RESTRICT holders, uint64_t holders_len,
    const uint32_t *BALKWIZU_RESTRICT words, uint64_t words_len,
    uint32_t *BALKWIZU_RESTRICT answer, uint64_t answer_len)
    BALKWIZU_NOEXCEPT BALKWIZU_MUST_USE;

/*
 * Turns: a layer above the kernel for a line on which each domain hands in its calls
 * one by one, in an archive of its own, libbalkwizu_turns.a. What it keeps is in words
 * that the firmware lends, here called the state: BALKWIZU_TURNS_WORDS(n) of them for a
 * table of n domains.
 *
 *   word 0     where the next turn starts: one more than the domain served last, 0 at first
 *   then 17 words for each domain, lowest number first:
 *     count    how many of its words are pending, at BALKWIZU_TURNS_COUNT_AT
 *     16 words its pending calls, oldest first; words from the count on are old ones
 *              and are ignored
 *
 * The example of balkwizu_turn uses all functions.
 *
 * While nothing but turns alters the table, and nothing but handing in and turns the
 * state, this is proved: the oldest pending call of a domain is served within n turns
 * that aren't refused, and the k-th within k times n, so each within 16 times n,
 * whatever others hand in; the calls served get, in order, the answers that a run of
 * them as one list gives, however many they are; and where each function is lent the
 * holders that the one before it left, they are those of the table, from the beginning
 * on.
 *
 * The layer isn't reentrant. A turn and a call that is handed in both read and write
 * the state, so an interrupt must not hand in during a turn, nor while another hands
 * in: it waits, or its calls are held until the turn is over. firmware/turns.c shows
 * how. An interrupt that hands in is a caller of this code like any other: the
 * requirements above for stack, alignment and xmm registers hold for it too.
 *
 * The functions accept arbitrary words as a state, without fault: a count above 16 is read
 * as 16, and where word 0 isn't below n a turn starts at 0. In a state that only these
 * functions wrote, each domain's pending calls are its own; a damaged state may hold calls
 * of any caller, and a turn serves them.
 */
#define BALKWIZU_PENDING_WORDS 16
#define BALKWIZU_TURNS_WORDS(n) (1 + (1 + BALKWIZU_PENDING_WORDS) * (n))
#define BALKWIZU_TURNS_WORDS_MAX 273

/* The index of the count of a domain's pending words, which come after it. */
#define BALKWIZU_TURNS_COUNT_AT(domain) BALKWIZU_TURNS_WORDS(domain)

/*
 * Returns the release of the archive of the turns, as balkwizu_version does of the other.
 *
 * Example:
 *
 *     assert(balkwizu_turns_version() == BALKWIZU_VERSION);
 */
uint32_t balkwizu_turns_version(void)
    BALKWIZU_NOEXCEPT BALKWIZU_MUST_USE;

/*
 * Begins: nothing is pending, the first turn of all starts at 0, and the holders are those
 * of the table, as after a run. Lengths are in words.
 *
 * Returns one code:
 *   0       BALKWIZU_OK: every word of the state is 0, and holders are as a run of an
 *           empty list leaves them
 *   2 to 5  as balkwizu_table_check answers, for the table's words
 *   6       BALKWIZU_WRONG_SPACE: holders_len isn't n
 *   99      BALKWIZU_BAD_TURNS
 * With another code than 0 no word was written. The table is never written.
 */
uint32_t balkwizu_turns_begin(
    const uint32_t *BALKWIZU_RESTRICT table, uint64_t table_len,
    uint32_t *BALKWIZU_RESTRICT state, uint64_t state_len,
    uint32_t *BALKWIZU_RESTRICT holders, uint64_t holders_len)
    BALKWIZU_NOEXCEPT BALKWIZU_MUST_USE;

/*
 * Hands in the words of one call for a domain: they go after those that are pending.
 * They are as in a list. A call that will be refused can be handed in too, and is
 * answered when it is served.
 *
 * Returns one code:
 *   0       BALKWIZU_OK: the call is pending
 *   2 to 5  as balkwizu_table_check answers, for the table's words
 *   35      BALKWIZU_HAND_IN_BAD_DOMAIN
 *   36      BALKWIZU_NOT_ONE_CALL
 *   99      BALKWIZU_BAD_TURNS
 *   37      BALKWIZU_NO_ROOM: it can be handed in once the domain was served
 * With another code than 0 no word was written. Table and words are never written.
 */
uint32_t balkwizu_hand_in(
    const uint32_t *BALKWIZU_RESTRICT table, uint64_t table_len,
    uint32_t *BALKWIZU_RESTRICT state, uint64_t state_len,
    uint32_t domain,
    const uint32_t *BALKWIZU_RESTRICT words, uint64_t words_len)
    BALKWIZU_NOEXCEPT BALKWIZU_MUST_USE;

/* The parts of what balkwizu_turn returns. */
#define BALKWIZU_TURN_CODE(result) ((result).word & 0xFFFFu)
#define BALKWIZU_TURN_SERVED(result) ((result).word >> 16)

/*
 * Takes a turn: starts after the domain served last, goes up and round to 0, and serves
 * the oldest call of the first domain that has one pending. With none pending it is idle.
 *
 * Returns two numbers: the code (BALKWIZU_TURN_CODE), and the calls served
 * (BALKWIZU_TURN_SERVED), 1 or 0.
 *   0       BALKWIZU_OK. Where a call was served, its three answer words are the first
 *           of answer, as in a run, with its caller (BALKWIZU_ANSWER_CALLER);
 *           table and holders are as a run of that call leaves them. Answer words
 *           beyond the third are untouched. Where the turn was idle no word was
 *           written, nor of the holders; an idle turn needs no answer words.
 *   2 to 5  as balkwizu_table_check answers, for the table's words
 *   6       BALKWIZU_WRONG_SPACE: holders_len isn't n
 *   99      BALKWIZU_BAD_TURNS
 *   6       BALKWIZU_WRONG_SPACE, after 99: a call is pending and answer_len is under 3
 * With another code than 0 nothing is served and no word was written. The table is
 * checked at every turn; with many endpoints that is most of what a turn costs.
 *
 * Example:
 *
 *     static uint32_t state[BALKWIZU_TURNS_WORDS(2)], holders[2];
 *     const uint32_t call[] = { BALKWIZU_SEND(0, 0), BALKWIZU_SECOND(5) };
 *     uint32_t answer[BALKWIZU_ANSWER_WORDS];
 *     uint32_t code = balkwizu_turns_begin(table, table_len,
 *                                          state, BALKWIZU_TURNS_WORDS(2), holders, 2);
 *     assert(code == BALKWIZU_OK);
 *     code = balkwizu_hand_in(table, table_len,
 *                             state, BALKWIZU_TURNS_WORDS(2), 0, call, 2);
 *     assert(code == BALKWIZU_OK);
 *     balkwizu_result result = balkwizu_turn(table, table_len,
 *                                            state, BALKWIZU_TURNS_WORDS(2), holders, 2,
 *                                            answer, BALKWIZU_ANSWER_WORDS);
 *     assert(BALKWIZU_TURN_CODE(result) == BALKWIZU_OK);
 *     assert(BALKWIZU_TURN_SERVED(result) == 1);
 *     assert(BALKWIZU_ANSWER_CALLER(answer[0]) == 0); // whose call it was
 *     assert(balkwizu_table_message(table, 0, 0) == 5);
 */
balkwizu_result balkwizu_turn(
    uint32_t *BALKWIZU_RESTRICT table, uint64_t table_len,
    uint32_t *BALKWIZU_RESTRICT state, uint64_t state_len,
    uint32_t *BALKWIZU_RESTRICT holders, uint64_t holders_len,
    uint32_t *BALKWIZU_RESTRICT answer, uint64_t answer_len)
    BALKWIZU_NOEXCEPT BALKWIZU_MUST_USE;

#ifdef __cplusplus
}
#endif

#endif /* BALKWIZU_H */
