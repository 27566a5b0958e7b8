/*
 * plain_run.c: the run of a list on a table, codes 1 to 6 and 10 to 23.
 *
 * Rights are taken in once for a run, one 64-bit row for each domain with four
 * bits for each target, so that a right is tested by a shift and `my rights` is
 * the row itself; a grant, a remove or a revoke writes the row and the table's word.
 * Names are side by side for look up, and so do the sets of endpoints owned.
 * Queues are worked on in the table. The holders' words are worked out with the rows
 * and then kept call by call.
 */
#include "plain.h"

#include <string.h>

enum { SEND = 1, GRANT = 2, REMOVE = 4, REVOKE = 8, ALL = 15 };
enum { NAME, INFO, WAITING, LOST, SLOTS, ENDPOINT_WORDS = 12 };
enum { LIST_WORDS_MAX = 4096, DOMAINS_MAX = 16, ENDPOINTS_MAX = 32 };

#define CONTENT 0x0FFFFFFFu
#define EMPTY_SLOT 0xF0000000u

struct line {
    uint32_t *table;
    uint32_t *endpoints; /* the first endpoint's words */
    uint32_t *holders;   /* bit h of word g: domain h has a right on g */
    uint32_t n, m;
    uint64_t rights[DOMAINS_MAX];
    uint32_t owned[DOMAINS_MAX];
    uint32_t names[ENDPOINTS_MAX];
};

/* A call's words; second is 0 where there is no second word. */
struct call {
    uint32_t first, second;
};

static inline uint32_t kind_of(uint32_t word) { return word >> 28; }
static inline uint32_t caller_of(uint32_t first) { return (first >> 22) & 63u; }
static inline uint32_t field_a(uint32_t first) { return (first >> 16) & 63u; }
static inline uint32_t field_b(uint32_t first) { return (first >> 8) & 255u; }
static inline uint32_t field_c(uint32_t first) { return first & 255u; }

static inline uint32_t rights_on(const struct line *line, uint32_t holder,
                                 uint32_t target)
{
    return (uint32_t)(line->rights[holder] >> (4 * target)) & ALL;
}

/* 1 where two words make one call, otherwise 0. */
static inline uint32_t pairs(uint32_t first, uint32_t next)
{
    uint32_t takes_two = kind_of(first) - 1u < 2u;
    uint32_t is_second = next >= 0xF0000000u;
    return takes_two & is_second;
}

/*
 * Every word is a call but the second word of a pair. A word of kind 15 starts
 * no pair, so pairs never share a word and can be counted side by side.
 */
static size_t count_calls(const uint32_t *list, size_t len)
{
    uint32_t seconds = 0;
    for (size_t i = 1; i < len; i++)
        seconds += pairs(list[i - 1], list[i]);
    return len - seconds;
}

static void take_in_rights(struct line *line)
{
    const uint32_t *word = line->table + 1;
    memset(line->holders, 0, line->n * sizeof *line->holders);
    for (uint32_t holder = 0; holder < line->n; holder++) {
        uint64_t row = 0;
        for (uint32_t target = 0; target < line->n; target++) {
            uint32_t rights = *word++ & ALL;
            row |= (uint64_t)rights << (4 * target);
            line->holders[target] |= (uint32_t)(rights != 0) << holder;
        }
        line->rights[holder] = row;
    }
}

/* The holders' words after the rights of a holder on a target were written. */
static inline void note(struct line *line, uint32_t holder, uint32_t target)
{
    uint32_t any = rights_on(line, holder, target) != 0;
    uint32_t others = line->holders[target] & ~(1u << holder);
    line->holders[target] = others | any << holder;
}

static void take_in(struct line *line, uint32_t *table, uint32_t *holders)
{
    line->table = table;
    line->holders = holders;
    line->n = (table[0] >> 8) & 255u;
    line->m = table[0] & 255u;
    line->endpoints = table + 1 + (size_t)line->n * line->n;
    take_in_rights(line);
    memset(line->owned, 0, sizeof line->owned);
    memset(line->names, 0xFF, sizeof line->names); /* no name: above 28 bits */
    for (uint32_t e = 0; e < line->m; e++) {
        const uint32_t *words = line->endpoints + ENDPOINT_WORDS * (size_t)e;
        line->names[e] = words[NAME] & CONTENT;
        line->owned[(words[INFO] >> 8) & 255u] |= 1u << e;
    }
}

/*
 * All names at once, without a branch: no two are equal, so that the number of
 * the one that is found, plus one, is what is gathered.
 */
static uint32_t look_up(const struct line *line, struct call call, uint32_t *data)
{
    uint32_t name = call.second & CONTENT, found = 0;
    for (uint32_t e = 0; e < ENDPOINTS_MAX; e++)
        found |= line->names[e] == name ? e + 1 : 0;
    if (found == 0)
        return 15;
    data[0] = found - 1;
    return 0;
}

/* The messages after the oldest move up by one slot; 1 or more wait. */
static inline void move_up(uint32_t *words, uint32_t waiting)
{
    for (uint32_t i = 1; i < waiting; i++)
        words[SLOTS + i - 1] = words[SLOTS + i];
}

static uint32_t send(struct line *line, struct call call)
{
    uint32_t endpoint = field_b(call.first), caller = caller_of(call.first);
    if (endpoint >= line->m)
        return 16;
    uint32_t *words = line->endpoints + ENDPOINT_WORDS * (size_t)endpoint;
    uint32_t owner = (words[INFO] >> 8) & 255u;
    if (!(rights_on(line, caller, owner) & SEND))
        return 17;
    uint32_t waiting = words[WAITING] & CONTENT;
    if (waiting < (words[INFO] & 255u)) {
        words[SLOTS + waiting] = call.second;
        words[WAITING]++;
    } else {
        move_up(words, waiting);
        words[SLOTS + waiting - 1] = call.second;
        words[LOST] += (words[LOST] & CONTENT) != CONTENT;
    }
    return 0;
}

static uint32_t receive(struct line *line, struct call call, uint32_t *data)
{
    uint32_t endpoint = field_b(call.first);
    if (endpoint >= line->m)
        return 16;
    uint32_t *words = line->endpoints + ENDPOINT_WORDS * (size_t)endpoint;
    if (((words[INFO] >> 8) & 255u) != caller_of(call.first))
        return 18;
    uint32_t waiting = words[WAITING] & CONTENT;
    if (waiting == 0)
        return 19;
    data[0] = words[SLOTS] & CONTENT;
    data[1] = words[LOST] & CONTENT;
    move_up(words, waiting);
    words[SLOTS + waiting - 1] = EMPTY_SLOT;
    words[WAITING]--;
    return 0;
}

static uint32_t grant(struct line *line, struct call call)
{
    uint32_t caller = caller_of(call.first), target = field_a(call.first);
    uint32_t recipient = field_b(call.first), set = field_c(call.first);
    if (target >= line->n || recipient >= line->n)
        return 20;
    if (set - 1u >= ALL)
        return 21;
    if ((set | GRANT) & ~rights_on(line, caller, target))
        return 22;
    if (caller != recipient && rights_on(line, caller, recipient) == 0)
        return 23;
    line->rights[recipient] |= (uint64_t)set << (4 * target);
    line->table[1 + recipient * line->n + target] |= set;
    note(line, recipient, target);
    return 0;
}

static uint32_t remove_rights(struct line *line, struct call call)
{
    uint32_t caller = caller_of(call.first), target = field_a(call.first);
    uint32_t set = field_c(call.first);
    if (target >= line->n)
        return 20;
    if (set - 1u >= ALL)
        return 21;
    if ((set | REMOVE) & ~rights_on(line, caller, target))
        return 22;
    line->rights[caller] &= ~((uint64_t)set << (4 * target));
    line->table[1 + caller * line->n + target] &= ~set;
    note(line, caller, target);
    return 0;
}

static uint32_t revoke(struct line *line, struct call call)
{
    uint32_t caller = caller_of(call.first), target = field_a(call.first);
    uint32_t holder = field_b(call.first), set = field_c(call.first);
    if (target >= line->n || holder >= line->n)
        return 20;
    if (set - 1u >= ALL)
        return 21;
    if (!(rights_on(line, caller, target) & REVOKE))
        return 22;
    if (caller != holder && rights_on(line, caller, holder) == 0)
        return 23;
    line->rights[holder] &= ~((uint64_t)set << (4 * target));
    line->table[1 + holder * line->n + target] &= ~set;
    note(line, holder, target);
    return 0;
}

static uint32_t my_rights(const struct line *line, uint32_t caller, uint32_t *data)
{
    data[0] = (uint32_t)line->rights[caller];
    data[1] = (uint32_t)(line->rights[caller] >> 32);
    return 0;
}

/* The bits of a first word that are unused, by kind. */
static const uint32_t unused_bits[9] = {
    0,           0x003FFFFFu, 0x003F00FFu, 0x003F00FFu, 0x003FFFFFu,
    0x003FFFFFu, 0,           0x0000FF00u, 0,
};

/* One call: its code, its data words in data, which are zero on entry. */
static inline uint32_t serve(struct line *line, struct call call, uint32_t *data)
{
    uint32_t kind = kind_of(call.first), caller = caller_of(call.first);
    if (kind - 1u >= 8u)
        return kind == 15u ? 10 : 11;
    if (caller >= line->n)
        return 12;
    if (call.first & unused_bits[kind])
        return 13;
    if (kind <= 2u && call.second == 0)
        return 14;
    switch (kind) {
    case 1:
        return look_up(line, call, data);
    case 2:
        return send(line, call);
    case 3:
        return receive(line, call, data);
    case 4:
        data[0] = line->owned[caller];
        return 0;
    case 5:
        return my_rights(line, caller, data);
    case 6:
        return grant(line, call);
    case 7:
        return remove_rights(line, call);
    default:
        return revoke(line, call);
    }
}

/*
 * The second word is picked without a branch: which calls have one is as good as
 * random to the processor.
 */
static void run_calls(struct line *restrict line, const uint32_t *restrict list,
                      size_t len, uint32_t *restrict answer)
{
    for (size_t i = 0; i < len; answer += 3) {
        uint32_t first = list[i++], next = i < len ? list[i] : 0;
        uint32_t two = pairs(first, next);
        struct call call = { first, next & (0u - two) };
        i += two;
        answer[1] = 0;
        answer[2] = 0;
        uint32_t code = serve(line, call, answer + 1);
        uint32_t shown = code == 10 ? 0xF0000000u : call.first & 0xFFC00000u;
        answer[0] = shown | code;
    }
}

uint32_t plain_run(uint32_t *table, size_t table_len,
                   const uint32_t *list, size_t list_len,
                   uint32_t *answers, size_t answers_len,
                   uint32_t *holders, size_t holders_len)
{
    if (list_len > LIST_WORDS_MAX)
        return 1;
    uint32_t code = plain_table_check((const uint8_t *)table, 4 * table_len);
    if (code != 0)
        return code;
    size_t calls = count_calls(list, list_len);
    if (answers_len < 3 * calls)
        return 6;
    if (holders_len != ((table[0] >> 8) & 255u))
        return 6;
    struct line line;
    take_in(&line, table, holders);
    run_calls(&line, list, list_len, answers);
    return (uint32_t)calls << 16;
}
