/*
 * plain_check.c: the table's check, codes 2 to 5.
 *
 * What is wrong is gathered without branches over all words of a kind: sound
 * tables are the usual case, and the compiler can take several words at a time.
 */
#include "plain.h"

#include <string.h>

#if defined(__BYTE_ORDER__) && __BYTE_ORDER__ != __ORDER_LITTLE_ENDIAN__
#error "plain C kernel: little-endian machines only"
#endif

enum { ENDPOINT_WORDS = 12, SLOTS = 8, ENDPOINTS_MAX = 32 };

/* A word at any alignment: one load on x86-64. */
static inline uint32_t word_at(const uint8_t *image, size_t place)
{
    uint32_t word;
    memcpy(&word, image + 4 * place, sizeof word);
    return word;
}

static int header_is_right(uint32_t word)
{
    uint32_t n = (word >> 8) & 255u;
    return word >> 16 == 0x1000u && n - 1u < 16u && (word & 255u) <= 32u;
}

/* Whether count words are all of kind 2 with bits 27-4 zero. */
static int rights_are_right(const uint8_t *image, size_t count)
{
    uint32_t wrong = 0;
    for (size_t i = 0; i < count; i++)
        wrong |= word_at(image, i) ^ 0x20000000u;
    return (wrong & ~15u) == 0;
}

/* Name, info, waiting and lost of one endpoint: 0 where they are right. */
static inline uint32_t identity_wrong(const uint8_t *image, uint32_t n)
{
    uint32_t name = word_at(image, 0), info = word_at(image, 1);
    uint32_t waiting = word_at(image, 2), lost = word_at(image, 3);
    uint32_t capacity = info & 255u;
    return ((name >> 28) ^ 3u) | ((lost >> 28) ^ 6u) | ((info >> 16) ^ 0x4000u) |
           ((name << 4) == 0) | (((info >> 8) & 255u) >= n) |
           (capacity - 1u >= 8u) | (waiting - 0x50000000u > capacity);
}

/*
 * The bits of each slot that must be those of F0000000, by the waiting count: all
 * of them from that count on, the kind alone before it. Rows past 8 belong to
 * waiting words that are wrong already.
 */
#define KIND 0xF0000000u
#define WHOLE 0xFFFFFFFFu
static const uint32_t slot_bits[16][SLOTS] = {
    { WHOLE, WHOLE, WHOLE, WHOLE, WHOLE, WHOLE, WHOLE, WHOLE },
    { KIND, WHOLE, WHOLE, WHOLE, WHOLE, WHOLE, WHOLE, WHOLE },
    { KIND, KIND, WHOLE, WHOLE, WHOLE, WHOLE, WHOLE, WHOLE },
    { KIND, KIND, KIND, WHOLE, WHOLE, WHOLE, WHOLE, WHOLE },
    { KIND, KIND, KIND, KIND, WHOLE, WHOLE, WHOLE, WHOLE },
    { KIND, KIND, KIND, KIND, KIND, WHOLE, WHOLE, WHOLE },
    { KIND, KIND, KIND, KIND, KIND, KIND, WHOLE, WHOLE },
    { KIND, KIND, KIND, KIND, KIND, KIND, KIND, WHOLE },
    { KIND, KIND, KIND, KIND, KIND, KIND, KIND, KIND },
};

static int few_differ(const uint32_t *names, size_t count)
{
    for (size_t i = 1; i < count; i++)
        for (size_t j = 0; j < i; j++)
            if (names[j] == names[i])
                return 0;
    return 1;
}

/* Names are never 0, so that 0 marks a free place of the set. */
static int many_differ(const uint32_t *names, size_t count)
{
    uint32_t seen[2 * ENDPOINTS_MAX];
    memset(seen, 0, sizeof seen);
    for (size_t i = 0; i < count; i++) {
        uint32_t at = (names[i] * 0x9E3779B1u) >> 26;
        while (seen[at] != 0) {
            if (seen[at] == names[i])
                return 0;
            at = (at + 1) % (2 * ENDPOINTS_MAX);
        }
        seen[at] = names[i];
    }
    return 1;
}

static int endpoints_are_right(const uint8_t *image, uint32_t n, size_t m)
{
    uint32_t names[ENDPOINTS_MAX], slots[SLOTS] = { 0 }, wrong = 0;
    for (size_t e = 0; e < m; e++, image += 4 * ENDPOINT_WORDS) {
        const uint32_t *bits = slot_bits[word_at(image, 2) & 15u];
        wrong |= identity_wrong(image, n);
        for (size_t i = 0; i < SLOTS; i++)
            slots[i] |= (word_at(image, 4 + i) ^ 0xF0000000u) & bits[i];
        names[e] = word_at(image, 0);
    }
    for (size_t i = 0; i < SLOTS; i++)
        wrong |= slots[i];
    if (wrong != 0)
        return 0;
    return m <= 6 ? few_differ(names, m) : many_differ(names, m);
}

uint32_t plain_table_check(const uint8_t *bytes, size_t len)
{
    uint32_t header;
    if (len < 4 || !header_is_right(header = word_at(bytes, 0)))
        return 2;
    size_t n = (header >> 8) & 255u, m = header & 255u;
    if (len != 4 * (1 + n * n + ENDPOINT_WORDS * m))
        return 3;
    if (!rights_are_right(bytes + 4, n * n))
        return 4;
    if (!endpoints_are_right(bytes + 4 * (1 + n * n), (uint32_t)n, m))
        return 5;
    return 0;
}
