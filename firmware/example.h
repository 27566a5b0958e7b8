/*
 * example.h: document 01's worked example, table T and list L, as words.
 */
#ifndef EXAMPLE_H
#define EXAMPLE_H

#include "balkwizu.h"

#define EXAMPLE_TABLE_WORDS BALKWIZU_TABLE_WORDS(3, 2)

/* Three domains and two endpoints. */
static const uint32_t example_table[EXAMPLE_TABLE_WORDS] = {
    0x10000302,
    /* the rights that each domain has on domains 0, 1 and 2 */
    0x20000000, 0x20000001, 0x20000000,
    0x20000001, 0x20000000, 0x20000007,
    0x20000000, 0x20000000, 0x20000000,
    /* endpoint 0: name, owner 1 and capacity 2, waiting, lost, eight slots */
    0x30000011, 0x40000102, 0x50000000, 0x60000000,
    0xF0000000, 0xF0000000, 0xF0000000, 0xF0000000,
    0xF0000000, 0xF0000000, 0xF0000000, 0xF0000000,
    /* endpoint 1: owner 2, capacity 1 */
    0x30000012, 0x40000201, 0x50000000, 0x60000000,
    0xF0000000, 0xF0000000, 0xF0000000, 0xF0000000,
    0xF0000000, 0xF0000000, 0xF0000000, 0xF0000000,
};

/* Nine calls in twelve words. */
static const uint32_t example_list[] = {
    BALKWIZU_SEND(0, 1), BALKWIZU_SECOND(5), /* refused: no SEND on domain 2 */
    BALKWIZU_GRANT(1, 2, 0, BALKWIZU_RIGHT_SEND),
    BALKWIZU_SEND(0, 1), BALKWIZU_SECOND(5),
    BALKWIZU_SEND(0, 1), BALKWIZU_SECOND(6), /* the queue is full: 5 is lost */
    BALKWIZU_RECEIVE(2, 1),
    BALKWIZU_RECEIVE(2, 1), /* refused: nothing waits */
    BALKWIZU_SECOND(9),     /* refused: belongs to no call */
    BALKWIZU_MY_RIGHTS(0),
    BALKWIZU_MY_ENDPOINTS(2),
};

#define EXAMPLE_LIST_WORDS (sizeof example_list / sizeof *example_list)

#endif /* EXAMPLE_H */
