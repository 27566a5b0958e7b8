/*
 * codes.h: what each of the kernel's numbers means, in words for a log or a
 * panel, in C11. Nothing is allocated: every text is a constant.
 */
#ifndef CODES_H
#define CODES_H

#include "balkwizu.h"

static inline const char *code_meaning(uint32_t code)
{
    static const char *const meanings[] = {
        [BALKWIZU_OK] = "done",
        [BALKWIZU_LIST_TOO_LONG] = "the list is above 4,096 words",
        [BALKWIZU_TABLE_BAD_HEADER] =
            "the table is empty, or word 0 breaks its layout",
        [BALKWIZU_TABLE_BAD_LENGTH] =
            "the length is not the one that word 0 asks for",
        [BALKWIZU_TABLE_BAD_RIGHTS] = "a rights word breaks its layout",
        [BALKWIZU_TABLE_BAD_ENDPOINT] =
            "an endpoint word breaks its layout, or a name repeats",
        [BALKWIZU_WRONG_SPACE] =
            "the answer space is under three words a call, or the holders' is not one word a domain",
        [BALKWIZU_STRAY] = "a word of kind 15 stands alone",
        [BALKWIZU_UNKNOWN_KIND] = "the kind is unknown",
        [BALKWIZU_UNKNOWN_CALLER] = "the caller is no domain of the table",
        [BALKWIZU_UNUSED_FIELD] = "an unused field is not zero",
        [BALKWIZU_NO_SECOND_WORD] = "the second word is missing",
        [BALKWIZU_NO_SUCH_NAME] = "no endpoint has the name",
        [BALKWIZU_NO_SUCH_ENDPOINT] = "the table has no such endpoint",
        [BALKWIZU_MAY_NOT_SEND] =
            "the caller has no SEND on the endpoint's owner",
        [BALKWIZU_NOT_OWNER] = "the caller does not own the endpoint",
        [BALKWIZU_NOTHING_WAITING] = "nothing waits",
        [BALKWIZU_CALL_BAD_DOMAIN] = "a domain named is not in the table",
        [BALKWIZU_BAD_RIGHTS] = "the rights named cannot be asked for",
        [BALKWIZU_LACKS_RIGHT] = "the caller lacks a right that the call needs",
        [BALKWIZU_NOT_REPAIRABLE] =
            "word 0, the length, a name or an info is wrong, or a name repeats",
        [BALKWIZU_CHANGES_TOO_SHORT] = "the list of changes is too short",
        [BALKWIZU_MAY_NOT_GIVE] = "the recipient or holder is another, and the caller has no right on it",
        [BALKWIZU_BAD_CALL] =
            "a call is none, or has a field that exceeds its bits",
        [BALKWIZU_WRITTEN_TOO_LONG] = "the words would pass 4,096 or the space",
        [BALKWIZU_BAD_QUESTION] =
            "the question names no domain of the table, or the holders are none",
        [BALKWIZU_HAND_IN_BAD_DOMAIN] =
            "the domain that hands in is not in the table",
        [BALKWIZU_NOT_ONE_CALL] =
            "the words are not exactly one call, no stray, of that domain",
        [BALKWIZU_NO_ROOM] = "the domain's pending words would pass 16",
        [BALKWIZU_BAD_TURNS] = "the state's length is not the one for the table's domains",
    };
    if (code < sizeof meanings / sizeof *meanings && meanings[code] != NULL)
        return meanings[code];
    return "not a number of the kernel";
}

#endif /* CODES_H */
