/*
 * measured.h: what stack_use.c and bare_metal/interrupted.c share: the largest table, and
 * a call of any of the kernel's functions on a stack of its own.
 */
#ifndef MEASURED_H
#define MEASURED_H

#include "balkwizu.h"

enum { DOMAINS = 16, ENDPOINTS = 32, STACK_WORDS = 8192 };

/* The processor's flag by which it traps after each instruction. */
enum { TRAP_FLAG = 0x100 };

/* One of the kernel's functions, and up to eight pointers, lengths and numbers for it. */
struct call {
    void (*function)(void);
    uintptr_t given[8];
};

/* Makes the call on the stack that ends at top, a multiple of 16, with the last two of
   what is given pushed there. Flags of the processor are set from just before the call
   instruction to just behind it, where the trap flag is cleared; what that writes stands
   where the return address does, so that no word is used but by the call itself. In
   struct call the function stands at 0 and what is given from 8 on. Of what is returned
   a function of 32 bits has set the low half alone. */
uint64_t call_on_stack(const struct call *call, uint64_t *top, uint64_t flags);

__asm__(".text\n"
        ".globl call_on_stack\n"
        ".type call_on_stack, @function\n"
        "call_on_stack:\n"
        "    push %rbp\n"
        "    mov %rsp, %rbp\n"
        "    mov %rsi, %rsp\n"
        "    mov %rdi, %rax\n"
        "    mov %rdx, %r10\n"
        "    push 64(%rax)\n"
        "    push 56(%rax)\n"
        "    mov 8(%rax), %rdi\n"
        "    mov 16(%rax), %rsi\n"
        "    mov 24(%rax), %rdx\n"
        "    mov 32(%rax), %rcx\n"
        "    mov 40(%rax), %r8\n"
        "    mov 48(%rax), %r9\n"
        "    pushfq\n"
        "    or %r10, (%rsp)\n"
        "    popfq\n"
        "    call *(%rax)\n"
        "    pushfq\n"
        "    andq $~0x100, (%rsp)\n"
        "    popfq\n"
        "    mov %rbp, %rsp\n"
        "    pop %rbp\n"
        "    ret\n");

/* The code in what a function returns that isn't the one which writes a list: one code,
   or the low half of a balkwizu_result. */
static inline uint32_t returned_code(uint64_t returned)
{
    return (uint32_t)returned & 0xFFFFu;
}

/* The largest table: every right for everybody, and empty queues of eight. */
static inline void make_largest_table(uint32_t *table)
{
    table[0] = BALKWIZU_TABLE_HEADER(DOMAINS, ENDPOINTS);
    for (int holder = 0; holder < DOMAINS; holder++)
        for (int target = 0; target < DOMAINS; target++)
            table[BALKWIZU_RIGHTS_AT(DOMAINS, holder, target)] =
                BALKWIZU_TABLE_RIGHTS(BALKWIZU_RIGHTS_ALL);
    for (int e = 0; e < ENDPOINTS; e++) {
        uint32_t *word = table + BALKWIZU_ENDPOINT_AT(DOMAINS, e);
        word[BALKWIZU_PLACE_NAME] = BALKWIZU_TABLE_NAME(1 + e);
        word[BALKWIZU_PLACE_INFO] = BALKWIZU_TABLE_INFO(e % DOMAINS, BALKWIZU_SLOTS);
        word[BALKWIZU_PLACE_WAITING] = BALKWIZU_TABLE_WAITING(0);
        word[BALKWIZU_PLACE_LOST] = BALKWIZU_TABLE_LOST(0);
        for (int slot = 0; slot < BALKWIZU_SLOTS; slot++)
            word[BALKWIZU_PLACE_SLOTS + slot] = BALKWIZU_EMPTY_SLOT;
    }
}

#endif /* MEASURED_H */
