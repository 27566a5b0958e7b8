/*
 * semihosting.h: starts compare.c without a C library, and reads and prints for it by the
 * semihosting of qemu.
 *
 * With BARE there is no operating system either, and the core is made strict: an access
 * that isn't aligned or uses a floating-point register is a fault, which ends with status 3.
 */
#if defined(__aarch64__)
#define ASK "hlt #0xf000"
#define REGISTER(number) __asm__("x" #number)
#elif defined(__riscv)
#define ASK ".option push\n.balign 16\n.option norvc\nslli x0, x0, 31\nebreak\nsrai x0, x0, 7\n.option pop"
#define REGISTER(number) __asm__("a" #number)
#else
#ifdef BARE
#define ASK "bkpt 0xab"
#else
#define ASK "svc 0x123456"
#endif
#define REGISTER(number) __asm__("r" #number)
#endif
#define PRINT(text) ask(0x04, (uintptr_t)(text))
#define READ_BYTES(to, length) read_bytes(to, length)

int main(void);
_Noreturn void begin(void);
_Noreturn void fault(void);

static uintptr_t ask(uintptr_t operation, uintptr_t given)
{
    register uintptr_t first REGISTER(0) = operation, second REGISTER(1) = given;
    __asm__ volatile(ASK : "+r"(first) : "r"(second) : "memory");
    return first;
}

static size_t read_bytes(void *to, size_t length)
{
    static uintptr_t file;
    uintptr_t opened[] = { (uintptr_t)"cases.bin", 1 /* bytes, to be read */, 9 };
    if (file == 0)
        file = ask(0x01, (uintptr_t)opened);
    uintptr_t wanted[] = { file, (uintptr_t)to, length };
    return length - ask(0x06, (uintptr_t)wanted);
}

static _Noreturn void leave(uintptr_t status)
{
    uintptr_t given[] = { 0x20026 /* the program's own end */, status };
    for (;;)
        ask(0x20, (uintptr_t)given);
}

_Noreturn void fault(void)
{
    PRINT("a fault\n");
    leave(3);
}

#if defined(BARE) && defined(__aarch64__)
/* Sets the stack, the vectors, SCTLR_EL1.A and CPACR_EL1. */
__asm__(".section .vectors, \"ax\"\n"
        ".global start\n"
        "start: ldr x0, =stack_top\nmov sp, x0\n"
        "ldr x0, =vectors\nmsr vbar_el1, x0\n"
        "mrs x0, sctlr_el1\norr x0, x0, #2\nmsr sctlr_el1, x0\n"
        "msr cpacr_el1, xzr\nisb\nb begin\n"
        ".balign 2048\nvectors: .rept 16\nb fault\n.balign 128\n.endr\n.text\n");
#elif defined(BARE)
__asm__(".section .vectors, \"a\"\n"
        ".word stack_top, begin\n.rept 14\n.word fault\n.endr\n.text\n");
#endif

_Noreturn void begin(void)
{
#if defined(BARE) && defined(__arm__)
    *(volatile uint32_t *)0xE000ED14u |= 8; /* CCR.UNALIGN_TRP */
    *(volatile uint32_t *)0xE000ED88u = 0;  /* CPACR */
#endif
    leave((uintptr_t)main());
}
