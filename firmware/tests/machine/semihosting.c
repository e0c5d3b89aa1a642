/*
 * A machine of qemu, for Arm and RISC-V: start-up code, and what the image asks qemu for by semihosting (a trap with a
 * number and a block of words).
 */
#include "machine.h"

enum { SYS_OPEN = 0x01, SYS_WRITE = 0x05, SYS_READ = 0x06, SYS_EXIT_EXTENDED = 0x20, APPLICATION_EXIT = 0x20026 };

extern uint32_t data_load[], data_start[], data_end[], bss_start[], bss_end[], stack_top[];

#ifdef __riscv

static uint32_t ask(uint32_t number, const void *block)
{
    register uint32_t a0 __asm__("a0") = number;
    register const void *a1 __asm__("a1") = block;

    __asm__ volatile(".balign 16\n"
                     ".option push\n"
                     ".option norvc\n"
                     "slli zero, zero, 0x1f\n"
                     "ebreak\n"
                     "srai zero, zero, 7\n"
                     ".option pop\n"
                     : "+r"(a0)
                     : "r"(a1)
                     : "memory");
    return a0;
}

/* The instructions retired: qemu counts them one by one. */
void machine_count_start(void)
{
}

uint32_t machine_count(void)
{
    uint32_t count;

    __asm__ volatile("csrr %0, minstret" : "=r"(count) : : "memory");
    return count;
}

uint32_t machine_count_step(void)
{
    return 1000;
}

#else

static uint32_t ask(uint32_t number, const void *block)
{
    register uint32_t r0 __asm__("r0") = number;
    register const void *r1 __asm__("r1") = block;

    __asm__ volatile("bkpt 0xAB" : "+r"(r0) : "r"(r1) : "memory");
    return r0;
}

/* SysTick counts down from 2^24 - 1 at the processor's clock; qemu takes an instruction for a nanosecond. It stands at
   0 until its first step. */
#define SYST ((volatile uint32_t *)0xE000E010u)

void machine_count_start(void)
{
    SYST[1] = 0x00FFFFFFu;
    SYST[2] = 0;
    SYST[0] = 5;
    while (SYST[2] == 0) {
    }
}

uint32_t machine_count(void)
{
    return 0x00FFFFFFu - SYST[2];
}

/* The Cortex-M0 machine, microbit, has 16 MHz, and the others, mps2, have 25 MHz. */
uint32_t machine_count_step(void)
{
#ifdef __ARM_ARCH_6M__
    return 62500;
#else
    return 40000;
#endif
}

#endif

#define PAINT 0xA5C3A5C3u
#define PAINTED_WORDS 512

uint32_t machine_stack_of(void (*function)(void))
{
    volatile uint32_t *top;
    volatile uint32_t *at;

    #ifdef __riscv
    __asm__ volatile("mv %0, sp" : "=r"(top));
#else
    __asm__ volatile("mov %0, sp" : "=r"(top));
#endif
    for (at = top - PAINTED_WORDS; at < top; at++) {
        *at = PAINT;
    }
    function();
    for (at = top - PAINTED_WORDS; at < top && *at == PAINT; at++) {
    }
    return 4u * (uint32_t)(top - at);
}

static uint32_t input;
static uint32_t output;

static uint32_t open_terminal(uint32_t mode)
{
    static const char name[] = ":tt";
    const uint32_t block[3] = {(uint32_t)name, mode, sizeof name - 1};

    return ask(SYS_OPEN, block);
}

size_t machine_read(uint8_t *into, size_t room)
{
    const uint32_t block[3] = {input, (uint32_t)into, room};
    const uint32_t left = ask(SYS_READ, block);

    return left > room ? 0 : room - left;
}

void machine_write(const uint8_t *bytes, size_t len)
{
    const uint32_t block[3] = {output, (uint32_t)bytes, len};

    (void)ask(SYS_WRITE, block);
}

void machine_leave(int status)
{
    const uint32_t block[2] = {APPLICATION_EXIT, (uint32_t)status};

    for (;;) {
        (void)ask(SYS_EXIT_EXTENDED, block);
    }
}

void start(void);
void start(void)
{
    uint32_t *from = data_load;

    for (uint32_t *to = data_start; to < data_end; to++) {
        *to = *from++;
    }
    for (uint32_t *to = bss_start; to < bss_end; to++) {
        *to = 0;
    }
    input = open_terminal(0);
    output = open_terminal(4);
    machine_leave(main());
}

static void fault(void)
{
    machine_say("FAULT\n");
    machine_leave(99);
}

#ifdef __riscv

__attribute__((naked, used, section(".vectors"))) void first(void);
void first(void)
{
    __asm__ volatile("la sp, stack_top\n"
                     "la t0, %0\n"
                     "csrw mtvec, t0\n"
                     "j start\n"
                     :
                     : "i"(fault));
}

#else

__attribute__((used, section(".vectors"))) static const void *const vectors[16] = {
    stack_top, (const void *)start, (const void *)fault, (const void *)fault, (const void *)fault, (const void *)fault, (const void *)fault,
};

#endif
