/* From reset to main: the vector table, RAM made ready, and the stack painted so that its use can be read. */
#include "board.h"
#include "can.h"

/* From the linker script. */
extern uint32_t data_load[], data_start[], data_end[], bss_start[], bss_end[], stack_top[];

#define PAINT 0xA5C3A5C3u

void start(void);
void start(void)
{
    const uint32_t *from = data_load;
    uintptr_t stack;

    for (uint32_t *to = data_start; to < data_end; to++) {
        *to = *from++;
    }
    for (uint32_t *to = bss_start; to < bss_end; to++) {
        *to = 0;
    }
    /* Up to what this function itself has on the stack. */
    __asm__ volatile("mov %0, sp" : "=r"(stack));
    for (uint32_t *to = bss_end; (uintptr_t)to < stack; to++) {
        *to = PAINT;
    }
    (void)main();
    board_halt();
}

uint32_t stack_used(void)
{
    const uint32_t *at = bss_end;

    while (at < stack_top && *at == PAINT) {
        at++;
    }
    return (uint32_t)((uintptr_t)stack_top - (uintptr_t)at);
}

void board_halt(void)
{
    for (;;) {
    }
}

/* 16 vectors of the processor's and 48 of devices: as many as the chips have that this may be taken to. */
typedef void (*vector)(void);
static const struct {
    uint32_t *stack;
    vector processor[15];
    vector devices[48];
} vectors __attribute__((used, section(".vectors"))) = {
    stack_top,
    {start, board_halt, board_halt, board_halt, board_halt, board_halt, 0, 0, 0, 0, board_halt, board_halt, 0, board_halt, clock_interrupt},
    {
#define FOUR can_interrupt, can_interrupt, can_interrupt, can_interrupt
        FOUR, FOUR, FOUR, FOUR, FOUR, FOUR, FOUR, FOUR, FOUR, FOUR, FOUR, FOUR,
    },
};
