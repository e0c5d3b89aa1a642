/* Milliseconds by SysTick, the timer that every Cortex-M has. */
#include "board.h"

#define CLOCK_HZ 25000000u /* of mps2-an385 */

#define SYSTICK ((volatile uint32_t *)0xE000E010u)
enum { SYSTICK_CONTROL = 0, SYSTICK_RELOAD = 1, SYSTICK_VALUE = 2 };

static volatile uint32_t milliseconds;

void clock_start(void)
{
    SYSTICK[SYSTICK_RELOAD] = CLOCK_HZ / 1000u - 1u;
    SYSTICK[SYSTICK_VALUE] = 0;
    SYSTICK[SYSTICK_CONTROL] = 7; /* the processor's clock, with its interrupt, on */
}

void clock_interrupt(void)
{
    milliseconds = milliseconds + 1;
}

uint32_t clock_now(void)
{
    return milliseconds;
}
