/* The parts of the firmware, and what they have of each other. can.h is apart: it is what a driver for a CAN controller
   has to offer. */
#ifndef BOARD_H
#define BOARD_H

#include <stdbool.h>
#include <stddef.h>
#include <stdint.h>

/* ---- start.c: from reset to main ---- */

/* The most bytes of stack that were in use at once since the reset, by main, all that it calls, and interrupts. */
uint32_t stack_used(void);

/* Ends the firmware's work: what is wrong cannot be mended by going on. A watchdog of a real board would start it
   anew. */
void board_halt(void) __attribute__((noreturn));

int main(void);

/* ---- clock.c: milliseconds ---- */

void clock_start(void);
void clock_interrupt(void);

/* A free-running count of milliseconds. The library's tick is its low 16 bits. */
uint32_t clock_now(void);

/* ---- settings.c: what has to outlast a power cut ---- */

#define SETTINGS_SIZE 64u

/* The settings as they were stored last; all zero where none ever were. */
void settings_load(uint8_t *settings);

/* Stores all settings. When it is back they outlast a power cut; if power fails before that, those stored last are
   still whole. False where that fails. */
bool settings_store(const uint8_t *settings);

#endif
