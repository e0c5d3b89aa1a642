/* What a test image has of the emulated machine: its standard input and output, its end, and a count that repeats
   exactly. The same functions are there on a PC (pc.c), so that an image and a program can be one source. */
#ifndef MACHINE_H
#define MACHINE_H

#include <stddef.h>
#include <stdint.h>

/* Reads up to `room` bytes of standard input; 0 at its end. */
size_t machine_read(uint8_t *into, size_t room);

/* Writes bytes, or a text, to standard output. */
void machine_write(const uint8_t *bytes, size_t len);
void machine_say(const char *text);

/* Writes a number in decimal digits, or in eight hexadecimal ones. */
void machine_say_number(uint32_t number);
void machine_say_hex(uint32_t number);

/* Ends the machine with an exit status. */
void machine_leave(int status) __attribute__((noreturn));

/* Starts the count and reads it, as a count that only grows, in steps of some instructions: machine_count_step gives a
   thousandth of the instructions of a step. It is exact where qemu runs with `-icount shift=0`. */
void machine_count_start(void);
uint32_t machine_count(void);
uint32_t machine_count_step(void);

/* Calls a function on a painted stack, and returns how many bytes of it were used; not on a PC. */
uint32_t machine_stack_of(void (*function)(void));

/* The image's own function. */
int main(void);

#endif
