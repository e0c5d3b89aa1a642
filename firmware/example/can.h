/*
 * The bus. One file implements this: can_uart.c, where GridConnect lines on a UART stand in for a CAN controller. For a
 * real controller that file, and no other, is replaced; docs/FIRMWARE.md has a sketch.
 */
#ifndef CAN_H
#define CAN_H

#include "bujorelm.h"

/* Makes the bus ready and enables its interrupt. */
void can_start(void);

/* Every interrupt of a device comes here, since the bus is the only device that has any. It keeps frames, and does not
   handle them. */
void can_interrupt(void);

/* Takes the oldest frame that has come; false where none has. Frames come out in the order in which they came, and each
   whole: one that could not be kept is lost as a whole and counted. */
bool can_receive(struct bujorelm_frame *frame);

/* Sends a frame, behind all that were sent before; false where it cannot. In the form that the library's header
   wants. */
bool can_send(void *context, const struct bujorelm_frame *frame);

/* How many frames were lost because they came faster than they were taken, and how often something came that was no
   frame. */
uint32_t can_lost(void);
uint32_t can_spoilt(void);

#endif
