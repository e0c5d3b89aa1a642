/*
 * The bus on a UART, in the place of a CAN controller: frames as GridConnect lines, by the library's own reader and
 * printer. The UART is Arm's CMSDK one, as the machine mps2-an385 has it.
 *
 * The interrupt puts what comes into a ring. The main loop sees whole lines alone: `kept` is moved past a line when its
 * newline has come. Where there is no room for a byte the whole line is lost, what is in the ring of it too: the next
 * line begins where that one began. So no line is ever joined out of two halves.
 */
#include "can.h"

#define UART ((volatile uint32_t *)0x40004000u)
enum { UART_DATA = 0, UART_STATE = 1, UART_CONTROL = 2, UART_INTERRUPT = 3, UART_DIVIDER = 4 };
enum { STATE_SENDING = 1, STATE_RECEIVED = 2, STATE_OVERRUN = 8 };
enum { CONTROL_SEND = 1, CONTROL_RECEIVE = 2, CONTROL_RECEIVE_INTERRUPT = 8 };

/* The processor's register that enables interrupts, and the UART's in it. */
#define ENABLE_INTERRUPTS (*(volatile uint32_t *)0xE000E100u)
#define UART_INTERRUPT_BIT 1u

/* A power of two, so that an index that wraps stays the same place. */
#define RING_SIZE 512u

static volatile uint8_t ring[RING_SIZE];

/* Counts of bytes: up to where whole lines are kept, written by the interrupt; and up to where they are taken, written
   by the main loop. */
static volatile uint32_t kept;
static volatile uint32_t taken;

/* The interrupt's own: the end of the line that is coming, and whether that line is being lost. */
static uint32_t coming;
static bool losing;

static volatile uint32_t lost;
static uint32_t spoilt;

void can_start(void)
{
    UART[UART_DIVIDER] = 217; /* 25 MHz by 115,200 */
    UART[UART_CONTROL] = CONTROL_SEND | CONTROL_RECEIVE | CONTROL_RECEIVE_INTERRUPT;
    ENABLE_INTERRUPTS = UART_INTERRUPT_BIT;
}

/* The end of a line: it is kept, or it was lost. */
static void end_line(void)
{
    if (losing) {
        lost = lost + 1;
        coming = kept;
        losing = false;
    } else {
        kept = coming;
    }
}

/* A byte of the line that is coming; none where one is missing in front of it. */
static void take_byte(uint8_t byte, bool is_missing)
{
    if (is_missing || coming - taken == RING_SIZE) {
        losing = true;
    }
    if (!losing) {
        ring[coming % RING_SIZE] = byte;
        coming++;
    }
    if (byte == '\n') {
        end_line();
    }
}

void can_interrupt(void)
{
    UART[UART_INTERRUPT] = 2;
    while (UART[UART_STATE] & STATE_RECEIVED) {
        const bool is_missing = (UART[UART_STATE] & STATE_OVERRUN) != 0;

        UART[UART_STATE] = STATE_OVERRUN;
        take_byte((uint8_t)UART[UART_DATA], is_missing);
    }
}

/* Takes a line out of the ring, without its newline, and returns its length. What is longer than any frame's line is
   cut off: it is no frame. */
static uint32_t take_line(uint8_t *line, uint32_t room)
{
    uint32_t at = taken;
    uint32_t len = 0;
    uint8_t byte;

    while ((byte = ring[at++ % RING_SIZE]) != '\n') {
        if (len < room) {
            line[len++] = byte;
        }
    }
    taken = at;
    return len;
}

bool can_receive(struct bujorelm_frame *frame)
{
    while (taken != kept) {
        uint8_t line[BUJORELM_LINE_MAX + 1];
        struct bujorelm_parsed parsed;

        bujorelm_parse_line(line, take_line(line, sizeof line), &parsed);
        if (parsed.good) {
            *frame = parsed.frame;
            return true;
        }
        spoilt++;
    }
    return false;
}

bool can_send(void *context, const struct bujorelm_frame *frame)
{
    uint8_t line[BUJORELM_PRINTED_MAX];
    const uint32_t len = (uint32_t)bujorelm_print_frame(frame, line, sizeof line, 0);

    (void)context;
    for (uint32_t i = 0; i < len; i++) {
        while (UART[UART_STATE] & STATE_SENDING) {
        }
        UART[UART_DATA] = line[i];
    }
    return len > 0;
}

uint32_t can_lost(void)
{
    return lost;
}

uint32_t can_spoilt(void)
{
    return spoilt;
}
