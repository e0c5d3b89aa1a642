/* The bench tool on a bus of GridConnect lines behind a TCP port: a command is sent, and what the board answers to it is waited for. */
#ifndef BUJORELM_TOOL_BUS_H
#define BUJORELM_TOOL_BUS_H

#include "tool_frames.h"
#include "tool_words.h"

/* How much is read at once. */
#define BLOCK_SIZE 4096u

/* What came of a command, as the exit status of the tool. */
enum status {
    STATUS_WELL = 0,
    STATUS_FAILED = 1,
    STATUS_WRONG_WORDS = 2,
    STATUS_NO_ANSWER = 3
};

struct bus {
    int fd;
    bool ended;
    /* How long an answer is waited for, in seconds. */
    unsigned timeout;
    struct listener listener;
    /* What has been read and not looked at is `block` from `at` up to `len`; the frame that was found last is kept for its answer's bytes. */
    struct bujorelm_carry carry;
    uint8_t block[BLOCK_SIZE];
    size_t at;
    size_t len;
    struct bujorelm_frame frame;
};

/* Connects, for which each address of the host has the timeout. The bus is all zero but for the timeout and the listener's aliases. Where there
   is no connection it says why. */
bool bus_open(struct bus *bus, const char *host, const char *port);

/* Waits until there is a command on standard input, or its end. What comes on the bus meanwhile is taken in, so that nobody has to keep it for
   the tool. */
void bus_wait_for_input(struct bus *bus);

/* Sends a command, and explains what the board answers to it. */
enum status bus_ask(struct bus *bus, const struct command *command);

void bus_close(struct bus *bus);

#endif
