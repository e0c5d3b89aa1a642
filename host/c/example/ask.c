/*
 * A minimal tool: asks a board for the first bytes of its CDI, and prints the fields of what the board answers.
 *
 * The bus is played by GridConnect lines: what the tool sends goes to standard output, what the board sends comes from standard input. What the
 * tool finds is printed on standard error.
 */
#include "bujorelm_tool.h"

#include <stdio.h>

#define BOARD 0x22B
#define TOOL 0x456
#define COUNT 16

/* The headers of Received OK and of Rejected, above the sender's alias. */
#define RECEIVED_OK 0x19A28
#define REJECTED 0x19A48

/* ---- Sending ---- */

static void send_frames(const struct bujorelm_frame *frames, uint64_t count)
{
    uint8_t line[BUJORELM_PRINTED_MAX];

    for (uint64_t i = 0; i < count; i++) {
        fwrite(line, 1, (size_t)bujorelm_print_frame(&frames[i], line, sizeof line, 0), stdout);
    }
    fflush(stdout);
}

/* Sends the command for a read. False where the library refuses it. */
static bool ask(uint8_t space, uint32_t address, size_t count)
{
    uint8_t command[BUJORELM_COMMAND_MIN];
    struct bujorelm_frame frames[BUJORELM_SENT_MAX];
    struct bujorelm_composed composed;

    bujorelm_compose_read(space, address, count, command, sizeof command, &composed);
    if (composed.refusal == BUJORELM_REFUSAL_W1) {
        fprintf(stderr, "W1: a read asks for 1 to 64 bytes, not %zu\n", count);
        return false;
    }
    if (composed.refusal == BUJORELM_REFUSAL_W2) {
        fprintf(stderr, "W2: the buffer has fewer than %u bytes\n", BUJORELM_COMMAND_MIN);
        return false;
    }
    send_frames(frames, bujorelm_cut(command, composed.len, TOOL, BOARD, frames));
    return true;
}

/* ---- Receiving ---- */

/* The frames of datagrams that are not finished: all zero at the start. */
static uint8_t pool[BUJORELM_POOL_SIZE];
static struct bujorelm_reception reception;

static void print_bytes(const uint8_t *bytes, uint64_t len)
{
    for (uint64_t i = 0; i < len; i++) {
        fprintf(stderr, " %02X", bytes[i]);
    }
    fprintf(stderr, "\n");
}

/* The content of Received OK. Returns whether there is more to wait for. */
static bool take_received_ok(const uint8_t *content, uint64_t len)
{
    struct bujorelm_acknowledged ok;

    bujorelm_read_received_ok(content, len, &ok);
    fprintf(stderr, "Received OK: refusal %u, pending %d, timeout %u\n", (unsigned)ok.refusal, ok.pending, ok.timeout);
    return ok.pending;
}

/* The content of Rejected, behind which nothing comes. */
static bool take_rejected(const uint8_t *content, uint64_t len)
{
    struct bujorelm_rejection rejection;

    bujorelm_read_rejected(content, len, &rejection);
    fprintf(stderr, "Rejected: refusal %u, code 0x%04X, behind it:", (unsigned)rejection.refusal, rejection.code);
    print_bytes(content + rejection.further.start, rejection.further.len);
    return false;
}

/* A whole datagram. The board is told that it has come. */
static bool take_datagram(const uint8_t *datagram, uint64_t len)
{
    struct bujorelm_frame frames[BUJORELM_SENT_MAX];
    struct bujorelm_reply reply;

    bujorelm_read_reply(datagram, len, &reply);
    send_frames(frames, bujorelm_received_ok(TOOL, BOARD, BUJORELM_FLAGS_NONE, frames));
    switch (reply.kind) {
    case BUJORELM_REPLY_READ:
        fprintf(stderr, "read: space 0x%02X, address 0x%08lX, bytes:", reply.space, (unsigned long)reply.address);
        print_bytes(datagram + reply.bytes.start, reply.bytes.len);
        return false;
    case BUJORELM_REPLY_READ_FAILURE:
        fprintf(stderr, "read failed: code 0x%04X, %s message:", reply.code, reply.bytes.given ? "with a" : "without a");
        print_bytes(datagram + reply.bytes.start, reply.bytes.len);
        return false;
    case BUJORELM_REPLY_NONE:
        fprintf(stderr, "W3:");
        print_bytes(datagram, len);
        return false;
    default:
        fprintf(stderr, "a reply to another command\n");
        return true;
    }
}

/* Whether a message in one frame is for this tool: then its first two bytes are the tool's alias, and the others its content. */
static bool is_for_tool(const struct bujorelm_frame *frame)
{
    return frame->len >= 2 && (frame->bytes[0] << 8 | frame->bytes[1]) == TOOL;
}

/* A frame on the bus. Returns whether there is more to wait for. */
static bool take_frame(const struct bujorelm_frame *frame)
{
    const uint32_t message = frame->header >> 12;
    struct bujorelm_joined joined;

    if (bujorelm_source_of(frame->header) != BOARD) {
        return true;
    }
    if (message == RECEIVED_OK) {
        return !is_for_tool(frame) || take_received_ok(frame->bytes + 2, frame->len - 2);
    }
    if (message == REJECTED) {
        return !is_for_tool(frame) || take_rejected(frame->bytes + 2, frame->len - 2);
    }
    bujorelm_join(TOOL, pool, &reception, frame->header, frame->bytes, frame->len, &joined);
    if (joined.kind == BUJORELM_JOINED_IN_FRAME) {
        return take_datagram(frame->bytes, frame->len);
    }
    if (joined.kind == BUJORELM_JOINED_IN_POOL) {
        return take_datagram(pool + joined.start, joined.end - joined.start);
    }
    return true;
}

int main(void)
{
    struct bujorelm_carry carry = {0};
    struct bujorelm_line line;
    bool waiting = true;
    int next;

    if (!bujorelm_version_fits() || !bujorelm_tool_version_fits()) {
        fprintf(stderr, "an archive is of another version than its header\n");
        return 1;
    }
    if (!ask(0xFF, 0, COUNT)) {
        return 1;
    }
    while (waiting && (next = getchar()) != EOF) {
        const uint8_t byte = (uint8_t)next;

        (void)bujorelm_next_line(&byte, 1, 0, &carry, &line);
        if (line.complete && line.parsed.good) {
            waiting = take_frame(&line.parsed.frame);
        }
    }
    return 0;
}
