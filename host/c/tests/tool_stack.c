/*
 * Measures the most stack that a call of the tool's half takes, on a painted stack (tests/painted.h). The calls themselves are in
 * tests/tool_stack_calls.c.
 *
 * Usage: tool_stack LEVEL, the level of optimisation of that file
 *
 * It prints the figures that docs/TOOL.md has, and fails where one is over its bound.
 */
#define _DEFAULT_SOURCE

#include "painted.h"
#include "tool_stack.h"

/* No call may take more, at any level of optimisation of its caller. */
#define BOUND 1024u

struct tool_subject subject;
struct tool_images images;

static const struct {
    const char *name;
    void (*call)(void);
} calls[] = {
    {"bujorelm_compose_read", call_compose_read},
    {"bujorelm_compose_write", call_compose_write},
    {"bujorelm_compose_masked_write", call_compose_masked_write},
    {"bujorelm_compose_options", call_compose_options},
    {"bujorelm_compose_information", call_compose_information},
    {"bujorelm_compose_lock", call_compose_lock},
    {"bujorelm_compose_update_complete", call_compose_update_complete},
    {"bujorelm_read_received_ok", call_read_received_ok},
    {"bujorelm_read_rejected", call_read_rejected},
    {"bujorelm_read_reply", call_read_reply},
    {"bujorelm_join", call_join},
    {"bujorelm_put_together", call_put_together},
    {"bujorelm_next_change", call_next_change},
    {"bujorelm_tool_version", call_tool_version},
};

#define CALLS (sizeof calls / sizeof calls[0])

static size_t most[CALLS];

/* What the calls are made on: now in range and now not, replies with every command of one, and frames of every sort from more boards than may
   send at once. */
static void make_subject(size_t len)
{
    static const uint8_t commands[] = {0x50, 0x53, 0x58, 0x5A, 0x10, 0x11, 0x18, 0x19, 0x82, 0x86, 0x87, 0x8A, 0x44};

    subject.space = (uint8_t)(random_below(2) == 0 ? 0x10 : 0xFD);
    subject.address = random_number();
    subject.count = random_below(66);
    random_bytes(subject.bytes, sizeof subject.bytes);
    subject.len = len;
    subject.bytes[0] = 0x20;
    subject.bytes[1] = commands[random_below(sizeof commands)];
    if (len > 2) {
        subject.bytes[len - 1] = 0;
    }
    subject.buffer_len = random_below(8) == 0 ? 71 : sizeof subject.buffer;
    subject.frame.header = (0x1A + random_below(4)) << 24 | 0x456u << 12 | (1 + random_below(10));
    subject.frame.len = random_below(9);
    random_bytes(subject.frame.bytes, sizeof subject.frame.bytes);
}

/* The images of a change begin as the same bytes. Each turn one more run of bytes differs, of a length that takes one masked write or two; one
   looks from anywhere on, also behind the end, and now and then the call is refused. */
static void make_images(void)
{
    const size_t start = random_below(sizeof images.after);
    const size_t run = 1 + random_below(40);

    for (size_t i = start; i < start + run && i < sizeof images.after; i++) {
        images.after[i] = (uint8_t)random_number();
    }
    random_bytes((uint8_t *)subject.pairs, sizeof subject.pairs);
    subject.from = random_below(4) == 0 ? 0 : random_below(sizeof images.after + 100);
    subject.image_len = sizeof images.after - (random_below(8) == 0 ? 1 : 0);
    subject.room_len = random_below(8) == 0 ? 63 : sizeof subject.room;
}

static void measure_all(void)
{
    static struct tool_subject before;

    for (size_t i = 0; i < CALLS; i++) {
        const size_t used = most_used(calls[i].call, &subject, &before, sizeof subject);

        most[i] = used > most[i] ? used : most[i];
    }
}

int main(int argc, char **argv)
{
    const char *const level = argc > 1 ? argv[1] : "";

    start_painting();
    for (size_t turn = 0; turn < 30 * (sizeof subject.bytes + 1); turn++) {
        make_subject(turn % (sizeof subject.bytes + 1));
        make_images();
        measure_all();
    }
    for (size_t i = 0; i < CALLS; i++) {
        printf("tool_stack: %-4s %-34s %5zu bytes\n", level, calls[i].name, most[i]);
        CHECK_CASE(most[i] <= BOUND, calls[i].name);
    }
    return check_result("tool_stack");
}
