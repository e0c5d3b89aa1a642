/*
 * Measures the most stack that a call takes, on a painted stack (tests/painted.h). The calls themselves are in tests/stack_calls.c.
 *
 * Usage: stack LEVEL, the level of optimisation of that file
 *
 * It prints the figures that docs/DRIVER.md has, and fails where one is over its bound.
 */
#define _DEFAULT_SOURCE

#include "painted.h"
#include "stack.h"

/* No call may take more, at any level of optimisation of its caller. */
#define BOUND 1024u

struct subject subject;

enum {
    HANDLE_FRAME,
    HANDLE_TICK,
    HANDLE_DATAGRAM,
    CUT,
    RECEIVED_OK,
    REJECTED,
    PRINT_FRAME,
    PARSE_LINE,
    NEXT_LINE,
    LAST_LINE,
    VERSION,
    NODE_CHECK,
    NODE_RECEIVE,
    CALLS
};

static const struct {
    const char *name;
    void (*call)(void);
} calls[CALLS] = {
    {"bujorelm_handle_frame", call_handle_frame},
    {"bujorelm_handle_tick", call_handle_tick},
    {"bujorelm_handle_datagram", call_handle_datagram},
    {"bujorelm_cut", call_cut},
    {"bujorelm_received_ok", call_received_ok},
    {"bujorelm_rejected", call_rejected},
    {"bujorelm_print_frame", call_print_frame},
    {"bujorelm_parse_line", call_parse_line},
    {"bujorelm_next_line", call_next_line},
    {"bujorelm_last_line", call_last_line},
    {"bujorelm_version", call_version},
    {"bujorelm_node_check", call_node_check},
    {"bujorelm_node_receive", call_node_receive},
};

static size_t most[CALLS];

static void measure(size_t i)
{
    static struct subject before;
    const size_t used = most_used(calls[i].call, &subject, &before, sizeof subject);

    if (used > most[i]) {
        most[i] = used;
    }
}

/* The line splitter on the line that was just printed: whole, and cut in two at some places. */
static void measure_lines(void)
{
    const size_t printed = subject.printed;
    const size_t cuts[] = {0, 1, printed / 2, printed};

    for (size_t i = 0; i < sizeof cuts / sizeof cuts[0]; i++) {
        const size_t cut = cuts[i];
        struct bujorelm_carry left;

        memset(&subject.carry, 0, sizeof subject.carry);
        subject.from = 0;
        subject.printed = cut;
        measure(NEXT_LINE);
        left = subject.carry;
        measure(LAST_LINE);
        subject.carry = left;
        subject.from = cut;
        subject.printed = printed;
        measure(NEXT_LINE);
    }
}

static struct bujorelm_space spaces[BUJORELM_SPACES_MAX];

/* A board of sixteen spaces, in flash and in memory, writable and not. */
static void start(void)
{
    struct bujorelm_description d;

    for (size_t i = 0; i < BUJORELM_SPACES_MAX; i++) {
        spaces[i] = (struct bujorelm_space){.number = (uint8_t)(0xF0 + i),
                                            .read_only = i % 2 == 1,
                                            .in_flash = i % 4 == 3,
                                            .lowest = i < 8 ? 0 : 0x1000,
                                            .highest = i < 8 ? 0xFF : 0x10FF,
                                            .offset = 0};
    }
    d.alias = 0x22B;
    d.write_lengths = 0xF2;
    d.count = BUJORELM_SPACES_MAX;
    d.spaces = spaces;
    bujorelm_node_start(&subject.node, &d, subject.flash, sizeof subject.flash, subject.memory, sizeof subject.memory);
    CHECK(bujorelm_node_check(&subject.node).kind == BUJORELM_IGNORED);
}

/* A datagram with that command, some of them well formed and some not. */
static void make_datagram(uint8_t command)
{
    uint8_t *const datagram = subject.datagram;
    size_t len = random_below(73);

    random_bytes(datagram, sizeof subject.datagram);
    datagram[0] = 0x20;
    datagram[1] = command;
    datagram[2] = 0;
    datagram[3] = 0;
    datagram[4] = random_below(2) == 0 ? 0 : 0x10;
    datagram[6] = (uint8_t)(0xF0 + random_below(16));
    switch (command) {
    case 0x40:
        len = 8;
        datagram[7] = 64;
        break;
    case 0x41:
    case 0x42:
    case 0x43:
        len = 7;
        datagram[6] = 64;
        break;
    case 0x80:
    case 0xA8:
        len = 2;
        break;
    case 0x84:
        len = 3;
        break;
    case 0x88:
        len = 8;
        break;
    default:
        break;
    }
    subject.datagram_len = len;
}

/* Fills the eight places, each with a tick of its own. Every second source is being swallowed. */
static void fill_places(void)
{
    for (size_t i = 0; i < BUJORELM_PLACES; i++) {
        subject.node.reception.places[i] = (struct bujorelm_place){.held = 1,
                                                                   .len = (uint8_t)(8 * i),
                                                                   .source = (uint16_t)(0x200 + i),
                                                                   .tick = (uint16_t)(400 * i),
                                                                   .swallowing = (uint8_t)(i % 2)};
    }
}

/* Lone ticks, and frames of every sort: with none, some and all of eight places too old, and with a state that is refused. */
static void measure_ticks(void)
{
    for (unsigned tick = 0; tick <= 0xFFFF; tick += 250) {
        subject.tick = (uint16_t)tick;
        fill_places();
        measure(HANDLE_TICK);
        for (uint32_t top = 0x1A; top <= 0x1D; top++) {
            fill_places();
            subject.frame.header = top << 24 | (uint32_t)subject.node.description.alias << 12 | (0x200 + tick % 9);
            subject.frame.len = tick % 9;
            measure(HANDLE_FRAME);
            fill_places();
            measure(NODE_RECEIVE);
        }
        fill_places();
        measure(NODE_CHECK);
        subject.node.reception.places[7].source = 0x1000;
        measure(HANDLE_TICK);
        subject.node.reception = (struct bujorelm_reception){.places = {{.held = 0}}};
    }
}

/* The same frame from a source that is being swallowed in the last of eight places, of which none or half are too old: a Single ends the swallowing
   and is handled, and a First opens its own place. */
static void measure_swallowed(void)
{
    static const struct {
        size_t call;
        uint16_t tick;
    } cases[] = {{HANDLE_FRAME, 3000}, {HANDLE_FRAME, 4500}, {NODE_RECEIVE, 3000}, {NODE_RECEIVE, 4500}};
    const struct bujorelm_node before = subject.node;
    const uint16_t tick = subject.tick;

    for (size_t i = 0; i < sizeof cases / sizeof cases[0]; i++) {
        fill_places();
        subject.node.reception.places[7].source = bujorelm_source_of(subject.frame.header);
        subject.tick = cases[i].tick;
        measure(cases[i].call);
    }
    subject.tick = tick;
    subject.node = before;
}

/* Measures every call along the way of one datagram through the board. */
static void walk(bool lines)
{
    struct bujorelm_frame way[BUJORELM_SENT_MAX];
    size_t count;

    measure(HANDLE_DATAGRAM);
    measure(CUT);
    measure(RECEIVED_OK);
    measure(REJECTED);
    count = bujorelm_cut(subject.datagram, subject.datagram_len, 0x123, subject.node.description.alias, way);
    CHECK(count != 0);
    for (size_t i = 0; i < count; i++) {
        const struct bujorelm_node before = subject.node;

        subject.frame = way[i];
        measure_swallowed();
        measure(HANDLE_FRAME);
        measure(PRINT_FRAME);
        measure(PARSE_LINE);
        if (lines) {
            measure_lines();
        }
        /* The same frame again, from the same state, by way of the inline function, which goes on to the next. */
        subject.node = before;
        measure(NODE_RECEIVE);
    }
}

int main(int argc, char **argv)
{
    static const uint8_t commands[] = {0x00, 0x01, 0x02, 0x03, 0x08, 0x09, 0x0A, 0x0B, 0x40, 0x41, 0x42,
                                       0x43, 0x80, 0x84, 0x88, 0xA8, 0x44, 0xFF};
    const char *const level = argc > 1 ? argv[1] : "";

    start_painting();
    start();
    measure(VERSION);
    measure(NODE_CHECK);
    for (size_t turn = 0; turn < 20; turn++) {
        for (size_t i = 0; i < sizeof commands; i++) {
            make_datagram(commands[i]);
            walk(turn == 0);
        }
    }
    /* Every length of a datagram. */
    for (size_t len = 0; len <= sizeof subject.datagram; len++) {
        subject.datagram_len = len;
        measure(CUT);
        measure(HANDLE_DATAGRAM);
    }
    /* Every sort of frame, over a state with places held. */
    for (uint32_t top = 0; top < 0x40; top++) {
        for (uint32_t source = 0; source < 12; source++) {
            subject.frame.header = (0x1A + top % 4) << 24 | (uint32_t)subject.node.description.alias << 12 | source;
            subject.frame.len = top % 9;
            measure(HANDLE_FRAME);
            measure(NODE_RECEIVE);
        }
    }
    measure_ticks();
    for (size_t i = 0; i < CALLS; i++) {
        printf("stack: %-4s %-26s %5zu bytes\n", level, calls[i].name, most[i]);
        CHECK_CASE(most[i] <= BOUND, calls[i].name);
    }
    return check_result("stack");
}
