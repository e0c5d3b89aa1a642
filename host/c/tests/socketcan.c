/*
 * A test of example/socketcan.c on a pair of sockets in the place of a CAN interface: the flags of can_id, what is sent, that what a write
 * changed is stored before the tool hears of it, and, on a clock that the test sets, when an unfinished datagram is dropped and what is swallowed
 * behind a broken one.
 */
int example_main(int argc, char **argv);
#define main example_main
#define clock_gettime set_clock
#include "example/socketcan.c"
#undef clock_gettime
#undef main

#include "check.h"

#include <sys/wait.h>

/* The clock of the board's process, in milliseconds, and how often it was read. Both processes see it. */
static volatile struct {
    uint64_t time;
    unsigned reads;
} *board_clock;

int set_clock(clockid_t id, struct timespec *t)
{
    const uint64_t now = board_clock->time;

    if (id != CLOCK_MONOTONIC) {
        return -1;
    }
    t->tv_sec = (time_t)(now / 1000);
    t->tv_nsec = (long)(now % 1000) * 1000000 + 999999;
    board_clock->reads++;
    return 0;
}

static void start_clock(void)
{
    board_clock = mmap(NULL, sizeof *board_clock, PROT_READ | PROT_WRITE, MAP_SHARED | MAP_ANONYMOUS, -1, 0);
    if (board_clock == MAP_FAILED) {
        give_up("mmap");
    }
}

static struct can_frame frame_of(uint32_t can_id, const char *hex)
{
    struct can_frame frame;

    memset(&frame, 0, sizeof frame);
    frame.can_id = can_id;
    frame.can_dlc = (uint8_t)from_hex(hex, frame.data);
    return frame;
}

/* How long anything that must happen may take, in milliseconds. */
#define PATIENCE 20000

/* What the board sends next; false where it sends nothing. */
static bool receive(int bus, struct can_frame *frame)
{
    struct pollfd p = {.fd = bus, .events = POLLIN};

    return poll(&p, 1, PATIENCE) == 1 && read(bus, frame, sizeof *frame) == (ssize_t)sizeof *frame;
}

static void test_headers(void)
{
    static const uint32_t wrong[] = {0, CAN_RTR_FLAG, CAN_ERR_FLAG, CAN_EFF_FLAG | CAN_RTR_FLAG, CAN_EFF_FLAG | CAN_ERR_FLAG};
    struct can_frame frame;
    uint32_t header = 0;

    frame = frame_of(0x1A22B123u | CAN_EFF_FLAG, "");
    CHECK(header_of(&frame, &header) && header == 0x1A22B123u);
    for (size_t i = 0; i < sizeof wrong / sizeof wrong[0]; i++) {
        frame.can_id = 0x1A22B123u | wrong[i];
        CHECK(!header_of(&frame, &header));
    }
}

/* A board in a process of its own, which ends with the bus. */
struct served {
    int bus;
    pid_t child;
};

static struct served serve_apart(int file)
{
    struct served served;
    int pair[2];

    if (socketpair(AF_UNIX, SOCK_SEQPACKET, 0, pair) != 0) {
        give_up("socketpair");
    }
    served.bus = pair[0];
    served.child = fork();
    if (served.child < 0) {
        give_up("fork");
    }
    if (served.child == 0) {
        close(pair[0]);
        start();
        serve(pair[1], file);
        _exit(0);
    }
    close(pair[1]);
    return served;
}

static void served_end(struct served served)
{
    int status = -1;

    close(served.bus);
    CHECK(waitpid(served.child, &status, 0) == served.child && status == 0);
}

static void send_to(struct served served, uint32_t can_id, const char *hex)
{
    const struct can_frame frame = frame_of(can_id, hex);

    CHECK(write(served.bus, &frame, sizeof frame) == (ssize_t)sizeof frame);
}

/* AB CD to index 2. */
static const char write_abcd[] = "200100000002ABCD";

static void test_serving(void)
{
    /* Flags with which it is no frame for the board, and the one with which it is. */
    static const uint32_t flags[] = {CAN_EFF_FLAG | CAN_RTR_FLAG, CAN_EFF_FLAG | CAN_ERR_FLAG, 0, CAN_EFF_FLAG};
    char name[] = "/tmp/bujorelm-store-XXXXXX";
    const int file = mkstemp(name);
    const struct served served = serve_apart(file);
    struct can_frame frame;
    uint8_t stored[DEMONSTRATION_MEMORY_SIZE];

    for (size_t i = 0; i < sizeof flags / sizeof flags[0]; i++) {
        send_to(served, 0x1A22B123u | flags[i], write_abcd);
    }
    CHECK(receive(served.bus, &frame) && frame.can_id == (0x19A2822Bu | CAN_EFF_FLAG) && frame.can_dlc == 3);
    CHECK(memcmp(frame.data, "\x01\x23\x00\0\0\0\0", 8) == 0);
    CHECK(pread(file, stored, sizeof stored, 0) == 4 && memcmp(stored, "\0\0\xAB\xCD", 4) == 0);
    /* A reply of a First, a Middle and a Last: each with its own length. */
    send_to(served, 0x1A22B123u | CAN_EFF_FLAG, "20420000000010");
    CHECK(receive(served.bus, &frame) && frame.can_id == (0x19A2822Bu | CAN_EFF_FLAG) && frame.data[2] == 0x80);
    CHECK(receive(served.bus, &frame) && frame.can_id == (0x1B12322Bu | CAN_EFF_FLAG) && frame.can_dlc == 8);
    CHECK(receive(served.bus, &frame) && frame.can_id == (0x1C12322Bu | CAN_EFF_FLAG) && memcmp(frame.data, "\xAB\xCD", 2) == 0);
    CHECK(receive(served.bus, &frame) && frame.can_id == (0x1D12322Bu | CAN_EFF_FLAG) && frame.can_dlc == 6);
    served_end(served);
    CHECK(open_store(name) >= 0 && memcmp(memory, "\0\0\xAB\xCD", 4) == 0);
    unlink(name);
}

/* A write that cannot be stored is not answered, so it is stored before it is answered. */
static void test_failing_store(void)
{
    const struct served served = serve_apart(-1);
    struct can_frame frame;

    send_to(served, 0x1A22B123u | CAN_EFF_FLAG, write_abcd);
    send_to(served, 0x1A22B456u | CAN_EFF_FLAG, "20A8");
    CHECK(receive(served.bus, &frame) && memcmp(frame.data, "\x04\x56\x00", 3) == 0);
    served_end(served);
}

/* Sends a frame and expects the data of one that answers it. */
static void ask(struct served served, uint32_t header, const char *hex, const char *answer)
{
    const struct can_frame expected = frame_of(0, answer);
    struct can_frame frame = {.can_dlc = 0};

    send_to(served, header | CAN_EFF_FLAG, hex);
    CHECK_CASE(receive(served.bus, &frame) && frame.can_dlc == expected.can_dlc, answer);
    CHECK_CASE(memcmp(frame.data, expected.data, sizeof frame.data) == 0, answer);
}

static const char finished[] = "012300";
static const char out_of_order[] = "01232040";

/* The First of a datagram. Behind it comes what is answered, so that the board has taken the First when this is back. */
static void begin(struct served served, uint64_t time)
{
    board_clock->time = time;
    send_to(served, 0x1B22B123u | CAN_EFF_FLAG, "20");
    ask(served, 0x1A22B456u, "20A8", "045600");
}

/* The Last of it. */
static void end(struct served served, uint64_t time, const char *answer)
{
    board_clock->time = time;
    ask(served, 0x1D22B123u, "A8", answer);
}

/* Waits until the board reads its clock: on a quiet bus, or on one that is full of frames that no board is interested in. */
static bool reads_clock(struct served served, bool quiet)
{
    const struct timespec pause = {.tv_nsec = 1000000};
    const unsigned reads = board_clock->reads;

    for (unsigned waited = 0; waited < PATIENCE && board_clock->reads == reads; waited++) {
        if (!quiet) {
            send_to(served, 0x1B22B123u | CAN_EFF_FLAG | CAN_RTR_FLAG, "");
        }
        (void)nanosleep(&pause, NULL);
    }
    return board_clock->reads != reads;
}

/* The tick alone, at a time at which the datagram is too old. Then the clock is put back: by the tick of the Last it is not. */
static void check_lone_tick(struct served served, bool quiet)
{
    begin(served, 5000);
    board_clock->time = 8001;
    CHECK(reads_clock(served, quiet));
    end(served, 5001, out_of_order);
}

static void test_ticks(void)
{
    const struct served served = serve_apart(-1);

    begin(served, 0);
    end(served, 0, finished);
    begin(served, 1000);
    end(served, 4000, finished);
    begin(served, 10000);
    end(served, 13001, out_of_order);
    /* The count goes round: from 65,535 to 0. */
    begin(served, 65000);
    end(served, 68000, finished);
    begin(served, 131000);
    end(served, 134001, out_of_order);
    check_lone_tick(served, false);
    check_lone_tick(served, true);
    served_end(served);
}

/* A datagram whose Last was lost is sent again. That is rejected at its First, and the rest of it swallowed: what the board sends next is for
   another tool. Then it is sent for the third time. */
static void test_lost_last(void)
{
    const struct served served = serve_apart(-1);

    begin(served, 1000);
    ask(served, 0x1B22B123u, "20", out_of_order);
    send_to(served, 0x1C22B123u | CAN_EFF_FLAG, "");
    send_to(served, 0x1D22B123u | CAN_EFF_FLAG, "A8");
    begin(served, 1000);
    end(served, 1000, finished);
    served_end(served);
}

int main(void)
{
    start_clock();
    test_headers();
    test_serving();
    test_failing_store();
    test_ticks();
    test_lost_last();
    return check_result("socketcan");
}
