/*
 * The demonstration board of document 01 on a CAN interface of Linux, its memory kept in a file.
 *
 *   socketcan INTERFACE FILE
 *
 * A tick is a millisecond: a datagram of which nothing comes for more than 3 seconds is dropped.
 */
#define _DEFAULT_SOURCE

#include "demonstration.h"

#include <fcntl.h>
#include <linux/can.h>
#include <linux/can/raw.h>
#include <net/if.h>
#include <poll.h>
#include <stdio.h>
#include <stdlib.h>
#include <string.h>
#include <sys/socket.h>
#include <time.h>
#include <unistd.h>

/* For how many milliseconds a frame is waited for before a tick comes alone. */
#define TICK_PAUSE 1000

static uint8_t memory[DEMONSTRATION_MEMORY_SIZE];
static struct bujorelm_node node;

/* The header of a received frame; false for one that no board is interested in. Above the 29 bits can_id has flags, and a header that still
   had one would be ignored. */
static bool header_of(const struct can_frame *received, uint32_t *header)
{
    *header = received->can_id & CAN_EFF_MASK;
    return (received->can_id & (CAN_EFF_FLAG | CAN_RTR_FLAG | CAN_ERR_FLAG)) == CAN_EFF_FLAG;
}

static bool send_frame(void *context, const struct bujorelm_frame *frame)
{
    const int *const bus = context;
    struct can_frame sent;

    memset(&sent, 0, sizeof sent);
    sent.can_id = frame->header | CAN_EFF_FLAG;
    sent.can_dlc = (uint8_t)frame->len;
    memcpy(sent.data, frame->bytes, sizeof frame->bytes);
    return write(*bus, &sent, sizeof sent) == (ssize_t)sizeof sent;
}

/* Stores the bytes of memory that a write has changed. They are on the disk when this is back. */
static bool store(int file, size_t at, size_t len)
{
    return pwrite(file, memory + at, len, (off_t)at) == (ssize_t)len && fdatasync(file) == 0;
}

/* Whether the library refuses what it is handed; the sentence says what is wrong. */
static bool is_refused(struct bujorelm_result result)
{
    char sentence[BUJORELM_SENTENCE_SIZE];

    if (result.kind != BUJORELM_REFUSED) {
        return false;
    }
    fprintf(stderr, "socketcan: %s\n", bujorelm_sentence_of(result, sentence));
    return true;
}

/* The low 16 bits of the milliseconds on a clock that nobody sets. */
static uint16_t tick_now(void)
{
    struct timespec t = {0, 0};

    (void)clock_gettime(CLOCK_MONOTONIC, &t);
    return (uint16_t)((uint64_t)t.tv_sec * 1000 + (uint64_t)t.tv_nsec / 1000000);
}

/* A frame for the board: handled, then stored, then answered. */
static void receive_frame(int bus, int file, uint32_t header, const struct can_frame *received)
{
    const struct bujorelm_result result = bujorelm_node_handle_frame(&node, tick_now(), header, received->data, received->can_dlc);

    if (is_refused(result)) {
        return;
    }
    if (result.kind == BUJORELM_WRITTEN && !store(file, result.changed_at, result.changed_len)) {
        perror("store");
        return;
    }
    if (!bujorelm_send_frames(node.frames, result.frame_count, send_frame, &bus)) {
        perror("send");
    }
}

static bool comes_in_time(int bus)
{
    struct pollfd polled = {.fd = bus, .events = POLLIN};

    return poll(&polled, 1, TICK_PAUSE) > 0;
}

/* Serves the bus until it ends. Where no frame comes for a while, or only one that no board is interested in, the tick comes alone. */
static void serve(int bus, int file)
{
    for (;;) {
        const bool comes = comes_in_time(bus);
        struct can_frame received;
        uint32_t header;

        if (comes && read(bus, &received, sizeof received) != (ssize_t)sizeof received) {
            return;
        }
        if (comes && header_of(&received, &header)) {
            receive_frame(bus, file, header, &received);
        } else {
            (void)is_refused(bujorelm_node_tick(&node, tick_now()));
        }
    }
}

static int open_bus(const char *interface)
{
    struct sockaddr_can address;
    const int bus = socket(PF_CAN, SOCK_RAW, CAN_RAW);

    memset(&address, 0, sizeof address);
    address.can_family = AF_CAN;
    address.can_ifindex = (int)if_nametoindex(interface);
    if (bus < 0 || address.can_ifindex == 0 || bind(bus, (const struct sockaddr *)&address, sizeof address) != 0) {
        perror(interface);
        exit(EXIT_FAILURE);
    }
    return bus;
}

/* The memory of the last run; bytes that the file lacks are zero. */
static int open_store(const char *name)
{
    const int file = open(name, O_RDWR | O_CREAT, 0666);

    if (file < 0 || pread(file, memory, sizeof memory, 0) < 0) {
        perror(name);
        exit(EXIT_FAILURE);
    }
    return file;
}

static void start(void)
{
    bujorelm_node_start(&node, &demonstration_description, demonstration_flash, sizeof demonstration_flash, memory, sizeof memory);
}

int main(int argc, char **argv)
{
    if (argc != 3 || !bujorelm_version_fits()) {
        fputs(argc != 3 ? "usage: socketcan INTERFACE FILE\n" : "libbujorelm.a is of another version than bujorelm.h\n",
              stderr);
        return 2;
    }
    start();
    if (is_refused(bujorelm_node_check(&node))) {
        return EXIT_FAILURE;
    }
    serve(open_bus(argv[1]), open_store(argv[2]));
    return EXIT_FAILURE;
}
