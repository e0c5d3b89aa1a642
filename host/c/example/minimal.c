/*
 * A minimal board: 64 bytes of settings that tools may read and write, and a CDI that they may read.
 *
 * The CAN controller is played by an array of received frames and by standard output. In a driver can_receive, can_send, store and
 * tick_now talk to the hardware, and the main loop has no end; the rest stays as it is.
 */
#define _POSIX_C_SOURCE 200809L

#include "bujorelm.h"

#include <stdio.h>
#include <time.h>

/* ---- The hardware ---- */

struct received {
    uint32_t header;
    uint8_t len;
    uint8_t data[8];
};

/* The next received data frame with an extended header. One that has not come is waited for, but no longer than a second: false where none
   comes. */
static bool can_receive(struct received *frame)
{
    static const struct received bus[] = {
        /* From alias 0x456: write 11 22 to address 2 of space 0xFD. */
        {0x1A123456, 8, {0x20, 0x01, 0x00, 0x00, 0x00, 0x02, 0x11, 0x22}},
        /* Update Complete. */
        {0x1A123456, 2, {0x20, 0xA8}},
        /* Read 16 bytes from address 0 of space 0xFD. */
        {0x1A123456, 7, {0x20, 0x41, 0x00, 0x00, 0x00, 0x00, 0x10}},
        /* A command that the board does not know. */
        {0x1A123456, 2, {0x20, 0xFF}},
    };
    static size_t next = 0;

    if (next == sizeof bus / sizeof bus[0]) {
        return false;
    }
    *frame = bus[next++];
    return true;
}

/* Puts a frame behind those that wait to be sent; false where there is no room. */
static bool can_send(void *context, const struct bujorelm_frame *frame)
{
    (void)context;
    printf("%08lX", (unsigned long)frame->header);
    for (size_t i = 0; i < frame->len; i++) {
        printf(" %02X", frame->bytes[i]);
    }
    printf("\n");
    return true;
}

/* Stores bytes so that they outlast a power cut; false where that fails. */
static bool store(size_t at, const uint8_t *bytes, size_t len)
{
    printf("store at %zu:", at);
    for (size_t i = 0; i < len; i++) {
        printf(" %02X", bytes[i]);
    }
    printf("\n");
    return true;
}

/* The low 16 bits of a free-running count of milliseconds. */
static uint16_t tick_now(void)
{
    struct timespec t = {0, 0};

    (void)clock_gettime(CLOCK_MONOTONIC, &t);
    return (uint16_t)((uint64_t)t.tv_sec * 1000 + (uint64_t)t.tv_nsec / 1000000);
}

/* ---- The board ---- */

static const uint8_t cdi[] = "<cdi/>"; /* with the zero byte that ends it */
static uint8_t settings[64];

static const struct bujorelm_space spaces[] = {
    {.number = 0xFD, .read_only = false, .in_flash = false, .lowest = 0, .highest = sizeof settings - 1, .offset = 0},
    {.number = 0xFF, .read_only = true, .in_flash = true, .lowest = 0, .highest = sizeof cdi - 1, .offset = 0},
};

static const struct bujorelm_description description = {
    .alias = 0x123,
    .write_lengths = 0xF2,
    .count = sizeof spaces / sizeof spaces[0],
    .spaces = spaces,
};

static struct bujorelm_node node;

/* Whether the library refuses what the firmware hands in; the sentence says what to change. */
static bool is_refused(struct bujorelm_result result)
{
    char sentence[BUJORELM_SENTENCE_SIZE];

    if (result.kind != BUJORELM_REFUSED) {
        return false;
    }
    fprintf(stderr, "%s\n", bujorelm_sentence_of(result, sentence));
    return true;
}

/* A received frame: handled, then stored, then answered. */
static void board_receive(const struct received *frame)
{
    const struct bujorelm_result result = bujorelm_node_handle_frame(&node, tick_now(), frame->header, frame->data, frame->len);

    if (is_refused(result)) {
        return;
    }
    if (result.kind == BUJORELM_WRITTEN && !store(result.changed_at, settings + result.changed_at, result.changed_len)) {
        /* A tool that hears nothing does not rely on what it wrote. */
        return;
    }
    if (!bujorelm_send_frames(node.frames, result.frame_count, can_send, NULL)) {
        fputs("no room for the answer\n", stderr);
    }
}

/* A turn of the main loop. Where no frame comes, the tick comes alone: it drops what a tool has begun and left. */
static bool turn(void)
{
    struct received frame;

    if (can_receive(&frame)) {
        board_receive(&frame);
        return true;
    }
    (void)is_refused(bujorelm_node_tick(&node, tick_now()));
    return false;
}

int main(void)
{
    if (!bujorelm_version_fits()) {
        fputs("the archive is of another version than the header\n", stderr);
        return 1;
    }
    bujorelm_node_start(&node, &description, cdi, sizeof cdi, settings, sizeof settings);
    if (is_refused(bujorelm_node_check(&node))) {
        return 1;
    }
    /* The bus that is played here ends when it is quiet. */
    while (turn()) {
    }
    return 0;
}
