/*
 * A board on the bus: 64 bytes of settings that tools may read and write and that outlast a power cut, a CDI that says
 * what they are, and a space with figures about the board itself.
 *
 * The order for each frame is: handle, store, send. A tool that hears Received OK can rely on what it wrote.
 */
#include "board.h"
#include "can.h"

/* ---- What tools see ---- */

static const char cdi[] =
    "<?xml version=\"1.0\" encoding=\"utf-8\"?>"
    "<cdi>"
    "<identification><manufacturer>Bujorelm</manufacturer><model>Example board</model></identification>"
    "<segment space=\"253\"><name>Settings</name>"
    "<string size=\"16\"><name>Name of the board</name></string>"
    "<group replication=\"6\"><name>Signal</name><eventid><name>Event</name></eventid></group>"
    "</segment>"
    "<segment space=\"16\"><name>About the board</name>"
    "<int size=\"4\"><name>Bytes of stack that were in use</name></int>"
    "<int size=\"4\"><name>Frames lost</name></int>"
    "<int size=\"4\"><name>Lines that were no frame</name></int>"
    "</segment>"
    "</cdi>"; /* with the zero byte that ends it */

#define ABOUT_SIZE 12u

/* The memory that the library is lent. */
static struct {
    uint8_t settings[SETTINGS_SIZE];
    uint8_t about[ABOUT_SIZE];
} memory;

static const struct bujorelm_space spaces[] = {
    {.number = 0xFD, .read_only = false, .in_flash = false, .lowest = 0, .highest = SETTINGS_SIZE - 1, .offset = 0},
    {.number = 0xFF, .read_only = true, .in_flash = true, .lowest = 0, .highest = sizeof cdi - 1, .offset = 0},
    {.number = 0x10, .read_only = true, .in_flash = false, .lowest = 0, .highest = ABOUT_SIZE - 1, .offset = SETTINGS_SIZE},
};

/* A real board reserves its alias on the bus; that protocol is not in the library. */
static const struct bujorelm_description description = {
    .alias = 0x22B,
    .write_lengths = 0xF2,
    .count = sizeof spaces / sizeof spaces[0],
    .spaces = spaces,
};

static struct bujorelm_node node;

static void put_number(uint8_t *at, uint32_t number)
{
    at[0] = (uint8_t)(number >> 24);
    at[1] = (uint8_t)(number >> 16);
    at[2] = (uint8_t)(number >> 8);
    at[3] = (uint8_t)number;
}

/* The figures about the board, put between two calls: then a tool reads them of one moment. */
static void refresh_about(void)
{
    put_number(memory.about, stack_used());
    put_number(memory.about + 4, can_lost());
    put_number(memory.about + 8, can_spoilt());
}

/* ---- The main loop ---- */

/* A frame: handled, then stored, then answered. Settings are all that tools may write, so that what was written is
   among them. */
static void board_receive(const struct bujorelm_frame *frame)
{
    const struct bujorelm_result result = bujorelm_node_handle_frame(&node, (uint16_t)clock_now(), frame->header, frame->bytes, frame->len);

    if (result.kind == BUJORELM_REFUSED) {
        board_halt();
    }
    if (result.kind == BUJORELM_WRITTEN && !settings_store(memory.settings)) {
        /* A tool that hears nothing does not rely on what it wrote. */
        return;
    }
    (void)bujorelm_send_frames(node.frames, result.frame_count, can_send, NULL);
}

/* A tick that comes alone, once in a second: it drops what a tool has begun and left. */
static void board_tick(void)
{
    static uint32_t last;
    const uint32_t now = clock_now();

    if (now - last < 1000u) {
        return;
    }
    last = now;
    if (bujorelm_node_tick(&node, (uint16_t)now).kind == BUJORELM_REFUSED) {
        board_halt();
    }
}

int main(void)
{
    if (!bujorelm_version_fits()) {
        board_halt();
    }
    settings_load(memory.settings);
    bujorelm_node_start(&node, &description, (const uint8_t *)cdi, sizeof cdi, (uint8_t *)&memory, sizeof memory);
    /* A description that the library refuses shows here, before the first frame: in a debugger by node and this
       place. */
    if (bujorelm_node_check(&node).kind == BUJORELM_REFUSED) {
        board_halt();
    }
    clock_start();
    can_start();
    for (;;) {
        struct bujorelm_frame frame;

        if (can_receive(&frame)) {
            refresh_about();
            board_receive(&frame);
        } else {
            board_tick();
            __asm__ volatile("wfi");
        }
    }
}
