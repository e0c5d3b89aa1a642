/* A GridConnect session on standard input, answered by the demonstration board as the reference host answers it. The
   lines are split off by the library, out of chunks of several sizes. */
#include "demonstration.h"
#include "machine.h"

static struct bujorelm_node node;
static uint8_t memory[DEMONSTRATION_MEMORY_SIZE];

static void answer(const struct bujorelm_parsed *parsed)
{
    struct bujorelm_result result;

    if (!parsed->good) {
        machine_say("?\n");
        return;
    }
    result = bujorelm_node_handle_frame(&node, 0, parsed->frame.header, parsed->frame.bytes, parsed->frame.len);
    for (uint32_t i = 0; i < result.frame_count; i++) {
        uint8_t text[BUJORELM_PRINTED_MAX];

        machine_write(text, (size_t)bujorelm_print_frame(&node.frames[i], text, sizeof text, 0));
    }
}

/* Every line that the chunk completes. */
static void feed(struct bujorelm_carry *carry, const uint8_t *chunk, uint64_t len)
{
    uint64_t at = 0;

    while (at < len) {
        struct bujorelm_line line;

        at = bujorelm_next_line(chunk, len, at, carry, &line);
        if (line.complete) {
            answer(&line.parsed);
        }
    }
}

int main(void)
{
    static struct bujorelm_carry carry;
    static uint8_t chunk[61];
    struct bujorelm_line line;
    size_t room = 1;
    size_t len;

    if (!bujorelm_version_fits()) {
        return 1;
    }
    bujorelm_node_start(&node, &demonstration_description, demonstration_flash, sizeof demonstration_flash, memory, sizeof memory);
    while ((len = machine_read(chunk, room)) > 0) {
        feed(&carry, chunk, len);
        room = room == sizeof chunk ? 1 : room + 1;
    }
    bujorelm_last_line(&carry, &line);
    if (line.complete) {
        answer(&line.parsed);
    }
    return 0;
}
