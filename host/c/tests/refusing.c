/*
 * A library that refuses: linked with a program by -Wl,--wrap=bujorelm_handle_frame,--wrap=bujorelm_handle_tick, it
 * gives an error of the caller and a position where the real call would have answered. REFUSAL in the environment has
 * four numbers: how many frames and how many lone ticks are left to the library before that, each counted by itself,
 * the error's number, and the position.
 */
#include "bujorelm.h"

#include <stdio.h>
#include <stdlib.h>

void __real_bujorelm_handle_frame(uint16_t alias, uint8_t write_lengths, const struct bujorelm_space *spaces, uint64_t spaces_size,
                                  const uint8_t *flash, uint64_t flash_len, uint8_t *memory, uint64_t memory_len,
                                  struct bujorelm_registers *registers, uint8_t *pool, struct bujorelm_reception *reception, uint16_t tick,
                                  uint32_t header, const uint8_t *payload, uint64_t payload_len, uint8_t *reply, uint64_t reply_len,
                                  struct bujorelm_frame *frames, struct bujorelm_result *result);
void __wrap_bujorelm_handle_frame(uint16_t alias, uint8_t write_lengths, const struct bujorelm_space *spaces, uint64_t spaces_size,
                                  const uint8_t *flash, uint64_t flash_len, uint8_t *memory, uint64_t memory_len,
                                  struct bujorelm_registers *registers, uint8_t *pool, struct bujorelm_reception *reception, uint16_t tick,
                                  uint32_t header, const uint8_t *payload, uint64_t payload_len, uint8_t *reply, uint64_t reply_len,
                                  struct bujorelm_frame *frames, struct bujorelm_result *result);
void __real_bujorelm_handle_tick(struct bujorelm_reception *reception, uint16_t tick, struct bujorelm_result *result);
void __wrap_bujorelm_handle_tick(struct bujorelm_reception *reception, uint16_t tick, struct bujorelm_result *result);

/* What REFUSAL says. */
struct refusal {
    unsigned frames;
    unsigned ticks;
    struct bujorelm_result result;
};

static struct refusal refusal_wanted(void)
{
    const char *const text = getenv("REFUSAL");
    struct refusal wanted = {.result = {.kind = BUJORELM_REFUSED}};
    unsigned error;
    unsigned position;

    if (text == NULL || sscanf(text, "%u %u %u %u", &wanted.frames, &wanted.ticks, &error, &position) != 4) {
        fputs("refusing: REFUSAL has to be four numbers\n", stderr);
        exit(EXIT_FAILURE);
    }
    wanted.result.error = (uint8_t)error;
    wanted.result.position = (uint8_t)position;
    return wanted;
}

void __wrap_bujorelm_handle_frame(uint16_t alias, uint8_t write_lengths, const struct bujorelm_space *spaces, uint64_t spaces_size,
                                  const uint8_t *flash, uint64_t flash_len, uint8_t *memory, uint64_t memory_len,
                                  struct bujorelm_registers *registers, uint8_t *pool, struct bujorelm_reception *reception, uint16_t tick,
                                  uint32_t header, const uint8_t *payload, uint64_t payload_len, uint8_t *reply, uint64_t reply_len,
                                  struct bujorelm_frame *frames, struct bujorelm_result *result)
{
    static unsigned frames_before = 0;
    const struct refusal wanted = refusal_wanted();

    if (frames_before++ >= wanted.frames) {
        *result = wanted.result;
    } else {
        __real_bujorelm_handle_frame(alias, write_lengths, spaces, spaces_size, flash, flash_len, memory, memory_len, registers, pool,
                                     reception, tick, header, payload, payload_len, reply, reply_len, frames, result);
    }
}

void __wrap_bujorelm_handle_tick(struct bujorelm_reception *reception, uint16_t tick, struct bujorelm_result *result)
{
    static unsigned ticks_before = 0;
    const struct refusal wanted = refusal_wanted();

    if (ticks_before++ >= wanted.ticks) {
        *result = wanted.result;
    } else {
        __real_bujorelm_handle_tick(reception, tick, result);
    }
}
