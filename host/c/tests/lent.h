/* The calls of the library whose result is lent, for the tests: the room for it is between pages that cannot be touched
   and holds anything before the call, all of it is filled in, and padding is zero. */
#ifndef BUJORELM_LENT_H
#define BUJORELM_LENT_H

#include "bujorelm.h"
#include "check.h"

static struct bujorelm_result *result_room;

/* The room for the result of the next call. */
static inline struct bujorelm_result *lent_result(void)
{
    result_room = room_for(sizeof *result_room);
    return result_room;
}

/* What the call has left there. */
static inline struct bujorelm_result given_result(void)
{
    CHECK(result_room->unused == 0);
    return *result_room;
}

static inline struct bujorelm_result handle_tick(struct bujorelm_reception *reception, uint16_t tick)
{
    bujorelm_handle_tick(reception, tick, lent_result());
    return given_result();
}

static inline struct bujorelm_parsed parse_line(const uint8_t *line, uint64_t len)
{
    struct bujorelm_parsed *const parsed = room_for(sizeof *parsed);

    bujorelm_parse_line(line, len, parsed);
    CHECK(((const uint8_t *)parsed)[0] <= 1 && is_zero_from(parsed, 1, 4));
    return *parsed;
}

static inline uint64_t print_frame(struct bujorelm_frame frame, uint8_t *out, uint64_t out_len, uint64_t at)
{
    struct bujorelm_frame *const lent = room_for(sizeof *lent);
    uint64_t end;

    *lent = frame;
    end = bujorelm_print_frame(lent, out, out_len, at);
    CHECK(memcmp(lent, &frame, sizeof frame) == 0);
    return end;
}

/* A step of the line splitter: what it found, the carry that it leaves, and the index up to which the chunk is read. */
struct line_step {
    struct bujorelm_line line;
    struct bujorelm_carry carry;
    uint64_t at;
};

static inline struct line_step step_of(const struct bujorelm_line *line, const struct bujorelm_carry *carry, uint64_t at)
{
    const uint8_t *const bytes = (const uint8_t *)line;

    CHECK(bytes[0] <= 1 && is_zero_from(bytes, 1, 4) && bytes[4] <= 1 && is_zero_from(bytes, 5, 8));
    CHECK(is_zero_from(carry->unused, 0, sizeof carry->unused));
    return (struct line_step){.line = *line, .carry = *carry, .at = at};
}

static inline struct line_step next_line(const uint8_t *chunk, uint64_t chunk_len, uint64_t from, struct bujorelm_carry carry)
{
    struct bujorelm_line *const line = room_for(sizeof *line);
    struct bujorelm_carry *const lent = room_for(sizeof *lent);
    uint64_t at;

    *lent = carry;
    at = bujorelm_next_line(chunk, chunk_len, from, lent, line);
    return step_of(line, lent, at);
}

static inline struct line_step last_line(struct bujorelm_carry carry)
{
    struct bujorelm_line *const line = room_for(sizeof *line);
    struct bujorelm_carry *const lent = room_for(sizeof *lent);

    *lent = carry;
    bujorelm_last_line(lent, line);
    return step_of(line, lent, 0);
}

#endif
