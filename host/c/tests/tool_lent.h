/* The calls of the tool's half, whose results are lent, for the tests: the room for one is between pages that cannot be
   touched and holds anything before the call, all of it is filled in, and padding is zero. */
#ifndef BUJORELM_TOOL_LENT_H
#define BUJORELM_TOOL_LENT_H

#include "bujorelm_tool.h"
#include "check.h"

static struct bujorelm_composed *composed_room;

/* The room for what comes of the next command that is written. */
static inline struct bujorelm_composed *lent_composed(void)
{
    composed_room = room_for(sizeof *composed_room);
    return composed_room;
}

/* What the call has left there. */
static inline struct bujorelm_composed given_composed(void)
{
    CHECK(is_zero_from(composed_room, 4, 8));
    return *composed_room;
}

static inline struct bujorelm_acknowledged read_received_ok(const uint8_t *content, size_t len)
{
    struct bujorelm_acknowledged *const read = room_for(sizeof *read);

    bujorelm_read_received_ok(content, len, read);
    CHECK(((const uint8_t *)read)[4] <= 1 && is_zero_from(read, 6, 8));
    return *read;
}

static inline struct bujorelm_rejection read_rejected(const uint8_t *content, size_t len)
{
    struct bujorelm_rejection *const read = room_for(sizeof *read);

    bujorelm_read_rejected(content, len, read);
    CHECK(is_zero_from(read, 6, 8) && ((const uint8_t *)read)[8] <= 1 && is_zero_from(read, 9, 16));
    return *read;
}

static inline struct bujorelm_reply reply_in(const uint8_t *datagram, size_t len)
{
    struct bujorelm_reply *const read = room_for(sizeof *read);
    const uint8_t *const bytes = (const uint8_t *)read;

    bujorelm_read_reply(datagram, len, read);
    CHECK(bytes[16] <= 1 && is_zero_from(bytes, 18, 20) && bytes[29] <= 1 && bytes[30] <= 1 && bytes[31] == 0);
    CHECK(bytes[32] <= 1 && is_zero_from(bytes, 33, 40));
    return *read;
}

static inline struct bujorelm_joined join_frame(uint16_t alias, uint8_t *pool, struct bujorelm_reception *reception, uint32_t header,
                                                const uint8_t *data, size_t len)
{
    struct bujorelm_joined *const joined = room_for(sizeof *joined);

    bujorelm_join(alias, pool, reception, header, data, len, joined);
    CHECK(is_zero_from(joined, 6, 8));
    return *joined;
}

static inline struct bujorelm_pair put_together(struct bujorelm_pair earlier, struct bujorelm_pair later)
{
    struct bujorelm_pair *const lent = room_for(sizeof *lent);
    struct bujorelm_pair *const behind = room_for(sizeof *behind);
    struct bujorelm_pair *const together = room_for(sizeof *together);

    *lent = earlier;
    *behind = later;
    bujorelm_put_together(lent, behind, together);
    CHECK(memcmp(lent, &earlier, sizeof earlier) == 0 && memcmp(behind, &later, sizeof later) == 0);
    return *together;
}

static inline struct bujorelm_change change_between(const uint8_t *before, size_t before_len, const uint8_t *after, size_t after_len,
                                                    size_t from, uint8_t *pairs, size_t pairs_len)
{
    struct bujorelm_change *const change = room_for(sizeof *change);

    bujorelm_next_change(before, before_len, after, after_len, from, pairs, pairs_len, change);
    CHECK(((const uint8_t *)change)[4] <= 1 && is_zero_from(change, 5, 8));
    return *change;
}

#endif
