/* What the tests of the tool's half share: bytes that must stay as they are, and replies read between pages that cannot be touched, and compared
   field by field. */
#ifndef BUJORELM_TOOL_CHECK_H
#define BUJORELM_TOOL_CHECK_H

#include "tool_lent.h"

#define UNTOUCHED 0xC7

static inline bool is_untouched(const uint8_t *bytes, size_t from, size_t end)
{
    for (size_t i = from; i < end; i++) {
        if (bytes[i] != UNTOUCHED) {
            return false;
        }
    }
    return true;
}

static const struct bujorelm_bytes none = {.given = false, .start = 0, .len = 0};

static inline struct bujorelm_bytes at(size_t start, size_t len)
{
    return (struct bujorelm_bytes){.given = true, .start = start, .len = len};
}

static inline bool same_bytes(struct bujorelm_bytes a, struct bujorelm_bytes b)
{
    return a.given == b.given && a.start == b.start && a.len == b.len;
}

static inline bool same_options(const struct bujorelm_options *a, const struct bujorelm_options *b)
{
    return a->commands == b->commands && a->write_lengths == b->write_lengths && a->highest_space == b->highest_space &&
           a->has_lowest_space == b->has_lowest_space && a->lowest_space == b->lowest_space;
}

static inline bool same_information(const struct bujorelm_information *a, const struct bujorelm_information *b)
{
    return a->highest_address == b->highest_address && a->lowest_address == b->lowest_address && a->flags == b->flags &&
           a->present == b->present && a->has_lowest_address == b->has_lowest_address;
}

/* Whether all fields are the same, those among them that the kind does not name. */
static inline bool same_reply(const struct bujorelm_reply *a, const struct bujorelm_reply *b)
{
    return a->kind == b->kind && a->address == b->address && a->code == b->code && a->space == b->space && a->form == b->form &&
           same_options(&a->options, &b->options) && same_information(&a->information, &b->information) && same_bytes(a->bytes, b->bytes);
}

/* Reads a datagram that can only be read, now with the one end at a guard and now with the other. */
static inline struct bujorelm_reply read_reply(const uint8_t *datagram, size_t len)
{
    static bool at_start;
    struct guarded lent = guarded_new(len, at_start);
    struct bujorelm_reply reply;

    at_start = !at_start;
    memcpy(lent.bytes, datagram, len);
    guarded_read_only(&lent);
    reply = reply_in(lent.bytes, len);
    guarded_free(&lent);
    return reply;
}

#endif
