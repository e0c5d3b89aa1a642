/* Frames of the bench tool: printing those that it sends, and joining those that a board answers with. */
#include "tool_frames.h"

#include <string.h>

/* The headers of Received OK and of Rejected, above the source alias. */
#define RECEIVED_OK 0x19A28u
#define REJECTED 0x19A48u

/* Which part of its message a frame is: bits 4 and 5 of its first byte. The two above them are reserved and ignored. */
enum part { PART_ONLY = 0, PART_FIRST = 1, PART_LAST = 2, PART_MIDDLE = 3 };

static const struct answer no_answer = {.kind = ANSWER_NONE};

size_t print_frames(const struct bujorelm_frame *frames, size_t count, uint8_t *text)
{
    size_t len = 0;

    for (size_t i = 0; i < count; i++) {
        len = bujorelm_print_frame(&frames[i], text, LINES_MAX, len);
    }
    return len;
}

/* A frame of a Received OK or a Rejected: the destination alias is in its first two bytes, and the content behind them. */
static struct answer take_message(struct listener *listener, uint32_t message, const struct bujorelm_frame *frame)
{
    const enum answer_kind kind = message == RECEIVED_OK ? ANSWER_RECEIVED_OK : ANSWER_REJECTED;
    const enum part part = frame->bytes[0] >> 4 & 3;
    const size_t room = sizeof listener->content;
    size_t len;

    if (frame->len < 2 || ((frame->bytes[0] & 0xFu) << 8 | frame->bytes[1]) != listener->alias) {
        return no_answer;
    }
    if (part == PART_ONLY || part == PART_FIRST) {
        listener->message = message;
        listener->content_len = 0;
    }
    if (listener->message != message) {
        /* Its beginning never came. */
        return no_answer;
    }
    len = frame->len - 2 < room - listener->content_len ? frame->len - 2 : room - listener->content_len;
    memcpy(listener->content + listener->content_len, frame->bytes + 2, len);
    listener->content_len += len;
    if (part == PART_FIRST || part == PART_MIDDLE) {
        return no_answer;
    }
    listener->message = 0;
    return (struct answer){.kind = kind, .bytes = listener->content, .len = listener->content_len};
}

static struct answer take_datagram(struct listener *listener, const struct bujorelm_frame *frame)
{
    struct bujorelm_joined joined;

    bujorelm_join(listener->alias, listener->pool, &listener->reception, frame->header, frame->bytes, frame->len, &joined);
    switch (joined.kind) {
    case BUJORELM_JOINED_REFUSED:
        return (struct answer){.kind = ANSWER_OUT_OF_ORDER, .code = joined.code};
    case BUJORELM_JOINED_IN_FRAME:
        return (struct answer){.kind = ANSWER_DATAGRAM, .bytes = frame->bytes, .len = frame->len};
    case BUJORELM_JOINED_IN_POOL:
        return (struct answer){.kind = ANSWER_DATAGRAM, .bytes = listener->pool + joined.start, .len = joined.end - joined.start};
    case BUJORELM_JOINED_BAD_STATE:
    case BUJORELM_JOINED_IGNORED:
    case BUJORELM_JOINED_PART:
    default:
        return no_answer;
    }
}

struct answer listener_take(struct listener *listener, const struct bujorelm_frame *frame)
{
    const uint32_t message = frame->header >> 12;

    if (bujorelm_source_of(frame->header) != listener->board) {
        return no_answer;
    }
    if (message == RECEIVED_OK || message == REJECTED) {
        return take_message(listener, message, frame);
    }
    return take_datagram(listener, frame);
}

bool listener_is_waiting(const struct listener *listener)
{
    for (size_t i = 0; i < BUJORELM_PLACES; i++) {
        const struct bujorelm_place *const place = &listener->reception.places[i];

        /* Where a reply was broken, that was its end: what is swallowed behind it answers nothing. */
        if (place->held != 0 && place->swallowing == 0) {
            return true;
        }
    }
    return listener->message != 0;
}
