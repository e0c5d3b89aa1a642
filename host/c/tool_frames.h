/* Frames between the bench tool and a board: printed as GridConnect lines on their way out, and put together to answers on their way in. */
#ifndef BUJORELM_TOOL_FRAMES_H
#define BUJORELM_TOOL_FRAMES_H

#include "bujorelm_tool.h"

/* Room for the lines of as many frames as a call of the library makes. */
#define LINES_MAX (BUJORELM_SENT_MAX * BUJORELM_PRINTED_MAX)

/* The most bytes that are kept of the content of a Received OK or a Rejected. That is more than either may have, so that what is cut off here
   is W3 in any case. */
#define CONTENT_MAX 72u

/* What a frame has brought to its end. */
enum answer_kind {
    ANSWER_NONE,
    /* The content of a Received OK, of a Rejected, or a datagram. */
    ANSWER_RECEIVED_OK,
    ANSWER_REJECTED,
    ANSWER_DATAGRAM,
    /* A datagram frame that does not follow on the ones before it, with the code of its refusal. */
    ANSWER_OUT_OF_ORDER
};

/* The bytes are those of the frame or of the listener, and stay until the next frame. */
struct answer {
    enum answer_kind kind;
    uint16_t code;
    const uint8_t *bytes;
    size_t len;
};

/* What a tool keeps while it listens to one board: all zero at the start, but for the two aliases. */
struct listener {
    uint16_t board;
    uint16_t alias;
    /* Of a Received OK or a Rejected in several frames: the top 17 bits of its headers while it is unfinished, and else 0. */
    uint32_t message;
    uint8_t content[CONTENT_MAX];
    size_t content_len;
    uint8_t pool[BUJORELM_POOL_SIZE];
    struct bujorelm_reception reception;
};

/* Prints frames as lines into `text`, LINES_MAX bytes, and returns how many bytes they have. */
size_t print_frames(const struct bujorelm_frame *frames, size_t count, uint8_t *text);

/* Takes a frame. What other nodes send, and what the board sends to other tools, is no answer. */
struct answer listener_take(struct listener *listener, const struct bujorelm_frame *frame);

/* Whether the beginning of an answer has come and not its end. */
bool listener_is_waiting(const struct listener *listener);

#endif
