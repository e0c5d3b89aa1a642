/* What the two halves of the stack test of the tool's half share: the calls that are measured, and what they are made on. */
#ifndef BUJORELM_TOOL_STACK_H
#define BUJORELM_TOOL_STACK_H

#include "bujorelm_tool.h"

struct tool_subject {
    uint8_t space;
    uint32_t address;
    size_t count;
    uint8_t bytes[80];
    size_t len;
    uint8_t buffer[BUJORELM_COMMAND_MIN];
    size_t buffer_len;
    struct bujorelm_frame frame;
    uint8_t pool[BUJORELM_POOL_SIZE];
    struct bujorelm_reception reception;
    uint32_t version;
    struct bujorelm_composed composed;
    struct bujorelm_acknowledged acknowledged;
    struct bujorelm_rejection rejection;
    struct bujorelm_reply reply;
    struct bujorelm_joined joined;
    struct bujorelm_pair pairs[2];
    struct bujorelm_pair pair;
    size_t from;
    size_t image_len;
    uint8_t room[BUJORELM_PAIRS_MIN];
    size_t room_len;
    struct bujorelm_change change;
};

/* The images of a change, which a call only reads: they are not in the subject, which is put back before each call. */
struct tool_images {
    uint8_t before[BUJORELM_STORE_MAX];
    uint8_t after[BUJORELM_STORE_MAX];
};

extern struct tool_subject subject;
extern struct tool_images images;

void call_compose_read(void);
void call_compose_write(void);
void call_compose_masked_write(void);
void call_compose_options(void);
void call_compose_information(void);
void call_compose_lock(void);
void call_compose_update_complete(void);
void call_read_received_ok(void);
void call_read_rejected(void);
void call_read_reply(void);
void call_join(void);
void call_put_together(void);
void call_next_change(void);
void call_tool_version(void);

#endif
