/* What the two halves of the stack test share: the calls that are measured, and what they are made on. Nothing goes to a call or comes back
   but through these, so that the caller of a call has no locals of its own. */
#ifndef BUJORELM_STACK_H
#define BUJORELM_STACK_H

#include "bujorelm.h"

struct subject {
    struct bujorelm_node node;
    uint8_t flash[256];
    uint8_t memory[256];
    uint8_t reply[BUJORELM_REPLY_MIN];
    uint8_t text[BUJORELM_PRINTED_MAX];
    uint8_t datagram[80];
    uint64_t datagram_len;
    uint16_t tick;
    struct bujorelm_frame frame;
    struct bujorelm_frame frames[BUJORELM_SENT_MAX];
    struct bujorelm_result answer;
    struct bujorelm_parsed parsed;
    struct bujorelm_carry carry;
    struct bujorelm_line line;
    uint64_t from;
    uint64_t at;
    uint32_t version;
    uint64_t count;
    uint64_t printed;
};

extern struct subject subject;

void call_handle_frame(void);
void call_handle_tick(void);
void call_handle_datagram(void);
void call_cut(void);
void call_received_ok(void);
void call_rejected(void);
void call_print_frame(void);
void call_parse_line(void);
void call_next_line(void);
void call_last_line(void);
void call_version(void);
void call_node_check(void);
void call_node_receive(void);

#endif
