/*
 * The calls whose stack tests/stack.c measures, as a plain program makes them: each function of the header is called in one place, so that
 * a compiler may take an inline function into its caller. This file is compiled at each level of optimisation.
 */
#include "stack.h"

void call_handle_frame(void)
{
    bujorelm_handle_frame(subject.node.description.alias, subject.node.description.write_lengths, subject.node.description.spaces,
                          16 * subject.node.description.count, subject.flash, sizeof subject.flash, subject.memory, sizeof subject.memory,
                          &subject.node.registers, subject.node.pool, &subject.node.reception, subject.tick, subject.frame.header,
                          subject.frame.bytes, subject.frame.len, subject.reply, sizeof subject.reply, subject.frames, &subject.answer);
}

void call_handle_tick(void)
{
    bujorelm_handle_tick(&subject.node.reception, subject.tick, &subject.answer);
}

void call_handle_datagram(void)
{
    bujorelm_handle_datagram(subject.node.description.alias, subject.node.description.write_lengths, subject.node.description.spaces,
                             16 * subject.node.description.count, subject.flash, sizeof subject.flash, subject.memory, sizeof subject.memory,
                             &subject.node.registers, subject.datagram, subject.datagram_len, subject.reply, sizeof subject.reply,
                             &subject.answer);
}

void call_cut(void)
{
    subject.count = bujorelm_cut(subject.datagram, subject.datagram_len, 0x22B, 0x123, subject.frames);
}

void call_received_ok(void)
{
    subject.count = bujorelm_received_ok(0x22B, 0x123, 0x80, subject.frames);
}

void call_rejected(void)
{
    subject.count = bujorelm_rejected(0x22B, 0x123, 0x1080, subject.frames);
}

void call_print_frame(void)
{
    subject.printed = bujorelm_print_frame(&subject.frame, subject.text, sizeof subject.text, 0);
}

void call_parse_line(void)
{
    bujorelm_parse_line(subject.text, subject.printed == 0 ? 0 : subject.printed - 1, &subject.parsed);
}

void call_next_line(void)
{
    subject.at = bujorelm_next_line(subject.text, subject.printed, subject.from, &subject.carry, &subject.line);
}

void call_last_line(void)
{
    bujorelm_last_line(&subject.carry, &subject.line);
}

void call_version(void)
{
    subject.version = bujorelm_version();
}

void call_node_check(void)
{
    subject.answer = bujorelm_node_check(&subject.node);
}

/* What a driver's own function takes is not the library's. */
static bool take(void *context, const struct bujorelm_frame *frame)
{
    (void)context;
    (void)frame;
    subject.count++;
    return true;
}

void call_node_receive(void)
{
    (void)bujorelm_node_receive(&subject.node, subject.tick, subject.frame.header, subject.frame.bytes, subject.frame.len, take, NULL,
                                NULL);
}
