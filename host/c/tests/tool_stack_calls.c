/* The calls whose stack tests/tool_stack.c measures, as a plain program makes them. This file is compiled at each level of optimisation. */
#include "tool_stack.h"

void call_compose_read(void)
{
    bujorelm_compose_read(subject.space, subject.address, subject.count, subject.buffer, subject.buffer_len, &subject.composed);
}

void call_compose_write(void)
{
    bujorelm_compose_write(subject.space, subject.address, subject.bytes, subject.len, subject.buffer, subject.buffer_len,
                           &subject.composed);
}

void call_compose_masked_write(void)
{
    bujorelm_compose_masked_write(subject.space, subject.address, subject.bytes, subject.len, subject.buffer, subject.buffer_len,
                                  &subject.composed);
}

void call_compose_options(void)
{
    bujorelm_compose_options(subject.buffer, subject.buffer_len, &subject.composed);
}

void call_compose_information(void)
{
    bujorelm_compose_information(subject.space, subject.buffer, subject.buffer_len, &subject.composed);
}

void call_compose_lock(void)
{
    bujorelm_compose_lock(subject.bytes, subject.len, subject.buffer, subject.buffer_len, &subject.composed);
}

void call_compose_update_complete(void)
{
    bujorelm_compose_update_complete(subject.buffer, subject.buffer_len, &subject.composed);
}

void call_read_received_ok(void)
{
    bujorelm_read_received_ok(subject.bytes, subject.len, &subject.acknowledged);
}

void call_read_rejected(void)
{
    bujorelm_read_rejected(subject.bytes, subject.len, &subject.rejection);
}

void call_read_reply(void)
{
    bujorelm_read_reply(subject.bytes, subject.len, &subject.reply);
}

void call_join(void)
{
    bujorelm_join(0x456, subject.pool, &subject.reception, subject.frame.header, subject.frame.bytes, subject.frame.len, &subject.joined);
}

void call_put_together(void)
{
    bujorelm_put_together(&subject.pairs[0], &subject.pairs[1], &subject.pair);
}

void call_next_change(void)
{
    bujorelm_next_change(images.before, sizeof images.before, images.after, subject.image_len, subject.from, subject.room, subject.room_len,
                         &subject.change);
}

void call_tool_version(void)
{
    subject.version = bujorelm_tool_version();
}
