// The header of the tool's half in C++: it compiles, its functions have C linkage, and what they give arrives.
#include "bujorelm_tool.h"

#include <cstdio>
#include <cstring>

// One change of two bytes that differ, and two pairs put together.
static bool changes_bits()
{
    static const uint8_t before[] = {0x00, 0x00, 0xFF};
    static const uint8_t after[] = {0x00, 0x01, 0x7F};
    static const uint8_t wanted[] = {0x01, 0x01, 0x80, 0x00};
    const bujorelm_pair earlier = {0x0F, 0x05};
    const bujorelm_pair later = {0xF1, 0xA0};
    bujorelm_pair one;
    uint8_t pairs[BUJORELM_PAIRS_MIN];
    bujorelm_change change;
    bujorelm_change none;
    bujorelm_change refused;

    bujorelm_put_together(&earlier, &later, &one);
    bujorelm_next_change(before, sizeof before, after, sizeof after, 0, pairs, sizeof pairs, &change);
    bujorelm_next_change(before, sizeof before, after, sizeof after, 3, pairs, sizeof pairs, &none);
    bujorelm_next_change(before, 2, after, 3, 0, pairs, sizeof pairs, &refused);
    return one.mask == 0xFF && one.data == 0xA4 && change.refusal == BUJORELM_CHANGE_NOT_REFUSED && change.given && change.start == 1 &&
           change.count == 2 && std::memcmp(pairs, wanted, sizeof wanted) == 0 && !none.given &&
           refused.refusal == BUJORELM_CHANGE_REFUSED_LENGTHS;
}

int main()
{
    static const uint8_t options[] = {0x20, 0x82, 0xE0, 0x00, 0xF2, 0xFF, 0x10, 'A', 0};
    static const uint8_t flags[] = {0x83};
    static const uint8_t code[] = {0x10, 0x80};
    static uint8_t pool[BUJORELM_POOL_SIZE];
    static bujorelm_reception reception;
    uint8_t command[BUJORELM_COMMAND_MIN];
    bujorelm_frame frames[BUJORELM_SENT_MAX];
    bujorelm_composed composed;
    bujorelm_composed refused;
    bujorelm_acknowledged ok;
    bujorelm_rejection rejection;
    bujorelm_reply reply;
    bujorelm_joined joined = bujorelm_joined();

    bujorelm_compose_read(0xFD, 0, 16, command, sizeof command, &composed);
    bujorelm_compose_read(0xFD, 0, 0, command, sizeof command, &refused);
    bujorelm_read_received_ok(flags, sizeof flags, &ok);
    bujorelm_read_rejected(code, sizeof code, &rejection);
    bujorelm_read_reply(options, sizeof options, &reply);
    if (!bujorelm_tool_version_fits() || composed.refusal != BUJORELM_REFUSAL_NONE || composed.len != 7 ||
        refused.refusal != BUJORELM_REFUSAL_W1 || !ok.pending || ok.timeout != 3 ||
        rejection.code != 0x1080 || rejection.further.len != 0 || reply.kind != BUJORELM_REPLY_OPTIONS || !reply.options.has_lowest_space ||
        reply.options.lowest_space != 0x10 || !reply.bytes.given || reply.bytes.start != 7 || reply.bytes.len != 1 ||
        bujorelm_cut(options, sizeof options, 0x22B, 0x456, frames) != 2) {
        std::puts("tool_header: the library does not answer in C++");
        return 1;
    }
    for (size_t i = 0; i < 2; i++) {
        bujorelm_join(0x456, pool, &reception, frames[i].header, frames[i].bytes, frames[i].len, &joined);
    }
    if (joined.kind != BUJORELM_JOINED_IN_POOL || joined.end - joined.start != sizeof options ||
        std::memcmp(pool + joined.start, options, sizeof options) != 0) {
        std::puts("tool_header: the library does not join in C++");
        return 1;
    }
    if (!changes_bits()) {
        std::puts("tool_header: the library does not change bits in C++");
        return 1;
    }
    std::puts("tool_header: works in C++");
    return 0;
}
