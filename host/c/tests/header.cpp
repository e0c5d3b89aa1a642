// The header in C++: it compiles, its functions have C linkage, and its inline functions work.
#include "bujorelm.h"

#include <cstdio>

static bool count_frame(void *context, const struct bujorelm_frame *)
{
    ++*static_cast<int *>(context);
    return true;
}

int main()
{
    static const bujorelm_space spaces[] = {{0xFD, false, false, 0, 3, 0}, {0xFF, true, false, 0, 3, 0}};
    static bujorelm_node node;
    bujorelm_description description = bujorelm_description();
    uint8_t memory[4] = {0, 0, 0, 0};
    const uint8_t options[] = {0x20, 0x80};
    bujorelm_result answer;
    bujorelm_carry carry = bujorelm_carry();
    bujorelm_line line;
    char sentence[BUJORELM_SENTENCE_SIZE];
    size_t position = 7;
    int frames = 0;

    description.alias = 0x22B;
    description.count = sizeof spaces / sizeof spaces[0];
    description.spaces = spaces;
    bujorelm_node_start(&node, &description, NULL, 0, memory, sizeof memory);
    if (!bujorelm_version_fits() || bujorelm_node_check(&node).kind != BUJORELM_IGNORED ||
        !bujorelm_node_receive(&node, 65535, 0x1A22B123, options, sizeof options, count_frame, &frames, &answer) ||
        bujorelm_node_tick(&node, 0).kind != BUJORELM_JOINED || answer.kind != BUJORELM_REPLIED || answer.reply_len != 7 || answer.frame_count != 2 || frames != 2 ||
        bujorelm_error_of(answer) != BUJORELM_ERROR_NONE || bujorelm_code_of(answer) != BUJORELM_CODE_NONE ||
        bujorelm_position_of(answer, &position) || position != 7 || bujorelm_sentence_of(answer, sentence)[0] != 't' ||
        bujorelm_kind_of(answer) != BUJORELM_REPLIED ||
        bujorelm_next_line(reinterpret_cast<const uint8_t *>("\n"), 1, 0, &carry, &line) != 1 || !line.complete) {
        std::puts("header: the library does not answer in C++");
        return 1;
    }
    std::puts("header: works in C++");
    return 0;
}
