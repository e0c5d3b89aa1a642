/* The demonstration board of document 01: its description, its flash and the size of its memory. */
#ifndef BUJORELM_DEMONSTRATION_H
#define BUJORELM_DEMONSTRATION_H

#include "bujorelm.h"

#define DEMONSTRATION_MEMORY_SIZE 48u
#define DEMONSTRATION_SPACES 4u

static const uint8_t demonstration_flash[16] = {'<', 'c', 'd', 'i', '/', '>'};

static const struct bujorelm_space demonstration_spaces[DEMONSTRATION_SPACES] = {
    {.number = 0xFD, .read_only = false, .in_flash = false, .lowest = 0x000, .highest = 0x01F, .offset = 0},
    {.number = 0xFE, .read_only = false, .in_flash = false, .lowest = 0x000, .highest = 0x02F, .offset = 0},
    {.number = 0xFF, .read_only = true, .in_flash = true, .lowest = 0x000, .highest = 0x00F, .offset = 0},
    {.number = 0x10, .read_only = false, .in_flash = false, .lowest = 0x100, .highest = 0x10F, .offset = 32},
};

static const struct bujorelm_description demonstration_description = {
    .alias = 0x22B,
    .write_lengths = 0xF2,
    .count = DEMONSTRATION_SPACES,
    .spaces = demonstration_spaces,
};

#endif
