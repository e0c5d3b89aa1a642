/* Text and numbers on standard output, for machine and PC. */
#include "machine.h"

void machine_say(const char *text)
{
    size_t len = 0;

    while (text[len] != '\0') {
        len++;
    }
    machine_write((const uint8_t *)text, len);
}

/* By repeated subtraction: a Cortex-M0 has no division, and no library is linked that has one. */
void machine_say_number(uint32_t number)
{
    static const uint32_t powers[] = {1000000000u, 100000000u, 10000000u, 1000000u, 100000u, 10000u, 1000u, 100u, 10u, 1u};
    char text[11];
    size_t len = 0;

    for (size_t i = 0; i < sizeof powers / sizeof powers[0]; i++) {
        char digit = '0';

        while (number >= powers[i]) {
            number -= powers[i];
            digit++;
        }
        if (digit != '0' || len > 0 || powers[i] == 1) {
            text[len++] = digit;
        }
    }
    machine_write((const uint8_t *)text, len);
}

void machine_say_hex(uint32_t number)
{
    char text[8];

    for (size_t i = 0; i < sizeof text; i++) {
        text[i] = "0123456789ABCDEF"[number >> 28];
        number <<= 4;
    }
    machine_write((const uint8_t *)text, sizeof text);
}
