/*
 * What the archive calls outside itself: bytes copied and set, under their names in C and, on Arm, under those of the
 * processor's run-time ABI. A firmware that is linked with a C library leaves this file out. It is compiled with
 * -fno-builtin, so that no compiler makes a call of memcpy out of the loop in memcpy.
 */
#include <stddef.h>
#include <stdint.h>

void *memcpy(void *to, const void *from, size_t len);
void *memmove(void *to, const void *from, size_t len);
void *memset(void *to, int byte, size_t len);

void *memcpy(void *to, const void *from, size_t len)
{
    uint8_t *const out = to;
    const uint8_t *const in = from;

    for (size_t i = 0; i < len; i++) {
        out[i] = in[i];
    }
    return to;
}

void *memmove(void *to, const void *from, size_t len)
{
    uint8_t *const out = to;
    const uint8_t *const in = from;

    if ((uintptr_t)out <= (uintptr_t)in) {
        return memcpy(to, from, len);
    }
    while (len > 0) {
        len--;
        out[len] = in[len];
    }
    return to;
}

void *memset(void *to, int byte, size_t len)
{
    uint8_t *const out = to;

    for (size_t i = 0; i < len; i++) {
        out[i] = (uint8_t)byte;
    }
    return to;
}

#ifdef __ARM_EABI__

/* The digit says that the addresses are multiples of it, of which nothing is made here. */
#define COPIES(name, function)                                      \
    void name(void *to, const void *from, size_t len);              \
    void name(void *to, const void *from, size_t len)               \
    {                                                               \
        (void)function(to, from, len);                              \
    }
#define SETS(digit)                                                 \
    void __aeabi_memset##digit(void *to, size_t len, int byte);     \
    void __aeabi_memset##digit(void *to, size_t len, int byte)      \
    {                                                               \
        (void)memset(to, byte, len);                                \
    }                                                               \
    void __aeabi_memclr##digit(void *to, size_t len);               \
    void __aeabi_memclr##digit(void *to, size_t len)                \
    {                                                               \
        (void)memset(to, 0, len);                                   \
    }

COPIES(__aeabi_memcpy, memcpy)
COPIES(__aeabi_memcpy4, memcpy)
COPIES(__aeabi_memcpy8, memcpy)
COPIES(__aeabi_memmove, memmove)
COPIES(__aeabi_memmove4, memmove)
COPIES(__aeabi_memmove8, memmove)
SETS()
SETS(4)
SETS(8)

#endif
