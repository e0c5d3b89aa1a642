/* What the test programs share: checks that say where they failed, bytes from hex digits, pseudo-random numbers,
   buffers between pages that cannot be touched, and room for what comes of a call. */
#ifndef BUJORELM_CHECK_H
#define BUJORELM_CHECK_H

#include <stdbool.h>
#include <stddef.h>
#include <stdint.h>
#include <stdio.h>
#include <stdlib.h>
#include <string.h>
#include <sys/mman.h>
#include <unistd.h>

static unsigned long checks_made;
static unsigned long checks_failed;

static inline void check_at(bool held, const char *file, int line, const char *text)
{
    checks_made++;
    if (!held) {
        checks_failed++;
        /* A broken library fails a random test thousands of times: the first few say enough. */
        if (checks_failed <= 40) {
            fprintf(stderr, "%s:%d: does not hold: %s\n", file, line, text);
        }
    }
}

#define CHECK(condition) check_at((condition), __FILE__, __LINE__, #condition)

/* The same within a table or a loop, with a word that says which case it is. */
#define CHECK_CASE(condition, word)                                                                                                         \
    do {                                                                                                                                    \
        const unsigned long failed_before = checks_failed;                                                                                  \
        check_at((condition), __FILE__, __LINE__, #condition);                                                                              \
        if (checks_failed != failed_before && checks_failed <= 40) {                                                                        \
            fprintf(stderr, "    in the case %s\n", (word));                                                                                \
        }                                                                                                                                   \
    } while (0)

/* To be returned from main. */
static inline int check_result(const char *name)
{
    if (checks_failed != 0) {
        fprintf(stderr, "%s: %lu of %lu checks failed\n", name, checks_failed, checks_made);
        return EXIT_FAILURE;
    }
    printf("%s: %lu checks passed\n", name, checks_made);
    return EXIT_SUCCESS;
}

static inline void give_up(const char *what)
{
    perror(what);
    exit(EXIT_FAILURE);
}

/* The bytes of hex digits; blanks between them are skipped. Returns how many there are. */
static inline size_t from_hex(const char *text, uint8_t *bytes)
{
    static const char digits[] = "0123456789ABCDEF";
    size_t count = 0;
    unsigned value = 0;

    for (; *text != '\0'; text++) {
        const char *const digit = strchr(digits, *text);

        if (*text == ' ') {
            continue;
        }
        if (digit == NULL) {
            fprintf(stderr, "not hex digits: %s\n", text);
            exit(EXIT_FAILURE);
        }
        value = value * 16 + (unsigned)(digit - digits);
        if (count % 2 == 1) {
            bytes[count / 2] = (uint8_t)value;
            value = 0;
        }
        count++;
    }
    return count / 2;
}

/* xorshift64: the same numbers in every run. */
static uint64_t random_state = UINT64_C(0x9E3779B97F4A7C15);

static inline uint32_t random_number(void)
{
    random_state ^= random_state << 13;
    random_state ^= random_state >> 7;
    random_state ^= random_state << 17;
    return (uint32_t)(random_state >> 32);
}

static inline uint32_t random_below(uint32_t bound)
{
    return random_number() % bound;
}

static inline void random_bytes(uint8_t *bytes, size_t len)
{
    for (size_t i = 0; i < len; i++) {
        bytes[i] = (uint8_t)random_number();
    }
}

/*
 * A buffer with a page on each side that faults when touched, so that a read or write outside it ends the program even
 * though the library is compiled without a sanitizer. The buffer's last byte is the last before the page behind it;
 * with `at_start` its first byte is the first behind the page before it.
 */
struct guarded {
    uint8_t *bytes;
    size_t len;
    void *pages;
    size_t pages_len;
};

static inline struct guarded guarded_new(size_t len, bool at_start)
{
    const size_t page = (size_t)sysconf(_SC_PAGESIZE);
    const size_t inner = (len / page + 1) * page;
    struct guarded g;

    g.len = len;
    g.pages_len = inner + 2 * page;
    g.pages = mmap(NULL, g.pages_len, PROT_NONE, MAP_PRIVATE | MAP_ANONYMOUS, -1, 0);
    if (g.pages == MAP_FAILED) {
        give_up("mmap");
    }
    if (mprotect((uint8_t *)g.pages + page, inner, PROT_READ | PROT_WRITE) != 0) {
        give_up("mprotect");
    }
    g.bytes = (uint8_t *)g.pages + page + (at_start ? 0 : inner - len);
    return g;
}

/* The buffer may only be read from now on. */
static inline void guarded_read_only(const struct guarded *g)
{
    const size_t page = (size_t)sysconf(_SC_PAGESIZE);

    if (mprotect((uint8_t *)g->pages + page, g->pages_len - 2 * page, PROT_READ) != 0) {
        give_up("mprotect");
    }
}

static inline void guarded_free(struct guarded *g)
{
    if (munmap(g->pages, g->pages_len) != 0) {
        give_up("munmap");
    }
    g->bytes = NULL;
}

/* The most bytes of a struct that comes of a call. */
#define ROOM_MAX 64u

/*
 * Room for a struct that a call is lent for what comes of it, or changes: between pages that cannot be touched, now at
 * the one and now at the other, and full of bytes that differ from call to call, since what it holds plays no part. The
 * fourth room from here on is the same again.
 */
static inline void *room_for(size_t len)
{
    static struct guarded rooms[4];
    static unsigned turn;
    const bool at_start = turn % 2 == 0;
    struct guarded *const room = &rooms[turn++ % 4];
    uint8_t *at;

    if (len > ROOM_MAX) {
        fputs("no room of that size\n", stderr);
        exit(EXIT_FAILURE);
    }
    if (room->pages == NULL) {
        *room = guarded_new(ROOM_MAX, at_start);
    }
    at = room->bytes + (at_start ? 0 : ROOM_MAX - len);
    for (size_t i = 0; i < len; i++) {
        at[i] = (uint8_t)(167 * turn + 29 * i);
    }
    return at;
}

/* Whether the bytes of a struct from one index up to another are zero, as padding is. */
static inline bool is_zero_from(const void *bytes, size_t from, size_t end)
{
    for (size_t i = from; i < end; i++) {
        if (((const uint8_t *)bytes)[i] != 0) {
            return false;
        }
    }
    return true;
}

#endif
