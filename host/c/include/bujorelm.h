/*
 * bujorelm.h - the board's side of OpenLCB memory configuration, for a CAN driver in C.
 *
 * Processors: x86-64 with the System V calling convention, as on Linux; Arm Cortex-M0 to M7; RISC-V RV32IMC.
 * Toolchain:  Rattle, in the version that docs/ASSUMPTIONS.md names. `host/build bujorelm` builds the archive for
 *             x86-64, and firmware/build those for the others, which docs/FIRMWARE.md explains.
 *
 * This header is the same for every processor: what is lent has the same bytes everywhere, with pointers of 4 bytes and
 * of 8. The compiler is stopped below where the processor is not one that was tried, or the layout of a struct is not
 * the library's.
 *
 * The library joins the datagram frames that a board receives, handles each finished datagram, and gives the frames
 * that the board sends back. "Document 01" below is the paper that fixes its behaviour, and "C-14" and "C-15" the
 * change requests of these names in document 02, which do so for ticks and for what follows on a broken datagram.
 * docs/DRIVER.md shows how a driver uses it.
 *
 * Rules that hold for every function:
 *
 * - Nothing is allocated, nothing is static: all state is the caller's. No pointer is kept after a call, so a buffer
 *   may be moved or freed as soon as the call is back (but what a struct bujorelm_node points to). Calls for different
 *   boards may run at once; calls for one board must not. Every call returns; none waits, and none calls anything
 *   outside the library, except that the line splitter calls memcpy and memset.
 * - All that a board has is lent, and changed in place. Of what is lent as `const` no byte is written. Nothing past a
 *   buffer's length is read or written.
 * - A buffer of any length is a pointer and then its length. Where the length is 0 the pointer is not used and may be
 *   NULL.
 * - What has one size is a pointer alone: the registers (6 bytes), the pool (576), the reception state (64), the room
 *   for frames (ten of 16 bytes, in every function that makes some), and every other struct. Such a pointer is never
 *   NULL, and leads to all of that size in every call, also in one that is refused or does not use it: there is no
 *   length that could say that it is empty.
 * - What comes of a call in more than a number is put into a struct that is lent as the last parameter. Every call
 *   fills in all of its bytes, also one that is refused; what it held before plays no part, and padding and bytes that
 *   are not used come back as zero. No function takes or returns a struct by value but the inline functions at the end.
 * - Lengths and indices of the library's functions have 64 bits on every processor.
 * - What is lent and not `const` must not overlap with anything else that the same call is lent. Two `const` buffers
 *   may overlap.
 * - The library sees what it is lent as bytes, and takes every value of every byte: one that says yes or no is no where
 *   it is 0 and yes where it is anything else, and the bytes that are said to mean nothing may hold anything. Numbers
 *   of several bytes have the least significant byte first.
 * - Apart from pointers that do not lead to as many bytes as they should, there is no input that a function cannot
 *   take: every wrong value is refused, with one of the caller's errors or as the function says, and then nothing
 *   changes.
 */
#ifndef BUJORELM_H
#define BUJORELM_H

/* The processors for which the library was built and tried, with their calling conventions: a line for each. On any
   other the compiler stops here, since nobody has seen the library work there. BUJORELM_BUILT_FOR is in the archive for
   the one processor and in no other: bujorelm_version_fits asks for it, so that a program is not linked with the
   archive for another. */
#if defined(__x86_64__) && !defined(__ILP32__) && !defined(_WIN32) /* System V, as on Linux */
#elif defined(__ARM_ARCH_6M__) && defined(__ARM_EABI__) /* Cortex-M0, M0+ */
#define BUJORELM_BUILT_FOR bujorelm_built_for_thumbv6m
#elif defined(__ARM_ARCH_7M__) && defined(__ARM_EABI__) /* Cortex-M3 */
#define BUJORELM_BUILT_FOR bujorelm_built_for_thumbv7m
#elif defined(__ARM_ARCH_7EM__) && defined(__ARM_EABI__) /* Cortex-M4, M7 */
#define BUJORELM_BUILT_FOR bujorelm_built_for_thumbv7em
#elif defined(__riscv) && __riscv_xlen == 32 && defined(__riscv_mul) && defined(__riscv_compressed) && !defined(__riscv_32e) /* RV32IMC */
#define BUJORELM_BUILT_FOR bujorelm_built_for_riscv32
#else
#error "libbujorelm.a is for x86-64 (System V calling convention), Arm Cortex-M0 to M7 and RISC-V RV32IMC only"
#endif

#include <stdbool.h>
#include <stddef.h>
#include <stdint.h>

#ifdef __cplusplus
extern "C" {
#endif

/* ---- Version ---- */

/* The version of this header: major in the upper 16 bits, minor in the lower 16. Another major is another interface; a
   greater minor has more, and all that a smaller one has. bujorelm_version_fits compares it with the archive's. */
#define BUJORELM_VERSION 0x00060000u

/* ---- Sizes ---- */

/* The most bytes that a datagram has, and the fewest that a reply buffer must have. */
#define BUJORELM_DATAGRAM_MAX 72u
#define BUJORELM_REPLY_MIN 72u

/* The most spaces that a description holds. */
#define BUJORELM_SPACES_MAX 16u

/* What `position` in struct bujorelm_result is where there is no position: no space has this one, and 0 is that of the
   first space. */
#define BUJORELM_NO_POSITION 255u

/* The most bytes of a sentence that bujorelm_sentence_of writes, with the zero byte that ends it. */
#define BUJORELM_SENTENCE_SIZE 96u

/* Sources that may each have a place, for one unfinished datagram or while they are being swallowed, and the bytes of
   the pool: 72 for each of them. */
#define BUJORELM_PLACES 8u
#define BUJORELM_POOL_SIZE 576u

/* The greatest age of a place that is held, in ticks since its source's last accepted frame: an older one is freed, and
   what it held dropped. And the bound on the ticks from one call that brings a tick to the next: fewer than these may
   pass (see "Ticks" below). */
#define BUJORELM_AGE_MAX 3000u
#define BUJORELM_TICKS_BOUND 62000u

/* The most bytes of data in a CAN frame, the most frames that a datagram is cut into, and the most that one call gives
   to be sent: a transport reply and then a datagram. */
#define BUJORELM_FRAME_DATA_MAX 8u
#define BUJORELM_FRAMES_MAX 9u
#define BUJORELM_SENT_MAX 10u

/* The most bytes that one write changes. */
#define BUJORELM_CHANGED_MAX 64u

/* The most bytes that flash may have, and memory. */
#define BUJORELM_STORE_MAX 65536u

/* The greatest alias. A board's alias is at least 1. */
#define BUJORELM_ALIAS_MAX 4095u

/* The longest GridConnect line without its newline, and the most that a frame is printed as, with it. */
#define BUJORELM_LINE_MAX 28u
#define BUJORELM_PRINTED_MAX 29u

/* ---- Numbers ---- */

/* What came of a call: `kind` in struct bujorelm_result. What is to be sent is among the frames that
   bujorelm_handle_frame gives. A call that brings a tick and is not refused, of whatever kind it then is, has first
   freed the places that were too old. */
enum bujorelm_kind {
    /* Refused because of what the caller handed in; `error` says why, and `position` which space is wrong. Nothing is
       sent, and nothing has changed but the result: no place is freed for its age either. */
    BUJORELM_REFUSED = 0,
    /* Not a frame for this board: another header, another destination, the board's own alias as source, a header over
       29 bits, data over 8 bytes. Nothing is sent, and nothing has changed but that places that were too old are
       free. */
    BUJORELM_IGNORED = 1,
    /* Of a frame: joined to an unfinished datagram, the first of one, or swallowed, as what is left of a broken one is
       (C-15). Of a lone tick: not refused. Nothing is sent; the reception state may have changed. A frame that is
       swallowed is not told apart, since a driver does nothing for it either; that its source is being swallowed stands
       in the source's place before the call. */
    BUJORELM_JOINED = 2,
    /* A frame that does not follow on the ones before it. Rejected is sent with `code`, which is 0x2000, 0x2020 or
       0x2040. The reception state may have changed: the source's unfinished datagram, if any, is dropped, and unless
       the frame was a Last its place is kept and the source is being swallowed from now on. A source that is being
       swallowed never gets this kind. */
    BUJORELM_TRANSPORT_REFUSAL = 3,
    /* A finished datagram that is refused. Rejected is sent with `code`, which is 0x1041, 0x1042 or 0x1080. Memory and
       lock are as they were. */
    BUJORELM_REJECTED = 4,
    /* A write or masked write that is done. Received OK is sent with `flags`, which is 0x00. Memory has changed in
       `changed_len` bytes, 1 to 64, from index `changed_at` on, and nowhere else; what is written may also be what was
       there. This is the only kind that changes memory. */
    BUJORELM_WRITTEN = 5,
    /* A finished datagram that has a reply. Received OK is sent with `flags`, which is 0x80 (reply pending), and then
       the reply datagram: the first `reply_len` bytes of the reply buffer. A read or a write that failed is answered so
       as well; its reply carries one of the codes 0x1081, 0x1082 and 0x1083. Only Lock/Reserve changes the lock. */
    BUJORELM_REPLIED = 6,
    /* Update Complete: the tool has written all that it wanted to. Received OK is sent with `flags`, which is 0x00.
       Memory and lock are as they were. */
    BUJORELM_UPDATE_COMPLETE = 7
};

/*
 * The errors of the caller: what is wrong with what a call is handed. They are returned, and never sent on the bus.
 * Document 01 calls them the house numbers. They are tested first at each call, in this order, but for B2 to B5, which
 * are tested for one space after the other: the first space with an error decides. These four bring its position in the
 * table, counted from 0; the others have none. There is no B1, B8 or B10.
 */
enum bujorelm_error {
    /* No error: the call is not refused. */
    BUJORELM_ERROR_NONE = 0,
    /* More than 16 spaces. */
    BUJORELM_ERROR_B11_TOO_MANY_SPACES = 11,
    /* Memory over 65,536 bytes. */
    BUJORELM_ERROR_B12_MEMORY_TOO_LARGE = 12,
    /* Flash over 65,536 bytes. */
    BUJORELM_ERROR_B13_FLASH_TOO_LARGE = 13,
    /* The alias is not 1 to 4,095. */
    BUJORELM_ERROR_B14_ALIAS_OUT_OF_RANGE = 14,
    /* A space's lowest address is above its highest. */
    BUJORELM_ERROR_B2_LOWEST_ABOVE_HIGHEST = 2,
    /* A space reaches past the end of the memory or flash that it lies in. */
    BUJORELM_ERROR_B3_WINDOW_PAST_END = 3,
    /* A space in flash, or space 0xFF, is not read-only. */
    BUJORELM_ERROR_B4_MUST_BE_READ_ONLY = 4,
    /* An earlier space has the same number. */
    BUJORELM_ERROR_B5_NUMBER_USED_TWICE = 5,
    /* The reply buffer has fewer than 72 bytes. */
    BUJORELM_ERROR_B6_REPLY_BUFFER_TOO_SHORT = 6,
    /* In bujorelm_handle_frame, and the only one in bujorelm_handle_tick: the reception state holds an unfinished
       datagram over 72 bytes, or a place for a source over 4,095, or two places for one source. A place whose source is
       being swallowed counts like any other, but holds no datagram, so that nothing is asked of its length. A state
       that starts all zero and is changed by calls alone has none of it. It is tested before any place is freed for its
       age, and asks nothing of the ticks in the state. */
    BUJORELM_ERROR_B7_BAD_RECEPTION_STATE = 7
    /* B9 belongs to bujorelm_cut alone, which then makes no frame and returns 0. */
};

/* The flags of Received OK. */
enum bujorelm_flags {
    BUJORELM_FLAGS_NONE = 0x00,
    BUJORELM_FLAGS_REPLY_PENDING = 0x80
};

/* The codes of OpenLCB's S-9.7.3. 0x1000 is permanent: the tool must not repeat. 0x2000 is temporary: it may. */
enum bujorelm_code {
    BUJORELM_CODE_NONE = 0,
    /* In Rejected: byte 1 of the datagram is no command that the board knows. */
    BUJORELM_CODE_UNKNOWN_COMMAND = 0x1041,
    /* In Rejected: byte 0 of the datagram is not 0x20. */
    BUJORELM_CODE_UNKNOWN_DATAGRAM_TYPE = 0x1042,
    /* In Rejected: an empty datagram, one without a byte 1, one over 72 bytes (only where it is handed over whole), or
       a command with the wrong length, half a pair of mask and data, or a count that is not 1 to 64. */
    BUJORELM_CODE_INVALID_ARGUMENTS = 0x1080,
    /* In a failure reply: the space is neither described nor 0xFD, 0xFE or 0xFF. */
    BUJORELM_CODE_UNKNOWN_SPACE = 0x1081,
    /* In a failure reply: a write with any byte outside the space, a read that begins outside it, or the space is
       empty. A read that goes past the last address is shortened and does not fail. */
    BUJORELM_CODE_OUT_OF_BOUNDS = 0x1082,
    /* In a failure reply: a write to a read-only space. */
    BUJORELM_CODE_READ_ONLY = 0x1083,
    /* In Rejected, a transport refusal: a Middle or Last that takes the datagram past 72 bytes. It is dropped; behind a
       Middle its source is being swallowed, and behind a Last its place is free. */
    BUJORELM_CODE_TEMPORARY = 0x2000,
    /* In Rejected, a transport refusal: a First of a source that has no place while eight others have one, for an
       unfinished datagram or while they are being swallowed. Nothing is opened, and nothing is kept for the source. */
    BUJORELM_CODE_BUFFER_UNAVAILABLE = 0x2020,
    /* In Rejected, a transport refusal: a Single, a First or an empty Middle while its source has a datagram
       unfinished, which is dropped, and the source is being swallowed; or a Middle or Last of a source that has no
       place, as behind a datagram that was dropped for its age: then nothing is kept for the source. */
    BUJORELM_CODE_OUT_OF_ORDER = 0x2040
};

/* ---- Structs ---- */

/* A CAN frame with a 29-bit header: its data are the first `len` of `bytes`. In a frame that the library makes, `len`
   is at most 8 and the bytes behind the data are zero. */
struct bujorelm_frame {
    uint32_t header;
    uint32_t len;
    uint8_t bytes[8];
};

/* An address space. `lowest` and `highest` are both addresses in it. It is writable where `read_only` is 0, and
   read-only where that is any other byte. Its bytes lie in memory where `in_flash` is 0, and in flash where that is any
   other byte, from index `offset` on; spaces may overlap there. The byte in front of `lowest` is padding and means
   nothing. */
struct bujorelm_space {
    uint8_t number;
    uint8_t read_only;
    uint8_t in_flash;
    uint32_t lowest;
    uint32_t highest;
    uint32_t offset;
};

/*
 * The board: its alias, the Write Lengths byte that it reports as given, and a table of `count` spaces. The table stays
 * the caller's and may be const, so that it lies in flash. It must outlive the description, at the same place; with
 * `count` 0 it may be NULL.
 *
 * 0xFD, 0xFE and 0xFF are known even where they are left out: then they are empty, and 0xFF is read-only.
 */
struct bujorelm_description {
    uint16_t alias;
    uint8_t write_lengths;
    size_t count;
    const struct bujorelm_space *spaces;
};

/* The registers: what a datagram may change besides memory. All zero at the start, afterwards as each call leaves them.
   They are the lock memory alone today, which is set by Lock/Reserve (0x88) and changes nothing else. */
struct bujorelm_registers {
    uint8_t lock[6];
};

/* A place for one source: whether it is held (any byte but 0), how many bytes of the source's unfinished datagram have come, the source's
   alias, the tick of its last accepted frame, and whether it is being swallowed (any byte but 0): then the place holds no datagram, and `len`
   means nothing. The bytes that have come are in the pool, from index 72 times the place's own on. `unused` means nothing, and where `held`
   is 0 nothing else in the place means anything either.

   A place that a call changes gets all its bytes anew: 1 in `held` and 0 in `unused`; 1 in `swallowing` and 0 in `len` where its source is
   being swallowed, and 0 in `swallowing` where it holds a datagram; all zero where it is free. A place that the call does not change keeps all
   its bytes. So it is with a Middle that is swallowed at the very tick that the place has already, where `len` is 0. */
struct bujorelm_place {
    uint8_t held;
    uint8_t len;
    uint16_t source;
    uint16_t tick;
    uint8_t swallowing;
    uint8_t unused;
};

/* The reception state, but for the bytes in the pool: all zero at the start, when nothing is unfinished and nobody is
   being swallowed; what the pool holds then does not matter. The two belong together: keep both from one call to the
   next. */
struct bujorelm_reception {
    struct bujorelm_place places[BUJORELM_PLACES];
};

/* What came of a call. A number that its kind does not name is 0, but for `frame_count`, which is 0 exactly where
   nothing is sent, and for `position`, which is BUJORELM_NO_POSITION. */
struct bujorelm_result {
    /* An enum bujorelm_kind, for which bujorelm_kind_of is there. */
    uint32_t kind;
    /* Of Rejected: an enum bujorelm_code, for which bujorelm_code_of is there. */
    uint16_t code;
    /* Of BUJORELM_REFUSED: an enum bujorelm_error, for which bujorelm_error_of is there. */
    uint8_t error;
    /* Of Received OK: an enum bujorelm_flags. */
    uint8_t flags;
    /* Of BUJORELM_WRITTEN: the index in memory of the first byte that was written, and how many were, 1 to 64. */
    uint32_t changed_at;
    uint32_t changed_len;
    /* Of BUJORELM_REPLIED: how many bytes of the reply buffer are the reply, 1 to 72. */
    uint8_t reply_len;
    /* How many frames bujorelm_handle_frame gives to be sent, 0 to 10. Always 0 from bujorelm_handle_datagram and
       bujorelm_handle_tick. */
    uint8_t frame_count;
    /* Of BUJORELM_REFUSED with B2 to B5: the position of the refused space in the table, 0 to 15, 0 for the first. In
       every other result it is BUJORELM_NO_POSITION, and never 0. bujorelm_position_of tells the two apart. */
    uint8_t position;
    /* Always 0. */
    uint8_t unused;
};

/* A line that was read. Where it is not `good` the frame is all zero. */
struct bujorelm_parsed {
    bool good;
    struct bujorelm_frame frame;
};

/* The beginning of a line whose end has not come: the first `len` of `text`, kept up to one byte more than the longest
   good line has. All zero before any input. Any bytes may be handed in: a `len` over 29 is that of a line that is too
   long, and `unused` means nothing; in what comes back it is zero. */
struct bujorelm_carry {
    uint8_t len;
    uint8_t text[29];
    uint8_t unused[2];
};

/* What a step through a chunk of input has found: whether a line ended, and what it is. Where no line ended `parsed` is
   not good and its frame is all zero. */
struct bujorelm_line {
    bool complete;
    struct bujorelm_parsed parsed;
};

/* ---- The layout, held to the library's ---- */

#if defined(__cplusplus) && __cplusplus >= 201103L
#define BUJORELM_ASSERT(name, condition) static_assert(condition, #name)
#elif defined(__STDC_VERSION__) && __STDC_VERSION__ >= 201112L
#define BUJORELM_ASSERT(name, condition) _Static_assert(condition, #name)
#else
#define BUJORELM_ASSERT(name, condition) typedef char bujorelm_assert_##name[(condition) ? 1 : -1]
#endif
#define BUJORELM_AT(type, field, offset) BUJORELM_ASSERT(type##_##field, offsetof(struct bujorelm_##type, field) == (offset))
#define BUJORELM_SIZE(type, size) BUJORELM_ASSERT(type##_size, sizeof(struct bujorelm_##type) == (size))

BUJORELM_ASSERT(bool_is_a_byte, sizeof(bool) == 1);

BUJORELM_SIZE(frame, 16);
BUJORELM_AT(frame, header, 0);
BUJORELM_AT(frame, len, 4);
BUJORELM_AT(frame, bytes, 8);

BUJORELM_SIZE(space, 16);
BUJORELM_AT(space, number, 0);
BUJORELM_AT(space, read_only, 1);
BUJORELM_AT(space, in_flash, 2);
BUJORELM_AT(space, lowest, 4);
BUJORELM_AT(space, highest, 8);
BUJORELM_AT(space, offset, 12);

BUJORELM_SIZE(registers, 6);
BUJORELM_AT(registers, lock, 0);

BUJORELM_SIZE(place, 8);
BUJORELM_AT(place, held, 0);
BUJORELM_AT(place, len, 1);
BUJORELM_AT(place, source, 2);
BUJORELM_AT(place, tick, 4);
BUJORELM_AT(place, swallowing, 6);
BUJORELM_AT(place, unused, 7);

BUJORELM_SIZE(reception, 64);
BUJORELM_AT(reception, places, 0);

BUJORELM_SIZE(result, 20);
BUJORELM_AT(result, kind, 0);
BUJORELM_AT(result, code, 4);
BUJORELM_AT(result, error, 6);
BUJORELM_AT(result, flags, 7);
BUJORELM_AT(result, changed_at, 8);
BUJORELM_AT(result, changed_len, 12);
BUJORELM_AT(result, reply_len, 16);
BUJORELM_AT(result, frame_count, 17);
BUJORELM_AT(result, position, 18);
BUJORELM_AT(result, unused, 19);

BUJORELM_SIZE(parsed, 20);
BUJORELM_AT(parsed, good, 0);
BUJORELM_AT(parsed, frame, 4);

BUJORELM_SIZE(carry, 32);
BUJORELM_AT(carry, len, 0);
BUJORELM_AT(carry, text, 1);
BUJORELM_AT(carry, unused, 30);

BUJORELM_SIZE(line, 24);
BUJORELM_AT(line, complete, 0);
BUJORELM_AT(line, parsed, 4);

#if defined(__BYTE_ORDER__) && defined(__ORDER_LITTLE_ENDIAN__)
BUJORELM_ASSERT(least_significant_byte_first, __BYTE_ORDER__ == __ORDER_LITTLE_ENDIAN__);
#endif

#undef BUJORELM_SIZE
#undef BUJORELM_AT
#undef BUJORELM_ASSERT

/* ---- Functions of the library ---- */

/* The archive's version, in the form of BUJORELM_VERSION. Nothing is lent. */
uint32_t bujorelm_version(void);

/*
 * Ticks (C-14). The driver keeps a free-running count of 16 bits, which goes from 65,535 to 0, and hands it in with
 * each frame and, by bujorelm_handle_tick, alone. Before a frame is looked at, even one that is ignored, and at a lone
 * tick, each place whose source's last accepted frame is more than 3,000 ticks back is freed without an answer: its
 * unfinished datagram is dropped, or its source is no longer swallowed. One that is just 3,000 back stays. Accepted are
 * the frames that open, continue or finish a datagram, and those that are swallowed. A frame that is ignored or refused
 * (0x2000, 0x2020, 0x2040) does not renew the tick: a place that is kept behind a refused frame keeps the tick of the
 * last accepted one.
 *
 * What the driver must see to, for each reception state:
 *
 * - One count, in both calls, which never goes back from one call to the next: a place that meets an earlier count than
 *   its own looks up to 65,535 ticks old, and is freed too early. How long a tick lasts is the driver's choice; of
 *   milliseconds, 3,000 are 3 seconds.
 * - Fewer than 62,000 ticks between two calls that bring one and are not BUJORELM_REFUSED: on a quiet bus, a lone tick
 *   at least so often. What such a call keeps is at most 3,000 ticks old, so that it is less than 65,000 old at the
 *   next, and the 16-bit difference of the ticks is its true age. After a longer pause the count may have gone round:
 *   then a place may look younger than it is and stay held until a later call finds it too old. Meanwhile it is held
 *   like any other, with what follows for its source's next frame and for a ninth source. None is freed too early by
 *   that. While no place is held, any pause will do.
 */

/*
 * One rejection for one broken datagram (C-15). A tool whose Last is lost goes on with its next frames, and hears one
 * Rejected for it. Where a frame is refused with 0x2040 or 0x2000 and its source had a datagram unfinished, that is
 * dropped, and unless the frame was a Last the source keeps its place and is being swallowed:
 *
 * - Its Middles are answered with nothing, empty ones and those past 72 bytes too, and so is its next Last, which frees
 *   the place.
 * - Its next Single or First ends the swallowing as well, and counts as if nothing were unfinished: the Single is a
 *   datagram and frees the place, the First opens one in that very place, so that there is always room for it.
 * - Its place counts among the eight and grows old like any other.
 *
 * Behind a refused Last, behind 0x2020, and where a datagram's First was lost, the source has no place: each Middle and
 * Last is then refused by itself, with 0x2040. None of this asks anything of the driver, which sends what it is given.
 */

/*
 * Handles a frame from the bus, and gives the frames to be sent. Hand in every received data frame with an extended
 * header; those that are not for the board are ignored.
 *
 * alias          the board's alias, 1 to 4,095
 * write_lengths  the Write Lengths byte that the board reports as given
 * spaces         lent; the table of spaces, looked at anew at each call
 * spaces_size    its size in bytes, 16 for each space: bujorelm_spaces_size(count). Bytes behind the last whole space
 *                are no space
 * flash          lent; what spaces in flash read from
 * memory         lent; what the other spaces read from and write to
 * registers      lent; the lock memory
 * pool           lent, 576 bytes: the bytes of unfinished datagrams. Keep them as they are between calls
 * reception      lent; the reception state. Keep it as it is between calls
 * tick           the driver's tick now
 * header         the 29-bit CAN header, without any flag that a controller or a socket puts above it
 * payload        lent; the frame's data. Any length may be handed in: a frame of over 8 bytes is ignored
 * reply          lent, at least 72 bytes. It need not be cleared, and nothing of it is needed after the call: its bytes
 *                are in the frames
 * frames         lent, room for ten. It need not be cleared
 * result         lent; it is filled in whatever comes of the call
 *
 * Comes back in `result`: every kind. frames[0] to frames[frame_count - 1] are to be sent in their order, to the alias
 * in the low twelve bits of the header, which they carry already: none for BUJORELM_REFUSED, BUJORELM_IGNORED and
 * BUJORELM_JOINED; Rejected for BUJORELM_TRANSPORT_REFUSAL and BUJORELM_REJECTED; Received OK for BUJORELM_WRITTEN and
 * BUJORELM_UPDATE_COMPLETE; Received OK and then 1 to 9 frames of the reply for BUJORELM_REPLIED.
 *
 * What never happens: a byte of memory changes for any kind but BUJORELM_WRITTEN, or outside the bytes that it names; a
 * byte of the lock changes but by a Lock/Reserve that is replied to; a byte of the reply buffer is written for any kind
 * but BUJORELM_REPLIED, or behind its first `reply_len`; a byte of `frames` is written behind the first `frame_count`;
 * a byte of the pool changes by a frame that is swallowed or gets a transport refusal; any byte of anything but
 * `result` changes for BUJORELM_REFUSED, or for BUJORELM_IGNORED but in the places that were too old.
 */
void bujorelm_handle_frame(uint16_t alias, uint8_t write_lengths, const struct bujorelm_space *spaces, uint64_t spaces_size,
                           const uint8_t *flash, uint64_t flash_len, uint8_t *memory, uint64_t memory_len,
                           struct bujorelm_registers *registers, uint8_t *pool, struct bujorelm_reception *reception, uint16_t tick,
                           uint32_t header, const uint8_t *payload, uint64_t payload_len, uint8_t *reply, uint64_t reply_len,
                           struct bujorelm_frame *frames, struct bujorelm_result *result);

/*
 * Brings a tick alone, for the time in which no frame comes: frees the places that are too old, and does nothing else.
 * The pool is not needed for it.
 *
 * reception      lent; the reception state
 * tick           the driver's tick now, by the same count as in bujorelm_handle_frame
 * result         lent; it is filled in whatever comes of the call
 *
 * Comes back in `result`: BUJORELM_REFUSED with B7, the only error that is tested here, and then no place has changed;
 * or else BUJORELM_JOINED, whether or not any place was freed. Nothing is to be sent.
 *
 * What never happens: a byte of a place changes that is not held, or that is not too old.
 */
void bujorelm_handle_tick(struct bujorelm_reception *reception, uint16_t tick, struct bujorelm_result *result);

/*
 * Handles a datagram that some other transport has joined already. It needs no reception state, no pool and no room for
 * frames; the rest is as in bujorelm_handle_frame, what never happens too.
 *
 * datagram       lent; any length may be handed in: one over 72 bytes is rejected with 0x1080
 *
 * Comes back in `result`: BUJORELM_REFUSED (any but B7), BUJORELM_REJECTED, BUJORELM_WRITTEN, BUJORELM_REPLIED or
 * BUJORELM_UPDATE_COMPLETE, with `frame_count` 0. The answer is the caller's to send: bujorelm_rejected or
 * bujorelm_received_ok, and the reply by bujorelm_cut.
 */
void bujorelm_handle_datagram(uint16_t alias, uint8_t write_lengths, const struct bujorelm_space *spaces, uint64_t spaces_size,
                              const uint8_t *flash, uint64_t flash_len, uint8_t *memory, uint64_t memory_len,
                              struct bujorelm_registers *registers, const uint8_t *datagram, uint64_t datagram_len, uint8_t *reply,
                              uint64_t reply_len, struct bujorelm_result *result);

/* Cuts a datagram into the frames that take it from the board to the tool. The datagram is lent, and so is `frames`,
   with room for ten. Returns how many were made, 1 to 9, to be sent in their order; the room behind them is left as it
   was. Refused, by B9, where the datagram has more than 72 bytes or an alias is over 4,095: then it returns 0, and
   `frames` is untouched. No other error is tested. */
uint64_t bujorelm_cut(const uint8_t *datagram, uint64_t datagram_len, uint16_t board, uint16_t tool, struct bujorelm_frame *frames);

/* Makes the frame of Received OK with its flags, from the board's alias to the tool's, and returns 1. `frames` is lent,
   with room for ten, as everywhere; what is behind the first is untouched. Where an alias is over 4,095 there is no
   such frame: then it returns 0 and all of `frames` is untouched. It never returns anything else. */
uint64_t bujorelm_received_ok(uint16_t board, uint16_t tool, uint8_t flags, struct bujorelm_frame *frames);

/* The same for the frame of Rejected with its code. */
uint64_t bujorelm_rejected(uint16_t board, uint16_t tool, uint16_t code, struct bujorelm_frame *frames);

/* Reads a GridConnect line, which is lent without its newline: `:X`, eight header digits, `N`, 0 to 16 data digits in
   pairs, `;`, the digits being 0-9 and A-F. What it is comes back in `parsed`, which is lent. Any other text of any
   length is not good, and its frame is all zero. Headers over 29 bits are good here and are ignored by
   bujorelm_handle_frame. */
void bujorelm_parse_line(const uint8_t *line, uint64_t line_len, struct bujorelm_parsed *parsed);

/* Prints a frame, which is lent, as a GridConnect line with its newline into `out`, which is lent, from index `at` on,
   and returns the index behind it. Where the line does not fit, or the frame's `len` is over 8, nothing is written and
   `at` is returned. No byte outside the line is written, and no zero byte is put behind it. */
uint64_t bujorelm_print_frame(const struct bujorelm_frame *frame, uint8_t *out, uint64_t out_len, uint64_t at);

/*
 * The line splitter: an input that comes in chunks, cut anyhow, is read line by line. Reads the chunk, which is lent,
 * from index `from` on, up to and including the next newline or else to its end; a `from` past the end is like the end.
 *
 * carry  lent; the beginning of a line that earlier calls have left, and then the one that this call leaves. Keep it as
 *        it is between calls, also from one chunk to the next
 * line   lent; it is filled in whether or not a line ended
 *
 * Returns the index up to which the chunk is read, to be handed in as `from`. It is past `from` unless `from` was the
 * end or past it, where it is the end, so that a loop while it is below `chunk_len` ends. In `line`, `complete` says
 * whether a line ended, and then `parsed` says what it is: not good for any text that is no frame's line, however long.
 *
 * What never happens: how the input is cut into chunks changes what its lines are.
 */
uint64_t bujorelm_next_line(const uint8_t *chunk, uint64_t chunk_len, uint64_t from, struct bujorelm_carry *carry,
                            struct bujorelm_line *line);

/* The end of the input: a last line that lacks its newline is a line, and nothing left is none. The carry is lent, and
   all zero afterwards; what was left comes back in `line`, which is lent. */
void bujorelm_last_line(struct bujorelm_carry *carry, struct bujorelm_line *line);

/* ---- Inline functions, which hand over a board that lies in one struct ---- */

/*
 * A board with all that it keeps between calls, and with the room that a call writes its answer to: `reply` and
 * `frames` hold it until the next call for this node. The table of spaces, `flash` and `memory` stay the caller's: they
 * must outlive the node, at the same place. The fields are open to the caller, who may read them between calls and may
 * replace the description (as when the alias changes; set the reception state to all zero then, since what is
 * unfinished was sent to the old alias).
 */
struct bujorelm_node {
    struct bujorelm_description description;
    const uint8_t *flash;
    size_t flash_len;
    uint8_t *memory;
    size_t memory_len;
    struct bujorelm_registers registers;
    struct bujorelm_reception reception;
    uint8_t pool[BUJORELM_POOL_SIZE];
    uint8_t reply[BUJORELM_REPLY_MIN];
    struct bujorelm_frame frames[BUJORELM_SENT_MAX];
};

/* Takes a frame to be sent. It is called with the frames in the order in which they must go out on the bus. The frame
   is lent for the call alone. Returns false where the frame cannot be taken; the ones behind it are then not
   offered. */
typedef bool (*bujorelm_send_function)(void *context, const struct bujorelm_frame *frame);

/* Whether what was written for a header of the one version may call an archive of the other: the same major, and a
   minor that is not smaller. (The difference is at most what is left of the minor's range.) */
static inline bool bujorelm_versions_fit(uint32_t header, uint32_t archive)
{
    return archive - header <= 0xFFFFu - (header & 0xFFFFu);
}

#ifdef BUJORELM_BUILT_FOR
extern const uint8_t BUJORELM_BUILT_FOR;
#endif

/* Whether the archive that the program is linked with fits this header: a test for the start of the firmware, before
   any other call. A program that calls it and is given the archive for another processor is not linked: the linker says
   that bujorelm_built_for_.. is missing. */
static inline bool bujorelm_version_fits(void)
{
#ifdef BUJORELM_BUILT_FOR
    if (BUJORELM_BUILT_FOR == 0) {
        return false;
    }
#endif
    return bujorelm_versions_fit(BUJORELM_VERSION, bujorelm_version());
}

/* The kind of a result, for a `switch`. */
static inline enum bujorelm_kind bujorelm_kind_of(struct bujorelm_result result)
{
    return (enum bujorelm_kind)result.kind;
}

/* The caller's error in a result, for a `switch`. */
static inline enum bujorelm_error bujorelm_error_of(struct bujorelm_result result)
{
    return (enum bujorelm_error)result.error;
}

/* Whether a result refuses one of the spaces: B2 to B5. */
static inline bool bujorelm_refuses_space(struct bujorelm_result result)
{
    return result.kind == BUJORELM_REFUSED && result.error >= BUJORELM_ERROR_B2_LOWEST_ABOVE_HIGHEST &&
           result.error <= BUJORELM_ERROR_B5_NUMBER_USED_TWICE;
}

/* Whether a result brings the position of a refused space. It is stored to `position`, which is left as it was where
   there is none: what is no position cannot be taken for that of the first space. */
static inline bool bujorelm_position_of(struct bujorelm_result result, size_t *position)
{
    if (!bujorelm_refuses_space(result) || result.position >= BUJORELM_SPACES_MAX) {
        return false;
    }
    *position = result.position;
    return true;
}

/* The code of a result, for a `switch`. */
static inline enum bujorelm_code bujorelm_code_of(struct bujorelm_result result)
{
    return (enum bujorelm_code)result.code;
}

/* The source alias of a header. */
static inline uint16_t bujorelm_source_of(uint32_t header)
{
    return header & 0xFFFu;
}

/* The size in bytes of a table of so many spaces, for a call's `spaces_size`. Any count over 16 gives the size of 17
   spaces, which B11 refuses without a look at the table: 16 times a very large count would wrap, and could come out as
   the size of a good table. */
static inline uint64_t bujorelm_spaces_size(size_t count)
{
    const size_t most = BUJORELM_SPACES_MAX + 1u;

    return (count < most ? count : most) * sizeof(struct bujorelm_space);
}

/* A fresh node: registers all zero, nothing unfinished. The description is copied, but for the table of spaces; flash
   and memory are not. Nothing is tested here: a bad description is refused at the first call. What the reply buffer and
   the room for frames hold is left. */
static inline void bujorelm_node_start(struct bujorelm_node *node, const struct bujorelm_description *description,
                                       const uint8_t *flash, size_t flash_len, uint8_t *memory, size_t memory_len)
{
    uint8_t *const registers = (uint8_t *)&node->registers;
    uint8_t *const places = (uint8_t *)&node->reception;
    size_t i;

    node->description = *description;
    node->flash = flash;
    node->flash_len = flash_len;
    node->memory = memory;
    node->memory_len = memory_len;
    for (i = 0; i < sizeof node->registers; i++) {
        registers[i] = 0;
    }
    for (i = 0; i < sizeof node->reception; i++) {
        places[i] = 0;
    }
    for (i = 0; i < sizeof node->pool; i++) {
        node->pool[i] = 0;
    }
}

/* bujorelm_handle_frame for a node. The frames to be sent are node->frames[0] to node->frames[frame_count - 1]. */
static inline struct bujorelm_result bujorelm_node_handle_frame(struct bujorelm_node *node, uint16_t tick, uint32_t header,
                                                                const uint8_t *payload, size_t payload_len)
{
    struct bujorelm_result result;

    bujorelm_handle_frame(node->description.alias, node->description.write_lengths, node->description.spaces,
                          bujorelm_spaces_size(node->description.count), node->flash, node->flash_len, node->memory, node->memory_len,
                          &node->registers, node->pool, &node->reception, tick, header, payload, payload_len, node->reply,
                          sizeof node->reply, node->frames, &result);
    return result;
}

/* bujorelm_handle_tick for a node. */
static inline struct bujorelm_result bujorelm_node_tick(struct bujorelm_node *node, uint16_t tick)
{
    struct bujorelm_result result;

    bujorelm_handle_tick(&node->reception, tick, &result);
    return result;
}

/* bujorelm_handle_datagram for a node. The reply is the first `reply_len` bytes of node->reply. */
static inline struct bujorelm_result bujorelm_node_handle_datagram(struct bujorelm_node *node, const uint8_t *datagram,
                                                                   size_t datagram_len)
{
    struct bujorelm_result result;

    bujorelm_handle_datagram(node->description.alias, node->description.write_lengths, node->description.spaces,
                             bujorelm_spaces_size(node->description.count), node->flash, node->flash_len, node->memory,
                             node->memory_len, &node->registers, datagram, datagram_len, node->reply, sizeof node->reply, &result);
    return result;
}

/* What comes of a frame that no board is interested in, for the node as it stands: BUJORELM_REFUSED with the first
   error that applies, or else BUJORELM_IGNORED. A test for the start of the firmware, so that a bad description shows
   before the first frame. It changes nothing, and brings no tick. */
static inline struct bujorelm_result bujorelm_node_check(const struct bujorelm_node *node)
{
    /* Header 0 is no datagram frame: a good node ignores it and a bad one is refused, so that nothing is written
       through this pointer. Places that are too old by some tick are freed in a copy of the reception state. */
    struct bujorelm_node *const same = (struct bujorelm_node *)(uintptr_t)node;
    struct bujorelm_reception copy = node->reception;
    struct bujorelm_result result;

    bujorelm_handle_frame(node->description.alias, node->description.write_lengths, node->description.spaces,
                          bujorelm_spaces_size(node->description.count), node->flash, node->flash_len, same->memory, node->memory_len,
                          &same->registers, same->pool, &copy, 0, 0, NULL, 0, same->reply, sizeof node->reply, same->frames, &result);
    return result;
}

/* Puts a text, or a number in decimal digits, at a place, and returns the place behind it. */
static inline char *bujorelm_put_text(char *at, const char *text)
{
    while (*text != '\0') {
        *at++ = *text++;
    }
    return at;
}

static inline char *bujorelm_put_number(char *at, uint8_t number)
{
    if (number >= 100) {
        *at++ = (char)('0' + number / 100);
    }
    if (number >= 10) {
        *at++ = (char)('0' + number / 10 % 10);
    }
    *at++ = (char)('0' + number % 10);
    return at;
}

/* What an error says is wrong; of B2 to B5, what is wrong with the space. */
static inline const char *bujorelm_error_text(enum bujorelm_error error)
{
    switch (error) {
    case BUJORELM_ERROR_B11_TOO_MANY_SPACES:
        return "the description has more than 16 spaces";
    case BUJORELM_ERROR_B12_MEMORY_TOO_LARGE:
        return "memory has more than 65,536 bytes";
    case BUJORELM_ERROR_B13_FLASH_TOO_LARGE:
        return "flash has more than 65,536 bytes";
    case BUJORELM_ERROR_B14_ALIAS_OUT_OF_RANGE:
        return "the alias is not 1 to 4,095";
    case BUJORELM_ERROR_B2_LOWEST_ABOVE_HIGHEST:
        return "has its lowest address above its highest";
    case BUJORELM_ERROR_B3_WINDOW_PAST_END:
        return "reaches past the end of its memory or flash";
    case BUJORELM_ERROR_B4_MUST_BE_READ_ONLY:
        return "has to be read-only, since it lies in flash or is 0xFF";
    case BUJORELM_ERROR_B5_NUMBER_USED_TWICE:
        return "has the number of an earlier space";
    case BUJORELM_ERROR_B6_REPLY_BUFFER_TOO_SHORT:
        return "the reply buffer has fewer than 72 bytes";
    case BUJORELM_ERROR_B7_BAD_RECEPTION_STATE:
        return "the reception state holds what no call has left there";
    case BUJORELM_ERROR_NONE:
    default:
        return "a mistake that this header does not know";
    }
}

/* The space that a result refuses, by its position where it brings one. */
static inline char *bujorelm_put_space(char *at, struct bujorelm_result result)
{
    size_t position = 0;

    if (!bujorelm_position_of(result, &position)) {
        return bujorelm_put_text(at, "a space ");
    }
    at = bujorelm_put_text(at, "space ");
    at = bujorelm_put_number(at, (uint8_t)position);
    return bujorelm_put_text(at, ", counted from 0, ");
}

/*
 * Why a call was refused, as a sentence for whoever builds the board: "B3: space 3, counted from 0, reaches past the
 * end of its memory or flash". `text` is lent, BUJORELM_SENTENCE_SIZE bytes. The sentence ends with a zero byte; what
 * is behind that is left as it was. Of a result of any other kind it says that the call was not refused. Returns
 * `text`.
 */
static inline char *bujorelm_sentence_of(struct bujorelm_result result, char *text)
{
    char *at = text;

    if (result.kind == BUJORELM_REFUSED) {
        at = bujorelm_put_text(at, "B");
        at = bujorelm_put_number(at, result.error);
        at = bujorelm_put_text(at, ": ");
        at = bujorelm_refuses_space(result) ? bujorelm_put_space(at, result) : at;
        at = bujorelm_put_text(at, bujorelm_error_text(bujorelm_error_of(result)));
    } else {
        at = bujorelm_put_text(at, "the call was not refused");
    }
    *at = '\0';
    return text;
}

/* Hands frames to `send`, one after the other. Returns false where `send` did. */
static inline bool bujorelm_send_frames(const struct bujorelm_frame *frames, uint64_t count, bujorelm_send_function send, void *context)
{
    uint64_t i;

    for (i = 0; i < count; i++) {
        if (!send(context, &frames[i])) {
            return false;
        }
    }
    return true;
}

/* A received frame from its arrival until the frames that answer it are sent. What came of it is stored to `result`,
   which may be NULL, before the first frame is sent. Returns what bujorelm_send_frames does. A driver that has to store
   what was written before the tool hears of it calls bujorelm_node_handle_frame, stores, and then calls
   bujorelm_send_frames. */
static inline bool bujorelm_node_receive(struct bujorelm_node *node, uint16_t tick, uint32_t header, const uint8_t *payload,
                                         size_t payload_len, bujorelm_send_function send, void *context, struct bujorelm_result *result)
{
    const struct bujorelm_result done = bujorelm_node_handle_frame(node, tick, header, payload, payload_len);

    if (result != NULL) {
        *result = done;
    }
    return bujorelm_send_frames(node->frames, done.frame_count, send, context);
}

#ifdef __cplusplus
}
#endif

#endif
