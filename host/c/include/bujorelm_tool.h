/*
 * bujorelm_tool.h - the tool's half of OpenLCB memory configuration, for a configuration tool in C.
 *
 * The archive is libbujorelm_tool.a, built by `host/build bujorelm_tool`; the platform and the rules that hold for
 * every function are those of bujorelm.h. A tool also links libbujorelm.a, for GridConnect lines and for cutting a
 * command into frames. docs/TOOL.md shows how a tool uses both.
 *
 * Every function that gives more than a number fills in a struct that is lent as its last parameter, all of its bytes
 * and in every call.
 *
 * - The functions bujorelm_compose_* write the command for a request into a lent buffer, in one form only: spaces 0xFD
 *   to 0xFF by the control bits, all others by byte 6, and reserved bits zero. The board reads each command as the
 *   request that it was written for.
 * - The functions bujorelm_read_* read what a board answers, and give every field or W3. What may be missing says
 *   whether it is there: no text and an empty text are told apart, and so are no lowest space and space 0, no lowest
 *   address and address 0.
 * - bujorelm_join joins the frames of a reply datagram.
 * - bujorelm_next_change finds the masked writes that take an old image of memory to a new one and touch no bit that is
 *   the same in both, so that two tools may set single bits of one byte. bujorelm_put_together makes one mask and data
 *   byte of two.
 *
 * "C-12", "C-15" and "C-16" below are the change requests of these names in document 02.
 */
#ifndef BUJORELM_TOOL_H
#define BUJORELM_TOOL_H

#include "bujorelm.h"

#ifdef __cplusplus
extern "C" {
#endif

/* The version of this header, in the form of BUJORELM_VERSION. bujorelm_tool_version_fits compares it with the
   archive's. */
#define BUJORELM_TOOL_VERSION 0x00030000u

/* The fewest bytes that the buffer for a command must have. */
#define BUJORELM_COMMAND_MIN 72u

/* The fewest bytes that the buffer for the pairs of a change must have: those of 32 pairs, the most of a masked
   write. */
#define BUJORELM_PAIRS_MIN 64u

/* The most bytes of a Received OK and of a Rejected, behind the aliases. */
#define BUJORELM_RECEIVED_OK_MAX 1u
#define BUJORELM_REJECTED_MAX 66u

/* ---- Numbers ---- */

/* The refusals of C-12, which the writer and the readers give: `refusal` in the structs of these. */
enum bujorelm_refusal {
    BUJORELM_REFUSAL_NONE = 0,
    /* Of the writer: a count that is not 1 to 64, a write of no bytes or of more than 64, a masked write of no pair or
       of more than 32, an odd number of bytes for pairs, an ID that has not six bytes. */
    BUJORELM_REFUSAL_W1 = 1,
    /* Of the writer, tested behind W1: a buffer of fewer than 72 bytes, whichever command it is for. */
    BUJORELM_REFUSAL_W2 = 2,
    /* Of the readers: a Received OK of more than 1 byte, a Rejected of more than 66, or a datagram in no form of a
       reply. */
    BUJORELM_REFUSAL_W3 = 3
};

/* The refusals of bujorelm_next_change: `refusal` in struct bujorelm_change. They are its own, and none of C-12's. */
enum bujorelm_change_refusal {
    BUJORELM_CHANGE_NOT_REFUSED = 0,
    /* The two images are of different length. */
    BUJORELM_CHANGE_REFUSED_LENGTHS = 1,
    /* Tested behind that: the buffer for the pairs has fewer than 64 bytes, whether or not there is a change. */
    BUJORELM_CHANGE_REFUSED_ROOM = 2
};

/* The replies: `kind` in struct bujorelm_reply. */
enum bujorelm_reply_kind {
    /* No reply to a command of document 01: W3. */
    BUJORELM_REPLY_NONE = 0,
    /* The bytes that were read, 1 to 64, are `bytes`. */
    BUJORELM_REPLY_READ = 1,
    /* A read that failed with `code`; a message may be in `bytes`. */
    BUJORELM_REPLY_READ_FAILURE = 2,
    /* A write or a masked write that is done. */
    BUJORELM_REPLY_WRITTEN = 3,
    /* A write or a masked write that failed with `code`; a message may be in `bytes`. */
    BUJORELM_REPLY_WRITE_FAILURE = 4,
    /* `options`; a name of the board may be in `bytes`. */
    BUJORELM_REPLY_OPTIONS = 5,
    /* `information` on the space `space`; a description of it may be in `bytes`. */
    BUJORELM_REPLY_INFORMATION = 6,
    /* The ID of who holds the lock, six bytes, is `bytes`: all zero where nobody does. */
    BUJORELM_REPLY_LOCK = 7
};

/* How a reply names its space: `form` in struct bujorelm_reply. */
enum bujorelm_form {
    BUJORELM_FORM_BYTE_6 = 0,
    BUJORELM_FORM_FD = 1,
    BUJORELM_FORM_FE = 2,
    BUJORELM_FORM_FF = 3
};

/* The bits of `flags` in struct bujorelm_information. All others are reserved, and given as they came. */
enum bujorelm_information_flags {
    BUJORELM_INFORMATION_READ_ONLY = 0x01,
    BUJORELM_INFORMATION_LOWEST_GIVEN = 0x02
};

/* What came of joining a frame: `kind` in struct bujorelm_joined. */
enum bujorelm_joined_kind {
    /* The reception state is not one that calls alone have made (B7 of document 01). Nothing has changed. */
    BUJORELM_JOINED_BAD_STATE = 0,
    /* No datagram frame for this tool. Nothing has changed. */
    BUJORELM_JOINED_IGNORED = 1,
    /* Joined to an unfinished datagram, the first frame of one, or swallowed, as what is left of a broken one is
       (C-15). There is nothing to be sent. */
    BUJORELM_JOINED_PART = 2,
    /* A frame that does not follow on the ones before it; `code` is 0x2000, 0x2020 or 0x2040, as in
       bujorelm_handle_frame. The board's unfinished datagram, if any, is dropped, and unless the frame was a Last, the
       rest of it is swallowed. */
    BUJORELM_JOINED_REFUSED = 3,
    /* A datagram is finished: it is the frame's data. */
    BUJORELM_JOINED_IN_FRAME = 4,
    /* A datagram is finished: it is the pool from index `start` up to `end`, until the next call. */
    BUJORELM_JOINED_IN_POOL = 5
};

/* ---- Structs. A number that a kind does not name is 0, and a field that says yes or no is then false. Padding comes
   back as zero. ---- */

/* What came of writing a command: an enum bujorelm_refusal, which is W1, W2, or none and the command's length, 2 to
   71. */
struct bujorelm_composed {
    uint32_t refusal;
    uint64_t len;
};

/* Bytes in the content or the datagram that was read: whether they are there, the index of the first, and how many they
   are. A text is given without the zero byte that ends it, so an empty text is `given` with a `len` of 0. */
struct bujorelm_bytes {
    bool given;
    uint64_t start;
    uint64_t len;
};

/* A Received OK: W3, or none (an enum bujorelm_refusal), whether a reply is to follow, and the timeout value. That is 0
   where there is none, and else N from 1 to 15, for two to the power of N seconds. */
struct bujorelm_acknowledged {
    uint32_t refusal;
    bool pending;
    uint8_t timeout;
};

/* A Rejected: W3, or none (an enum bujorelm_refusal), the code, and the bytes behind the code, which are always given
   and may be none: then they start at the end. */
struct bujorelm_rejection {
    uint32_t refusal;
    uint16_t code;
    struct bujorelm_bytes further;
};

/* The options of a board: the bits of the commands it has, its Write Lengths byte, its highest space, and its lowest if
   it says so. */
struct bujorelm_options {
    uint16_t commands;
    uint8_t write_lengths;
    uint8_t highest_space;
    bool has_lowest_space;
    uint8_t lowest_space;
};

/* The information on a space: whether it is there, its highest address, its flags, and its lowest address if it says
   so. */
struct bujorelm_information {
    uint32_t highest_address;
    uint32_t lowest_address;
    uint8_t flags;
    bool present;
    bool has_lowest_address;
};

/* A reply: an enum bujorelm_reply_kind, and what belongs to it. `address`, `space` and `form`, an enum bujorelm_form,
   are those of kinds 1 to 4, and `space` also that of BUJORELM_REPLY_INFORMATION. */
struct bujorelm_reply {
    uint32_t kind;
    uint32_t address;
    uint16_t code;
    uint8_t space;
    uint8_t form;
    struct bujorelm_options options;
    struct bujorelm_information information;
    struct bujorelm_bytes bytes;
};

/* What came of joining a frame: an enum bujorelm_joined_kind, and what belongs to it. */
struct bujorelm_joined {
    uint32_t kind;
    uint16_t code;
    uint64_t start;
    uint64_t end;
};

/* A mask and a data byte: bits whose mask bit is 1 are taken from the data, and the others stay as they are. Data
   outside the mask play no part. */
struct bujorelm_pair {
    uint8_t mask;
    uint8_t data;
};

/* The next masked write: whether it is refused, an enum bujorelm_change_refusal; whether there is one; and if so, the
   index of its first byte in the images and the number of its pairs, 1 to 32. */
struct bujorelm_change {
    uint32_t refusal;
    bool given;
    uint64_t start;
    uint64_t count;
};

/* ---- The layout, held to the library's ---- */

#if defined(__cplusplus) && __cplusplus >= 201103L
#define BUJORELM_ASSERT(name, condition) static_assert(condition, #name)
#elif defined(__STDC_VERSION__) && __STDC_VERSION__ >= 201112L
#define BUJORELM_ASSERT(name, condition) _Static_assert(condition, #name)
#else
#define BUJORELM_ASSERT(name, condition) typedef char bujorelm_assert_##name[(condition) ? 1 : -1]
#endif
#define BUJORELM_AT(type, field, offset) BUJORELM_ASSERT(type##_##field, offsetof(struct bujorelm_##type, field) == (offset))
#define BUJORELM_SIZE(type, size) BUJORELM_ASSERT(type##_size, sizeof(struct bujorelm_##type) == (size))

BUJORELM_SIZE(composed, 16);
BUJORELM_AT(composed, refusal, 0);
BUJORELM_AT(composed, len, 8);

BUJORELM_SIZE(bytes, 24);
BUJORELM_AT(bytes, given, 0);
BUJORELM_AT(bytes, start, 8);
BUJORELM_AT(bytes, len, 16);

BUJORELM_SIZE(acknowledged, 8);
BUJORELM_AT(acknowledged, refusal, 0);
BUJORELM_AT(acknowledged, pending, 4);
BUJORELM_AT(acknowledged, timeout, 5);

BUJORELM_SIZE(rejection, 32);
BUJORELM_AT(rejection, refusal, 0);
BUJORELM_AT(rejection, code, 4);
BUJORELM_AT(rejection, further, 8);

BUJORELM_SIZE(options, 6);
BUJORELM_AT(options, commands, 0);
BUJORELM_AT(options, write_lengths, 2);
BUJORELM_AT(options, highest_space, 3);
BUJORELM_AT(options, has_lowest_space, 4);
BUJORELM_AT(options, lowest_space, 5);

BUJORELM_SIZE(information, 12);
BUJORELM_AT(information, highest_address, 0);
BUJORELM_AT(information, lowest_address, 4);
BUJORELM_AT(information, flags, 8);
BUJORELM_AT(information, present, 9);
BUJORELM_AT(information, has_lowest_address, 10);

BUJORELM_SIZE(reply, 56);
BUJORELM_AT(reply, kind, 0);
BUJORELM_AT(reply, address, 4);
BUJORELM_AT(reply, code, 8);
BUJORELM_AT(reply, space, 10);
BUJORELM_AT(reply, form, 11);
BUJORELM_AT(reply, options, 12);
BUJORELM_AT(reply, information, 20);
BUJORELM_AT(reply, bytes, 32);

BUJORELM_SIZE(joined, 24);
BUJORELM_AT(joined, kind, 0);
BUJORELM_AT(joined, code, 4);
BUJORELM_AT(joined, start, 8);
BUJORELM_AT(joined, end, 16);

BUJORELM_SIZE(pair, 2);
BUJORELM_AT(pair, mask, 0);
BUJORELM_AT(pair, data, 1);

BUJORELM_SIZE(change, 24);
BUJORELM_AT(change, refusal, 0);
BUJORELM_AT(change, given, 4);
BUJORELM_AT(change, start, 8);
BUJORELM_AT(change, count, 16);

#undef BUJORELM_SIZE
#undef BUJORELM_AT
#undef BUJORELM_ASSERT

/* ---- Functions of the library ---- */

/* The archive's version, in the form of BUJORELM_TOOL_VERSION. Nothing is lent. */
uint32_t bujorelm_tool_version(void);

/*
 * Writing a command. The buffer is lent, with at least 72 bytes, and need not be cleared. Comes back in `composed`,
 * which is lent: the refusal, W1 before W2, or none and the length of the command, which is in front of the buffer.
 *
 * What never happens: a byte of the buffer is written where the command is refused, or behind the command where it is
 * not; two different requests make the same bytes; the board reads a command as anything but the request that it was
 * written for.
 */

/* A read of `count` bytes, 1 to 64, from an address of a space on. A count over 255 is W1 too: it is not cut down to a
   byte. */
void bujorelm_compose_read(uint8_t space, uint32_t address, uint64_t count, uint8_t *buffer, uint64_t buffer_len,
                           struct bujorelm_composed *composed);

/* A write of 1 to 64 bytes, which are lent. */
void bujorelm_compose_write(uint8_t space, uint32_t address, const uint8_t *bytes, uint64_t bytes_len, uint8_t *buffer, uint64_t buffer_len,
                            struct bujorelm_composed *composed);

/* A masked write of 1 to 32 pairs, which are lent as 2 to 64 bytes: a mask, its data, the next mask, and so on. Bits of
   memory whose mask bit is 1 are taken from the data, and the others stay as they are. */
void bujorelm_compose_masked_write(uint8_t space, uint32_t address, const uint8_t *pairs, uint64_t pairs_len, uint8_t *buffer,
                                   uint64_t buffer_len, struct bujorelm_composed *composed);

/* The options of the board. */
void bujorelm_compose_options(uint8_t *buffer, uint64_t buffer_len, struct bujorelm_composed *composed);

/* The information on a space. */
void bujorelm_compose_information(uint8_t space, uint8_t *buffer, uint64_t buffer_len, struct bujorelm_composed *composed);

/* The lock, with an ID of six bytes, which are lent. An ID that is all zero releases it. */
void bujorelm_compose_lock(const uint8_t *id, uint64_t id_len, uint8_t *buffer, uint64_t buffer_len, struct bujorelm_composed *composed);

/* Update Complete. */
void bujorelm_compose_update_complete(uint8_t *buffer, uint64_t buffer_len, struct bujorelm_composed *composed);

/*
 * Reading what a board answers. What is read is lent and not written to. The content of Received OK and of Rejected is
 * what stands in the message behind the aliases: in a frame of one part, its data without the first two bytes. Any
 * length may be handed in. What was read comes back in the last parameter, which is lent.
 */

/* Received OK. Without its byte it is read as if that were zero, and reserved bits are ignored. */
void bujorelm_read_received_ok(const uint8_t *content, uint64_t content_len, struct bujorelm_acknowledged *acknowledged);

/* Rejected. A byte of the code that is missing counts as zero: a single byte is the high one. */
void bujorelm_read_rejected(const uint8_t *content, uint64_t content_len, struct bujorelm_rejection *rejection);

/* A reply datagram. Whatever the library's own board answers is read with the fields that the board put in. */
void bujorelm_read_reply(const uint8_t *datagram, uint64_t datagram_len, struct bujorelm_reply *reply);

/*
 * Joins a frame of a datagram that a board sends to the tool. Hand in every received data frame with an extended
 * header. Eight boards may send a datagram each at once.
 *
 * alias      the tool's own alias
 * pool       lent, 576 bytes, kept as they are between calls
 * reception  lent; all zero at the start, and kept as it is between calls
 * header     the 29-bit CAN header
 * payload    lent; the frame's data
 * joined     lent; what came of the frame comes back in it
 *
 * A finished datagram is read before the next call: its bytes are the frame's data, or in the pool.
 *
 * What follows on a broken datagram is as in bujorelm_handle_frame (C-15): unless it was a Last that was refused, the
 * board keeps its place and is being swallowed. Its Middles and its next Last, which frees the place, are then
 * BUJORELM_JOINED_PART; its Single or First ends the swallowing and counts as if nothing were unfinished. So there is
 * one Rejected to send for a datagram that breaks behind its First.
 *
 * Every frame has the tick 0 here, so that no place grows old, of an unfinished datagram or of a board that is being
 * swallowed: in a state that starts all zero and is changed by these calls alone, no place has another tick. In any
 * other state a place whose tick is more than 3,000 back from 0 is freed before the frame is looked at, even one that
 * is ignored.
 */
void bujorelm_join(uint16_t alias, uint8_t *pool, struct bujorelm_reception *reception, uint32_t header, const uint8_t *payload,
                   uint64_t payload_len, struct bujorelm_joined *joined);

/*
 * Changing bits and leaving all others alone (C-16).
 *
 * Whatever writes and masked writes a board accepts, they do to its memory what one mask and one data byte for each
 * byte do, later writes winning bit by bit. Two that touch no common bit may come in either order, whichever tool sends
 * which: memory is the same, and so is the answer to each. A plain write touches all eight bits of each of its bytes; a
 * masked write those that its masks have at 1.
 */

/* One mask and data byte that do to every byte what `earlier` and then `later` do: what either touches is touched, and
   of a bit that both touch the later is seen. It comes back in `together`; its data are zero outside its mask. All
   three are lent; `together` is neither of the others. */
void bujorelm_put_together(const struct bujorelm_pair *earlier, const struct bujorelm_pair *later, struct bujorelm_pair *together);

/*
 * The next masked write out of those that take an old image of memory to a new one, at or after an index.
 *
 * before, after  lent, of the same length, and not written to: what the board's bytes are, and what they are to be
 * from           the index at which to look on: 0 for the first, and then `start` + `count` of the change before
 * pairs          lent, at least 64 bytes, and need not be cleared
 * change         lent; it is filled in whether or not there is a change
 *
 * Comes back in `change`: a refusal, or whether there is a change. It starts at the first byte at or after `from` that
 * differs and ends with the last that differs among the 32 bytes from there; its pairs are in front of `pairs`, 2 *
 * `count` bytes, as bujorelm_compose_masked_write takes them. Each mask has just the bits that differ. Where no byte
 * differs at or after `from`, also where that is behind the images, none is `given`.
 *
 * It is for bits that stand for something each by itself, as lamps do. A number that another tool may set at the same
 * time is written whole: of two tools that each touch only the bits in which it changes, a number may come that neither
 * has sent.
 *
 * All of them one after the other make the old image the new one, and fewer masked writes do not. What never happens: a
 * bit is touched that is the same in both images; a byte of `pairs` is written behind the pairs, or where there is no
 * change.
 */
void bujorelm_next_change(const uint8_t *before, uint64_t before_len, const uint8_t *after, uint64_t after_len, uint64_t from,
                          uint8_t *pairs, uint64_t pairs_len, struct bujorelm_change *change);

/* ---- Functions of this header ---- */

/* Whether the archive is of the same major version as this header, and not of a smaller minor one. */
static inline bool bujorelm_tool_version_fits(void)
{
    return bujorelm_versions_fit(BUJORELM_TOOL_VERSION, bujorelm_tool_version());
}

#ifdef __cplusplus
}
#endif

#endif
