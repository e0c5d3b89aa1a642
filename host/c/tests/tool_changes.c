/*
 * Tests of what changes single bits, through the tool's header: two pairs put together, the masked writes between two images with their refusals
 * and bounds, and two tools that set bits of the same bytes of the demonstration board.
 *
 * What is right is found here one bit after the other, and not by operations on whole bytes, so that a slip in those is not made twice.
 *
 * Usage: tool_changes [how many rounds of pairs; of images and of boards there are fewer]
 */
#define _DEFAULT_SOURCE

#include "demonstration.h"
#include "tool_check.h"

/* Every pair of masks, with four pairs of data each. */
#define ROUNDS (4ul * 65536ul)

/* How many bytes an image has at most, and how many bytes one masked write reaches. */
#define IMAGE_MAX 65536u
#define REACH 32u

/* ---- Bit by bit ---- */

static unsigned bit_of(uint8_t byte, unsigned bit)
{
    return ((unsigned)byte >> bit) % 2;
}

/* A pair that touches one more bit. */
static struct bujorelm_pair with_bit(struct bujorelm_pair pair, unsigned bit, unsigned value)
{
    return (struct bujorelm_pair){.mask = (uint8_t)(pair.mask + (1u << bit)), .data = (uint8_t)(pair.data + (value << bit))};
}

/* A byte behind a pair: each bit is the data's where the mask has 1, and else what it was. */
static uint8_t changed_by(uint8_t byte, struct bujorelm_pair pair)
{
    unsigned changed = 0;

    for (unsigned bit = 0; bit < 8; bit++) {
        changed += bit_of(bit_of(pair.mask, bit) == 1 ? pair.data : byte, bit) << bit;
    }
    return (uint8_t)changed;
}

/* The pair that takes one byte to another and touches no bit that is the same in both. */
static struct bujorelm_pair pair_between(uint8_t before, uint8_t after)
{
    struct bujorelm_pair pair = {0, 0};

    for (unsigned bit = 0; bit < 8; bit++) {
        if (bit_of(before, bit) != bit_of(after, bit)) {
            pair = with_bit(pair, bit, bit_of(after, bit));
        }
    }
    return pair;
}

/* Two pairs in one: of a bit that both touch the later is seen. */
static struct bujorelm_pair one_of(struct bujorelm_pair earlier, struct bujorelm_pair later)
{
    struct bujorelm_pair pair = {0, 0};

    for (unsigned bit = 0; bit < 8; bit++) {
        if (bit_of(later.mask, bit) == 1) {
            pair = with_bit(pair, bit, bit_of(later.data, bit));
        } else if (bit_of(earlier.mask, bit) == 1) {
            pair = with_bit(pair, bit, bit_of(earlier.data, bit));
        }
    }
    return pair;
}

static bool is_same(struct bujorelm_pair a, struct bujorelm_pair b)
{
    return a.mask == b.mask && a.data == b.data;
}

static bool is_zero_outside(struct bujorelm_pair pair)
{
    for (unsigned bit = 0; bit < 8; bit++) {
        if (bit_of(pair.mask, bit) == 0 && bit_of(pair.data, bit) == 1) {
            return false;
        }
    }
    return true;
}

/* Any other byte, or one that differs in a single bit. */
static uint8_t other_than(uint8_t byte)
{
    const unsigned bit = random_below(8);

    if (random_below(2) == 0) {
        return (uint8_t)(byte + 1 + random_below(255));
    }
    return changed_by(byte, with_bit((struct bujorelm_pair){0, 0}, bit, 1 - bit_of(byte, bit)));
}

/* ---- Two pairs put together ---- */

static struct bujorelm_pair random_pair(void)
{
    return (struct bujorelm_pair){.mask = (uint8_t)random_number(), .data = (uint8_t)random_number()};
}

/* What a pair makes of each of the 256 bytes. It is found once for each pair. */
static const uint8_t *row_of(struct bujorelm_pair pair)
{
    static uint8_t rows[256][256][256];
    static bool found[256][256];
    uint8_t *const row = rows[pair.mask][pair.data];

    for (unsigned byte = 0; byte < 256 && !found[pair.mask][pair.data]; byte++) {
        row[byte] = changed_by((uint8_t)byte, pair);
    }
    found[pair.mask][pair.data] = true;
    return row;
}

/* Whether one pair makes of every byte what two make of it, one after the other. */
static bool does_both(struct bujorelm_pair one, struct bujorelm_pair earlier, struct bujorelm_pair later)
{
    const uint8_t *const row = row_of(one);
    const uint8_t *const first = row_of(earlier);
    const uint8_t *const second = row_of(later);

    for (size_t byte = 0; byte < 256; byte++) {
        if (row[byte] != second[first[byte]]) {
            return false;
        }
    }
    return true;
}

static void test_put_together(void)
{
    static const struct {
        const char *word;
        struct bujorelm_pair earlier;
        struct bujorelm_pair later;
        struct bujorelm_pair wanted;
    } cases[] = {
        {"two halves of a byte", {0xF0, 0xA0}, {0x0F, 0x05}, {0xFF, 0xA5}},
        {"the later is seen", {0x01, 0x01}, {0x01, 0x00}, {0x01, 0x00}},
        {"the later is seen where it touches", {0xFF, 0xFF}, {0x18, 0x08}, {0xFF, 0xEF}},
        {"a plain write over all", {0x55, 0x55}, {0xFF, 0xC3}, {0xFF, 0xC3}},
        {"data outside the masks", {0x01, 0xFF}, {0x80, 0x7F}, {0x81, 0x01}},
        {"nothing is touched", {0x00, 0xFF}, {0x00, 0xFF}, {0x00, 0x00}},
    };

    for (size_t i = 0; i < sizeof cases / sizeof cases[0]; i++) {
        CHECK_CASE(is_same(put_together(cases[i].earlier, cases[i].later), cases[i].wanted), cases[i].word);
    }
}

/* A pair that touches nothing is as if it were not there, before another and behind it, whatever its data. */
static void check_untouching(struct bujorelm_pair pair)
{
    const struct bujorelm_pair nothing = {0, 0};
    const struct bujorelm_pair idle = {0, (uint8_t)random_number()};
    const struct bujorelm_pair bare = one_of(nothing, pair);

    CHECK(is_same(put_together(nothing, pair), bare) && is_same(put_together(pair, nothing), bare));
    CHECK(is_same(put_together(idle, pair), bare) && is_same(put_together(pair, idle), bare));
}

/* A pair beside it, which touches none of its bits: either may be the later. */
static void check_either_order(struct bujorelm_pair pair)
{
    struct bujorelm_pair other = {0, 0};

    for (unsigned bit = 0; bit < 8; bit++) {
        if (bit_of(pair.mask, bit) == 0 && random_below(2) == 0) {
            other = with_bit(other, bit, 0);
        }
    }
    other.data = (uint8_t)random_number();
    CHECK(is_same(put_together(pair, other), put_together(other, pair)));
}

/* With 65,536 rounds every pair of masks comes once, and with fewer still masks of every sort, since the factor is odd. Data are any, outside the
   masks too. */
static void random_pairs(unsigned long count)
{
    for (unsigned long i = 0; i < count; i++) {
        const unsigned long masks = i * 40503ul % 65536ul;
        const struct bujorelm_pair earlier = {(uint8_t)(masks / 256), (uint8_t)random_number()};
        const struct bujorelm_pair later = {(uint8_t)(masks % 256), (uint8_t)random_number()};
        const struct bujorelm_pair last = random_pair();
        const struct bujorelm_pair one = put_together(earlier, later);

        CHECK(is_same(one, one_of(earlier, later)) && is_zero_outside(one));
        CHECK(does_both(one, earlier, later));
        CHECK(is_same(put_together(one, last), put_together(earlier, put_together(later, last))));
        check_untouching(earlier);
        check_either_order(later);
    }
}

/* ---- Images and the room for pairs ---- */

/* How many bytes beside the buffer are looked at. */
#define BESIDE 16u

/* The buffer for pairs: on one side of it is a page that cannot be touched, and on the other are bytes that must stay as they are. */
struct room {
    struct guarded all;
    uint8_t *pairs;
    size_t len;
};

/* Two images that can only be read, one with its first byte at a guard and the other with its last, and the room. */
struct images {
    struct guarded before;
    struct guarded after;
    struct room room;
};

static struct guarded lent_image(const uint8_t *bytes, size_t len, bool at_start)
{
    const struct guarded image = guarded_new(len, at_start);

    memcpy(image.bytes, bytes, len);
    guarded_read_only(&image);
    return image;
}

static struct images images_new(const uint8_t *before, size_t before_len, const uint8_t *after, size_t after_len, size_t room_len, bool at_start)
{
    struct images images;

    images.before = lent_image(before, before_len, at_start);
    images.after = lent_image(after, after_len, !at_start);
    images.room.all = guarded_new(room_len + BESIDE, at_start);
    images.room.pairs = images.room.all.bytes + (at_start ? 0 : BESIDE);
    images.room.len = room_len;
    return images;
}

static void images_free(struct images *images)
{
    guarded_free(&images->before);
    guarded_free(&images->after);
    guarded_free(&images->room.all);
}

/* Whether all is as it was but the first `written` bytes of the buffer. */
static bool is_kept(const struct room *room, size_t written)
{
    const size_t start = (size_t)(room->pairs - room->all.bytes);

    return is_untouched(room->all.bytes, 0, start) && is_untouched(room->all.bytes, start + written, room->all.len);
}

/* ---- The next change ---- */

static bool is_same_change(struct bujorelm_change a, struct bujorelm_change b)
{
    return a.refusal == b.refusal && a.given == b.given && a.start == b.start && a.count == b.count;
}

/* The change that there is by the words of the header, and its pairs. */
static struct bujorelm_change wanted_change(const struct images *images, size_t from, uint8_t *pairs)
{
    const uint8_t *const before = images->before.bytes;
    const uint8_t *const after = images->after.bytes;
    const size_t len = images->before.len;
    struct bujorelm_change wanted = {.refusal = BUJORELM_CHANGE_NOT_REFUSED, .given = false, .start = 0, .count = 0};

    if (len != images->after.len) {
        wanted.refusal = BUJORELM_CHANGE_REFUSED_LENGTHS;
        return wanted;
    }
    if (images->room.len < 64) {
        wanted.refusal = BUJORELM_CHANGE_REFUSED_ROOM;
        return wanted;
    }
    while (from < len && pair_between(before[from], after[from]).mask == 0) {
        from++;
    }
    for (size_t n = 0; n < REACH && from < len && n < len - from; n++) {
        const struct bujorelm_pair pair = pair_between(before[from + n], after[from + n]);

        pairs[2 * n] = pair.mask;
        pairs[2 * n + 1] = pair.data;
        if (pair.mask != 0) {
            wanted = (struct bujorelm_change){.refusal = BUJORELM_CHANGE_NOT_REFUSED, .given = true, .start = from, .count = n + 1};
        }
    }
    return wanted;
}

/* The library's change from an index on: it is the one that there is, its pairs are in front of the buffer, and nothing else is written. */
static struct bujorelm_change next_change(const struct images *images, size_t from)
{
    uint8_t pairs[2 * REACH];
    const struct bujorelm_change wanted = wanted_change(images, from, pairs);
    struct bujorelm_change got;

    memset(images->room.all.bytes, UNTOUCHED, images->room.all.len);
    got = change_between(images->before.bytes, images->before.len, images->after.bytes, images->after.len, from, images->room.pairs,
                         images->room.len);
    CHECK(is_same_change(got, wanted));
    CHECK(wanted.count == 0 || memcmp(images->room.pairs, pairs, 2 * wanted.count) == 0);
    CHECK(is_kept(&images->room, 2 * wanted.count));
    return got;
}

/* The same in both ways of lending. The images may be of different length, and the buffer of any. */
static struct bujorelm_change next_change_of(const uint8_t *before, size_t before_len, const uint8_t *after, size_t after_len, size_t from,
                                             size_t room_len)
{
    struct bujorelm_change got = {.refusal = BUJORELM_CHANGE_NOT_REFUSED};

    for (int at_start = 0; at_start < 2; at_start++) {
        struct images images = images_new(before, before_len, after, after_len, room_len, at_start == 1);

        got = next_change(&images, from);
        images_free(&images);
    }
    return got;
}

/* ---- All changes of two images ---- */

/* The fewest masked writes that reach every byte that differs. From the end on: a byte that differs is reached by one that ends up to 31 bytes
   behind it, whichever leaves the fewest for what is behind that one. */
static size_t fewest(const uint8_t *before, const uint8_t *after, size_t len)
{
    static size_t least[IMAGE_MAX + 1];

    least[len] = 0;
    for (size_t i = len; i-- > 0;) {
        least[i] = least[i + 1];
        if (pair_between(before[i], after[i]).mask == 0) {
            continue;
        }
        for (size_t n = 2; n <= REACH && n <= len - i; n++) {
            least[i] = least[i + n] < least[i] ? least[i + n] : least[i];
        }
        least[i]++;
    }
    return least[0];
}

/* Makes a change on an image. False where its bounds are not right, so that a library that goes back does not do so for ever. */
static bool is_made(struct bujorelm_change change, size_t from, const uint8_t *pairs, uint8_t *image, size_t len)
{
    const bool within =
        change.start >= from && change.start < len && change.count >= 1 && change.count <= REACH && change.count <= len - change.start;

    CHECK(within);
    if (!within) {
        return false;
    }
    CHECK(pairs[0] != 0 && pairs[2 * change.count - 2] != 0);
    for (size_t n = 0; n < change.count; n++) {
        const struct bujorelm_pair pair = {pairs[2 * n], pairs[2 * n + 1]};

        CHECK(is_zero_outside(pair));
        image[change.start + n] = changed_by(image[change.start + n], pair);
    }
    return true;
}

/* All changes, one after the other, make the one image the other, and fewer would not. Two more are looked for from any index. */
static void check_all(const uint8_t *before, const uint8_t *after, size_t len)
{
    static bool at_start;
    static uint8_t image[IMAGE_MAX];
    struct images images = images_new(before, len, after, len, 64, at_start);
    struct bujorelm_change change = next_change(&images, 0);
    size_t changes = 0;
    size_t from = 0;

    at_start = !at_start;
    memcpy(image, before, len);
    while (change.given && is_made(change, from, images.room.pairs, image, len)) {
        changes++;
        from = change.start + change.count;
        change = next_change(&images, from);
    }
    CHECK(memcmp(image, after, len) == 0);
    CHECK(changes == fewest(before, after, len));
    (void)next_change(&images, random_below((uint32_t)len + 4));
    (void)next_change(&images, random_below((uint32_t)len + 4));
    images_free(&images);
}

/* ---- Refusals ---- */

/* Two lengths that differ are refused, and a buffer of fewer than 64 bytes behind that, whatever the images hold and wherever one looks. */
static void test_refusals(void)
{
    static const size_t lens[] = {0, 1, 32, 33, 100};
    static const size_t rooms[] = {0, 1, 2, 32, 62, 63, 64, 65, 200};
    uint8_t before[100];
    uint8_t other[100];

    for (size_t i = 0; i < sizeof before; i++) {
        before[i] = (uint8_t)random_number();
        other[i] = other_than(before[i]);
    }
    for (size_t i = 0; i < 5 * 5 * 9; i++) {
        const size_t len = lens[i % 5];
        const size_t after_len = lens[i / 5 % 5];
        const size_t room = rooms[i / 25];
        const enum bujorelm_change_refusal refusal = len != after_len ? BUJORELM_CHANGE_REFUSED_LENGTHS
                                                     : room < 64      ? BUJORELM_CHANGE_REFUSED_ROOM
                                                                      : BUJORELM_CHANGE_NOT_REFUSED;

        /* Nothing differs, and then every byte does. */
        CHECK(next_change_of(before, len, before, after_len, 0, room).refusal == refusal);
        CHECK(next_change_of(before, len, other, after_len, 0, room).refusal == refusal);
        CHECK(next_change_of(before, len, other, after_len, SIZE_MAX, room).refusal == refusal);
    }
}

static void test_every_short_buffer(void)
{
    static const uint8_t before[40] = {0};
    static const uint8_t after[40] = {0, 1};

    for (size_t room = 0; room <= 66; room++) {
        const bool is_short = room < 64;

        CHECK(next_change_of(before, 40, after, 40, 0, room).given == !is_short);
        CHECK(next_change_of(before, 40, before, 40, 0, room).refusal ==
              (is_short ? BUJORELM_CHANGE_REFUSED_ROOM : BUJORELM_CHANGE_NOT_REFUSED));
    }
}

static bool is_refused(struct bujorelm_change change, enum bujorelm_change_refusal refusal)
{
    return is_same_change(change, (struct bujorelm_change){.refusal = refusal, .given = false, .start = 0, .count = 0});
}

/* What has no bytes may be NULL, and no buffer at all is a short one. */
static void test_null(void)
{
    uint8_t pairs[64];
    const uint8_t byte = 1;

    memset(pairs, UNTOUCHED, sizeof pairs);
    CHECK(is_refused(change_between(NULL, 0, NULL, 0, 0, pairs, 64), BUJORELM_CHANGE_NOT_REFUSED));
    CHECK(is_refused(change_between(NULL, 0, NULL, 0, SIZE_MAX, pairs, 64), BUJORELM_CHANGE_NOT_REFUSED));
    CHECK(is_refused(change_between(NULL, 0, NULL, 0, 0, NULL, 0), BUJORELM_CHANGE_REFUSED_ROOM));
    CHECK(is_refused(change_between(&byte, 1, &byte, 1, 0, NULL, 0), BUJORELM_CHANGE_REFUSED_ROOM));
    CHECK(is_refused(change_between(NULL, 0, &byte, 1, 0, pairs, 64), BUJORELM_CHANGE_REFUSED_LENGTHS));
    CHECK(is_refused(change_between(&byte, 1, NULL, 0, 0, pairs, 64), BUJORELM_CHANGE_REFUSED_LENGTHS));
    CHECK(is_refused(change_between(NULL, 0, &byte, 1, 0, NULL, 0), BUJORELM_CHANGE_REFUSED_LENGTHS));
    CHECK(is_untouched(pairs, 0, sizeof pairs));
}

/* ---- Bounds ---- */

/* From which byte to which the images differ, in two runs of which the second may be none; from where one looks; and what there is. */
static const struct {
    const char *word;
    size_t len;
    size_t runs[2][2];
    size_t from;
    struct bujorelm_change wanted;
} bounds[] = {
    {"images without a byte", 0, {{0, 0}, {0, 0}}, 0, {BUJORELM_CHANGE_NOT_REFUSED, false, 0, 0}},
    {"equal images", 100, {{0, 0}, {0, 0}}, 0, {BUJORELM_CHANGE_NOT_REFUSED, false, 0, 0}},
    {"the only byte", 1, {{0, 1}, {0, 0}}, 0, {BUJORELM_CHANGE_NOT_REFUSED, true, 0, 1}},
    {"the first byte", 100, {{0, 1}, {0, 0}}, 0, {BUJORELM_CHANGE_NOT_REFUSED, true, 0, 1}},
    {"the last byte", 100, {{99, 100}, {0, 0}}, 0, {BUJORELM_CHANGE_NOT_REFUSED, true, 99, 1}},
    {"32 bytes", 32, {{0, 32}, {0, 0}}, 0, {BUJORELM_CHANGE_NOT_REFUSED, true, 0, 32}},
    {"behind 32 bytes", 32, {{0, 32}, {0, 0}}, 32, {BUJORELM_CHANGE_NOT_REFUSED, false, 0, 0}},
    {"33 bytes", 33, {{0, 33}, {0, 0}}, 0, {BUJORELM_CHANGE_NOT_REFUSED, true, 0, 32}},
    {"the last of 33 bytes", 33, {{0, 33}, {0, 0}}, 32, {BUJORELM_CHANGE_NOT_REFUSED, true, 32, 1}},
    {"33 bytes among others", 100, {{20, 53}, {0, 0}}, 0, {BUJORELM_CHANGE_NOT_REFUSED, true, 20, 32}},
    {"two bytes 31 apart", 100, {{10, 11}, {41, 42}}, 0, {BUJORELM_CHANGE_NOT_REFUSED, true, 10, 32}},
    {"two bytes 32 apart, the first", 100, {{10, 11}, {42, 43}}, 0, {BUJORELM_CHANGE_NOT_REFUSED, true, 10, 1}},
    {"two bytes 32 apart, the second", 100, {{10, 11}, {42, 43}}, 11, {BUJORELM_CHANGE_NOT_REFUSED, true, 42, 1}},
    {"two bytes 30 apart", 100, {{10, 11}, {40, 41}}, 0, {BUJORELM_CHANGE_NOT_REFUSED, true, 10, 31}},
    {"at the run", 100, {{10, 20}, {0, 0}}, 10, {BUJORELM_CHANGE_NOT_REFUSED, true, 10, 10}},
    {"in the middle of the run", 100, {{10, 20}, {0, 0}}, 15, {BUJORELM_CHANGE_NOT_REFUSED, true, 15, 5}},
    {"at the end of the run", 100, {{10, 20}, {0, 0}}, 19, {BUJORELM_CHANGE_NOT_REFUSED, true, 19, 1}},
    {"behind the run", 100, {{10, 20}, {0, 0}}, 20, {BUJORELM_CHANGE_NOT_REFUSED, false, 0, 0}},
    {"at the last byte", 50, {{0, 50}, {0, 0}}, 49, {BUJORELM_CHANGE_NOT_REFUSED, true, 49, 1}},
    {"at the last byte, which is the same", 50, {{0, 49}, {0, 0}}, 49, {BUJORELM_CHANGE_NOT_REFUSED, false, 0, 0}},
    {"at the length", 50, {{0, 50}, {0, 0}}, 50, {BUJORELM_CHANGE_NOT_REFUSED, false, 0, 0}},
    {"behind the length", 50, {{0, 50}, {0, 0}}, 51, {BUJORELM_CHANGE_NOT_REFUSED, false, 0, 0}},
    {"far behind", 50, {{0, 50}, {0, 0}}, SIZE_MAX - 31, {BUJORELM_CHANGE_NOT_REFUSED, false, 0, 0}},
    {"as far behind as can be", 50, {{0, 50}, {0, 0}}, SIZE_MAX, {BUJORELM_CHANGE_NOT_REFUSED, false, 0, 0}},
};

static void test_bounds(void)
{
    uint8_t before[100];
    uint8_t after[100];

    for (size_t i = 0; i < sizeof bounds / sizeof bounds[0]; i++) {
        random_bytes(before, sizeof before);
        memcpy(after, before, sizeof after);
        for (size_t run = 0; run < 2; run++) {
            for (size_t n = bounds[i].runs[run][0]; n < bounds[i].runs[run][1]; n++) {
                after[n] = other_than(before[n]);
            }
        }
        CHECK_CASE(is_same_change(next_change_of(before, bounds[i].len, after, bounds[i].len, bounds[i].from, 64), bounds[i].wanted),
                   bounds[i].word);
        check_all(before, after, bounds[i].len);
    }
}

/* One run of every length from 1 to 40, from several indices on, with bytes behind it and without. */
static void test_runs(void)
{
    uint8_t before[70];
    uint8_t after[70];

    for (size_t run = 1; run <= 40; run++) {
        for (size_t start = 0; start < 18; start += 1 + start / 4) {
            const size_t len = start + run + random_below(2) * 12;

            random_bytes(before, sizeof before);
            memcpy(after, before, sizeof after);
            for (size_t i = start; i < start + run; i++) {
                after[i] = other_than(before[i]);
            }
            check_all(before, after, len);
        }
    }
}

/* Of what may only be read, one may lie over the other: one image as both, and an image that is the other moved by some bytes. */
static void test_overlap(void)
{
    uint8_t bytes[120];
    uint8_t pairs[64];
    uint8_t again[64];

    random_bytes(bytes, sizeof bytes);
    CHECK(is_refused(change_between(bytes, 120, bytes, 120, 0, pairs, 64), BUJORELM_CHANGE_NOT_REFUSED));
    for (size_t by = 1; by <= 20; by++) {
        uint8_t copy[120];
        struct bujorelm_change change;

        memcpy(copy, bytes + by, sizeof copy - by);
        change = change_between(bytes, 120 - by, bytes + by, 120 - by, by, pairs, 64);
        CHECK(change.given && is_same_change(change, change_between(bytes, 120 - by, copy, 120 - by, by, again, 64)));
        CHECK(memcmp(pairs, again, change.count <= REACH ? 2 * change.count : 0) == 0);
    }
}

/* ---- Images of any bytes ---- */

/* An image in which one byte of so many is another. */
static void differ(const uint8_t *before, uint8_t *after, size_t len, uint32_t rarity)
{
    for (size_t i = 0; i < len; i++) {
        after[i] = random_below(rarity) == 0 ? other_than(before[i]) : before[i];
    }
}

static void random_images(unsigned long count)
{
    static const uint32_t rarities[] = {1, 2, 5, 20, 33, 100, 1000};
    uint8_t before[200];
    uint8_t after[200];

    for (unsigned long i = 0; i < count; i++) {
        const size_t len = random_below(sizeof before + 1);

        random_bytes(before, sizeof before);
        differ(before, after, sizeof after, rarities[i % (sizeof rarities / sizeof rarities[0])]);
        check_all(before, after, len);
    }
}

/* As large as a board's memory is at most: every two bytes beside each other, few that differ, one at the end, none. */
static void test_large_images(void)
{
    static uint8_t before[IMAGE_MAX];
    static uint8_t after[IMAGE_MAX];

    for (size_t i = 0; i < IMAGE_MAX; i++) {
        before[i] = (uint8_t)(i / 256);
        after[i] = (uint8_t)(i % 256);
    }
    check_all(before, after, IMAGE_MAX);
    random_bytes(before, IMAGE_MAX);
    differ(before, after, IMAGE_MAX, 50);
    check_all(before, after, IMAGE_MAX);
    memcpy(after, before, IMAGE_MAX);
    check_all(before, after, IMAGE_MAX);
    after[IMAGE_MAX - 1] = (uint8_t)(before[IMAGE_MAX - 1] + 0x80);
    check_all(before, after, IMAGE_MAX);
}

/* ---- Two tools and a board ---- */

/* How many bytes each tool reads, and how often it edits them. */
#define SEEN 8u
#define EDITS 4u

struct board {
    struct bujorelm_node node;
    uint8_t memory[DEMONSTRATION_MEMORY_SIZE];
};

struct command {
    uint8_t bytes[BUJORELM_COMMAND_MIN];
    size_t len;
};

/* A tool: the space by which it names the bytes, their address, what it takes them for, and what it has to send. */
struct tool {
    uint8_t space;
    uint32_t address;
    uint8_t image[SEEN];
    struct command writes[EDITS];
    size_t count;
};

/* Whose each bit of the bytes is: that of the tool with this index, or nobody's. */
struct owners {
    uint32_t of[SEEN][8];
};

static void board_start(struct board *board, const uint8_t *memory)
{
    memcpy(board->memory, memory, sizeof board->memory);
    bujorelm_node_start(&board->node, &demonstration_description, demonstration_flash, sizeof demonstration_flash, board->memory,
                        sizeof board->memory);
}

static struct bujorelm_result tell(struct board *board, const struct command *command)
{
    return bujorelm_node_handle_datagram(&board->node, command->bytes, command->len);
}

static void tool_start(struct tool *tool, uint8_t space, uint32_t address, struct board *board)
{
    struct command read;
    struct bujorelm_result result;
    struct bujorelm_reply reply;

    tool->space = space;
    tool->address = address;
    tool->count = 0;
    bujorelm_compose_read(space, address, SEEN, read.bytes, sizeof read.bytes, lent_composed());
    read.len = given_composed().len;
    result = tell(board, &read);
    reply = read_reply(board->node.reply, result.reply_len);
    CHECK(reply.kind == BUJORELM_REPLY_READ && reply.space == space && reply.address == address && reply.bytes.len == SEEN);
    memcpy(tool->image, board->node.reply + 6, SEEN);
}

/* The masked write for a new image, if there is one. Eight bytes take no more than one. */
static void tool_change(struct tool *tool, const uint8_t *image)
{
    uint8_t pairs[BUJORELM_PAIRS_MIN];
    const struct bujorelm_change change = change_between(tool->image, SEEN, image, SEEN, 0, pairs, sizeof pairs);

    CHECK(change.refusal == BUJORELM_CHANGE_NOT_REFUSED);
    if (change.given) {
        struct command *const write = &tool->writes[tool->count++];

        bujorelm_compose_masked_write(tool->space, tool->address + (uint32_t)change.start, pairs, 2 * change.count, write->bytes,
                                      sizeof write->bytes, lent_composed());
        write->len = given_composed().len;
    }
    memcpy(tool->image, image, SEEN);
}

/* Some of the tool's own bits get new values. */
static void tool_edit(struct tool *tool, uint32_t index, const struct owners *owners)
{
    uint8_t image[SEEN];

    for (size_t i = 0; i < SEEN; i++) {
        unsigned byte = 0;

        for (unsigned bit = 0; bit < 8; bit++) {
            const bool anew = owners->of[i][bit] == index && random_below(2) == 0;

            byte += (anew ? random_below(2) : bit_of(tool->image[i], bit)) << bit;
        }
        image[i] = (uint8_t)byte;
    }
    tool_change(tool, image);
}

static bool is_same_result(struct bujorelm_result a, struct bujorelm_result b)
{
    return a.kind == b.kind && a.code == b.code && a.error == b.error && a.flags == b.flags && a.changed_at == b.changed_at &&
           a.changed_len == b.changed_len && a.reply_len == b.reply_len && a.frame_count == b.frame_count && a.position == b.position;
}

/* Sends what the two have to send, each its own in its order, and the two in any. Each answer is the one of a board that hears nobody else. */
static void send_in_any_order(struct board *board, const struct tool *tools)
{
    struct board alone[2];
    size_t sent[2] = {0, 0};

    board_start(&alone[0], board->memory);
    board_start(&alone[1], board->memory);
    while (sent[0] < tools[0].count || sent[1] < tools[1].count) {
        const size_t any = random_below(2);
        const size_t who = sent[any] < tools[any].count ? any : 1 - any;
        const struct command *const write = &tools[who].writes[sent[who]++];
        const struct bujorelm_result answer = tell(board, write);

        CHECK(answer.kind == BUJORELM_WRITTEN && answer.flags == 0x00);
        CHECK(is_same_result(answer, tell(&alone[who], write)));
    }
}

/* Memory has the bits of each tool as it wants them, and all others as they were. */
static void check_memory(const struct board *board, const uint8_t *before, const struct tool *tools, const struct owners *owners)
{
    const size_t start = tools[0].address;

    for (size_t i = 0; i < DEMONSTRATION_MEMORY_SIZE; i++) {
        unsigned byte = 0;

        for (unsigned bit = 0; bit < 8; bit++) {
            const uint32_t owner = i >= start && i < start + SEEN ? owners->of[i - start][bit] : 2;

            byte += bit_of(owner < 2 ? tools[owner].image[i - start] : before[i], bit) << bit;
        }
        CHECK(board->memory[i] == byte);
    }
}

/* Spaces 0xFD and 0xFE both begin with the first byte of memory: two names for the same bytes. */
static void random_tools(unsigned long count)
{
    for (unsigned long i = 0; i < count; i++) {
        const uint32_t address = random_below(0x20 - SEEN + 1);
        uint8_t before[DEMONSTRATION_MEMORY_SIZE];
        struct board board;
        struct tool tools[2];
        struct owners owners;

        random_bytes(before, sizeof before);
        board_start(&board, before);
        for (size_t bit = 0; bit < 8 * SEEN; bit++) {
            owners.of[bit / 8][bit % 8] = random_below(3);
        }
        for (uint32_t who = 0; who < 2; who++) {
            tool_start(&tools[who], random_below(3) == 0 ? 0xFE : 0xFD, address, &board);
        }
        for (uint32_t edit = 0; edit < 2 * EDITS; edit++) {
            tool_edit(&tools[edit % 2], edit % 2, &owners);
        }
        send_in_any_order(&board, tools);
        check_memory(&board, before, tools, &owners);
    }
}

/* A tool's image as a plain write of all that it has read. */
static struct command plain_write(const struct tool *tool)
{
    struct command write;

    bujorelm_compose_write(tool->space, tool->address, tool->image, SEEN, write.bytes, sizeof write.bytes, lent_composed());
    write.len = given_composed().len;
    return write;
}

/* Two tools read a byte that is 0. One switches on its bit 0, the other its bit 7. Whoever writes back what it has read undoes what the other has
   done meanwhile, though the board answers both as if all were well. Where both send masked writes both lamps are on. */
static void test_lamps(void)
{
    static const uint8_t dark[DEMONSTRATION_MEMORY_SIZE] = {0};

    for (size_t first = 0; first < 2; first++) {
        /* On the first both send masked writes, on the second only the tool with bit 0, and on the third neither. */
        struct board boards[3];
        struct tool tools[2];

        for (size_t i = 0; i < 3; i++) {
            board_start(&boards[i], dark);
        }
        for (size_t who = 0; who < 2; who++) {
            tool_start(&tools[who], 0xFD, 0, &boards[who]);
            tool_change(&tools[who], who == 0 ? (const uint8_t[SEEN]){0, 0, 0, 0x01} : (const uint8_t[SEEN]){0, 0, 0, 0x80});
            CHECK(tools[who].count == 1);
        }
        for (size_t n = 0; n < 2; n++) {
            const size_t who = n == 0 ? first : 1 - first;
            const struct command plain = plain_write(&tools[who]);

            CHECK(tell(&boards[0], &tools[who].writes[0]).kind == BUJORELM_WRITTEN);
            CHECK(tell(&boards[1], who == 0 ? &tools[who].writes[0] : &plain).kind == BUJORELM_WRITTEN);
            CHECK(tell(&boards[2], &plain).kind == BUJORELM_WRITTEN);
        }
        CHECK(boards[0].memory[3] == 0x81);
        CHECK(boards[1].memory[3] == (first == 0 ? 0x80 : 0x81));
        CHECK(boards[2].memory[3] == (first == 0 ? 0x80 : 0x01));
    }
}

/* ---- Lists of writes, put together ---- */

/* A pair for each byte of memory. */
struct kept {
    struct bujorelm_pair pairs[DEMONSTRATION_MEMORY_SIZE];
};

/* Any write or masked write, with what it does put behind what is kept. What the board does not accept does nothing. */
static void random_write(struct board *board, struct kept *kept)
{
    static const uint8_t spaces[] = {0xFD, 0xFE, 0xFE, 0x10, 0xFF};
    const uint8_t space = spaces[random_below(sizeof spaces)];
    const uint32_t address = random_below(40) + (space == 0x10 ? 0x100 : 0);
    const bool masked = random_below(3) != 0;
    const size_t len = 2 + 2 * random_below(8);
    uint8_t bytes[16];
    struct command write;
    struct bujorelm_result result;

    random_bytes(bytes, sizeof bytes);
    if (masked) {
        bujorelm_compose_masked_write(space, address, bytes, len, write.bytes, sizeof write.bytes, lent_composed());
    } else {
        bujorelm_compose_write(space, address, bytes, len, write.bytes, sizeof write.bytes, lent_composed());
    }
    write.len = given_composed().len;
    result = tell(board, &write);
    CHECK(result.kind != BUJORELM_WRITTEN || result.changed_len == (masked ? len / 2 : len));
    for (size_t i = 0; result.kind == BUJORELM_WRITTEN && i < result.changed_len; i++) {
        struct bujorelm_pair *const pair = &kept->pairs[result.changed_at + i];
        const struct bujorelm_pair written = {masked ? bytes[2 * i] : 0xFF, masked ? bytes[2 * i + 1] : bytes[i]};

        *pair = put_together(*pair, written);
    }
}

/* Sends the pairs that are kept, as two masked writes, which are enough for all of memory. */
static void send_kept(struct board *board, const struct kept *kept)
{
    for (size_t start = 0; start < DEMONSTRATION_MEMORY_SIZE; start += REACH) {
        const size_t left = DEMONSTRATION_MEMORY_SIZE - start;
        const size_t count = left < REACH ? left : REACH;
        uint8_t pairs[2 * REACH];
        struct command write;

        for (size_t i = 0; i < count; i++) {
            pairs[2 * i] = kept->pairs[start + i].mask;
            pairs[2 * i + 1] = kept->pairs[start + i].data;
        }
        bujorelm_compose_masked_write(0xFE, (uint32_t)start, pairs, 2 * count, write.bytes, sizeof write.bytes, lent_composed());
        write.len = given_composed().len;
        CHECK(tell(board, &write).kind == BUJORELM_WRITTEN);
    }
}

/* Whatever writes a board accepts, they do to its memory what one pair for each byte does, and the board does that too when it is sent the pairs. */
static void random_lists(unsigned long count)
{
    for (unsigned long i = 0; i < count; i++) {
        uint8_t before[DEMONSTRATION_MEMORY_SIZE];
        struct kept kept = {{{0, 0}}};
        struct board board;
        struct board other;

        random_bytes(before, sizeof before);
        board_start(&board, before);
        board_start(&other, before);
        for (uint32_t writes = random_below(10); writes > 0; writes--) {
            random_write(&board, &kept);
        }
        send_kept(&other, &kept);
        CHECK(memcmp(board.memory, other.memory, sizeof board.memory) == 0);
        for (size_t n = 0; n < sizeof before; n++) {
            CHECK(board.memory[n] == changed_by(before[n], kept.pairs[n]));
        }
    }
}

int main(int argc, char **argv)
{
    const unsigned long count = argc > 1 ? strtoul(argv[1], NULL, 10) : ROUNDS;

    test_put_together();
    random_pairs(count);
    test_refusals();
    test_every_short_buffer();
    test_null();
    test_bounds();
    test_runs();
    test_overlap();
    random_images(count / 32);
    test_large_images();
    test_lamps();
    random_tools(count / 32);
    random_lists(count / 32);
    return check_result("tool_changes");
}
