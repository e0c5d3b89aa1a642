/*
 * Settings that outlast a power cut, in two pages that are written by turns. A page is good where its check says so,
 * and of two good ones the later counts. So while one is being written the other is whole, at whatever moment power
 * fails.
 *
 * The memory is emulated: on the machine mps2-an385 it is RAM that keeps its bytes through a reset, and through a power
 * cut where qemu has it in a file (docs/FIRMWARE.md). page_write is what a real chip's flash or EEPROM takes the place
 * of; it takes as long as one of those.
 */
#include "board.h"

#define WRITE_MILLISECONDS 4u

/* A page: the number of the writing that it comes from, the settings, and the check of both. */
struct page {
    uint32_t number;
    uint8_t settings[SETTINGS_SIZE];
    uint32_t check;
};

/* From the linker script. */
extern volatile struct page settings_pages[2];

/* The check of a page: CRC-32 of all that is in front of it. A page of zeros or ones, as a chip has them that was never
   written, is not good. */
static uint32_t check_of(const struct page *page)
{
    const uint8_t *const bytes = (const uint8_t *)page;
    uint32_t crc = 0xFFFFFFFFu;

    for (size_t i = 0; i < offsetof(struct page, check); i++) {
        crc ^= bytes[i];
        for (int bit = 0; bit < 8; bit++) {
            crc = crc >> 1 ^ (0xEDB88320u & (0u - (crc & 1u)));
        }
    }
    return ~crc;
}

static void page_read(uint32_t index, struct page *page)
{
    const volatile uint8_t *const from = (const volatile uint8_t *)&settings_pages[index];

    for (size_t i = 0; i < sizeof *page; i++) {
        ((uint8_t *)page)[i] = from[i];
    }
}

/* The hardware: writes a page and waits until it is written; false where that fails. */
static bool page_write(uint32_t index, const struct page *page)
{
    volatile uint8_t *const to = (volatile uint8_t *)&settings_pages[index];
    const uint32_t from = clock_now();

    for (size_t i = 0; i < sizeof *page; i++) {
        to[i] = ((const uint8_t *)page)[i];
    }
    while (clock_now() - from < WRITE_MILLISECONDS) {
    }
    return true;
}

/* Reads the page that counts, and returns its index; 2 where none is good. */
static uint32_t newest(struct page *page)
{
    struct page other;
    bool good;
    bool other_good;

    page_read(0, page);
    page_read(1, &other);
    good = page->check == check_of(page);
    other_good = other.check == check_of(&other);
    if (other_good && (!good || other.number - page->number < 0x80000000u)) {
        *page = other;
        return 1;
    }
    return good ? 0 : 2;
}

void settings_load(uint8_t *settings)
{
    struct page page;
    const bool is_there = newest(&page) < 2;

    for (size_t i = 0; i < SETTINGS_SIZE; i++) {
        settings[i] = is_there ? page.settings[i] : 0;
    }
}

bool settings_store(const uint8_t *settings)
{
    struct page page;
    struct page written;
    const uint32_t index = newest(&page);

    page.number = index < 2 ? page.number + 1u : 0;
    for (size_t i = 0; i < SETTINGS_SIZE; i++) {
        page.settings[i] = settings[i];
    }
    page.check = check_of(&page);
    if (!page_write(index == 0 ? 1 : 0, &page)) {
        return false;
    }
    page_read(index == 0 ? 1 : 0, &written);
    return written.number == page.number && written.check == page.check && check_of(&written) == page.check;
}
