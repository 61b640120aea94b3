/* The look back at a plane byte from C: what writes it, what clears it, what leaves it, its numbers, and lists of any length. */
#include <stdlib.h>
#include <string.h>
#include "linked.h"
#include "ratchetelm.h"

enum { DRIVERS = 3, DRIVER = 2, LONG = 1000000 };

/* Planes whose bytes differ: P0's from 0x80 on, P1's from 0xA0 on, 0x10 more for each driver before. */
static max6954_device chain[17], records[17];

static void fresh(void)
{
    for (int i = 0; i < 17; i++) {
        chain[i] = max6954_power_up();
        for (int d = 0; d < 16; d++) {
            chain[i].registers.planes.p0[d] = (uint8_t)(0x70 + 0x10 * i + d);
            chain[i].registers.planes.p1[d] = (uint8_t)(0x90 + 0x10 * i + d);
        }
    }
    memcpy(records, chain, sizeof chain);
}

/* Whether a look back gives this number and byte, and changes no record. */
static int gives(size_t n, size_t driver, size_t plane, size_t digit, const uint16_t *words, size_t length, int number, int byte)
{
    const max6954_look_back_answer a = max6954_look_back(chain, n, driver, plane, digit, words, length);
    return a.number == number && a.byte == byte && memcmp(records, chain, sizeof chain) == 0;
}

/* Whether digit 3 of the driver has these bytes in its planes after the words. */
static int after(const uint16_t *words, size_t length, int p0, int p1)
{
    return gives(DRIVERS, DRIVER, 0, 3, words, length, 0, p0) && gives(DRIVERS, DRIVER, 1, 3, words, length, 0, p1);
}

#define AFTER(p0, p1, ...) after((const uint16_t[]){ __VA_ARGS__ }, sizeof((const uint16_t[]){ __VA_ARGS__ }) / 2, p0, p1)

static void bytes(void)
{
    fresh();
    int held = 1;
    for (size_t d = 0; d < 16; d++)
        held = held && gives(DRIVERS, DRIVER, 0, d, NULL, 0, 0, (int)(0x80 + d)) && gives(DRIVERS, DRIVER, 1, d, NULL, 0, 0, (int)(0xA0 + d));
    holds("no word: the byte in the record of the driver that is named", held);
    holds("a write to its plane", AFTER(0x11, 0xA3, 0x2311) && AFTER(0x83, 0x11, 0x4311));
    holds("a write to both planes", AFTER(0x11, 0x11, 0x6311));
    holds("the last write counts", AFTER(0x22, 0x33, 0x6311, 0x2322, 0x4333) && AFTER(0x11, 0x11, 0x2322, 0x4333, 0x6311));
    holds("a configuration write with R clears", AFTER(0, 0, 0x6311, 0x0420) && AFTER(0, 0, 0x04FF) && AFTER(0, 0x44, 0x0421, 0x4344));
    holds("one without R doesn't", AFTER(0x83, 0xA3, 0x04DF) && AFTER(0x11, 0x11, 0x6311, 0x0400));
    holds("a read doesn't, whatever its data", AFTER(0x83, 0xA3, 0xA311, 0xC311, 0xE311, 0x84FF));
    holds("writes to other digits don't", AFTER(0x83, 0xA3, 0x2211, 0x2411, 0x4211, 0x4411, 0x6211, 0x6411, 0x2B11, 0x4B11, 0x6B11));
    holds("nor do those to other registers", AFTER(0x83, 0xA3, 0x0311, 0x0520, 0x1311, 0x3311, 0x5311, 0x7311));
}

static void refusals(void)
{
    static const uint16_t word[1] = { 0x6377 };
    fresh();
    chain[2].registers.controls.limit = 8;
    memcpy(records, chain, sizeof chain);
    holds("1: no record, or seventeen, before 2", max6954_look_back(NULL, 0, 0, 2, 16, word, 1).number == 1 && gives(17, 18, 2, 16, word, 1, 1, 0));
    holds("2: driver 0, or 4 of 3, before 6", gives(3, 0, 2, 16, word, 1, 2, 0) && gives(3, 4, 2, 3, word, 1, 2, 0));
    holds("6: a plane above 1, before 7", gives(3, 2, 2, 3, word, 1, 6, 0) && gives(3, 2, SIZE_MAX, 3, word, 1, 6, 0));
    holds("6: a digit above 15, before 7", gives(3, 2, 0, 16, word, 1, 6, 0) && gives(3, 2, 1, SIZE_MAX - 12, word, 1, 6, 0));
    holds("7: an unsound record, whichever driver is named", gives(3, 2, 0, 3, word, 1, 7, 0) && gives(3, 2, 1, 15, NULL, 0, 7, 0));
    holds("and where it isn't in the chain, served", gives(2, 2, 0, 3, word, 1, 0, 0x77));
}

/* A list of 1,000,000 words with the answer at either end, or with none. */
static void long_list(void)
{
    uint16_t *words = malloc(LONG * sizeof *words);
    fresh();
    for (size_t i = 0; words && i < LONG; i++)
        words[i] = (uint16_t)(0x6400 + (i & 255));
    holds("1,000,000 words that leave the byte", words && after(words, LONG, 0x83, 0xA3));
    if (words)
        words[0] = 0x6355;
    holds("and with the answer at their front", words && after(words, LONG, 0x55, 0x55));
    if (words)
        words[LONG - 1] = 0x6366;
    holds("and at their end", words && after(words, LONG, 0x66, 0x66));
    free(words);
}

int main(void)
{
    bytes();
    refusals();
    long_list();
    return counted();
}
