/* The lit time of whole scripts from C: what a clock adds, blinking, refused records, runs that stop early, its numbers, and what stays. */
#include <string.h>
#include "linked.h"
#include "ratchetelm.h"

enum { LONGEST = 65536, ROOM = MAX6954_MOST_TOTALS + 1 };

/* A script that grows record by record, and the totals of it. */
static uint8_t script[LONGEST + 1];
static size_t length;
static uint64_t totals[ROOM];
static const uint64_t stays = 0xEEEEEEEEEEEEEEEE;

static void put(const void *bytes, size_t count)
{
    memcpy(script + length, bytes, count);
    length += count;
}

static void record(uint8_t kind, const void *body, size_t count)
{
    const uint8_t head[5] = { 0x5A, 0xC3, kind, (uint8_t)(count >> 8), (uint8_t)count };
    put(head, sizeof head);
    put(body, count);
}

static void chain(uint8_t n)
{
    length = 0;
    record(1, &n, 1);
}

/* An access of 16 clocks, whose word driver 1 takes. */
static void send(unsigned word)
{
    const uint8_t body[4] = { 0, 16, (uint8_t)(word >> 8), (uint8_t)word };
    record(2, body, sizeof body);
}

/* An access of a chain of two. */
static void send_both(unsigned first, unsigned second)
{
    const uint8_t body[6] = { 0, 32, (uint8_t)(second >> 8), (uint8_t)second, (uint8_t)(first >> 8), (uint8_t)first };
    record(2, body, sizeof body);
}

static void clocks(uint8_t driver, uint32_t count)
{
    const uint8_t body[5] = { driver, (uint8_t)(count >> 24), (uint8_t)(count >> 16), (uint8_t)(count >> 8), (uint8_t)count };
    record(5, body, sizeof body);
}

static max6954_lit_time_answer asked(const uint8_t *from, size_t room)
{
    for (size_t k = 0; k < ROOM; k++)
        totals[k] = stays;
    return max6954_lit_time(from, length, totals, room);
}

/* Whether the totals from one on stay. */
static int kept(size_t from)
{
    int all = 1;
    for (size_t k = from; k < ROOM; k++)
        all = all && totals[k] == stays;
    return all;
}

/* Whether the script is served with so many drivers, and the room after their totals stays. */
static int served(size_t drivers)
{
    const max6954_lit_time_answer a = asked(script, MAX6954_MOST_TOTALS);
    return a.number == 0 && a.drivers == drivers && kept(MAX6954_CATHODES * drivers);
}

/* Whether a driver has this total for cathode 0, and that for each of the others. */
static int has(size_t driver, uint64_t first, uint64_t others)
{
    const uint64_t *own = totals + MAX6954_CATHODES * (driver - 1);
    int all = own[0] == first;
    for (int c = 1; c < MAX6954_CATHODES; c++)
        all = all && own[c] == others;
    return all;
}

/* Whether a chain of one that takes these words in turn adds so much at each of 10 clocks. */
static int adds(const uint16_t *words, size_t count, uint64_t first, uint64_t others)
{
    chain(1);
    for (size_t k = 0; k < count; k++)
        send(words[k]);
    clocks(1, 10);
    return served(1) && has(1, 10 * first, 10 * others);
}

#define ADDS(first, others, ...) adds((const uint16_t[]){ __VA_ARGS__ }, sizeof((const uint16_t[]){ __VA_ARGS__ }) / 2, first, others)

static void clock_by_clock(void)
{
    holds("in shutdown a clock adds nothing", ADDS(0, 0, 0x0000));
    holds("a pair in the hex font at power-up shows 0 twice", ADDS(12, 12, 0x0401));
    holds("a cathode above the scan limit adds nothing", ADDS(12, 0, 0x0401, 0x0300));
    holds("segments count with the global sixteenths, at most 15", ADDS(120, 120, 0x0401, 0x0209) && ADDS(180, 180, 0x0401, 0x020F));
    holds("each digit of a pair with its own", ADDS(6 * 3 + 6 * 10, 12, 0x0441, 0x1002, 0x1409));
    holds("a point is a segment, and 10 is blank", ADDS(8, 12, 0x0401, 0x2088, 0x2810));
    holds("without the hex font each bit is one", ADDS(8 + 2, 1, 0x0401, 0x0100, 0x20FF, 0x2803));
    holds("14 segments show the test table and the point, and no second digit", ADDS(9, 12, 0x0401, 0x0C01, 0x20B3, 0x28FF));
    holds("bits 14 and 10 light none of them", ADDS(2, 12, 0x0401, 0x0C01, 0x2044));
    holds("display test lights all at 7 sixteenths, also in shutdown", ADDS(15 * 7, 16 * 7, 0x0701, 0x0C01, 0x0300));
}

/* A chain of one whose cathode 0 alone shines: 8 in P0, seven segments, and 1 in P1, two. */
static void blinking(unsigned configuration)
{
    static const uint16_t words[] = { 0x0300, 0x6810, 0x2008, 0x4001 };
    chain(1);
    for (size_t k = 0; k < sizeof words / sizeof words[0]; k++)
        send(words[k]);
    send(configuration);
}

/* Whether clocks, and then more, add so many in the P0 phase and so many in the P1 phase. */
static int blinked(unsigned configuration, uint32_t before, uint32_t more, uint64_t p0, uint64_t p1)
{
    blinking(configuration);
    clocks(1, before);
    clocks(1, more);
    return served(1) && has(1, 7 * p0 + 2 * p1, 0);
}

static void phases(void)
{
    holds("without blinking P0 is shown", blinked(0x0401, 3000000, 1, 3000001, 0));
    holds("the clock at 1,999,999 counts before it is added", blinked(0x0409, 1999999, 1, 2000000, 0) && blinked(0x0409, 2000000, 1, 2000000, 1));
    holds("and that at 3,999,999", blinked(0x0409, 3999999, 1, 2000000, 2000000) && blinked(0x0409, 4000000, 1, 2000001, 2000000));
    holds("phases change inside one record", blinked(0x0409, 0, 5000000, 3000000, 2000000) && blinked(0x040D, 1500001, 0, 1000000, 500001));
    holds("4,294,967,295 clocks in one record", blinked(0x0409, UINT32_MAX, 0, 2148000000, 2146967295));
    blinking(0x0408);
    clocks(1, 2000000);
    send(0x0409);
    clocks(1, 5);
    holds("clocks in shutdown move the phase", served(1) && has(1, 2 * 5, 0));
    send(0x0419);
    clocks(1, 5);
    holds("and T sets it back", served(1) && has(1, 2 * 5 + 7 * 5, 0));
}

/* Two drivers in normal operation, of which driver 2 is given 10 clocks. */
static void lit(void)
{
    chain(2);
    send_both(0x0401, 0x0401);
    clocks(2, 10);
}

static int two(void)
{
    return served(2) && has(1, 0, 0) && has(2, 120, 120);
}

/* Whether these bytes end the run, so that the clocks after them don't count. */
static int ends(const void *bytes, size_t count)
{
    lit();
    put(bytes, count);
    clocks(2, 1000);
    return two();
}

static void runs(void)
{
    lit();
    holds("a driver has its own clocks", two());
    clocks(0, 1000);
    clocks(3, 1000);
    record(2, "\x10\x01", 2);
    record(2, "\x00\x20\x04\x00\x04", 5);
    record(4, "\x02\x20", 2);
    record(6, "\x02\x08", 2);
    holds("refused records add nothing", two());
    clocks(2, 1);
    clocks(1, 1);
    holds("and the run goes on", served(2) && has(1, 12, 12) && has(2, 132, 132));
    int stops = ends("\x5A\xC2\x05\x00\x05\x02\x00\x00\x00\x01", 10) && ends("\x5A\xC3\x07\x00\x02\x02\x00", 7) && ends("\x5A", 1);
    stops = stops && ends("\x5A\xC3\x05\x00\x04\x02\x00\x00\x01", 9) && ends("\x5A\xC3\x02\x00\x01\x10", 6);
    holds("what isn't a record ends it, and what ran counts", stops);
    holds("so does a chain record that isn't first, of any length", ends("\x5A\xC3\x01\x00\x01\x02", 6) && ends("\x5A\xC3\x01\x00\x01\x00", 6));
    lit();
    clocks(2, 1000);
    int cut = 1;
    for (int k = 0; k < 10; k++) {
        length--;
        cut = cut && two();
    }
    holds("and a record that is cut", cut);
}

/* Whether the chain is of 4, and no clock was given. */
static int four(const uint8_t *from)
{
    const max6954_lit_time_answer a = asked(from, MAX6954_MOST_TOTALS);
    int none = a.number == 0 && a.drivers == 4 && kept(4 * MAX6954_CATHODES);
    for (size_t driver = 1; driver <= 4; driver++)
        none = none && has(driver, 0, 0);
    return none;
}

static void assumed(void)
{
    length = 0;
    holds("an empty script is of a chain of 4, NULL or not", four(NULL) && four(script));
    put("\x5A\xC3\x01\x00\x02\x02\x02", 7);
    holds("so is one whose first record is malformed", four(script));
    length = 0;
    record(2, "\x00\x40\x04\x01\x00\x00\x00\x00\x04\x01", 10);
    clocks(4, 2);
    clocks(5, 1000);
    holds("and one that begins with another", served(4) && has(1, 0, 0) && has(2, 0, 0) && has(3, 0, 0) && has(4, 24, 24));
}

/* Whether a script is refused with this number: no driver is named, and no total changes. */
static int refused(size_t room, int number)
{
    const max6954_lit_time_answer a = asked(script, room);
    return a.number == number && a.drivers == 0 && kept(0);
}

/* A script of a chain of so many, with a clock to driver 1, filled up to a length. */
static void filled(uint8_t n, size_t size)
{
    chain(n);
    send(0x0401);
    clocks(1, 1);
    memset(script + length, 0, sizeof script - length);
    if (length < size)
        length = size;
}

static void refusals(void)
{
    filled(17, LONGEST + 1);
    holds("9: 65,537 bytes, before 1 and 5", refused(0, 9) && refused(MAX6954_MOST_TOTALS, 9));
    filled(17, LONGEST);
    holds("1: a chain of 17, before 5", refused(0, 1) && refused(MAX6954_MOST_TOTALS, 1));
    filled(0, 0);
    int one = refused(MAX6954_MOST_TOTALS, 1);
    filled(255, 0);
    holds("1: of 0, and of 255", one && refused(7, 1));
    filled(1, 0);
    holds("5: room under 8 totals a driver", refused(7, 5) && refused(0, 5) && max6954_lit_time(script, length, NULL, 0).number == 5);
    filled(16, 0);
    holds("5: 127 totals for 16 drivers", refused(MAX6954_MOST_TOTALS - 1, 5));
    const max6954_lit_time_answer most = asked(script, MAX6954_MOST_TOTALS);
    holds("and 128 suffice", most.number == 0 && most.drivers == 16 && has(1, 12, 12) && has(16, 0, 0) && kept(MAX6954_MOST_TOTALS));
    filled(1, LONGEST);
    const max6954_lit_time_answer least = asked(script, MAX6954_CATHODES);
    holds("65,536 bytes are served, with room for 8", least.number == 0 && least.drivers == 1 && has(1, 12, 12) && kept(MAX6954_CATHODES));
    length = 0;
    holds("5: 31 totals for a chain that is assumed", refused(31, 5));
}

/* As many clocks as a script has room for, each record with the most: totals above 32 bits add up. */
static void most(void)
{
    chain(1);
    send(0x0701);
    uint64_t given = 0;
    while (length + 10 <= LONGEST)
        clocks(1, UINT32_MAX), given += UINT32_MAX;
    holds("the largest total", served(1) && has(1, 16 * 7 * given, 16 * 7 * given) && given / UINT32_MAX == 6552);
}

int main(void)
{
    clock_by_clock();
    phases();
    runs();
    assumed();
    refusals();
    most();
    return counted();
}
