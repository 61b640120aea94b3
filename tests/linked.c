/* The exported calls from C: bench examples on a chain, each number with nothing changed, what a driver shows, brightness, answer marks, and plans. */
#include <stddef.h>
#include <string.h>
#include "../bench/records.h"
#include "linked.h"

static max6954_device chain[17];
static uint8_t answer[600];

static void fresh(void)
{
    for (int i = 0; i < 17; i++)
        chain[i] = max6954_power_up();
    memset(answer, 0xEE, sizeof answer);
}

/* An access with just the bytes to send that it needs, and room for more. */
static int sent(size_t n, size_t clocks, const char *bytes)
{
    return max6954_access(chain, n, clocks, (const uint8_t *)bytes, (clocks + 7) / 8, answer, sizeof answer);
}

/* The answer has these bytes, and the bytes after it stay. */
static int answered(const char *bytes, size_t count)
{
    int kept = memcmp(answer, bytes, count) == 0;
    for (size_t i = count; i < sizeof answer; i++)
        kept = kept && answer[i] == 0xEE;
    return kept;
}

static void examples(void)
{
    fresh();
    int one = sent(1, 16, "\x04\x01") == 0 && answered("\x00\x00", 2);
    one = one && sent(1, 16, "\x84\x00") == 0 && answered("\x04\x01", 2);
    holds("example 1: 0000, 0401, 8481", one && sent(1, 16, "\x00\x00") == 0 && answered("\x84\x81", 2));
    fresh();
    int two = sent(1, 17, "\x81\x01\xFF") == 0 && chain[0].registers.controls.global == 3;
    holds("example 2: 17 clocks, global intensity 3; spare bits sent are ignored, answered 0", two && answered("\x00\x00\x80", 3));
    chain[0].registers.controls.global = 9;
    int three = max6954_access(chain, 1, 0, NULL, 0, NULL, 0) == 0;
    holds("example 3: 0 clocks, 0203 again", three && chain[0].shift == 0x0203 && chain[0].registers.controls.global == 3);
    fresh();
    int four = sent(2, 32, "\x00\x00\x03\x03") == 0 && chain[0].registers.controls.limit == 3;
    holds("example 4: 32 clocks to two drivers", four && chain[1].registers.controls.limit == 7 && chain[1].shift == 0);
    fresh();
    int five = sent(2, 16, "\x03\x05") == 0 && chain[0].registers.controls.limit == 5 && chain[0].shift == 0x0305;
    holds("example 5: 16 clocks to two drivers", five && chain[1].shift == 0 && chain[1].registers.controls.limit == 7);
    static char bytes[513];
    fresh();
    memset(bytes, 2, sizeof bytes);
    int long_access = sent(16, 4096, bytes) == 0 && chain[15].registers.controls.global == 2 && answer[31] == 0 && answer[32] == 2 && answer[512] == 0xEE;
    holds("example 12: 4,096 clocks to sixteen drivers are served, 4,097 give 3", long_access && sent(16, 4097, bytes) == 3);
}

/* Whether no pin of a segment answer is driven. */
static int undriven(max6954_segment_answer s)
{
    int none = 1;
    for (int i = 0; i < 19; i++)
        none = none && s.pins[i] == MAX6954_NOT_DRIVEN;
    return none;
}

static max6954_device records[17];
static uint8_t room[600];

static void remember(void)
{
    memcpy(records, chain, sizeof chain);
    memcpy(room, answer, sizeof answer);
}

/* A call gave its number, and changed no record and no answer byte. */
static void refused(const char *what, int number, int given)
{
    holds(what, number == given && memcmp(records, chain, sizeof chain) == 0 && memcmp(room, answer, sizeof answer) == 0);
}

static void refusals(void)
{
    static uint8_t bytes[600], plane[16];
    static uint16_t font[128];
    fresh();
    remember();
    refused("1: no record", 1, max6954_access(NULL, 0, 4097, NULL, 0, NULL, 0));
    refused("1: seventeen records", 1, max6954_scan(chain, 17, 18, 1, 1, 1, 1));
    refused("2: driver 0", 2, max6954_set_pins(chain, 3, 0, 32));
    refused("2: driver 4 of 3", 2, max6954_add_clocks(chain, 3, 4, 1));
    refused("3: 4,097 clocks", 3, max6954_access(chain, 3, 4097, bytes, 0, answer, 0));
    refused("4: sent bytes too few", 4, max6954_access(chain, 3, 17, bytes, 2, answer, 2));
    refused("5: room too small", 5, max6954_access(chain, 3, 17, bytes, 3, answer, 2));
    refused("6: pin levels of 32", 6, max6954_set_pins(chain, 3, 1, 32));
    refused("6: cathode 8", 6, max6954_segments(chain, 3, 1, 8, font, 128, font, 128).number);
    refused("6: a table of 127", 6, max6954_segments(chain, 3, 1, 0, font, 128, font, 127).number);
    refused("6: digit 16", 6, max6954_brightness(chain, 3, 1, 16).number);
    refused("6: last digit below the first", 6, max6954_plane_number(chain, 3, 1, plane, 16, plane, 16, 5, 4));
    chain[2].registers.controls.limit = 8;
    remember();
    refused("7: an unsound record, whichever driver is named", 7, max6954_interrupt(chain, 3, 1).number);
    refused("7: an unsound record, in a part", 7, max6954_plane_shown(chain, 3, 1, plane, 16, plane, 16, 0, 15).number);
    refused("7: an unsound record, in an access", 7, max6954_access(chain, 3, 48, bytes, 6, answer, 6));
    chain[0].answer_mark = 1;
    int zero = max6954_shown(chain, 3, 1).plane == 0;
    zero = zero && max6954_interrupt(chain, 3, 1).raised == 0 && max6954_answer_mark(chain, 3, 1).mark == 0;
    holds("a refused answer holds 0 and drives no pin", zero && undriven(max6954_segments(chain, 3, 1, 0, font, 128, font, 128)));
    fresh();
    chain[2].answer_mark = 2;
    remember();
    refused("7: an answer mark of 2", 7, max6954_answer_mark(chain, 3, 1).number);
}

/* Document 01's table of numbers, and document 02's 10 to 14. */
static void words(void)
{
    static const char *const table[] = {
        "served",
        "the chain has 0 or more than 16 records",
        "driver number not in 1..n",
        "more than 4,096 clocks in one access",
        "sent bytes fewer than the clocks need",
        "room for answer bytes fewer than the clocks need",
        ("cathode above 7, pin levels above 31 (over 28 bits for a MAX6957), a digit (alone or in a range) above 15, a plane above 1, "
         "a range's last digit below its first, a lent plane not 16 long, or a glyph table not 128 long"),
        "some record of the chain isn't sound, or the bus state isn't",
        "script: wrong mark, unknown kind, cut record, length not fitting its kind, or a chain record that isn't first",
        "script longer than 65,536 bytes",
        "two parts with one address",
        "address above 127",
        "wanted planes not 32 bytes a driver",
        "room for the list too small for the shortest",
        ("a family number unknown in some record, or a call that the named driver, or for the planner, its check and the two-wire bus any driver, "
         "lacks"),
    };
    int alike = 1;
    for (int i = 0; i < 15; i++)
        alike = alike && strcmp(max6954_refusal_text((uint8_t)i), table[i]) == 0;
    holds("each number has its words", alike);
    holds("a number that isn't given has words too", strcmp(max6954_refusal_text(15), max6954_refusal_text(255)) == 0 && strlen(max6954_refusal_text(15)) > 0);
}

static const uint8_t p0[16] = { 0, 1, 2, 3 }, p1[16] = { 9, 8, 7, 6 };

/* Whether a driver's part has this number and is of this plane, by each call that says so. */
static int part_of(size_t driver, size_t first, size_t last, int number, int plane)
{
    const max6954_shown_answer of = max6954_plane_shown(chain, 2, driver, p0, 16, p1, 16, first, last);
    const uint8_t *part = number ? NULL : (plane ? p1 : p0) + first;
    return of.number == number && of.plane == plane && max6954_plane_number(chain, 2, driver, p0, 16, p1, 16, first, last) == number &&
           max6954_plane(chain, 2, driver, p0, 16, p1, 16, first, last) == part;
}

static void questions(void)
{
    static uint16_t font[128];
    fresh();
    /* driver 2: normal operation, blinking slowly; digit 0 is an A with its point */
    int served = sent(2, 32, "\x04\x09\x00\x00") == 0 && sent(2, 32, "\x60\x8A\x00\x00") == 0;
    static const uint8_t pins[19] = { 1, 0, 2, 4, 2, 2, 3, 2, 2, 2, 2, 2, 2, 2, 2, 2, 2, 3, 3 };
    max6954_segment_answer s = max6954_segments(chain, 2, 2, 0, font, 128, font, 128);
    holds("segments: A with its point on cathode 0", served && s.number == 0 && memcmp(s.pins, pins, 19) == 0);
    max6954_segment_answer dark = max6954_segments(chain, 2, 1, 0, font, 128, font, 128);
    holds("segments: a driver in shutdown is dark", dark.number == 0 && undriven(dark));
    static uint16_t lit[128];
    memset(lit, 0xFF, sizeof lit);
    int types = sent(2, 32, "\x0C\x01\x00\x00") == 0;
    types = types && max6954_segments(chain, 2, 2, 0, lit, 128, font, 128).pins[2] == MAX6954_LIT && max6954_segments(chain, 2, 2, 0, font, 128, lit, 128).pins[2] == MAX6954_UNLIT;
    chain[1].fitted = 0;
    types = types && sent(2, 32, "\x0C\x00\x00\x00") == 0 && max6954_segments(chain, 2, 2, 0, lit, 128, font, 128).pins[2] == MAX6954_UNLIT;
    holds("segments: the first table is for 14 segments, the second for 16", types && max6954_segments(chain, 2, 2, 0, font, 128, lit, 128).pins[2] == MAX6954_LIT);
    holds("the plane shown is P0 before 2,000,000 clocks", part_of(2, 1, 2, 0, 0));
    int later = max6954_add_clocks(chain, 2, 2, 2000000) == 0 && max6954_shown(chain, 2, 2).plane == 1;
    holds("and P1 after them", later && part_of(2, 1, 2, 0, 1));
    holds("a refused part is NULL, of plane 0", part_of(3, 1, 2, 2, 0) && part_of(2, 2, 1, 6, 0) && part_of(2, 1, 16, 6, 0));
    /* group A configured, key 0 masked: two scans debounce it */
    int keyed = sent(2, 32, "\x06\x20\x00\x00") == 0 && sent(2, 32, "\x08\x01\x00\x00") == 0;
    keyed = keyed && max6954_scan(chain, 2, 2, 1, 0, 0, 0) == 0 && max6954_interrupt(chain, 2, 2).raised == 0;
    holds("the interrupt is raised at the second scan",
          keyed && max6954_scan(chain, 2, 2, 1, 0, 0, 0) == 0 && max6954_interrupt(chain, 2, 2).raised == 1);
    int read = sent(2, 32, "\x88\x00\x00\x00") == 0 && answered("\x08\x01\x00\x00", 4) && max6954_interrupt(chain, 2, 2).raised == 0;
    holds("a read's answer comes out in the next access", read && sent(2, 32, "\x00\x00\x00\x00") == 0 && answered("\x88\x01\x00\x00", 4));
    int pins_given = max6954_set_pins(chain, 2, 2, 31) == 0;
    holds("pin levels replace the driver's own", pins_given && chain[1].registers.pins == 31 && chain[0].registers.pins == 0);
}

/* Whether driver 2 gives this brightness, served, to a digit and to its "a" digit. */
static int bright(size_t digit, int sixteenths, int of_a, int ruler)
{
    const max6954_brightness_answer b = max6954_brightness(chain, 2, 2, digit), a = max6954_brightness(chain, 2, 2, digit + 8);
    return b.number == 0 && a.number == 0 && b.sixteenths == sixteenths && a.sixteenths == of_a && b.ruler == ruler && a.ruler == ruler;
}

/* Whether a brightness is refused with this number, holds 0 and names none. */
static int not_bright(int number, size_t n, size_t driver, size_t digit)
{
    const max6954_brightness_answer b = max6954_brightness(chain, n, driver, digit);
    return b.number == number && b.sixteenths == 0 && b.ruler == MAX6954_RULED_BY_NONE;
}

static void brightness(void)
{
    enum { GLOBAL = MAX6954_RULED_BY_GLOBAL, OWN = MAX6954_RULED_BY_OWN, TEST = MAX6954_RULED_BY_TEST };
    fresh();
    holds("brightness: 0 in shutdown, which the global register would rule", bright(0, 0, 0, GLOBAL) && bright(7, 0, 0, GLOBAL));
    holds("or the digit's own nibble where I=1", sent(2, 32, "\x04\x40\x00\x00") == 0 && bright(0, 0, 0, OWN) && bright(7, 0, 0, OWN));
    int test = sent(2, 32, "\x07\x01\x00\x00") == 0 && bright(0, 7, 7, TEST);
    test = test && sent(2, 32, "\x04\x00\x00\x00") == 0 && bright(7, 7, 7, TEST);
    holds("display test rules in shutdown, whatever I is", test && sent(2, 32, "\x07\x00\x00\x00") == 0);
    int global = sent(2, 32, "\x04\x01\x00\x00") == 0 && bright(0, 1, 1, GLOBAL);
    global = global && sent(2, 32, "\x02\x0E\x00\x00") == 0 && bright(3, 15, 15, GLOBAL);
    holds("global nibbles 0, E and F are 1, 15 and 15", global && sent(2, 32, "\x02\x0F\x00\x00") == 0 && bright(7, 15, 15, GLOBAL));
    /* digits 0 and 1 have nibbles 0 and E, 0a and 1a have F and 1 */
    int own = sent(2, 32, "\x04\x41\x00\x00") == 0 && sent(2, 32, "\x10\xE0\x00\x00") == 0 && sent(2, 32, "\x14\x1F\x00\x00") == 0;
    holds("and so are a digit's own", own && bright(0, 1, 15, OWN) && bright(1, 15, 2, OWN));
    int limited = sent(2, 32, "\x03\x00\x00\x00") == 0 && bright(0, 1, 15, OWN) && bright(1, 0, 0, OWN);
    chain[1].fitted = 0;
    limited = limited && bright(0, 1, 15, OWN) && bright(1, 0, 0, OWN);
    holds("above the scan limit both digits of a cathode have 0, in a pair and in 16 segments", limited);
    holds("and 7 in display test", sent(2, 32, "\x07\x01\x00\x00") == 0 && bright(1, 7, 7, TEST));
    int none = not_bright(1, 0, 1, 0) && not_bright(2, 2, 3, 0) && not_bright(6, 2, 2, 16);
    chain[0].registers.controls.limit = 8;
    holds("a refused one holds 0 and names none", none && not_bright(7, 2, 2, 0));
}

/* Whether the answer marks of two drivers are these. */
static int marked(int first, int second)
{
    const max6954_mark_answer a = max6954_answer_mark(chain, 2, 1), b = max6954_answer_mark(chain, 2, 2);
    return a.number == 0 && b.number == 0 && a.mark == first && b.mark == second;
}

static void answer_marks(void)
{
    fresh();
    holds("answer mark: 0 at power-up", marked(0, 0));
    holds("a read sets the mark of the driver that takes it", sent(2, 32, "\x84\x00\x04\x01") == 0 && marked(0, 1));
    holds("and so does one of an unlisted address", sent(2, 32, "\x84\x00\xFF\x00") == 0 && marked(1, 1));
    int other = max6954_scan(chain, 2, 2, 1, 1, 1, 1) == 0 && max6954_set_pins(chain, 2, 2, 1) == 0 && max6954_add_clocks(chain, 2, 2, 1) == 0;
    holds("a refused access and the other calls leave it", other && max6954_access(chain, 2, 32, NULL, 0, answer, 4) == 4 && marked(1, 1));
    holds("16 clocks: a write clears driver 1's, and driver 2 takes the read that driver 1 had", sent(2, 16, "\x04\x01") == 0 && marked(0, 1));
    holds("16 more clear driver 2's", sent(2, 16, "\x00\x00") == 0 && marked(0, 0));
    int read = sent(2, 32, "\x84\x00\x00\x00") == 0;
    chain[0].answer_mark = 1;
    chain[1].answer_mark = 0;
    holds("0 clocks decide it afresh", read && max6954_access(chain, 2, 0, NULL, 0, NULL, 0) == 0 && marked(0, 1));
}

enum { GUARD = 0xEEEE, WANTED = MAX6954_WANTED_SIZE, MOST = MAX6954_MOST_ACCESSES };

/* Wanted planes, and room for a list with guard words around it. */
static uint8_t wanted[16 * WANTED];
static uint16_t lent[1 + 16 * MOST + 1], *const list = lent + 1;

/* Sets the guards, and wants the planes that the drivers have. */
static void fresh_plan(size_t n)
{
    for (size_t i = 0; i < sizeof lent / sizeof lent[0]; i++)
        lent[i] = GUARD;
    for (size_t i = 0; i < n; i++) {
        memcpy(wanted + WANTED * i, chain[i].registers.planes.p0, 16);
        memcpy(wanted + WANTED * i + 16, chain[i].registers.planes.p1, 16);
    }
    remember();
}

/* Three drivers. The first needs a digit in both planes and one in P1, the second is best cleared before its one digit, and to the third, which has
   one byte to become 0, a clear saves nothing. */
static void fresh_three(void)
{
    fresh();
    chain[1].registers.config = (max6954_config){ 1, 1, 1, 1 };
    memset(&chain[2].registers.planes, 0, sizeof chain[2].registers.planes);
    chain[2].registers.planes.p0[4] = 1;
    fresh_plan(3);
    wanted[9] = wanted[16 + 9] = 0x7F;
    wanted[16 + 15] = 3;
    memset(wanted + WANTED, 0, 2 * WANTED);
    wanted[WANTED + 2] = 1;
    wanted[WANTED + 16 + 2] = 2;
}

static const uint16_t three[9] = { 0x697F, 0x046D, 0x2400, 0x4F03, 0x2201, 0, 0, 0x4202, 0 };

/* Whether a plan gives this number and so many accesses, and changes no record and no word but those of the list. */
static int planned(size_t n, size_t length, size_t space, int number, size_t accesses)
{
    const max6954_plan_answer a = max6954_plan(chain, n, wanted, length, list, space);
    int all = a.number == number && a.accesses == accesses && lent[0] == GUARD && memcmp(records, chain, sizeof chain) == 0;
    for (size_t i = n * accesses; i <= 16 * MOST; i++)
        all = all && list[i] == GUARD;
    return all;
}

/* Sends the list access by access. Then each driver has the wanted planes, and all else but its shift word as before. */
static int redraws(size_t n, size_t accesses)
{
    uint8_t bytes[2 * 16];
    int all = 1;
    remember();
    for (size_t k = 0; k < accesses; k++) {
        all = all && max6954_plan_bytes(n, list, n * accesses, k, bytes, sizeof bytes) == 0;
        all = all && max6954_access(chain, n, 16 * n, bytes, 2 * n, answer, sizeof answer) == 0;
    }
    for (size_t i = 0; i < n; i++) {
        max6954_device d = records[i];
        memcpy(d.registers.planes.p0, wanted + WANTED * i, 16);
        memcpy(d.registers.planes.p1, wanted + WANTED * i + 16, 16);
        d.shift = chain[i].shift;
        all = all && same_fields(&d, &chain[i]);
    }
    return all;
}

static void plans(void)
{
    fresh_three();
    holds("plan: three accesses to three drivers, and the room after them stays",
          planned(3, 3 * WANTED, 3 * MOST, 0, 3) && memcmp(list, three, sizeof three) == 0);
    fresh_three();
    holds("plan: room for the list alone", planned(3, 3 * WANTED, 9, 0, 3) && memcmp(list, three, sizeof three) == 0);
    holds("sent access by access, it ends in the wanted planes", redraws(3, 3));
    fresh_plan(3);
    holds("plan: no access where nothing is to do, and no room is needed",
          planned(3, 3 * WANTED, 0, 0, 0) && max6954_plan(chain, 3, wanted, 3 * WANTED, NULL, 0).number == 0);
    fresh();
    fresh_plan(16);
    for (size_t i = 0; i < sizeof wanted; i++)
        wanted[i] = (uint8_t)(0x80 + i);
    holds("plan: 32 accesses where every byte of sixteen drivers is wrong", planned(16, 16 * WANTED, 16 * MOST, 0, MOST));
    holds("sent, they end in the wanted planes", redraws(16, MOST));
    fresh_plan(16);
    for (size_t i = 0; i < sizeof wanted; i++)
        wanted[i] = (uint8_t)(1 + i % 16);
    holds("plan: 16 accesses where the planes of each are wanted alike", planned(16, 16 * WANTED, 16 * 16, 0, 16));
    holds("sent, they end in the wanted planes too", redraws(16, 16));
}

static void refused_plans(void)
{
    fresh_three();
    chain[2].registers.controls.limit = 8;
    remember();
    holds("plan, 1: no record, before 12 and 13", planned(0, 1, 0, 1, 0) && max6954_plan(NULL, 0, NULL, 0, NULL, 0).number == 1);
    holds("plan, 1: seventeen records, before 7", planned(17, 1, 0, 1, 0));
    holds("plan, 7: an unsound record, before 12 and 13", planned(3, 3 * WANTED - 1, 0, 7, 0));
    fresh_three();
    holds("plan, 12: a wanted byte too few or too many, before 13", planned(3, 3 * WANTED - 1, 0, 12, 0) && planned(3, 3 * WANTED + 1, 0, 12, 0));
    holds("plan, 12: the wanted bytes of two drivers, or of none", planned(3, 2 * WANTED, 3 * MOST, 12, 0) && planned(3, 0, 3 * MOST, 12, 0));
    holds("plan, 13: room for a word less than the list, or for none", planned(3, 3 * WANTED, 8, 13, 0) && planned(3, 3 * WANTED, 0, 13, 0));
}

/* Whether the check gives this number and this answer, and changes no record. */
static int checked(size_t n, size_t length, const uint16_t *given, size_t count, int number, int accepted)
{
    const max6954_plan_check_answer a = max6954_plan_check(chain, n, wanted, length, given, count);
    return a.number == number && a.accepted == accepted && memcmp(records, chain, sizeof chain) == 0;
}

/* Whether the list of the three drivers is accepted with this word in it. */
static int accepted_with(size_t at, uint16_t word)
{
    uint16_t given[9];
    memcpy(given, three, sizeof given);
    given[at] = word;
    return checked(3, 3 * WANTED, given, 9, 0, 1);
}

static void checks(void)
{
    static const uint16_t longer[12] = { 0x4F03, 0x6777, 0, 0x297F, 0x046D, 0x0400, 0x497F, 0x4202, 0x6400, 0, 0x2201, 0 };
    fresh_three();
    holds("check: the planner's list is accepted", checked(3, 3 * WANTED, three, 9, 0, 1));
    holds("check: and so is a longer one, in another order", checked(3, 3 * WANTED, longer, 12, 0, 1));
    holds("check: a configuration write may keep the planes, or clear them", accepted_with(6, 0x0400) && !accepted_with(6, 0x0420) && accepted_with(8, 0x0420));
    holds("check: no T, P or X", !accepted_with(1, 0x047D) && !accepted_with(1, 0x04ED) && !accepted_with(1, 0x046F));
    holds("check: no other I, E, B or S",
          !accepted_with(1, 0x042D) && !accepted_with(1, 0x0465) && !accepted_with(1, 0x0469) && !accepted_with(1, 0x046C));
    holds("check: no other register, no read, no data in a no-op", !accepted_with(8, 0x0307) && !accepted_with(8, 0xA400) && !accepted_with(8, 0x0001));
    holds("check: no other planes", !accepted_with(0, 0x697E) && !accepted_with(3, 0x4F02) && !accepted_with(7, 0));
    holds("check: no part of an access", checked(3, 3 * WANTED, three, 8, 0, 0) && checked(3, 3 * WANTED, longer, 10, 0, 0));
    holds("check: not the empty list, where something is to do", checked(3, 3 * WANTED, NULL, 0, 0, 0));
    holds("check, 1: no record, or seventeen", checked(0, 0, three, 9, 1, 0) && checked(17, 3 * WANTED, three, 9, 1, 0));
    holds("check, 12: a wanted byte too few or too many", checked(3, 3 * WANTED - 1, three, 9, 12, 0) && checked(3, 3 * WANTED + 1, three, 9, 12, 0));
    chain[2].answer_mark = 2;
    remember();
    holds("check, 7: an unsound record, before 12", checked(3, 3 * WANTED, three, 9, 7, 0) && checked(3, 3 * WANTED - 1, three, 9, 7, 0));
    fresh();
    fresh_plan(3);
    holds("check: the empty list, where nothing is to do, but no part of an access",
          checked(3, 3 * WANTED, NULL, 0, 0, 1) && checked(3, 3 * WANTED, three + 2, 1, 0, 0));
}

/* Whether the bytes of an access are refused with this number, and none is written. */
static int no_bytes(int number, size_t n, size_t count, size_t access, size_t space)
{
    uint8_t bytes[2 * 17];
    memset(bytes, 0xEE, sizeof bytes);
    int all = max6954_plan_bytes(n, three, count, access, bytes, space) == number;
    for (size_t i = 0; i < sizeof bytes; i++)
        all = all && bytes[i] == 0xEE;
    return all;
}

static void bytes_of_plans(void)
{
    uint8_t bytes[7];
    memset(bytes, 0xEE, sizeof bytes);
    int first = max6954_plan_bytes(3, three, 9, 0, bytes, 6) == 0 && memcmp(bytes, "\x24\x00\x04\x6D\x69\x7F\xEE", 7) == 0;
    holds("bytes: driver 3's word first, high byte first; bytes after them stay",
          first && max6954_plan_bytes(3, three, 9, 2, bytes, 7) == 0 && memcmp(bytes, "\x00\x00\x42\x02\x00\x00\xEE", 7) == 0);
    holds("bytes, 1: no driver, or seventeen, before 4 and 5", no_bytes(1, 0, 9, 9, 0) && no_bytes(1, 17, 9, 9, 0));
    holds("bytes, 4: an access after the last, before 5", no_bytes(4, 3, 9, 3, 0) && no_bytes(4, 3, 8, 2, 34) && no_bytes(4, 3, 0, 0, 34));
    holds("bytes, 4: an access whose place is above any size", no_bytes(4, 4, 9, SIZE_MAX, 34) && no_bytes(4, 4, 9, SIZE_MAX / 4 + 1, 34));
    holds("bytes, 5: room for a byte less", no_bytes(5, 3, 9, 0, 5) && no_bytes(5, 3, 9, 0, 0));
}

int main(void)
{
    examples();
    refusals();
    words();
    questions();
    brightness();
    answer_marks();
    plans();
    refused_plans();
    checks();
    bytes_of_plans();
    return counted();
}
