/* The two-wire bus from C: the worked examples, calls out of place, bytes between other calls, and each number with nothing changed. */
#include <stdlib.h>
#include <string.h>
#include "../bench/records.h"
#include "linked.h"

static max6954_device parts[17];
static size_t n;
static max6955_bus bus;
static max6955_straps straps;

/* Parts at power-up at two addresses, of which the first count; the straps past them are 255, and the bus is idle. */
static void fresh(size_t count, uint8_t first, uint8_t second)
{
    for (int i = 0; i < 17; i++)
        parts[i] = max6954_power_up();
    memset(&straps, 255, sizeof straps);
    straps.addresses[0] = first;
    straps.addresses[1] = second;
    n = count;
    bus = (max6955_bus){ 0, MAX6955_IDLE };
}

/* What a byte answers, as text: + and - for acknowledged and not, then the data of one asked for or not acknowledged. */
static void spell(char *text, max6955_byte_answer a, int asked)
{
    bus = a.bus;
    if (a.number)
        strcpy(text, " refused");
    else if (a.acknowledged == 1 && !asked)
        strcpy(text, a.data ? " +data" : " +");
    else
        sprintf(text, " %c%02X", a.acknowledged == 1 ? '+' : a.acknowledged ? '?' : '-', a.data);
}

/* Whether calls in turn are answered so: S a start, P a stop, R a byte asked for, two hex digits a byte given. */
static int run(const char *calls, const char *answers)
{
    char given[200] = "", text[16];
    for (; *calls; calls += strcspn(calls, " "), calls += *calls == ' ') {
        text[0] = '\0';
        if (*calls == 'S')
            bus = max6955_start(parts, n, bus, straps).bus;
        else if (*calls == 'P')
            bus = max6955_stop(parts, n, bus, straps).bus;
        else if (*calls == 'R')
            spell(text, max6955_read(parts, n, bus, straps), 1);
        else
            spell(text, max6955_write(parts, n, bus, straps, (uint8_t)strtoul(calls, NULL, 16)), 0);
        strcat(given, text);
    }
    const char *const found = given + (given[0] == ' ');
    if (strcmp(found, answers) != 0)
        printf("answered %s, not %s\n", found, answers);
    return strcmp(found, answers) == 0;
}

static int at(size_t part, uint8_t phase)
{
    return bus.part == part && bus.phase == phase;
}

static int scan(uint8_t a, uint8_t b, uint8_t c, uint8_t d)
{
    return max6954_scan(parts, n, 1, a, b, c, d) == 0;
}

/* The registers of part 1 that the examples write. */
#define CONTROLS parts[0].registers.controls
#define RAISED parts[0].registers.keys.interrupt

static void registers(void)
{
    fresh(1, 0x60, 255);
    int one = run("S C0 04 01 P", "+ + +") && parts[0].registers.config.s == 1 && parts[0].command == 0x05;
    one = one && run("S C0 04 S C1 R", "+ + + +81");
    holds("example 1: a register written and read, and the address has stepped", one && run("P S C1 R R", "+ +00 +1F") && parts[0].command == 0x07);
    fresh(1, 0x60, 255);
    holds("example 2: a read begins at 0 after power-up", run("S C1 R R R R", "+ +00 +FF +00 +07"));
    fresh(1, 0x60, 255);
    int three = run("S C0 21 41 42 43 P", "+ + + + +") && run("S C0 20 P", "+ +");
    holds("example 3: many bytes in one transfer", three && run("S C1 R R R R R", "+ +20 +41 +42 +43 +20") && parts[0].command == 0x25);
    fresh(1, 0x60, 255);
    holds("example 4: the last address stays", run("S C0 7E 11 22 33 S C1 R R", "+ + + + + + +00 +00") && parts[0].command == 0x7F);
    fresh(1, 0x60, 255);
    holds("example 5: the top bit of a command is ignored", run("S C0 82 05 P", "+ + +") && CONTROLS.global == 5 && parts[0].command == 0x03);
}

static void keys(void)
{
    fresh(1, 0x60, 255);
    int six = run("S C0 0C 81 AA BB CC 7B P", "+ + + + + + +") && CONTROLS.types == 0x81;
    six = six && parts[0].registers.intensities[0] == 0x7B && parts[0].command == 0x11;
    six = six && run("S C0 06 9F P", "+ + +") && scan(0x11, 0x22, 0x33, 0x44);
    holds("example 6: from 0C the address steps to 10, and pressed keys are read", six && run("S C0 0C S C1 R R R R R", "+ + + +11 +22 +33 +44 +7B"));
    fresh(1, 0x60, 255);
    int seven = run("S C0 06 9F 00 FF 00 00 0F P", "+ + + + + + + +") && scan(5, 0, 0, 0xF0) && scan(5, 0, 0, 0xF0) && RAISED == 1;
    holds("a matched slave byte reads nothing ahead", seven && run("S C0 08 S C1 P", "+ + +") && RAISED == 1);
    seven = seven && run("S C0 08 S C1 R R R R P", "+ + + +05 +00 +00 +F0") && RAISED == 0;
    holds("example 7: debounced keys are read once", seven && run("S C0 08 S C1 R", "+ + + +00") && parts[0].shift == 0 && parts[0].answer_mark == 0);
}

static void places(void)
{
    fresh(2, 0x60, 0x61);
    const max6954_device up = max6954_power_up();
    int eight = run("S C4 C0 04 R", "-FF -FF -FF -FF") && at(0, MAX6955_UNMATCHED) && same_fields(&parts[0], &up) && same_fields(&parts[1], &up);
    eight = eight && run("S C0 04 01 P", "+ + +") && run("C0 R", "-FF -FF") && at(0, MAX6955_IDLE);
    holds("example 8: nobody's bytes change nothing", eight && run("S 80 S 00 S E0", "-FF -FF -FF"));
    fresh(1, 0x60, 255);
    int nine = run("S R C0 R 04 R 01 R 55 P", "-FF + -FF + -FF + -FF +") && parts[0].registers.config.s == 1 && CONTROLS.gpio == 0x15;
    nine = nine && parts[0].command == 0x06 && run("S C1 00 R", "+ -FF +1F");
    holds("example 9: a byte against the direction has no effect", nine && parts[0].command == 0x07);
    fresh(2, 0x60, 0x6F);
    int ten = run("S C0 02 03 S DE 0F 00 59 S C1 R S DE 10 S DF R P", "+ + + + + + + + +07 + + + +59");
    ten = ten && parts[0].command == 0x04 && parts[1].command == 0x11 && run("S C0 S DE 07 01 P", "+ + + +");
    ten = ten && CONTROLS.test == 0 && parts[1].registers.controls.test == 1;
    holds("example 10: each part keeps its own address", ten && parts[0].command == 0x04 && parts[1].command == 0x08);
    fresh(2, 0x60, 0x61);
    int phases = run("S", "") && at(0, MAX6955_AWAITS_SLAVE) && run("C2", "+") && at(2, MAX6955_COMMAND) && run("00", "+") && at(2, MAX6955_WRITES);
    holds("the bus state names the part and what comes next", phases && run("S C1", "+") && at(1, MAX6955_READS) && run("P", "") && at(0, MAX6955_IDLE));
}

/* A transfer goes on over other calls, and an access leaves the command address; both buses have the same registers. */
static void between(void)
{
    uint8_t answer[2] = { 0, 0 };
    fresh(1, 0x60, 255);
    int all = run("S C0 02 03", "+ + +") && max6954_access(parts, 1, 16, (const uint8_t *)"\x82\x00", 2, answer, 2) == 0 && parts[0].command == 3;
    all = all && parts[0].shift == 0x8203 && parts[0].answer_mark == 1;
    holds("an access reads what the bus wrote, and leaves the command address", all);
    all = all && max6954_add_clocks(parts, 1, 1, 2000000) == 0 && max6954_set_pins(parts, 1, 1, 31) == 0 && scan(1, 1, 1, 1);
    holds("a transfer goes on over other calls", all && run("05 S C0 04 S C1 R", "+ + + + +00") && CONTROLS.limit == 5);
    holds("the bus leaves shift word and answer mark", parts[0].shift == 0x8203 && parts[0].answer_mark == 1);
}

/* Whether every call of the bus gives this number; a refused one changes no record, and gives back the bus state, no acknowledge and 0. */
static int gives(int number)
{
    static max6954_device before[17];
    memcpy(before, parts, sizeof parts);
    const max6955_bus_answer start = max6955_start(parts, n, bus, straps), stop = max6955_stop(parts, n, bus, straps);
    const max6955_byte_answer read = max6955_read(parts, n, bus, straps), written = max6955_write(parts, n, bus, straps, 0xC0);
    int all = start.number == number && stop.number == number && read.number == number && written.number == number;
    if (number == 0)
        return all;
    const max6955_bus given[4] = { start.bus, stop.bus, read.bus, written.bus };
    for (int k = 0; k < 4; k++)
        all = all && given[k].part == bus.part && given[k].phase == bus.phase;
    all = all && !read.acknowledged && !read.data && !written.acknowledged && !written.data;
    return all && memcmp(before, parts, sizeof parts) == 0;
}

static int gives_at(int number, size_t part, uint8_t phase)
{
    bus = (max6955_bus){ part, phase };
    return gives(number);
}

static void refusals(void)
{
    fresh(0, 0x60, 0x60);
    int one = gives_at(1, 18, 3);
    n = 17;
    holds("example 11, 1: no part, or seventeen, before 7", one && gives_at(1, 18, 3));
    fresh(2, 0x60, 0x60);
    holds("7: the bus state names a part above n, before 10", gives_at(7, 3, 1) && gives_at(7, SIZE_MAX, 0));
    holds("7: its phase is above 2", gives_at(7, 0, 3) && gives_at(7, 2, 3) && gives_at(7, 1, 255));
    holds("10: two parts with one address", gives_at(10, 0, 1) && gives_at(10, 2, 2));
    parts[1].command = 128;
    holds("7: a command address above 127", gives_at(7, 1, 1));
    fresh(2, 0xC8, 0xC8);
    holds("10: also above 127, before 11", gives_at(10, 0, 1));
    fresh(2, 0x60, 0xE0);
    holds("11: an address above 127", gives_at(11, 0, 1) && gives_at(11, 2, 1));
    fresh(1, 0x60, 0x60);
    holds("the straps past n don't count", gives_at(0, 0, 1) && gives_at(0, 1, 2) && run("S C1", "+"));
    fresh(16, 0, 1);
    for (uint8_t i = 2; i < 16; i++)
        straps.addresses[i] = 129 - i;
    int sixteen = gives_at(0, 16, 2) && parts[15].command == 1 && run("S 00 7F S FE 02 01 S E5 R", "+ + + + + + +FF");
    holds("sixteen parts, of any address up to 127", sixteen && parts[2].registers.controls.global == 1);
    straps.addresses[15] = 127;
    holds("10: the first and the last of sixteen", gives_at(10, 0, 0));
}

int main(void)
{
    registers();
    keys();
    places();
    between();
    refusals();
    return counted();
}
