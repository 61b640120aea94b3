/* The MAX6957 from C: the worked examples of its registers, ports and transition detection, its addresses, and a chain of both families. */
#include <stddef.h>
#include <stdlib.h>
#include <string.h>
#include "linked.h"
#include "ratchetelm.h"

/* Pin levels with P24 alone high. */
enum { P24 = 1 << 20 };

/* A chain, and the answer of its last access. */
static max6954_device chain[2];
static size_t n;
static uint8_t answer[4];

/* Drivers at power-up of these families, a digit for each. */
static void fresh(const char *families)
{
    n = strlen(families);
    for (size_t i = 0; i < n; i++)
        chain[i] = families[i] == '1' ? max6957_power_up() : max6954_power_up();
}

/* One access: a word to each driver, the last driver's highest. Gives the words that come out, so too. */
static unsigned long access_of(unsigned long words)
{
    const uint8_t bytes[4] = { (uint8_t)(words >> 24), (uint8_t)(words >> 16), (uint8_t)(words >> 8), (uint8_t)words };
    unsigned long given = 0;
    if (max6954_access(chain, n, 16 * n, bytes + 4 - 2 * n, 2 * n, answer, sizeof answer) != 0)
        printf("an access is refused\n"), failed++;
    for (size_t k = 0; k < 2 * n; k++)
        given = given << 8 | answer[k];
    return given;
}

/* Whether accesses in turn, as text in hex, are answered so; where no answers are given, any will do. */
static int run(const char *accesses, const char *answers)
{
    int all = 1;
    char *rest;
    for (unsigned long words = strtoul(accesses, &rest, 16); rest != accesses; words = strtoul(accesses, &rest, 16)) {
        accesses = rest;
        const unsigned long given = access_of(words), wanted = strtoul(answers, &rest, 16);
        if (*answers && given != wanted)
            printf("%lX answers %lX, not %lX\n", words, given, wanted), all = 0;
        answers = rest;
    }
    return all;
}

static int sent(const char *accesses)
{
    return run(accesses, "");
}

static int pins(uint32_t levels)
{
    return max6954_set_pins(chain, n, n, levels) == 0;
}

/* Whether the ports of the last driver drive so, from port p on, and no other does: - undriven, L low, H high, 1 to 9 and A to G sixteenths. */
static int drives(size_t p, const char *states)
{
    static const char names[] = "-LH123456789ABCDEFG";
    const max6957_port_answer given = max6957_ports(chain, n, n);
    char found[29] = "", wanted[29];
    memset(wanted, '-', 28);
    memcpy(wanted + p - 4, states, strlen(states));
    wanted[28] = '\0';
    for (int k = 0; k < 28; k++)
        found[k] = given.ports[k] < strlen(names) ? names[given.ports[k]] : '?';
    if (given.number || strcmp(found, wanted) != 0)
        printf("number %d, the ports drive %s, not %s\n", given.number, found, wanted);
    return given.number == 0 && strcmp(found, wanted) == 0;
}

static int p31(int state)
{
    return max6957_ports(chain, n, n).ports[31 - 4] == state;
}

static void registers(void)
{
    fresh("1");
    holds("example 1: at power-up inputs, in shutdown", run("8900 8400 0000", "0000 89AA 8400") && drives(4, ""));
    fresh("1");
    int two = run("0401 0955 0A55 40F0 C400 40FF C400 C000 0000", "0000 0401 0955 0A55 40F0 C400 40FF C40F C00F");
    holds("example 2: 40 has P4 to P7 from D0 on, and 43 P4 to P10", two && run("43FF C400 0000", "0000 43FF C47F"));
    fresh("1");
    int three = run("0401 0F55 5CFF DC00 D800 C400 0000", "0000 0401 0F55 5CFF DC0F D8F0 C400");
    holds("example 3: no port above P31", three && drives(28, "HHHH"));
    fresh("1");
    int four = sent("0401 0900 02FF 4003") && drives(4, "GG");
    fresh("1");
    holds("example 4: currents up to 16, all alike or each port's own", four && sent("0441 0900 02FF 12E3 4003") && drives(4, "4F"));
    fresh("1");
    int five = sent("0954 0701 2501") && drives(4, "8") && sent("0401") && drives(4, "8HLL");
    holds("example 5: display test is 8 on LED ports alone, also in shutdown", five && sent("0700") && drives(5, "HLL"));
    fresh("1");
    int six = run("0955 400F C000", "0000 0955 400F") && pins(5) && run("C000", "C000") && drives(4, "");
    holds("example 6: in shutdown a port reads its pin", six && run("0401 C000 0000", "C005 0401 C00F") && drives(4, "HHHH"));
    fresh("1");
    holds("inputs drive nothing, with a pull-up or without", sent("0401 09FA 40FF") && drives(4, ""));
}

static int raised(void)
{
    return max6954_interrupt(chain, n, n).raised;
}

/* P24 watched, P31 its INT output; then P24 goes high. */
static int event(void)
{
    fresh("1");
    return sent("0601 0F6A 0481") && p31(MAX6957_LOW) && !raised() && pins(P24) && p31(MAX6957_HIGH) && raised();
}

static void transitions(void)
{
    int seven = event() && pins(0) && p31(MAX6957_HIGH) && sent("8600") && p31(MAX6957_LOW) && !raised() && chain[0].shift == 0x8601;
    holds("example 7: an event is latched until the mask is read", seven);
    seven = seven && pins(P24) && p31(MAX6957_LOW) && run("8400 0481", "8601 8481") && pins(0) && p31(MAX6957_HIGH);
    holds("then detection is off until M is written again, though it is set", seven);
    int eight = event() && max6954_access(chain, 1, 0, NULL, 0, NULL, 0) == 0 && p31(MAX6957_LOW);
    holds("example 8: at 0 clocks M is written again", eight && pins(P24) && p31(MAX6957_LOW) && pins(0) && p31(MAX6957_HIGH));
    fresh("1");
    int nine = sent("0601 0F6A 0EA9 3801 3F01 0481") && p31(MAX6957_LOW) && sent("3800") && p31(MAX6957_HIGH) && sent("8600") && p31(MAX6957_LOW);
    holds("example 9: a watched output raises it too; without M P31 has its own bit", nine && sent("0401") && p31(MAX6957_HIGH));
    holds("a write of the mask clears it too", event() && sent("0601") && p31(MAX6957_LOW) && pins(0) && p31(MAX6957_LOW));
    fresh("1");
    holds("M written 0 ends detection", sent("0601 0480 0400") && pins(P24) && !raised() && sent("0480") && pins(0) && raised());
    fresh("1");
    int unmasked = sent("0602 0F6A 0481") && pins(P24) && !raised();
    holds("a port that isn't masked raises nothing, until the mask has it", unmasked && sent("0601") && raised());
    fresh("1");
    int quiet = sent("0601 0480") && pins(P24) && raised() && drives(4, "");
    holds("detection goes on in shutdown, where P31 is undriven; M clear leaves the interrupt", quiet && sent("0400") && raised() && sent("0480") && !raised());
}

/* What an address writes of the ports, all of them outputs: by Table 3, P4 first. */
static uint32_t ports_at(unsigned address)
{
    const unsigned f = address & 31, first = f < 4 ? 4 : f, last = f > 24 ? 31 : f + 7;
    if (address >= 0x24 && address < 0x40)
        return 1u << (f - 4);
    return address >= 0x40 && address < 0x60 ? (2u << (last - 4)) - (1u << (first - 4)) : 0;
}

/* Every address written with FF and read: which ports it has, and what it reads. */
static void addresses(void)
{
    int stored = 1, read = 1, kept = 1;
    for (unsigned a = 0; a < 128; a++) {
        const uint8_t write[2] = { (uint8_t)a, 0xFF }, ask[2] = { (uint8_t)(0x80 | a), 0 };
        fresh("1");
        sent("0401 0955 0A55 0B55 0C55 0D55 0E55 0F55");
        const max6954_device before = chain[0];
        max6954_access(chain, 1, 16, write, 2, answer, 2);
        max6954_access(chain, 1, 16, ask, 2, answer, 2);
        stored = stored && chain[0].ports.stored == ports_at(a);
        unsigned data = 0;
        for (uint32_t bits = ports_at(a); bits; bits &= bits - 1)
            data = 2 * data + 1;
        data = a == 0x02 ? 0x0F : a == 0x04 ? 0xC1 : a == 0x06 ? 0x7F : a == 0x07 ? 1 : data;
        data = (a >= 0x09 && a < 0x10) || (a >= 0x12 && a < 0x20) ? 0xFF : data;
        read = read && chain[0].shift == (0x80 | a) * 256 + data && chain[0].answer_mark == 1;
        kept = kept && chain[0].family == 1 && memcmp(&chain[0].registers, &before.registers, sizeof before.registers) == 0;
    }
    holds("each address has the ports of Table 3, and no other", stored);
    holds("each address reads what it holds, an unlisted one 0", read);
    holds("the family stays, and the old family's registers", kept);
}

static void both_families(void)
{
    fresh("01");
    int ten = run("02030205 82008200 20072007 A000A000 00000000", "00000000 02030205 82038205 20072007 A000A007");
    holds("example 10: each family obeys its own words", ten);
    const max6957_registers up = max6954_power_up().ports;
    holds("and an old driver's port registers stay", memcmp(&chain[0].ports, &up, offsetof(max6957_registers, transition) + sizeof up.transition) == 0);
    holds("a MAX6957 has an answer mark", sent("82000000") && max6954_answer_mark(chain, 2, 2).mark == 1 && max6954_answer_mark(chain, 2, 1).mark == 0);
    fresh("11");
    int slip = max6954_access(chain, 2, 16, (const uint8_t *)"\x02\x07", 2, answer, sizeof answer) == 0 && chain[0].ports.global == 7;
    slip = slip && max6954_access(chain, 2, 8, (const uint8_t *)"\x01", 1, answer, sizeof answer) == 0 && chain[0].shift == 0x0701;
    holds("16 clocks and 8 more: words come from driver 1 to driver 2", slip && chain[1].shift == 0x0002 && chain[0].ports.test == 1);
}

int main(void)
{
    registers();
    transitions();
    addresses();
    both_families();
    return counted();
}
