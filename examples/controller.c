/* A controller of two MAX6954, run against their bench double. It shows a count on driver 2, and reads its keys without taking an old word for
   a new one.

     make lib && cc -std=c11 -Itarget/lib examples/controller.c target/lib/libratchetelm.a -o target/controller && target/controller */
#include <stdio.h>
#include <stdlib.h>
#include <string.h>
#include "ratchetelm.h"

enum { DRIVERS = 2, DRIVER = 2 };

/* Words of the controller: an address in D14 to D8, 0x80 more for a read. */
enum {
    NO_OP = 0x0000,
    DECODE_BOTH = 0x0103,         /* hex font on digits 0 and 1 */
    SCAN_BOTH = 0x0301,           /* scan limit: cathodes 0 and 1 */
    NORMAL_OPERATION = 0x0401,
    ONE_KEY_GROUP = 0x063F,       /* group A; the ports are inputs */
    MASK_KEY_3 = 0x0808,          /* key 3 raises the interrupt */
    DIGIT_0 = 0x6000,             /* both planes */
    DIGIT_1 = 0x6100,
    READ_KEYS_A = 0x8800          /* the debounced register; reading clears it */
};

/* The double stands in for the bus: on the machine, send clocks a port and this array isn't there. */
static max6954_device panel[DRIVERS];

static void expect(int yes, const char *what)
{
    if (!yes) {
        fprintf(stderr, "controller: expected %s\n", what);
        exit(1);
    }
}

/* What a call of the double must give. */
static void served(const char *call, uint8_t number)
{
    if (number) {
        fprintf(stderr, "controller: %s refused: %s\n", call, max6954_refusal_text(number));
        exit(1);
    }
}

/* One access: a word to the driver, no-ops to the others. Gives the word that comes out in the driver's place, which it held before. */
static unsigned send(unsigned word)
{
    const size_t at = 2 * (DRIVERS - DRIVER);    /* the last driver's word goes first */
    uint8_t sent[2 * DRIVERS] = { 0 }, answer[2 * DRIVERS];
    sent[at] = (uint8_t)(word >> 8);
    sent[at + 1] = (uint8_t)word;
    served("access", max6954_access(panel, DRIVERS, 16 * DRIVERS, sent, sizeof sent, answer, sizeof answer));
    return answer[at] * 256u + answer[at + 1];
}

/* Whether an answer is to this read: D15 to D8 come back as they were sent. A second read of the same register looks alike, so each answer is
   taken in the access right after its read. */
static int answers(unsigned answer, unsigned read)
{
    return answer >> 8 == read >> 8;
}

/* A register's data, taken one access after the read. */
static unsigned data_of(unsigned read)
{
    send(read);
    const unsigned answer = send(NO_OP);
    expect(answers(answer, read), "the answer of the read, one access later");
    return answer & 0xFF;
}

static void configure(void)
{
    for (int i = 0; i < DRIVERS; i++)
        panel[i] = max6954_power_up();
    send(DECODE_BOTH);
    send(SCAN_BOTH);
    send(NORMAL_OPERATION);
    send(ONE_KEY_GROUP);
}

/* The lit segments of a digit of a 7-segment pair: its nine pins are the first but the cathode and its partner. */
static void lit_segments(size_t digit, char *lit)
{
    static const char names[] = "a-bcd.efg";    /* - carries none */
    static const uint16_t font[128] = { 0 };
    const max6954_segment_answer shown = max6954_segments(panel, DRIVERS, DRIVER, digit, font, 128, font, 128);
    served("segments", shown.number);
    for (size_t pin = 0, k = 0; k < strlen(names); pin++) {
        if (pin / 2 == digit / 2)
            continue;
        if (shown.pins[pin] == MAX6954_LIT)
            *lit++ = names[k];
        k++;
    }
    *lit = '\0';
}

static void show_count(unsigned count, const char *tens_lit, const char *units_lit)
{
    char tens[10], units[10];
    send(DIGIT_0 + count / 10);
    send(DIGIT_1 + count % 10);
    lit_segments(0, tens);
    lit_segments(1, units);
    printf("count %u: digit 0 lights %s, digit 1 lights %s\n", count, tens, units);
    expect(strcmp(tens, tens_lit) == 0 && strcmp(units, units_lit) == 0, "the segments of the count");
}

/* What the bench sees and a bus doesn't tell: whether the word that the driver holds is the answer of a read. */
static unsigned holds_answer(void)
{
    const max6954_mark_answer given = max6954_answer_mark(panel, DRIVERS, DRIVER);
    served("answer mark", given.number);
    return given.mark;
}

/* An arm once closed on nothing: its controller took the word that came out in the read's own access, which was an old one. */
static void read_without_a_key(void)
{
    send(MASK_KEY_3);
    const unsigned before = holds_answer(), old = send(READ_KEYS_A), after = holds_answer();
    printf("no key: the read %04X answers %04X in its own access, as if key 3 were closed; ", READ_KEYS_A, old);
    expect(old == MASK_KEY_3 && !answers(old, READ_KEYS_A), "the mask's word, which is stale");
    printf("but %02X isn't %02X, so that word is stale\n", old >> 8, READ_KEYS_A >> 8);
    printf("the bench sees it too: the answer mark is %u before the read, %u after it\n", before, after);
    expect(before == 0 && after == 1, "an answer mark that the read sets");
    const unsigned later = send(NO_OP);
    printf("one access later it answers %04X: no key\n", later);
    expect(answers(later, READ_KEYS_A) && (later & 0xFF) == 0, "no key one access later");
}

/* One scan with key 3 closed; gives the interrupt. */
static unsigned scan_key_3(void)
{
    served("scan", max6954_scan(panel, DRIVERS, DRIVER, 1 << 3, 0, 0, 0));
    return max6954_interrupt(panel, DRIVERS, DRIVER).raised;
}

static void read_a_key(void)
{
    const unsigned first = scan_key_3(), second = scan_key_3();
    printf("key 3 closed: interrupt %u after one scan, %u after two\n", first, second);
    expect(first == 0 && second == 1, "the interrupt at the second scan");
    const unsigned keys = data_of(READ_KEYS_A), again = data_of(READ_KEYS_A);
    printf("the keys read %02X, and %02X when read again\n", keys, again);
    expect(keys == 1 << 3 && again == 0, "key 3 once");
}

int main(void)
{
    expect(sizeof(max6954_device) == MAX6954_DEVICE_SIZE, "records laid out as the library has them");
    configure();
    show_count(42, "bcfg", "abdeg");
    read_without_a_key();
    read_a_key();
    return 0;
}
