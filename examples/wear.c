/* The wear of a panel of two MAX6954: a script of what a controller sends in ten seconds is made in memory, and the lit time of its run says which
   cathode has worked most.

     make lib && cc -std=c11 -Itarget/lib examples/wear.c target/lib/libratchetelm.a -o target/wear && target/wear */
#include <inttypes.h>
#include <stdio.h>
#include <stdlib.h>
#include <string.h>
#include "ratchetelm.h"

enum { DRIVERS = 2, TOTALS = DRIVERS * MAX6954_CATHODES, SECOND = 4000000 };    /* a second has so many master clocks */

/* Kinds of a script's records. */
enum { CHAIN = 1, ACCESS = 2, CLOCKS = 5 };

/* Words of the controller. */
enum {
    NO_OP = 0x0000,
    INTENSITY = 0x0200,           /* global: so many sixteenths and one more, at most 15 */
    SCAN_TWO = 0x0301,            /* scan limit: cathodes 0 and 1 */
    NORMAL_OPERATION = 0x0401,
    BLINKING = 0x0409,            /* and planes P0 and P1 in turn, half a second each */
    P0 = 0x2000,                  /* a digit's byte in a plane, or in both */
    P1 = 0x4000,
    BOTH = 0x6000,
    DIGIT_0 = 0x0000,             /* so much more for the digit */
    DIGIT_1 = 0x0100,
    DIGIT_0A = 0x0800,
    DIGIT_1A = 0x0900,
    BLANK = 0x10                  /* in the hex font */
};

static uint8_t script[1000];
static size_t length;

static void expect(int yes, const char *what)
{
    if (!yes) {
        fprintf(stderr, "wear: expected %s\n", what);
        exit(1);
    }
}

/* A record after those before it: its mark, its kind, its body's length in two bytes, and the body. */
static void record(uint8_t kind, const uint8_t *body, size_t count)
{
    const uint8_t head[5] = { 0x5A, 0xC3, kind, (uint8_t)(count >> 8), (uint8_t)count };
    expect(length + sizeof head + count <= sizeof script, "room for the script");
    memcpy(script + length, head, sizeof head);
    memcpy(script + length + sizeof head, body, count);
    length += sizeof head + count;
}

/* A word to each driver; the last driver's goes first. */
static void send(unsigned first, unsigned second)
{
    const uint8_t body[] = { 0, 16 * DRIVERS, (uint8_t)(second >> 8), (uint8_t)second, (uint8_t)(first >> 8), (uint8_t)first };
    record(ACCESS, body, sizeof body);
}

static void pass_a_second(void)
{
    for (uint8_t driver = 1; driver <= DRIVERS; driver++) {
        const uint8_t body[] = { driver, SECOND >> 24, SECOND >> 16 & 0xFF, SECOND >> 8 & 0xFF, SECOND & 0xFF };
        record(CLOCKS, body, sizeof body);
    }
}

/* Driver 1 counts seconds on its first pair, and has 15 on its second. Driver 2 is brighter: 88 blinks on its first pair, 11 is on its second. */
static void ten_seconds(void)
{
    const uint8_t drivers = DRIVERS;
    record(CHAIN, &drivers, 1);
    send(SCAN_TWO, SCAN_TWO);
    send(INTENSITY + 7, INTENSITY + 15);
    send(BOTH + DIGIT_0 + BLANK, P0 + DIGIT_0 + 8);
    send(NO_OP, P1 + DIGIT_0 + BLANK);
    send(NO_OP, P0 + DIGIT_0A + 8);
    send(NO_OP, P1 + DIGIT_0A + BLANK);
    send(BOTH + DIGIT_1 + 1, BOTH + DIGIT_1 + 1);
    send(BOTH + DIGIT_1A + 5, BOTH + DIGIT_1A + 1);
    send(NORMAL_OPERATION, BLINKING);
    for (unsigned count = 0; count < 10; count++) {
        send(BOTH + DIGIT_0A + count, NO_OP);
        pass_a_second();
    }
}

int main(void)
{
    uint64_t totals[TOTALS], sum = 0;
    size_t most = 0;
    ten_seconds();
    const max6954_lit_time_answer run = max6954_lit_time(script, length, totals, TOTALS);
    if (run.number) {
        fprintf(stderr, "wear: lit time refused: %s\n", max6954_refusal_text(run.number));
        return 1;
    }
    for (size_t k = 0; k < MAX6954_CATHODES * run.drivers; k++) {
        if (totals[k])
            printf("driver %zu, cathode %zu: %" PRIu64 "\n", k / MAX6954_CATHODES + 1, k % MAX6954_CATHODES, totals[k]);
        sum += totals[k];
        most = totals[k] > totals[most] ? k : most;
    }
    printf("driver %zu, cathode %zu has worked most: %" PRIu64 " %% of it all\n", most / MAX6954_CATHODES + 1, most % MAX6954_CATHODES,
           100 * totals[most] / sum);
    expect(most == MAX6954_CATHODES, "the first pair of driver 2");
    return 0;
}
