/* A panel of two MAX6954 redrawn in the fewest accesses, run against their bench double.

     make lib && cc -std=c11 -Itarget/lib examples/redraw.c target/lib/libratchetelm.a -o target/redraw && target/redraw */
#include <stdio.h>
#include <stdlib.h>
#include <string.h>
#include "ratchetelm.h"

enum { DRIVERS = 2, WANTED = DRIVERS * MAX6954_WANTED_SIZE, ROOM = DRIVERS * MAX6954_MOST_ACCESSES };

/* The double stands in for the bus. */
static max6954_device panel[DRIVERS];

static void served(const char *call, uint8_t number)
{
    if (number) {
        fprintf(stderr, "redraw: %s refused: %s\n", call, max6954_refusal_text(number));
        exit(1);
    }
}

/* Plans the accesses that lead to the wanted planes, and sends them; prints the words of each, driver 1's first. */
static void redraw(const uint8_t *wanted)
{
    uint16_t list[ROOM];
    uint8_t sent[2 * DRIVERS], answer[2 * DRIVERS];
    const max6954_plan_answer plan = max6954_plan(panel, DRIVERS, wanted, WANTED, list, ROOM);
    served("plan", plan.number);
    printf("%zu accesses\n", plan.accesses);
    for (size_t k = 0; k < plan.accesses; k++) {
        served("bytes", max6954_plan_bytes(DRIVERS, list, DRIVERS * plan.accesses, k, sent, sizeof sent));
        served("access", max6954_access(panel, DRIVERS, 16 * DRIVERS, sent, sizeof sent, answer, sizeof answer));
        printf("  %04X %04X\n", list[DRIVERS * k], list[DRIVERS * k + 1]);
    }
}

/* Wants a byte in both planes of a driver's digit: 0 to 7, then 8 to 15 for 0a to 7a. */
static void want(uint8_t *wanted, size_t driver, size_t digit, uint8_t data)
{
    uint8_t *planes = wanted + MAX6954_WANTED_SIZE * (driver - 1);
    planes[digit] = planes[16 + digit] = data;
}

int main(void)
{
    uint8_t wanted[WANTED] = { 0 };
    for (int i = 0; i < DRIVERS; i++)
        panel[i] = max6954_power_up();

    /* From power-up, where digits 0 to 7 are 0x20: 99 on driver 1, and 0 in all else. */
    want(wanted, 1, 1, 9);
    want(wanted, 1, 9, 9);
    redraw(wanted);

    /* 100 on driver 1; digit 4 of driver 2 is 8 in P0 alone. */
    want(wanted, 1, 8, 1);
    want(wanted, 1, 1, 0);
    want(wanted, 1, 9, 0);
    wanted[MAX6954_WANTED_SIZE + 4] = 8;
    redraw(wanted);

    if (memcmp(&panel[0].registers.planes, wanted, MAX6954_WANTED_SIZE) || panel[1].registers.planes.p0[4] != 8) {
        fprintf(stderr, "redraw: expected the wanted planes\n");
        return 1;
    }
    return 0;
}
