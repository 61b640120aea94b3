/* Times a look back beside plain C at -O2, in turn in one process: the least of many rounds, and the ratio with its bar. The answer stands at the
   front of the list, which is then walked whole, or it is the last word, which takes the same time at any length. */
#define _GNU_SOURCE
#include <stdio.h>
#include <stdlib.h>
#include "plain.h"
#include "timing.h"

enum { ROUNDS = 60, LONGEST = 1000000, DRIVERS = 16, DRIVER = 2, PLANE = 1, DIGIT = 3, STOP = 0x6300 };

static max6954_device chain[DRIVERS];
static uint16_t words[LONGEST];

typedef __typeof__(max6954_look_back) look;

/* The ns of one turn; gives the sum of the bytes too. */
static double turns(look *call, size_t length, unsigned count, unsigned *sum)
{
    const double start = now();
    for (unsigned turn = 0; turn < count; turn++)
        *sum += call(chain, DRIVERS, DRIVER, PLANE, DIGIT, words, length).byte;
    return (now() - start) / count;
}

/* The least ns of the library and of plain C, for a list whose stopping word is at this place. Both have to find its byte. */
static void least(size_t length, size_t place, unsigned count, double ns[2])
{
    look *const calls[2] = { max6954_look_back, plain_look_back };
    unsigned sums[2] = { 0, 0 };
    const uint16_t kept = words[place];
    words[place] = STOP + 0x5A;
    ns[0] = ns[1] = 1e99;
    for (int round = 0; round < ROUNDS; round++)
        for (int k = 0; k < 2; k++) {
            const double each = turns(calls[k], length, count, &sums[k]);
            if (each < ns[k])
                ns[k] = each;
        }
    words[place] = kept;
    if (sums[0] != ROUNDS * count * 0x5A || sums[1] != sums[0]) {
        printf("DIFFERENCE: %zu words, the answer at place %zu\n", length, place);
        exit(1);
    }
}

static int misses;

/* A ratio with its bar, 0 being none. */
static void print_ratio(double ratio, double bar)
{
    const int missed = bar > 0 && ratio > bar;
    if (bar > 0)
        printf(" %7.2f %5.1f%s\n", ratio, bar, missed ? "  MISSED" : "");
    else
        printf(" %7.2f     -\n", ratio);
    misses += missed;
}

static double line(const char *answer, size_t length, size_t place, unsigned count, double bar)
{
    double ns[2];
    least(length, place, count, ns);
    printf("%-6s %10zu %12.1f %12.1f", answer, length, ns[0], ns[1]);
    print_ratio(ns[0] / ns[1], bar);
    return ns[0];
}

int main(void)
{
    pin();
    for (int i = 0; i < DRIVERS; i++)
        chain[i] = max6954_power_up();
    /* writes to the other digits of both planes, and reads of this one */
    for (size_t i = 0; i < LONGEST; i++)
        words[i] = (uint16_t)(i % 16 == DIGIT ? 0xC300 : (i % 3 + 1) << 13 | i % 16 << 8 | (i & 255));
    printf("answer      words     ours, ns    plain, ns   ratio   bar\n");
    line("first", LONGEST, 0, 1, 1.2);
    const double one = line("last", 1, 0, 20000, 0);
    line("last", 1000, 999, 20000, 0);
    const double most = line("last", LONGEST, LONGEST - 1, 20000, 0);
    printf("%-42s", "last, 1,000,000 words beside 1");
    print_ratio(most / one, 1.2);
    puts(misses ? "MISSED" : "every bar is met");
    return 0;
}
