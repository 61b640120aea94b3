/* The speed of an access. The best of nine rounds, in nanoseconds a call.
     speed accesses         for each size: drivers, clocks, an access, and a shift register in plain C by clock and by bit index
     speed count N CLOCKS   ten accesses, and ten of the shift register by clock, to be counted by callgrind */
#define _GNU_SOURCE
#include <stdio.h>
#include <stdlib.h>
#include <string.h>
#include "ratchetelm.h"
#include "timing.h"

static uint8_t sent[512], answer[512];
static max6954_device chain[16];
static volatile unsigned sink;

/* A plain shift register, one clock at a time. It takes no word. */
__attribute__((noinline)) static void by_clock(uint16_t *words, size_t n, size_t clocks)
{
    for (size_t k = 0; k < clocks; k++) {
        if (k % 8 == 0)
            answer[k / 8] = 0;
        answer[k / 8] |= (uint8_t)(words[n - 1] >> 15 << (7 - k % 8));
        for (size_t i = n - 1; i > 0; i--)
            words[i] = (uint16_t)(words[i] << 1 | words[i - 1] >> 15);
        words[0] = (uint16_t)(words[0] << 1 | (sent[k / 8] >> (7 - k % 8) & 1));
    }
}

/* Bit k of the old string and then the sent bits. */
static unsigned bit_at(const uint16_t *words, size_t n, size_t k)
{
    if (k < 16 * n)
        return words[n - 1 - k / 16] >> (15 - k % 16) & 1;
    k -= 16 * n;
    return sent[k / 8] >> (7 - k % 8) & 1;
}

/* The same by bit index. */
static void by_index(uint16_t *words, size_t n, size_t clocks)
{
    uint16_t next[16] = { 0 };
    for (size_t k = 0; k < clocks; k++) {
        if (k % 8 == 0)
            answer[k / 8] = 0;
        answer[k / 8] |= (uint8_t)(bit_at(words, n, k) << (7 - k % 8));
    }
    for (size_t i = 0; i < n; i++)
        for (size_t b = 0; b < 16; b++)
            next[i] = (uint16_t)(next[i] << 1 | bit_at(words, n, clocks + 16 * (n - 1 - i) + b));
    for (size_t i = 0; i < n; i++)
        words[i] = next[i];
}

#define BEST(result, turns, call)                                                                                      \
    do {                                                                                                               \
        result = 1e99;                                                                                                 \
        for (int round = 0; round < 9; round++) {                                                                      \
            double start = now();                                                                                      \
            for (unsigned turn = 0; turn < (turns); turn++)                                                            \
                call;                                                                                                  \
            double each = (now() - start) / (turns);                                                                   \
            if (each < result)                                                                                         \
                result = each;                                                                                         \
        }                                                                                                              \
    } while (0)

static void fresh(void)
{
    for (int i = 0; i < 16; i++)
        chain[i] = max6954_power_up();
}

static void accesses(void)
{
    static const size_t lengths[] = { 1, 2, 16 }, clocks[] = { 0, 16, 256, 4096 };
    for (int a = 0; a < 3; a++)
        for (int b = 0; b < 4; b++) {
            size_t n = lengths[a], c = clocks[b];
            unsigned turns = c > 256 ? 1000 : 10000;
            uint16_t words[16] = { 0 };
            double ours, plain, index;
            fresh();
            BEST(ours, turns, sink += max6954_access(chain, n, c, sent, sizeof sent, answer, sizeof answer));
            BEST(plain, turns, (by_clock(words, n, c), sink += answer[0] + words[0]));
            BEST(index, turns, (by_index(words, n, c), sink += answer[0] + words[0]));
            printf("%zu %zu %.2f %.2f %.2f\n", n, c, ours, plain, index);
        }
}

static void count(size_t n, size_t clocks)
{
    uint16_t words[16] = { 0 };
    fresh();
    for (int turn = 0; turn < 10; turn++) {
        sink += max6954_access(chain, n, clocks, sent, sizeof sent, answer, sizeof answer);
        by_clock(words, n, clocks);
        sink += answer[0] + words[0];
    }
}

int main(int argc, char **argv)
{
    /* digit writes to every digit, in turn */
    for (int i = 0; i < 512; i++)
        sent[i] = (uint8_t)(i % 2 ? i * 37 : 0x20 + i / 2 % 16);
    if (argc == 4 && strcmp(argv[1], "count") == 0)
        count(strtoul(argv[2], NULL, 10), strtoul(argv[3], NULL, 10));
    else if (argc == 2 && strcmp(argv[1], "accesses") == 0)
        accesses();
    else
        return 2;
    return 0;
}
