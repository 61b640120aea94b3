/* The library's look back beside the same in plain C: random chains and lists of words, with valid and damaged arguments, on sound and unsound
   records. Both give the same answer, and no record changes. The first difference is printed, and the status is 1. */
#include <stdio.h>
#include <string.h>
#include "cases.h"
#include "plain.h"
#include "random.h"

enum { LISTS = 200000, MOST_WORDS = 40, LAST_NUMBER = 14 };

static max6954_device before[1 + MOST_RECORDS + 1], records[1 + MOST_RECORDS + 1];
static uint16_t words[MOST_WORDS];

/* A word to or from a digit, its neighbour or the configuration, or any word. */
static uint16_t some_word(size_t digit)
{
    const size_t near = (digit + below(2)) % 16, read = one_in(4) ? 0x80 : 0, data = below(256);
    switch (below(6)) {
    case 0:
        return (uint16_t)((0x20 + near + read) << 8 | data);
    case 1:
        return (uint16_t)((0x40 + near + read) << 8 | data);
    case 2:
        return (uint16_t)((0x60 + near + read) << 8 | data);
    case 3:
        return (uint16_t)((0x04 + read) << 8 | data);
    default:
        return (uint16_t)random_number();
    }
}

/* Mostly below n; otherwise n, a number that looks small in its low half, or the largest. */
static size_t within(size_t n)
{
    switch (below(40)) {
    case 0:
        return n;
    case 1:
        return (size_t)((uint64_t)1 << 32 | below(n));
    case 2:
        return SIZE_MAX;
    default:
        return below(n);
    }
}

/* Whether both are alike in one case, whose number is counted. */
static int look_back_is_alike(unsigned long given[LAST_NUMBER + 1])
{
    const size_t n = some_row(records), driver = within(n ? n : 1) + 1, plane = within(2), digit = within(16), length = below(MOST_WORDS + 1);
    for (size_t i = 0; i < length; i++)
        words[i] = some_word(digit);
    memcpy(before, records, sizeof records);
    const max6954_look_back_answer ours = max6954_look_back(records + 1, n, driver, plane, digit, words, length);
    const max6954_look_back_answer plain = plain_look_back(records + 1, n, driver, plane, digit, words, length);
    if (ours.number != plain.number || ours.byte != plain.byte || memcmp(before, records, sizeof records) != 0) {
        printf("DIFFERENCE: a look back of driver %zu of %zu, plane %zu, digit %zu, words", driver, n, plane, digit);
        for (size_t i = 0; i < length; i++)
            printf(" %04X", words[i]);
        printf("\n  library gives %d and %02X, plain C %d and %02X\n", ours.number, ours.byte, plain.number, plain.byte);
        return 0;
    }
    given[ours.number]++;
    return 1;
}

int main(void)
{
    static const int numbers[] = { 0, 1, 2, 6, 7, 14 };
    static unsigned long given[LAST_NUMBER + 1];
    for (int i = 0; i < LISTS; i++)
        if (!look_back_is_alike(given))
            return 1;
    for (size_t i = 0; i < sizeof numbers / sizeof numbers[0]; i++)
        if (given[numbers[i]] == 0) {
            printf("a look back never gave %d\n", numbers[i]);
            return 1;
        }
    printf("library and plain C alike in %d random look backs, of which %lu served\n", LISTS, given[0]);
    return 0;
}
