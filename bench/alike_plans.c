/* The library's planner beside the rule in plain C: random chains and wanted planes, with valid and damaged lengths, on sound and unsound records.
   Both give the same answer and leave the same words, in the room and beside it. The first difference is printed, and the status is 1. */
#include <stdio.h>
#include <string.h>
#include "cases.h"
#include "plain.h"
#include "random.h"

enum { PLANS = 50000, WANTED = MAX6954_WANTED_SIZE, MOST = MAX6954_MOST_ACCESSES, GUARD = 8, LAST_NUMBER = 14 };

static max6954_device before[1 + MOST_RECORDS + 1], records[1 + MOST_RECORDS + 1];
static uint8_t wanted[(MOST_RECORDS + 1) * WANTED];
/* What each planner is lent, with guards around it. */
static uint16_t fresh[GUARD + MOST_RECORDS * MOST + GUARD], left[2][GUARD + MOST_RECORDS * MOST + GUARD];

/* Bytes of so few values that the planes often agree: with their wanted ones, with each other, with 0. */
static uint8_t some_byte(size_t values)
{
    return (uint8_t)(below(values) * 0x15);
}

/* Wanted planes of a driver: as they are but for some digits, any others, or alike in both. Its own planes are chosen anew. */
static void some_planes(max6954_planes *held, uint8_t *own)
{
    const size_t values = 1 + below(4), changes = below(17);
    const int alike = one_in(3);
    for (int k = 0; k < 16; k++) {
        held->p0[k] = some_byte(values);
        held->p1[k] = some_byte(values);
        own[k] = below(16) < changes ? some_byte(values) : held->p0[k];
        own[16 + k] = alike ? own[k] : below(16) < changes ? some_byte(values) : held->p1[k];
    }
}

/* Mostly 32 bytes for each of n drivers. */
static size_t some_wanted_length(size_t n)
{
    switch (below(24)) {
    case 0:
        return WANTED * n + 1;
    case 1:
        return n ? WANTED * n - 1 : 0;
    case 2:
        return WANTED * below(n + 2);
    default:
        return WANTED * n;
    }
}

/* Room for so many words, for one less or more, or for any list. */
static size_t some_room(size_t n, size_t words)
{
    const size_t most = MOST * n;
    switch (below(6)) {
    case 0:
        return words;
    case 1:
        return words ? words - 1 : 0;
    case 2:
        return words < most ? words + 1 : most;
    case 3:
        return below(most + 1);
    default:
        return most;
    }
}

/* Whether both planners are alike in one case, whose number is counted. */
static int plan_is_alike(unsigned long given[LAST_NUMBER + 1])
{
    const size_t n = some_row(records), length = some_wanted_length(n);
    for (size_t i = 0; i < n; i++)
        some_planes(&records[1 + i].registers.planes, wanted + WANTED * i);
    fill(fresh, sizeof fresh);
    memcpy(before, records, sizeof records);
    memcpy(left[0], fresh, sizeof fresh);
    memcpy(left[1], fresh, sizeof fresh);
    const size_t needed = n * plain_plan(records + 1, n, wanted, length, left[1] + GUARD, MOST * n).accesses, room = some_room(n, needed);
    memcpy(left[1], fresh, sizeof fresh);
    const max6954_plan_answer ours = max6954_plan(records + 1, n, wanted, length, left[0] + GUARD, room);
    const max6954_plan_answer plain = plain_plan(records + 1, n, wanted, length, left[1] + GUARD, room);
    const int same = ours.number == plain.number && ours.accesses == plain.accesses && memcmp(left[0], left[1], sizeof fresh) == 0;
    if (!same || memcmp(before, records, sizeof records) != 0) {
        printf("DIFFERENCE: a plan for %zu records, %zu wanted bytes, room %zu\n", n, length, room);
        printf("  library gives %d and %zu accesses, plain C %d and %zu\n", ours.number, ours.accesses, plain.number, plain.accesses);
        for (size_t i = 0; i < sizeof fresh / sizeof fresh[0]; i++)
            if (left[0][i] != left[1][i])
                printf("  word %td of the room: library %04X, plain C %04X\n", (ptrdiff_t)i - GUARD, left[0][i], left[1][i]);
        return 0;
    }
    given[ours.number]++;
    return 1;
}

int main(void)
{
    static const int numbers[] = { 0, 1, 7, 14, 12, 13 };
    static unsigned long given[LAST_NUMBER + 1];
    for (int i = 0; i < PLANS; i++)
        if (!plan_is_alike(given))
            return 1;
    for (size_t i = 0; i < sizeof numbers / sizeof numbers[0]; i++)
        if (given[numbers[i]] == 0) {
            printf("plan never gave %d\n", numbers[i]);
            return 1;
        }
    printf("library and plain C alike in %d random plans, of which %lu served\n", PLANS, given[0]);
    return 0;
}
