/* The library beside the hand-tuned double: random calls of every kind, with valid and damaged arguments, on sound and unsound records of both
   families, mixed, and of unknown ones. Both give the same number and answer and leave the same bytes, in what is lent and beside it. The first
   difference is printed, and the status is 1. */
#include <stdio.h>
#include <string.h>
#include "cases.h"
#include "random.h"
#include "records.h"
#include "tuned.h"

enum { ROWS = 50000, CALLS_ON_A_ROW = 12, GUARD = 8, LAST_NUMBER = 14 };

static const struct {
    const char *name, *numbers;    /* and the numbers that it may give, in hex */
} kinds[KINDS] = {
    [ACCESS] = { "access", "013457E" },
    [SCAN] = { "scan", "0127E" },
    [SET_PINS] = { "set_pins", "01267E" },
    [ADD_CLOCKS] = { "add_clocks", "0127E" },
    [SEGMENTS] = { "segments", "01267E" },
    [BRIGHTNESS] = { "brightness", "01267E" },
    [SHOWN] = { "shown", "0127E" },
    [INTERRUPT] = { "interrupt", "0127E" },
    [ANSWER_MARK] = { "answer_mark", "0127E" },
    [PORTS] = { "ports", "0127E" },
    [PLANE] = { "plane", "01267E" },
};

/* The calls of one double. */
typedef struct {
    const char *name;
    __typeof__(&max6954_access) access;
    __typeof__(&max6954_scan) scan;
    __typeof__(&max6954_set_pins) set_pins;
    __typeof__(&max6954_add_clocks) add_clocks;
    __typeof__(&max6954_segments) segments;
    __typeof__(&max6954_brightness) brightness;
    __typeof__(&max6954_shown) shown;
    __typeof__(&max6954_interrupt) interrupt;
    __typeof__(&max6954_answer_mark) answer_mark;
    __typeof__(&max6957_ports) ports;
    __typeof__(&max6954_plane_number) plane_number;
    __typeof__(&max6954_plane_shown) plane_shown;
    __typeof__(&max6954_plane) plane;
} calls;

#define CALLS(p, ports)                                                                                                           \
    p##access, p##scan, p##set_pins, p##add_clocks, p##segments, p##brightness, p##shown, p##interrupt, p##answer_mark, ports,    \
        p##plane_number, p##plane_shown, p##plane

static const calls doubles[2] = { { "library", CALLS(max6954_, max6957_ports) }, { "tuned  ", CALLS(tuned_, tuned_ports) } };

/* What both are lent to read. */
static uint8_t sent[MOST_BYTES], planes[2][17];
static uint16_t fonts[2][129];

/* What each is lent to write, with guards around it. */
typedef struct {
    max6954_device records[1 + MOST_RECORDS + 1];
    uint8_t room[GUARD + MOST_BYTES + GUARD];
} lent;

static lent before, after[2];

typedef struct {
    uint8_t number, back[28];
    const uint8_t *part;
} reply;

/* An answer, whose bytes are its number and then the rest. */
static reply answered(const void *answer, size_t size)
{
    const uint8_t *bytes = answer;
    reply r = { bytes[0], { 0 }, NULL };
    memcpy(r.back, bytes + 1, size - 1);
    return r;
}

/* A question by one double. What has no length is NULL. */
static reply asked(const calls *by, const max6954_device *chain, const call *c)
{
    const uint16_t *font14 = c->lengths[0] ? fonts[0] : NULL, *font16 = c->lengths[1] ? fonts[1] : NULL;
    switch (c->kind) {
    case SEGMENTS: {
        const max6954_segment_answer a = by->segments(chain, c->n, c->driver, c->place, font14, c->lengths[0], font16, c->lengths[1]);
        return answered(&a, sizeof a);
    }
    case BRIGHTNESS: {
        const max6954_brightness_answer a = by->brightness(chain, c->n, c->driver, c->place);
        return answered(&a, sizeof a);
    }
    case SHOWN: {
        const max6954_shown_answer a = by->shown(chain, c->n, c->driver);
        return answered(&a, sizeof a);
    }
    case INTERRUPT: {
        const max6954_interrupt_answer a = by->interrupt(chain, c->n, c->driver);
        return answered(&a, sizeof a);
    }
    case ANSWER_MARK: {
        const max6954_mark_answer a = by->answer_mark(chain, c->n, c->driver);
        return answered(&a, sizeof a);
    }
    default: {
        const max6957_port_answer a = by->ports(chain, c->n, c->driver);
        return answered(&a, sizeof a);
    }
    }
}

/* The three calls on the plane that is shown. */
static reply asked_of_plane(const calls *by, const max6954_device *chain, const call *c)
{
    const uint8_t *p0 = c->lengths[0] ? planes[0] : NULL, *p1 = c->lengths[1] ? planes[1] : NULL;
    const max6954_shown_answer a = by->plane_shown(chain, c->n, c->driver, p0, c->lengths[0], p1, c->lengths[1], c->first, c->last);
    const uint8_t number = by->plane_number(chain, c->n, c->driver, p0, c->lengths[0], p1, c->lengths[1], c->first, c->last);
    return (reply){ number, { a.plane, a.number }, by->plane(chain, c->n, c->driver, p0, c->lengths[0], p1, c->lengths[1], c->first, c->last) };
}

/* A call by one double. */
static reply made(const calls *by, lent *on, const call *c)
{
    max6954_device *chain = c->n ? on->records + 1 : NULL;
    const uint32_t v = c->value;
    reply r = { 0, { 0 }, NULL };
    switch (c->kind) {
    case ACCESS:
        r.number = by->access(chain, c->n, c->clocks, c->sent ? sent : NULL, c->sent, c->room ? on->room + GUARD : NULL, c->room);
        return r;
    case SCAN:
        r.number = by->scan(chain, c->n, c->driver, (uint8_t)(v >> 24), (uint8_t)(v >> 16), (uint8_t)(v >> 8), (uint8_t)v);
        return r;
    case SET_PINS:
        r.number = by->set_pins(chain, c->n, c->driver, v);
        return r;
    case ADD_CLOCKS:
        r.number = by->add_clocks(chain, c->n, c->driver, v);
        return r;
    case PLANE:
        return asked_of_plane(by, chain, c);
    default:
        return asked(by, chain, c);
    }
}

static int same_record(size_t i)
{
    return same_fields(&after[0].records[i], &after[1].records[i]);
}

static int same(const reply *r, size_t n)
{
    int all = r[0].number == r[1].number && memcmp(r[0].back, r[1].back, sizeof r[0].back) == 0 && r[0].part == r[1].part;
    for (size_t i = 0; i <= n + 1; i++)
        all = all && same_record(i);
    return all && memcmp(after[0].room, after[1].room, sizeof after[0].room) == 0;
}

static void print_bytes(const char *name, const void *bytes, size_t count)
{
    printf("  %s ", name);
    for (size_t i = 0; i < count; i++)
        printf("%02X", ((const uint8_t *)bytes)[i]);
    printf("\n");
}

/* Every argument, whether or not the call's kind has it. */
static void print_call(const call *c)
{
    printf("DIFFERENCE: %s on %zu records, driver %zu, clocks %zu, sent %zu, room %zu, value %08lX, place %zu, lengths %zu %zu, digits %zu to %zu\n",
           kinds[c->kind].name, c->n, c->driver, c->clocks, c->sent, c->room, (unsigned long)c->value, c->place, c->lengths[0], c->lengths[1],
           c->first, c->last);
    print_bytes("sent", sent, c->sent);
}

/* The replies, the records that differ and that of the driver, and the bytes of the room that differ. */
static void print_results(const call *c, const reply *r)
{
    for (int k = 0; k < 2; k++) {
        printf("  %s gives %d%s", doubles[k].name, r[k].number, r[k].part ? " and a part" : "");
        print_bytes("", r[k].back, sizeof r[k].back);
    }
    for (size_t i = 0; i <= c->n + 1; i++) {
        if (same_record(i) && i != c->driver)
            continue;
        printf("  record %zu\n", i);
        print_bytes("before ", &before.records[i], sizeof before.records[i]);
        for (int k = 0; k < 2; k++)
            print_bytes(doubles[k].name, &after[k].records[i], sizeof after[k].records[i]);
    }
    for (size_t i = 0; i < sizeof before.room; i++)
        if (after[0].room[i] != after[1].room[i])
            printf("  byte %td of the room: before %02X, library %02X, tuned %02X\n", (ptrdiff_t)i - GUARD, before.room[i], after[0].room[i],
                   after[1].room[i]);
}

static size_t fresh_row(void)
{
    const size_t n = some_row(before.records);
    fill(before.room, sizeof before.room);
    fill(planes, sizeof planes);
    fill(fonts, sizeof fonts);
    after[0] = after[1] = before;
    return n;
}

/* Whether the doubles are alike in some calls on a row; the numbers given are counted. */
static int row_is_alike(unsigned long given[KINDS][LAST_NUMBER + 1])
{
    const size_t n = fresh_row();
    for (int k = 0; k < CALLS_ON_A_ROW; k++) {
        const call c = some_call(after[0].records + 1, n);
        some_words(sent, c.sent);
        before = after[0];
        const reply r[2] = { made(&doubles[0], &after[0], &c), made(&doubles[1], &after[1], &c) };
        if (!same(r, n)) {
            print_call(&c);
            print_results(&c, r);
            return 0;
        }
        given[c.kind][r[0].number % (LAST_NUMBER + 1)]++;
    }
    return 1;
}

static int power_up_is_alike(const char *name, max6954_device ours, max6954_device tuned)
{
    const int alike = same_fields(&ours, &tuned);
    if (!alike) {
        printf("DIFFERENCE: %s\n", name);
        print_bytes(doubles[0].name, &ours, sizeof ours);
        print_bytes(doubles[1].name, &tuned, sizeof tuned);
    }
    return alike;
}

/* Whether each kind of call has given each number that it may give. */
static int all_given(unsigned long given[KINDS][LAST_NUMBER + 1])
{
    int all = 1;
    for (int kind = 0; kind < KINDS; kind++)
        for (const char *number = kinds[kind].numbers; *number; number++)
            if (given[kind][*number == 'E' ? 14 : *number - '0'] == 0) {
                printf("%s never gave %c in hex\n", kinds[kind].name, *number);
                all = 0;
            }
    return all;
}

int main(void)
{
    static unsigned long given[KINDS][LAST_NUMBER + 1];
    unsigned long served = 0;
    int alike = power_up_is_alike("max6954_power_up", max6954_power_up(), tuned_power_up());
    alike = alike && power_up_is_alike("max6957_power_up", max6957_power_up(), tuned_power_up_6957());
    for (int row = 0; alike && row < ROWS; row++)
        alike = row_is_alike(given);
    if (!alike || !all_given(given))
        return 1;
    for (int kind = 0; kind < KINDS; kind++)
        served += given[kind][0];
    printf("library and hand-tuned double alike in %d random calls, of which %lu served\n", ROWS * CALLS_ON_A_ROW, served);
    return 0;
}
