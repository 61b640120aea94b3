#include <string.h>
#include "cases.h"
#include "random.h"

static uint32_t one_of(const uint32_t *numbers, size_t count)
{
    return numbers[below(count)];
}

#define ONE_OF(...) one_of((const uint32_t[]){ __VA_ARGS__ }, sizeof((const uint32_t[]){ __VA_ARGS__ }) / sizeof(uint32_t))

/* The families of a row, and of records in it. */
enum { OLD, NEW, MIXED };

static void fit_registers(max6954_device *d)
{
    max6954_registers *r = &d->registers;
    r->controls.global &= 15;
    r->controls.limit = one_in(2) ? 7 : r->controls.limit & 7;
    r->controls.gpio &= 31;
    r->controls.test = one_in(6);
    r->config.i &= 1;
    r->config.e &= 1;
    r->config.b &= 1;
    r->config.s = !one_in(6);
    r->keys.interrupt &= 1;
    r->pins &= 31;
    r->blink = one_in(2) ? (uint32_t)below(4000000) : ONE_OF(0, 999999, 1000000, 1999999, 2000000, 2999999, 3000000, 3999999);
    d->command &= 127;
}

/* What P24 to P30 of a driver read. */
static uint8_t watched(const max6957_registers *r)
{
    uint8_t levels = 0;
    for (int k = 0; k < 7; k++) {
        const int input = !r->config.s || (r->pairs[5 + k / 4] >> (2 * (k % 4) + 1) & 1);
        levels |= (uint8_t)(((input ? r->pins : r->stored) >> (20 + k) & 1) << k);
    }
    return levels;
}

/* Ports of any modes or all of one, watched or not; the snapshot mostly is what they read. */
static void fit_ports(max6957_registers *r)
{
    max6957_transition *t = &r->transition;
    r->stored &= 0x0FFFFFFF;
    r->pins &= 0x0FFFFFFF;
    if (one_in(4))
        memset(r->pairs, (int)ONE_OF(0x00, 0x55, 0xAA, 0xFF), sizeof r->pairs);
    r->global &= 15;
    r->test = one_in(6);
    r->config.m &= 1;
    r->config.i &= 1;
    r->config.s = !one_in(6);
    t->mask = one_in(2) ? (uint8_t)(1 << below(7)) : t->mask & 127;
    t->snapshot = one_in(4) ? t->snapshot & 127 : watched(r);
    t->detecting &= 1;
    t->interrupt = one_in(4);
}

/* A sound record. What the other family has in it is any bytes. */
static max6954_device sound(uint8_t family)
{
    max6954_device d;
    fill(&d, sizeof d);
    d.family = family;
    d.answer_mark &= 1;
    if (family == OLD)
        fit_registers(&d);
    else
        fit_ports(&d.ports);
    return d;
}

/* A number above the most that fits: the next, the largest or any. */
static uint32_t above(uint32_t most, uint32_t largest)
{
    return one_in(3) ? most + 1 : one_in(2) ? largest : most + 1 + (uint32_t)below(largest - most);
}

/* A byte of a record and the most that it may hold. */
typedef struct {
    uint8_t *field, most;
} bound;

static void spoil_byte(const bound *fields, size_t count)
{
    const bound b = fields[below(count)];
    *b.field = (uint8_t)above(b.most, 255);
}

/* Makes one field of an old driver not fit. */
static void spoil_registers(max6954_device *d)
{
    max6954_registers *r = &d->registers;
    const bound fields[] = {
        { &r->controls.global, 15 }, { &r->controls.limit, 7 }, { &r->controls.gpio, 31 }, { &r->controls.test, 1 }, { &r->config.i, 1 },
        { &r->config.e, 1 },         { &r->config.b, 1 },       { &r->config.s, 1 },       { &r->keys.interrupt, 1 }, { &d->answer_mark, 1 },
        { &d->command, 127 },
    };
    if (one_in(8))
        r->pins = above(31, UINT32_MAX);
    else if (one_in(8))
        r->blink = above(3999999, UINT32_MAX);
    else
        spoil_byte(fields, sizeof fields / sizeof fields[0]);
}

/* So of a MAX6957. */
static void spoil_ports(max6954_device *d)
{
    max6957_registers *r = &d->ports;
    max6957_transition *t = &r->transition;
    const bound fields[] = {
        { &r->global, 15 }, { &r->test, 1 },       { &r->config.m, 1 },  { &r->config.i, 1 },  { &r->config.s, 1 },
        { &t->mask, 127 },  { &t->snapshot, 127 }, { &t->detecting, 1 }, { &t->interrupt, 1 }, { &d->answer_mark, 1 },
    };
    if (one_in(8))
        r->stored = above(0x0FFFFFFF, UINT32_MAX);
    else if (one_in(8))
        r->pins = above(0x0FFFFFFF, UINT32_MAX);
    else
        spoil_byte(fields, sizeof fields / sizeof fields[0]);
}

/* Makes one field not fit, or any bytes of the record but mostly its family. */
static void spoil(max6954_device *d)
{
    const uint8_t family = d->family;
    if (one_in(12)) {
        fill(d, sizeof *d);
        d->family = one_in(3) ? d->family : family;
    } else if (family == OLD) {
        spoil_registers(d);
    } else {
        spoil_ports(d);
    }
}

/* A record of no family, in all else sound or any bytes. */
static void make_unknown(max6954_device *d)
{
    if (one_in(2))
        fill(d, sizeof *d);
    d->family = (uint8_t)above(1, 255);
}

size_t some_row(max6954_device *records)
{
    const size_t n = one_in(16) ? ONE_OF(0, 17, 18) : one_in(4) ? ONE_OF(1, 16) : 1 + below(16);
    const uint32_t families = ONE_OF(OLD, OLD, OLD, NEW, MIXED, MIXED);
    for (size_t i = 0; i <= n + 1; i++)
        records[i] = sound((uint8_t)(families == MIXED ? below(2) : families));
    if (n && one_in(12))
        make_unknown(&records[1 + below(n)]);
    if (n && one_in(8))
        spoil(&records[1 + below(n)]);
    return n;
}

/* Mostly below n; otherwise n, the largest, a number that looks small in its low half, or any. */
static size_t within(size_t n)
{
    switch (below(40)) {
    case 0:
        return n;
    case 1:
        return SIZE_MAX;
    case 2:
        return (size_t)((uint64_t)1 << 32 | below(n));
    case 3:
        return (size_t)random_number();
    default:
        return below(n);
    }
}

/* Mostly 16 for each driver, then fewer, more and the edges. */
static size_t some_clocks(size_t n)
{
    switch (below(12)) {
    case 0:
        return 0;
    case 1:
        return below(16 * n + 1);
    case 2:
        return 16 * n + below(20);
    case 3:
        return 8 * below(8 * n + 1);
    case 4:
        return ONE_OF(4095, 4096, 4097, 4104);
    case 5:
        return below(4097);
    case 6:
        return one_in(2) ? SIZE_MAX - below(9) : (size_t)((uint64_t)1 << 32 | below(4097));
    default:
        return 16 * n;
    }
}

/* Mostly what the clocks need. */
static size_t some_bytes(size_t needed)
{
    switch (below(24)) {
    case 0:
        return needed ? needed - 1 : 0;
    case 1:
        return 0;
    case 2:
        return needed + below(9);
    default:
        return needed;
    }
}

/* Mostly the length that a plane or table must have. */
static size_t some_length(size_t exact)
{
    return one_in(30) ? exact + 1 - below(3) : one_in(60) ? 0 : exact;
}

static void some_access(call *c)
{
    c->clocks = some_clocks(c->n);
    const size_t needed = c->clocks > 4104 ? 513 : (c->clocks + 7) / 8;
    c->sent = some_bytes(needed);
    c->room = some_bytes(needed);
}

static void some_part(call *c)
{
    c->first = within(16);
    c->last = one_in(12) ? within(16) : c->first + below(16 - c->first % 16);
    c->lengths[0] = some_length(16);
    c->lengths[1] = some_length(16);
}

/* Pin levels, mostly ones that the driver has: for a MAX6957 often its own but for one port. */
static uint32_t some_levels(const max6954_device *d)
{
    const uint32_t any = (uint32_t)random_number();
    if (d->family == OLD)
        return (uint32_t)within(32);
    if (one_in(20))
        return above(0x0FFFFFFF, UINT32_MAX);
    return one_in(2) ? (d->ports.pins ^ 1u << below(28)) & 0x0FFFFFFF : any >> 4;
}

call some_call(const max6954_device *row, size_t n)
{
    call c = { .kind = one_in(3) ? ACCESS : (int)below(KINDS), .n = n, .driver = within(n ? n : 1) + 1 };
    switch (c.kind) {
    case ACCESS:
        some_access(&c);
        break;
    case SCAN:
        c.value = (uint32_t)random_number();
        break;
    case SET_PINS:
        c.value = some_levels(row + (c.driver - 1) % (n ? n : 1));
        break;
    case ADD_CLOCKS:
        c.value = one_in(2) ? (uint32_t)random_number() : ONE_OF(0, 1, 999999, 1000000, 2000000, 3999999, 4000000, 4000001, UINT32_MAX);
        break;
    case SEGMENTS:
        c.place = within(8);
        c.lengths[0] = some_length(128);
        c.lengths[1] = some_length(128);
        break;
    case BRIGHTNESS:
        c.place = within(16);
        break;
    case PLANE:
        some_part(&c);
        break;
    }
    return c;
}

void some_words(uint8_t *sent, size_t count)
{
    static const uint8_t addresses[] = { 0x02, 0x04, 0x04, 0x06, 0x06, 0x07, 0x09, 0x0E, 0x0F, 0x12, 0x1F, 0x38, 0x3E, 0x3F, 0x40, 0x43, 0x52, 0x58, 0x5F };
    fill(sent, count);
    for (size_t i = 0; i + 1 < count; i += 2)
        if (one_in(3))
            sent[i] = (uint8_t)(addresses[below(sizeof addresses)] | (sent[i] & 0x80));
}
