#include "plain.h"

enum { DIGITS = 16, DRIVERS = 16, CYCLE = 4000000 };

static const max6954_planes cleared;

static int is_sound(const max6954_device *d)
{
    const max6954_registers *r = &d->registers;
    const max6954_controls *c = &r->controls;
    return c->global < 16 && c->limit < 8 && c->gpio < 32 && c->test < 2 && r->config.i < 2 && r->config.e < 2 && r->config.b < 2 && r->config.s < 2 &&
           r->keys.interrupt < 2 && r->pins < 32 && r->blink < CYCLE && d->answer_mark < 2 && d->command < 128;
}

/* Of a MAX6957. */
static int ports_sound(const max6954_device *d)
{
    const max6957_registers *r = &d->ports;
    const max6957_transition *t = &r->transition;
    return r->stored < 1u << 28 && r->pins < 1u << 28 && r->global < 16 && r->test < 2 && r->config.m < 2 && r->config.i < 2 && r->config.s < 2 &&
           t->mask < 128 && t->snapshot < 128 && t->detecting < 2 && t->interrupt < 2 && d->answer_mark < 2;
}

/* 7, or 14 where some family is unknown; 0 where neither. */
static uint8_t refused(const max6954_device *chain, size_t n)
{
    uint8_t number = 0;
    for (size_t i = 0; i < n; i++) {
        if (chain[i].family > 1)
            number = 14;
        else if (!(chain[i].family ? ports_sound : is_sound)(chain + i))
            return 7;
    }
    return number;
}

static int has_6957(const max6954_device *chain, size_t n)
{
    for (size_t i = 0; i < n; i++)
        if (chain[i].family == 1)
            return 1;
    return 0;
}

/* The words that one digit needs, which has a and b and is to have x and y. */
static unsigned need(uint8_t a, uint8_t b, uint8_t x, uint8_t y)
{
    if (a == x)
        return b != y;
    return b == y || x == y ? 1 : 2;
}

static unsigned need_all(const max6954_planes *held, const uint8_t *wanted)
{
    unsigned sum = 0;
    for (unsigned k = 0; k < DIGITS; k++)
        sum += need(held->p0[k], held->p1[k], wanted[k], wanted[DIGITS + k]);
    return sum;
}

/* The words that all digits need, with a clear where it makes them fewer. */
static unsigned need_least(const max6954_planes *held, const uint8_t *wanted)
{
    const unsigned kept = need_all(held, wanted), anew = 1 + need_all(&cleared, wanted);
    return kept <= anew ? kept : anew;
}

/* Puts the words of all digits into the list, each n places after the one before; gives the place after them. */
static size_t write_digits(uint16_t *list, size_t at, size_t n, const max6954_planes *held, const uint8_t *wanted)
{
    for (unsigned k = 0; k < DIGITS; k++) {
        const uint8_t x = wanted[k], y = wanted[DIGITS + k];
        const int wrong0 = held->p0[k] != x, wrong1 = held->p1[k] != y;
        if (wrong0 && wrong1 && x == y) {
            list[at] = (uint16_t)(0x6000 + k * 256 + x);
            at += n;
            continue;
        }
        if (wrong0) {
            list[at] = (uint16_t)(0x2000 + k * 256 + x);
            at += n;
        }
        if (wrong1) {
            list[at] = (uint16_t)(0x4000 + k * 256 + y);
            at += n;
        }
    }
    return at;
}

/* A configuration write that clears the planes and keeps the rest. */
static uint16_t clear_word(const max6954_config *c)
{
    return (uint16_t)(0x0420 + c->i * 64 + c->e * 8 + c->b * 4 + c->s);
}

/* The words of the driver at place i, and no-ops after them up to the end of the list. */
static void write_driver(uint16_t *list, size_t i, size_t n, size_t end, const max6954_registers *r, const uint8_t *wanted)
{
    size_t at = i;
    if (need_all(&r->planes, wanted) <= 1 + need_all(&cleared, wanted)) {
        at = write_digits(list, at, n, &r->planes, wanted);
    } else {
        list[at] = clear_word(&r->config);
        at = write_digits(list, at + n, n, &cleared, wanted);
    }
    for (; at < end; at += n)
        list[at] = 0;
}

max6954_plan_answer plain_plan(const max6954_device *chain, size_t n, const uint8_t *wanted, size_t wanted_length, uint16_t *list, size_t room)
{
    size_t most = 0;
    if (n < 1 || n > DRIVERS)
        return (max6954_plan_answer){ 1, 0 };
    const uint8_t number = refused(chain, n);
    if (number || has_6957(chain, n))
        return (max6954_plan_answer){ number ? number : 14, 0 };
    if (wanted_length != MAX6954_WANTED_SIZE * n)
        return (max6954_plan_answer){ 12, 0 };
    for (size_t i = 0; i < n; i++) {
        const unsigned least = need_least(&chain[i].registers.planes, wanted + MAX6954_WANTED_SIZE * i);
        if (least > most)
            most = least;
    }
    if (room < most * n)
        return (max6954_plan_answer){ 13, 0 };
    for (size_t i = 0; i < n; i++)
        write_driver(list, i, n, most * n, &chain[i].registers, wanted + MAX6954_WANTED_SIZE * i);
    return (max6954_plan_answer){ 0, most };
}

max6954_look_back_answer plain_look_back(const max6954_device *chain, size_t n, size_t driver, size_t plane, size_t digit, const uint16_t *words,
                                         size_t length)
{
    if (n < 1 || n > DRIVERS)
        return (max6954_look_back_answer){ 1, 0 };
    if (driver < 1 || driver > n)
        return (max6954_look_back_answer){ 2, 0 };
    if (plane > 1 || digit >= DIGITS)
        return (max6954_look_back_answer){ 6, 0 };
    const uint8_t number = refused(chain, n);
    if (number || chain[driver - 1].family == 1)
        return (max6954_look_back_answer){ number ? number : 14, 0 };
    const unsigned own = (plane ? 0x40 : 0x20) + (unsigned)digit, both = 0x60 + (unsigned)digit;
    for (size_t i = length; i > 0; i--) {
        const unsigned word = words[i - 1], high = word >> 8;
        if (high == own || high == both)
            return (max6954_look_back_answer){ 0, (uint8_t)word };
        if (high == 0x04 && word & 0x20)
            return (max6954_look_back_answer){ 0, 0 };
    }
    const max6954_planes *held = &chain[driver - 1].registers.planes;
    return (max6954_look_back_answer){ 0, (plane ? held->p1 : held->p0)[digit] };
}
