/* The MAX6957 of the double tuned by hand: its words, its transition detection, and what its ports drive. Bit k of a row of 28 is port k+4. */
#ifndef TUNED_PORTS_H
#define TUNED_PORTS_H

#include "loads.h"
#include "ratchetelm.h"

#define FIELD(field) offsetof(max6957_registers, field)

_Static_assert(FIELD(pins) == FIELD(stored) + 4, "as in UNSOUND_LEVELS");
_Static_assert(FIELD(currents) == FIELD(pairs) + 7, "pairs are read as a word with the first current");
_Static_assert(FIELD(config.m) == FIELD(test) + 1 && FIELD(config.s) == FIELD(test) + 3 && FIELD(transition.mask) == FIELD(test) + 4 &&
                   FIELD(transition.snapshot) == FIELD(test) + 5 && FIELD(transition.interrupt) == FIELD(test) + 7,
               "as in UNSOUND_FLAGS");

/* What is 0 in a sound record: of stored and pins, of test, m, i, s, mask, snapshot, detecting and interrupt, and of global. */
#define UNSOUND_LEVELS 0xF0000000F0000000ull
#define UNSOUND_FLAGS 0xFEFE8080FEFEFEFEull
#define UNSOUND_GLOBAL 0xF0u

/* The ports that are watched, P24 to P30, and the one that is INT, P31. */
enum { WATCHED = 20, WATCHED_PORTS = 127, INT = 27 };

/* The upper bits of four pairs, of every byte. */
#define UPPER_OF_1(x) x, x, x | 1, x | 1
#define UPPER_OF_2(x) UPPER_OF_1(x), UPPER_OF_1(x), UPPER_OF_1(x | 2), UPPER_OF_1(x | 2)
#define UPPER_OF_3(x) UPPER_OF_2(x), UPPER_OF_2(x), UPPER_OF_2(x | 4), UPPER_OF_2(x | 4)

static const uint8_t uppers[256] = { UPPER_OF_3(0), UPPER_OF_3(0), UPPER_OF_3(8), UPPER_OF_3(8) };

/* Eight ports as read, bits after the last port being any. */
static inline uint32_t levels_from(const max6957_registers *r, unsigned k)
{
    const uint64_t pairs = load64(r->pairs) >> 2 * k;
    const uint32_t inputs = uppers[pairs & 255] | (uint32_t)uppers[pairs >> 8 & 255] << 4 | (r->config.s - 1u);
    const uint32_t stored = r->stored >> k;
    return stored ^ ((stored ^ r->pins >> k) & inputs);
}

/* The event, where a masked port differs from the snapshot while detection is on. */
static inline void settle(max6957_registers *r)
{
    max6957_transition *t = &r->transition;
    if (t->detecting) {
        const uint8_t raised = ((levels_from(r, WATCHED) ^ t->snapshot) & t->mask) != 0;
        t->interrupt |= raised;
        t->detecting = !raised;
    }
}

/* What a word does by its D15 to D8. Below 0x20 a byte of the registers becomes (byte & ~clear) | (data & put), or (byte & get) is read; from there
   on so many bits are written or read from port k on. */
typedef struct {
    uint8_t byte, clear, put, get, k, bits, special;
} __attribute__((aligned(8))) port_effect;

enum { PORTS_PLAIN, PORTS_WRITE_CONFIG, PORTS_READ_CONFIG, PORTS_WRITE_MASK, PORTS_READ_MASK };

#define PORTS_SPECIAL(kind) { 0, 0, 0, 0, 0, 0, kind }
#define WRITE_BYTE(byte, put) { byte, 255, put, 0, 0, 0, PORTS_PLAIN }
#define READ_BYTE(byte) { byte, 0, 0, 255, 0, 0, PORTS_PLAIN }
#define WRITE_PAIRS(r) WRITE_BYTE(FIELD(pairs) + (r), 255)
#define READ_PAIRS(r) READ_BYTE(FIELD(pairs) + (r))
#define WRITE_CURRENT(r) WRITE_BYTE(FIELD(currents) + (r), 255)
#define READ_CURRENT(r) READ_BYTE(FIELD(currents) + (r))
#define BITS(k, bits) { 0, 0, 0, 0, k, bits, PORTS_PLAIN }
#define ONE_PORT(k) BITS(k, 1)
#define EIGHT_PORTS(k) BITS(k, 255)
#define SEVEN_FROM(of, k) of(k), of(k + 1), of(k + 2), of(k + 3), of(k + 4), of(k + 5), of(k + 6)
#define FOURTEEN(of) SEVEN_FROM(of, 0), SEVEN_FROM(of, 7)
#define TWENTY_ONE(of) FOURTEEN(of), SEVEN_FROM(of, 14)
#define TWENTY_EIGHT(of) TWENTY_ONE(of), SEVEN_FROM(of, 21)
#define SPANS                                                                                                                                 \
    BITS(0, 15), BITS(0, 31), BITS(0, 63), BITS(0, 127), TWENTY_ONE(EIGHT_PORTS), BITS(21, 127), BITS(22, 63), BITS(23, 31), BITS(24, 15), \
        BITS(25, 7), BITS(26, 3), BITS(27, 1)

/* Table 3, as written and as read. */
static const port_effect port_effects[256] __attribute__((aligned(64))) = {
    [0x02] = WRITE_BYTE(FIELD(global), 15),
    [0x04] = PORTS_SPECIAL(PORTS_WRITE_CONFIG),
    [0x06] = PORTS_SPECIAL(PORTS_WRITE_MASK),
    [0x07] = WRITE_BYTE(FIELD(test), 1),
    [0x09] = SEVEN_FROM(WRITE_PAIRS, 0),
    [0x12] = FOURTEEN(WRITE_CURRENT),
    [0x24] = TWENTY_EIGHT(ONE_PORT),
    [0x40] = SPANS,
    [0x82] = READ_BYTE(FIELD(global)),
    [0x84] = PORTS_SPECIAL(PORTS_READ_CONFIG),
    [0x86] = PORTS_SPECIAL(PORTS_READ_MASK),
    [0x87] = READ_BYTE(FIELD(test)),
    [0x89] = SEVEN_FROM(READ_PAIRS, 0),
    [0x92] = FOURTEEN(READ_CURRENT),
    [0xA4] = TWENTY_EIGHT(ONE_PORT),
    [0xC0] = SPANS,
};

static inline void write_port_config(max6957_registers *r, uint8_t data)
{
    r->config.m = data >> 7;
    r->config.i = data >> 6 & 1;
    r->config.s = data & 1;
    r->transition.detecting = r->config.m;
    if (r->config.m) {
        r->transition.snapshot = levels_from(r, WATCHED) & WATCHED_PORTS;
        r->transition.interrupt = 0;
    }
}

/* What a read or a write of the mask does beside: an event is cleared, and detection stays off. */
static inline void clear_event(max6957_transition *t)
{
    t->detecting &= t->interrupt ^ 1;
    t->interrupt = 0;
}

/* The data that a word to or from configuration or mask leaves in the shift word. */
static __attribute__((noinline, cold)) uint8_t take_port_special(max6957_registers *r, uint8_t data, int kind)
{
    switch (kind) {
    case PORTS_WRITE_CONFIG:
        write_port_config(r, data);
        return data;
    case PORTS_READ_CONFIG:
        return (uint8_t)(r->config.m << 7 | r->config.i << 6 | r->config.s);
    case PORTS_WRITE_MASK:
        r->transition.mask = data & WATCHED_PORTS;
        clear_event(&r->transition);
        return data;
    default:
        clear_event(&r->transition);
        return r->transition.mask;
    }
}

/* The data that a word leaves in the shift word. */
static inline uint8_t take_port_word(max6957_registers *r, uint16_t word)
{
    const port_effect e = port_effects[word >> 8];
    uint8_t data = (uint8_t)word, *byte = (uint8_t *)r + e.byte;
    if (__builtin_expect(e.special, 0)) {
        data = take_port_special(r, data, e.special);
    } else if (word >> 15) {
        data = (uint8_t)(word >= 0xA000 ? levels_from(r, e.k) & e.bits : *byte & e.get);
    } else if (word >= 0x2000) {
        const uint32_t written = (uint32_t)e.bits << e.k;
        r->stored = (r->stored & ~written) | ((uint32_t)data << e.k & written);
    } else {
        *byte = (uint8_t)((*byte & ~e.clear) | (data & e.put));
    }
    settle(r);
    return data;
}

/* Sixteen ports, a byte for each. */
typedef uint8_t sixteen __attribute__((vector_size(16)));
typedef uint64_t halves __attribute__((vector_size(16)));

#define ONES 0x0101010101010101ull
#define ALL(x) (sixteen)(halves){ (x) * ONES, (x) * ONES }

/* What decides beside their pairs what ports drive. */
typedef struct {
    sixteen lit, outputs, numbers;    /* 255 where LEDs are lit whatever their bits and where outputs are driven, and the numbers of lit LEDs */
    uint32_t bits;
    int own;    /* whether the numbers are by their own currents */
} rule;

/* The first eight bytes of both, in turn. */
static inline sixteen in_turn(sixteen a, sixteen b)
{
    return __builtin_shufflevector(a, b, 0, 16, 1, 17, 2, 18, 3, 19, 4, 20, 5, 21, 6, 22, 7, 23);
}

static inline sixteen own_numbers(const uint8_t *currents)
{
    const uint64_t nibbles = 15 * ONES, x = load64(currents);
    return in_turn((sixteen)(halves){ x & nibbles, 0 }, (sixteen)(halves){ x >> 4 & nibbles, 0 }) + 3;
}

/* Sixteen ports from this one on, which is the first of its pairs. */
static inline sixteen driven(const max6957_registers *r, unsigned k, const rule *by)
{
    static const sixteen pair = { 3, 12, 48, 192, 3, 12, 48, 192, 3, 12, 48, 192, 3, 12, 48, 192 };
    static const sixteen output = { 1, 4, 16, 64, 1, 4, 16, 64, 1, 4, 16, 64, 1, 4, 16, 64 };
    static const sixteen bit = { 1, 2, 4, 8, 16, 32, 64, 128, 1, 2, 4, 8, 16, 32, 64, 128 };
    const sixteen bytes = (sixteen)(halves){ load32(r->pairs + k / 4), 0 }, twice = in_turn(bytes, bytes), pairs = in_turn(twice, twice) & pair;
    const uint64_t bits = by->bits >> k;
    const sixteen on = (sixteen)(((sixteen)(halves){ (bits & 255) * ONES, (bits >> 8 & 255) * ONES } & bit) != 0);
    const sixteen numbers = by->own ? own_numbers(r->currents + k / 2) : by->numbers;
    const sixteen leds = (sixteen)(pairs == 0) & (on | by->lit), outputs = (sixteen)(pairs == output) & by->outputs;
    return (leds & numbers) | (outputs & (1 - on));
}

/* P4 to P31 of a driver that isn't in shutdown, or is in display test. P31 has INT for its bit where it is an output and M is set. */
static inline void drive(uint8_t *ports, const max6957_registers *r)
{
    const int is_int = r->config.m && r->pairs[6] >> 6 == 1;
    const rule by = {
        ALL(r->test * 255ull),
        ALL(r->config.s * 255ull),
        ALL(r->test ? 10ull : r->global + 3ull),
        is_int ? (r->stored & ~(1u << INT)) | (uint32_t)r->transition.interrupt << INT : r->stored,
        r->config.i && !r->test,
    };
    const sixteen first = driven(r, 0, &by), last = driven(r, 12, &by);
    memcpy(ports, &first, 16);
    memcpy(ports + 12, &last, 16);
}

#endif
