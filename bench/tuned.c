#include <string.h>
#include "loads.h"
#include "tuned.h"
#include "tuned_ports.h"

#define OFFSET(field) offsetof(max6954_device, field)
#define CONTROL(field) OFFSET(registers.controls.field)
#define KEY(group, field) OFFSET(registers.keys.group.field)
#define OWN(k) (OFFSET(registers.intensities) + (k))
#define P0(d) (OFFSET(registers.planes.p0) + (d))
#define P1(d) (OFFSET(registers.planes.p1) + (d))

_Static_assert(__BYTE_ORDER__ == __ORDER_LITTLE_ENDIAN__, "records are read by words");
_Static_assert(CONTROL(decode) == 0 && CONTROL(types) == 6 && OFFSET(registers.config.i) == 7 && OFFSET(registers.config.s) == 10, "as in UNSOUND");
_Static_assert(OFFSET(answer_mark) == OFFSET(shift) + 3 && OFFSET(command) == OFFSET(shift) + 4 && OFFSET(family) == OFFSET(shift) + 5 &&
                   OFFSET(ports) == OFFSET(shift) + 8,
               "as in UNSOUND_TAIL");
_Static_assert(sizeof(max6954_group) == 4 && KEY(d, mask) == KEY(a, mask) + 12, "a scan takes the groups as four words");

/* What is 0 in a sound record: of decode, global, limit, gpio, ports, test, types and i, and then of e, b and s. */
#define UNSOUND (0xF0ull << 8 | 0xF8ull << 16 | 0xE0ull << 24 | 0xFEull << 40 | 0xFEull << 56)
#define UNSOUND_CONFIG 0x00FEFEFEu

/* So of the shift word, fitted, answer mark, command address and family, and of the padding. A MAX6957 has no command address. */
#define UNSOUND_TAIL (0xFEull << 24 | 0x80ull << 32 | 0xFFull << 40)
#define UNSOUND_PORTS_TAIL (0xFEull << 24 | 0xFFull << 40)

#define CYCLE 4000000u

/* The families; and which of them lacks a call. */
enum { OLD, NEW, NEITHER };

/* The fields that have a bound, of every record seen. */
typedef struct {
    uint64_t controls;
    uint64_t tail;    /* from the shift word on */
    uint32_t config, interrupt, pins, blink;
} bounds;

static inline void see(bounds *seen, const max6954_device *d)
{
    const uint8_t *bytes = (const uint8_t *)d;
    const uint32_t count = d->registers.blink;
    seen->controls |= load64(bytes);
    seen->config |= load32(bytes + 8);
    seen->tail |= load64(&d->shift);
    seen->interrupt |= d->registers.keys.interrupt;
    seen->pins |= d->registers.pins;
    seen->blink |= count | (CYCLE - 1 - count);    /* the top bit where the count isn't below the cycle */
}

/* Whether some record seen is of another family or isn't sound. */
static inline int unsound(const bounds *seen)
{
    return ((seen->controls & UNSOUND) | (seen->tail & UNSOUND_TAIL) | (seen->config & UNSOUND_CONFIG) | (seen->interrupt & ~1u) |
            (seen->pins & ~31u) | seen->blink >> 31) != 0;
}

/* The same of records of a MAX6957. */
typedef struct {
    uint64_t levels, flags, tail;
    uint32_t global;
} port_bounds;

static inline void see_ports(port_bounds *seen, const max6954_device *d)
{
    seen->levels |= load64(&d->ports.stored);
    seen->flags |= load64(&d->ports.test);
    seen->global |= d->ports.global;
    seen->tail |= load64(&d->shift) ^ (uint64_t)NEW << 40;
}

static inline int unsound_ports(const port_bounds *seen)
{
    return ((seen->levels & UNSOUND_LEVELS) | (seen->flags & UNSOUND_FLAGS) | (seen->tail & UNSOUND_PORTS_TAIL) |
            (seen->global & UNSOUND_GLOBAL)) != 0;
}

/* 7, 14 or 0 by the records of a row of any families. */
static __attribute__((noinline)) uint8_t number_by_record(const max6954_device *chain, size_t n)
{
    bounds seen = { 0 };
    port_bounds ports = { 0 };
    int known = 1;
    for (size_t i = 0; i < n; i++) {
        if (chain[i].family == OLD)
            see(&seen, chain + i);
        else if (chain[i].family == NEW)
            see_ports(&ports, chain + i);
        else
            known = 0;
    }
    return unsound(&seen) || unsound_ports(&ports) ? 7 : known ? 0 : 14;
}

/* Whether all are sound and of the one family or the other. */
static inline int all_old(const max6954_device *chain, size_t n)
{
    bounds seen = { 0 };
    for (size_t i = 0; i < n; i++)
        see(&seen, chain + i);
    return !unsound(&seen);
}

static inline int all_new(const max6954_device *chain, size_t n)
{
    port_bounds seen = { 0 };
    for (size_t i = 0; i < n; i++)
        see_ports(&seen, chain + i);
    return !unsound_ports(&seen);
}

/* The number of a call that names a driver; some value of it gives 6 or not, and a family may lack it. Rows of one family are passed over once. */
static inline uint8_t number_of(const max6954_device *chain, size_t n, size_t driver, int value, int lacks)
{
    if (n - 1 >= 16)
        return 1;
    if (driver - 1 >= n)
        return 2;
    if (value)
        return 6;
    if (lacks == OLD || (lacks == NEITHER && chain->family == NEW) ? all_new(chain, n) : all_old(chain, n))
        return 0;
    const uint8_t number = number_by_record(chain, n);
    return number == 0 && chain[driver - 1].family == lacks ? 14 : number;
}

/* Whether a blink count is in the P0 phase. */
static inline int p0_phase(uint32_t count, int fast)
{
    const uint32_t half = CYCLE / 2;
    if (!fast)
        return count < half;
    return (count >= half ? count - half : count) < half / 2;
}

static inline int shows_p1(const max6954_registers *r)
{
    return r->config.e && !p0_phase(r->blink, r->config.b);
}

/* What a word does by its D15 to D8: two bytes of the record become (byte & keep) | (data & put), and the shift word's data becomes
   (first byte & get) | (data & echo). */
typedef struct {
    uint8_t first, second, keep, put, get, echo, interrupt, special;
} effect;

enum { PLAIN, WRITE_CONFIG, READ_CONFIG, READ_GPIO };

#define WRITE(byte, put) { byte, byte, 0, put, 0, 255, 255, PLAIN }
#define WRITE_BOTH(d) { P0(d), P1(d), 0, 255, 0, 255, 255, PLAIN }
#define WRITE_P0(d) WRITE(P0(d), 255)
#define WRITE_P1(d) WRITE(P1(d), 255)
#define WRITE_OWN(k) WRITE(OWN(k), 255)
#define NO_WRITE(d) { 0, 0, 255, 0, 0, 255, 255, PLAIN }
#define READ(byte) { byte, byte, 255, 0, 255, 0, 255, PLAIN }
#define READ_DEBOUNCED(group) { KEY(group, debounced), KEY(group, debounced), 0, 0, 255, 0, 0, PLAIN }
#define READ_P0(d) READ(P0(d))
#define READ_P1(d) READ(P1(d))
#define READ_OWN(k) READ(OWN(k))
#define NO_READ(d) { 0, 0, 255, 0, 0, 0, 255, PLAIN }
#define SPECIAL(kind) { 0, 0, 0, 0, 0, 0, 0, kind }
#define EIGHT(of) of(0), of(1), of(2), of(3), of(4), of(5), of(6), of(7)
#define SIXTEEN(of) EIGHT(of), of(8), of(9), of(10), of(11), of(12), of(13), of(14), of(15)

static const effect effects[256] __attribute__((aligned(64))) = {
    NO_WRITE(0), WRITE(CONTROL(decode), 255), WRITE(CONTROL(global), 15), WRITE(CONTROL(limit), 7),
    SPECIAL(WRITE_CONFIG), WRITE(CONTROL(gpio), 31), WRITE(CONTROL(ports), 255), WRITE(CONTROL(test), 1),
    WRITE(KEY(a, mask), 255), WRITE(KEY(b, mask), 255), WRITE(KEY(c, mask), 255), WRITE(KEY(d, mask), 255),
    WRITE(CONTROL(types), 255), NO_WRITE(0), NO_WRITE(0), NO_WRITE(0),
    EIGHT(WRITE_OWN), EIGHT(NO_WRITE),
    SIXTEEN(WRITE_P0), SIXTEEN(NO_WRITE), SIXTEEN(WRITE_P1), SIXTEEN(NO_WRITE), SIXTEEN(WRITE_BOTH), SIXTEEN(NO_WRITE),
    NO_READ(0), READ(CONTROL(decode)), READ(CONTROL(global)), READ(CONTROL(limit)),
    SPECIAL(READ_CONFIG), SPECIAL(READ_GPIO), READ(CONTROL(ports)), READ(CONTROL(test)),
    READ_DEBOUNCED(a), READ_DEBOUNCED(b), READ_DEBOUNCED(c), READ_DEBOUNCED(d),
    READ(KEY(a, pressed)), READ(KEY(b, pressed)), READ(KEY(c, pressed)), READ(KEY(d, pressed)),
    EIGHT(READ_OWN), EIGHT(NO_READ),
    SIXTEEN(READ_P0), SIXTEEN(NO_READ), SIXTEEN(READ_P1), SIXTEEN(NO_READ), SIXTEEN(NO_READ), SIXTEEN(NO_READ),
};

static void write_config(max6954_registers *r, uint8_t data)
{
    r->config.i = data >> 6 & 1;
    r->config.e = data >> 3 & 1;
    r->config.b = data >> 2 & 1;
    r->config.s = data & 1;
    if (data & 0x20)
        memset(&r->planes, 0, sizeof r->planes);
    if (data & 0x10)
        r->blink = 0;
}

static uint8_t read_config(const max6954_registers *r)
{
    const max6954_config *c = &r->config;
    return (uint8_t)(p0_phase(r->blink, c->b) << 7 | c->i << 6 | c->e << 3 | c->b << 2 | c->s);
}

static uint8_t read_gpio(const max6954_registers *r)
{
    static const uint8_t by_groups[8] = { 31, 14, 12, 8, 0, 0, 0, 0 };    /* the ports that are no key row and no interrupt */
    const uint8_t inputs = r->controls.ports & 31, groups = r->controls.ports >> 5;
    const uint8_t data = (uint8_t)((r->controls.gpio & ~inputs) | (r->pins & inputs)) & by_groups[groups];
    return groups ? (uint8_t)(data | r->keys.interrupt << 4) : data;
}

/* The shift word that a word leaves with its data, and its answer mark. */
static inline void leave(max6954_device *d, uint16_t word, uint8_t data)
{
    d->shift = (uint16_t)((word & 0xFF00) | data);
    d->answer_mark = (uint8_t)(word >> 15);
}

static __attribute__((noinline, cold)) void take_special(max6954_device *d, uint16_t word, int kind)
{
    uint8_t data = (uint8_t)word;
    if (kind == WRITE_CONFIG)
        write_config(&d->registers, data);
    else
        data = kind == READ_CONFIG ? read_config(&d->registers) : read_gpio(&d->registers);
    leave(d, word, data);
}

static inline void take(max6954_device *d, uint16_t word)
{
    const effect e = effects[word >> 8];
    if (__builtin_expect(e.special, 0)) {
        take_special(d, word, e.special);
        return;
    }
    uint8_t *bytes = (uint8_t *)d;
    const uint8_t data = (uint8_t)word, first = bytes[e.first], second = bytes[e.second];
    bytes[e.first] = (uint8_t)((first & e.keep) | (data & e.put));
    bytes[e.second] = (uint8_t)((second & e.keep) | (data & e.put));
    d->registers.keys.interrupt &= e.interrupt;
    leave(d, word, (uint8_t)((first & e.get) | (data & e.echo)));
}

static inline void take_ports(max6954_device *d, uint16_t word)
{
    leave(d, word, take_port_word(&d->ports, word));
}

static inline void take_either(max6954_device *d, uint16_t word)
{
    if (d->family == NEW)
        take_ports(d, word);
    else
        take(d, word);
}

/* Copies at most 32 bytes. */
static inline void copy(uint8_t *to, const uint8_t *from, size_t count)
{
    if (count >= 16) {
        const uint64_t a = load64(from), b = load64(from + 8), c = load64(from + count - 16), d = load64(from + count - 8);
        store64(to, a);
        store64(to + 8, b);
        store64(to + count - 16, c);
        store64(to + count - 8, d);
    } else if (count >= 8) {
        const uint64_t a = load64(from), b = load64(from + count - 8);
        store64(to, a);
        store64(to + count - 8, b);
    } else if (count >= 4) {
        const uint32_t a = load32(from), b = load32(from + count - 4);
        store32(to, a);
        store32(to + count - 4, b);
    } else if (count >= 2) {
        const uint16_t a = load16(from), b = load16(from + count - 2);
        store16(to, a);
        store16(to + count - 2, b);
    } else if (count) {
        *to = *from;
    }
}

#define INLINED static inline __attribute__((always_inline))

/* Each driver takes its 16 bits of a string that ends here, driver 1's last; odd is how many bits of its last byte are of it. */
INLINED void take_all(max6954_device *chain, size_t n, const uint8_t *end, unsigned odd, void (*taken)(max6954_device *, uint16_t))
{
    if (odd == 0) {
        for (size_t i = 0; i < n; i++) {
            end -= 2;
            taken(chain + i, __builtin_bswap16(load16(end)));
        }
        return;
    }
    for (size_t i = 0; i < n; i++) {
        end -= 2;
        const uint32_t bits = (uint32_t)end[0] << 16 | (uint32_t)end[1] << 8 | end[2];
        taken(chain + i, (uint16_t)(bits >> (8 - odd)));
    }
}

/* Puts a shift word before this place. */
static inline uint8_t *put_shift(uint8_t *at, const max6954_device *d)
{
    store16(at - 2, __builtin_bswap16(d->shift));
    return at - 2;
}

/* Answers from the line, which has the shift words and room for as many sent bytes. Gives where the bits left in the drivers begin. */
INLINED const uint8_t *answer_bits(uint8_t *line, size_t old, size_t clocks, const uint8_t *sent, uint8_t *answer)
{
    const size_t needed = (clocks + 7) / 8;
    const unsigned odd = clocks % 8;
    const uint8_t *left;    /* from the byte on that has the first of them */
    if (clocks >= 8 * old) {
        copy(answer, line, old);
        if (needed - old > 32)
            memcpy(answer + old, sent, needed - old);
        else
            copy(answer + old, sent, needed - old);
        left = sent + clocks / 8 - old;
    } else {
        copy(answer, line, needed);
        copy(line + old, sent, needed);
        left = line + clocks / 8;
    }
    if (odd)
        answer[needed - 1] &= (uint8_t)(0xFF00 >> odd);
    return left;
}

/* An access that isn't refused by its arguments, to a row that isn't of sound old drivers alone. */
static __attribute__((noinline)) uint8_t access_ports(max6954_device *chain, size_t n, size_t clocks, const uint8_t *sent, uint8_t *answer)
{
    uint8_t line[64], *at = line + 2 * n;
    port_bounds seen = { 0 };
    for (size_t i = 0; i < n; i++) {
        see_ports(&seen, chain + i);
        at = put_shift(at, chain + i);
    }
    const int alike = !unsound_ports(&seen);
    const uint8_t number = alike ? 0 : number_by_record(chain, n);
    if (number)
        return number;
    const uint8_t *end = answer_bits(line, 2 * n, clocks, sent, answer) + 2 * n;
    if (alike)
        take_all(chain, n, end, clocks % 8, take_ports);
    else
        take_all(chain, n, end, clocks % 8, take_either);
    return 0;
}

uint8_t tuned_access(max6954_device *chain, size_t n, size_t clocks, const uint8_t *sent, size_t sent_length, uint8_t *answer, size_t room)
{
    const size_t needed = (clocks + 7) / 8, old = 2 * n;
    if (n - 1 >= 16)
        return 1;
    if (clocks > 4096)
        return 3;
    if (sent_length < needed)
        return 4;
    if (room < needed)
        return 5;
    if (__builtin_expect(chain->family == NEW, 0))
        return access_ports(chain, n, clocks, sent, answer);

    uint8_t line[64];    /* the shift words as they are clocked out, then sent bytes */
    uint8_t *at = line + old;
    bounds seen = { 0 };
    for (size_t i = 0; i < n; i++) {
        see(&seen, chain + i);
        at = put_shift(at, chain + i);
    }
    if (unsound(&seen))
        return access_ports(chain, n, clocks, sent, answer);
    take_all(chain, n, answer_bits(line, old, clocks, sent, answer) + old, clocks % 8, take);
    return 0;
}

/* The keys of all four groups, a lane for each. */
typedef uint32_t lanes __attribute__((vector_size(16)));

uint8_t tuned_scan(max6954_device *chain, size_t n, size_t driver, uint8_t a, uint8_t b, uint8_t c, uint8_t d)
{
    static const uint32_t by_groups[8] = { 0, 0xFF, 0xFFFF, 0xFFFFFF, ~0u, ~0u, ~0u, ~0u };
    const uint8_t number = number_of(chain, n, driver, 0, NEW);
    if (number)
        return number;
    max6954_registers *r = &chain[driver - 1].registers;
    const uint32_t scanned = by_groups[r->controls.ports >> 5];
    const uint32_t closed = (a | (uint32_t)b << 8 | (uint32_t)c << 16 | (uint32_t)d << 24) & scanned;
    const lanes now = { closed & 255, closed >> 8 & 255, closed >> 16 & 255, closed >> 24 };
    lanes keys;
    memcpy(&keys, &r->keys, 16);
    const lanes debounced = (keys >> 16) & ~(keys >> 24) & now;    /* pressed in the scan before, not held, closed now */
    const lanes raised = debounced & keys;
    keys = (keys & 0xFFFF) | debounced << 8 | now << 16 | ((keys | debounced << 24) & now << 24);
    memcpy(&r->keys, &keys, 16);
    uint64_t halves[2];
    memcpy(halves, &raised, 16);
    r->keys.interrupt |= (halves[0] | halves[1]) != 0;
    return 0;
}

/* Whether pin levels are more than a driver of a known family has. */
static inline int too_high(uint32_t levels, uint8_t family)
{
    return family == OLD ? levels > 31 : family == NEW && levels >> 28;
}

uint8_t tuned_set_pins(max6954_device *chain, size_t n, size_t driver, uint32_t levels)
{
    const int named = n - 1 < 16 && driver - 1 < n;
    const uint8_t number = number_of(chain, n, driver, named && too_high(levels, chain[driver - 1].family), NEITHER);
    if (number)
        return number;
    max6954_device *d = chain + (driver - 1);
    if (d->family == NEW) {
        d->ports.pins = levels;
        settle(&d->ports);
    } else {
        d->registers.pins = levels;
    }
    return 0;
}

uint8_t tuned_add_clocks(max6954_device *chain, size_t n, size_t driver, uint32_t clocks)
{
    const uint8_t number = number_of(chain, n, driver, 0, NEW);
    if (number)
        return number;
    uint32_t *count = &chain[driver - 1].registers.blink;
    const uint32_t sum = *count + clocks % CYCLE;
    *count = sum >= CYCLE ? sum - CYCLE : sum;
    return 0;
}

/* The displays of a cathode, and its nineteen pins with every segment unlit: places 0 to 16 in turn on the pins that aren't of its pair. */
enum { SEGMENTS16, SEGMENTS14, PAIR };

#define PLACE(kind, place) ((place == 1 && kind != SEGMENTS16) || (place == 5 && kind == SEGMENTS14) ? MAX6954_NO_SEGMENT : MAX6954_UNLIT)
#define PIN(kind, d, pin) pin == d ? MAX6954_CATHODE : pin == (d ^ 1) ? MAX6954_NOT_DRIVEN : PLACE(kind, (pin < d ? pin : pin - 2))
#define PINS(kind, d)                                                                                                                  \
    { PIN(kind, d, 0), PIN(kind, d, 1), PIN(kind, d, 2), PIN(kind, d, 3), PIN(kind, d, 4), PIN(kind, d, 5), PIN(kind, d, 6),          \
      PIN(kind, d, 7), PIN(kind, d, 8), PIN(kind, d, 9), PIN(kind, d, 10), PIN(kind, d, 11), PIN(kind, d, 12), PIN(kind, d, 13),      \
      PIN(kind, d, 14), PIN(kind, d, 15), PIN(kind, d, 16), PIN(kind, d, 17), PIN(kind, d, 18) }
#define PINS16(d) PINS(SEGMENTS16, d)
#define PINS14(d) PINS(SEGMENTS14, d)
#define PINS_PAIR(d) PINS(PAIR, d)

static const uint8_t unlit[3][8][24] = { { EIGHT(PINS16) }, { EIGHT(PINS14) }, { EIGHT(PINS_PAIR) } };

/* Eight bits, lowest first, as eight bytes of 0 or 1. */
static inline uint64_t spread(uint64_t bits)
{
    return (((bits & 255) * 0x0101010101010101 & 0x8040201008040201) + 0x00406070787C7E7F) >> 7 & 0x0101010101010101;
}

/* Eight pins of which those unlit are lit by their bits. */
static inline uint64_t light(const uint8_t *pins, uint64_t bits)
{
    const uint64_t from = load64(pins);
    return from ^ (spread(bits) & from & from >> 1);
}

static inline uint32_t reverse16(uint32_t x)
{
    x = (x >> 1 & 0x5555) | (x & 0x5555) << 1;
    x = (x >> 2 & 0x3333) | (x & 0x3333) << 2;
    x = (x >> 4 & 0x0F0F) | (x & 0x0F0F) << 4;
    return (x >> 8 | x << 8) & 0xFFFF;
}

/* A byte in the hex font, its point kept: a to g from D6 down, none for 0010000. */
static inline uint32_t hex(uint32_t byte)
{
    static const uint8_t font[16] = { 0x7E, 0x30, 0x6D, 0x79, 0x33, 0x5B, 0x5F, 0x70, 0x7F, 0x7B, 0x77, 0x1F, 0x4E, 0x3D, 0x4F, 0x47 };
    return (byte & 128) | ((byte & 127) == 16 ? 0 : font[byte & 15]);
}

/* The lit places of a cathode that isn't dark, bit k for place k. */
static inline uint32_t lit(const max6954_registers *r, size_t cathode, int kind, const uint16_t *font14, const uint16_t *font16)
{
    if (r->controls.test)
        return 0x1FFFF;
    const uint8_t *plane = shows_p1(r) ? r->planes.p1 : r->planes.p0;
    uint32_t x = plane[cathode];
    if (kind != PAIR)
        return reverse16((kind == SEGMENTS14 ? font14 : font16)[x & 127]) | (x & 0x80) << 9;
    uint32_t y = plane[cathode + 8];
    if (r->controls.decode >> cathode & 1) {
        x = hex(x);
        y = hex(y);
    }
    /* a, none, b, c, d, the point, e, f, g of the one, then a to g of the other and its point */
    return reverse16((x & 0x40) << 9 | (x & 0x38) << 8 | (x & 0x80) << 3 | (x & 7) << 7 | (y & 0x7F)) | (y & 0x80) << 9;
}

static inline int is_dark(const max6954_registers *r, size_t cathode)
{
    return !r->controls.test && (!r->config.s || cathode > r->controls.limit);
}

max6954_segment_answer tuned_segments(const max6954_device *chain, size_t n, size_t driver, size_t cathode, const uint16_t *font14,
                                      size_t font14_length, const uint16_t *font16, size_t font16_length)
{
    max6954_segment_answer out;
    const uint8_t number = number_of(chain, n, driver, cathode > 7 || font14_length != 128 || font16_length != 128, NEW);
    if (number || is_dark(&chain[driver - 1].registers, cathode)) {
        memset(&out, 0, sizeof out);
        out.number = number;
        return out;
    }
    const max6954_device *d = chain + (driver - 1);
    const int kind = d->registers.controls.types >> cathode & 1 ? SEGMENTS14 : d->fitted >> cathode & 1 ? PAIR : SEGMENTS16;
    const uint32_t places = lit(&d->registers, cathode, kind, font14, font16);
    const uint32_t before = places & ((1u << (cathode & 6)) - 1), bits = (places - before) << 2 | before;
    const uint8_t *pins = unlit[kind][cathode];
    const uint64_t last = light(pins + 16, bits >> 16);
    out.number = 0;
    store64(out.pins, light(pins, bits));
    store64(out.pins + 8, light(pins + 8, bits >> 8));
    store16(out.pins + 16, (uint16_t)last);
    out.pins[18] = (uint8_t)(last >> 16);
    return out;
}

static inline uint8_t ruler(const max6954_registers *r)
{
    return r->controls.test ? MAX6954_RULED_BY_TEST : r->config.i ? MAX6954_RULED_BY_OWN : MAX6954_RULED_BY_GLOBAL;
}

max6954_brightness_answer tuned_brightness(const max6954_device *chain, size_t n, size_t driver, size_t digit)
{
    max6954_brightness_answer out = { number_of(chain, n, driver, digit > 15, NEW), 0, MAX6954_RULED_BY_NONE };
    if (out.number)
        return out;
    const max6954_registers *r = &chain[driver - 1].registers;
    const uint8_t own = (uint8_t)(r->intensities[digit / 2] >> digit % 2 * 4 & 15);
    const uint8_t x = r->config.i ? own : r->controls.global;
    const uint8_t ruled = r->controls.test ? 7 : x > 14 ? 15 : (uint8_t)(x + 1);
    /* number and sixteenths are stored as a word, since the return reads them as one */
    store16(&out, (uint16_t)((is_dark(r, digit % 8) ? 0 : ruled) << 8));
    out.ruler = ruler(r);
    return out;
}

max6954_shown_answer tuned_shown(const max6954_device *chain, size_t n, size_t driver)
{
    max6954_shown_answer out = { number_of(chain, n, driver, 0, NEW), 0 };
    if (out.number == 0)
        out.plane = (uint8_t)shows_p1(&chain[driver - 1].registers);
    return out;
}

max6954_interrupt_answer tuned_interrupt(const max6954_device *chain, size_t n, size_t driver)
{
    max6954_interrupt_answer out = { number_of(chain, n, driver, 0, NEITHER), 0 };
    if (out.number)
        return out;
    const max6954_device *d = chain + (driver - 1);
    out.raised = d->family == NEW ? d->ports.transition.interrupt : d->registers.keys.interrupt;
    return out;
}

max6954_mark_answer tuned_answer_mark(const max6954_device *chain, size_t n, size_t driver)
{
    max6954_mark_answer out = { number_of(chain, n, driver, 0, NEITHER), 0 };
    if (out.number == 0)
        out.mark = chain[driver - 1].answer_mark;
    return out;
}

max6957_port_answer tuned_ports(const max6954_device *chain, size_t n, size_t driver)
{
    max6957_port_answer out;
    out.number = number_of(chain, n, driver, 0, OLD);
    if (out.number == 0 && (chain[driver - 1].ports.config.s || chain[driver - 1].ports.test))
        drive(out.ports, &chain[driver - 1].ports);
    else
        memset(out.ports, 0, sizeof out.ports);
    return out;
}

uint8_t tuned_plane_number(const max6954_device *chain, size_t n, size_t driver, const uint8_t *p0, size_t p0_length, const uint8_t *p1,
                           size_t p1_length, size_t first, size_t last)
{
    (void)p0;
    (void)p1;
    return number_of(chain, n, driver, first > last || last > 15 || p0_length != 16 || p1_length != 16, NEW);
}

max6954_shown_answer tuned_plane_shown(const max6954_device *chain, size_t n, size_t driver, const uint8_t *p0, size_t p0_length,
                                       const uint8_t *p1, size_t p1_length, size_t first, size_t last)
{
    max6954_shown_answer out = { tuned_plane_number(chain, n, driver, p0, p0_length, p1, p1_length, first, last), 0 };
    if (out.number == 0)
        out.plane = (uint8_t)shows_p1(&chain[driver - 1].registers);
    return out;
}

const uint8_t *tuned_plane(const max6954_device *chain, size_t n, size_t driver, const uint8_t *p0, size_t p0_length, const uint8_t *p1,
                           size_t p1_length, size_t first, size_t last)
{
    if (tuned_plane_number(chain, n, driver, p0, p0_length, p1, p1_length, first, last))
        return NULL;
    return (shows_p1(&chain[driver - 1].registers) ? p1 : p0) + first;
}

max6954_device tuned_power_up(void)
{
    max6954_device d;
    memset(&d, 0, sizeof d);
    d.registers.controls.decode = 255;
    d.registers.controls.limit = 7;
    d.registers.controls.ports = 31;
    memset(d.registers.planes.p0, 0x20, 8);
    memset(d.registers.planes.p1, 0x20, 8);
    d.fitted = 255;
    memset(d.ports.pairs, 0xAA, sizeof d.ports.pairs);
    return d;
}

max6954_device tuned_power_up_6957(void)
{
    max6954_device d = tuned_power_up();
    d.family = NEW;
    return d;
}
