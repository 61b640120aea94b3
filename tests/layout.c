/* The records of include/ratchetelm.h against the library's, a row for each field: a call changes that field's bytes alone, and what C puts there
   is what the library finds. It is both C and C++. */
#include <stddef.h>
#include <stdio.h>
#include <string.h>
#include "ratchetelm.h"

/* The driver under test has a neighbour of the old family on each side. */
enum { DRIVERS = 3, DRIVER = 2 };

/* The families whose drivers have a field. */
enum { OLD = 1, NEW = 2, BOTH = OLD | NEW };

static max6954_device chain[DRIVERS];
static int passed, failed;

/* Steps are text, each a letter and a hex number: W a word sent to the driver, S a scan (a byte for each group, A first), P pin levels, C master
   clocks, A a command address given on the two-wire bus. Questions too: W gives the word that comes out, R a register's data, I the interrupt, M the
   answer mark, O a pin of cathode 0, G a byte got on the two-wire bus. */
typedef struct {
    unsigned families;
    const char *name;
    size_t offset, width, elements;
    const char *before;      /* steps from power-up */
    const char *step;        /* changes this field alone, beside the shift word and the mark where it sends a word; NULL where no call changes it */
    unsigned value;          /* what the field holds after it */
    const char *question;    /* its last step gives */
    unsigned answer;         /* this where C has put the value in, and not before */
    unsigned unsound;        /* the lowest value that isn't sound, 0 where none is */
} field;

#define OF(path) ((max6954_device *)0)->path
#define FIELD(path) #path, offsetof(max6954_device, path), sizeof(OF(path)), 1
#define ARRAY(path) #path, offsetof(max6954_device, path), sizeof(OF(path)[0]), sizeof(OF(path)) / sizeof(OF(path)[0])

/* The rows of a key group: the low digit of its mask's address and of its pressed register's, and its key 4 in a scan. */
#define GROUP(g, m, p, key)                                                                                                               \
    { OLD, FIELD(registers.keys.g.mask), "W0680", "W0" m "10", 0x10, "S" key " S" key " I0", 1, 0 },                                       \
    { OLD, FIELD(registers.keys.g.debounced), "W0680 S" key " S" key, "W8" m "00", 0, "R8" m "00", 0, 0 },                                 \
    { OLD, FIELD(registers.keys.g.pressed), "W0680", "S" key, 0x10, "R8" p "00", 0x10, 0 },                                                \
    { OLD, FIELD(registers.keys.g.held), "W0680 S" key " S" key " S0 S" key, "S" key, 0x10, "R8" m "00 S" key " R8" m "00", 0, 0 }

/* A MAX6957 in which P24, high, has raised the interrupt. */
#define EVENT "W0601 W0480 P100000"

static const field fields[] = {
    { OLD, FIELD(registers.controls.decode), "", "W015A", 0x5A, "R8100", 0x5A, 0 },
    { OLD, FIELD(registers.controls.global), "", "W020A", 0x0A, "R8200", 0x0A, 16 },
    { OLD, FIELD(registers.controls.limit), "", "W0305", 5, "R8300", 5, 8 },
    { OLD, FIELD(registers.controls.gpio), "W0600", "W0515", 0x15, "R8500", 0x15, 32 },
    { OLD, FIELD(registers.controls.ports), "", "W0676", 0x76, "R8600", 0x76, 0 },
    { OLD, FIELD(registers.controls.test), "", "W0701", 1, "R8700", 1, 2 },
    { OLD, FIELD(registers.controls.types), "W0401", "W0C01", 1, "O7", MAX6954_NO_SEGMENT, 0 },
    { OLD, FIELD(registers.config.i), "", "W0440", 1, "R8400", 0xC0, 2 },
    { OLD, FIELD(registers.config.e), "", "W0408", 1, "R8400", 0x88, 2 },
    { OLD, FIELD(registers.config.b), "", "W0404", 1, "R8400", 0x84, 2 },
    { OLD, FIELD(registers.config.s), "", "W0401", 1, "R8400", 0x81, 2 },
    { OLD, ARRAY(registers.intensities), "", "W10A5", 0xA5, "R9000", 0xA5, 0 },
    GROUP(a, "8", "C", "10000000"),
    GROUP(b, "9", "D", "00100000"),
    GROUP(c, "A", "E", "00001000"),
    GROUP(d, "B", "F", "00000010"),
    { OLD, FIELD(registers.keys.interrupt), "W0680 W0810 S10000000 S10000000", "W8900", 0, "I0", 0, 2 },
    { OLD, ARRAY(registers.planes.p0), "", "W20A5", 0xA5, "RA000", 0xA5, 0 },
    { OLD, ARRAY(registers.planes.p1), "", "W40A5", 0xA5, "RC000", 0xA5, 0 },
    { OLD, FIELD(registers.pins), "", "P15", 0x15, "R8500", 0x15, 32 },
    { OLD, FIELD(registers.blink), "", "C212345", 0x212345, "R8400", 0, 4000000 },
    { BOTH, FIELD(shift), "", "W7F5A", 0x7F5A, "W0000", 0x7F5A, 0 },
    { OLD, FIELD(fitted), "W0401", NULL, 0, "O3", MAX6954_UNLIT, 0 },
    { BOTH, FIELD(answer_mark), "", "W8000", 1, "M0", 1, 2 },
    { OLD, FIELD(command), "", "A6", 6, "G0", 0x1F, 128 },
    { BOTH, FIELD(family), "", NULL, 1, "R8900", 0xAA, 2 },
    { NEW, FIELD(ports.stored), "W0401 W0C55 W0D55", "W50A5", 0xA5000, "RD000", 0xA5, 1 << 28 },
    { NEW, FIELD(ports.pins), "", "P8000001", 0x8000001, "RDF00", 1, 1 << 28 },
    { NEW, ARRAY(ports.pairs), "", "W09A5", 0xA5, "R8900", 0xA5, 0 },
    { NEW, ARRAY(ports.currents), "", "W12A5", 0xA5, "R9200", 0xA5, 0 },
    { NEW, FIELD(ports.global), "", "W020A", 0x0A, "R8200", 0x0A, 16 },
    { NEW, FIELD(ports.test), "", "W0701", 1, "R8700", 1, 2 },
    { NEW, FIELD(ports.config.m), EVENT, "W0400", 0, "R8400", 0, 2 },
    { NEW, FIELD(ports.config.i), "", "W0440", 1, "R8400", 0x40, 2 },
    { NEW, FIELD(ports.config.s), "", "W0401", 1, "R8400", 1, 2 },
    { NEW, FIELD(ports.transition.mask), "", "W0655", 0x55, "R8600", 0x55, 128 },
    { NEW, FIELD(ports.transition.snapshot), "W0480 P5500000", "W0480", 0x55, "W067F I0", 0, 128 },
    { NEW, FIELD(ports.transition.detecting), EVENT " W8600 P0", "W0480", 1, "P100000 I0", 1, 2 },
    { NEW, FIELD(ports.transition.interrupt), EVENT, "W8600", 0, "I0", 0, 2 },
};
enum { FIELDS = sizeof fields / sizeof fields[0] };

static void holds(const char *what, const char *name, int yes)
{
    if (yes)
        passed++;
    else
        printf("FAILED: %s: %s\n", what, name), failed++;
}

/* A word to the driver and no-ops to its neighbours; gives the word that comes out in its place. */
static unsigned sent(unsigned word)
{
    const size_t at = 2 * (DRIVERS - DRIVER);
    uint8_t bytes[2 * DRIVERS] = { 0 }, answer[2 * DRIVERS] = { 0 };
    bytes[at] = (uint8_t)(word >> 8);
    bytes[at + 1] = (uint8_t)word;
    max6954_access(chain, DRIVERS, 16 * DRIVERS, bytes, sizeof bytes, answer, sizeof answer);
    return answer[at] * 256u + answer[at + 1];
}

/* A transaction with the driver: a slave byte, then a byte given or asked for; gives the data of that. */
static unsigned transaction(uint8_t slave, int read, uint8_t byte)
{
    const max6955_straps straps = { { 0x60, 0x61, 0x62, 255 } };
    const max6955_bus idle = { 0, MAX6955_IDLE }, awaits = max6955_start(chain, DRIVERS, idle, straps).bus;
    const max6955_bus open = max6955_write(chain, DRIVERS, awaits, straps, slave).bus;
    return (read ? max6955_read(chain, DRIVERS, open, straps) : max6955_write(chain, DRIVERS, open, straps, byte)).data;
}

/* One step; what it gives where it is a question, else its call's number. */
static unsigned stepped(char kind, unsigned v)
{
    static const uint16_t font[128] = { 0 };
    switch (kind) {
    case 'W':
        return sent(v);
    case 'R':
        sent(v);
        return sent(0) % 256;
    case 'S':
        return max6954_scan(chain, DRIVERS, DRIVER, (uint8_t)(v >> 24), (uint8_t)(v >> 16), (uint8_t)(v >> 8), (uint8_t)v);
    case 'P':
        return max6954_set_pins(chain, DRIVERS, DRIVER, v);
    case 'C':
        return max6954_add_clocks(chain, DRIVERS, DRIVER, v);
    case 'A':
        return transaction(0xC2, 0, (uint8_t)v);
    case 'G':
        return transaction(0xC3, 1, 0);
    case 'I':
        return max6954_interrupt(chain, DRIVERS, DRIVER).raised;
    case 'M':
        return max6954_answer_mark(chain, DRIVERS, DRIVER).mark;
    default:
        return max6954_segments(chain, DRIVERS, DRIVER, 0, font, 128, font, 128).pins[v];
    }
}

/* Steps in turn; gives what the last one gives. The register of element k is k addresses on. */
static unsigned run(const char *steps, unsigned k)
{
    unsigned v, result = 0;
    char kind;
    int used;
    for (; sscanf(steps, " %c%x%n", &kind, &v, &used) == 2; steps += used)
        result = stepped(kind, v + 0x100 * k);
    return result;
}

/* A driver of this family, OLD or NEW, after these steps. */
static void prepare(unsigned family, const char *steps)
{
    for (int i = 0; i < DRIVERS; i++)
        chain[i] = i == DRIVER - 1 && family == NEW ? max6957_power_up() : max6954_power_up();
    run(steps, 0);
}

/* The same for a field, in the first family that has it. */
static void prepare_for(const field *f)
{
    prepare(f->families & OLD ? OLD : NEW, f->before);
}

/* Where C has the driver's field. */
static uint8_t *place(max6954_device *records, const field *f, unsigned k)
{
    return (uint8_t *)&records[DRIVER - 1] + f->offset + k * f->width;
}

/* A value put there by C. */
static void put(const field *f, unsigned k, unsigned v)
{
    const uint8_t one = (uint8_t)v;
    const uint16_t two = (uint16_t)v;
    const uint32_t four = v;
    const void *from = f->width == 1 ? (const void *)&one : f->width == 2 ? (const void *)&two : (const void *)&four;
    memcpy(place(chain, f, k), from, f->width);
}

/* Whether two records are alike in each field: padding may differ. */
static int alike(const max6954_device *a, const max6954_device *b)
{
    int all = 1;
    for (size_t i = 0; i < FIELDS; i++) {
        const size_t at = fields[i].offset, size = fields[i].width * fields[i].elements;
        all = all && memcmp((const uint8_t *)a + at, (const uint8_t *)b + at, size) == 0;
    }
    return all;
}

static int same(const max6954_device *records)
{
    int all = 1;
    for (int i = 0; i < DRIVERS; i++)
        all = all && alike(&chain[i], &records[i]);
    return all;
}

/* The driver's shift word and answer mark as a word sent left them. */
static void put_word(const max6954_device *after)
{
    chain[DRIVER - 1].shift = after[DRIVER - 1].shift;
    chain[DRIVER - 1].answer_mark = after[DRIVER - 1].answer_mark;
}

/* The step leaves what C leaves by putting the value in, and that is something else than before. */
static int written(const field *f, unsigned k)
{
    max6954_device after[DRIVERS];
    prepare_for(f);
    run(f->step, k);
    memcpy(after, chain, sizeof chain);
    prepare_for(f);
    const int changed = memcmp(place(chain, f, k), place(after, f, k), f->width) != 0;
    if (f->step[0] == 'W')
        put_word(after);
    put(f, k, f->value);
    return changed && same(after);
}

/* The question gets the answer by what C has put in. */
static int found(const field *f, unsigned k)
{
    prepare_for(f);
    const unsigned without = run(f->question, k);
    prepare_for(f);
    put(f, k, f->value);
    return without != f->answer && run(f->question, k) == f->answer;
}

/* The highest sound value is served to a driver of this family; what isn't sound gives this number, up to the field's highest bit. */
static int bounded_in(unsigned family, const field *f, unsigned k, int number)
{
    prepare(family, f->before);
    put(f, k, f->unsound - 1);
    int all = max6954_interrupt(chain, DRIVERS, DRIVER).number == 0;
    for (uint64_t v = f->unsound; v != 0 && v >> 8 * f->width == 0; v *= 2) {
        put(f, k, (unsigned)v);
        all = all && max6954_interrupt(chain, DRIVERS, DRIVER).number == number;
    }
    return all;
}

/* 7, but 14 for the family; and 0 in a family that doesn't have the field. */
static int bounded(const field *f, unsigned k)
{
    const int number = f->offset == offsetof(max6954_device, family) ? 14 : 7;
    return bounded_in(OLD, f, k, f->families & OLD ? number : 0) && bounded_in(NEW, f, k, f->families & NEW ? number : 0);
}

static int each_element(const field *f, int (*check)(const field *, unsigned))
{
    int all = 1;
    for (unsigned k = 0; k < f->elements; k++)
        all = all && check(f, k);
    return all;
}

/* Whether no field has this byte: before the ports, and after the last. */
static int is_padding(size_t byte)
{
    const size_t last = offsetof(max6954_device, ports.transition.interrupt);
    return (byte > offsetof(max6954_device, family) && byte < offsetof(max6954_device, ports)) || byte > last;
}

/* Each byte of a record is of one row, but for the padding. */
static int covered(void)
{
    int rows[sizeof(max6954_device)] = { 0 }, all = 1;
    for (size_t i = 0; i < FIELDS; i++)
        for (size_t b = 0; b < fields[i].width * fields[i].elements; b++)
            rows[fields[i].offset + b]++;
    for (size_t b = 0; b < sizeof rows / sizeof rows[0]; b++)
        all = all && rows[b] == !is_padding(b);
    return all;
}

/* The records at power-up, as C has them by name. */
static int powered_up(void)
{
    max6954_device up;
    memset(&up, 0, sizeof up);
    up.registers.controls.decode = 255;
    up.registers.controls.limit = 7;
    up.registers.controls.ports = 31;
    memset(up.registers.planes.p0, 32, 8);
    memset(up.registers.planes.p1, 32, 8);
    up.fitted = 255;
    memset(up.ports.pairs, 0xAA, sizeof up.ports.pairs);
    const max6954_device old = max6954_power_up(), other = max6957_power_up();
    const int first = alike(&old, &up);
    up.family = 1;
    return first && alike(&other, &up);
}

/* The places of the MAX6957's registers. */
static int placed(void)
{
    return sizeof(max6957_registers) == 40 && offsetof(max6954_device, family) == 81 && offsetof(max6954_device, ports) == 84 &&
           offsetof(max6957_registers, pairs) == 8 && offsetof(max6957_registers, currents) == 15 && offsetof(max6957_registers, global) == 29 &&
           offsetof(max6957_registers, config) == 31 && offsetof(max6957_registers, transition) == 34;
}

/* Each answer's fields, served to the driver and refused to one that isn't there. */
static void answers(void)
{
    static const uint16_t font[128] = { 0 };
    static const uint8_t plane[16] = { 0 };
    static const uint8_t pins[19] = { 1, 0, 2, 4, 2, 2, 3, 2, 2, 2, 2, 2, 2, 2, 2, 2, 2, 3, 3 }, none[19] = { 0 };
    /* global intensity 9, blinking; an A with its point on digit 0 of P1, which is shown; a key debounced; decode mode read */
    prepare(OLD, "W0209 W0409 W408A C200000 W0680 W0810 S10000000 S10000000 W8100");
    const max6954_segment_answer s = max6954_segments(chain, DRIVERS, DRIVER, 0, font, 128, font, 128);
    const max6954_segment_answer s4 = max6954_segments(chain, DRIVERS, 4, 0, font, 128, font, 128);
    holds("served", "segment answer", s.number == 0 && sizeof s.pins == 19 && memcmp(s.pins, pins, 19) == 0);
    holds("refused", "segment answer", s4.number == 2 && memcmp(s4.pins, none, 19) == 0);
    const max6954_brightness_answer b = max6954_brightness(chain, DRIVERS, DRIVER, 0), b4 = max6954_brightness(chain, DRIVERS, 4, 0);
    holds("three bytes", "brightness answer",
          sizeof b == 3 && offsetof(max6954_brightness_answer, sixteenths) == 1 && offsetof(max6954_brightness_answer, ruler) == 2);
    holds("served", "brightness answer", b.number == 0 && b.sixteenths == 10 && b.ruler == MAX6954_RULED_BY_GLOBAL);
    holds("refused", "brightness answer", b4.number == 2 && b4.sixteenths == 0 && b4.ruler == MAX6954_RULED_BY_NONE);
    const max6954_shown_answer p = max6954_shown(chain, DRIVERS, DRIVER), p4 = max6954_shown(chain, DRIVERS, 4);
    holds("served", "shown answer", p.number == 0 && p.plane == 1);
    holds("refused", "shown answer", p4.number == 2 && p4.plane == 0);
    const max6954_shown_answer q = max6954_plane_shown(chain, DRIVERS, DRIVER, plane, 16, plane, 16, 0, 15);
    const max6954_shown_answer q4 = max6954_plane_shown(chain, DRIVERS, 4, plane, 16, plane, 16, 0, 15);
    holds("served", "shown answer of a part", q.number == 0 && q.plane == 1);
    holds("refused", "shown answer of a part", q4.number == 2 && q4.plane == 0);
    const max6954_interrupt_answer i = max6954_interrupt(chain, DRIVERS, DRIVER), i4 = max6954_interrupt(chain, DRIVERS, 4);
    holds("served", "interrupt answer", i.number == 0 && i.raised == 1);
    holds("refused", "interrupt answer", i4.number == 2 && i4.raised == 0);
    const max6954_mark_answer m = max6954_answer_mark(chain, DRIVERS, DRIVER), m4 = max6954_answer_mark(chain, DRIVERS, 4);
    holds("served", "mark answer", m.number == 0 && m.mark == 1);
    holds("refused", "mark answer", m4.number == 2 && m4.mark == 0);
    const uint16_t word = 0x6577;
    const max6954_look_back_answer l = max6954_look_back(chain, DRIVERS, DRIVER, 1, 5, &word, 1), l4 = max6954_look_back(chain, DRIVERS, 4, 1, 5, &word, 1);
    holds("two bytes", "look back answer", sizeof l == 2 && offsetof(max6954_look_back_answer, byte) == 1);
    holds("served", "look back answer", l.number == 0 && l.byte == 0x77);
    holds("refused", "look back answer", l4.number == 2 && l4.byte == 0);
}

/* So of a MAX6957's ports: P4 an LED of 10 sixteenths, P5 low, P31 high. */
static void port_answers(void)
{
    static const uint8_t none[28] = { 0 };
    uint8_t ports[28] = { 2 + 10, MAX6957_LOW };
    ports[31 - 4] = MAX6957_HIGH;
    prepare(NEW, "W0401 W0209 W09A4 W0F6A W2401 W3F01");
    const max6957_port_answer p = max6957_ports(chain, DRIVERS, DRIVER), p14 = max6957_ports(chain, DRIVERS, 1);
    holds("29 bytes", "port answer", sizeof p == 29 && sizeof p.ports == 28 && offsetof(max6957_port_answer, ports) == 1);
    holds("served", "port answer", p.number == 0 && memcmp(p.ports, ports, 28) == 0);
    holds("refused", "port answer", p14.number == 14 && memcmp(p14.ports, none, 28) == 0);
}

/* So of a plan's: the drivers are cleared, and then one digit of the driver is written. */
static void plan_answers(void)
{
    static uint8_t wanted[DRIVERS * MAX6954_WANTED_SIZE];
    uint16_t list[DRIVERS * MAX6954_MOST_ACCESSES];
    const size_t size = sizeof wanted, room = sizeof list / sizeof list[0];
    wanted[MAX6954_WANTED_SIZE * (DRIVER - 1) + 5] = 1;
    prepare(OLD, "");
    holds("two words", "plan answer", sizeof(max6954_plan_answer) == 2 * sizeof(size_t) && offsetof(max6954_plan_answer, accesses) == sizeof(size_t));
    const max6954_plan_answer p = max6954_plan(chain, DRIVERS, wanted, size, list, room), p12 = max6954_plan(chain, DRIVERS, wanted, size - 1, list, room);
    holds("served", "plan answer", p.number == 0 && p.accesses == 2);
    holds("refused", "plan answer", p12.number == 12 && p12.accesses == 0);
    const max6954_plan_check_answer c = max6954_plan_check(chain, DRIVERS, wanted, size, list, DRIVERS * p.accesses);
    const max6954_plan_check_answer c12 = max6954_plan_check(chain, DRIVERS, wanted, size - 1, list, DRIVERS * p.accesses);
    holds("served", "plan check answer", c.number == 0 && c.accepted == 1);
    holds("refused", "plan check answer", c12.number == 12 && c12.accepted == 0);
}

/* So of a lit time's: of three drivers in display test, 16 segments at 7 sixteenths, the driver is given a clock. Its totals have 64 bits each. */
static void lit_time_answers(void)
{
    static const uint8_t script[] = {
        0x5A, 0xC3, 1, 0, 1, DRIVERS,                              /* the chain */
        0x5A, 0xC3, 2, 0, 8, 0, 16 * DRIVERS, 7, 1, 7, 1, 7, 1,    /* an access: 0701 to each */
        0x5A, 0xC3, 5, 0, 5, DRIVER, 0, 0, 0, 1                    /* a master clock */
    };
    enum { TOTALS = DRIVERS * MAX6954_CATHODES };
    uint64_t totals[TOTALS];
    int all = 1;
    holds("two words", "lit time answer",
          sizeof(max6954_lit_time_answer) == 2 * sizeof(size_t) && offsetof(max6954_lit_time_answer, drivers) == sizeof(size_t));
    const max6954_lit_time_answer t = max6954_lit_time(script, sizeof script, totals, TOTALS);
    const max6954_lit_time_answer t5 = max6954_lit_time(script, sizeof script, totals, TOTALS - 1);
    for (size_t k = 0; k < TOTALS; k++)
        all = all && totals[k] == (k / MAX6954_CATHODES == DRIVER - 1 ? 112 : 0);
    holds("served", "lit time answer", t.number == 0 && t.drivers == DRIVERS && all);
    holds("refused", "lit time answer", t5.number == 5 && t5.drivers == 0);
}

/* So of the bus: where its fields are, and what comes and goes by value. */
static void bus_answers(void)
{
    const max6955_straps straps = { { 0x60, 0x61, 0x62, 255, 1, 2, 3, 4, 5, 6, 7, 8, 9, 10, 11, 12 } }, last = { { 0x60, 0x61, 0x61 } };
    const max6955_bus open = { DRIVER, MAX6955_READS };
    holds("two words", "bus", sizeof(max6955_bus) == 2 * sizeof(size_t) && offsetof(max6955_bus, phase) == sizeof(size_t));
    holds("sixteen bytes", "straps", sizeof straps == 16);
    holds("three words", "bus answer", sizeof(max6955_bus_answer) == 3 * sizeof(size_t) && offsetof(max6955_bus_answer, bus) == sizeof(size_t));
    holds("four words", "byte answer",
          sizeof(max6955_byte_answer) == 4 * sizeof(size_t) && offsetof(max6955_byte_answer, bus) == sizeof(size_t) &&
              offsetof(max6955_byte_answer, acknowledged) == 3 * sizeof(size_t) && offsetof(max6955_byte_answer, data) == 3 * sizeof(size_t) + 1);
    prepare(OLD, "W0209 A2");
    const max6955_bus_answer s = max6955_start(chain, DRIVERS, open, straps), s10 = max6955_start(chain, DRIVERS, open, last);
    holds("served", "bus answer", s.number == 0 && s.bus.part == 0 && s.bus.phase == MAX6955_AWAITS_SLAVE);
    holds("refused", "bus answer", s10.number == 10 && s10.bus.part == DRIVER && s10.bus.phase == MAX6955_READS);
    const max6955_byte_answer r = max6955_read(chain, DRIVERS, open, straps), r10 = max6955_read(chain, DRIVERS, open, last);
    holds("served", "byte answer", r.number == 0 && r.bus.part == DRIVER && r.bus.phase == MAX6955_READS && r.acknowledged == 1 && r.data == 9);
    holds("refused", "byte answer", r10.number == 10 && r10.bus.part == DRIVER && r10.bus.phase == MAX6955_READS && r10.acknowledged == 0 && r10.data == 0);
    const max6955_byte_answer w = max6955_write(chain, DRIVERS, s.bus, straps, 0xC4), w10 = max6955_write(chain, DRIVERS, s.bus, last, 0xC4);
    holds("served", "byte answer of one given", w.number == 0 && w.bus.part == 3 && w.bus.phase == MAX6955_COMMAND && w.acknowledged == 1 && w.data == 0);
    holds("refused", "byte answer of one given", w10.number == 10 && w10.bus.part == 0 && w10.bus.phase == MAX6955_AWAITS_SLAVE && w10.acknowledged == 0);
}

int main(void)
{
    holds("the size that the header names", "device", sizeof(max6954_device) == MAX6954_DEVICE_SIZE);
    holds("each byte is of one field", "device", covered());
    holds("each field has its place", "ports", placed());
    holds("power-up", "device", powered_up());
    for (size_t i = 0; i < FIELDS; i++) {
        const field *f = &fields[i];
        if (f->step)
            holds("a call changes it alone", f->name, each_element(f, written));
        holds("the library finds what C puts there", f->name, each_element(f, found));
        holds("sound up to its bound", f->name, each_element(f, bounded));
    }
    answers();
    port_answers();
    plan_answers();
    lit_time_answers();
    bus_answers();
    printf("%d passed, %d failed\n", passed, failed);
    return failed != 0;
}
