/* Times each call of the library beside the hand-tuned double's, a plan beside the rule in plain C, and the library's MAX6957 beside its MAX6954, in
   turn in one process: the least of many rounds, and the ratio with its bar. */
#define _GNU_SOURCE
#include <stdio.h>
#include <stdlib.h>
#include <string.h>
#include "plain.h"
#include "random.h"
#include "records.h"
#include "timing.h"
#include "tuned.h"

enum { ROUNDS = 100, POOL = 32768, PICTURES = 16 };

/* The words of an access: to an old driver, and then to a MAX6957. */
enum { RANDOM, READS, DIGITS, LOW, PORTS_RANDOM, PORTS_WRITES, PORTS_LOW, KINDS };
static const char *const accesses[KINDS] = { [RANDOM] = "access random",      [READS] = "access reads",       [DIGITS] = "access digits",
                                             [PORTS_RANDOM] = "6957 random", [PORTS_WRITES] = "6957 writes", [PORTS_LOW] = "6957 low" };

static uint8_t words[KINDS][POOL], answer[512], p0[16], p1[16];
static uint16_t font[128], list[16 * MAX6954_MOST_ACCESSES];
static uint8_t pictures[PICTURES][16 * MAX6954_WANTED_SIZE];

/* What a line of the table is timed on: drivers with displays of so many segments, or MAX6957 where that is 0. */
typedef struct {
    unsigned segments;
    size_t n, clocks;
    const uint8_t *words;
} setup;

/* The turns of a round; gives the sum of what they give. */
typedef unsigned turns(max6954_device *chain, const setup *s, unsigned from, unsigned to);

#define TURNS(name, call)                                                                                              \
    static __attribute__((noinline)) unsigned name(max6954_device *chain, const setup *s, unsigned from, unsigned to)  \
    {                                                                                                                  \
        const size_t n = s->n;                                                                                         \
        unsigned sum = 0;                                                                                              \
        for (unsigned turn = from; turn < to; turn++)                                                                  \
            sum += call;                                                                                               \
        return sum;                                                                                                    \
    }
#define BOTH(name, call) TURNS(name##_ours, max6954_##call) TURNS(name##_tuned, tuned_##call)

/* The driver of a turn, a number that looks random, and its part of the words. */
#define DRIVER (1 + turn % n)
#define ANY (turn * 2654435761u >> 8)
#define SENT (s->words + turn * (s->clocks / 8) % POOL)

BOTH(access, access(chain, n, s->clocks, SENT, s->clocks / 8, answer, sizeof answer))
BOTH(scan, scan(chain, n, DRIVER, (uint8_t)ANY, (uint8_t)(ANY >> 8), 0x55, (uint8_t)(ANY >> 4)))
BOTH(set_pins, set_pins(chain, n, DRIVER, turn % 32))
BOTH(set_28_pins, set_pins(chain, n, DRIVER, ANY << 4))
BOTH(add_clocks, add_clocks(chain, n, DRIVER, ANY))
BOTH(segments, segments(chain, n, DRIVER, ANY % 8, font, 128, font, 128).pins[18])
BOTH(brightness, brightness(chain, n, DRIVER, ANY % 16).sixteenths)
BOTH(shown, shown(chain, n, DRIVER).plane)
BOTH(interrupt, interrupt(chain, n, DRIVER).raised)
BOTH(answer_mark, answer_mark(chain, n, DRIVER).mark)
BOTH(plane_number, plane_number(chain, n, DRIVER, p0, 16, p1, 16, 2, 9))
BOTH(plane_shown, plane_shown(chain, n, DRIVER, p0, 16, p1, 16, 2, 9).plane)
BOTH(plane, plane(chain, n, DRIVER, p0, 16, p1, 16, 2, 9)[0])

#define PORTS (chain, n, DRIVER).ports[27]
TURNS(ports_ours, max6957_ports PORTS)
TURNS(ports_tuned, tuned_ports PORTS)

#define PLAN (chain, n, pictures[turn % PICTURES], n * MAX6954_WANTED_SIZE, list, n * MAX6954_MOST_ACCESSES)
TURNS(plan_ours, (unsigned)max6954_plan PLAN.accesses)
TURNS(plan_plain, (unsigned)plain_plan PLAN.accesses)

static const struct {
    const char *name;
    turns *ours, *tuned;
    unsigned segments;
    double bar;    /* the ratio at most; 0 is none */
} calls[] = {
    { "scan", scan_ours, scan_tuned, 7, 1.5 },
    { "set_pins", set_pins_ours, set_pins_tuned, 7, 1.5 },
    { "add_clocks", add_clocks_ours, add_clocks_tuned, 7, 1.5 },
    { "segments 7", segments_ours, segments_tuned, 7, 1.2 },
    { "segments 14", segments_ours, segments_tuned, 14, 1.2 },
    { "segments 16", segments_ours, segments_tuned, 16, 1.2 },
    { "brightness", brightness_ours, brightness_tuned, 7, 1.5 },
    { "shown", shown_ours, shown_tuned, 7, 1.5 },
    { "interrupt", interrupt_ours, interrupt_tuned, 7, 1.5 },
    { "answer_mark", answer_mark_ours, answer_mark_tuned, 7, 1.5 },
    { "plane_number", plane_number_ours, plane_number_tuned, 7, 1.5 },
    { "plane_shown", plane_shown_ours, plane_shown_tuned, 7, 0 },
    { "plane", plane_ours, plane_tuned, 7, 0 },
    { "6957 set_pins", set_28_pins_ours, set_28_pins_tuned, 0, 2.0 },
    { "6957 interrupt", interrupt_ours, interrupt_tuned, 0, 2.0 },
    { "ports", ports_ours, ports_tuned, 0, 2.0 },
};

static double access_bar(int kind, size_t n, size_t clocks)
{
    if (clocks == 4096)
        return 1.5;
    if (n == 16 && clocks == 256)
        return kind == DIGITS ? 2.0 : 3.5;
    return (n == 1 || n == 4) && clocks == 16 * n ? 2.5 : 0;
}

/* A driver in normal operation with displays of so many segments, unlike others in the rest. */
static max6954_device fresh_old(unsigned i, unsigned segments)
{
    max6954_device d = max6954_power_up();
    d.registers.config.s = 1;
    d.registers.config.e = i & 1;
    d.registers.config.i = i >> 1 & 1;
    d.registers.controls.ports = 0x9F;
    d.registers.controls.types = segments == 14 ? 255 : 0;
    d.fitted = segments == 16 ? 0 : 255;
    d.registers.blink = i * 240000;
    d.registers.keys.a.mask = 255;
    fill(&d.registers.planes, sizeof d.registers.planes);
    return d;
}

/* A MAX6957 in normal operation with ports of all modes. One in four watches inputs and one in four outputs, so that port writes leave detection
   on in the one, and pin levels in the other. */
static max6954_device fresh_new(unsigned i)
{
    max6954_device d = max6957_power_up();
    max6957_registers *r = &d.ports;
    r->stored = (uint32_t)below(1 << 28);
    r->pins = (uint32_t)below(1 << 28);
    fill(r->pairs, sizeof r->pairs);
    fill(r->currents, sizeof r->currents);
    r->global = (uint8_t)i;
    r->config = (max6957_config){ i & 1, i >> 1 & 1, 1 };
    if (i & 1) {
        const int outputs = i & 2;
        r->pairs[5] = outputs ? 0x55 : 0xAA;
        r->pairs[6] = outputs ? 0x55 : 0x6A;
        r->transition = (max6957_transition){ 127, (outputs ? r->stored : r->pins) >> 20 & 127, 1, 0 };
    }
    return d;
}

static void fresh(max6954_device *chain, unsigned segments)
{
    for (unsigned i = 0; i < 16; i++) {
        max6954_device d = segments ? fresh_old(i, segments) : fresh_new(i);
        d.shift = (uint16_t)(0x2000 + i * 0x111);
        d.answer_mark = i >> 1 & 1;
        d.command = (uint8_t)(i * 8);
        chain[i] = d;
    }
}

/* Words to the registers of an old driver by Table 6: of random kinds, reads, writes to digits, and those below 0x20. */
static void old_words(size_t i)
{
    const uint8_t control = (uint8_t)below(21), listed = control < 13 ? control : control + 3, digit = (uint8_t)below(16);
    const uint8_t any[] = { listed, 0x20 + digit, 0x40 + digit, 0x60 + digit }, read[] = { listed, 0x20 + digit, 0x20 + digit, 0x40 + digit };
    words[RANDOM][i] = (uint8_t)(any[below(4)] | below(2) << 7);
    words[READS][i] = 0x80 | read[below(4)];
    words[DIGITS][i] = any[1 + below(3)];
    words[LOW][i] = (uint8_t)(listed | below(2) << 7);
}

/* To those of a MAX6957 by Table 3: of random kinds, writes to ports, and those below 0x20. */
static void new_words(size_t i)
{
    static const uint8_t few[] = { 0x00, 0x02, 0x04, 0x06, 0x07 };
    const uint8_t control = (uint8_t)below(26);
    const uint8_t listed = control < 5 ? few[control] : control < 12 ? 0x09 + control - 5 : 0x12 + control - 12;
    const uint8_t any[] = { listed, 0x24 + (uint8_t)below(28), 0x40 + (uint8_t)below(32), 0x40 + (uint8_t)below(32) };
    words[PORTS_RANDOM][i] = (uint8_t)(any[below(4)] | below(2) << 7);
    words[PORTS_WRITES][i] = any[1 + below(3)];
    words[PORTS_LOW][i] = (uint8_t)(listed | below(2) << 7);
}

static void fill_words(void)
{
    for (size_t i = 0; i < POOL; i += 2) {
        old_words(i);
        new_words(i);
        for (int kind = 0; kind < KINDS; kind++)
            words[kind][i + 1] = (uint8_t)random_number();
    }
}

/* What is timed: its setup, records and turns, their sum and the least ns of one. */
typedef struct {
    setup on;
    max6954_device chain[16];
    turns *call;
    unsigned sum;
    double ns;
} timed;

static void time_round(timed *t, unsigned from, unsigned to)
{
    const double start = now();
    t->sum += t->call(t->chain, &t->on, from, to);
    const double ns = (now() - start) / (to - from);
    if (ns < t->ns)
        t->ns = ns;
}

static void time_both(timed *a, timed *b)
{
    const unsigned count = a->on.clocks > 256 ? 600 : 2000;
    for (unsigned from = 0; from < ROUNDS * count; from += count) {
        time_round(a, from, from + count);
        time_round(b, from, from + count);
    }
}

static int same(const timed *a, const timed *b)
{
    int all = a->sum == b->sum;
    for (int i = 0; i < 16; i++)
        all = all && same_fields(&a->chain[i], &b->chain[i]);
    return all;
}

static char missed[100][80];
static int misses;

static void print_line(const char *call, const setup *s, double ours, double tuned, double bar)
{
    const double ratio = ours / tuned;
    char clocks[8] = "-", of[24] = "", most[8] = "-";
    if (s->words) {
        snprintf(clocks, sizeof clocks, "%zu", s->clocks);
        snprintf(of, sizeof of, ", %s clocks", clocks);
    }
    if (bar > 0)
        snprintf(most, sizeof most, "%.1f", bar);
    const int over = bar > 0 && ratio > bar;
    printf("%-14s %7zu %6s %9.1f %9.1f %7.2f %5s%s\n", call, s->n, clocks, ours, tuned, ratio, most, over ? "  MISSED" : "");
    if (over)
        snprintf(missed[misses++], sizeof missed[0], "%s, %zu drivers%s: %.2f, at most %s", call, s->n, of, ratio, most);
}

/* A line: both doubles on the same records in turn. They have to give and leave the same. */
static void line(const char *call, turns *ours, turns *tuned, setup s, double bar)
{
    timed a = { .on = s, .call = ours, .ns = 1e99 }, b = { .on = s, .call = tuned, .ns = 1e99 };
    fresh(a.chain, s.segments);
    memcpy(b.chain, a.chain, sizeof a.chain);
    time_both(&a, &b);
    if (!same(&a, &b)) {
        printf("DIFFERENCE: %s, %zu drivers, %zu clocks\n", call, s.n, s.clocks);
        exit(1);
    }
    print_line(call, &s, a.ns, b.ns, bar);
}

/* A line of the library alone: a call on a row of MAX6957 beside one on as many old drivers. */
static void line_beside_old(const char *call, turns *ports, setup s, turns *old, setup t)
{
    timed a = { .on = s, .call = ports, .ns = 1e99 }, b = { .on = t, .call = old, .ns = 1e99 };
    fresh(a.chain, s.segments);
    fresh(b.chain, t.segments);
    time_both(&a, &b);
    print_line(call, &s, a.ns, b.ns, 1.5);
}

static void access_lines(void)
{
    static const size_t lengths[] = { 1, 2, 4, 16 };
    for (int kind = RANDOM; kind <= DIGITS; kind++)
        for (int a = 0; a < 4; a++) {
            const size_t n = lengths[a], clocks[] = { 0, 16, 16 * n, 256, 4096 };
            for (int b = 0; b < 5; b++)
                if (b == 0 || clocks[b] != clocks[b - 1])
                    line(accesses[kind], access_ours, access_tuned, (setup){ 7, n, clocks[b], words[kind] }, access_bar(kind, n, clocks[b]));
        }
    for (int kind = PORTS_RANDOM; kind <= PORTS_LOW; kind++)
        for (size_t clocks = 256; clocks <= 4096; clocks *= 16)
            line(accesses[kind], access_ours, access_tuned, (setup){ 0, 16, clocks, words[kind] }, 2.0);
}

static void call_lines(void)
{
    static const size_t lengths[] = { 1, 4, 16 };
    for (size_t i = 0; i < sizeof calls / sizeof calls[0]; i++)
        for (int a = 0; a < 3; a++)
            line(calls[i].name, calls[i].ours, calls[i].tuned, (setup){ calls[i].segments, lengths[a], 0, NULL }, calls[i].bar);
}

/* Random planes, of which nearly every byte is wrong: a driver needs about 32 words. */
static void plan_line(void)
{
    fill(pictures, sizeof pictures);
    line("plan", plan_ours, plan_plain, (setup){ 7, 16, 0, NULL }, 2.0);
}

/* Port writes beside digit writes, random words, those below 0x20, and what the ports drive beside what a pair of 7 segments shows. */
static void lines_beside_old(void)
{
    static const struct {
        const char *name;
        int ports, old;
    } kinds[] = { { "random", PORTS_RANDOM, RANDOM }, { "writes", PORTS_WRITES, DIGITS }, { "low", PORTS_LOW, LOW } };
    for (int k = 0; k < 3; k++)
        for (size_t clocks = 256; clocks <= 4096; clocks *= 16) {
            char name[16];
            snprintf(name, sizeof name, "new/old %s", kinds[k].name);
            line_beside_old(name, access_ours, (setup){ 0, 16, clocks, words[kinds[k].ports] }, access_ours,
                            (setup){ 7, 16, clocks, words[kinds[k].old] });
        }
    for (size_t n = 1; n <= 16; n *= 4)
        line_beside_old("ports/segments", ports_ours, (setup){ 0, n, 0, NULL }, segments_ours, (setup){ 7, n, 0, NULL });
}

int main(void)
{
    pin();
    fill_words();
    fill(font, sizeof font);
    fill(p0, sizeof p0);
    fill(p1, sizeof p1);
    printf("call           drivers clocks  ours, ns tuned, ns   ratio   bar\n");
    access_lines();
    call_lines();
    printf("\na full redraw planned, beside the same rule in plain C at -O2\n");
    printf("call           drivers clocks  ours, ns plain, ns   ratio   bar\n");
    plan_line();
    printf("\nthe library's MAX6957 beside its MAX6954, in like words\n");
    printf("call           drivers clocks   new, ns   old, ns   ratio   bar\n");
    lines_beside_old();
    puts(misses ? "MISSED:" : "every bar is met");
    for (int i = 0; i < misses; i++)
        printf("  %s\n", missed[i]);
    return 0;
}
