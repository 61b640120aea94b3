/* The program of tools/plan: runs two scripts through the library, and writes the accesses that lead from the planes that the first leaves to those
   that the second leaves, as a script of a chain record and these accesses. What is wrong is said on standard error, and the status is 1.

     plan FROM FILE TO FILE    of each script its name, for what is said, and the file that has its bytes */
#include <errno.h>
#include <stdarg.h>
#include <stdio.h>
#include <stdlib.h>
#include <string.h>
#include "ratchetelm.h"

enum { LONGEST_SCRIPT = 65536, LONGEST_CHAIN = 16, ASSUMED_CHAIN = 4, LONGEST_ACCESS = 4096 };
enum { CHAIN = 1, ACCESS, SCAN, PINS, CLOCKS, SHOW, KINDS };
enum { MARK_0 = 0x5A, MARK_1 = 0xC3, HEAD = 5 };

/* Numbers of the table in ratchetelm.h that no call of it gives here. */
enum { CHAIN_LENGTH = 1, NO_RECORD = 8, SCRIPT_LENGTH = 9 };

typedef struct {
    const char *name;
    uint8_t bytes[LONGEST_SCRIPT + 1];
    size_t length;
    max6954_device chain[LONGEST_CHAIN];
    size_t n;
} script;

static script from, to;
static uint16_t list[LONGEST_CHAIN * MAX6954_MOST_ACCESSES];

static void fail(const char *format, ...)
{
    va_list given;
    va_start(given, format);
    vfprintf(stderr, format, given);
    va_end(given);
    fputc('\n', stderr);
    exit(1);
}

static void read_script(script *s, const char *name, const char *file)
{
    FILE *stream = fopen(file, "rb");
    s->name = name;
    s->length = stream ? fread(s->bytes, 1, sizeof s->bytes, stream) : 0;
    if (!stream || ferror(stream))
        fail("%s: %s", file, strerror(errno));
    fclose(stream);
    if (s->length > LONGEST_SCRIPT)
        fail("%s: refused with %d: %s", name, SCRIPT_LENGTH, max6954_refusal_text(SCRIPT_LENGTH));
}

/* A number of bytes, high first. */
static size_t number_of(const uint8_t *bytes, size_t count)
{
    size_t number = 0;
    for (size_t i = 0; i < count; i++)
        number = number << 8 | bytes[i];
    return number;
}

/* The kind of a record that begins so, with so many bytes left; 0 where it is cut, or has another mark, kind or length. */
static unsigned kind_of(const uint8_t *head, size_t left)
{
    static const uint8_t lengths[KINDS] = { 0, 1, 2, 5, 2, 5, 2 };
    if (left < HEAD || head[0] != MARK_0 || head[1] != MARK_1 || head[2] < CHAIN || head[2] >= KINDS)
        return 0;
    const size_t length = number_of(head + 3, 2), exact = lengths[head[2]];
    return length <= left - HEAD && (length == exact || (head[2] == ACCESS && length > exact)) ? head[2] : 0;
}

static uint8_t set_chain(script *s, size_t n)
{
    if (n < 1 || n > LONGEST_CHAIN)
        return CHAIN_LENGTH;
    s->n = n;
    return 0;
}

/* The number that a record gives. A show is asked for its number alone, so that any glyph table will do. */
static uint8_t called(script *s, size_t record, unsigned kind, const uint8_t *body, size_t length)
{
    static const uint16_t font[128] = { 0 };
    uint8_t answer[LONGEST_ACCESS / 8];
    switch (kind) {
    case CHAIN:
        return record == 1 ? set_chain(s, body[0]) : NO_RECORD;
    case ACCESS:
        return max6954_access(s->chain, s->n, number_of(body, 2), body + 2, length - 2, answer, sizeof answer);
    case SCAN:
        return max6954_scan(s->chain, s->n, body[0], body[1], body[2], body[3], body[4]);
    case PINS:
        return max6954_set_pins(s->chain, s->n, body[0], body[1]);
    case CLOCKS:
        return max6954_add_clocks(s->chain, s->n, body[0], (uint32_t)number_of(body + 1, 4));
    case SHOW:
        return max6954_segments(s->chain, s->n, body[0], body[1], font, 128, font, 128).number;
    default:
        return NO_RECORD;
    }
}

/* Runs a script from power-up to its end. A refused record is wrong: what was meant by it isn't in the picture. */
static void run(script *s)
{
    static const char *const names[KINDS] = { "", " (chain)", " (access)", " (scan)", " (pins)", " (clocks)", " (show)" };
    s->n = ASSUMED_CHAIN;
    for (size_t i = 0; i < LONGEST_CHAIN; i++)
        s->chain[i] = max6954_power_up();
    for (size_t at = 0, record = 1; at < s->length; record++) {
        const uint8_t *head = s->bytes + at;
        const unsigned kind = kind_of(head, s->length - at);
        const size_t length = kind ? number_of(head + 3, 2) : 0;
        const uint8_t number = called(s, record, kind, head + HEAD, length);
        if (number)
            fail("%s: record %zu%s refused with %d: %s", s->name, record, names[kind], number, max6954_refusal_text(number));
        at += HEAD + length;
    }
}

/* Says of which drivers the accesses make the planes alike, but not what they show. */
static void compare_settings(void)
{
    for (size_t i = 0; i < from.n; i++) {
        const max6954_registers *a = &from.chain[i].registers, *b = &to.chain[i].registers;
        if (memcmp(&a->controls, &b->controls, sizeof a->controls) || memcmp(&a->config, &b->config, sizeof a->config) ||
            memcmp(a->intensities, b->intensities, sizeof a->intensities))
            fprintf(stderr, "%s: driver %zu has other control or intensity registers than in %s; the accesses leave them\n", to.name, i + 1, from.name);
    }
}

/* Plans, and checks the plan; gives its accesses. */
static size_t planned(void)
{
    uint8_t wanted[LONGEST_CHAIN * MAX6954_WANTED_SIZE];
    const size_t n = from.n, size = MAX6954_WANTED_SIZE * n;
    for (size_t i = 0; i < n; i++) {
        memcpy(wanted + MAX6954_WANTED_SIZE * i, to.chain[i].registers.planes.p0, 16);
        memcpy(wanted + MAX6954_WANTED_SIZE * i + 16, to.chain[i].registers.planes.p1, 16);
    }
    const max6954_plan_answer plan = max6954_plan(from.chain, n, wanted, size, list, sizeof list / sizeof list[0]);
    const max6954_plan_check_answer check = max6954_plan_check(from.chain, n, wanted, size, list, n * plan.accesses);
    if (plan.number || check.number || !check.accepted)
        fail("plan: its list isn't accepted (plan %d, check %d)", plan.number, check.number);
    return plan.accesses;
}

static void write_record(unsigned kind, const uint8_t *body, size_t length)
{
    const uint8_t head[HEAD] = { MARK_0, MARK_1, (uint8_t)kind, (uint8_t)(length >> 8), (uint8_t)length };
    fwrite(head, 1, HEAD, stdout);
    fwrite(body, 1, length, stdout);
}

static void write_list(size_t accesses)
{
    const size_t n = from.n, clocks = 16 * n;
    uint8_t body[2 + 2 * LONGEST_CHAIN] = { (uint8_t)n };
    write_record(CHAIN, body, 1);
    body[0] = (uint8_t)(clocks >> 8);
    body[1] = (uint8_t)clocks;
    for (size_t k = 0; k < accesses; k++) {
        max6954_plan_bytes(n, list, n * accesses, k, body + 2, 2 * n);
        write_record(ACCESS, body, 2 + 2 * n);
    }
    if (fflush(stdout) || ferror(stdout))
        fail("standard output can't be written: %s", strerror(errno));
}

int main(int argc, char **argv)
{
    if (argc != 5)
        fail("plan FROM FILE TO FILE");
    read_script(&from, argv[1], argv[2]);
    read_script(&to, argv[3], argv[4]);
    run(&from);
    run(&to);
    if (from.n != to.n)
        fail("%s: a chain of %zu, and %s has a chain of %zu", to.name, to.n, from.name, from.n);
    compare_settings();
    write_list(planned());
    return 0;
}
