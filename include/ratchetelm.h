/* The bench double of a chain of MAX6954 and MAX6957 and of a bus of MAX6955, for C and C++. make lib puts it into target/lib, beside the
   libratchetelm.a and libratchetelm.so to link.

   A chain is an array of 1 to 16 records, nearest the controller first, lent to each call as a pointer and a length. Drivers are counted from 1. So
   are the parts on a two-wire bus, whose records are the same: scans, pin levels, clocks and questions are those of a chain.
   There are two families of drivers, and a chain may mix them: the old one, the MAX6954 with its two-wire relative, and the MAX6957.
   No call allocates, keeps a pointer or writes where it was not lent. Any bytes are a record: one that isn't sound is refused, never undefined.

   The caller sees to it that a pointer is valid and aligned for the length that comes with it (NULL will do for 0), that what a call writes (the
   chain of an access, a scan, pin levels, clocks or a byte of the bus; the answer bytes; a plan's list or its bytes; a lit time's totals) overlaps
   nothing else that is lent to it, so answer isn't sent, and that nobody else writes the records meanwhile. Lengths count elements: records, bytes,
   words of a glyph table or list, or totals.

   Each call gives a number: 0 where it is served, else the first of these that applies, in this order, and then no record and no lent byte has
   changed:
     9 script longer than 65,536 bytes
     1 the chain has 0 or more than 16 records
     2 driver number not in 1..n
     3 more than 4,096 clocks in one access
     4 sent bytes fewer than the clocks need (clocks / 8, rounded up)
     5 room for answer bytes fewer than the clocks need; also too little room for the bytes of a plan or for the totals of a lit time
     6 cathode above 7, pin levels above 31 (over 28 bits for a MAX6957), a digit (alone or in a range) above 15, a plane above 1, a range's last
       digit below its first, a lent plane not 16 long, or a glyph table not 128 long
     7 some record of the chain isn't sound, or the bus state isn't: a field of a record doesn't fit its register, its blink count isn't below
       4,000,000, its answer mark is above 1 or its command address above 127; the bus state names a part above n, or its phase is above 2
    10 two parts with one address
    11 address above 127
    14 a family number unknown in some record, or a call that the named driver, or for the planner, its check and the two-wire bus any driver, lacks
    12 wanted planes not 32 bytes a driver
    13 room for the list too small for the shortest
   Any call that is lent a chain may give 1, 7 and 14, one that names a driver 2 too; which of the others it may give stands with it. 8 is the panel
   program's alone: where that prints it, a lit time has what ran.
   7 tests of a record the registers of its own family and its answer mark, and the command address in the old family alone. Of a record whose family
   is unknown it tests nothing, nor does 6 its pin levels: that record is for 14.
   A MAX6957 lacks scans, clocks, brightness, segments, the look back and the calls on the plane that is shown; a chain with one anywhere lacks plans
   and their check, and the two-wire bus. The old family lacks max6957_ports alone. */
#ifndef RATCHETELM_H
#define RATCHETELM_H

#include <stddef.h>
#include <stdint.h>

/* 0.8.0: 10,000 for each of the first number, 100 of the second, 1 of the third. */
#define RATCHETELM_VERSION 800

/* The bytes of a record as the library has it. A program can test at its start that its compiler lays it out alike: sizeof(max6954_device) is this.
   The two after family and the last two are padding, which no call reads and a served one may change. */
#define MAX6954_DEVICE_SIZE 124

/* The wanted bytes of one driver, and the most accesses that a plan has: 13 isn't given where the room is so many words for each driver. */
#define MAX6954_WANTED_SIZE 32
#define MAX6954_MOST_ACCESSES 32

/* The totals of one driver, a cathode each, and the most that a lit time has: 5 isn't given where the room is so many, whatever the script. */
#define MAX6954_CATHODES 8
#define MAX6954_MOST_TOTALS 128

#ifdef __cplusplus
extern "C" {
#endif

/* The words of a number: 8 is the panel program's, the others the calls'. */
static inline const char *max6954_refusal_text(uint8_t number)
{
    switch (number) {
    case 0:
        return "served";
    case 1:
        return "the chain has 0 or more than 16 records";
    case 2:
        return "driver number not in 1..n";
    case 3:
        return "more than 4,096 clocks in one access";
    case 4:
        return "sent bytes fewer than the clocks need";
    case 5:
        return "room for answer bytes fewer than the clocks need";
    case 6:
        return "cathode above 7, pin levels above 31 (over 28 bits for a MAX6957), a digit (alone or in a range) above 15, a plane above 1, "
               "a range's last digit below its first, a lent plane not 16 long, or a glyph table not 128 long";
    case 7:
        return "some record of the chain isn't sound, or the bus state isn't";
    case 8:
        return "script: wrong mark, unknown kind, cut record, length not fitting its kind, or a chain record that isn't first";
    case 9:
        return "script longer than 65,536 bytes";
    case 10:
        return "two parts with one address";
    case 11:
        return "address above 127";
    case 12:
        return "wanted planes not 32 bytes a driver";
    case 13:
        return "room for the list too small for the shortest";
    case 14:
        return "a family number unknown in some record, or a call that the named driver, or for the planner, its check and the two-wire bus "
               "any driver, lacks";
    default:
        return "not a number that is given";
    }
}

/* The control registers as stored, each by its address. */
typedef struct {
    uint8_t decode;    /* 0x01 decode mode, bit d for digits d and da: 1 is the hex font, 0 a bit for each segment; 7-segment pairs only */
    uint8_t global;    /* 0x02 global intensity, 4 bits */
    uint8_t limit;     /* 0x03 scan limit, 3 bits: cathodes above it are dark */
    uint8_t gpio;      /* 0x05 GPIO data, 5 bits, bit k is Pk: what an output gives */
    uint8_t ports;     /* 0x06 port configuration: key groups in D7 to D5 (4 and above are 4), directions of P4 to P0 below, 1 is input */
    uint8_t test;      /* 0x07 display test, 1 bit */
    uint8_t types;     /* 0x0C digit type, bit d for cathode d: 1 is 14 segments, 0 is 16 or a 7-segment pair as fitted has it */
} max6954_controls;

/* 0x04 configuration: the stored bits, each 0 or 1. */
typedef struct {
    uint8_t i;    /* D6: each digit's own intensity */
    uint8_t e;    /* D3: blinking enabled */
    uint8_t b;    /* D2: blinking fast */
    uint8_t s;    /* D0: normal operation, 0 is shutdown */
} max6954_config;

/* Eight keys of a group, bit k for key k. */
typedef struct {
    uint8_t mask;         /* 0x08 to 0x0B as written: keys that raise the interrupt */
    uint8_t debounced;    /* 0x08 to 0x0B as read: debounced since it was last read */
    uint8_t pressed;      /* 0x0C to 0x0F as read: closed in the last scan */
    uint8_t held;         /* still closed since they were debounced, so not debounced again */
} max6954_group;

/* Key groups A to D, and the interrupt that they share. */
typedef struct {
    max6954_group a, b, c, d;
    uint8_t interrupt;    /* 1 when raised, else 0 */
} max6954_keys;

/* The digit bytes: digits 0 to 7, then 0a to 7a. */
typedef struct {
    uint8_t p0[16];    /* 0x20 to 0x2F */
    uint8_t p1[16];    /* 0x40 to 0x4F */
} max6954_planes;

/* All that the registers hold or show. */
typedef struct {
    max6954_controls controls;
    max6954_config config;
    uint8_t intensities[8];    /* 0x10 to 0x17: digits 0 and 1, 2 and 3, .. 7, 0a and 1a, .. 7a; the odd one in the high nibble */
    max6954_keys keys;
    max6954_planes planes;
    uint32_t pins;     /* levels of the pins P0 to P4, 5 bits, bit k is Pk: what an input reads */
    uint32_t blink;    /* master clocks modulo 4,000,000 */
} max6954_registers;

/* 0x04 configuration of a MAX6957: the stored bits, each 0 or 1. */
typedef struct {
    uint8_t m;    /* D7: transition detection; an event leaves it */
    uint8_t i;    /* D6: each port's own current */
    uint8_t s;    /* D0: normal operation, 0 is shutdown */
} max6957_config;

/* Transition detection, bit k for port k+24: P24 to P30. */
typedef struct {
    uint8_t mask;         /* 0x06 transition detect mask, 7 bits: ports that raise the interrupt */
    uint8_t snapshot;     /* 7 bits: what the ports read when configuration was last written with M set */
    uint8_t detecting;    /* 1 from such a write until a masked port differs from the snapshot or M is written 0, else 0 */
    uint8_t interrupt;    /* 1 when raised, else 0: INT, which P31 shows as an output while M is set */
} max6957_transition;

/* All that the registers of a MAX6957 hold or show, bit k for port k+4: P4 to P31. At 0x40 to 0x43 D0 is P4, as Table 3 of its data sheet has it, and
   40F0 stores nothing. So one code for a digit that two drivers share, sent to 0x5C of the first and to 0x40 of the second, doesn't work as the
   sheet's text says: the second must be sent the code's high nibble, in D3 to D0. */
typedef struct {
    uint32_t stored;         /* 0x24 to 0x3F and 0x40 to 0x5F as written, 28 bits: what an output gives, LED or logic */
    uint32_t pins;           /* levels of the pins, 28 bits: what an input reads, and any port in shutdown */
    uint8_t pairs[7];        /* 0x09 to 0x0F: two bits a port, P4 in D1 and D0 of the first; 0 LED, 1 output, 2 input, 3 input with pull-up */
    uint8_t currents[14];    /* 0x12 to 0x1F: P4 and P5, P6 and P7, .. P30 and P31; the odd one in the high nibble */
    uint8_t global;          /* 0x02 global current, 4 bits */
    uint8_t test;            /* 0x07 display test, 1 bit */
    max6957_config config;
    max6957_transition transition;
} max6957_registers;

/* A driver's record. Of registers and ports, those of the family that the driver isn't of are never read, tested or changed. */
typedef struct {
    max6954_registers registers;
    uint16_t shift;         /* the shift word, D15 to D0: the next access clocks it out */
    uint8_t fitted;         /* bit d: cathode d has a 7-segment pair where its digit type is 0, else 16 segments; no call changes it */
    uint8_t answer_mark;    /* 1 when the word that the driver last took was a read, so that the shift word is its answer, else 0 */
    uint8_t command;        /* the command address of a two-wire part, 7 bits: where its next data byte is; accesses leave it */
    uint8_t family;         /* 0: MAX6954 or MAX6955, 1: MAX6957; no call changes it, and any other is refused with 14 */
    max6957_registers ports;
} max6954_device;

/* A pin of a segment answer. */
enum {
    MAX6954_NOT_DRIVEN = 0,    /* the cathode's partner, or any pin of a cathode that is dark */
    MAX6954_CATHODE = 1,       /* the cathode itself */
    MAX6954_LIT = 2,           /* its segment is lit */
    MAX6954_UNLIT = 3,         /* its segment isn't lit */
    MAX6954_NO_SEGMENT = 4     /* the display has no segment there */
};

/* A port of a port answer: one of these, or 2 + s for an LED current of s sixteenths, 1 to 16. */
enum {
    MAX6957_UNDRIVEN = 0,    /* an input, an LED that is off, or any port in shutdown but an LED in display test */
    MAX6957_LOW = 1,         /* an output, low */
    MAX6957_HIGH = 2         /* an output, high */
};

/* What rules the brightness of a digit. */
enum {
    MAX6954_RULED_BY_NONE = 0,      /* where refused */
    MAX6954_RULED_BY_GLOBAL = 1,    /* the global intensity register: I=0 */
    MAX6954_RULED_BY_OWN = 2,       /* the digit's own nibble: I=1 */
    MAX6954_RULED_BY_TEST = 3       /* display test, whatever I is */
};

/* Each answer has its call's number first. */
typedef struct {
    uint8_t number;
    uint8_t pins[19];    /* O0 to O18; none driven where refused */
} max6954_segment_answer;

typedef struct {
    uint8_t number;
    uint8_t sixteenths;    /* 1 to 15; 0 where the digit's cathode is dark or the call refused */
    uint8_t ruler;         /* what rules them, or would if the cathode weren't dark; none where refused */
} max6954_brightness_answer;

typedef struct {
    uint8_t number;
    uint8_t plane;    /* 0 for P0, 1 for P1; 0 where refused */
} max6954_shown_answer;

typedef struct {
    uint8_t number;
    uint8_t raised;    /* 1 when raised, else 0; 0 where refused */
} max6954_interrupt_answer;

typedef struct {
    uint8_t number;
    uint8_t mark;    /* 1 when set, else 0; 0 where refused */
} max6954_mark_answer;

typedef struct {
    uint8_t number;
    uint8_t ports[28];    /* P4 to P31; none driven where refused */
} max6957_port_answer;

typedef struct {
    uint8_t number;
    uint8_t byte;    /* 0 where refused */
} max6954_look_back_answer;

typedef struct {
    uint8_t number;
    size_t accesses;    /* of the list, 0 to 32; 0 where refused */
} max6954_plan_answer;

typedef struct {
    uint8_t number;
    uint8_t accepted;    /* 1 when the list is accepted, else 0; 0 where refused */
} max6954_plan_check_answer;

typedef struct {
    uint8_t number;
    size_t drivers;    /* of the script's chain, 1 to 16; 0 where refused */
} max6954_lit_time_answer;

/* What goes on on a two-wire bus, kept by the caller from call to call. A part is named by its place among the records, from 1; 0 names none. */
typedef struct {
    size_t part;
    uint8_t phase;    /* of part 0 MAX6955_IDLE and the two after it, of a part MAX6955_COMMAND and the two after it */
} max6955_bus;

enum {
    MAX6955_IDLE = 0,            /* after a stop: so a bus begins */
    MAX6955_AWAITS_SLAVE = 1,    /* after a start */
    MAX6955_UNMATCHED = 2,       /* after a slave byte that is nobody's: a start is awaited */
    MAX6955_COMMAND = 0,         /* the part is written: its command address comes next */
    MAX6955_WRITES = 1,          /* and then data */
    MAX6955_READS = 2            /* the part is read */
};

/* The seven-bit addresses of sixteen parts, in the order of their records; of n parts the first n count. */
typedef struct {
    uint8_t addresses[16];
} max6955_straps;

typedef struct {
    uint8_t number;
    max6955_bus bus;    /* after the call; as given where refused */
} max6955_bus_answer;

typedef struct {
    uint8_t number;
    max6955_bus bus;         /* after the call; as given where refused */
    uint8_t acknowledged;    /* 1 when a part took or drove the byte, else 0; 0 where refused */
    uint8_t data;            /* of a byte read; 0 of one taken, 255 of one that isn't acknowledged, 0 where refused */
} max6955_byte_answer;

/* A driver at power-up: in shutdown, every cathode fitted with a 7-segment pair. */
max6954_device max6954_power_up(void);

/* A MAX6957 at power-up: in shutdown, every port an input. The two differ in family alone. */
max6954_device max6957_power_up(void);

/* Clocks through the chain; bits are packed first bit highest. With 16 clocks for each driver the last driver's word goes first, sent and answered.
   The answer's bytes are written, spare bits of the last one 0; bytes after them stay. Then every driver takes the word in its shift register,
   also at 0 clocks. What a read asks for comes out in the next access, never in its own. Gives 3, 4 and 5. */
uint8_t max6954_access(max6954_device *chain, size_t n, size_t clocks, const uint8_t *sent, size_t sent_length, uint8_t *answer, size_t room);

/* A key scan of one driver: the closed keys of groups A to D, bit k for key k. */
uint8_t max6954_scan(max6954_device *chain, size_t n, size_t driver, uint8_t a, uint8_t b, uint8_t c, uint8_t d);

/* The pin levels of one driver: five in the old family, bit k is Pk; 28 of a MAX6957, bit k is port k+4, and a change may raise its interrupt.
   Gives 6. */
uint8_t max6954_set_pins(max6954_device *chain, size_t n, size_t driver, uint32_t levels);

/* Master clocks given to one driver, any number; accesses give none. */
uint8_t max6954_add_clocks(max6954_device *chain, size_t n, size_t driver, uint32_t clocks);

/* What a cathode, 0 to 7, shows under two glyph tables of 128 words, for 14 and for 16 segments; both are lent whichever it uses. D6 to D0 of the
   digit's byte pick the word, whose bits 15 to 0 are the segments a1 a2 b c d1 d2 e f g1 g2 h i j k l m; of 14 segments, bit 15 is a and bit 11
   is d. Gives 6. */
max6954_segment_answer max6954_segments(const max6954_device *chain, size_t n, size_t driver, size_t cathode, const uint16_t *font14,
                                        size_t font14_length, const uint16_t *font16, size_t font16_length);

/* The brightness of a digit, 0 to 7 and then 8 to 15 for 0a to 7a, and what rules it. Digits d and da are of cathode d, which is dark in shutdown or
   above the scan limit, unless in display test. Gives 6. */
max6954_brightness_answer max6954_brightness(const max6954_device *chain, size_t n, size_t driver, size_t digit);

/* The plane that a driver shows. */
max6954_shown_answer max6954_shown(const max6954_device *chain, size_t n, size_t driver);

/* Whether a driver's interrupt is raised. Asking doesn't clear it; reading a debounced register does. That of a MAX6957 is cleared by a read or a
   write of its mask, which leave detection off after an event, and by configuration written with M set, which takes a new snapshot. */
max6954_interrupt_answer max6954_interrupt(const max6954_device *chain, size_t n, size_t driver);

/* Whether the word that a driver last took was a read, of any address. Every access that is served decides it afresh for every driver, also at
   0 clocks; nothing else changes it, and it isn't set at power-up. */
max6954_mark_answer max6954_answer_mark(const max6954_device *chain, size_t n, size_t driver);

/* What each port of a MAX6957 drives. A current is the global nibble + 1, with I=1 the port's own + 1; in display test every LED port has 8. */
max6957_port_answer max6957_ports(const max6954_device *chain, size_t n, size_t driver);

/* The byte of a digit in plane 0 or 1 that a driver would have after taking these words in order; digits 0 to 7, then 8 to 15 for 0a to 7a. The list
   may have any length, and no record changes. It looks back from the last word, and stops at the first that writes the byte (0x20 and the digit for
   plane 0, 0x40 for plane 1, 0x60 for both) or clears the planes (a configuration write with R); else it is the byte in the record. Gives 6. */
max6954_look_back_answer max6954_look_back(const max6954_device *chain, size_t n, size_t driver, size_t plane, size_t digit, const uint16_t *words,
                                           size_t length);

/* The number of a call of max6954_plane. Gives 6. */
uint8_t max6954_plane_number(const max6954_device *chain, size_t n, size_t driver, const uint8_t *p0, size_t p0_length, const uint8_t *p1,
                             size_t p1_length, size_t first, size_t last);

/* The same number, and the plane that the part is of. Gives 6. */
max6954_shown_answer max6954_plane_shown(const max6954_device *chain, size_t n, size_t driver, const uint8_t *p0, size_t p0_length,
                                         const uint8_t *p1, size_t p1_length, size_t first, size_t last);

/* Digits first to last, both included, of the plane that a driver shows, of two lent planes of 16 digits, uncopied: last + 1 - first bytes from
   the result on, or NULL where refused. */
static inline const uint8_t *max6954_plane(const max6954_device *chain, size_t n, size_t driver, const uint8_t *p0, size_t p0_length,
                                           const uint8_t *p1, size_t p1_length, size_t first, size_t last)
{
    const max6954_shown_answer shown = max6954_plane_shown(chain, n, driver, p0, p0_length, p1, p1_length, first, last);
    return shown.number ? NULL : (shown.plane ? p1 : p0) + first;
}

/* The fewest accesses that lead from the planes of a chain to wanted ones, which are 32 bytes a driver, P0 then P1, driver 1's first. The list has
   a word to each driver for each access, driver 1's first. A driver's words are a clear if that makes them fewer, its digits rising, P0's write
   before P1's, and then 0000 while others need more. Words after the list stay; max6954_plan_bytes gives what to send. Gives 12 and 13. */
max6954_plan_answer max6954_plan(const max6954_device *chain, size_t n, const uint8_t *wanted, size_t wanted_length, uint16_t *list, size_t room);

/* Whether a list, of any length, leads there too: it is whole accesses, ends in the wanted planes, and has no other words than 0000, writes to
   digits (0x20 to 0x2F, 0x40 to 0x4F, 0x60 to 0x6F), and configuration writes with the driver's own I, E, B and S, with P, T and X 0 and with any
   R, which clears. Gives 12. */
max6954_plan_check_answer max6954_plan_check(const max6954_device *chain, size_t n, const uint8_t *wanted, size_t wanted_length,
                                             const uint16_t *list, size_t list_length);

/* The 2n bytes to send for an access of a list, counted from 0: to be given to max6954_access with 16n clocks. Bytes after them stay. Gives 1 for n,
   4 where the list lacks that access, and 5 where the room is under 2n. */
uint8_t max6954_plan_bytes(size_t n, const uint16_t *list, size_t list_length, size_t access, uint8_t *bytes, size_t room);

/* The lit time of a run. A whole script is run as the panel program runs it, on MAX6954 at power-up; for each driver and cathode the total is the sum,
   over every master clock given to that driver, of lit segments times sixteenths of brightness at that clock. Each clock counts under its own blink
   phase, before it is added, and each digit of a 7-segment pair with its own brightness. Driver 1's totals come first, cathodes 0 to 7; totals after
   the last driver's stay.

   A script is records of 5A C3, a kind, the body's length in two bytes and the body, high bytes first: kind 1 the chain's length; 2 an access, its
   clocks in two bytes and the bits; 3 a scan, driver and keys A to D; 4 pins, driver and levels; 5 master clocks, driver and clocks in four bytes;
   6 a show, driver and cathode. Where the first isn't a chain record, the chain is of 4. Digits of 14 segments show the test table, whose glyph k is
   the word 257 times k. A refused record adds nothing; a malformed one, or a chain record that isn't first, ends the run: what ran counts, and the
   number is 0. Gives 9, 1 where the chain record's length is 0 or above 16, and 5 where the room is under 8 totals a driver, in this order. */
max6954_lit_time_answer max6954_lit_time(const uint8_t *script, size_t script_length, uint64_t *totals, size_t room);

/* The two-wire bus of the MAX6955: any of its calls may give 1, 7, 10, 11 and 14, in this order, and no other. None is refused for being out of
   place.

   A start, in any state: the bus awaits a slave byte, which is twice an address, and 1 more for a read. A start within a transaction ends it. */
max6955_bus_answer max6955_start(const max6954_device *parts, size_t n, max6955_bus bus, max6955_straps straps);

/* A stop, in any state: the bus is idle. The parts keep their command addresses. */
max6955_bus_answer max6955_stop(const max6954_device *parts, size_t n, max6955_bus bus, max6955_straps straps);

/* A byte that the controller gives: the slave byte; then, to the part that is written, its command address, whose top bit is ignored, and data,
   each stored at that address, which then steps by one and stays at 127. Elsewhere nobody acknowledges it, and it changes nothing, but a slave byte
   that is nobody's makes the bus await a start. */
max6955_byte_answer max6955_write(max6954_device *parts, size_t n, max6955_bus bus, max6955_straps straps, uint8_t byte);

/* A byte that the controller asks for: from the part that is read, the data at its command address, which then steps in the same way. Elsewhere
   nobody acknowledges it, and it changes nothing. */
max6955_byte_answer max6955_read(max6954_device *parts, size_t n, max6955_bus bus, max6955_straps straps);

#ifdef __cplusplus
}
#endif

#endif
