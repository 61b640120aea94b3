/* Random rows of records and random calls on them. */
#ifndef CASES_H
#define CASES_H

#include "ratchetelm.h"

enum { MOST_RECORDS = 18, MOST_BYTES = 521 };

enum { ACCESS, SCAN, SET_PINS, ADD_CLOCKS, SEGMENTS, BRIGHTNESS, SHOWN, INTERRUPT, ANSWER_MARK, PORTS, PLANE, KINDS };

/* A call: its driver, and its other arguments as far as its kind has them. */
typedef struct {
    int kind;
    size_t n, driver;
    size_t clocks, sent, room;    /* sent and room are at most MOST_BYTES */
    uint32_t value;               /* closed keys, pin levels or master clocks */
    size_t place;                 /* a cathode or a digit */
    size_t lengths[2];            /* of the glyph tables or of the planes: one more than they need at most */
    size_t first, last;
} call;

/* Makes a row of at most MOST_RECORDS records with a sound one on either side; gives its length. One row in two has MAX6957, alone or among others;
   in one in twelve some family is unknown, and one in eight isn't sound. */
size_t some_row(max6954_device *records);

/* A call on a row of n records, mostly one that is served. */
call some_call(const max6954_device *row, size_t n);

/* Bytes to send: any words, and more often those to the registers that decide what others do. */
void some_words(uint8_t *sent, size_t count);

#endif
