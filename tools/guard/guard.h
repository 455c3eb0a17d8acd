/*
 * Calls of the library with all that is lent to them: each is made three times, with memory of exactly the lent size, and
 * with lent memory against a page that cannot be touched, first at its low end and then at its high end. Where the first
 * call was refused, all lent memory of the other two is on pages that cannot be written.
 */
#ifndef GUARD_H
#define GUARD_H

#include "j1850.h"

enum call { CHECK_BYTE, CLASS, GOOD_CLOCK, INTERVALS, WRITE, READ, LIVE_START, HEAR, ASK, LOAD, WITHDRAW, SET_CLOCK, ROUND, DESK, CALLS };

/* Something lent: elements of one size, that the call may only read, or may also write. */
typedef struct {
    const void *data;
    size_t count;
    size_t size;
    bool writable;
} slice;

/* A call: its plain arguments, and what is lent to it, in the order of its arguments. */
typedef struct {
    enum call which;
    j1850_gate gate;
    j1850_clock clock;
    bool active;
    uint32_t number; /* a width, or the kind of a response */
    size_t place;    /* a place of the row, or a position of the recording */
    slice lent[3];
} job;

/* Makes a call three times and compares; ends the program where it touches what is not lent, where it is refused and stores,
   or where it answers otherwise. */
void trial(job wanted);

/* Makes a call on a row of so many stations, of which only those that the job has are there. */
void long_row(job wanted, size_t claimed);

/* How often a call answered with a number. */
extern unsigned long tally[CALLS][64];

/* The cases: edges first, and then random ones, so many times a fixed number. */
void all_cases(unsigned times, const uint8_t *recording, size_t length);

#endif
