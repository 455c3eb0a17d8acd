/*
 * Sintugapon for C: volts to intervals, reading (decoding) and writing the frames of SAE J1850 VPW, whole recordings or an
 * interval at a time, arbitration among up to 32 stations on the line, and the text of the support desk.
 *
 * For Linux on x86-64, C11 or C++11.
 *
 * Every answer but j1850_live_start's, which is the reader, begins with a number; the constants below name them all. A refusal
 * (J1850_REFUSED_.., below for short .._NAME) changes no lent memory, and the answer's other fields are 0. Of the other numbers
 * each struct says which fields they have; a field that a number does not have is 0.
 *
 * A slice is a pointer and then a length in elements; where the length is 0 the pointer may be NULL. A live reader is a
 * pointer to one, never NULL. Memory that a call may change must not overlap any other argument; two inputs that are only
 * read (pointers to const) may overlap. Beyond memory that is there, no call asks anything of its caller: any value has an
 * answer, and any 64 bytes are a live reader. No call allocates, keeps state between calls or changes anything but the memory
 * lent to it.
 *
 * `tools/library` proves the library and writes libj1850.a and libj1850.so to target/library/; `tools/install PREFIX` puts
 * them where compilers look.
 */
#ifndef J1850_H
#define J1850_H

#include <stdbool.h>
#include <stddef.h>
#include <stdint.h>

#ifdef __cplusplus
extern "C" {
#endif

/* The version of this header. The first number is the soname's, libj1850.so.1, and changes with the structs, the numbers and
   the calls that are there; docs/CHANGES.md tells what each has changed. */
#define J1850_VERSION_MAJOR 1
#define J1850_VERSION_MINOR 0
#define J1850_VERSION "1.0"

/* The numbers that an answer begins with. docs/NUMBERS.md tells when each comes and what to do; j1850_words gives the words. */
enum {
    J1850_DONE = 0,           /* the call was done */
    J1850_FRAME = J1850_DONE, /* .. and where a line is read: a good frame */
    J1850_QUIET = 1,
    J1850_UNFINISHED = 2,
    /* faults, document 01's */
    J1850_FAULT_NOISE = 11,
    J1850_FAULT_NO_SOF = 12,
    J1850_FAULT_BREAK = 13,
    J1850_FAULT_STUCK = 14,
    J1850_FAULT_LATE_SOF = 15,
    J1850_FAULT_SPLIT_BYTE = 16,
    J1850_FAULT_FEW_BYTES = 17,
    J1850_FAULT_WRONG_CHECK = 18,
    J1850_FAULT_EOD_AFTER_RESPONSE = 19,
    J1850_FAULT_THIRTEENTH_BYTE = 20,
    /* refusals, document 01's; 51 is document 02's and 61 the desk's own */
    J1850_REFUSED_POSITION = 31,
    J1850_REFUSED_LENT = 32,
    J1850_REFUSED_SAMPLES = 33,
    J1850_REFUSED_GATE = 34,
    J1850_REFUSED_UNUSABLE = 35,
    J1850_REFUSED_CLOCK = 36,
    J1850_REFUSED_MESSAGE = 37,
    J1850_REFUSED_ROW_SIZE = 38,
    J1850_REFUSED_ROW_UNSOUND = 39,
    J1850_REFUSED_PLACE = 40,
    J1850_REFUSED_HOLDS = 41,
    J1850_REFUSED_NOTHING = 42,
    J1850_REFUSED_PAST_PLACES = 51,
    J1850_REFUSED_DESK_LENT = 61,
    /* no refusals, and our own: the desk's input is bad; an interval was heard that decides nothing yet */
    J1850_BAD_INPUT = 62,
    J1850_UNDECIDED = 63
};

/* What a call has to be lent, at least: bytes for a frame, words for a frame, and what j1850_desk takes. */
enum { J1850_FRAME_BYTES = 12, J1850_FRAME_WORDS = 101, J1850_DESK_WORDS = 16384, J1850_DESK_TEXT = 442463 };

/* A channel's gate in volts: ground offset, active level, passive level. The usual one is 0, 6.25, 1.5. */
typedef struct {
    float offset;
    float active;
    float passive;
} j1850_gate;

/* The widths that a controller sends with, in microseconds: short bit 49..79, long bit 112..145, SOF and EOD 182..218.
   The nominal clock is 64, 128, 200. */
typedef struct {
    uint32_t short_bit;
    uint32_t long_bit;
    uint32_t sof;
} j1850_clock;

/* The symbols, as j1850_class numbers them. */
enum {
    J1850_NOISE = 0,
    J1850_BIT_0 = 1,
    J1850_BIT_1 = 2,
    J1850_EOD = 3,
    J1850_SOF = 4,
    J1850_EOF = 5,
    J1850_IFS = 6,
    J1850_BREAK = 7,
    J1850_STUCK = 8
};

/* The kinds of response: none, bytes alone (plain), or bytes and a check byte of their own (checked). */
enum { J1850_WITHOUT = 0, J1850_PLAIN = 1, J1850_CHECKED = 2 };

/* A station of a row: its clock and its stored message, the first `length` of its bytes. Length 0 means empty. A row is an
   array of 1 to 32 stations, which the caller owns; one that starts empty has good clocks and lengths of 0. A station has
   24 bytes, and none of them is padding. */
typedef struct {
    j1850_clock clock;
    uint8_t bytes[11];
    uint8_t length;
} j1850_station;

/* How a place fared in a round: it held no message, its message went out whole, or it had to stop at a bit. */
enum { J1850_IDLE = 0, J1850_THROUGH = 1, J1850_LOST = 2 };

/* A live reader, which the caller owns and lends to each call: where its recording stands, and the frame that has begun. It
   has 64 bytes, and none of them is padding. One of zeros has heard nothing. What its words mean is the library's own;
   whatever they are, no answer tells of more than 12 bytes. */
typedef struct {
    uint64_t inner[8];
} j1850_live;

typedef struct {
    uint32_t number; /* always J1850_DONE */
    uint8_t check;   /* the check byte */
} j1850_check_answer;

typedef struct {
    uint32_t number; /* always J1850_DONE */
    uint32_t symbol; /* J1850_NOISE to J1850_STUCK */
} j1850_class_answer;

typedef struct {
    uint32_t number; /* always J1850_DONE */
    bool good;       /* whether all three widths lie in the sending windows */
} j1850_clock_answer;

typedef struct {
    uint32_t number; /* J1850_DONE, or a refusal */
    size_t count;    /* done: how many of the lent words were written, from the first on; the words past them stay */
} j1850_count_answer;

/* What reading answers; which number has which fields, every other field being 0:
     J1850_FRAME                        kind, next, opening, main, response
     J1850_QUIET                        next
     J1850_UNFINISHED                   next, opening, which are the same
     J1850_FAULT_..                     next
     J1850_REFUSED_POSITION, .._LENT    none */
typedef struct {
    uint32_t number;
    uint32_t kind;   /* J1850_WITHOUT, J1850_PLAIN or J1850_CHECKED */
    size_t next;     /* where reading goes on: the closing end; quiet: the position asked for; the opening; the interval at
                        fault */
    size_t opening;  /* where the frame opens */
    size_t main;     /* how many main bytes stand first in the lent bytes, their check byte included */
    size_t response; /* how many response bytes stand after them, a checked response's check byte included */
} j1850_read_answer;

/* What an interval answers that a live reader hears; which number has which fields, every other field being 0:
     J1850_FRAME                             kind, next, opening, main, response
     J1850_FAULT_..                          next
     J1850_UNDECIDED                         none
     J1850_REFUSED_PAST_PLACES, .._LENT      none */
typedef struct {
    uint32_t number;
    uint32_t kind;    /* J1850_WITHOUT, J1850_PLAIN or J1850_CHECKED */
    uint64_t next;    /* where reading goes on: the closing end; the interval at fault */
    uint64_t opening; /* where the frame opens */
    size_t main;      /* how many main bytes stand first in the lent bytes, their check byte included */
    size_t response;  /* how many response bytes stand after them, a checked response's check byte included */
} j1850_heard_answer;

typedef struct {
    uint32_t number;  /* J1850_QUIET or J1850_UNFINISHED */
    uint64_t next;    /* where reading goes on: quiet: the place of the last answer, 0 before the first one; the opening */
    uint64_t opening; /* unfinished: where the frame opens; quiet: 0 */
} j1850_asked_answer;

typedef struct {
    uint32_t number; /* J1850_DONE, or a refusal */
} j1850_call_answer;

typedef struct {
    uint32_t fared; /* J1850_IDLE, J1850_THROUGH or J1850_LOST */
    size_t bit;     /* lost: at which bit, counted from 1 after the SOF; otherwise 0 */
} j1850_verdict;

typedef struct {
    uint32_t number;            /* J1850_DONE, or a refusal */
    uint32_t line_time;         /* done: the microseconds of all intervals but the closing 300 */
    size_t words;               /* done: how many of the lent words were written, from the first on; the words past them stay */
    j1850_verdict verdicts[32]; /* how each place of the row fared; idle past the row, and all idle where refused */
} j1850_round_answer;

typedef struct {
    uint32_t number; /* J1850_DONE a report; J1850_BAD_INPUT; J1850_REFUSED_DESK_LENT */
    size_t line;     /* bad input: the number of its first bad line, from 1 on; otherwise 0 */
    size_t length;   /* report and bad input: how many bytes of text were written, from the first on; the bytes past them
                        stay; otherwise 0 */
} j1850_desk_answer;

/* The check byte that is sent after these bytes. */
j1850_check_answer j1850_check_byte(const uint8_t *bytes, size_t length);

/* The symbol of an interval of this width, in microseconds, on an active or a passive line. */
j1850_class_answer j1850_class(bool active, uint32_t width);

/* Whether a clock lies in the sending windows, so that j1850_write takes it. */
j1850_clock_answer j1850_good_clock(j1850_clock clock);

/* The intervals of a trace, one sample a microsecond: passive, active, passive .. in microseconds; the first may be 0.
   Lend one word more than there are samples. Refusals, the first that applies: .._SAMPLES (33) more than 16,384
   samples; .._GATE (34) a gate that is not finite or whose passive level is not below its active one; .._LENT (32) too few
   words; .._UNUSABLE (35) a sample, or a sample less the offset, that is not finite. The answer is that of IEEE's default
   arithmetic, whatever rounding or flushing to zero the thread is set to, and the thread's setting is left as it was. */
j1850_count_answer j1850_intervals(j1850_gate gate, const float *samples, size_t samples_length, uint32_t *words,
                                   size_t words_length);

/* The intervals of a frame, opening and closing end included. Bytes are given without check bytes; kind says which
   response there is, and without one the response bytes are ignored. Lend J1850_FRAME_WORDS words, however short the
   frame. Refusals, the first that applies: .._CLOCK (36) a clock outside the sending windows; .._MESSAGE (37) no main bytes,
   no response bytes where a response is asked for, more than 12 bytes with checks, or a kind that is none of the three;
   .._LENT (32) fewer words. */
j1850_count_answer j1850_write(j1850_clock clock, const uint8_t *main_bytes, size_t main_length, uint32_t kind,
                               const uint8_t *response, size_t response_length, uint32_t *words, size_t words_length);

/* The first frame at or after a position of a recording, whose even places are passive and whose odd ones are active.
   Only a frame writes to the lent bytes; lend J1850_FRAME_BYTES. To read on, call again with from = next until number is
   J1850_QUIET or J1850_UNFINISHED. Refusals, the first that applies: .._POSITION (31) a position past the recording's
   length; .._LENT (32) fewer lent bytes. */
j1850_read_answer j1850_read(const uint32_t *intervals, size_t intervals_length, size_t from, uint8_t *bytes,
                             size_t bytes_length);

/* A live reader that has heard nothing: all zeros. */
j1850_live j1850_live_start(void);

/* Hears the next interval of a recording, of this width in microseconds: the first is passive, the next active, and so on.
   The frames and faults, with their places, are those of j1850_read on the whole recording from 0 on, each told at the
   interval that decides it: a frame at its closing end, a fault at the interval at fault. Only a frame writes to the lent
   bytes, J1850_FRAME_BYTES of them, which need not be the same ones from call to call. Refusals, the first that applies:
   .._PAST_PLACES (51) an interval after place 2^64 - 1; .._LENT (32) fewer lent bytes, on any interval. A refused interval
   is not heard. */
j1850_heard_answer j1850_hear(j1850_live *live, uint32_t width, uint8_t *bytes, size_t length);

/* How reading the intervals heard so far ends: quiet or unfinished. */
j1850_asked_answer j1850_ask(const j1850_live *live);

/* Loads a message of 1 to 11 bytes, without its check byte, into the empty station at a place of the row, from 0 on: its
   bytes stand first and its length is set. Refusals, the first that applies: .._ROW_SIZE (38) a row of 0 or over 32
   stations; .._ROW_UNSOUND (39) a station in the row with a length over 11 or a clock outside the sending windows; .._PLACE
   (40) no such place; .._MESSAGE (37) no bytes, or more than 11; .._HOLDS (41) the station holds a message. */
j1850_call_answer j1850_load(j1850_station *row, size_t row_length, size_t place, const uint8_t *message,
                             size_t message_length);

/* Withdraws the message of the station at a place: its length becomes 0. Refusals, the first that applies: 38, 39 and 40
   as for j1850_load; .._NOTHING (42) nothing to withdraw. */
j1850_call_answer j1850_withdraw(j1850_station *row, size_t row_length, size_t place);

/* Sets the clock of the station at a place. Refusals, the first that applies: 38, 39 and 40 as for j1850_load; .._CLOCK
   (36) a clock outside the sending windows. */
j1850_call_answer j1850_set_clock(j1850_station *row, size_t row_length, size_t place, j1850_clock clock);

/* Plays a round of arbitration: all stations that hold a message begin together, whoever asks for another bit than the one
   on the line stops, and those that get through become empty. The intervals of the line go into the lent words; lend
   J1850_FRAME_WORDS. Refusals, the first that applies: 38 and 39 as for j1850_load; .._LENT (32) fewer words; .._NOTHING
   (42) nobody holds a message. */
j1850_round_answer j1850_round(j1850_station *row, size_t row_length, uint32_t *words, size_t words_length);

/* The desk's text for a recording: the input is a line `own`, customer, vehicle, and a line `iv`, width, for each interval,
   the fields parted by tabs; the text has a line for each frame, fault and end. Lend J1850_DESK_WORDS words, which take the
   input's widths, and J1850_DESK_TEXT bytes, however short the input. Less is refused with .._DESK_LENT (61). A bad input
   (62) has a text too: the line `refused` with the number of its first bad line. The words are then as they were. */
j1850_desk_answer j1850_desk(const uint8_t *input, size_t input_length, uint32_t *words, size_t words_length,
                             uint8_t *text, size_t text_length);

/* The words of a number, as docs/NUMBERS.md has them. */
static inline const char *j1850_words(uint32_t number) {
    switch (number) {
    case J1850_DONE: return "a good frame, or done";
    case J1850_QUIET: return "no further frame begins";
    case J1850_UNFINISHED: return "a frame begins, and the recording ends first";
    case J1850_FAULT_NOISE: return "noise inside a frame";
    case J1850_FAULT_NO_SOF: return "a bit where the start of frame should stand";
    case J1850_FAULT_BREAK: return "a break";
    case J1850_FAULT_STUCK: return "the line is stuck active";
    case J1850_FAULT_LATE_SOF: return "a second start of frame inside a frame";
    case J1850_FAULT_SPLIT_BYTE: return "a part ends inside a byte";
    case J1850_FAULT_FEW_BYTES: return "a part has too few bytes";
    case J1850_FAULT_WRONG_CHECK: return "a check byte is wrong";
    case J1850_FAULT_EOD_AFTER_RESPONSE: return "a second end of data, after the response";
    case J1850_FAULT_THIRTEENTH_BYTE: return "a thirteenth byte begins";
    case J1850_REFUSED_POSITION: return "the position is past the recording";
    case J1850_REFUSED_LENT: return "too little is lent";
    case J1850_REFUSED_SAMPLES: return "too many samples";
    case J1850_REFUSED_GATE: return "the gate is not good";
    case J1850_REFUSED_UNUSABLE: return "a sample is unusable";
    case J1850_REFUSED_CLOCK: return "the clock is outside the sending windows";
    case J1850_REFUSED_MESSAGE: return "the message is empty or too long";
    case J1850_REFUSED_ROW_SIZE: return "the row has no station, or over 32";
    case J1850_REFUSED_ROW_UNSOUND: return "a station of the row is not sound";
    case J1850_REFUSED_PLACE: return "there is no such station";
    case J1850_REFUSED_HOLDS: return "the station already holds a message";
    case J1850_REFUSED_NOTHING: return "no message waits";
    case J1850_REFUSED_PAST_PLACES: return "all places are used up";
    case J1850_REFUSED_DESK_LENT: return "too little is lent to the desk";
    case J1850_BAD_INPUT: return "the desk's input is bad";
    case J1850_UNDECIDED: return "nothing is decided yet";
    default: return "no number of this library";
    }
}

/* The version of the header that a program was compiled with. */
static inline const char *j1850_version(void) {
    return J1850_VERSION;
}

#ifdef __cplusplus
}
#endif

/* The sizes that the library was compiled with (tools/layout holds these lines to it). */
#if defined(__cplusplus) && __cplusplus >= 201103L
#define J1850_ASSERT(fits, text) static_assert(fits, text)
#elif defined(__STDC_VERSION__) && __STDC_VERSION__ >= 201112L
#define J1850_ASSERT(fits, text) _Static_assert(fits, text)
#endif
#ifdef J1850_ASSERT
J1850_ASSERT(sizeof(j1850_gate) == 12, "j1850_gate has 12 bytes");
J1850_ASSERT(sizeof(j1850_clock) == 12, "j1850_clock has 12 bytes");
J1850_ASSERT(sizeof(j1850_station) == 24, "j1850_station has 24 bytes");
J1850_ASSERT(sizeof(j1850_live) == 64, "j1850_live has 64 bytes");
J1850_ASSERT(sizeof(j1850_check_answer) == 8, "j1850_check_answer has 8 bytes");
J1850_ASSERT(sizeof(j1850_class_answer) == 8, "j1850_class_answer has 8 bytes");
J1850_ASSERT(sizeof(j1850_clock_answer) == 8, "j1850_clock_answer has 8 bytes");
J1850_ASSERT(sizeof(j1850_count_answer) == 16, "j1850_count_answer has 16 bytes");
J1850_ASSERT(sizeof(j1850_read_answer) == 40, "j1850_read_answer has 40 bytes");
J1850_ASSERT(sizeof(j1850_desk_answer) == 24, "j1850_desk_answer has 24 bytes");
J1850_ASSERT(sizeof(j1850_heard_answer) == 40, "j1850_heard_answer has 40 bytes");
J1850_ASSERT(sizeof(j1850_asked_answer) == 24, "j1850_asked_answer has 24 bytes");
J1850_ASSERT(sizeof(j1850_call_answer) == 4, "j1850_call_answer has 4 bytes");
J1850_ASSERT(sizeof(j1850_verdict) == 16, "j1850_verdict has 16 bytes");
J1850_ASSERT(sizeof(j1850_round_answer) == 528, "j1850_round_answer has 528 bytes");
#undef J1850_ASSERT
#endif

#endif
