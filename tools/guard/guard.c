/*
 * The guard: see guard.h, and tools/guard/run for how it is run.
 *
 *   guard RECORDING TIMES    the cases, so many times the random ones; fails where an answer of the documents never occurred
 *   guard wrong NAME         a deliberately wrong call, which has to be caught
 */
#define _GNU_SOURCE
#include "guard.h"

#include <signal.h>
#include <stdio.h>
#include <stdlib.h>
#include <string.h>
#include <sys/mman.h>
#include <unistd.h>

enum { PAGE = 4096, ARENA = 128 * PAGE, SLACK = 512, ARENAS = 3, SAID = 80, PATTERN = 0xA5 };

unsigned long tally[CALLS][64];

static uint8_t *arenas[ARENAS]; /* each between two pages that cannot be touched */

static void fail(const char *what) {
    fprintf(stderr, "guard: %s\n", what);
    exit(1);
}

static void touched(int signal) {
    (void)signal;
    static const char text[] = "guard: a call touched memory that is not lent to it\n";
    ssize_t written = write(2, text, sizeof text - 1);
    _exit(written < 0 ? 4 : 3);
}

static void map_arenas(void) {
    for (int i = 0; i < ARENAS; i++) {
        uint8_t *at = mmap(NULL, ARENA + 2 * PAGE, PROT_NONE, MAP_PRIVATE | MAP_ANONYMOUS, -1, 0);
        if (at == MAP_FAILED || mprotect(at + PAGE, ARENA, PROT_READ | PROT_WRITE) != 0)
            fail("no memory for the arenas");
        arenas[i] = at + PAGE;
    }
}

static size_t bytes_of(slice s) { return s.count * s.size; }

/* Makes the call with this memory lent, and writes down what it answers: the number, and every value. */
static size_t say(const job *j, void *at[3], uint64_t *said) {
    const slice *s = j->lent;
    size_t n = 0;
    switch (j->which) {
    case CHECK_BYTE: {
        j1850_check_answer r = j1850_check_byte(at[0], s[0].count);
        said[n++] = r.number, said[n++] = r.check;
        break;
    }
    case CLASS: {
        j1850_class_answer r = j1850_class(j->active, j->number);
        said[n++] = r.number, said[n++] = r.symbol;
        break;
    }
    case GOOD_CLOCK: {
        j1850_clock_answer r = j1850_good_clock(j->clock);
        said[n++] = r.number, said[n++] = r.good;
        break;
    }
    case INTERVALS: {
        j1850_count_answer r = j1850_intervals(j->gate, at[0], s[0].count, at[1], s[1].count);
        said[n++] = r.number, said[n++] = r.count;
        break;
    }
    case WRITE: {
        j1850_count_answer r = j1850_write(j->clock, at[0], s[0].count, j->number, at[1], s[1].count, at[2], s[2].count);
        said[n++] = r.number, said[n++] = r.count;
        break;
    }
    case READ: {
        j1850_read_answer r = j1850_read(at[0], s[0].count, j->place, at[1], s[1].count);
        said[n++] = r.number, said[n++] = r.kind, said[n++] = r.next;
        said[n++] = r.opening, said[n++] = r.main, said[n++] = r.response;
        break;
    }
    case LIVE_START: {
        j1850_live r = j1850_live_start();
        for (said[n++] = 0; n <= 8; n++)
            said[n] = r.inner[n - 1];
        break;
    }
    case HEAR: {
        j1850_heard_answer r = j1850_hear(at[0], j->number, at[1], s[1].count);
        said[n++] = r.number, said[n++] = r.kind, said[n++] = r.next;
        said[n++] = r.opening, said[n++] = r.main, said[n++] = r.response;
        break;
    }
    case ASK: {
        j1850_asked_answer r = j1850_ask(at[0]);
        said[n++] = r.number, said[n++] = r.next, said[n++] = r.opening;
        break;
    }
    case LOAD:
        said[n++] = j1850_load(at[0], s[0].count, j->place, at[1], s[1].count).number;
        break;
    case WITHDRAW:
        said[n++] = j1850_withdraw(at[0], s[0].count, j->place).number;
        break;
    case SET_CLOCK:
        said[n++] = j1850_set_clock(at[0], s[0].count, j->place, j->clock).number;
        break;
    case ROUND: {
        j1850_round_answer r = j1850_round(at[0], s[0].count, at[1], s[1].count);
        said[n++] = r.number, said[n++] = r.line_time, said[n++] = r.words;
        for (int i = 0; i < 32; i++)
            said[n++] = r.verdicts[i].fared, said[n++] = r.verdicts[i].bit;
        break;
    }
    default: {
        j1850_desk_answer r = j1850_desk(at[0], s[0].count, at[1], s[1].count, at[2], s[2].count);
        said[n++] = r.number, said[n++] = r.line, said[n++] = r.length;
    }
    }
    return n;
}

/* The free bytes beside a slice that lies at one end of its arena. */
static uint8_t *beside(int i, size_t bytes, bool high) {
    return high ? arenas[i] + ARENA - bytes - SLACK : arenas[i] + bytes;
}

static void *lend(int i, slice s, bool high) {
    size_t bytes = bytes_of(s);
    if (bytes + SLACK > ARENA)
        fail("more is lent than an arena holds");
    uint8_t *at = high ? arenas[i] + ARENA - bytes : arenas[i];
    memset(beside(i, bytes, high), PATTERN, SLACK);
    if (bytes != 0)
        memcpy(at, s.data, bytes);
    if (!s.writable && mprotect(arenas[i], ARENA, PROT_READ) != 0)
        fail("a page does not become read-only");
    return at;
}

/* Whether lent memory holds the same. */
static bool same(slice s, const uint8_t *at, const uint8_t *wanted) {
    size_t bytes = bytes_of(s);
    return bytes == 0 || memcmp(at, wanted, bytes) == 0;
}

static void take_back(int i, slice s, bool high, const void *at, const void *wanted) {
    size_t bytes = bytes_of(s);
    const uint8_t *free_bytes = beside(i, bytes, high);
    for (int k = 0; k < SLACK; k++)
        if (free_bytes[k] != PATTERN)
            fail("a call wrote beside what is lent to it");
    if (!same(s, at, wanted))
        fail("lent memory is left otherwise at another place");
    if (!s.writable && mprotect(arenas[i], ARENA, PROT_READ | PROT_WRITE) != 0)
        fail("a page does not become writable");
}

/* Whether an answer may store to what is lent at a place of the call. A refusal may not store anywhere, and the desk not to
   its words after a bad input. */
static bool may_store(const job *j, uint64_t number, int i) {
    if (number == J1850_BAD_INPUT)
        return i == 2;
    return j->lent[i].writable && (number < J1850_REFUSED_POSITION || number > J1850_REFUSED_DESK_LENT);
}

void trial(job wanted) {
    void *exact[3];
    void *at[3];
    uint64_t first[SAID];
    uint64_t said[SAID];

    for (int i = 0; i < 3; i++) { /* memory of exactly the lent size; none for a slice of none */
        size_t bytes = bytes_of(wanted.lent[i]);
        exact[i] = bytes == 0 ? NULL : malloc(bytes);
        if (bytes != 0)
            memcpy(exact[i], wanted.lent[i].data, bytes);
    }
    size_t n = say(&wanted, exact, first);
    tally[wanted.which][first[0] & 63]++;
    for (int i = 0; i < 3; i++) /* from here on what may not be stored to lies on pages that cannot be written */
        wanted.lent[i].writable = may_store(&wanted, first[0], i);
    for (int high = 0; high < 2; high++) {
        for (int i = 0; i < 3; i++)
            at[i] = lend(i, wanted.lent[i], high);
        say(&wanted, at, said);
        if (memcmp(first, said, n * sizeof *said) != 0)
            fail("a call answers otherwise with memory at another place");
        for (int i = 0; i < 3; i++)
            take_back(i, wanted.lent[i], high, at[i], exact[i]);
    }
    for (int i = 0; i < 3; i++)
        free(exact[i]);
}

/* A row that is too long, of which no more than the first stations are there: 38 does not look at the others. */
void long_row(job wanted, size_t claimed) {
    uint64_t said[SAID];
    void *at[3];
    for (int i = 0; i < 3; i++) {
        wanted.lent[i].writable = false;
        at[i] = lend(i, wanted.lent[i], true);
    }
    job asked = wanted;
    asked.lent[0].count = claimed;
    say(&asked, at, said);
    if (said[0] != J1850_REFUSED_ROW_SIZE)
        fail("a row that is too long is not refused");
    for (int i = 0; i < 3; i++)
        take_back(i, wanted.lent[i], true, at[i], wanted.lent[i].data);
}

#define EACH_FAULT                                                                                                               \
    J1850_FAULT_NOISE, J1850_FAULT_NO_SOF, J1850_FAULT_BREAK, J1850_FAULT_STUCK, J1850_FAULT_LATE_SOF, J1850_FAULT_SPLIT_BYTE,  \
        J1850_FAULT_FEW_BYTES, J1850_FAULT_WRONG_CHECK, J1850_FAULT_EOD_AFTER_RESPONSE, J1850_FAULT_THIRTEENTH_BYTE
#define EACH_AT_A_PLACE J1850_REFUSED_ROW_SIZE, J1850_REFUSED_ROW_UNSOUND, J1850_REFUSED_PLACE

/* Every number of the documents that a call can answer, and the library's own. */
static const struct {
    enum call which;
    const char *name;
    int numbers[16];
} wanted_answers[] = {
    {CHECK_BYTE, "check byte", {J1850_DONE, -1}},
    {CLASS, "class", {J1850_DONE, -1}},
    {GOOD_CLOCK, "good clock", {J1850_DONE, -1}},
    {INTERVALS, "intervals", {J1850_DONE, J1850_REFUSED_SAMPLES, J1850_REFUSED_GATE, J1850_REFUSED_LENT, J1850_REFUSED_UNUSABLE, -1}},
    {WRITE, "write", {J1850_DONE, J1850_REFUSED_CLOCK, J1850_REFUSED_MESSAGE, J1850_REFUSED_LENT, -1}},
    {READ, "read", {J1850_FRAME, J1850_QUIET, J1850_UNFINISHED, EACH_FAULT, J1850_REFUSED_POSITION, J1850_REFUSED_LENT, -1}},
    {LIVE_START, "live start", {J1850_DONE, -1}},
    {HEAR, "hear", {J1850_FRAME, EACH_FAULT, J1850_REFUSED_PAST_PLACES, J1850_REFUSED_LENT, J1850_UNDECIDED, -1}},
    {ASK, "ask", {J1850_QUIET, J1850_UNFINISHED, -1}},
    {LOAD, "load", {J1850_DONE, EACH_AT_A_PLACE, J1850_REFUSED_MESSAGE, J1850_REFUSED_HOLDS, -1}},
    {WITHDRAW, "withdraw", {J1850_DONE, EACH_AT_A_PLACE, J1850_REFUSED_NOTHING, -1}},
    {SET_CLOCK, "set clock", {J1850_DONE, EACH_AT_A_PLACE, J1850_REFUSED_CLOCK, -1}},
    {ROUND, "round", {J1850_DONE, J1850_REFUSED_ROW_SIZE, J1850_REFUSED_ROW_UNSOUND, J1850_REFUSED_LENT, J1850_REFUSED_NOTHING, -1}},
    {DESK, "desk", {J1850_DONE, J1850_REFUSED_DESK_LENT, J1850_BAD_INPUT, -1}},
};

static void report(void) {
    unsigned long sum = 0;
    for (size_t i = 0; i < sizeof wanted_answers / sizeof *wanted_answers; i++)
        for (const int *n = wanted_answers[i].numbers; *n >= 0; n++) {
            unsigned long times = tally[wanted_answers[i].which][*n];
            if (times == 0) {
                fprintf(stderr, "guard: %s never answered %d, %s\n", wanted_answers[i].name, *n, j1850_words((uint32_t)*n));
                exit(1);
            }
            sum += times;
        }
    printf("guard: %lu calls, each at both ends of its memory; every answer occurred; nothing that is not lent was touched, and a refusal stored nothing\n", sum);
}

/* The longest frame, of 101 words: 12 bytes with the check byte, the last of them a response. */
static j1850_count_answer longest(uint32_t *words, size_t length) {
    const j1850_clock nominal = {64, 128, 200};
    const uint8_t message[11] = {0};
    return j1850_write(nominal, message, 10, J1850_PLAIN, message, 1, words, length);
}

/* A deliberately wrong call, which has to be caught. */
static int wrong(const char *name) {
    static const uint8_t message[11];
    static uint32_t space[J1850_FRAME_WORDS];
    slice words = {space, J1850_FRAME_WORDS - 1, sizeof *space, true};
    slice bytes = {message, 11, 1, false};

    if (strcmp(name, "past-the-end") == 0) { /* 101 words are claimed, and 100 lent */
        longest(lend(0, words, true), J1850_FRAME_WORDS);
    } else if (strcmp(name, "before-the-start") == 0) {
        longest((uint32_t *)lend(0, words, false) - 1, J1850_FRAME_WORDS);
    } else if (strcmp(name, "read-past-the-end") == 0) {
        j1850_check_byte(lend(0, bytes, true), 12);
    } else if (strcmp(name, "written-input") == 0) { /* what is lent to be read is written */
        void *input = lend(0, (slice){space, J1850_FRAME_WORDS, sizeof *space, false}, true);
        longest(input, J1850_FRAME_WORDS);
    } else if (strcmp(name, "short-reader") == 0) { /* 7 words are lent as a live reader, which has 8 */
        uint8_t heard[J1850_FRAME_BYTES];
        j1850_hear(lend(0, (slice){space, 7, sizeof(uint64_t), true}, true), 300, heard, sizeof heard);
    } else if (strcmp(name, "beside") == 0) { /* the word past the lent ones can be touched, and is seen to be written */
        void *at = lend(0, words, false);
        longest(at, J1850_FRAME_WORDS);
        take_back(0, words, false, at, at);
    } else if (strcmp(name, "sanitized-copy") == 0) { /* for the build with sanitizers: more bytes are claimed than there are */
        uint8_t *few = calloc(5, 1);
        j1850_station row[1] = {{.clock = {64, 128, 200}}};
        j1850_load(row, 1, 0, few, 11);
        free(few);
    } else if (strcmp(name, "sanitized-read") == 0) { /* the same: a word is read past those of the answer */
        uint32_t *exact = malloc(sizeof space);
        j1850_count_answer r = longest(exact, J1850_FRAME_WORDS);
        printf("%u\n", (unsigned)exact[r.count]);
        free(exact);
    } else if (strcmp(name, "sanitized-shift") == 0) { /* the same: what the language does not define */
        volatile uint32_t width = 32;
        printf("%d\n", 1 << width);
    }
    fprintf(stderr, "guard: the wrong call %s is not caught\n", name);
    return 0;
}

int main(int count, char **arguments) {
    static uint8_t recording[65536];
    FILE *file;

    map_arenas();
#ifndef SANITIZED
    signal(SIGSEGV, touched);
    signal(SIGBUS, touched);
#else
    (void)touched;
#endif
    if (count == 3 && strcmp(arguments[1], "wrong") == 0)
        return wrong(arguments[2]);
    if (count != 3 || (file = fopen(arguments[1], "rb")) == NULL)
        fail("usage: guard RECORDING TIMES, or guard wrong NAME");
    size_t length = fread(recording, 1, sizeof recording, file);
    fclose(file);
    all_cases((unsigned)strtoul(arguments[2], NULL, 10), recording, length);
    report();
    return 0;
}
