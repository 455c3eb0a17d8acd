/*
 * Every call of the library, from C. It reads a recording, whole and an interval at a time, writes a message, plays the
 * arbitration of three stations and prints the desk's text; examples/expected.txt is what it prints.
 *
 *   cc -std=c11 -I include examples/c/example.c target/library/libj1850.a -o example && ./example examples/truck.txt
 */
#include "j1850.h"

#include <inttypes.h>
#include <stdio.h>
#include <stdlib.h>
#include <string.h>

static const j1850_clock nominal = {64, 128, 200};

static void put_bytes(const uint8_t *bytes, size_t length) {
    for (size_t i = 0; i < length; i++)
        printf(" %02X", bytes[i]);
}

static void put_words(const uint32_t *words, size_t count) {
    for (size_t i = 0; i < count; i++)
        printf(" %u", (unsigned)words[i]);
    printf("\n");
}

/* A whole file. */
static uint8_t *file_bytes(const char *name, size_t *length) {
    FILE *file = fopen(name, "rb");
    if (file == NULL || fseek(file, 0, SEEK_END) != 0) {
        perror(name);
        exit(1);
    }
    long size = ftell(file);
    rewind(file);
    uint8_t *bytes = malloc((size_t)size + 1);
    if (bytes == NULL || fread(bytes, 1, (size_t)size, file) != (size_t)size) {
        perror(name);
        exit(1);
    }
    fclose(file);
    bytes[size] = 0;
    *length = (size_t)size;
    return bytes;
}

/* The widths of a recording's lines `iv`, width. */
static size_t widths_of(const uint8_t *text, uint32_t *widths, size_t most) {
    size_t count = 0;
    for (const char *line = (const char *)text; line != NULL && *line != 0; line = strchr(line, '\n')) {
        line += *line == '\n';
        if (strncmp(line, "iv\t", 3) == 0 && count < most)
            widths[count++] = (uint32_t)strtoul(line + 3, NULL, 10);
    }
    return count;
}

/* The bytes of a frame, that stand first in the lent ones. */
static void put_frame(const uint8_t *bytes, size_t main_length, uint32_t kind, size_t response_length) {
    printf("frame");
    put_bytes(bytes, main_length);
    if (kind != J1850_WITHOUT) {
        printf(kind == J1850_PLAIN ? ", plain response" : ", checked response");
        put_bytes(bytes + main_length, response_length);
    }
}

/* One answer of reading, with the bytes that were lent to it. */
static void put_answer(j1850_read_answer answer, const uint8_t *bytes) {
    switch (answer.number) {
    case J1850_FRAME:
        printf("  at %zu: ", answer.opening);
        put_frame(bytes, answer.main, answer.kind, answer.response);
        printf("\n");
        break;
    case J1850_QUIET:
        printf("  from %zu: quiet\n", answer.next);
        break;
    case J1850_UNFINISHED:
        printf("  at %zu: unfinished\n", answer.opening);
        break;
    default:
        printf("  at %zu: fault %u, %s\n", answer.next, (unsigned)answer.number, j1850_words(answer.number));
    }
}

static void small_calls(void) {
    const uint8_t message[] = {0x68, 0x6A, 0xF1, 0x01, 0x0C};
    const float samples[] = {0, 7, 3, 3, 1};
    const j1850_gate usual = {0, 6.25f, 1.5f};
    const j1850_clock slow = {80, 128, 200};
    uint32_t words[6];

    printf("The check byte of");
    put_bytes(message, sizeof message);
    printf(" is %02X\n", j1850_check_byte(message, sizeof message).check);
    printf("An active interval of 200 microseconds is %s\n", j1850_class(true, 200).symbol == J1850_SOF ? "a SOF" : "no SOF");
    printf("A short bit of 80 microseconds is %s\n", j1850_good_clock(slow).good ? "good" : "outside the sending windows");
    j1850_count_answer intervals = j1850_intervals(usual, samples, 5, words, 6);
    printf("The samples 0 7 3 3 1 at the usual gate are the intervals");
    put_words(words, intervals.count);
}

static void reading(const uint32_t *widths, size_t count) {
    uint8_t bytes[J1850_FRAME_BYTES];
    j1850_read_answer answer = {0};

    printf("The recording has %zu intervals\n", count);
    do {
        answer = j1850_read(widths, count, answer.next, bytes, sizeof bytes);
        put_answer(answer, bytes);
    } while (answer.number != J1850_QUIET && answer.number != J1850_UNFINISHED);
}

static void put_asked(j1850_asked_answer answer) {
    if (answer.number == J1850_QUIET)
        printf("  asked: quiet from %" PRIu64 "\n", answer.next);
    else
        printf("  asked: unfinished since %" PRIu64 "\n", answer.opening);
}

/* The same recording as a truck sends it: each interval is heard when it comes, and most decide nothing. */
static void hearing(const uint32_t *widths, size_t count) {
    uint8_t bytes[J1850_FRAME_BYTES];
    j1850_live live = j1850_live_start();

    printf("The same intervals, heard one by one:\n");
    put_asked(j1850_ask(&live));
    for (size_t i = 0; i < count; i++) {
        j1850_heard_answer answer = j1850_hear(&live, widths[i], bytes, sizeof bytes);
        if (answer.number == J1850_FRAME) {
            printf("  %" PRIu64 " closes what opened at %" PRIu64 ": ", answer.next, answer.opening);
            put_frame(bytes, answer.main, answer.kind, answer.response);
            printf("\n");
        } else if (answer.number != J1850_UNDECIDED) {
            printf("  %" PRIu64 " is at fault: %u, %s\n", answer.next, (unsigned)answer.number, j1850_words(answer.number));
        }
    }
    put_asked(j1850_ask(&live));
}

static void writing(void) {
    const uint8_t message[] = {0x08, 0xFF, 0x10};
    const uint8_t response[] = {0x28};
    uint32_t words[J1850_FRAME_WORDS];
    uint8_t bytes[J1850_FRAME_BYTES];

    j1850_count_answer written = j1850_write(nominal, message, 3, J1850_PLAIN, response, 1, words, J1850_FRAME_WORDS);
    printf("A message with a plain response takes %zu words:\n ", written.count);
    put_words(words, written.count);
    put_answer(j1850_read(words, written.count, 0, bytes, sizeof bytes), bytes);
}

/* A station of the row: its name, and the message that it sends. */
typedef struct {
    const char *name;
    uint8_t message[5];
    size_t length;
} sender;

/* Why a station lost at a bit, counted from 1 after the SOF: its own bit there, or that it has none. */
static void put_loss(sender who, size_t bit) {
    uint8_t sent[6];
    memcpy(sent, who.message, who.length);
    sent[who.length] = j1850_check_byte(who.message, who.length).check;
    if (bit > 8 * (who.length + 1)) {
        printf("  %s lost at bit %zu: it had sent its check byte, and the line went on\n", who.name, bit);
        return;
    }
    unsigned own = sent[(bit - 1) / 8] >> (7 - (bit - 1) % 8) & 1;
    printf("  %s lost at bit %zu: it sent a %u where the line had a %u\n", who.name, bit, own, 1 - own);
}

static void one_round(int number, const sender *senders, j1850_station *row) {
    uint32_t words[J1850_FRAME_WORDS];
    uint8_t bytes[J1850_FRAME_BYTES];
    j1850_round_answer round = j1850_round(row, 3, words, J1850_FRAME_WORDS);

    if (round.number != J1850_DONE) {
        printf("Round %d: refused with %u: %s\n", number, (unsigned)round.number, j1850_words(round.number));
        return;
    }
    printf("Round %d: %zu words, %u microseconds\n", number, round.words, (unsigned)round.line_time);
    for (size_t i = 0; i < 3; i++) {
        if (round.verdicts[i].fared == J1850_THROUGH)
            printf("  %s got the line\n", senders[i].name);
        if (round.verdicts[i].fared == J1850_LOST)
            put_loss(senders[i], round.verdicts[i].bit);
    }
    put_answer(j1850_read(words, round.words, 0, bytes, sizeof bytes), bytes);
}

static void arbitration(void) {
    const j1850_clock fast = {49, 112, 182};
    const sender senders[3] = {
        {"engine", {0x48, 0x6B, 0x10}, 3},
        {"brakes", {0x08, 0xFF}, 2},
        {"dash", {0x08, 0xFF, 0x20, 0x10}, 4}, /* it begins with all the bits of the brakes' frame, and goes on */
    };
    j1850_station row[3] = {{.clock = nominal}, {.clock = nominal}, {.clock = nominal}};

    for (size_t i = 0; i < 3; i++)
        if (j1850_load(row, 3, i, senders[i].message, senders[i].length).number != J1850_DONE)
            printf("%s is not loaded\n", senders[i].name);
    if (j1850_set_clock(row, 3, 1, fast).number != J1850_DONE)
        printf("the clock is not set\n");
    one_round(1, senders, row);
    one_round(2, senders, row);
    if (j1850_withdraw(row, 3, 0).number == J1850_DONE)
        printf("The engine's message is withdrawn\n");
    one_round(3, senders, row);
}

static void desk(const uint8_t *input, size_t length) {
    static uint32_t words[J1850_DESK_WORDS];
    static uint8_t text[J1850_DESK_TEXT];
    j1850_desk_answer answer = j1850_desk(input, length, words, J1850_DESK_WORDS, text, J1850_DESK_TEXT);

    printf("The desk's text, number %u:\n", (unsigned)answer.number);
    fwrite(text, 1, answer.length, stdout);
    answer = j1850_desk(input, length - 1, words, J1850_DESK_WORDS, text, J1850_DESK_TEXT);
    printf("Without its last newline, number %u at line %zu:\n", (unsigned)answer.number, answer.line);
    fwrite(text, 1, answer.length, stdout);
}

int main(int count, char **arguments) {
    static uint32_t widths[J1850_DESK_WORDS];
    size_t length = 0;
    if (count != 2) {
        fprintf(stderr, "usage: example RECORDING\n");
        return 1;
    }
    uint8_t *input = file_bytes(arguments[1], &length);
    size_t intervals = widths_of(input, widths, J1850_DESK_WORDS);
    small_calls();
    reading(widths, intervals);
    hearing(widths, intervals);
    writing();
    arbitration();
    desk(input, length);
    free(input);
    return 0;
}
