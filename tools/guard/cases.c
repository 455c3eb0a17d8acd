/* The cases of the guard: for each call the edges of each rule, and random arguments around them. */
#include "guard.h"

#include <math.h>
#include <string.h>

static uint64_t state = 1850;

static uint32_t any(uint32_t below) {
    state ^= state << 13;
    state ^= state >> 7;
    state ^= state << 17;
    return (uint32_t)((state >> 16) % below);
}

#define ONE_OF(list) (list)[any(sizeof(list) / sizeof *(list))]

static slice in(const void *data, size_t count, size_t size) { return (slice){data, count, size, false}; }
static slice out(const void *data, size_t count, size_t size) { return (slice){data, count, size, true}; }

/* what is lent before a call: words and bytes of no meaning */
static uint32_t words[20000];
static uint8_t bytes[J1850_DESK_TEXT + 1];

static const uint32_t edges[] = {0, 34, 35, 96, 97, 163, 164, 239, 240, 280, 281, 300, 999999, 1000000, 4294967295u};

static j1850_clock some_clock(void) {
    static const uint32_t shorts[] = {48, 49, 64, 64, 79, 80};
    static const uint32_t longs[] = {111, 112, 128, 128, 145, 146};
    static const uint32_t sofs[] = {181, 182, 200, 200, 218, 219};
    if (any(4) != 0)
        return (j1850_clock){49 + any(31), 112 + any(34), 182 + any(37)};
    return (j1850_clock){ONE_OF(shorts), ONE_OF(longs), ONE_OF(sofs)};
}

static void some_bytes(uint8_t *at, size_t count) {
    for (size_t i = 0; i < count; i++)
        at[i] = (uint8_t)(any(3) == 0 ? any(2) * 255 : any(256));
}

static void small_calls(unsigned times) {
    uint8_t message[64];
    for (size_t i = 0; i < sizeof edges / sizeof *edges; i++)
        for (int active = 0; active < 2; active++)
            trial((job){.which = CLASS, .active = active, .number = edges[i]});
    for (unsigned i = 0; i < times; i++) {
        size_t length = any(64);
        some_bytes(message, length);
        trial((job){.which = CHECK_BYTE, .lent = {in(message, length, 1)}});
        trial((job){.which = GOOD_CLOCK, .clock = some_clock()});
    }
}

static void volts(unsigned times) {
    static float samples[16386];
    static const size_t counts[] = {0, 1, 2, 5, 16383, 16384, 16385};
    static const float values[] = {0, 1.5f, 1.5000001f, 6.25f, 6.2499995f, 3, 7, -12, 3.4e38f};
    for (unsigned i = 0; i < times; i++) {
        size_t count = i < 7 ? counts[i] : any(50) == 0 ? ONE_OF(counts) : any(40);
        size_t lent = count + any(4) - (count > 0);
        j1850_gate gate = {0, 6.25f, 1.5f};
        for (size_t k = 0; k < count; k++)
            samples[k] = ONE_OF(values);
        if (any(4) == 0)
            gate.offset = ONE_OF(values);
        if (any(8) == 0)
            gate.passive = any(2) ? gate.active : INFINITY;
        if (any(8) == 0 && count > 0)
            samples[any((uint32_t)count)] = any(2) ? NAN : -INFINITY;
        trial((job){.which = INTERVALS, .gate = gate, .lent = {in(samples, count, 4), out(words, lent, 4)}});
    }
}

/* A frame of some message, without its opening where that is asked for; the number of its words. */
static size_t some_frame(uint32_t *at) {
    uint8_t main_bytes[12];
    uint8_t response[12];
    uint32_t frame[J1850_FRAME_WORDS];
    size_t length = 1 + any(6);
    uint32_t kind = any(3);
    some_bytes(main_bytes, length);
    some_bytes(response, 4);
    j1850_count_answer r = j1850_write((j1850_clock){64, 128, 200}, main_bytes, length, kind, response, 1 + any(3), frame, J1850_FRAME_WORDS);
    memcpy(at, frame, r.count * sizeof *at);
    return r.count;
}

static void frames(unsigned times) {
    static const size_t lent_words[] = {0, 99, 100, 101, 101, 101, 102};
    static const size_t lent_bytes[] = {0, 11, 12, 12, 12, 13};
    uint8_t message[16];
    uint8_t response[16];
    uint32_t line[700];
    for (unsigned i = 0; i < times; i++) {
        size_t length = any(14);
        some_bytes(message, sizeof message);
        some_bytes(response, sizeof response);
        trial((job){.which = WRITE, .clock = some_clock(), .number = any(4), .lent = {in(message, length, 1), in(response, any(8), 1), out(words, ONE_OF(lent_words), 4)}});
    }
    for (unsigned i = 0; i < 3 * times; i++) {
        size_t count = 0;
        for (uint32_t frames = any(4); frames > 0; frames--)
            count += some_frame(line + count);
        for (uint32_t damage = any(4); damage > 0 && count > 0; damage--)
            line[any((uint32_t)count)] = any(2) ? ONE_OF(edges) : 200;
        if (any(3) == 0 && count > 0)
            count = any((uint32_t)count);
        trial((job){.which = READ, .place = any(3) ? any(4) : any((uint32_t)count + 3), .lent = {in(line, count, 4), out(bytes, ONE_OF(lent_bytes), 1)}});
    }
    for (uint32_t i = 0; i < 40; i++) /* thirteen bytes: no writer makes them */
        line[i] = i == 0 ? 300 : i == 1 ? 200 : 64;
    for (uint32_t i = 40; i < 110; i++)
        line[i] = 64;
    trial((job){.which = READ, .lent = {in(line, 110, 4), out(bytes, J1850_FRAME_BYTES, 1)}});
}

/* A frame with a checked response and one interval replaced, so that each fault but the thirteenth byte's is met; the number
   of its words. */
static size_t harmed_frame(uint32_t *at, size_t which) {
    static const struct {
        size_t place; /* from the opening on */
        uint32_t width;
    } harms[] = {{1, 64}, {3, 34}, {3, 240}, {3, 1000000}, {3, 200}, {4, 300}, {10, 300}, {2, 128}, {52, 200}};
    const uint8_t message[] = {0x08, 0xFF, 0x10};
    const uint8_t response[] = {0x28};
    uint32_t frame[J1850_FRAME_WORDS];
    j1850_count_answer r = j1850_write((j1850_clock){64, 128, 200}, message, 3, J1850_CHECKED, response, 1, frame, J1850_FRAME_WORDS);
    if (which < sizeof harms / sizeof *harms)
        frame[harms[which].place] = harms[which].width;
    memcpy(at, frame, r.count * sizeof *at);
    return r.count;
}

/* A recording heard interval by interval, with questions in between. */
static void heard(j1850_live reader, const uint32_t *line, size_t count) {
    static const size_t lent_bytes[] = {0, 11, 12, 12, 12, 13};
    uint8_t enough[J1850_FRAME_BYTES];
    for (size_t i = 0; i < count; i++) {
        trial((job){.which = HEAR, .number = line[i], .lent = {out(&reader, 1, sizeof reader), out(bytes, ONE_OF(lent_bytes), 1)}});
        trial((job){.which = HEAR, .number = line[i], .lent = {out(&reader, 1, sizeof reader), out(bytes, J1850_FRAME_BYTES, 1)}});
        trial((job){.which = ASK, .lent = {in(&reader, 1, sizeof reader)}});
        j1850_hear(&reader, line[i], enough, sizeof enough);
    }
}

static void live(unsigned times) {
    uint32_t line[700];
    trial((job){.which = LIVE_START});
    for (size_t i = 0; i < 110; i++) /* thirteen bytes: no writer makes them */
        line[i] = i == 0 ? 300 : i == 1 ? 200 : 64;
    heard(j1850_live_start(), line, 110);
    for (unsigned i = 0; i < times; i++) {
        j1850_live reader = j1850_live_start();
        size_t count = harmed_frame(line, i % 10);
        count += some_frame(line + count);
        if (i > 10 && any(4) == 0) /* any words are a reader */
            some_bytes((uint8_t *)&reader, any(2) ? 24 : sizeof reader);
        if (i == 10 || (i > 10 && any(8) == 0)) /* the last place there is comes next */
            reader.inner[0] = UINT64_MAX;
        heard(reader, line, count);
    }
}

static void rows(unsigned times) {
    static const size_t counts[] = {0, 1, 2, 3, 31, 32, 33};
    static const size_t lent_words[] = {0, 100, 101, 101, 101, 102};
    j1850_station row[33];
    uint8_t message[13];
    for (unsigned i = 0; i < times; i++) {
        size_t count = any(3) ? ONE_OF(counts) : 1 + any(4);
        memset(row, 0, sizeof row);
        for (size_t k = 0; k < count; k++) {
            row[k].clock = (j1850_clock){49 + any(31), 112 + any(34), 182 + any(37)};
            some_bytes(row[k].bytes, 11);
            row[k].length = any(2) ? 0 : any(12);
        }
        if (any(6) == 0 && count > 0) {
            if (any(2))
                row[any((uint32_t)count)].length = any(2) ? 12 : 255;
            else
                row[any((uint32_t)count)].clock = some_clock();
        }
        if (any(6) == 0)
            for (size_t k = 0; k < count; k++)
                row[k].length = 0;
        size_t place = any(8) ? any((uint32_t)count + 1) : (size_t)-1;
        some_bytes(message, sizeof message);
        trial((job){.which = LOAD, .place = place, .lent = {out(row, count, sizeof *row), in(message, any(14), 1)}});
        trial((job){.which = WITHDRAW, .place = place, .lent = {out(row, count, sizeof *row)}});
        trial((job){.which = SET_CLOCK, .place = place, .clock = some_clock(), .lent = {out(row, count, sizeof *row)}});
        trial((job){.which = ROUND, .lent = {out(row, count, sizeof *row), out(words, ONE_OF(lent_words), 4)}});
    }
}

/* Every call on a row of ten million, whose first 32 stations alone are there. */
static void long_rows(void) {
    enum { THERE = 32, CLAIMED = 10000000 };
    static j1850_station row[THERE];
    static const uint8_t message[1];
    for (size_t k = 0; k < THERE; k++)
        row[k].clock = (j1850_clock){64, 128, 200};
    slice there = in(row, THERE, sizeof *row);
    long_row((job){.which = LOAD, .lent = {there, in(message, 1, 1)}}, CLAIMED);
    long_row((job){.which = WITHDRAW, .lent = {there}}, CLAIMED);
    long_row((job){.which = SET_CLOCK, .clock = {64, 128, 200}, .lent = {there}}, CLAIMED);
    long_row((job){.which = ROUND, .lent = {there, in(words, J1850_FRAME_WORDS, 4)}}, CLAIMED);
}

static void desk(unsigned times, const uint8_t *recording, size_t length) {
    static uint8_t input[65536];
    for (unsigned i = 0; i < times; i++) { /* the whole recording, no bytes, one word too few, one byte too few; then any */
        size_t count = i == 1 ? 0 : i < 4 ? length : any((uint32_t)length + 1);
        size_t lent_words = J1850_DESK_WORDS + any(2);
        size_t lent_bytes = J1850_DESK_TEXT + any(2);
        memcpy(input, recording, length);
        if (i == 2)
            lent_words = J1850_DESK_WORDS - 1;
        if (i == 3)
            lent_bytes = J1850_DESK_TEXT - 1;
        if (i > 3 && any(2))
            count = length, input[any((uint32_t)length)] = (uint8_t)any(256);
        trial((job){.which = DESK, .lent = {in(input, count, 1), out(words, lent_words, 4), out(bytes, lent_bytes, 1)}});
    }
}

void all_cases(unsigned times, const uint8_t *recording, size_t length) {
    for (size_t i = 0; i < sizeof words / sizeof *words; i++)
        words[i] = any(4294967295u);
    some_bytes(bytes, sizeof bytes);
    small_calls(200 * times);
    volts(100 * times);
    frames(400 * times);
    live(10 * times);
    rows(400 * times);
    long_rows();
    desk(10 + times, recording, length);
}
