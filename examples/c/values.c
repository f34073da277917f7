/*
 * Every call of the header once or more from C, with values that the papers give, null pointers of length 0, and odd lengths; and every
 * name that the header has for a number. It prints each that is wrong, and how many were tried.
 */
#include "brazulint.h"

#include <pthread.h>
#include <stdio.h>
#include <string.h>

/* The layouts that the calls were compiled with: each struct's size, and the places of its fields where padding could move them. */
#define LAID_OUT(holds) _Static_assert(holds, #holds)
LAID_OUT(sizeof(brazulint_format) == 20 && offsetof(brazulint_format, depth) == 4 && offsetof(brazulint_format, component) == 8);
LAID_OUT(offsetof(brazulint_format, structure) == 12 && offsetof(brazulint_format, size) == 16);
LAID_OUT(sizeof(brazulint_stream_line) == 4 && sizeof(brazulint_picture_line) == 4 && sizeof(brazulint_content) == 4);
LAID_OUT(sizeof(brazulint_request) == 12 && offsetof(brazulint_request, positive) == 4);
LAID_OUT(offsetof(brazulint_request, named) == 5 && offsetof(brazulint_request, content) == 6);
LAID_OUT(sizeof(brazulint_delivery) == 64 && offsetof(brazulint_delivery, content) == 4);
LAID_OUT(offsetof(brazulint_delivery, positive_before) == 8 && offsetof(brazulint_delivery, positive_after) == 9);
LAID_OUT(offsetof(brazulint_delivery, repairs) == 12 && offsetof(brazulint_delivery, repairs_of_bit) == 16);
LAID_OUT(sizeof(brazulint_lengths_answer) == 24 && offsetof(brazulint_lengths_answer, symbols) == 16);
LAID_OUT(sizeof(brazulint_send_answer) == 16 && offsetof(brazulint_send_answer, place) == 8);
LAID_OUT(sizeof(brazulint_read_answer) == 80 && offsetof(brazulint_read_answer, delivery) == 16);
LAID_OUT(sizeof(brazulint_find_answer) == 16 && offsetof(brazulint_find_answer, place) == 8);
LAID_OUT(sizeof(brazulint_next_answer) == 88 && offsetof(brazulint_next_answer, delivery) == 24);
LAID_OUT(sizeof(brazulint_place_answer) == 20 && offsetof(brazulint_place_answer, stream_line) == 12);
LAID_OUT(sizeof(brazulint_way_back_answer) == 12 && offsetof(brazulint_way_back_answer, line) == 8);
LAID_OUT(sizeof(brazulint_line_words_answer) == 12 && sizeof(brazulint_read_line_words_answer) == 8);
LAID_OUT(sizeof(brazulint_repair_answer) == 16 && offsetof(brazulint_repair_answer, bit) == 12 && sizeof(brazulint_crcc_answer) == 16);
LAID_OUT(sizeof(brazulint_decode_answer) == 12 && sizeof(brazulint_encode_answer) == 12);
LAID_OUT(BRAZULINT_LIMIT == 1 << 21 && BRAZULINT_VERSION == BRAZULINT_INTERFACE * 65536);

static unsigned tried, wrong;

static void is(bool holds, const char *text, int at) {
    tried++;
    if (holds) return;
    wrong++;
    printf("values.c:%d: not so: %s\n", at, text);
}
#define IS(holds) is((holds), #holds, __LINE__)

enum { SAMPLES = 3840, SYMBOLS = 7920 };
static const brazulint_format HZ_120 = {
    .number = BRAZULINT_120_HZ, .depth = 12, .component = BRAZULINT_G, .structure = BRAZULINT_444, .size = BRAZULINT_4K};
static const brazulint_content CONTENT = {1, 2, 3, 4};
static uint16_t samples[SAMPLES], symbols[SYMBOLS], rows[SAMPLES];

/* What a refusal below 20 leaves: the pattern. */
static void lend(uint16_t *buffer, size_t count) { memset(buffer, 0x5A, count * sizeof *buffer); }
static bool untouched(const uint16_t *buffer, size_t count) {
    for (size_t i = 0; i < count; i++)
        if (buffer[i] != 0x5A5A) return false;
    return true;
}
static bool zero(const uint16_t *buffer, size_t count) {
    for (size_t i = 0; i < count; i++)
        if (buffer[i] != 0) return false;
    return true;
}

/* The same format with another number and depth. */
static brazulint_format plain(uint32_t number, uint32_t depth) {
    brazulint_format format = HZ_120;
    format.number = number;
    format.depth = depth;
    return format;
}

static brazulint_lengths_answer lengths(uint32_t number, uint32_t depth) { return brazulint_lengths(plain(number, depth)); }

static void formats(void) {
    IS(brazulint_version() == BRAZULINT_VERSION);
    brazulint_lengths_answer l = brazulint_lengths(HZ_120);
    IS(l.number == 0 && l.samples == 3840 && l.symbols == 7920);
    l = lengths(BRAZULINT_100_HZ, 10);
    IS(l.number == 0 && l.samples == 3840 && l.symbols == 9504);
    l = lengths(BRAZULINT_50_HZ, 10);
    IS(l.number == 0 && l.samples == BRAZULINT_MOST_SAMPLES && l.symbols == BRAZULINT_MOST_SYMBOLS);
    l = lengths(257, 12);
    IS(l.number == BRAZULINT_UNKNOWN_FORMAT && l.samples == 0 && l.symbols == 0);
    IS(lengths(1, 268).number == 1 && lengths(0, 12).number == 1 && lengths(1, 0).number == 1);
    IS(lengths(12, 1).number == 1); /* number and depth changed round */
    IS(brazulint_lengths((brazulint_format){.number = BRAZULINT_120_HZ, .depth = 12}).number == 1); /* three fields forgotten */
}

/* Each refusal has words of its own, and no other number has those. */
static void refusals(void) {
    const char *none = brazulint_refusal_text(UINT32_MAX);
    for (uint32_t number = 0; number < 30; number++) {
        bool known = number <= BRAZULINT_BEYOND_REPAIR || (number >= BRAZULINT_WRONG_SYMBOL && number <= BRAZULINT_WRONG_FILL);
        IS((strcmp(brazulint_refusal_text(number), none) != 0) == known);
        for (uint32_t other = 0; known && other < number; other++)
            IS(strcmp(brazulint_refusal_text(number), brazulint_refusal_text(other)) != 0);
    }
}

static void words(void) {
    brazulint_line_words_answer w = brazulint_line_words((brazulint_stream_line){42});
    IS(w.number == 0 && w.ln0 == 0xAA0 && w.ln1 == 0x800);
    w = brazulint_line_words((brazulint_stream_line){1125});
    IS(w.number == 0 && w.ln0 == 0x650 && w.ln1 == 0x880);
    w = brazulint_line_words((brazulint_stream_line){65578});
    IS(w.number == BRAZULINT_NO_LINE && w.ln0 == 0 && w.ln1 == 0);
    brazulint_read_line_words_answer n = brazulint_read_line_words(0x800, 0x810);
    IS(n.number == 0 && n.line.number == 128);
    n = brazulint_read_line_words(0x800, 0x800); /* LN0 of line 128 and LN1 of line 127 */
    IS(n.number == BRAZULINT_WRONG_LINE && n.line.number == 0);
    IS(brazulint_read_line_words(0x10810, 0x800).number == BRAZULINT_TOO_LARGE);
    brazulint_repair_answer r = brazulint_repair(0x801);
    IS(r.number == 0 && r.word == 0x800 && r.distance == 1 && r.bit == 0);
    r = brazulint_repair(0x8D0);
    IS(r.number == 0 && r.word == 0x9D0 && r.distance == 1 && r.bit == 8);
    r = brazulint_repair(0x000);
    IS(r.number == 0 && r.word == 0x800 && r.distance == 1 && r.bit == 11);
    r = brazulint_repair(0x800);
    IS(r.number == 0 && r.word == 0x800 && r.distance == 0 && r.bit == BRAZULINT_NO_BIT);
    r = brazulint_repair(0x803);
    IS(r.number == BRAZULINT_BEYOND_REPAIR && r.word == 0 && r.distance == 0 && r.bit == BRAZULINT_NO_BIT);
    r = brazulint_repair(0x10800);
    IS(r.number == 7 && r.word == 0 && r.distance == 0 && r.bit == BRAZULINT_NO_BIT);
    const uint16_t above = 4096;
    brazulint_crcc_answer c = brazulint_crcc(NULL, 0); /* a register of zeros, and its guard bits */
    IS(c.number == 0 && c.crc == 0 && c.crcc0 == 0x800 && c.crcc1 == 0x800);
    c = brazulint_crcc(&above, 1);
    IS(c.number == 7 && c.crc == 0 && c.crcc0 == 0 && c.crcc1 == 0);
}

static void code(void) {
    brazulint_encode_answer e = brazulint_encode(false, BRAZULINT_K28_5);
    IS(e.known && e.symbol == 0x17C && e.positive_after);
    e = brazulint_encode(true, BRAZULINT_K29_7);
    IS(e.known && e.symbol == 0x3A2 && e.positive_after); /* five ones, five zeros */
    e = brazulint_encode(true, 0xB5);
    IS(e.known && e.symbol == 0x155 && e.positive_after);
    e = brazulint_encode(true, 268);
    IS(!e.known && e.symbol == 0 && !e.positive_after);
    brazulint_decode_answer d = brazulint_decode(true, 0x283);
    IS(d.number == 0 && d.character == BRAZULINT_K28_5 && !d.positive_after);
    d = brazulint_decode(false, 0x0B9);
    IS(d.number == 0 && d.character == 0 && !d.positive_after);
    d = brazulint_decode(true, 0x17C);
    IS(d.number == 20 && d.character == 0 && !d.positive_after);
    IS(brazulint_decode(false, 0x1017C).number == 7);
}

static void pictures(void) {
    static uint16_t row[3840], back[3840], first[1920], second[1920];
    brazulint_place_answer p = brazulint_place((brazulint_picture_line){1}, 1);
    IS(p.number == 0 && p.image == 2 && p.image_line == 1 && p.stream_line.number == 42 && p.sample == 0);
    p = brazulint_place((brazulint_picture_line){2160}, 3839);
    IS(p.number == 0 && p.image == 4 && p.image_line == 1080 && p.stream_line.number == 1121 && p.sample == 1919);
    p = brazulint_place((brazulint_picture_line){65537}, 0);
    IS(p.number == 2 && p.image == 0 && p.image_line == 0 && p.stream_line.number == 0 && p.sample == 0);
    brazulint_way_back_answer w = brazulint_way_back(HZ_120, 2, 1, (brazulint_stream_line){128});
    IS(w.number == 0 && w.image == 3 && w.line.number == 174); /* l is 87: lines 173 and 174 of the picture */
    w = brazulint_way_back(plain(BRAZULINT_50_HZ, 10), 1, 4, (brazulint_stream_line){1121});
    IS(w.number == 0 && w.image == 4 && w.line.number == 2160);
    w = brazulint_way_back(HZ_120, 3, 1, (brazulint_stream_line){128});
    IS(w.number == 2 && w.image == 0 && w.line.number == 0);
    IS(brazulint_way_back(plain(0, 12), 1, 1, (brazulint_stream_line){42}).number == 1);
    IS(brazulint_way_back(HZ_120, 1, 65537, (brazulint_stream_line){42}).number == 2);
    for (size_t i = 0; i < 3840; i++) row[i] = (uint16_t)(40000 + i);
    IS(brazulint_split(row, 3840, first, 1920, second, 1920) == 0);
    IS(first[0] == 40000 && second[0] == 40001 && second[1919] == 43839);
    IS(brazulint_join(first, 1920, second, 1920, back, 3840) == 0 && memcmp(row, back, sizeof row) == 0);
    lend(first, 1920);
    IS(brazulint_split(row, 3839, first, 1920, second, 1920) == 3 && untouched(first, 1920));
    IS(brazulint_split(row, 3840, first, 1919, NULL, 0) == 4 && untouched(first, 1920));
    IS(brazulint_split(NULL, 0, NULL, 0, NULL, 0) == 3);
    IS(brazulint_join(NULL, 0, NULL, 0, NULL, 0) == 3);
    const brazulint_stream_line before = {41}, first_line = {42}, last_line = {1121}, after = {1122}, far = {65578};
    IS(!brazulint_carries_picture(before) && brazulint_carries_picture(first_line));
    IS(brazulint_carries_picture(last_line) && !brazulint_carries_picture(after) && !brazulint_carries_picture(far));
}

/* The span of a line from negative disparity, with no content bytes named; those that stand in the request are not looked at. */
static brazulint_request unnamed(uint32_t line) { return (brazulint_request){.line = {line}, .content = CONTENT}; }

/* The same from positive disparity, with content bytes named. */
static brazulint_request named(uint32_t line) {
    return (brazulint_request){.line = {line}, .positive = true, .named = true, .content = CONTENT};
}

static uint32_t refused(brazulint_format format, brazulint_request request, size_t sample_count, size_t symbol_room) {
    return brazulint_send(format, request, samples, sample_count, symbols, symbol_room).number;
}

static void sending(void) {
    for (size_t i = 0; i < SAMPLES; i++) samples[i] = 4079;
    IS(brazulint_send(HZ_120, named(42), samples, SAMPLES, symbols, SYMBOLS).number == BRAZULINT_DONE);
    IS(symbols[0] == 0x283 && symbols[1] == 0x17C); /* K28.5 at positive and then at negative disparity */
    samples[7] = 4080;
    lend(symbols, SYMBOLS);
    brazulint_send_answer s = brazulint_send(HZ_120, unnamed(42), samples, SAMPLES, symbols, SYMBOLS);
    IS(s.number == BRAZULINT_NOT_ALLOWED && s.place == 7 && !s.positive_after && untouched(symbols, SYMBOLS));
    samples[7] = 16;
    IS(refused(plain(12, 1), unnamed(42), SAMPLES, SYMBOLS) == 1);
    IS(refused(HZ_120, unnamed(65578), SAMPLES, SYMBOLS) == 2);
    IS(refused(HZ_120, unnamed(42), 3839, SYMBOLS) == BRAZULINT_WRONG_INPUT);
    IS(refused(HZ_120, unnamed(42), SAMPLES, 7919) == BRAZULINT_WRONG_OUTPUT);
    IS(brazulint_send(HZ_120, unnamed(42), NULL, 0, NULL, 0).number == 3 && untouched(symbols, SYMBOLS));
    lend(rows, SAMPLES);
    IS(brazulint_fill_blanking(HZ_120, rows, 3839) == 4 && brazulint_fill_blanking(HZ_120, NULL, 0) == 4);
    IS(brazulint_fill_blanking(plain(1, 11), rows, SAMPLES) == 1 && untouched(rows, SAMPLES));
    IS(brazulint_fill_blanking(HZ_120, rows, SAMPLES) == 0 && rows[0] == 0x100 && rows[SAMPLES - 1] == 0x100);
}

/* Whether all of a row is this word. */
static bool is_all(const uint16_t *row, uint16_t word) {
    for (size_t i = 0; i < SAMPLES; i++)
        if (row[i] != word) return false;
    return true;
}

/* The blanking word of each component at either depth. It is read as Y' too; a link that blanks at the other word refuses to send it. */
static void blanking(void) {
    static uint16_t blank[SAMPLES];
    for (uint32_t component = BRAZULINT_G; component <= BRAZULINT_CR; component++) {
        const bool difference = component == BRAZULINT_CB || component == BRAZULINT_CR;
        for (uint32_t depth = 10; depth <= 12; depth += 2) {
            brazulint_format format = plain(BRAZULINT_120_HZ, depth);
            format.component = component;
            IS(brazulint_fill_blanking(format, blank, SAMPLES) == 0 && is_all(blank, difference ? 0x800 : 0x100));
            IS(brazulint_send(format, unnamed(1122), blank, SAMPLES, symbols, SYMBOLS).number == 0);
            format.component = BRAZULINT_Y;
            IS(brazulint_read(format, symbols, SYMBOLS, rows, SAMPLES).number == 0 && is_all(rows, difference ? 0x800 : 0x100));
            format.component = difference ? BRAZULINT_Y : BRAZULINT_CB;
            brazulint_send_answer s = brazulint_send(format, unnamed(1122), blank, SAMPLES, symbols, SYMBOLS);
            IS(s.number == BRAZULINT_NOT_ALLOWED && s.place == 0 && !s.positive_after);
        }
    }
}

/* Whether every call that takes a format refuses this one with 1, and leaves what it was lent. */
static bool is_refused(brazulint_format format) {
    lend(symbols, SYMBOLS);
    lend(rows, SAMPLES);
    return brazulint_lengths(format).number == 1 && refused(format, unnamed(42), SAMPLES, SYMBOLS) == 1 && untouched(symbols, SYMBOLS) &&
           brazulint_fill_blanking(format, rows, SAMPLES) == 1 && brazulint_judge(format, symbols, SYMBOLS).number == 1 &&
           brazulint_read(format, symbols, SYMBOLS, rows, SAMPLES).number == 1 && brazulint_find(format, symbols, SYMBOLS, 0).number == 1 &&
           brazulint_next(format, symbols, SYMBOLS, 0, rows, SAMPLES).number == 1 && untouched(rows, SAMPLES) &&
           brazulint_way_back(format, 1, 1, (brazulint_stream_line){42}).number == 1;
}

/* One field of a format unknown: 0, one above the known, and the known one if it were cut to eight bits or to sixteen. */
static void unknown_fields(void) {
    const uint32_t above[5] = {4, 13, 7, 2, 2};
    for (size_t field = 0; field < 5; field++) {
        uint32_t fields[5];
        memcpy(fields, &HZ_120, sizeof fields);
        const uint32_t tries[4] = {0, above[field], fields[field] + 256, fields[field] + 65536};
        for (size_t k = 0; k < 4; k++) {
            brazulint_format format;
            fields[field] = tries[k];
            memcpy(&format, fields, sizeof format);
            IS(is_refused(format));
        }
    }
}

static bool has_content(brazulint_delivery d, brazulint_content c) {
    return d.content.sav1 == c.sav1 && d.content.sav2 == c.sav2 && d.content.eav1 == c.eav1 && d.content.eav2 == c.eav2;
}

static void receiving(void) {
    IS(brazulint_send(HZ_120, unnamed(1121), samples, SAMPLES, symbols, SYMBOLS).number == 0);
    IS(has_content(brazulint_judge(HZ_120, symbols, SYMBOLS).delivery, (brazulint_content){0, 0, 0, 0}));
    brazulint_send_answer s = brazulint_send(HZ_120, named(1121), samples, SAMPLES, symbols, SYMBOLS);
    brazulint_read_answer r = brazulint_read(HZ_120, symbols, SYMBOLS, rows, SAMPLES);
    IS(r.number == 0 && r.place == 0 && r.delivery.line.number == 1121 && r.delivery.repairs == 0);
    IS(has_content(r.delivery, CONTENT));
    IS(r.delivery.positive_before && r.delivery.positive_after == s.positive_after);
    IS(memcmp(rows, samples, sizeof rows) == 0);
    lend(rows, SAMPLES);
    IS(brazulint_read(HZ_120, symbols, 7919, rows, SAMPLES).number == 3 && untouched(rows, SAMPLES));
    IS(brazulint_read(HZ_120, NULL, 0, NULL, 0).number == 3);
    IS(brazulint_read(HZ_120, symbols, SYMBOLS, NULL, 0).number == 4 && brazulint_judge(HZ_120, NULL, 0).number == 3);
    IS(brazulint_judge(HZ_120, symbols, SYMBOLS).delivery.line.number == 1121);
    symbols[SYMBOLS - 1] = 0;
    r = brazulint_read(HZ_120, symbols, SYMBOLS, rows, SAMPLES);
    IS(r.number == BRAZULINT_WRONG_SYMBOL && r.place == SYMBOLS - 1 && r.delivery.line.number == 0 && zero(rows, SAMPLES));
}

/* Inverts one bit of a byte of the span in `symbols`, which begins at negative disparity, and codes it again. */
static void invert(size_t byte, unsigned bit) {
    bool before = false, coded = false; /* the disparity as it was, and as it comes to be */
    for (size_t i = 0; i < SYMBOLS; i++) {
        brazulint_decode_answer d = brazulint_decode(before, symbols[i]);
        brazulint_encode_answer e = brazulint_encode(coded, i == byte ? d.character ^ 1u << bit : d.character);
        symbols[i] = (uint16_t)e.symbol;
        before = d.positive_after;
        coded = e.positive_after;
    }
}

static bool has_repairs(brazulint_delivery d, uint32_t lowest, uint32_t highest) {
    for (size_t i = 1; i < 11; i++)
        if (d.repairs_of_bit[i] != 0) return false;
    return d.repairs == lowest + highest && d.repairs_of_bit[0] == lowest && d.repairs_of_bit[11] == highest;
}

/* XYZ is bytes 9 to 11 of the SAV, and of the EAV, which begins at 5772: b0 of stream 1 comes first, b11 of stream 2 last. */
static void repairs(void) {
    IS(brazulint_send(HZ_120, unnamed(42), samples, SAMPLES, symbols, SYMBOLS).number == 0);
    IS(has_repairs(brazulint_judge(HZ_120, symbols, SYMBOLS).delivery, 0, 0));
    invert(9, 0);
    IS(has_repairs(brazulint_judge(HZ_120, symbols, SYMBOLS).delivery, 1, 0));
    invert(5772 + 9, 0);
    invert(5772 + 11, 7);
    IS(has_repairs(brazulint_read(HZ_120, symbols, SYMBOLS, rows, SAMPLES).delivery, 2, 1));
    brazulint_next_answer n = brazulint_next(HZ_120, symbols, SYMBOLS, 0, rows, SAMPLES);
    IS(n.found && n.delivery.line.number == 42 && has_repairs(n.delivery, 2, 1) && memcmp(rows, samples, sizeof rows) == 0);
    invert(9, 1); /* a second bit of the SAV of stream 1, which is word 6 */
    brazulint_read_answer r = brazulint_read(HZ_120, symbols, SYMBOLS, rows, SAMPLES);
    IS(r.number == BRAZULINT_WRONG_TIMING && r.place == 6 && has_repairs(r.delivery, 0, 0));
}

/* At depth 10 what comes back is shifted, and blanking is not. */
static void ten_bits(void) {
    const brazulint_format ten = plain(BRAZULINT_120_HZ, 10);
    for (size_t i = 0; i < SAMPLES; i++) samples[i] = (uint16_t)(i % 2 == 0 ? 4 : 1019);
    IS(brazulint_send(ten, unnamed(42), samples, SAMPLES, symbols, SYMBOLS).number == 0);
    IS(brazulint_read(ten, symbols, SYMBOLS, rows, SAMPLES).number == 0 && rows[0] == 16 && rows[1] == 4076);
    IS(brazulint_fill_blanking(ten, samples, SAMPLES) == 0 && samples[0] == 0x100);
    IS(brazulint_send(ten, unnamed(41), samples, SAMPLES, symbols, SYMBOLS).number == 0);
    IS(brazulint_read(ten, symbols, SYMBOLS, rows, SAMPLES).number == 0 && rows[0] == 0x100);
    for (size_t i = 0; i < SAMPLES; i++) samples[i] = 16;
}

static void recordings(void) {
    static uint16_t recording[SYMBOLS + 5];
    IS(brazulint_send(HZ_120, unnamed(42), samples, SAMPLES, recording + 5, SYMBOLS).number == 0);
    brazulint_find_answer f = brazulint_find(HZ_120, recording, SYMBOLS + 5, 0);
    IS(f.number == 0 && f.found && f.place == 5);
    f = brazulint_find(HZ_120, recording + 5, SYMBOLS, 0);
    IS(f.number == 0 && f.found && f.place == 0);
    f = brazulint_find(HZ_120, recording, SYMBOLS + 5, 6);
    IS(f.number == 0 && !f.found && f.place == 0);
    f = brazulint_find(HZ_120, NULL, 0, 0);
    IS(f.number == 0 && !f.found && f.place == 0);
    IS(brazulint_find(HZ_120, NULL, 0, 1).number == BRAZULINT_WRONG_START);
    IS(brazulint_find(HZ_120, recording, SYMBOLS + 5, UINT64_C(4294967296)).number == 5);
    brazulint_next_answer n = brazulint_next(HZ_120, recording, SYMBOLS + 5, 2, rows, SAMPLES);
    IS(n.number == 0 && n.found && n.place == 5 && n.resume == SYMBOLS + 5 && n.delivery.line.number == 42);
    IS(memcmp(rows, samples, sizeof rows) == 0);
    lend(rows, SAMPLES);
    n = brazulint_next(HZ_120, recording, SYMBOLS + 5, 6, rows, SAMPLES);
    IS(n.number == 0 && !n.found && n.place == 0 && n.resume == 6 && n.delivery.line.number == 0 && untouched(rows, SAMPLES));
    n = brazulint_next(HZ_120, recording, SYMBOLS + 4, 1, rows, SAMPLES); /* without its last symbol: 7,919 are kept */
    IS(n.number == 0 && !n.found && n.resume == 5 && untouched(rows, SAMPLES));
    n = brazulint_next(HZ_120, NULL, 0, 0, NULL, 0);
    IS(n.number == 4 && !n.found && n.place == 0 && n.resume == 0);
    IS(brazulint_next(HZ_120, NULL, 0, 1, rows, SAMPLES).number == 5 && untouched(rows, SAMPLES));
}

/* One symbol more than the longest recording has. */
static void limit(void) {
    static uint16_t recording[BRAZULINT_LIMIT + 1];
    IS(brazulint_find(HZ_120, recording, BRAZULINT_LIMIT, BRAZULINT_LIMIT).number == 0);
    IS(brazulint_find(HZ_120, recording, BRAZULINT_LIMIT + 1, BRAZULINT_LIMIT).number == 3);
}

/* Everything is tried in a thread with as much stack as the header says that is enough. */
static void *all(void *unused) {
    (void)unused;
    formats();
    refusals();
    words();
    code();
    pictures();
    sending();
    blanking();
    unknown_fields();
    receiving();
    repairs();
    ten_bits();
    recordings();
    limit();
    return NULL;
}

int main(void) {
    pthread_t thread;
    pthread_attr_t attributes;
    if (pthread_attr_init(&attributes) != 0 || pthread_attr_setstacksize(&attributes, BRAZULINT_STACK) != 0) return 1;
    if (pthread_create(&thread, &attributes, all, NULL) != 0 || pthread_join(thread, NULL) != 0) return 1;
    printf("%u tried, %u not as they should be\n", tried, wrong);
    return wrong != 0;
}
