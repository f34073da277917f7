/*
 * Four lines of a 120 Hz link are sent one after another, line 43 loses a symbol on the way, and what arrived is delivered.
 *
 *   (cd crates/brazulint && rt lib)
 *   cc -I include examples/c/recital.c crates/brazulint/out/libbrazulint.a -o target/recital && target/recital
 */
#include "brazulint.h"

#include <inttypes.h>
#include <stdio.h>

enum { SAMPLES = 3840, SYMBOLS = 7920, FIRST = 41, LINES = 4 };

static const brazulint_format FORMAT = {
    .number = BRAZULINT_120_HZ, .depth = 12, .component = BRAZULINT_G, .structure = BRAZULINT_444, .size = BRAZULINT_4K};

static uint16_t picture[SAMPLES], blanking[SAMPLES], rows[SAMPLES], recording[LINES * SYMBOLS];

/* Each line from the disparity that the previous line left; the first, of a fresh signal, from negative. */
static uint32_t send_lines(void) {
    bool positive = false;
    for (uint32_t k = 0; k < LINES; k++) {
        const brazulint_request request = {.line = {FIRST + k}, .positive = positive};
        const uint16_t *row = brazulint_carries_picture(request.line) ? picture : blanking;
        brazulint_send_answer sent = brazulint_send(FORMAT, request, row, SAMPLES, recording + k * SYMBOLS, SYMBOLS);
        if (sent.number != 0) return sent.number;
        positive = sent.positive_after;
    }
    return 0;
}

/* Every span that is whole in the recording, wherever it begins. */
static void deliver_lines(void) {
    uint64_t place = 0;
    for (;;) {
        brazulint_next_answer next = brazulint_next(FORMAT, recording, LINES * SYMBOLS, place, rows, SAMPLES);
        if (next.number != 0 || !next.found) return;
        printf("line %" PRIu32 " at symbol %" PRIu64 ", its first sample %" PRIu16 "\n", next.delivery.line.number, next.place, rows[0]);
        place = next.resume;
    }
}

int main(void) {
    for (size_t i = 0; i < SAMPLES; i++) picture[i] = (uint16_t)(16 + i % 4064);
    uint32_t number = brazulint_fill_blanking(FORMAT, blanking, SAMPLES);
    if (number == 0) number = send_lines();
    if (number != 0) {
        printf("refused %" PRIu32 ": %s\n", number, brazulint_refusal_text(number));
        return 1;
    }
    recording[2 * SYMBOLS + 1000] = 0; /* no character has this symbol */
    deliver_lines();
    brazulint_read_answer lost = brazulint_judge(FORMAT, recording + 2 * SYMBOLS, SYMBOLS);
    printf("line 43 is lost: refused %" PRIu32 " at its symbol %" PRIu64 "\n", lost.number, lost.place);
    return 0;
}
