/*
 * A line of a 120 Hz link is sent, and every span of the recording is delivered. The part between the marks stands in README.md and in the
 * header too; ./test compares them (.ci/snippets).
 *
 *   (cd crates/brazulint && rt lib)
 *   cc -I include examples/c/first.c crates/brazulint/out/libbrazulint.a -o target/first && target/first
 */
#include "brazulint.h"

#include <inttypes.h>
#include <stdio.h>

static void show(brazulint_stream_line line, const uint16_t *rows) {
    printf("stream line %" PRIu32 ", its first sample %" PRIu16 "\n", line.number, rows[0]);
}

/* begin */
static uint16_t samples[3840], symbols[7920], rows[3840];

static uint32_t send_and_deliver(void) {
    const brazulint_format format = {.number = BRAZULINT_120_HZ, .depth = 12, .component = BRAZULINT_G,
                                     .structure = BRAZULINT_444, .size = BRAZULINT_4K};
    const brazulint_request request = {.line = {42}, .positive = false};  // no content bytes are named
    for (size_t i = 0; i < 3840; i++) samples[i] = 1024;                  // at 12 bits 16 to 4079 may be sent

    brazulint_send_answer sent = brazulint_send(format, request, samples, 3840, symbols, 7920);
    if (sent.number != 0) return sent.number;                             // refused, and symbols are as they were

    uint64_t place = 0;                                                   // every span, wherever it begins
    for (;;) {
        brazulint_next_answer next = brazulint_next(format, symbols, 7920, place, rows, 3840);
        if (next.number != 0 || !next.found) return next.number;          // after none the rows are old
        show(next.delivery.line, rows);
        place = next.resume;
    }
}
/* end */

int main(void) {
    uint32_t number = send_and_deliver();
    if (number != 0) printf("refused %" PRIu32 ": %s\n", number, brazulint_refusal_text(number));
    return number != 0;
}
