/*
 * A live link: symbols from standard input in chunks of any size. Lines are shown as they come, lost ones are told, with the number and the
 * place of their refusal, and their old rows are blanked. The input is what `generate` writes: a byte of format, a byte of depth, and symbols,
 * low byte first, for as long as they come. The part between the marks stands in README.md and in the header too; ./test compares them.
 *
 *   rt ci && (cd crates/brazulint && rt lib)
 *   cc -I include examples/c/live.c crates/brazulint/out/libbrazulint.a -pthread -o target/live
 *   printf '\1\14\52\0\4\0' | crates/generate/out/generate | target/live 1000
 *
 * The number is the most bytes that are read at a time.
 */
#include "brazulint.h"

#include <inttypes.h>
#include <pthread.h>
#include <stdio.h>
#include <stdlib.h>
#include <string.h>
#include <unistd.h>

enum { MOST_BYTES = 1 << 20, LINES = 1125, PRINTING = 24 * 1024 };

/* What has arrived of a link and is kept. Places are counted in all that arrived. */
typedef struct {
    brazulint_format format;
    size_t samples, span;      /* of a span: its samples, its symbols */
    uint16_t *symbols;         /* those that are kept, */
    size_t count;              /* how many they are, */
    size_t start;              /* from which of them on the next span is looked for, */
    uint64_t given_up;         /* and how many came before them */
    uint64_t told;             /* up to here lines were shown, or told to be lost */
    uint32_t line;             /* the last line that was shown; 0 if there is none */
    uint16_t *rows;            /* the words of the span that came last, */
    uint16_t *shown;           /* and of each line, as it is shown */
} live_link;

/* What `generate` sends: G' of a 4K picture in 4:4:4. */
static brazulint_format plain(uint32_t number, uint32_t depth) {
    return (brazulint_format){
        .number = number, .depth = depth, .component = BRAZULINT_G, .structure = BRAZULINT_444, .size = BRAZULINT_4K};
}

/* The part of the picture that a stream line brings; this link is the first of its component, and stream 1 stands for all. */
static void show(live_link *link, uint64_t place, brazulint_stream_line line) {
    memcpy(link->shown + line.number * link->samples, link->rows, link->samples * sizeof *link->rows);
    brazulint_way_back_answer back = brazulint_way_back(link->format, 1, 1, line);
    printf("stream line %" PRIu32 " at symbol %" PRIu64, line.number, place);
    if (back.number == 0) printf(", picture line %" PRIu32, back.line.number);
    printf("\n");
}

/* What was shown of a line that did not come is of another picture. */
static void blank_between(live_link *link, uint32_t before, uint32_t line) {
    if (before == 0) return;
    for (uint32_t lost = before % LINES + 1; lost != line; lost = lost % LINES + 1) {
        if (brazulint_fill_blanking(link->format, link->shown + lost * link->samples, link->samples) != 0) exit(1);
        printf("stream line %" PRIu32 " blanked\n", lost);
    }
}

/* What stands where a span should be is judged, span by span, up to a place. */
static void tell_lost(live_link *link, uint64_t to) {
    while (link->told + link->span <= to) {
        brazulint_read_answer lost = brazulint_judge(link->format, link->symbols + (link->told - link->given_up), link->span);
        printf("lost at symbol %" PRIu64 ": refused %" PRIu32 " at its %s %" PRIu64 ", %s\n", link->told, lost.number,
               lost.number == BRAZULINT_WRONG_SYMBOL ? "symbol" : "word", lost.place, brazulint_refusal_text(lost.number));
        link->told += link->span;
    }
}

static void come(live_link *link, brazulint_next_answer next) {
    uint64_t place = link->given_up + next.place;
    tell_lost(link, place);
    if (link->told < place) printf("%" PRIu64 " symbols before symbol %" PRIu64 " are no span\n", place - link->told, place);
    link->told = place + link->span;
    blank_between(link, link->line, next.delivery.line.number);
    link->line = next.delivery.line.number;
    show(link, place, next.delivery.line);
}

/* begin */
// Takes every span out of what has arrived. Afterwards no span begins before `start`, whatever arrives later.
static uint32_t take_spans(live_link *link) {
    for (;;) {
        brazulint_next_answer next =
            brazulint_next(link->format, link->symbols, link->count, link->start, link->rows, link->samples);
        link->start = next.resume;
        if (next.number != 0 || !next.found) return next.number;
        come(link, next);
    }
}

// So what stands before it can go: fewer symbols are kept than a span has.
static void give_up(live_link *link, size_t gone) {
    link->count -= gone;
    memmove(link->symbols, link->symbols + gone, link->count * sizeof *link->symbols);
    link->start -= gone;
    link->given_up += gone;
}
/* end */

/* What may go, once it is told: all that stands before `start`, but for what is still to be judged. */
static size_t to_give_up(live_link *link) {
    uint64_t start = link->given_up + link->start;
    tell_lost(link, start);
    return (size_t)((link->told < start ? link->told : start) - link->given_up);
}

/* Takes what is there, at most so many bytes at a time, until the end; a symbol may arrive in two halves. */
static uint32_t receive(live_link *link, size_t most) {
    static unsigned char bytes[MOST_BYTES];
    ssize_t count;
    unsigned low = 0;
    bool half = false;
    while ((count = read(STDIN_FILENO, bytes, most)) > 0) {
        for (ssize_t i = 0; i < count; i++) {
            if (half) link->symbols[link->count++] = (uint16_t)(low + 256u * bytes[i]);
            low = bytes[i];
            half = !half;
        }
        uint32_t number = take_spans(link);
        if (number != 0) return number;
        give_up(link, to_give_up(link));
        fflush(stdout);
    }
    return 0;
}

typedef struct {
    size_t most;
    uint32_t number;
} task;

static void *run(void *argument) {
    task *t = argument;
    unsigned char head[2] = {0, 0};
    live_link link = {0};
    for (size_t i = 0; i < 2; i++)
        if (read(STDIN_FILENO, head + i, 1) != 1) break;
    link.format = plain(head[0], head[1]);
    brazulint_lengths_answer lengths = brazulint_lengths(link.format);
    t->number = lengths.number;
    if (lengths.number != 0) return NULL;
    link.samples = lengths.samples;
    link.span = lengths.symbols;
    /* Less than a span may be kept because one can begin in it, and as much again because it is to be judged. */
    link.symbols = calloc(2 * link.span + MOST_BYTES / 2, sizeof *link.symbols);
    link.rows = calloc(link.samples, sizeof *link.rows);
    link.shown = calloc((LINES + 1) * link.samples, sizeof *link.shown);
    if (link.symbols == NULL || link.rows == NULL || link.shown == NULL) exit(1);
    t->number = receive(&link, t->most);
    tell_lost(&link, link.given_up + link.count);
    printf("the end, after %" PRIu64 " symbols\n", link.given_up + link.count);
    free(link.symbols);
    free(link.rows);
    free(link.shown);
    return NULL;
}

/* One thread for each link: nothing is shared between them. Beside the library's stack there is some for printing. */
int main(int count, char **arguments) {
    task t = {.most = count > 1 ? strtoul(arguments[1], NULL, 10) : 65536};
    if (t.most < 1 || t.most > MOST_BYTES) {
        fprintf(stderr, "usage: live [BYTES AT A TIME, 1 to %d]\n", MOST_BYTES);
        return 2;
    }
    pthread_t thread;
    pthread_attr_t attributes;
    if (pthread_attr_init(&attributes) != 0 || pthread_attr_setstacksize(&attributes, BRAZULINT_STACK + PRINTING) != 0) return 1;
    if (pthread_create(&thread, &attributes, run, &t) != 0 || pthread_join(thread, NULL) != 0) return 1;
    if (t.number != 0) fprintf(stderr, "refused %" PRIu32 ": %s\n", t.number, brazulint_refusal_text(t.number));
    return t.number != 0;
}
