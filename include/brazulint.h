/*
 * Brazulint: the link code of a 10G video link for 4K pictures (ITU-R BT.2077 Part 2, in China GY/T 347.2-2021).
 *
 * Link with libbrazulint.a (`rt lib` in crates/brazulint writes it to out/ there), on x86-64 Linux. It calls memcpy and memset and
 * nothing else, allocates nothing, keeps nothing between calls, and may be called from any number of threads at once. As compiled now,
 * judging takes 29 KiB of stack, sending 28, finding and the next span 27, reading 14, and every other call less than 3 KiB.
 *
 * WHAT EVERY CALL GUARANTEES
 *
 * - Any numbers and any contents may be given. Every call ends and answers; nothing is undefined except for the pointer rules below.
 * - `number` in an answer is 0 if the call did its work, and otherwise the number of the refusal. A field that then has no meaning is 0 or
 *   false; only `bit` of a repair, where 0 is a bit, is BRAZULINT_NO_BIT. Refusals are tried in the order of their numbers, and the first
 *   that applies is answered.
 * - Numbers are not truncated: line 65578 is refused, and is not line 42.
 * - A refusal below 20 leaves every lent buffer as it was. A refusal from 20 on leaves the rows all zero, and `place` says where.
 *
 * POINTERS
 *
 * - A buffer is a pointer and the number of its elements. The pointer is to that many elements, aligned for uint16_t, that stay in place
 *   during the call. If the number is 0 the pointer may be null.
 * - A buffer that a call writes (one that is not const) overlaps no other buffer of the same call. Those that it only reads may overlap.
 *
 * FORMATS
 *
 *   number   rate     streams s   samples in a span   symbols in a span   images in streams 1 to s
 *        1   120 Hz           2                3840                7920   1 and 2, or 3 and 4
 *        2   100 Hz           2                3840                9504   1 and 2, or 3 and 4
 *        3    50 Hz           4                7680               19008   1, 2, 3, 4
 *
 * Symbols have ten bits each in a uint16_t, the bit sent first lowest. Samples and rows are stored stream by stream: 1920 of stream 1, then
 * 1920 of stream 2, and so on. A link carries one component of the picture, and the format says which. So a picture of three components
 * (4:4:4) takes six links in formats 1 and 2, two for each component, and three links in format 3: of G'B'R' (BRAZULINT_G, BRAZULINT_B,
 * BRAZULINT_R; systems U1.1, U1.2, U1.4), or of Y'C'BC'R (BRAZULINT_Y, BRAZULINT_CB, BRAZULINT_CR; U1.8, U1.9, U1.11).
 *
 * Links of C'B and C'R blank at 0x800, those of G', B', R' and Y' at 0x100, in the ancillary area and on blanking lines. What is read does
 * not depend on the component: received, these words are not judged by their value, and a recording of C'B is also read as Y'. Of a span
 * only the content bytes can say which component and which images it carries; they are sent as they are named, and judged by no call.
 *
 * The sampling structure is BRAZULINT_444 and the size of the picture BRAZULINT_4K; no other is known yet. A format of which any field is
 * unknown is refused with 1 by every call that takes one, and 0 is unknown in each: a field that was forgotten is never guessed.
 *
 * The depth is 10 or 12 bits. At depth 10 a sample is sent shifted left by two, and what comes back is the shifted word of twelve bits: 4
 * is delivered as 16 and 1019 as 4076. So the rows of lines 42 to 1121 are shifted right by two to have the samples again. Blanking is not
 * shifted: at either depth it is given, sent and delivered as 0x100, or as 0x800.
 *
 * The running disparity is a bool: true is positive. It is false before a fresh signal; after that, it is what the previous call answered.
 *
 * A LIVE LINK
 *
 * A link never ends, and brazulint_next takes one recording. So what arrives is taken in pieces: each is appended to what was kept, the spans
 * are taken out of it, and what comes before `resume` is given up when there is none any more. Nothing before that place can begin a span,
 * whatever arrives later, and fewer symbols are kept than a span has. The pieces deliver exactly what all of it would deliver at once, for
 * every way of cutting it and for damaged signals too; that is proved. From examples/c/live.c, which shows lines as they come and tells lost
 * ones (what stands between two spans is judged) from standard input, in chunks of any size:
 *
 *   // Takes every span out of what has arrived. Afterwards no span begins before `start`, whatever arrives later.
 *   static uint32_t take_spans(live_link *link) {
 *       for (;;) {
 *           brazulint_next_answer next =
 *               brazulint_next(link->format, link->symbols, link->count, link->start, link->rows, link->samples);
 *           link->start = next.resume;
 *           if (next.number != 0 || !next.found) return next.number;
 *           come(link, next);
 *       }
 *   }
 *
 *   // So what stands before it can go: fewer symbols are kept than a span has.
 *   static void give_up(live_link *link, size_t gone) {
 *       link->count -= gone;
 *       memmove(link->symbols, link->symbols + gone, link->count * sizeof *link->symbols);
 *       link->start -= gone;
 *       link->given_up += gone;
 *   }
 *
 * - A piece and what is kept have at most BRAZULINT_LIMIT symbols together, so a piece may have 2,078,145 in any format. A call that finds
 *   none takes up to a microsecond (on a core of 2023) however little came, since it looks over what was kept once more. A thousand symbols
 *   come in a microsecond: so pieces of a span or more cost next to nothing, and pieces of less than a thousand more than the wire gives.
 * - After "none" the rows are old. A line that did not come leaves the row of an earlier picture wherever you show it: blank it.
 * - One thread for each link: calls share nothing. A thread needs BRAZULINT_STACK bytes of stack, and what it takes besides.
 *
 * INTERFACES
 *
 * The names that are linked carry the number of the interface: brazulint_send is brazulint4_send in libbrazulint.a. An object that was
 * compiled with the header of another interface does not link. Structs may grow with the interface, so fill them by the names of their
 * fields: a new field of a format that is left 0 is refused.
 *
 * AN EXAMPLE: a line is sent, and every span of the recording is delivered (examples/c/first.c)
 *
 *   static uint16_t samples[3840], symbols[7920], rows[3840];
 *
 *   static uint32_t send_and_deliver(void) {
 *       const brazulint_format format = {.number = BRAZULINT_120_HZ, .depth = 12, .component = BRAZULINT_G,
 *                                        .structure = BRAZULINT_444, .size = BRAZULINT_4K};
 *       const brazulint_request request = {.line = {42}, .positive = false};  // no content bytes are named
 *       for (size_t i = 0; i < 3840; i++) samples[i] = 1024;                  // at 12 bits 16 to 4079 may be sent
 *
 *       brazulint_send_answer sent = brazulint_send(format, request, samples, 3840, symbols, 7920);
 *       if (sent.number != 0) return sent.number;                             // refused, and symbols are as they were
 *
 *       uint64_t place = 0;                                                   // every span, wherever it begins
 *       for (;;) {
 *           brazulint_next_answer next = brazulint_next(format, symbols, 7920, place, rows, 3840);
 *           if (next.number != 0 || !next.found) return next.number;          // after none the rows are old
 *           show(next.delivery.line, rows);
 *           place = next.resume;
 *       }
 *   }
 */
#ifndef BRAZULINT_H
#define BRAZULINT_H

#include <stdbool.h>
#include <stddef.h>
#include <stdint.h>

/* The interface, and the version of the library that this header belongs to: 65536 times the interface, and the release in it. */
#define BRAZULINT_INTERFACE 4
#define BRAZULINT_VERSION 262144

#define BRAZULINT_PASTE(interface, call) brazulint##interface##call
#define BRAZULINT_LINK_NAME(interface, call) BRAZULINT_PASTE(interface, call)
#define brazulint_version BRAZULINT_LINK_NAME(BRAZULINT_INTERFACE, _version)
#define brazulint_lengths BRAZULINT_LINK_NAME(BRAZULINT_INTERFACE, _lengths)
#define brazulint_send BRAZULINT_LINK_NAME(BRAZULINT_INTERFACE, _send)
#define brazulint_carries_picture BRAZULINT_LINK_NAME(BRAZULINT_INTERFACE, _carries_picture)
#define brazulint_fill_blanking BRAZULINT_LINK_NAME(BRAZULINT_INTERFACE, _fill_blanking)
#define brazulint_read BRAZULINT_LINK_NAME(BRAZULINT_INTERFACE, _read)
#define brazulint_judge BRAZULINT_LINK_NAME(BRAZULINT_INTERFACE, _judge)
#define brazulint_find BRAZULINT_LINK_NAME(BRAZULINT_INTERFACE, _find)
#define brazulint_next BRAZULINT_LINK_NAME(BRAZULINT_INTERFACE, _next)
#define brazulint_split BRAZULINT_LINK_NAME(BRAZULINT_INTERFACE, _split)
#define brazulint_join BRAZULINT_LINK_NAME(BRAZULINT_INTERFACE, _join)
#define brazulint_place BRAZULINT_LINK_NAME(BRAZULINT_INTERFACE, _place)
#define brazulint_way_back BRAZULINT_LINK_NAME(BRAZULINT_INTERFACE, _way_back)
#define brazulint_line_words BRAZULINT_LINK_NAME(BRAZULINT_INTERFACE, _line_words)
#define brazulint_read_line_words BRAZULINT_LINK_NAME(BRAZULINT_INTERFACE, _read_line_words)
#define brazulint_repair BRAZULINT_LINK_NAME(BRAZULINT_INTERFACE, _repair)
#define brazulint_crcc BRAZULINT_LINK_NAME(BRAZULINT_INTERFACE, _crcc)
#define brazulint_decode BRAZULINT_LINK_NAME(BRAZULINT_INTERFACE, _decode)
#define brazulint_encode BRAZULINT_LINK_NAME(BRAZULINT_INTERFACE, _encode)

/* An answer that is not looked at is a refusal that is not seen, so compilers that can are asked to warn. */
#if defined(__cplusplus) && __cplusplus >= 201703L
#define BRAZULINT_MUST_USE [[nodiscard]]
#elif defined(__STDC_VERSION__) && __STDC_VERSION__ >= 202311L
#define BRAZULINT_MUST_USE [[nodiscard]]
#elif defined(__GNUC__)
#define BRAZULINT_MUST_USE __attribute__((warn_unused_result))
#else
#define BRAZULINT_MUST_USE
#endif

#ifdef __cplusplus
extern "C" {
#endif

/* The version of the library that is linked: equal to BRAZULINT_VERSION where it is the one that this header belongs to. */
BRAZULINT_MUST_USE uint32_t brazulint_version(void);

/* ---- Refusals */

enum {
    BRAZULINT_DONE = 0,
    BRAZULINT_UNKNOWN_FORMAT = 1, /* unknown format: its number, depth, component, structure or size */
    BRAZULINT_NO_LINE = 2,        /* no such stream line (1 to 1125), picture line (1 to 2160) or sample (0 to 3839); no such link or stream */
    BRAZULINT_WRONG_INPUT = 3,    /* an input of the wrong length; a recording that is too long */
    BRAZULINT_WRONG_OUTPUT = 4,   /* an output of the wrong length */
    BRAZULINT_WRONG_START = 5,    /* a start beyond the recording */
    BRAZULINT_NOT_ALLOWED = 6,    /* a sample that may not be sent; `place` is the lowest index */
    BRAZULINT_TOO_LARGE = 7,      /* a word above 4095, a symbol above 1023 */
    BRAZULINT_BEYOND_REPAIR = 8,  /* a timing word beyond repair */
    BRAZULINT_WRONG_SYMBOL = 20,  /* a symbol of the wrong kind, no symbol, or one that is illegal at its disparity; `place` is a symbol */
    /* For those below `place` is a word of the span as sent, counted from 0: word k of stream t, both from 0, is at k * s + t, and the fill
     * after them all. */
    BRAZULINT_WRONG_TIMING = 21, /* a timing word is wrong, beyond repair, or has the wrong H */
    BRAZULINT_WRONG_LINE = 22,   /* the line words of stream 1 name no line, or those of another stream differ */
    BRAZULINT_WRONG_V = 23,      /* V does not fit the line */
    BRAZULINT_WRONG_CRCC = 24,   /* a CRCC word is not the one computed */
    BRAZULINT_WRONG_SAMPLE = 25, /* on an active line a word that no sample has */
    BRAZULINT_WRONG_FILL = 26    /* a fill word is not 0x100 */
};

/* A refusal in words; "done" for 0, and "not a refusal" for a number that is none. */
static inline const char *brazulint_refusal_text(uint32_t number) {
    switch (number) {
    case BRAZULINT_DONE: return "done";
    case BRAZULINT_UNKNOWN_FORMAT: return "unknown format";
    case BRAZULINT_NO_LINE: return "no such line, sample, link or stream";
    case BRAZULINT_WRONG_INPUT: return "an input of the wrong length, or a recording that is too long";
    case BRAZULINT_WRONG_OUTPUT: return "an output of the wrong length";
    case BRAZULINT_WRONG_START: return "a start beyond the recording";
    case BRAZULINT_NOT_ALLOWED: return "a sample that may not be sent";
    case BRAZULINT_TOO_LARGE: return "a word above 4095, or a symbol above 1023";
    case BRAZULINT_BEYOND_REPAIR: return "a timing word beyond repair";
    case BRAZULINT_WRONG_SYMBOL: return "a symbol of the wrong kind, no symbol, or one that is illegal at its disparity";
    case BRAZULINT_WRONG_TIMING: return "a timing word is wrong, beyond repair, or of the other H";
    case BRAZULINT_WRONG_LINE: return "the line words of stream 1 name no line, or those of another stream differ";
    case BRAZULINT_WRONG_V: return "V does not fit the line";
    case BRAZULINT_WRONG_CRCC: return "a CRCC word is not the one computed";
    case BRAZULINT_WRONG_SAMPLE: return "on an active line a word that no sample has";
    case BRAZULINT_WRONG_FILL: return "a fill word is not 0x100";
    default: return "not a refusal";
    }
}

/* ---- Formats and lines */

enum { BRAZULINT_120_HZ = 1, BRAZULINT_100_HZ = 2, BRAZULINT_50_HZ = 3 };
enum { BRAZULINT_G = 1, BRAZULINT_B = 2, BRAZULINT_R = 3, BRAZULINT_Y = 4, BRAZULINT_CB = 5, BRAZULINT_CR = 6 };
enum { BRAZULINT_444 = 1 };
enum { BRAZULINT_4K = 1 };

/* A format, by value, first in each call that takes one. 0 in any field is refused. */
typedef struct {
    uint32_t number;    /* BRAZULINT_120_HZ, BRAZULINT_100_HZ, BRAZULINT_50_HZ */
    uint32_t depth;     /* 10, 12 */
    uint32_t component; /* what the link carries: BRAZULINT_G, BRAZULINT_B, BRAZULINT_R, BRAZULINT_Y, BRAZULINT_CB, BRAZULINT_CR */
    uint32_t structure; /* BRAZULINT_444 */
    uint32_t size;      /* BRAZULINT_4K */
} brazulint_format;

/* The samples and the symbols of a span of the largest format, and the symbols of the longest recording. */
#define BRAZULINT_MOST_SAMPLES 7680
#define BRAZULINT_MOST_SYMBOLS 19008
#define BRAZULINT_LIMIT 2097152

/* The bytes of stack of a thread that makes any of the calls; what the thread does besides comes on top. */
#define BRAZULINT_STACK 40960

/* A line of a stream, 1 to 1125; of these 42 to 1121 carry lines of a picture. */
typedef struct {
    uint32_t number;
} brazulint_stream_line;

/* A line of a picture, 1 to 2160. */
typedef struct {
    uint32_t number;
} brazulint_picture_line;

typedef struct {
    uint32_t number; /* 1 */
    size_t samples;  /* of all streams of a span */
    size_t symbols;  /* of a span */
} brazulint_lengths_answer;

/* How many samples a span of a format takes, and how many symbols it has. */
BRAZULINT_MUST_USE brazulint_lengths_answer brazulint_lengths(brazulint_format format);

/* ---- Sending */

/* The content bytes: 1 and 2 after the special characters of the SAV, and after those of the EAV. */
typedef struct {
    uint8_t sav1;
    uint8_t sav2;
    uint8_t eav1;
    uint8_t eav2;
} brazulint_content;

/* What the sender is asked for, by value. */
typedef struct {
    brazulint_stream_line line;
    bool positive;             /* the running disparity before the span */
    bool named;                /* whether content bytes are named: if not, zeros are sent, and `content` is not looked at */
    brazulint_content content;
} brazulint_request;

typedef struct {
    uint32_t number;     /* 1, 2, 3, 4, 6 */
    bool positive_after; /* the running disparity after the span */
    uint64_t place;      /* for 6 the lowest index of a sample that may not be sent */
} brazulint_send_answer;

/*
 * Sends a span into `symbols`, which has room for exactly one. On lines 42 to 1121 samples are 4 to 1019 at depth 10 and 16 to 4079 at
 * depth 12; on any other line each is the component's blanking word, 0x800 for C'B and C'R and 0x100 for any other, at either depth.
 */
BRAZULINT_MUST_USE brazulint_send_answer brazulint_send(brazulint_format format, brazulint_request request,
                                                        const uint16_t *samples, size_t sample_count,
                                                        uint16_t *symbols, size_t symbol_room);

/* The row that a stream line carries: true for the picture (lines 42 to 1121), false for blanking (any other number). Refuses nothing. */
BRAZULINT_MUST_USE bool brazulint_carries_picture(brazulint_stream_line line);

/* Fills a row with the blanking samples of all streams, which are those of the component. Answers 0, or the refusal: 1, 4. */
BRAZULINT_MUST_USE uint32_t brazulint_fill_blanking(brazulint_format format, uint16_t *row, size_t row_room);

/* ---- Receiving */

/* What a span says about itself. */
typedef struct {
    brazulint_stream_line line; /* the line whose SAV begins the span */
    brazulint_content content;
    bool positive_before;        /* the running disparity before the span */
    bool positive_after;         /* and after it */
    uint32_t repairs;            /* timing words repaired, one bit in each; a span has two in each stream, of the SAV and of the EAV */
    uint32_t repairs_of_bit[12]; /* how often each bit of a timing word was repaired: [0] is b0, the lowest; together they are `repairs` */
} brazulint_delivery;

typedef struct {
    uint32_t number; /* 1, 3, 4, 20 to 26 */
    uint64_t place;  /* for 20 a symbol, for 21 to 26 an interleaved word */
    brazulint_delivery delivery;
} brazulint_read_answer;

/*
 * Reads exactly one span into `rows`, which has room for exactly a span's samples: twelve-bit words as received (at depth 10 not shifted
 * back). After 20 to 26 the rows are all zero.
 */
BRAZULINT_MUST_USE brazulint_read_answer brazulint_read(brazulint_format format, const uint16_t *symbols, size_t symbol_count,
                                                        uint16_t *rows, size_t row_room);

/* Answers what reading would, without rows; it never answers 4. */
BRAZULINT_MUST_USE brazulint_read_answer brazulint_judge(brazulint_format format, const uint16_t *symbols, size_t symbol_count);

/* ---- Recordings: at most BRAZULINT_LIMIT symbols */

typedef struct {
    uint32_t number; /* 1, 3, 5 */
    bool found;      /* false if there is no span at or after the start; that is not a refusal */
    uint64_t place;  /* the first symbol of the span */
} brazulint_find_answer;

/* The first place at or after `start` at which a span would be read. A start equal to the length finds none. */
BRAZULINT_MUST_USE brazulint_find_answer brazulint_find(brazulint_format format, const uint16_t *symbols, size_t symbol_count,
                                                        uint64_t start);

typedef struct {
    uint32_t number; /* 1, 3, 4, 5 */
    bool found;
    uint64_t place;
    uint64_t resume; /* where to continue: the end of the span; where there is none, the place before which nothing can begin one, whatever
                      * arrives later; `start` after a refusal */
    brazulint_delivery delivery;
} brazulint_next_answer;

/*
 * Finds a span and reads it into `rows` at once. After "none", as after a refusal, the rows are old: they stay as they were, so what an
 * earlier call left there is still there and looks like a good row. Look at `found` before you look at the rows.
 */
BRAZULINT_MUST_USE brazulint_next_answer brazulint_next(brazulint_format format, const uint16_t *symbols, size_t symbol_count,
                                                        uint64_t start, uint16_t *rows, size_t row_room);

/* ---- Pictures */

/*
 * Divides a row of 3840 samples into the rows of 1920 of two basic images: 1 and 2 on an odd picture line, 3 and 4 on an even one. Samples
 * are copied unchanged. Both calls answer 0, or the refusal: 3, 4.
 */
BRAZULINT_MUST_USE uint32_t brazulint_split(const uint16_t *row, size_t row_count, uint16_t *first, size_t first_room,
                                            uint16_t *second, size_t second_room);

/* Joins them again. */
BRAZULINT_MUST_USE uint32_t brazulint_join(const uint16_t *first, size_t first_count, const uint16_t *second, size_t second_count,
                                           uint16_t *row, size_t row_room);

typedef struct {
    uint32_t number;                   /* 2 */
    uint32_t image;                    /* the basic image, 1 to 4 */
    uint32_t image_line;               /* its line, 1 to 1080 */
    brazulint_stream_line stream_line; /* the stream line that carries it, 42 to 1121 */
    uint32_t sample;                   /* 0 to 1919 */
} brazulint_place_answer;

/* Where a sample of a picture line goes: lines count from 1, samples from 0. */
BRAZULINT_MUST_USE brazulint_place_answer brazulint_place(brazulint_picture_line line, uint32_t sample);

typedef struct {
    uint32_t number;             /* 1, 2 */
    uint32_t image;              /* the basic image that the stream carries, 1 to 4 */
    brazulint_picture_line line; /* the picture's line on that stream line */
} brazulint_way_back_answer;

/*
 * The way back: which line of the picture a stream line brings. `link` says which of the links of its component it is, 1 or 2 in formats 1 and
 * 2, and 1 in format 3; `stream` counts from 1. A link or stream that there is not, and a stream line that carries no picture, are refused
 * with 2. It undoes brazulint_place: a sample's stream line, on the link and stream of its image, brings the sample's line.
 */
BRAZULINT_MUST_USE brazulint_way_back_answer brazulint_way_back(brazulint_format format, uint32_t link, uint32_t stream,
                                                                brazulint_stream_line line);

/* ---- Words of a stream */

typedef struct {
    uint32_t number; /* 2 */
    uint32_t ln0;
    uint32_t ln1;
} brazulint_line_words_answer;

/* The two words of a stream line's number. */
BRAZULINT_MUST_USE brazulint_line_words_answer brazulint_line_words(brazulint_stream_line line);

typedef struct {
    uint32_t number; /* 7, 22 */
    brazulint_stream_line line;
} brazulint_read_line_words_answer;

/* The stream line for which exactly these two words are sent. */
BRAZULINT_MUST_USE brazulint_read_line_words_answer brazulint_read_line_words(uint32_t ln0, uint32_t ln1);

/* In the place of a bit: none was wrong. */
#define BRAZULINT_NO_BIT 12

typedef struct {
    uint32_t number;   /* 7, 8 */
    uint32_t word;     /* the legal timing word */
    uint32_t distance; /* in how many bits the given one differs: 0, 1 */
    uint32_t bit;      /* the bit that was wrong, 0 to 11, 0 the lowest; BRAZULINT_NO_BIT where none was, and in a refusal */
} brazulint_repair_answer;

/* The legal timing word (800, 9D0, AB0, B60 hex) that is at most one bit from a given one. */
BRAZULINT_MUST_USE brazulint_repair_answer brazulint_repair(uint32_t word);

typedef struct {
    uint32_t number; /* 7 */
    uint32_t crc;    /* the register after the words, from 0: bit i is CRCCi */
    uint32_t crcc0;  /* the two words that carry it */
    uint32_t crcc1;
} brazulint_crcc_answer;

/* The CRCC of a run of words of one stream. */
BRAZULINT_MUST_USE brazulint_crcc_answer brazulint_crcc(const uint16_t *words, size_t word_count);

/* ---- The 8B/10B code */

/* A character is a byte, 0 to 255, or one of the twelve special characters. */
enum {
    BRAZULINT_K28_0 = 256,
    BRAZULINT_K28_1,
    BRAZULINT_K28_2,
    BRAZULINT_K28_3,
    BRAZULINT_K28_4,
    BRAZULINT_K28_5,
    BRAZULINT_K28_6,
    BRAZULINT_K28_7,
    BRAZULINT_K23_7,
    BRAZULINT_K27_7,
    BRAZULINT_K29_7,
    BRAZULINT_K30_7
};

typedef struct {
    uint32_t number; /* 7, 20 */
    uint32_t character;
    bool positive_after;
} brazulint_decode_answer;

/* The character that has a symbol at the running disparity before it, and the disparity after. */
BRAZULINT_MUST_USE brazulint_decode_answer brazulint_decode(bool positive, uint32_t symbol);

typedef struct {
    bool known; /* false for a number above 267, which is not a character */
    uint32_t symbol;
    bool positive_after;
} brazulint_encode_answer;

/* The symbol of a character at the running disparity before it, and the disparity after. It refuses nothing. */
BRAZULINT_MUST_USE brazulint_encode_answer brazulint_encode(bool positive, uint32_t character);

#ifdef __cplusplus
}
#endif

#endif
