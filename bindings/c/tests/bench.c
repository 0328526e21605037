/* Draws a workload of docs/dev/SPEED.md again and again: bench NAME N, which prints NAME N BYTES CHECKSUM NANOSECONDS.
   A name is `two` or `nested`, or `long` with `-start` or `-end`, `-escapes` and `-excerpt` or without; behind them
   `-safe` has the texts drawn safely. Each call has the report and the source anew, and finds the lines. `edits-LINES` suggests an
   edit in each of so many lines. */
#define _POSIX_C_SOURCE 199309L
#include "sewarqo_excerpt.h"
#include <stdio.h>
#include <stdlib.h>
#include <time.h>

enum { LINES = 50, DEEP = 20, WORDS = 4, LABELS = LINES * WORDS + DEEP, EDITS = 10000, ROOM = 200 * EDITS };
enum { LONG = 200000 }; /* lines of a long text */

static char text[LONG * 50 + 1], messages[LABELS][20];
static sewarqo_label labels[LABELS], moved[LABELS];
static int has_excerpt;
static size_t labels_len;
static sewarqo_edit edits[EDITS];
static uint8_t out[ROOM];

static void add(size_t start, size_t end, const char *message) {
    labels[labels_len++] = (sewarqo_label){.start = start, .end = end, .message = sewarqo_some(message)};
}

/* Two labels in one line. */
static const char *two(void) {
    strcpy(text, "apple == orange;");
    add(0, 5, "This is an apple");
    add(9, 15, "This is an orange");
    return "can't compare apples with oranges";
}

/* Writes a line of 50 bytes, which is numbered from 0. */
static void write_line(size_t line) {
    sprintf(text + 50 * line, "let v%06zu = alpha + beta * gamma - delta (eps);\n", line);
}

/* Four labels in each of 50 lines, and 20 over several lines, of which each lies inside the next. */
static const char *nested(void) {
    static const size_t ENDS[WORDS][2] = {{14, 19}, {22, 26}, {29, 34}, {37, 42}};
    for (size_t line = 0; line < LINES; line++) {
        write_line(line);
        for (size_t word = 0; word < WORDS; word++) {
            sprintf(messages[labels_len], "inline %zu %zu", line, word);
            add(50 * line + ENDS[word][0], 50 * line + ENDS[word][1], messages[labels_len]);
        }
        size_t first = LINES - 1 - line;
        if (first < DEEP) {
            sprintf(messages[labels_len], "nested %zu", first);
            add(50 * first + 4, 50 * line + 48, messages[labels_len]);
        }
    }
    return "nested";
}

/* A label in the middle of a long text, at its start or at its end, and an escape character in each hundredth line or
   in none. */
static const char *long_text(const char *name) {
    size_t labelled = strstr(name, "-start") ? 0 : strstr(name, "-end") ? LONG - 1 : LONG / 2;
    for (size_t line = 0; line < LONG; line++) {
        write_line(line);
        if (line % 100 == 0 && strstr(name, "-escapes"))
            text[50 * line + 4] = '\x1b';
    }
    add(50 * labelled + 14, 50 * labelled + 19, "here");
    has_excerpt = strstr(name, "-excerpt") != NULL;
    return "long";
}

/* A word is replaced in each of so many lines, which have no other edit. */
static void put_in_words(size_t lines) {
    for (size_t line = 0; line < lines; line++) {
        write_line(line);
        edits[line] = (sewarqo_edit){.start = 50 * line + 14, .end = 50 * line + 19, .text = sewarqo_str("omega")};
    }
}

static uint64_t checksum(size_t len) {
    uint64_t sum = 0xcbf29ce484222325;
    for (size_t at = 0; at < len; at++)
        sum = (sum ^ out[at]) * 0x100000001b3;
    return sum;
}

/* Draws a report over a source, or over an excerpt of it. */
static uint32_t draw_over(const sewarqo_report *report, sewarqo_source source, size_t *len, size_t *count) {
    sewarqo_report cut = *report;
    if (has_excerpt)
        cut = sewarqo_excerpt(report, &source, 1, moved);
    return sewarqo_draw(&cut, &source, 1, out, ROOM, len, NULL, 0, count);
}

/* Draws a report so often, or tells a suggestion where there are edits. The length of what was drawn, or 0. */
static size_t draw(const sewarqo_report *report, const sewarqo_suggestion *suggestion, long turns) {
    size_t len = 0, count;
    for (long turn = turns; turn > 0; turn--) {
        uint32_t status = suggestion->edits_len
                              ? sewarqo_suggest(suggestion, out, ROOM, &len, &count)
                              : draw_over(report, suggestion->source, &len, &count);
        if (status != SEWARQO_DRAWN)
            return 0;
    }
    return len;
}

/* Has the text and the labels of a workload. Its message. */
static const char *drawn(const char *name) {
    if (strncmp(name, "long", 4) == 0)
        return long_text(name);
    return strncmp(name, "two", 3) == 0 ? two() : nested();
}

int main(int argc, char **argv) {
    if (argc != 3)
        return 2;
    sewarqo_report report = {.labels = labels, .flags = SEWARQO_PLAIN | SEWARQO_ASCII};
    sewarqo_suggestion suggestion = {.edits = edits};
    if (strncmp(argv[1], "edits-", 6) == 0) {
        suggestion.edits_len = strtoul(argv[1] + 6, NULL, 10);
        if (suggestion.edits_len == 0 || suggestion.edits_len > EDITS)
            return 2;
        put_in_words(suggestion.edits_len);
    } else {
        report.message = sewarqo_str(drawn(argv[1]));
        report.flags |= strstr(argv[1], "-safe") ? 0 : SEWARQO_RAW;
    }
    report.start = labels[0].start;
    report.labels_len = labels_len;
    suggestion.source.text = sewarqo_str(text);
    struct timespec from, to;
    clock_gettime(CLOCK_MONOTONIC, &from);
    size_t len = draw(&report, &suggestion, atol(argv[2]));
    clock_gettime(CLOCK_MONOTONIC, &to);
    if (len == 0)
        return 1;
    long long spent = (to.tv_sec - from.tv_sec) * 1000000000LL + (to.tv_nsec - from.tv_nsec);
    printf("%s %s %zu %016llx %lld\n", argv[1], argv[2], len, (unsigned long long)checksum(len), spent);
    return 0;
}
