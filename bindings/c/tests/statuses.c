/* Has sewarqo_draw and sewarqo_suggest return each of their statuses, and looks at what they leave. The heap is this file's, and
   refuses one request after another. The last line is 'N calls, M faults', and the status 1 where M > 0. */
#include "sewarqo.h"
#include <stdbool.h>
#include <stdio.h>
#include <stdlib.h>

/* ---- a heap that refuses a request */

struct block { bool is_there; void *bytes; };

static char nowhere[16];
static size_t asked, refused = SIZE_MAX, held; /* requests so far, the one to refuse, blocks in use */

void rattle_dealloc(void *bytes) { held--; free(bytes); }

struct block rattle_alloc(size_t size, size_t align) {
    if (asked++ == refused)
        return (struct block){false, nowhere};
    held++;
    return (struct block){true, malloc(size ? size : align)};
}

struct block rattle_realloc(void *bytes, size_t kept, size_t size, size_t align) {
    (void)kept;
    if (asked++ == refused)
        return (struct block){false, nowhere};
    return (struct block){true, realloc(bytes, size ? size : align)};
}

/* ---- one call, with all that it is handed */

enum { ROOM = 8192, LABELS = 3 };

static struct {
    sewarqo_report report;
    sewarqo_source sources[2];
    sewarqo_label labels[LABELS];
    sewarqo_text helps[2], notes[2];
    size_t sources_len, room, left_room;
    /* what it left */
    uint8_t out[ROOM];
    sewarqo_left_out left[LABELS];
    size_t len, count;
    uint32_t status;
} call;

static const uint8_t NOT_TEXT[] = {'a', 0xff};
static size_t calls, faults;

/* A call that draws three labels over two sources, of which none is left out. */
static void prepare(void) {
    memset(&call, 0, sizeof call);
    call.sources[0] = (sewarqo_source){sewarqo_some("a"), sewarqo_str("apple == orange;\n"), 0};
    call.sources[1] = (sewarqo_source){sewarqo_some("b"), sewarqo_str("d\xc3\xa9j\xc3\xa0\n"), 7};
    call.labels[0] = (sewarqo_label){.start = 0, .end = 5, .message = sewarqo_some("one")};
    call.labels[1] = (sewarqo_label){.start = 9, .end = 15, .message = sewarqo_some("two"), .color = SEWARQO_RED};
    call.labels[2] = (sewarqo_label){.source = 1, .start = 1, .end = 3, .message = sewarqo_some("three")};
    for (int at = 0; at < 2; at++)
        call.helps[at] = call.notes[at] = sewarqo_str("text");
    call.report = (sewarqo_report){
        .message = sewarqo_str("m"), .code = sewarqo_some("E1"), .labels = call.labels, .labels_len = LABELS,
        .helps = call.helps, .helps_len = 2, .notes = call.notes, .notes_len = 2,
        .flags = SEWARQO_PLAIN | SEWARQO_ASCII,
    };
    call.sources_len = 2;
    call.room = ROOM;
    call.left_room = LABELS;
}

static void fault(const char *what, const char *why) {
    faults++;
    printf("%s: %s (status %u, len %zu, count %zu)\n", what, why, call.status, call.len, call.count);
}

/* Makes the call, and looks at its buffers: behind the picture, or where there is none, they are as they
   were, and no memory is kept. */
static void make(const char *what, uint32_t status) {
    calls++;
    asked = 0;
    call.len = call.count = 77;
    memset(call.out, '#', ROOM);
    memset(call.left, 0x5a, sizeof call.left);
    call.status = sewarqo_draw(&call.report, call.sources, call.sources_len, call.out, call.room, &call.len,
                               call.left, call.left_room, &call.count);
    bool is_drawn = call.status <= SEWARQO_LEFT_OUT;
    if (call.status != status)
        fault(what, "another status");
    for (size_t at = is_drawn ? call.len : 0; at < ROOM; at++)
        if (call.out[at] != '#') {
            fault(what, "the buffer has changed");
            break;
        }
    size_t told = !is_drawn ? 0 : call.count < call.left_room ? call.count : call.left_room;
    const uint8_t *left = (const uint8_t *)call.left;
    for (size_t at = told * sizeof call.left[0]; at < sizeof call.left; at++)
        if (left[at] != 0x5a) {
            fault(what, "the list has changed");
            break;
        }
    if (status >= SEWARQO_ERR_NO_MEMORY && call.len != 0)
        fault(what, "a length");
    if ((status == SEWARQO_BUFFER_TOO_SMALL || status == SEWARQO_ERR_NO_MEMORY) && call.count != 0)
        fault(what, "a number");
    if (held != 0)
        fault(what, "memory is kept");
}

/* Makes a call that is refused, with the number of what is at fault. */
static void refuse(const char *what, uint32_t status, size_t number) {
    make(what, status);
    if (call.count != number)
        fault(what, "another number");
    prepare();
}

static const sewarqo_text BAD = {NOT_TEXT, sizeof NOT_TEXT};
static const sewarqo_optional BAD_OPTIONAL = {{NOT_TEXT, sizeof NOT_TEXT}, 1};

static void refusals(void) {
    call.report.kind = 4;
    refuse("no kind", SEWARQO_ERR_KIND, 0);
    call.report.kind = SEWARQO_CUSTOM;
    refuse("a kind without colour", SEWARQO_ERR_KIND_COLOR, 0);
    call.report.kind = SEWARQO_CUSTOM;
    call.report.kind_color = SEWARQO_BLUE;
    call.report.kind_name = BAD;
    refuse("the name of a kind", SEWARQO_ERR_KIND_NAME, 0);
    call.report.flags = SEWARQO_ALL_FLAGS + 1;
    refuse("no flag", SEWARQO_ERR_FLAGS, 0);
    call.report.attach = 3;
    refuse("attached nowhere", SEWARQO_ERR_ATTACH, 0);
    call.report.code = BAD_OPTIONAL;
    refuse("the code", SEWARQO_ERR_CODE, 0);
    call.report.message = BAD;
    refuse("the message", SEWARQO_ERR_MESSAGE, 0);
    call.labels[2].source = 2;
    refuse("a label in no source", SEWARQO_ERR_LABEL_SOURCE, 2);
    call.labels[1].end = 8;
    refuse("a label backwards", SEWARQO_ERR_LABEL_BACKWARDS, 1);
    call.labels[1].color = 18;
    refuse("a label in no colour", SEWARQO_ERR_LABEL_COLOR, 1);
    call.labels[0].message = BAD_OPTIONAL;
    refuse("the message of a label", SEWARQO_ERR_LABEL_MESSAGE, 0);
    call.helps[1] = BAD;
    refuse("a help", SEWARQO_ERR_HELP, 1);
    call.notes[1] = BAD;
    refuse("a note", SEWARQO_ERR_NOTE, 1);
    call.sources[1].name = BAD_OPTIONAL;
    refuse("the name of a source", SEWARQO_ERR_SOURCE_NAME, 1);
    call.sources[1].text = BAD;
    refuse("the text of a source", SEWARQO_ERR_SOURCE_TEXT, 1);
    call.sources[1].line_offset = SIZE_MAX;
    refuse("the lines of a source", SEWARQO_ERR_SOURCE_LINES, 1);
    call.labels[2].source = 2;
    call.sources[0].text = BAD;
    refuse("a label and then a source", SEWARQO_ERR_LABEL_SOURCE, 2);
    call.labels[0].message = BAD_OPTIONAL;
    call.labels[1].source = 2;
    refuse("the first of two labels", SEWARQO_ERR_LABEL_MESSAGE, 0);
    call.sources[0].line_offset = SIZE_MAX;
    call.sources[1].name = BAD_OPTIONAL;
    refuse("the first of two sources", SEWARQO_ERR_SOURCE_LINES, 0);
}

/* What is near a refusal, and isn't one. */
static void edges(void) {
    call.sources[1].line_offset = SIZE_MAX - 1;
    make("the greatest line number", SEWARQO_DRAWN);
    prepare();
    call.report.kind_name = BAD;
    call.report.code = (sewarqo_optional){BAD, 0};
    call.report.source = SIZE_MAX;
    make("texts that don't count", SEWARQO_DRAWN);
    prepare();
    call.report = (sewarqo_report){0};
    call.sources_len = 0;
    make("a report of zeros", SEWARQO_DRAWN);
    prepare();
    call.report.tab_width = SIZE_MAX;
    make("the widest tab", SEWARQO_DRAWN);
    prepare();
    call.report.context_lines = SIZE_MAX;
    make("all lines of the sources", SEWARQO_DRAWN);
    prepare();
    call.report.width = 1;
    make("lines of one column", SEWARQO_DRAWN);
    prepare();
    call.report.width = SIZE_MAX;
    make("the widest lines", SEWARQO_DRAWN);
    prepare();
    call.report.labels = NULL;
    call.report.helps = call.report.notes = NULL;
    call.report.labels_len = call.report.helps_len = call.report.notes_len = 0;
    call.report.message = (sewarqo_text){NULL, 0};
    call.sources[0] = (sewarqo_source){0};
    make("null pointers", SEWARQO_DRAWN);
    prepare();
    call.report.labels_len = 1;
    call.labels[0] = (sewarqo_label){.message = {{NULL, 0}, 1}};
    call.sources[0] = (sewarqo_source){{{NULL, 0}, 1}, {NULL, 0}, 0};
    make("null pointers that are drawn", SEWARQO_DRAWN);
    prepare();
}

static void left_out(void) {
    call.report.flags |= SEWARQO_BYTE_OFFSETS;
    call.labels[0].end = 99;
    call.labels[2].start = 2;
    for (call.left_room = 0; call.left_room <= LABELS; call.left_room++) {
        make("labels left out", SEWARQO_LEFT_OUT);
        if (call.count != 2)
            fault("labels left out", "another count");
        if (call.left_room > 0 && (call.left[0].label != 0 || call.left[0].reason != SEWARQO_PAST_SOURCE))
            fault("labels left out", "another first one");
        if (call.left_room > 1 && (call.left[1].label != 2 || call.left[1].reason != SEWARQO_CUTS_CHARACTER))
            fault("labels left out", "another second one");
    }
    prepare();
}

static void rooms(void) {
    make("a picture", SEWARQO_DRAWN);
    size_t len = call.len;
    call.room = len;
    make("no byte too many", SEWARQO_DRAWN);
    call.room = len - 1;
    make("one byte short", SEWARQO_BUFFER_TOO_SMALL);
    if (call.len != len)
        fault("one byte short", "another length");
    call.room = 0;
    make("no room", SEWARQO_BUFFER_TOO_SMALL);
    if (call.len != len)
        fault("no room", "another length");
    prepare();
}

/* Each request for memory is refused in turn. */
static void memory(uint32_t flags) {
    call.report.flags |= flags;
    make("all memory", SEWARQO_DRAWN);
    size_t requests = asked;
    for (refused = 0; refused < requests; refused++)
        make("a request for memory", SEWARQO_ERR_NO_MEMORY);
    printf("%zu requests for memory\n", requests);
    refused = SIZE_MAX;
    prepare();
}

/* Null pointers for what has length 0. */
static void no_buffers(void) {
    make("a picture", SEWARQO_DRAWN);
    size_t len = 77, count = 77;
    sewarqo_report report = {0};
    uint32_t status = sewarqo_draw(&report, NULL, 0, NULL, 0, &len, NULL, 0, &count);
    calls++;
    if (status != SEWARQO_BUFFER_TOO_SMALL || len == 0 || count != 0)
        fault("no buffers", "another answer");
    call.report = report;
    call.sources_len = 0;
    make("a report of zeros", SEWARQO_DRAWN);
    if (call.len != len)
        fault("no buffers", "another length");
    prepare();
}

/* Whether these bytes stand in the picture. */
static bool shows(const char *bytes) {
    size_t len = strlen(bytes);
    for (size_t at = 0; at + len <= call.len; at++)
        if (memcmp(call.out + at, bytes, len) == 0)
            return true;
    return false;
}

/* What a terminal obeys has a sign, in each text, and offsets stay those of the given text; under
   SEWARQO_RAW it is drawn as it is. */
static void hidden(void) {
    call.report.kind = SEWARQO_CUSTOM;
    call.report.kind_color = SEWARQO_BLUE;
    call.report.kind_name = sewarqo_str("k\x1b[1m");
    call.report.code = sewarqo_some("\x1b]c");
    call.report.message = sewarqo_str("m\x1b[2m");
    call.labels[0].message = sewarqo_some("\x1b[3m");
    call.helps[1] = sewarqo_str("\x1b[4m");
    call.notes[0] = sewarqo_str("\x1b[5m");
    call.sources[0].name = sewarqo_some("\x1b[6m");
    call.sources[1].text = sewarqo_str("\x1b[7m\xe2\x80\xae def\n");
    call.labels[2].start = 8;
    call.labels[2].end = 11;
    call.report.flags |= SEWARQO_BYTE_OFFSETS;
    make("hidden characters", SEWARQO_DRAWN);
    if (shows("\x1b") || shows("\xe2\x80\xae"))
        fault("hidden characters", "one is drawn as it is");
    if (!shows("k\xe2\x90\x9b[1m: m\xe2\x90\x9b[2m") || !shows("[\xe2\x90\x9b]c]"))
        fault("hidden characters", "a sign is missing");
    if (!shows("\xe2\x90\x9b[7m\xef\xbf\xbd def\n   |       ^|^"))
        fault("hidden characters", "a label is elsewhere");
    call.report.flags |= SEWARQO_RAW;
    make("texts as they are", SEWARQO_DRAWN);
    if (!shows("k\x1b[1m: m\x1b[2m") || !shows("\x1b[7m\xe2\x80\xae def") || shows("\xe2\x90\x9b"))
        fault("texts as they are", "a text has changed");
    prepare();
}

/* ---- suggestions */

static struct {
    sewarqo_suggestion asked;
    sewarqo_edit edits[2];
    size_t room;
} suggestion;

/* Two edits of a source, of which the second stands in front: a letter behind two bytes is another, and one is put
   in. */
static void prepare_suggestion(void) {
    memset(&suggestion, 0, sizeof suggestion);
    suggestion.asked.source.text = sewarqo_str("fn f() {\n    g(d\xc3\xa9j);\n}\n");
    suggestion.asked.source.line_offset = 40;
    suggestion.asked.edits = suggestion.edits;
    suggestion.asked.edits_len = 2;
    suggestion.edits[0] = (sewarqo_edit){17, 18, sewarqo_str("x")};
    suggestion.edits[1] = (sewarqo_edit){15, 15, sewarqo_str("&")};
    suggestion.room = ROOM;
}

/* Makes the call, and looks at its buffer: behind the text, or where there is none, it is as it was, and no memory is
   kept. */
static void suggest(const char *what, uint32_t status, size_t number) {
    calls++;
    asked = 0;
    call.len = call.count = 77;
    memset(call.out, '#', ROOM);
    call.status = sewarqo_suggest(&suggestion.asked, call.out, suggestion.room, &call.len, &call.count);
    if (call.status != status)
        fault(what, "another status");
    for (size_t at = call.status == SEWARQO_DRAWN ? call.len : 0; at < ROOM; at++)
        if (call.out[at] != '#') {
            fault(what, "the buffer has changed");
            break;
        }
    if (status >= SEWARQO_ERR_NO_MEMORY && call.len != 0)
        fault(what, "a length");
    if (call.count != number)
        fault(what, "another number");
    if (held != 0)
        fault(what, "memory is kept");
}

/* Makes a call that is refused. */
static void suggest_none(const char *what, uint32_t status, size_t number) {
    suggest(what, status, number);
    prepare_suggestion();
}

/* Makes a call that tells this text. */
static void suggest_text(const char *what, const char *text) {
    suggest(what, SEWARQO_DRAWN, 0);
    if (call.len != strlen(text) || memcmp(call.out, text, call.len) != 0)
        fault(what, "another text");
    prepare_suggestion();
}

static void suggestions(void) {
    prepare_suggestion();
    suggest_text("in characters", "42 -     g(d\xc3\xa9j);\n42 +     g(&d\xc3\xa9x);");
    suggestion.asked.flags = SEWARQO_ALL_FLAGS;
    suggestion.edits[0] = (sewarqo_edit){18, 19, sewarqo_str("x")};
    suggest_text("in bytes", "42 -     g(d\xc3\xa9j);\n42 +     g(&d\xc3\xa9x);");
    suggestion.asked.edits_len = 1;
    suggestion.edits[0] = (sewarqo_edit){16, 18, {NULL, 0}};
    suggest_text("a removal", "42 -     g(d\xc3\xa9j);\n42 +     g(d);");
    suggestion.edits[0] = (sewarqo_edit){0, 0, sewarqo_str("a\n")};
    suggestion.edits[1] = (sewarqo_edit){21, 21, sewarqo_str("b")};
    suggest_text("lines apart", "41 + a\n...\n43 - }\n44 + b}");
    suggestion.edits[0] = (sewarqo_edit){9, 13, sewarqo_str("\t\x1b[1m\xe2\x80\xae")};
    suggestion.asked.edits_len = 1;
    suggestion.asked.tab_width = 2;
    suggestion.asked.flags = SEWARQO_RAW;
    suggest_text("hidden characters", "42 -     g(d\xc3\xa9j);\n42 +   \xe2\x90\x9b[1m\xef\xbf\xbdg(d\xc3\xa9j);");
    suggestion.edits[0] = (sewarqo_edit){9, 10, sewarqo_str("\t")};
    suggestion.asked.edits_len = 1;
    suggest_text("white space",
                 "42 - \xc2\xb7\xc2\xb7\xc2\xb7\xc2\xb7g(d\xc3\xa9j);\xe2\x90\x8a\n"
                 "42 + \xe2\x90\x89\xc2\xb7\xc2\xb7\xc2\xb7g(d\xc3\xa9j);\xe2\x90\x8a");
    suggestion.asked.edits = NULL;
    suggestion.asked.edits_len = 0;
    suggest_text("no edits", "");
    suggestion.asked = (sewarqo_suggestion){0};
    suggest_text("zeros", "");
    suggestion.asked.source.line_offset = SIZE_MAX - 3;
    suggestion.asked.edits_len = 1;
    suggest_text("the greatest line numbers",
                 "18446744073709551614 -     g(d\xc3\xa9j);\n18446744073709551614 +     g(d\xc3\xa9x);");
}

static void suggestions_refused(void) {
    suggestion.asked.flags = SEWARQO_ALL_FLAGS + 1;
    suggestion.asked.source.text = BAD;
    suggest_none("no flag", SEWARQO_ERR_FLAGS, 0);
    suggestion.asked.source.text = BAD;
    suggestion.edits[1].text = BAD;
    suggest_none("the text of a source", SEWARQO_ERR_SOURCE_TEXT, 0);
    suggestion.asked.source.line_offset = SIZE_MAX - 2;
    suggestion.edits[1].text = BAD;
    suggest_none("the lines of a source", SEWARQO_ERR_SOURCE_LINES, 0);
    suggestion.edits[0].start = 99;
    suggestion.edits[1].text = BAD;
    suggest_none("the text of an edit", SEWARQO_ERR_EDIT_TEXT, 1);
    suggestion.edits[0].start = 99;
    suggestion.edits[1].end = 99;
    suggest_none("an edit backwards", SEWARQO_ERR_EDIT_BACKWARDS, 0);
    suggestion.edits[0].end = 99;
    suggestion.edits[1].end = 18;
    suggest_none("edits that overlap", SEWARQO_ERR_EDIT_OVERLAPS, 0);
    suggestion.edits[0].end = 24;
    suggest_none("an edit past the source", SEWARQO_ERR_EDIT_PAST_SOURCE, 0);
    suggestion.asked.flags = SEWARQO_BYTE_OFFSETS;
    suggestion.edits[1].end = 17;
    suggest_none("an edit that cuts a character", SEWARQO_ERR_EDIT_CUTS_CHARACTER, 1);
}

static void suggestion_rooms(void) {
    suggest("a suggestion", SEWARQO_DRAWN, 0);
    size_t len = call.len, requests = asked;
    suggestion.room = len;
    suggest("no byte too many", SEWARQO_DRAWN, 0);
    for (suggestion.room = 0; suggestion.room < len; suggestion.room += len - 1) {
        suggest("bytes too few", SEWARQO_BUFFER_TOO_SMALL, 0);
        if (call.len != len)
            fault("bytes too few", "another length");
    }
    size_t needed = 77, count = 77;
    if (sewarqo_suggest(&suggestion.asked, NULL, 0, &needed, &count) != SEWARQO_BUFFER_TOO_SMALL || needed != len
        || count != 0)
        fault("no buffer", "another answer");
    suggestion.room = ROOM;
    for (refused = 0; refused < requests; refused++)
        suggest("a request for memory", SEWARQO_ERR_NO_MEMORY, 0);
    printf("%zu requests for memory\n", requests);
    refused = SIZE_MAX;
}

static void many_labels(void) {
    enum { MANY = 10000 };
    sewarqo_label *labels = malloc(MANY * sizeof *labels);
    for (size_t at = 0; at < MANY; at++)
        labels[at] = (sewarqo_label){.start = at % 16, .end = at % 16 + 1, .order = (int32_t)at};
    call.report.labels = labels;
    call.report.labels_len = MANY;
    make("10,000 labels", SEWARQO_DRAWN);
    free(labels);
    prepare();
}

int main(void) {
    prepare();
    rooms();
    refusals();
    edges();
    left_out();
    memory(0);
    memory(SEWARQO_RAW);
    no_buffers();
    hidden();
    many_labels();
    suggestions();
    suggestions_refused();
    suggestion_rooms();
    printf("%zu calls, %zu faults\n", calls, faults);
    return faults != 0;
}
