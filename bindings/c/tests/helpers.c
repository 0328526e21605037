/* Tries what the headers add to the call: versions, offsets of lines and columns, statuses in words, sinks, and helps in memory that grows.
   What is wanted was written by hand, and the version is the program's word: helpers 0.6.0. The last line is
   'N looked at, M faults', and the status 1 where M > 0. */
#include "sewarqo_print.h"

static size_t looked, faults;

static void fault(const char *what) {
    faults++;
    printf("fault: %s\n", what);
}

static void see(const char *what, int is_right) {
    looked++;
    if (!is_right)
        fault(what);
}

/* ---- versions */

#if SEWARQO_VERSION_NUMBER < 600
#error "the version is an older one"
#endif

static void versions(const char *wanted) {
    char joined[64];
    int number = SEWARQO_VERSION_NUMBER;
    see("the version", strcmp(SEWARQO_VERSION, wanted) == 0);
    snprintf(joined, sizeof joined, "%d.%d.%d", SEWARQO_VERSION_MAJOR, SEWARQO_VERSION_MINOR, SEWARQO_VERSION_PATCH);
    see("its parts", strcmp(joined, wanted) == 0);
    snprintf(joined, sizeof joined, "%d.%d.%d", number / 10000, number / 100 % 100, number % 100);
    see("its number", strcmp(joined, wanted) == 0);
    see("that of the library", strcmp(sewarqo_version(), wanted) == 0);
}

/* ---- offsets */

/* Lines of a, b LF | d, two bytes, two bytes, CR LF | LF | x, CR, y LF | (nothing). */
static const char LINES[] = "ab\nd\xc3\xa9\xc3\xa0\r\n\nx\ry\n";

static const struct {
    const char *text;
    size_t line, column, in_characters, in_bytes;
} OFFSETS[] = {
    {LINES, 1, 1, 0, 0},
    {LINES, 1, 2, 1, 1},
    {LINES, 1, 3, 2, 2},
    {LINES, 1, 4, 2, 2},
    {LINES, 1, 0, 0, 0},
    {LINES, 2, 1, 3, 3},
    {LINES, 2, 2, 4, 4},
    {LINES, 2, 3, 5, 5},
    {LINES, 2, 4, 6, 6},
    {LINES, 2, 6, 6, 8},
    {LINES, 2, 7, 6, 8},
    {LINES, 2, SIZE_MAX, 6, 8},
    {LINES, 3, 1, 8, 10},
    {LINES, 3, 2, 8, 10},
    {LINES, 4, 1, 9, 11},
    {LINES, 4, 2, 10, 12},
    {LINES, 4, 3, 11, 13},
    {LINES, 4, 9, 12, 14},
    {LINES, 5, 1, 13, 15},
    {LINES, 5, 2, 13, 15},
    {LINES, 6, 1, SIZE_MAX, SIZE_MAX},
    {LINES, 0, 1, SIZE_MAX, SIZE_MAX},
    {LINES, SIZE_MAX, 1, SIZE_MAX, SIZE_MAX},
    {"", 1, 1, 0, 0},
    {"", 1, 5, 0, 0},
    {"", 2, 1, SIZE_MAX, SIZE_MAX},
    {NULL, 1, 1, 0, 0},
    {NULL, 2, 1, SIZE_MAX, SIZE_MAX},
    {"abc", 1, 9, 3, 3},
    {"abc\r", 1, 9, 4, 4}, /* (a return that no line feed follows ends no line) */
    {"\r\n", 1, 9, 0, 0},
};

static void offsets(void) {
    char what[64];
    sewarqo_text none = {NULL, 0};
    for (size_t at = 0; at < sizeof OFFSETS / sizeof OFFSETS[0]; at++) {
        sewarqo_text text = sewarqo_str(OFFSETS[at].text);
        size_t line = OFFSETS[at].line, column = OFFSETS[at].column;
        snprintf(what, sizeof what, "offset %zu", at);
        see(what, sewarqo_offset(text, line, column, SEWARQO_PLAIN) == OFFSETS[at].in_characters);
        see(what, sewarqo_offset(text, line, column, SEWARQO_ASCII | SEWARQO_BYTE_OFFSETS) == OFFSETS[at].in_bytes);
    }
    see("no text", sewarqo_offset(none, 1, 1, 0) == 0 && sewarqo_offset(none, 2, 1, 0) == SIZE_MAX);
}

/* ---- a report that is drawn */

static const char PICTURE[] =
    "Error: m\n"
    "   ,-[ a:2:1 ]\n"
    "   |\n"
    " 2 | cd\n"
    "   | ^|\n"
    "   |  `-- here\n"
    "---'\n";

static struct {
    sewarqo_source source;
    sewarqo_label label;
    sewarqo_report report;
} call;

static void prepare(void) {
    call.source = (sewarqo_source){.name = sewarqo_some("a"), .text = sewarqo_str("ab\ncd\n")};
    call.label = (sewarqo_label){.message = sewarqo_some("here")};
    call.label.start = sewarqo_offset(call.source.text, 2, 1, 0);
    call.label.end = sewarqo_offset(call.source.text, 2, 3, 0);
    call.report = (sewarqo_report){.message = sewarqo_str("m"), .start = call.label.start, .labels = &call.label,
                                   .labels_len = 1, .flags = SEWARQO_PLAIN | SEWARQO_ASCII};
}

/* Whether a picture is the wanted one, but for blanks at the ends of its rows. */
static int is_wanted(const char *bytes, size_t len) {
    char rows[512];
    size_t kept = 0;
    for (size_t at = 0; at < len && kept < sizeof rows; at++) {
        while (bytes[at] == '\n' && kept > 0 && rows[kept - 1] == ' ')
            kept--;
        rows[kept++] = bytes[at];
    }
    return kept == strlen(PICTURE) && memcmp(rows, PICTURE, kept) == 0;
}

/* ---- sinks */

static struct { int calls, is_right, answer; } sent;

static int take(void *context, const char *bytes, size_t len) {
    sent.calls++;
    sent.is_right = context == &sent && is_wanted(bytes, len);
    return sent.answer;
}

static uint32_t sent_by(int answer, size_t *count) {
    sent.calls = sent.is_right = 0;
    sent.answer = answer;
    return sewarqo_send(&call.report, &call.source, 1, take, &sent, NULL, 0, count);
}

static void sinks(void) {
    size_t count = 7;
    sewarqo_left_out left = {7, 7};
    prepare();
    see("a sink: the status", sent_by(0, &count) == SEWARQO_DRAWN && count == 0);
    see("a sink: its picture", sent.calls == 1 && sent.is_right);
    see("a sink that takes nothing", sent_by(1, &count) == SEWARQO_ERR_NOT_SENT && sent.calls == 1);
    call.label.end = sewarqo_offset(call.source.text, 9, 1, 0);
    see("a line that is not there", sent_by(0, &count) == SEWARQO_LEFT_OUT && count == 1 && sent.calls == 1);
    see("what is left out", sewarqo_send(&call.report, &call.source, 1, take, &sent, &left, 1, &count) == SEWARQO_LEFT_OUT
        && left.label == 0 && left.reason == SEWARQO_PAST_SOURCE);
    call.label.source = 1;
    see("a refusal", sent_by(0, &count) == SEWARQO_ERR_LABEL_SOURCE && count == 0 && sent.calls == 0);
}

static void files(void) {
    char bytes[512];
    size_t count = 7, len;
    FILE *file = tmpfile(), *full = fopen("/dev/full", "w");
    prepare();
    if (file == NULL) {
        fault("a file");
        return;
    }
    see("a file: the status", sewarqo_print(&call.report, &call.source, 1, file, NULL, 0, &count) == SEWARQO_DRAWN);
    rewind(file);
    len = fread(bytes, 1, sizeof bytes, file);
    see("a file: its picture", is_wanted(bytes, len) && count == 0);
    fclose(file);
    if (full != NULL) {
        setvbuf(full, NULL, _IONBF, 0);
        see("a full one", sewarqo_print(&call.report, &call.source, 1, full, NULL, 0, &count) == SEWARQO_ERR_NOT_SENT);
        fclose(full);
    }
}

/* ---- suggestions in memory that grows */

static void suggestions(void) {
    static char put_in[3001];
    sewarqo_edit edit = {4, 4, {NULL, 0}};
    sewarqo_suggestion suggestion = {{{{NULL, 0}, 0}, {NULL, 0}, 8}, NULL, 1, 0, 0, 0};
    sewarqo_picture help = {NULL, 0, 0};
    size_t count = 7;
    suggestion.source.text = sewarqo_str("let a = b;\n");
    suggestion.edits = &edit;
    edit.text = sewarqo_str("mut ");
    see("a help", sewarqo_suggest_grown(&suggestion, "let it change", &help, &count) == SEWARQO_DRAWN && count == 0);
    see("its text", strcmp(help.bytes, "let it change\n9 - let a = b;\n9 + let mut a = b;") == 0);
    see("its length", help.len == strlen(help.bytes));
    see("without a message", sewarqo_suggest_grown(&suggestion, NULL, &help, &count) == SEWARQO_DRAWN
        && strcmp(help.bytes, "9 - let a = b;\n9 + let mut a = b;") == 0);
    memset(put_in, 'x', sizeof put_in - 1);
    edit.text = sewarqo_str(put_in);
    see("a long one", sewarqo_suggest_grown(&suggestion, "m", &help, &count) == SEWARQO_DRAWN
        && help.len == 3031 && strncmp(help.bytes, "m\n9 - let a = b;\n9 + let xxx", 27) == 0);
    suggestion.edits_len = 0;
    see("no change", sewarqo_suggest_grown(&suggestion, "m", &help, &count) == SEWARQO_DRAWN
        && strcmp(help.bytes, "m") == 0 && help.len == 1);
    see("no change and no message", sewarqo_suggest_grown(&suggestion, "", &help, &count) == SEWARQO_DRAWN
        && strcmp(help.bytes, "") == 0 && help.len == 0);
    suggestion.edits_len = 1;
    edit.end = 12;
    see("a refusal", sewarqo_suggest_grown(&suggestion, "m", &help, &count) == SEWARQO_ERR_EDIT_PAST_SOURCE && count == 0
        && help.len == 0 && help.bytes[0] == 0);
    sewarqo_picture_free(&help);
}

/* ---- statuses */

static const struct {
    uint32_t status;
    size_t number;
    const char *text;
} STATUSES[] = {
    {SEWARQO_DRAWN, 0, "the picture has all labels"},
    {SEWARQO_LEFT_OUT, 3, "the picture has not all labels"},
    {SEWARQO_BUFFER_TOO_SMALL, 0, "the picture takes more room"},
    {SEWARQO_ERR_NO_MEMORY, 0, "there was no memory"},
    {SEWARQO_ERR_KIND, 0, "the kind is none"},
    {SEWARQO_ERR_KIND_COLOR, 0, "the colour of the kind is none"},
    {SEWARQO_ERR_KIND_NAME, 0, "the name of the kind is not UTF-8"},
    {SEWARQO_ERR_FLAGS, 0, "the library knows no such flag"},
    {SEWARQO_ERR_ATTACH, 0, "labels have no such place to attach to"},
    {SEWARQO_ERR_CODE, 0, "the code is not UTF-8"},
    {SEWARQO_ERR_MESSAGE, 0, "the message is not UTF-8"},
    {SEWARQO_ERR_LABEL_SOURCE, 0, "label 0: its source was not given"},
    {SEWARQO_ERR_LABEL_BACKWARDS, 12, "label 12: it ends before it starts"},
    {SEWARQO_ERR_LABEL_COLOR, 1, "label 1: its colour is none"},
    {SEWARQO_ERR_LABEL_MESSAGE, 1, "label 1: its message is not UTF-8"},
    {SEWARQO_ERR_HELP, 2, "help 2: it is not UTF-8"},
    {SEWARQO_ERR_NOTE, 2, "note 2: it is not UTF-8"},
    {SEWARQO_ERR_SOURCE_NAME, 4, "source 4: its name is not UTF-8"},
    {SEWARQO_ERR_SOURCE_TEXT, 4, "source 4: its text is not UTF-8"},
    {SEWARQO_ERR_SOURCE_LINES, 4, "source 4: its line_offset and the number of its lines exceed the largest number"},
    {SEWARQO_ERR_EDIT_TEXT, 1, "edit 1: its text is not UTF-8"},
    {SEWARQO_ERR_EDIT_BACKWARDS, 0, "edit 0: it ends before it starts"},
    {SEWARQO_ERR_EDIT_OVERLAPS, 2, "edit 2: it starts before the end of the edit in front of it"},
    {SEWARQO_ERR_EDIT_PAST_SOURCE, 3, "edit 3: it reaches past the source"},
    {SEWARQO_ERR_EDIT_CUTS_CHARACTER, 4, "edit 4: one of its ends is inside a character"},
    {25, 1, "there is no such status"},
    {SEWARQO_ERR_NOT_SENT, 1, "the picture was not taken"},
};

static void statuses(void) {
    char text[128], cut[8];
    volatile size_t room = sizeof cut; /* (else compilers warn that the text is cut) */
    for (size_t at = 0; at < sizeof STATUSES / sizeof STATUSES[0]; at++) {
        uint32_t status = STATUSES[at].status;
        size_t len = sewarqo_explain(status, STATUSES[at].number, text, sizeof text);
        see(STATUSES[at].text, strcmp(text, STATUSES[at].text) == 0 && len == strlen(text));
        see(STATUSES[at].text, status >= 25 || status == at);
    }
    see("no room", sewarqo_explain(SEWARQO_ERR_LABEL_COLOR, 1, NULL, 0) == 27);
    see("little room", sewarqo_explain(SEWARQO_ERR_LABEL_COLOR, 1, cut, room) == 27 && strcmp(cut, "label 1") == 0);
}

int main(int argc, char **argv) {
    versions(argc > 1 ? argv[1] : "none");
    offsets();
    sinks();
    files();
    suggestions();
    statuses();
    printf("%zu looked at, %zu faults\n", looked, faults);
    return faults != 0;
}
