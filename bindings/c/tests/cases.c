/* Draws cases over whole sources and over excerpts, and compares both with the picture of the case, and with one
   another: the status and the labels that are left out. Each line of standard input is a case, in the words that
   bindings/rust/examples/cases.rs reads. A case without a picture is drawn alike by both, unless the whole is refused
   for the numbers of its lines. The last line is 'N cases, M differ', and the status 1 where M > 0. */
#include "sewarqo_excerpt.h"
#include "sewarqo_grow.h"
#include <stdio.h>

enum { MOST = 64 }; /* sources, labels, helps and notes of a case, each */

typedef struct {
    char *next; /* behind the last word */
} words;

static void broken(const char *what) {
    printf("fault: a case has no %s\n", what);
    exit(1);
}

static char *word(words *line) {
    char *start = line->next + strspn(line->next, " \n");
    size_t len = strcspn(start, " \n");
    if (len == 0)
        return NULL;
    line->next = start + len + (start[len] != 0);
    start[len] = 0;
    return start;
}

static long long number(words *line) {
    const char *text = word(line);
    if (text == NULL)
        broken("number");
    return strtoll(text, NULL, 10);
}

static size_t size(words *line) {
    const char *text = word(line);
    if (text == NULL)
        broken("number");
    return (size_t)strtoull(text, NULL, 10);
}

/* A text in hexadecimal behind an `x`, which is read over its digits, or none. */
static sewarqo_optional optional(words *line) {
    sewarqo_optional found = {{NULL, 0}, 0};
    char *digits = word(line);
    size_t at;
    uint8_t *bytes;
    if (digits == NULL)
        broken("text");
    if (digits[0] != 'x')
        return found;
    bytes = (uint8_t *)digits;
    for (at = 0; digits[1 + 2 * at] != 0; at++) {
        char pair[3] = {digits[1 + 2 * at], digits[2 + 2 * at], 0};
        bytes[at] = (uint8_t)strtoul(pair, NULL, 16);
    }
    found.text.bytes = bytes;
    found.text.len = at;
    found.is_given = 1;
    return found;
}

static int is(sewarqo_text text, const char *wanted) {
    return text.len == strlen(wanted) && memcmp(text.bytes, wanted, text.len) == 0;
}

static int are_same(sewarqo_text one, sewarqo_text other) {
    return one.len == other.len && (one.len == 0 || memcmp(one.bytes, other.bytes, one.len) == 0);
}

typedef struct {
    sewarqo_report report;
    sewarqo_source sources[MOST];
    sewarqo_text ids[MOST];
    size_t sources_len;
    sewarqo_label labels[MOST];
    sewarqo_text helps[MOST], notes[MOST];
    sewarqo_edit edits[MOST];
    size_t edits_len;
    sewarqo_picture suggested;
    sewarqo_text wanted;
} a_case;

/* The number of the last source of an id, or how many there are where none has it. */
static size_t source_of(const a_case *it, sewarqo_text id) {
    size_t at = it->sources_len;
    while (at > 0 && !are_same(it->ids[at - 1], id))
        at--;
    return at > 0 ? at - 1 : it->sources_len;
}

static void read_source(a_case *it, words *line) {
    sewarqo_optional id = optional(line);
    sewarqo_source *source = &it->sources[it->sources_len];
    it->ids[it->sources_len++] = id.text;
    source->name = id;
    source->name.is_given = (uint32_t)number(line);
    source->text = optional(line).text;
    source->line_offset = size(line);
}

static void read_label(a_case *it, words *line, sewarqo_text id) {
    sewarqo_label *label = &it->labels[it->report.labels_len++];
    label->source = source_of(it, id);
    label->start = size(line);
    label->end = size(line);
    label->message = optional(line);
    label->color = (uint32_t)number(line);
    label->order = (int32_t)number(line);
    label->priority = (int32_t)number(line);
}

static void read_edit(a_case *it, words *line) {
    sewarqo_edit *edit = &it->edits[it->edits_len++];
    edit->start = size(line);
    edit->end = size(line);
    edit->text = optional(line).text;
}

/* Adds a help that shows the edits of the case, if it has some. */
static void suggest(a_case *it) {
    sewarqo_suggestion asked = {{{{NULL, 0}, 0}, {NULL, 0}, 0}, NULL, 0, 0, 0, 0};
    void *bytes;
    size_t count;
    if (it->edits_len == 0)
        return;
    asked.source = it->sources[0];
    asked.edits = it->edits;
    asked.edits_len = it->edits_len;
    asked.flags = it->report.flags;
    asked.tab_width = it->report.tab_width;
    asked.width = it->report.width;
    if (sewarqo_suggest_grown(&asked, NULL, &it->suggested, &count) != SEWARQO_DRAWN)
        broken("suggestion");
    bytes = it->suggested.bytes;
    it->helps[it->report.helps_len].bytes = bytes;
    it->helps[it->report.helps_len++].len = it->suggested.len;
}

/* Reads a case; the words of its sources stand in front of those of its labels. */
static void read_case(a_case *it, words *line) {
    sewarqo_picture suggested = it->suggested;
    sewarqo_text kind, own;
    const char *what;
    memset(it, 0, sizeof *it);
    it->suggested = suggested;
    optional(line); /* its name */
    kind = optional(line).text;
    it->report.kind = is(kind, "Error") ? SEWARQO_ERROR : is(kind, "Warning") ? SEWARQO_WARNING
        : is(kind, "Advice") ? SEWARQO_ADVICE : SEWARQO_CUSTOM;
    it->report.kind_color = (uint32_t)number(line);
    it->report.kind_name = kind;
    if (it->report.kind == SEWARQO_CUSTOM && it->report.kind_color == SEWARQO_NO_COLOR)
        it->report.kind_color = SEWARQO_PRIMARY;
    it->report.code = optional(line);
    it->report.message = optional(line).text;
    own = optional(line).text;
    it->report.start = size(line);
    it->report.flags = (uint32_t)number(line);
    it->report.attach = (uint32_t)number(line);
    it->report.tab_width = size(line);
    it->report.context_lines = size(line);
    it->report.width = size(line);
    it->wanted = optional(line).text;
    while ((what = word(line)) != NULL) {
        if (strcmp(what, "source") == 0 && it->sources_len < MOST)
            read_source(it, line);
        else if (strcmp(what, "label") == 0 && it->report.labels_len < MOST)
            read_label(it, line, optional(line).text);
        else if (strcmp(what, "help") == 0 && it->report.helps_len < MOST)
            it->helps[it->report.helps_len++] = optional(line).text;
        else if (strcmp(what, "note") == 0 && it->report.notes_len < MOST)
            it->notes[it->report.notes_len++] = optional(line).text;
        else if (strcmp(what, "edit") == 0 && it->edits_len < MOST)
            read_edit(it, line);
        else
            broken(what);
    }
    suggest(it);
    it->report.source = source_of(it, own);
    it->report.labels = it->labels;
    it->report.helps = it->helps;
    it->report.notes = it->notes;
}

typedef struct {
    uint32_t status;
    size_t count;
    sewarqo_left_out left[MOST];
    sewarqo_picture picture;
} drawn;

static void draw(drawn *it, const sewarqo_report *report, const sewarqo_source *sources, size_t sources_len) {
    it->status = sewarqo_draw_grown(report, sources, sources_len, &it->picture, it->left, MOST, &it->count);
}

static int are_alike(const drawn *one, const drawn *other) {
    size_t at;
    if (one->status == SEWARQO_ERR_SOURCE_LINES)
        return 1;
    if (one->status != other->status || one->count != other->count || one->picture.len != other->picture.len ||
        memcmp(one->picture.bytes, other->picture.bytes, one->picture.len) != 0)
        return 0;
    for (at = 0; one->status == SEWARQO_LEFT_OUT && at < one->count; at++)
        if (one->left[at].label != other->left[at].label || one->left[at].reason != other->left[at].reason)
            return 0;
    return 1;
}

/* Whether a picture is that of a case, if it has one. */
static int is_wanted(const a_case *it, const drawn *made) {
    return it->wanted.len == 0 || (it->wanted.len == made->picture.len &&
                                   memcmp(it->wanted.bytes, made->picture.bytes, it->wanted.len) == 0);
}

int main(void) {
    static a_case it;
    static drawn whole, cut;
    static sewarqo_source excerpts[MOST];
    static sewarqo_label moved[MOST];
    static char line[1 << 20];
    size_t cases = 0, differ = 0;
    while (fgets(line, sizeof line, stdin) != NULL) {
        words rest = {line};
        sewarqo_report small;
        read_case(&it, &rest);
        draw(&whole, &it.report, it.sources, it.sources_len);
        memcpy(excerpts, it.sources, sizeof excerpts);
        small = sewarqo_excerpt(&it.report, excerpts, it.sources_len, moved);
        draw(&cut, &small, excerpts, it.sources_len);
        cases++;
        if (!are_alike(&whole, &cut) || !is_wanted(&it, &whole)) {
            differ++;
            printf("fault: case %zu differs: status %u and %u\n%s%s", cases, (unsigned)whole.status,
                   (unsigned)cut.status, whole.picture.bytes, cut.picture.bytes);
        }
    }
    sewarqo_picture_free(&it.suggested);
    sewarqo_picture_free(&whole.picture);
    sewarqo_picture_free(&cut.picture);
    printf("%zu cases, %zu differ\n", cases, differ);
    return differ > 0;
}
