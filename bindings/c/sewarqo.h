/* Compiler diagnostics, rendered over their sources by one call, and suggested edits as texts by another.

   A call keeps no state. Any number of threads may call at once, over memory not written by any of them
   meanwhile. Don't call the library from a signal handler. You own all memory passed to a call: the
   library keeps no pointer.

   The only escapes in a picture are the library's own, for a terminal that reads UTF-8: control and
   invisible characters are replaced by visible symbols. SAFE.md lists the characters, and the limits.
   Under SEWARQO_RAW texts are rendered unchanged, and escape characters reach the terminal.

   A pointer may be null if its length is 0. With a length it must point to so many values; `len` and
   `count` must point to one value. The memory written by a call must not overlap its other memory. */
#ifndef SEWARQO_H
#define SEWARQO_H

#include <stddef.h>
#include <stdint.h>
#include <string.h>

/* The version of this header, and of the release that it came with. */
#define SEWARQO_VERSION_MAJOR 0
#define SEWARQO_VERSION_MINOR 6
#define SEWARQO_VERSION_PATCH 0
#define SEWARQO_VERSION "0.6.0"
/* The same as one number, for #if: 600 is 0.6.0. */
#define SEWARQO_VERSION_NUMBER \
    (SEWARQO_VERSION_MAJOR * 10000 + SEWARQO_VERSION_MINOR * 100 + SEWARQO_VERSION_PATCH)

#ifdef __cplusplus
#define SEWARQO_CAST_(type, value) (static_cast<type>(value))
#define SEWARQO_NULL_ nullptr
extern "C" {
#else
#define SEWARQO_CAST_(type, value) ((type)(value))
#define SEWARQO_NULL_ NULL
#endif

/* A text in UTF-8. It has no zero at its end, and may have some within. */
typedef struct {
    const uint8_t *bytes;
    size_t len; /* in bytes */
} sewarqo_text;

/* A text, or none. `text` counts only where `is_given` is not 0, so a struct of zeros is none. */
typedef struct {
    sewarqo_text text;
    uint32_t is_given;
} sewarqo_optional;

/* A source. Sources have numbers, from 0, in the order in which the call is handed them. */
typedef struct {
    sewarqo_optional name; /* shown in front of its lines; none is shown as <unknown> */
    sewarqo_text text;     /* the whole text, or an excerpt: all lines from the first to the last that a
                              label or the report's start is on, and with `context_lines` so many lines
                              more on both sides */
    size_t line_offset;    /* in lines: added to each line's number. An excerpt has the number of lines
                              above it here */
} sewarqo_source;

/* A colour is SEWARQO_NO_COLOR, or one with a name, or one of the palette of 256, or red, green and
   blue of 0 to 255. */
enum {
    SEWARQO_NO_COLOR = 0,
    SEWARQO_PRIMARY = 1, /* the terminal's own */
    SEWARQO_BLACK = 2, SEWARQO_RED = 3, SEWARQO_GREEN = 4, SEWARQO_YELLOW = 5,
    SEWARQO_BLUE = 6, SEWARQO_MAGENTA = 7, SEWARQO_CYAN = 8, SEWARQO_WHITE = 9,
    SEWARQO_BRIGHT_BLACK = 10, SEWARQO_BRIGHT_RED = 11, SEWARQO_BRIGHT_GREEN = 12,
    SEWARQO_BRIGHT_YELLOW = 13, SEWARQO_BRIGHT_BLUE = 14, SEWARQO_BRIGHT_MAGENTA = 15,
    SEWARQO_BRIGHT_CYAN = 16, SEWARQO_BRIGHT_WHITE = 17
};
#define SEWARQO_BYTE_(number) SEWARQO_CAST_(uint32_t, SEWARQO_CAST_(uint8_t, number))
#define SEWARQO_FIXED(number) (256u + SEWARQO_BYTE_(number))
#define SEWARQO_RGB(red, green, blue) \
    (1u << 24 | SEWARQO_BYTE_(red) << 16 | SEWARQO_BYTE_(green) << 8 | SEWARQO_BYTE_(blue))

/* A label: a piece of a source, and what is said of it. */
typedef struct {
    size_t source;            /* the number of its source */
    size_t start, end;        /* offsets into that source's text from 0, the end exclusive: in
                                 characters, or in bytes under SEWARQO_BYTE_OFFSETS. One past the text
                                 counts as its end */
    sewarqo_optional message; /* a label without one is only marked */
    uint32_t color;           /* SEWARQO_NO_COLOR for none of its own */
    int32_t order;            /* labels of lower order are drawn first */
    int32_t priority;         /* where labels overlap, the higher one is seen */
} sewarqo_label;

/* What a report is. */
enum { SEWARQO_ERROR = 0, SEWARQO_WARNING = 1, SEWARQO_ADVICE = 2, SEWARQO_CUSTOM = 3 };

/* Flags, which may be joined by |. */
enum {
    SEWARQO_PLAIN = 1,             /* no colours */
    SEWARQO_ASCII = 2,             /* strokes of ASCII */
    SEWARQO_COMPACT = 4,           /* no rows between */
    SEWARQO_BYTE_OFFSETS = 8,      /* offsets count bytes, not characters */
    SEWARQO_NO_UNDERLINES = 16,
    SEWARQO_NO_MULTILINE_ARROWS = 32,
    SEWARQO_NO_CROSS_GAP = 64,     /* a crossing where strokes cross, and no gap */
    SEWARQO_RAW = 128,             /* texts are drawn as they are, with the escapes that they hold */
    SEWARQO_LONE_UNDERLINES = 256, /* underlines also where no label of a line has a message */
    SEWARQO_ALL_FLAGS = 511        /* all of these */
};

/* Where the stroke of a label within a line is attached. */
enum { SEWARQO_ATTACH_MIDDLE = 0, SEWARQO_ATTACH_START = 1, SEWARQO_ATTACH_END = 2 };

/* A report. One of zeros is an error that says nothing, with the usual settings. */
typedef struct {
    uint32_t kind;           /* SEWARQO_ERROR .. SEWARQO_CUSTOM */
    uint32_t kind_color;     /* of a custom kind: not SEWARQO_NO_COLOR. Others don't read it */
    sewarqo_text kind_name;  /* of a custom kind. Others don't read it */
    sewarqo_optional code;   /* stands in brackets in front of the kind, filled by blanks to two
                                characters */
    sewarqo_text message;
    size_t source, start;    /* the place that the header names: the number of a source, and an offset
                                as those of labels. Where no label is drawn over that source, the
                                header names the place of a label */
    const sewarqo_label *labels;
    size_t labels_len;
    const sewarqo_text *helps;
    size_t helps_len;
    const sewarqo_text *notes;
    size_t notes_len;
    uint32_t flags;          /* SEWARQO_PLAIN .. */
    uint32_t attach;         /* SEWARQO_ATTACH_MIDDLE .. */
    size_t tab_width;        /* in columns; 0 is the usual 4 */
    size_t context_lines;    /* lines that are shown above and below each line with a label */
    size_t width;            /* in columns: of the text of a line, which is cut where it is longer. 0 is any */
} sewarqo_report;

/* A label that is not in the picture. */
typedef struct {
    size_t label;    /* its number in the report, from 0 */
    uint32_t reason; /* SEWARQO_PAST_SOURCE or SEWARQO_CUTS_CHARACTER */
} sewarqo_left_out;

enum {
    SEWARQO_PAST_SOURCE = 1,   /* it begins past its source, or ends more than one past it */
    SEWARQO_CUTS_CHARACTER = 2 /* in bytes: one of its ends is inside a character */
};

/* An edit of a source: what stands in place of a piece of it. */
typedef struct {
    size_t start, end; /* offsets into the source's text from 0, the end exclusive, and equal where something
                          is put in: in characters, or in bytes under SEWARQO_BYTE_OFFSETS */
    sewarqo_text text; /* what is put there */
} sewarqo_edit;

/* Edits of a source that are suggested. Edits have numbers, from 0, and stand in any order; those of one span
   are made in the order of their numbers. */
typedef struct {
    sewarqo_source source; /* its name is not read. Of an excerpt all lines are needed that an edit reaches */
    const sewarqo_edit *edits;
    size_t edits_len;
    uint32_t flags;        /* those of the report: SEWARQO_BYTE_OFFSETS and SEWARQO_ASCII alone change something */
    size_t tab_width;      /* in columns; 0 is the usual 4 */
    size_t width;          /* in columns: of the text of a line, which is cut where it is longer. 0 is any */
} sewarqo_suggestion;

/* What sewarqo_draw and sewarqo_suggest return. */
enum {
    SEWARQO_DRAWN = 0,            /* the picture has all labels */
    SEWARQO_LEFT_OUT = 1,         /* the picture is there, without `*count` of the labels */
    SEWARQO_BUFFER_TOO_SMALL = 2, /* the picture takes `*len` bytes, and `out` has less */
    SEWARQO_ERR_NO_MEMORY = 3,
    /* The first error of the call: of the report's own fields, then label by label, help by help, note by
       note, and source by source. `*count` is the number of the label, the text or the source, and 0 of a
       field. */
    SEWARQO_ERR_KIND = 4,
    SEWARQO_ERR_KIND_COLOR = 5,
    SEWARQO_ERR_KIND_NAME = 6,       /* not UTF-8 */
    SEWARQO_ERR_FLAGS = 7,
    SEWARQO_ERR_ATTACH = 8,
    SEWARQO_ERR_CODE = 9,            /* not UTF-8 */
    SEWARQO_ERR_MESSAGE = 10,        /* not UTF-8 */
    SEWARQO_ERR_LABEL_SOURCE = 11,   /* the label `*count` names a source that was not given */
    SEWARQO_ERR_LABEL_BACKWARDS = 12, /* it ends before it starts */
    SEWARQO_ERR_LABEL_COLOR = 13,    /* its colour is none */
    SEWARQO_ERR_LABEL_MESSAGE = 14,  /* its message is not UTF-8 */
    SEWARQO_ERR_HELP = 15,           /* the help `*count` is not UTF-8 */
    SEWARQO_ERR_NOTE = 16,           /* the note `*count` is not UTF-8 */
    SEWARQO_ERR_SOURCE_NAME = 17,    /* the name of the source `*count` is not UTF-8 */
    SEWARQO_ERR_SOURCE_TEXT = 18,    /* its text is not UTF-8 */
    SEWARQO_ERR_SOURCE_LINES = 19,   /* its line_offset and the number of its lines exceed SIZE_MAX */
    /* Of sewarqo_suggest alone, which returns 0, 2, 3, 7, 18 and 19 too: in this order, whichever edit comes
       first. `*count` is the number of the edit. */
    SEWARQO_ERR_EDIT_TEXT = 20,          /* the text of the edit `*count` is not UTF-8 */
    SEWARQO_ERR_EDIT_BACKWARDS = 21,     /* it ends before it starts */
    SEWARQO_ERR_EDIT_OVERLAPS = 22,      /* it starts before the end of the edit in front of it */
    SEWARQO_ERR_EDIT_PAST_SOURCE = 23,   /* it reaches past the source */
    SEWARQO_ERR_EDIT_CUTS_CHARACTER = 24 /* in bytes: one of its ends is inside a character */
};

/* The version of the library that is linked or loaded, as SEWARQO_VERSION is that of this header. The text is
 * constant. */
const char *sewarqo_version(void);

/* Draws a report over its sources.
 *
 * After SEWARQO_DRAWN and SEWARQO_LEFT_OUT the first `*len` bytes of `out` are the picture, and those
 * behind it are as they were. `left` holds the labels that are left out, in their order, as far as it
 * has room, and `*count` tells how many there are. After any other status `out` and `left` are as they
 * were. `*len` is 0 after all but the first three, and `*count` is 0 after SEWARQO_BUFFER_TOO_SMALL and
 * SEWARQO_ERR_NO_MEMORY. */
uint32_t sewarqo_draw(const sewarqo_report *report, const sewarqo_source *sources, size_t sources_len,
                      uint8_t *out, size_t out_len, size_t *len,
                      sewarqo_left_out *left, size_t left_len, size_t *count);

/* Tells edits of a source as the text of a help: each line that changes as it was (`-`) and as it will be (`+`),
 * behind its number, and `...` for lines between that stay. The text is handed in as a help, as it is or behind a
 * message and a line feed. Edits that change nothing have an empty text.
 *
 *      4 - let first = take(names);
 *      4 + let first = take(&names);
 *
 * Control and invisible characters are replaced by symbols, also under SEWARQO_RAW. If two lines differ only in white
 * space, symbols show the white space. Lines are not cut to a report's `width`.
 *
 * After SEWARQO_DRAWN the first `*len` bytes of `out` are the text, and those behind it are as they were. After
 * SEWARQO_BUFFER_TOO_SMALL it takes `*len` bytes. After any other status `*len` is 0. `*count` is 0 but after those
 * of edits. */
uint32_t sewarqo_suggest(const sewarqo_suggestion *suggestion, uint8_t *out, size_t out_len, size_t *len,
                         size_t *count);

/* The text of a string that ends in a zero; a null pointer is the empty text. */
static inline sewarqo_text sewarqo_str(const char *string) {
    const void *bytes = string ? string : "";
    sewarqo_text text;
    text.bytes = SEWARQO_CAST_(const uint8_t *, bytes);
    text.len = string ? strlen(string) : 0;
    return text;
}

/* The same, where a null pointer is none. */
static inline sewarqo_optional sewarqo_some(const char *string) {
    sewarqo_optional optional;
    optional.text = sewarqo_str(string);
    optional.is_given = string ? 1 : 0;
    return optional;
}

/* Where the line of an offset in bytes ends: at its line feed, or at the end of the text. */
static inline size_t sewarqo_line_end_(sewarqo_text text, size_t at) {
    const void *found = at < text.len ? memchr(text.bytes + at, '\n', text.len - at) : SEWARQO_NULL_;
    return found ? SEWARQO_CAST_(size_t, SEWARQO_CAST_(const uint8_t *, found) - text.bytes) : text.len;
}

/* How many offsets there are from one in bytes to another: bytes or, without SEWARQO_BYTE_OFFSETS, the first
   bytes of characters. */
static inline size_t sewarqo_between_(sewarqo_text text, size_t from, size_t to, uint32_t flags) {
    size_t at, count = 0;
    if (flags & SEWARQO_BYTE_OFFSETS)
        return to - from;
    for (at = from; at < to; at++)
        count += (text.bytes[at] & 0xc0) != 0x80;
    return count;
}

/* The offset of a column of a line, both from 1, for a report with these flags. Columns count what offsets do:
   characters, or bytes under SEWARQO_BYTE_OFFSETS.

   Lines end at line feeds alone, as compilers count them. A column past its line is the line's end, in front
   of its LF or CR LF, and column 0 is column 1. Where the text has no such line it is SIZE_MAX, and a label
   there is left out. The text is read from its beginning. */
static inline size_t sewarqo_offset(sewarqo_text text, size_t line, size_t column, uint32_t flags) {
    size_t begin = 0, end, before, width;
    if (line == 0)
        return SIZE_MAX;
    for (; line > 1; line--) {
        begin = sewarqo_line_end_(text, begin) + 1;
        if (begin > text.len)
            return SIZE_MAX;
    }
    end = sewarqo_line_end_(text, begin);
    if (begin < end && end < text.len && text.bytes[end - 1] == '\r')
        end--;
    before = column > 1 ? column - 1 : 0;
    width = sewarqo_between_(text, begin, end, flags);
    return sewarqo_between_(text, 0, begin, flags) + (before < width ? before : width);
}

/* Of what `*count` is the number after a status: "label", "help", "note", "source" or "edit", and "" after one
   that tells of no such thing. */
static inline const char *sewarqo_status_part(uint32_t status) {
    switch (status) {
    case SEWARQO_ERR_LABEL_SOURCE:
    case SEWARQO_ERR_LABEL_BACKWARDS:
    case SEWARQO_ERR_LABEL_COLOR:
    case SEWARQO_ERR_LABEL_MESSAGE: return "label";
    case SEWARQO_ERR_HELP: return "help";
    case SEWARQO_ERR_NOTE: return "note";
    case SEWARQO_ERR_SOURCE_NAME:
    case SEWARQO_ERR_SOURCE_TEXT:
    case SEWARQO_ERR_SOURCE_LINES: return "source";
    case SEWARQO_ERR_EDIT_TEXT:
    case SEWARQO_ERR_EDIT_BACKWARDS:
    case SEWARQO_ERR_EDIT_OVERLAPS:
    case SEWARQO_ERR_EDIT_PAST_SOURCE:
    case SEWARQO_ERR_EDIT_CUTS_CHARACTER: return "edit";
    default: return "";
    }
}

/* What a status says, of the report or of that part: "it ends before it starts". */
static inline const char *sewarqo_status_text(uint32_t status) {
    switch (status) {
    case SEWARQO_DRAWN: return "the picture has all labels";
    case SEWARQO_LEFT_OUT: return "the picture has not all labels";
    case SEWARQO_BUFFER_TOO_SMALL: return "the picture takes more room";
    case SEWARQO_ERR_NO_MEMORY: return "there was no memory";
    case SEWARQO_ERR_KIND: return "the kind is none";
    case SEWARQO_ERR_KIND_COLOR: return "the colour of the kind is none";
    case SEWARQO_ERR_KIND_NAME: return "the name of the kind is not UTF-8";
    case SEWARQO_ERR_FLAGS: return "the library knows no such flag";
    case SEWARQO_ERR_ATTACH: return "labels have no such place to attach to";
    case SEWARQO_ERR_CODE: return "the code is not UTF-8";
    case SEWARQO_ERR_MESSAGE: return "the message is not UTF-8";
    case SEWARQO_ERR_LABEL_SOURCE: return "its source was not given";
    case SEWARQO_ERR_LABEL_BACKWARDS:
    case SEWARQO_ERR_EDIT_BACKWARDS: return "it ends before it starts";
    case SEWARQO_ERR_LABEL_COLOR: return "its colour is none";
    case SEWARQO_ERR_LABEL_MESSAGE: return "its message is not UTF-8";
    case SEWARQO_ERR_HELP:
    case SEWARQO_ERR_NOTE: return "it is not UTF-8";
    case SEWARQO_ERR_SOURCE_NAME: return "its name is not UTF-8";
    case SEWARQO_ERR_SOURCE_TEXT:
    case SEWARQO_ERR_EDIT_TEXT: return "its text is not UTF-8";
    case SEWARQO_ERR_SOURCE_LINES: return "its line_offset and the number of its lines exceed the largest number";
    case SEWARQO_ERR_EDIT_OVERLAPS: return "it starts before the end of the edit in front of it";
    case SEWARQO_ERR_EDIT_PAST_SOURCE: return "it reaches past the source";
    case SEWARQO_ERR_EDIT_CUTS_CHARACTER: return "one of its ends is inside a character";
    default: return "there is no such status";
    }
}

#ifdef __cplusplus
}
#endif

#endif
