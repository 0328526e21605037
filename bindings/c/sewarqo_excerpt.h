/* A report over excerpts of its sources: of each the lines that the report's picture needs, and no others. A call
   reads each source from its beginning to its end, so it takes less over an excerpt. */
#ifndef SEWARQO_EXCERPT_H
#define SEWARQO_EXCERPT_H

#include "sewarqo.h"

#ifdef __cplusplus
extern "C" {
#endif

/* A place in a text: how many bytes, offsets of labels, and lines are in front of it. */
typedef struct {
    size_t byte, offset, line;
} sewarqo_place_;

/* Whether the end of a line ends with this byte. Lines end as the library has it: at LF, CR, CR LF, VT, FF, NEL, LS
   and PS. */
static inline size_t sewarqo_ends_line_(sewarqo_text text, size_t at) {
    switch (text.bytes[at]) {
    case '\n':
    case '\v':
    case '\f': return 1;
    case '\r': return at + 1 == text.len || text.bytes[at + 1] != '\n' ? 1 : 0;
    case 0x85: return at > 0 && text.bytes[at - 1] == 0xc2 ? 1 : 0;
    case 0xa8:
    case 0xa9: return at > 1 && text.bytes[at - 1] == 0x80 && text.bytes[at - 2] == 0xe2 ? 1 : 0;
    default: return 0;
    }
}

/* Whether an offset of labels begins at this byte. */
static inline size_t sewarqo_begins_offset_(sewarqo_text text, size_t at, uint32_t flags) {
    return flags & SEWARQO_BYTE_OFFSETS || (text.bytes[at] & 0xc0) != 0x80 ? 1 : 0;
}

/* The next place, a byte further. */
static inline sewarqo_place_ sewarqo_stepped_(sewarqo_text text, sewarqo_place_ place, uint32_t flags) {
    place.offset += sewarqo_begins_offset_(text, place.byte, flags);
    place.line += sewarqo_ends_line_(text, place.byte);
    place.byte++;
    return place;
}

/* The bytes of a block, as many as a byte can count, and the most of a character. */
enum { SEWARQO_BLOCK_ = 240, SEWARQO_CHARACTER_ = 4 };

/* Whether the lines that end in a block of bytes end with LF or CR LF, and no other end may begin there. `lines` is
   then how many do, and `inner` how many bytes are within characters. A byte behind the block is read too. (Compilers
   read many bytes at once.) */
static inline int sewarqo_block_(const uint8_t *bytes, size_t *lines, size_t *inner) {
    uint8_t feeds = 0, ends = 0, leads = 0, within = 0, pairs = 0;
    int at;
    for (at = 0; at < SEWARQO_BLOCK_; at++) {
        uint8_t byte = bytes[at];
        feeds = SEWARQO_CAST_(uint8_t, feeds + (byte == '\n'));
        ends = SEWARQO_CAST_(uint8_t, ends + (SEWARQO_CAST_(uint8_t, byte - '\n') < 4)); /* LF, VT, FF, CR */
        leads = SEWARQO_CAST_(uint8_t, leads + ((byte & 0xdf) == 0xc2)); /* of NEL, LS, PS and others */
        within = SEWARQO_CAST_(uint8_t, within + ((byte & 0xc0) == 0x80));
    }
    for (at = 0; ends > feeds && at < SEWARQO_BLOCK_; at++)
        pairs = SEWARQO_CAST_(uint8_t, pairs + ((bytes[at] == '\r') & (bytes[at + 1] == '\n')));
    *lines = feeds;
    *inner = within;
    return leads == 0 && ends == feeds + pairs;
}

/* The place behind a block, one of whose bytes may begin the end of a line: behind a whole character, so that no
   such end is cut. */
static inline sewarqo_place_ sewarqo_behind_block_(sewarqo_text text, sewarqo_place_ place, uint32_t flags) {
    size_t end = place.byte + SEWARQO_BLOCK_;
    while (place.byte < end || (place.byte < text.len && (text.bytes[place.byte] & 0xc0) == 0x80))
        place = sewarqo_stepped_(text, place, flags);
    return place;
}

/* How many blocks from a place on end in front of an offset and of the text's end, each by a character or more. */
static inline size_t sewarqo_blocks_(sewarqo_text text, sewarqo_place_ place, size_t offset) {
    size_t bytes = text.len - place.byte, offsets = offset > place.offset ? offset - place.offset : 0;
    size_t least = bytes < offsets ? bytes : offsets;
    return least > SEWARQO_CHARACTER_ ? (least - SEWARQO_CHARACTER_) / SEWARQO_BLOCK_ : 0;
}

/* The place of an offset, from one in front of it; the end of the text where it is past that. */
static inline sewarqo_place_ sewarqo_place_of_(sewarqo_text text, sewarqo_place_ place, size_t offset,
                                               uint32_t flags) {
    size_t blocks, lines, inner;
    while ((blocks = sewarqo_blocks_(text, place, offset)) > 0) {
        for (; blocks > 0 && sewarqo_block_(text.bytes + place.byte, &lines, &inner); blocks--) {
            place.byte += SEWARQO_BLOCK_;
            place.offset += SEWARQO_BLOCK_ - (flags & SEWARQO_BYTE_OFFSETS ? 0 : inner);
            place.line += lines;
        }
        if (blocks > 0)
            place = sewarqo_behind_block_(text, place, flags);
    }
    while (place.byte < text.len &&
           (place.offset < offset || !sewarqo_begins_offset_(text, place.byte, flags)))
        place = sewarqo_stepped_(text, place, flags);
    return place;
}

/* The place a byte in front of a place, on the same line or at the end of the one above. */
static inline sewarqo_place_ sewarqo_stepped_back_(sewarqo_text text, sewarqo_place_ place, uint32_t flags) {
    place.byte--;
    place.offset -= sewarqo_begins_offset_(text, place.byte, flags);
    place.line -= sewarqo_ends_line_(text, place.byte);
    return place;
}

/* The begin of the line of a place, and so many lines above it. */
static inline sewarqo_place_ sewarqo_first_line_(sewarqo_text text, sewarqo_place_ place, size_t above,
                                                 uint32_t flags) {
    /* (The end of a text may be that of its last line.) */
    if (place.byte == text.len && above < SIZE_MAX)
        above++;
    for (;;) {
        while (place.byte > 0 && !sewarqo_ends_line_(text, place.byte - 1))
            place = sewarqo_stepped_back_(text, place, flags);
        if (above == 0 || place.byte == 0)
            return place;
        above--;
        place = sewarqo_stepped_back_(text, place, flags);
    }
}

/* Where the line of a byte ends, and so many lines below it: behind the bytes that end it. */
static inline size_t sewarqo_last_line_(sewarqo_text text, size_t byte, size_t below) {
    for (;;) {
        while (byte < text.len && !sewarqo_ends_line_(text, byte))
            byte++;
        if (byte == text.len)
            return byte;
        byte++;
        if (below == 0)
            return byte;
        below--;
    }
}

/* Cuts a source to the lines of offsets from `first` to `last`, and so many above and below them. Returns how many
   offsets are in front of them. */
static inline size_t sewarqo_cut_(sewarqo_source *source, size_t first, size_t last, size_t near_lines,
                                  uint32_t flags) {
    sewarqo_place_ start = {0, 0, 0}, begin;
    size_t end;
    start = sewarqo_place_of_(source->text, start, first, flags);
    begin = sewarqo_first_line_(source->text, start, near_lines, flags);
    end = sewarqo_last_line_(source->text, sewarqo_place_of_(source->text, start, last, flags).byte, near_lines);
    source->text.bytes += begin.byte;
    source->text.len = end - begin.byte;
    source->line_offset += begin.line;
    return begin.offset;
}

/* Cuts sources to what a report needs of them: all lines, whole, from the first to the last that one of its labels
 * or its own start is on, and with `context_lines` so many more on both sides. A source that the report doesn't name
 * gets no text. Returns the report over these excerpts, whose labels are in `labels`, which has room for
 * `report->labels_len`, and may be the report's own. Offsets count from the beginnings of the excerpts, so that the picture is that of the report
 * over the whole sources:
 *
 *     sewarqo_source excerpt = source;
 *     sewarqo_label moved[1];
 *     sewarqo_report small = sewarqo_excerpt(&report, &excerpt, 1, moved);
 *     status = sewarqo_draw(&small, &excerpt, 1, out, out_len, &len, left, left_len, &count);
 *
 * The numbers of labels and sources stay. What is outside the excerpts isn't looked at: neither whether it is UTF-8,
 * nor whether the numbers of its lines exceed SIZE_MAX. The texts are the sources' own memory. */
static inline sewarqo_report sewarqo_excerpt(const sewarqo_report *report, sewarqo_source *sources,
                                             size_t sources_len, sewarqo_label *labels) {
    sewarqo_report moved = *report;
    size_t number, at, first, last, front;
    moved.labels = labels;
    for (at = 0; at < report->labels_len; at++)
        labels[at] = report->labels[at];
    for (number = 0; number < sources_len; number++) {
        first = report->source == number ? report->start : SIZE_MAX;
        last = report->source == number ? report->start : 0;
        for (at = 0; at < report->labels_len; at++) {
            if (labels[at].source == number) {
                size_t start = labels[at].start, behind = labels[at].end > start ? labels[at].end - 1 : start;
                first = start < first ? start : first;
                last = behind > last ? behind : last;
            }
        }
        if (last < first) {
            sources[number].text.len = 0;
            continue;
        }
        front = sewarqo_cut_(&sources[number], first, last, report->context_lines, report->flags);
        if (report->source == number)
            moved.start -= front;
        for (at = 0; at < report->labels_len; at++) {
            if (labels[at].source == number) {
                labels[at].start -= front;
                labels[at].end -= front;
            }
        }
    }
    return moved;
}

#ifdef __cplusplus
}
#endif

#endif
