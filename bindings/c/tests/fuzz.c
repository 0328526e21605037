/* Feeds sewarqo_draw and sewarqo_suggest structs of random values, and looks at what they leave. For libFuzzer it has
   LLVMFuzzerTestOneInput; with RANDOM_DRIVER defined it is a program, fuzz SECONDS, that draws the bytes
   itself. A fault stops it: by a sanitizer, or by abort(). */
#include "sewarqo.h"
#include <stdbool.h>
#include <stdio.h>
#include <stdlib.h>
#include <time.h>

enum { ROOM = 20000, LABELS = 40, TEXTS = 4, SOURCES = 4, LEFT = 8, EDITS = 4 };

/* The bytes that decide, read from the front. Behind the last one come zeros. */
static const uint8_t *bytes;
static size_t bytes_len;

/* How often each status came. */
static size_t seen[SEWARQO_ERR_EDIT_CUTS_CHARACTER + 1];

static uint8_t byte(void) {
    if (bytes_len == 0)
        return 0;
    bytes_len--;
    return *bytes++;
}

/* A number: mostly a small one, sometimes one near the greatest. */
static size_t number(size_t most) {
    uint8_t which = byte();
    if (which < 224)
        return which > most ? which % (most + 1) : which;
    if (which < 240)
        return SIZE_MAX - byte() % 3;
    size_t value = 0;
    for (size_t at = 0; at < sizeof value; at++)
        value = value << 8 | byte();
    return value;
}

/* A text: the bytes that come next, or none of them, and then maybe a null pointer. */
static sewarqo_text text(size_t most) {
    size_t len = byte() % (most + 1);
    if (len > bytes_len)
        len = bytes_len;
    sewarqo_text text = {bytes, len};
    bytes += len;
    bytes_len -= len;
    if (len == 0 && byte() % 2)
        text.bytes = NULL;
    return text;
}

static sewarqo_optional optional(size_t most) {
    sewarqo_optional optional = {text(most), byte() % 3};
    return optional;
}

/* Whether something rare is to happen: once in so many times. */
static bool is_rare(uint8_t times) { return byte() % times == 1; }

/* A colour, and rarely a number that may be none. */
static uint32_t color(void) {
    if (is_rare(100))
        return (uint32_t)number(SIZE_MAX);
    uint32_t kind = byte() % 3;
    return kind == 0 ? 1 + byte() % 17u : kind == 1 ? 256u + byte() : 1u << 24 | (uint32_t)byte() << 16 | byte();
}

static void require(bool is_so, const char *what) {
    if (!is_so) {
        fprintf(stderr, "fault: %s\n", what);
        abort();
    }
}

static void try_once(void) {
    static uint8_t out[ROOM];
    sewarqo_source sources[SOURCES];
    sewarqo_label labels[LABELS];
    sewarqo_text helps[TEXTS], notes[TEXTS];
    sewarqo_left_out left[LEFT];
    size_t sources_len = byte() % (SOURCES + 1);
    for (size_t at = 0; at < SOURCES; at++)
        sources[at] = (sewarqo_source){optional(9), text(60), is_rare(30) ? SIZE_MAX - byte() % 40 : number(99)};
    size_t labels_len = byte() % (LABELS + 1);
    for (size_t at = 0; at < LABELS; at++) {
        size_t source = is_rare(200) ? number(9) : byte() % (sources_len + !sources_len);
        size_t start = number(60), more = number(20);
        size_t end = is_rare(200) ? more : more <= SIZE_MAX - start ? start + more : start;
        labels[at] = (sewarqo_label){source, start, end, optional(9), byte() % 2 ? color() : 0,
                                     (int32_t)byte() - 128, (int32_t)number(SIZE_MAX)};
    }
    for (size_t at = 0; at < TEXTS; at++) {
        helps[at] = text(9);
        notes[at] = text(9);
    }
    sewarqo_report report = {
        is_rare(30) ? (uint32_t)number(SIZE_MAX) : byte() % 4u, color(), text(9), optional(9), text(9), number(4),
        number(60), labels, labels_len, helps, byte() % (TEXTS + 1), notes, byte() % (TEXTS + 1),
        is_rare(30) ? (uint32_t)number(SIZE_MAX) : (uint32_t)byte(), is_rare(30) ? (uint32_t)number(9) : byte() % 3u,
        number(9), number(9), number(60)};
    size_t room = byte() % 4 ? ROOM : number(2000) % ROOM, len = 1, count = 1, left_room = byte() % (LEFT + 1);
    memset(out, '#', ROOM);
    memset(left, 0x5a, sizeof left);
    /* (A wide tab makes a picture of as many blanks.) */
    if (report.tab_width > 100)
        report.tab_width = 100;
    uint32_t status = sewarqo_draw(&report, sources, sources_len, out, room, &len, left, left_room, &count);
    require(status <= SEWARQO_ERR_SOURCE_LINES, "a status");
    seen[status]++;
    bool is_drawn = status <= SEWARQO_LEFT_OUT;
    require(!is_drawn || len <= room, "a picture in its room");
    require(status != SEWARQO_BUFFER_TOO_SMALL || len > room, "a picture that takes more");
    for (size_t at = is_drawn ? len : 0; at < ROOM; at++)
        require(out[at] == '#', "the rest of the buffer");
    size_t told = is_drawn ? count < left_room ? count : left_room : 0;
    for (size_t at = 0; at < told; at++)
        require(left[at].label < labels_len && (left[at].reason == 1 || left[at].reason == 2), "a label left out");
    for (size_t at = told * sizeof left[0]; at < sizeof left; at++)
        require(((const uint8_t *)left)[at] == 0x5a, "the rest of the list");
}

static void try_suggestion(void) {
    static uint8_t out[ROOM];
    sewarqo_edit edits[EDITS];
    size_t edits_len = byte() % (EDITS + 1);
    sewarqo_suggestion suggestion = {{optional(9), text(60), number(99)}, edits, edits_len, byte() % 2 ? 0 : 8, number(9), number(9)};
    for (size_t at = 0; at < EDITS; at++) {
        size_t start = number(60), more = number(9);
        size_t end = is_rare(30) ? more : more <= SIZE_MAX - start ? start + more : start;
        edits[at] = (sewarqo_edit){start, end, text(9)};
    }
    if (is_rare(30))
        suggestion.flags = (uint32_t)number(SIZE_MAX);
    if (suggestion.tab_width > 100)
        suggestion.tab_width = 100;
    size_t room = byte() % 4 ? ROOM : number(100), len = 1, count = 1;
    if (room > ROOM)
        room = ROOM;
    memset(out, '#', ROOM);
    uint32_t status = sewarqo_suggest(&suggestion, out, room, &len, &count);
    bool is_told = status == SEWARQO_DRAWN, is_of_edit = status >= SEWARQO_ERR_EDIT_TEXT;
    require(is_told || status == SEWARQO_BUFFER_TOO_SMALL || status == SEWARQO_ERR_NO_MEMORY
            || status == SEWARQO_ERR_FLAGS || status == SEWARQO_ERR_SOURCE_TEXT || status == SEWARQO_ERR_SOURCE_LINES
            || (is_of_edit && status <= SEWARQO_ERR_EDIT_CUTS_CHARACTER), "a status");
    seen[status]++;
    require(!is_told || len <= room, "a text in its room");
    require(status != SEWARQO_BUFFER_TOO_SMALL || len > room, "a text that takes more");
    require(is_of_edit ? count < edits_len : count == 0, "the number of an edit");
    for (size_t at = is_told ? len : 0; at < ROOM; at++)
        require(out[at] == '#', "the rest of the buffer");
}

int LLVMFuzzerTestOneInput(const uint8_t *data, size_t size) {
    bytes = data;
    bytes_len = size;
    if (byte() % 4 == 0)
        try_suggestion();
    else
        try_once();
    return 0;
}

#ifdef RANDOM_DRIVER
/* Bytes of which two of three are letters, blanks and line ends, so that most texts are UTF-8. */
int main(int argc, char **argv) {
    static const char LIKELY[] = "abc \n\t xyz\r\n";
    static uint8_t data[4096];
    uint64_t state = 1;
    size_t tries = 0;
    for (time_t end = time(NULL) + (argc > 1 ? atoi(argv[1]) : 60); time(NULL) < end; tries++) {
        bool is_text = tries % 4 != 0;
        for (size_t at = 0; at < sizeof data; at++) {
            state = state * 6364136223846793005u + 1442695040888963407u;
            uint32_t chance = (uint32_t)(state >> 33);
            uint8_t any = (uint8_t)(chance >> 8) & (is_text ? 0x7f : 0xff);
            data[at] = is_text && chance % 8 ? (uint8_t)LIKELY[chance / 8 % (sizeof LIKELY - 1)] : any;
        }
        LLVMFuzzerTestOneInput(data, sizeof data);
    }
    for (uint32_t status = 0; status <= SEWARQO_ERR_EDIT_CUTS_CHARACTER; status++)
        printf("status %u: %zu\n", status, seen[status]);
    printf("%zu tries, 0 faults\n", tries);
    return 0;
}
#endif
