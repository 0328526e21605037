/* A picture, or the text of a help, in memory that grows as far as it takes: sewarqo_draw and sewarqo_suggest over
   malloc's heap. */
#ifndef SEWARQO_GROW_H
#define SEWARQO_GROW_H

#include "sewarqo.h"
#include <stdlib.h>

#ifdef __cplusplus
extern "C" {
#endif

/* A picture. One of zeros is empty, and may be drawn into as often as one likes. */
typedef struct {
    char *bytes; /* `len` bytes, and a zero behind them; null where nothing was drawn */
    size_t len;  /* in bytes */
    size_t room; /* in bytes, with the zero's */
} sewarqo_picture;

/* Draws as sewarqo_draw does, in room that grows. It never returns SEWARQO_BUFFER_TOO_SMALL. After a refusal
   `picture` is empty, and keeps its room. */
static inline uint32_t sewarqo_draw_grown(const sewarqo_report *report, const sewarqo_source *sources,
                                          size_t sources_len, sewarqo_picture *picture,
                                          sewarqo_left_out *left, size_t left_len, size_t *count) {
    size_t needed = 4095; /* enough for most pictures */
    uint32_t status;
    void *room;
    do {
        if (picture->room <= needed) {
            char *bytes = SEWARQO_CAST_(char *, realloc(picture->bytes, needed + 1));
            if (bytes == SEWARQO_NULL_) {
                picture->len = 0;
                *count = 0;
                if (picture->room > 0)
                    picture->bytes[0] = 0;
                return SEWARQO_ERR_NO_MEMORY;
            }
            picture->bytes = bytes;
            picture->room = needed + 1;
        }
        room = picture->bytes;
        status = sewarqo_draw(report, sources, sources_len, SEWARQO_CAST_(uint8_t *, room), picture->room - 1,
                              &picture->len, left, left_len, count);
        needed = picture->len;
    } while (status == SEWARQO_BUFFER_TOO_SMALL);
    if (status > SEWARQO_LEFT_OUT)
        picture->len = 0;
    picture->bytes[picture->len] = 0;
    return status;
}

/* Puts a message, a line feed and what sewarqo_suggest tells into room that grows, as the text of a help: without
   the line feed where there is no message, or where the edits change nothing. It never returns SEWARQO_BUFFER_TOO_SMALL.
   After a refusal `help` is empty, and keeps its room. */
static inline uint32_t sewarqo_suggest_grown(const sewarqo_suggestion *suggestion, const char *message,
                                             sewarqo_picture *help, size_t *count) {
    size_t front = message ? strlen(message) : 0, needed = 1023, len = 0; /* enough for most texts */
    uint32_t status;
    void *room;
    front += front > 0;
    do {
        if (help->room <= front + needed) {
            char *bytes = SEWARQO_CAST_(char *, realloc(help->bytes, front + needed + 1));
            if (bytes == SEWARQO_NULL_) {
                help->len = 0;
                *count = 0;
                if (help->room > 0)
                    help->bytes[0] = 0;
                return SEWARQO_ERR_NO_MEMORY;
            }
            help->bytes = bytes;
            help->room = front + needed + 1;
        }
        room = help->bytes + front;
        status = sewarqo_suggest(suggestion, SEWARQO_CAST_(uint8_t *, room), help->room - 1 - front, &len, count);
        needed = len;
    } while (status == SEWARQO_BUFFER_TOO_SMALL);
    help->len = status != SEWARQO_DRAWN ? 0 : len > 0 ? front + len : front - (front > 0);
    if (help->len > 0 && front > 0) {
        memcpy(help->bytes, message, front - 1);
        help->bytes[front - 1] = '\n';
    }
    help->bytes[help->len] = 0;
    return status;
}

/* Frees the picture's memory, and leaves it empty. */
static inline void sewarqo_picture_free(sewarqo_picture *picture) {
    free(picture->bytes);
    picture->bytes = SEWARQO_NULL_;
    picture->len = 0;
    picture->room = 0;
}

#ifdef __cplusplus
}
#endif

#endif
