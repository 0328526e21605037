/* Pictures that are sent to a file or to a function, and statuses in words. */
#ifndef SEWARQO_PRINT_H
#define SEWARQO_PRINT_H

#include "sewarqo_grow.h"
#include <stdio.h>

#ifdef __cplusplus
extern "C" {
#endif

/* What takes a picture: `len` bytes, once a picture. It returns 0 where it took them all. `context` is what the
   call was handed with it. */
typedef int (*sewarqo_sink)(void *context, const char *bytes, size_t len);

/* A status of sewarqo_send and sewarqo_print alone: the sink has not taken the picture. */
enum { SEWARQO_ERR_NOT_SENT = 1 << 16 };

/* Draws as sewarqo_draw does, and sends the picture to a sink, which is called only where there is one. It
   never returns SEWARQO_BUFFER_TOO_SMALL. After SEWARQO_ERR_NOT_SENT `left` and `*count` are as after SEWARQO_LEFT_OUT. */
static inline uint32_t sewarqo_send(const sewarqo_report *report, const sewarqo_source *sources,
                                    size_t sources_len, sewarqo_sink sink, void *context,
                                    sewarqo_left_out *left, size_t left_len, size_t *count) {
    sewarqo_picture picture = {SEWARQO_NULL_, 0, 0};
    uint32_t status = sewarqo_draw_grown(report, sources, sources_len, &picture, left, left_len, count);
    if (status <= SEWARQO_LEFT_OUT && sink(context, picture.bytes, picture.len) != 0)
        status = SEWARQO_ERR_NOT_SENT;
    sewarqo_picture_free(&picture);
    return status;
}

/* The sink that writes to a file. */
static inline int sewarqo_to_file(void *file, const char *bytes, size_t len) {
    return fwrite(bytes, 1, len, SEWARQO_CAST_(FILE *, file)) != len;
}

/* Draws as sewarqo_draw does, and writes the picture to a file. What that keeps in its buffer is not flushed:
   what fails later is told by fflush or fclose. */
static inline uint32_t sewarqo_print(const sewarqo_report *report, const sewarqo_source *sources,
                                     size_t sources_len, FILE *file,
                                     sewarqo_left_out *left, size_t left_len, size_t *count) {
    return sewarqo_send(report, sources, sources_len, sewarqo_to_file, file, left, left_len, count);
}

/* Writes what a status and its `*count` say into `out`, as "label 2: it ends before it starts", with a zero at
   its end, and cut to `room` bytes. Returns how many bytes the whole has without the zero, as snprintf does. */
static inline size_t sewarqo_explain(uint32_t status, size_t number, char *out, size_t room) {
    const char *part = sewarqo_status_part(status);
    const char *text = status == SEWARQO_ERR_NOT_SENT ? "the picture was not taken" : sewarqo_status_text(status);
    int len = *part ? snprintf(out, room, "%s %zu: %s", part, number, text) : snprintf(out, room, "%s", text);
    return len > 0 ? SEWARQO_CAST_(size_t, len) : 0;
}

#ifdef __cplusplus
}
#endif

#endif
