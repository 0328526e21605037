/* Draws an error over two sources. To build it: cc example.c $(pkg-config --cflags --libs sewarqo) */
#include "sewarqo_grow.h"
#include <stdio.h>

int main(void) {
    sewarqo_source sources[] = {
        {sewarqo_some("main.fruit"), sewarqo_str("apple == orange;"), 0},
        {sewarqo_some("lib.fruit"), sewarqo_str("fruit orange;\n"), 41},
    };
    sewarqo_label labels[] = {
        {.source = 0, .start = 0, .end = 5, .message = sewarqo_some("This is an apple"),
         .color = SEWARQO_FIXED(81)},
        {.source = 0, .start = 9, .end = 15, .message = sewarqo_some("This is an orange")},
        {.source = 1, .start = 6, .end = 12, .message = sewarqo_some("declared here")},
        {.source = 1, .start = 99, .end = 100, .message = sewarqo_some("past the source")},
    };
    sewarqo_text helps[] = {sewarqo_str("compare their colours")};
    sewarqo_report report = {
        .kind = SEWARQO_ERROR,
        .code = sewarqo_some("E01"),
        .message = sewarqo_str("can't compare apples with oranges"),
        .labels = labels, .labels_len = 4,
        .helps = helps, .helps_len = 1,
        .flags = SEWARQO_PLAIN | SEWARQO_ASCII,
    };
    sewarqo_picture picture = {0};
    sewarqo_left_out left[4];
    size_t count;
    uint32_t status = sewarqo_draw_grown(&report, sources, 2, &picture, left, 4, &count);
    if (status > SEWARQO_LEFT_OUT) {
        fprintf(stderr, "error %u, at number %zu\n", status, count);
        return 1;
    }
    fwrite(picture.bytes, 1, picture.len, stdout);
    for (size_t i = 0; i < count; i++)
        printf("label %zu is left out: reason %u\n", left[i].label, left[i].reason);
    sewarqo_picture_free(&picture);
    return 0;
}
