/* Draws the stored cases "the report that each language draws" (plain) and "..., in colors" (colors):
   draw plain|colors */
#include "sewarqo_grow.h"
#include <stdio.h>

static const char TEXT[] = "def five = match () in {\n\t() => 5,\n\t() => \"5\",\n}\n\ndef six =\n    five\n    + 1\n";

int main(int argc, char **argv) {
    int is_plain = argc == 2 && strcmp(argv[1], "plain") == 0;
    sewarqo_source sources[] = {
        {.name = sewarqo_some("sample.tao"), .text = sewarqo_str(TEXT)},
        {.name = sewarqo_some("lib.tao"), .text = sewarqo_str("def seven : Nat = five\n"), .line_offset = 40},
    };
    sewarqo_label labels[] = {
        {.start = 32, .end = 33, .message = sewarqo_some("This is of type Nat"), .color = SEWARQO_FIXED(201)},
        {.start = 42, .end = 45, .message = sewarqo_some("This is of type Str"), .color = SEWARQO_FIXED(155)},
        {.start = 11, .end = 48, .message = sewarqo_some("The values are outputs of this match expression"),
         .color = SEWARQO_FIXED(81)},
        {.source = 1, .start = 12, .end = 15, .message = sewarqo_some("Nat is asked for here")},
    };
    sewarqo_text notes[] = {sewarqo_str("Outputs of match expressions must coerce to the same type")};
    sewarqo_report report = {
        .kind = SEWARQO_ERROR, .code = sewarqo_some("03"), .message = sewarqo_str("Incompatible types"),
        .start = 32, .labels = labels, .labels_len = 4, .notes = notes, .notes_len = 1,
        .flags = is_plain ? SEWARQO_PLAIN | SEWARQO_ASCII : 0,
    };
    sewarqo_picture picture = {0};
    size_t count;
    uint32_t status = sewarqo_draw_grown(&report, sources, 2, &picture, NULL, 0, &count);
    fwrite(picture.bytes, 1, picture.len, stdout);
    sewarqo_picture_free(&picture);
    return (int)status;
}
