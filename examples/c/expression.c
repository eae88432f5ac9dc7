/* Prints n - --k, which once left the desk as n---k: readers take that for n-- - k. EXPORT keeps the space that is needed. */
#include "glsl_print.h"

#include <stdio.h>

/* Records of 12 bytes in preorder, numbers little-endian: kind, variant, count (2 bytes), a and b (4 bytes each). */
static const uint8_t records[] = {
    8, 15, 0, 0, 0, 0, 0, 0, 0, 0, 0, 0, /* a binary minus of what follows: */
    1, 0,  0, 0, 0, 0, 0, 0, 1, 0, 0, 0, /* the variable whose name stands at 0 and has 1 byte, */
    7, 1,  0, 0, 0, 0, 0, 0, 0, 0, 0, 0, /* and the unary -- of */
    1, 0,  0, 0, 1, 0, 0, 0, 1, 0, 0, 0, /* the variable whose name stands at 1. */
};
static const uint8_t names[] = {'n', 'k'};

static void show(const char *title, const uint8_t *settings, size_t settings_length, size_t room_length)
{
    uint8_t room[64];
    int64_t answer = glsl_print_expr(settings, settings_length, records, sizeof records, names, sizeof names,
                                     room, room_length);
    if (glsl_is_refusal(answer)) {
        printf("%s: refused %d at %zu\n", title, glsl_refusal_number(answer), glsl_refusal_place(answer));
    } else {
        printf("%s: %.*s\n", title, (int)answer, (const char *)room);
    }
}

int main(void)
{
    show("OPEN", GLSL_SETTINGS(GLSL_OPEN), 64);
    show("TIGHT", GLSL_SETTINGS(GLSL_TIGHT), 64);
    show("EXPORT", GLSL_SETTINGS(GLSL_EXPORT), 64);
    printf("joined: %s\n", glsl_joined(records, sizeof records, names, sizeof names) == 1 ? "yes" : "no");
    show("OPEN in 6 bytes", GLSL_SETTINGS(GLSL_OPEN), 6); /* GLSL_ROOM_TOO_SMALL; its place is the length needed */
    return 0;
}
