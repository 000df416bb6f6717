/* The picture for a service report: an atlas as SVG on standard output, for a browser. Before it is written the used areas in it are added up, and
 * must be the occupied figure; a buffer a byte too short must be refused and stay as it is. The status is 0 where all of that holds. picture.out is
 * what it writes.
 *
 *     cc -std=c99 -Iinclude examples/c/picture.c -Ltarget/archive/$(uname -m) -ltreadwharf -o picture
 *     ./picture >atlas.svg */
#include <stdio.h>
#include "treadwharf.h"

static struct treadwharf_atlas atlas;
static uint8_t text[TREADWHARF_PICTURE_MOST]; /* room for any atlas */
static size_t length;

/* the id, which is 0 for no label of these; 0 where it is refused */
static uint32_t place(int32_t width, int32_t height) {
    struct treadwharf_allocation got;
    return treadwharf_atlas_allocate(&atlas, width, height, &got) == TREADWHARF_OK ? got.id : 0;
}

/* three columns of 60: labels in each, a filler below two of them, and a row of no height, since it was merged into the one before it */
static int filled(void) {
    struct treadwharf_options options = {1, 1, 3, 0};
    if (treadwharf_atlas_new(&atlas, 180, 70, options) != TREADWHARF_OK) return 1;
    uint32_t rows[] = {place(60, 16), place(40, 16), place(50, 30), place(20, 64), place(35, 50), place(45, 64), place(8, 5)};
    for (size_t i = 0; i < sizeof rows / sizeof *rows; i++)
        if (rows[i] == 0) return 1;
    return treadwharf_atlas_deallocate(&atlas, rows[0]) || treadwharf_atlas_deallocate(&atlas, rows[1]) || place(55, 24) == 0;
}

static uint32_t number(size_t at) {
    uint32_t value = 0;
    while (text[at] >= '0' && text[at] <= '9') value = 10 * value + (uint32_t)(text[at++] - '0');
    return value;
}

/* a line's numbers are x, y, width and height, and then comes its colour: #4646b4 for what is used */
static uint32_t used_area(void) {
    uint32_t area = 0, width = 0, height = 0;
    for (size_t i = 0; i + 2 < length; i++) {
        if (text[i] == '=' && text[i + 2] >= '0' && text[i + 2] <= '9') {
            width = height;
            height = number(i + 2);
        }
        if (text[i] == '#' && text[i + 1] == '4') area += width * height;
    }
    return area;
}

/* a byte too short: no byte of the buffer is another after it */
static bool refused(void) {
    size_t untouched = 7;
    for (size_t i = 0; i < length; i++) text[i] = 9;
    if (treadwharf_atlas_picture(&atlas, text, length - 1, &untouched) != TREADWHARF_OUTPUT || untouched != 7) return false;
    for (size_t i = 0; i < length; i++)
        if (text[i] != 9) return false;
    return true;
}

int main(void) {
    uint32_t occupied;
    if (filled() || treadwharf_atlas_picture(&atlas, text, sizeof text, &length) || !refused()) return 1;
    if (treadwharf_atlas_picture(&atlas, text, length, &length) || treadwharf_atlas_allocated_space(&atlas, &occupied)) return 1;
    if (used_area() != occupied) return 1;
    printf("%.*s", (int)length, (const char *)text);
    return 0;
}
