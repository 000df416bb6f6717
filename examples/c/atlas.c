/* An atlas in one struct: document 01's worked case, a return that comes too late, a damaged table, then an atlas whose numbers all differ,
 * so that an exchange of two parameters shows. atlas.out is what it writes.
 *
 *     cc -std=c99 -Iinclude examples/c/atlas.c -Ltarget/archive/$(uname -m) -ltreadwharf -o atlas */
#include <stdio.h>
#include "treadwharf.h"

static struct treadwharf_atlas atlas; /* 147,480 bytes: not on a stack */

static void refused(enum treadwharf_refusal refusal) { printf("refused %u: %s\n", (unsigned)refusal, treadwharf_text(refusal)); }

static void place(int32_t width, int32_t height) {
    struct treadwharf_allocation got;
    enum treadwharf_refusal refusal = treadwharf_atlas_allocate(&atlas, width, height, &got);
    if (refusal != TREADWHARF_OK) refused(refusal);
    else printf("id %u: %u %u to %u %u\n", got.id, got.left, got.top, got.right, got.bottom);
}

static void give_back(uint32_t id) {
    enum treadwharf_refusal refusal = treadwharf_atlas_deallocate(&atlas, id);
    if (refusal != TREADWHARF_OK) refused(refusal);
    else printf("returned %u\n", id);
}

static void size(void) {
    uint32_t width, height;
    enum treadwharf_refusal refusal = treadwharf_atlas_size(&atlas, &width, &height);
    if (refusal != TREADWHARF_OK) refused(refusal);
    else printf("size %u %u\n", width, height);
}

static void space(void) {
    uint32_t occupied, free_figure;
    if (treadwharf_atlas_allocated_space(&atlas, &occupied) || treadwharf_atlas_free_space(&atlas, &free_figure)) puts("no figures");
    else printf("occupied %u, free %u\n", occupied, free_figure);
}

/* 64 by 64, by the defaults */
static int worked_case(void) {
    if (treadwharf_atlas_new(&atlas, 64, 64, treadwharf_default_options()) != TREADWHARF_OK) return 1;
    place(10, 7);
    place(20, 7);
    give_back(4097);
    give_back(8193);
    place(10, 7);
    give_back(4097); /* its place has been handed out again since */
    space();
    return 0;
}

/* bucket 0 follows itself: every call refuses such tables, and changes nothing */
static void damaged(void) {
    atlas.buckets[2] = 0;
    printf("sound: %s\n", treadwharf_atlas_is_sound(&atlas) ? "yes" : "no");
    place(10, 7);
    size();
    space();
}

/* 90 by 50, widths in steps of 4, heights in steps of 3, two columns */
static int all_different(void) {
    struct treadwharf_options options = {4, 3, 2, 0};
    bool empty = false;
    if (treadwharf_atlas_new(&atlas, 90, 50, options) != TREADWHARF_OK) return 1;
    size();
    place(5, 7);
    place(45, 1);
    place(3, 49);
    place(65536, 1);
    if (treadwharf_atlas_grow(&atlas, 95, 60) != TREADWHARF_OK) return 1;
    size();
    place(3, 49);
    refused(treadwharf_atlas_grow(&atlas, 95, 59));
    if (treadwharf_atlas_clear(&atlas) || treadwharf_atlas_is_empty(&atlas, &empty)) return 1;
    printf("empty: %s, sound: %s\n", empty ? "yes" : "no", treadwharf_atlas_is_sound(&atlas) ? "yes" : "no");
    return 0;
}

int main(void) {
    if (worked_case()) return 1;
    damaged();
    return all_different();
}
