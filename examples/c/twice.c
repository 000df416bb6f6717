/* The double return: the labels of two temperatures in one bucket, the first of them handed back twice. Without the list the second return would
 * take the neighbour for it: the bucket would be free, and the next label drawn over a temperature that is still shown. twice.out is what it writes.
 *
 *     cc -std=c99 -Iinclude examples/c/twice.c -Ltarget/archive/$(uname -m) -ltreadwharf -o twice */
#include <stdio.h>
#include "treadwharf.h"

#define SIDE 64

static struct treadwharf_atlas atlas;
static char pixels[SIDE][SIDE]; /* the texture: a letter for each label, a dot where nothing was drawn */

static void held(void) {
    size_t entries = treadwharf_atlas_entries(&atlas);
    printf("  held: %u\n", (unsigned)entries);
    for (size_t i = 0; i < entries; i++) {
        const struct treadwharf_held *entry = &atlas.held[i];
        printf("    id %u: %u %u to %u %u\n", entry->id, entry->left, entry->top, entry->right, entry->bottom);
    }
}

/* asks for a label and draws its letter on all of it */
static struct treadwharf_allocation draw(char letter, int32_t width, int32_t height) {
    struct treadwharf_allocation got = {0, 0, 0, 0, 0};
    enum treadwharf_refusal refusal = treadwharf_atlas_allocate(&atlas, width, height, &got);
    if (refusal != TREADWHARF_OK) printf("label %c: refused %u: %s\n", letter, (unsigned)refusal, treadwharf_text(refusal));
    else printf("label %c: id %u: %u %u to %u %u\n", letter, got.id, got.left, got.top, got.right, got.bottom);
    for (uint32_t y = got.top; y < got.bottom; y++)
        for (uint32_t x = got.left; x < got.right; x++) pixels[y][x] = letter;
    held();
    return got;
}

static void give_back(uint32_t id) {
    enum treadwharf_refusal refusal = treadwharf_atlas_deallocate(&atlas, id);
    if (refusal != TREADWHARF_OK) printf("return %u: refused %u: %s\n", id, (unsigned)refusal, treadwharf_text(refusal));
    else printf("return %u\n", id);
    held();
}

/* whether each pixel of a label still has its letter */
static void shown(char letter, struct treadwharf_allocation label) {
    bool whole = true;
    for (uint32_t y = label.top; y < label.bottom; y++)
        for (uint32_t x = label.left; x < label.right; x++) whole = whole && pixels[y][x] == letter;
    printf("label %c is %s\n", letter, whole ? "whole" : "drawn over");
}

int main(void) {
    struct treadwharf_allocation inside, outside;
    for (size_t i = 0; i < SIDE * SIDE; i++) pixels[i / SIDE][i % SIDE] = '.';
    if (treadwharf_atlas_new(&atlas, SIDE, SIDE, treadwharf_default_options()) != TREADWHARF_OK) return 1;
    inside = draw('A', 10, 7);
    outside = draw('B', 20, 7);
    give_back(inside.id);
    give_back(inside.id); /* by the drawing code's mistake */
    draw('C', 30, 7);     /* as wide as the bucket has free once nothing of it is held */
    shown('B', outside);
    give_back(outside.id);
    give_back(outside.id);
    for (int y = 0; y < 8; y++) printf("%.*s\n", SIDE, pixels[y]);
    return 0;
}
