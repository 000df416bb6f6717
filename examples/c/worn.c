/* A file that a build before 0.7.0 wrote: half of a 64 by 64 atlas is one label, the other half a row that is free and has had its 4,095 labels. That
 * build refused every further label there with 6. Read by this one the row is in service again. worn.out is what it writes.
 *
 *     cc -std=c99 -Iinclude examples/c/worn.c -Ltarget/archive/$(uname -m) -ltreadwharf -o worn */
#include <stdio.h>
#include "treadwharf.h"

/* compare/sample/files/T-07/worn-row.hex, and the list of the same moment, worn-row.held */
static const uint8_t kept[] = {
    /* the header */
    0x1f, 0x00, 0x10, 0x00, 0x01, 0x00, 0x40, 0x00, 0x40, 0x00, 0x01, 0x00, 0x01, 0x00, 0x01, 0x00, 0x40, 0x00,
    0x00, 0x00, 0x00, 0x00, 0x02, 0x00, 0x02, 0x00, 0xff, 0xff, 0x00, 0x00, 0x08, 0x00, 0x00,
    /* shelf 0 */
    0x0c, 0x00, 0x11, 0x00, 0x00, 0x00, 0x00, 0x00, 0x20, 0x00, 0x40, 0x00, 0x00, 0x00,
    /* shelf 1 */
    0x0c, 0x00, 0x11, 0x00, 0x00, 0x00, 0x20, 0x00, 0x20, 0x00, 0x40, 0x00, 0x01, 0x00,
    /* bucket 0: no label, 4,095 items (0x0fff) */
    0x10, 0x00, 0x12, 0x00, 0x00, 0x00, 0x40, 0x00, 0xff, 0xff, 0x00, 0x00, 0xff, 0x0f, 0x00, 0x00, 0x00, 0x00,
    /* bucket 1: one label */
    0x10, 0x00, 0x12, 0x00, 0x00, 0x00, 0x00, 0x00, 0xff, 0xff, 0x01, 0x00, 0x01, 0x00, 0x01, 0x00, 0x00, 0x00,
    /* the end */
    0x02, 0x00, 0x13, 0x00,
};
static const struct treadwharf_held beside[] = {{4097, 0, 32, 64, 64}};

static struct treadwharf_atlas atlas;
static uint8_t file[TREADWHARF_FILE_MOST];

/* reference count, item count and generation: the fourth, fifth and seventh of a bucket's numbers */
static void buckets(void) {
    for (size_t i = 0; i < atlas.header[9]; i++) {
        const uint16_t *bucket = &atlas.buckets[7 * i];
        printf("  bucket %u: %u held, %u items, generation %u\n", (unsigned)i, bucket[3], bucket[4], bucket[6]);
    }
}

static void place(int32_t width, int32_t height) {
    struct treadwharf_allocation got;
    enum treadwharf_refusal refusal = treadwharf_atlas_allocate(&atlas, width, height, &got);
    if (refusal != TREADWHARF_OK) printf("refused %u: %s\n", (unsigned)refusal, treadwharf_text(refusal));
    else printf("%d by %d: id %u: %u %u to %u %u\n", (int)width, (int)height, got.id, got.left, got.top, got.right, got.bottom);
}

static void give_back(uint32_t id) {
    enum treadwharf_refusal refusal = treadwharf_atlas_deallocate(&atlas, id);
    if (refusal != TREADWHARF_OK) printf("return %u: refused %u: %s\n", id, (unsigned)refusal, treadwharf_text(refusal));
    else printf("return %u\n", id);
}

/* how many bytes of a file written now are not those that were read */
static int changed(void) {
    size_t length, other = 0;
    if (treadwharf_atlas_write(&atlas, file, sizeof file, &length) != TREADWHARF_OK || length != sizeof kept) return 1;
    for (size_t i = 0; i < length; i++) other += file[i] != kept[i];
    printf("written again: %u bytes, %u of them others\n", (unsigned)length, (unsigned)other);
    return 0;
}

int main(void) {
    uint32_t free_figure;
    printf("in the file: %u items and nothing held, generation %u\n", kept[73] + 256u * kept[74], kept[77] + 256u * kept[78]);
    if (treadwharf_atlas_read(&atlas, kept, sizeof kept) != TREADWHARF_OK) return 1;
    if (treadwharf_atlas_lend(&atlas, beside, 1) != TREADWHARF_OK) return 1;
    puts("read:");
    buckets();
    if (changed()) return 1;
    if (treadwharf_atlas_free_space(&atlas, &free_figure) != TREADWHARF_OK) return 1;
    printf("free %u\n", free_figure);
    place(32, 32);
    place(32, 32);
    give_back(4096); /* given to the row's first label, before the file was written */
    give_back(4097); /* from the list */
    buckets();
    return 0;
}
