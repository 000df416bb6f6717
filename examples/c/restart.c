/* An atlas kept over a restart: written to a buffer, its list of what is held kept beside, both lost, the file read back, the list lent and gone
 * on with; then files that are refused, and a buffer too short. restart.out is what it writes; docs/FILES.md goes through the bytes that it shows.
 *
 *     cc -std=c99 -Iinclude examples/c/restart.c -Ltarget/archive/$(uname -m) -ltreadwharf -o restart */
#include <stdio.h>
#include "treadwharf.h"

static struct treadwharf_atlas atlas;
static uint8_t file[TREADWHARF_FILE_MOST], damaged[TREADWHARF_FILE_MOST]; /* room for any atlas */
static size_t length;
static struct treadwharf_held beside[TREADWHARF_HELD]; /* the list is not in the file */
static size_t entries;

static void refused(enum treadwharf_refusal refusal) { printf("refused %u: %s\n", (unsigned)refusal, treadwharf_text(refusal)); }

static void place(int32_t width, int32_t height) {
    struct treadwharf_allocation got;
    enum treadwharf_refusal refusal = treadwharf_atlas_allocate(&atlas, width, height, &got);
    if (refusal != TREADWHARF_OK) refused(refusal);
    else printf("id %u: %u %u to %u %u\n", got.id, got.left, got.top, got.right, got.bottom);
}

static void give_back(uint32_t id) {
    enum treadwharf_refusal refusal = treadwharf_atlas_deallocate(&atlas, id);
    if (refusal != TREADWHARF_OK) refused(refusal);
    else printf("returned %u\n", id);
}

static void space(void) {
    uint32_t occupied, free_figure;
    if (treadwharf_atlas_allocated_space(&atlas, &occupied) || treadwharf_atlas_free_space(&atlas, &free_figure)) puts("no figures");
    else printf("occupied %u, free %u\n", occupied, free_figure);
}

/* one byte more than the file takes is marked, and must keep its mark; the list of the same moment goes with it */
static int kept(void) {
    size_t due = treadwharf_atlas_file_length(&atlas);
    file[due] = 7;
    if (treadwharf_atlas_write(&atlas, file, due + 1, &length) != TREADWHARF_OK || length != due) return 1;
    printf("%u bytes, the one behind them %s\n", (unsigned)length, file[length] == 7 ? "kept" : "lost");
    for (size_t i = 0; i < length; i++) printf("%02x%s", (unsigned)file[i], i % 16 == 15 || i + 1 == length ? "\n" : " ");
    entries = treadwharf_atlas_entries(&atlas);
    for (size_t i = 0; i < entries; i++) {
        beside[i] = atlas.held[i];
        printf("beside it: id %u: %u %u to %u %u\n", beside[i].id, beside[i].left, beside[i].top, beside[i].right, beside[i].bottom);
    }
    return 0;
}

/* what a restart leaves of tables and list: anything */
static void lost(void) {
    for (size_t i = 0; i < TREADWHARF_HEADER; i++) atlas.header[i] = 4000000000u;
    for (size_t i = 0; i < TREADWHARF_SHELVES; i++) atlas.shelves[i] = 65535;
    for (size_t i = 0; i < TREADWHARF_BUCKETS; i++) atlas.buckets[i] = 65535;
    for (size_t i = 0; i < TREADWHARF_HELD; i++) atlas.held[i].id = atlas.held[i].right = 65535;
    space();
}

/* every call but new and read, until the list is lent */
static void unlent(void) {
    struct treadwharf_allocation got;
    uint32_t width, height;
    bool empty;
    size_t untouched;
    refused(treadwharf_atlas_allocate(&atlas, 10, 20, &got));
    refused(treadwharf_atlas_deallocate(&atlas, 4097));
    refused(treadwharf_atlas_grow(&atlas, 99, 99));
    refused(treadwharf_atlas_clear(&atlas));
    refused(treadwharf_atlas_size(&atlas, &width, &height));
    refused(treadwharf_atlas_is_empty(&atlas, &empty));
    refused(treadwharf_atlas_allocated_space(&atlas, &width));
    refused(treadwharf_atlas_free_space(&atlas, &width));
    refused(treadwharf_atlas_write(&atlas, damaged, sizeof damaged, &untouched));
    refused(treadwharf_atlas_picture(&atlas, damaged, sizeof damaged, &untouched));
    printf("sound: %s, the list fits: %s\n", treadwharf_atlas_is_sound(&atlas) ? "yes" : "no", treadwharf_atlas_fits(&atlas) ? "yes" : "no");
}

/* a list of another moment is refused; the one that was kept is taken */
static int lent(void) {
    struct treadwharf_held other = beside[0];
    other.right++; /* wider than what is used in its bucket */
    printf("another list: ");
    refused(treadwharf_atlas_lend(&atlas, &other, 1));
    printf("no list: ");
    refused(treadwharf_atlas_lend(&atlas, NULL, 0));
    return treadwharf_atlas_lend(&atlas, beside, entries) != TREADWHARF_OK;
}

/* so many bytes of the file, one of them changed: the atlas stays as it is */
static void read_damaged(const char *what, size_t at, uint8_t byte, size_t count) {
    for (size_t i = 0; i < length; i++) damaged[i] = file[i];
    damaged[at] = byte;
    printf("%s: ", what);
    refused(treadwharf_atlas_read(&atlas, damaged, count));
}

static void refusals(void) {
    size_t untouched = 7;
    read_damaged("cut", 0, file[0], length - 1);
    read_damaged("a byte too many", 0, file[0], length + 1);
    read_damaged("version 2", 4, 2, length);
    read_damaged("version 2 and cut", 4, 2, length - 1);
    read_damaged("the occupied figure one more", 29, (uint8_t)(file[29] + 1), length);
    printf("short buffer: ");
    refused(treadwharf_atlas_write(&atlas, damaged, treadwharf_atlas_file_length(&atlas) - 1, &untouched));
    printf("length %u\n", (unsigned)untouched);
    space();
}

int main(void) {
    if (treadwharf_atlas_new(&atlas, 64, 64, treadwharf_default_options()) != TREADWHARF_OK) return 1;
    place(10, 7);
    if (kept()) return 1;
    place(10, 20); /* after the writing, on a shelf of its own */
    place(20, 7);  /* and beside the first */
    space();
    lost();
    if (treadwharf_atlas_read(&atlas, file, length) != TREADWHARF_OK) return 1;
    unlent();
    if (lent()) return 1;
    space();
    give_back(4098); /* given after the writing: its bucket is not there */
    give_back(8193); /* nor is this, though its bucket is */
    place(10, 20);   /* its id and its place are given again */
    give_back(4097); /* from before the writing */
    space();
    refusals();
    return 0;
}
