/* An atlas in parts that the caller places: here the header apart from the tables, the list apart from both and with room for four labels, and
 * each part longer than it need be, so that what is past its numbers can be looked at. parts.out is what it writes.
 *
 *     cc -std=c99 -Iinclude examples/c/parts.c -Ltarget/archive/$(uname -m) -ltreadwharf -o parts */
#include <stdio.h>
#include "treadwharf.h"

#define SPARE 3
#define LABELS 4 /* the list has room for so many: its length is the caller's to choose */

static uint32_t header[TREADWHARF_HEADER + SPARE];
static uint16_t shelves[TREADWHARF_SHELVES + SPARE], buckets[TREADWHARF_BUCKETS + SPARE];
static struct treadwharf_held list[LABELS + SPARE]; /* lent without the spare ones, so that it gets full */

#define PARTS header, TREADWHARF_HEADER + SPARE, shelves, TREADWHARF_SHELVES + SPARE, buckets, TREADWHARF_BUCKETS + SPARE
#define LISTED PARTS, list, LABELS

static const char *yes_no(bool yes) { return yes ? "yes" : "no"; }

static void told(const char *call, enum treadwharf_refusal refusal) { printf("%s: %s\n", call, treadwharf_text(refusal)); }

static void place(int32_t width, int32_t height) {
    uint32_t out[6] = {7, 7, 7, 7, 7, 7};
    told("allocate", treadwharf_allocate(LISTED, out, 6, width, height));
    printf("out %u %u %u %u %u %u\n", out[0], out[1], out[2], out[3], out[4], out[5]);
}

static void held(void) {
    size_t entries = treadwharf_entries(header, buckets);
    printf("%u held\n", (unsigned)entries);
    for (size_t i = 0; i < entries; i++)
        printf("  id %u: %u %u to %u %u\n", list[i].id, list[i].left, list[i].top, list[i].right, list[i].bottom);
}

static void marked(void) {
    for (int i = 0; i < SPARE; i++) {
        header[TREADWHARF_HEADER + i] = 4000000000u;
        shelves[TREADWHARF_SHELVES + i] = buckets[TREADWHARF_BUCKETS + i] = 65535;
    }
    for (int i = 0; i < LABELS + SPARE; i++) list[i].id = list[i].left = list[i].top = list[i].right = list[i].bottom = 65535;
}

/* the entries from this one on */
static bool entries_kept(int from) {
    for (int i = from; i < LABELS + SPARE; i++)
        if (list[i].id != 65535 || list[i].left != 65535 || list[i].top != 65535 || list[i].right != 65535 || list[i].bottom != 65535) return false;
    return true;
}

static bool spare_kept(void) {
    for (int i = 0; i < SPARE; i++)
        if (header[TREADWHARF_HEADER + i] != 4000000000u || shelves[TREADWHARF_SHELVES + i] != 65535 ||
            buckets[TREADWHARF_BUCKETS + i] != 65535)
            return false;
    return entries_kept(LABELS);
}

/* as many labels as the list has room for; then one too many, and one that has no place */
static void full(void) {
    for (int i = 0; i < LABELS; i++) {
        place(10, 7);
        printf("%u held, the entries behind are kept: %s\n", (unsigned)treadwharf_entries(header, buckets), yes_no(entries_kept(i + 1)));
    }
    place(10, 7);
    place(64, 64);
    held();
    told("deallocate", treadwharf_deallocate(LISTED, 4097));
    place(10, 7);
    held();
    told("clear", treadwharf_clear(LISTED));
    held();
}

/* over a restart: the file's buffer is longer than it need be too, and the list is kept beside it */
static void kept(void) {
    uint8_t file[256];
    struct treadwharf_held beside[1];
    uint32_t out[2] = {7, 7};
    told("write", treadwharf_write(LISTED, file, sizeof file, out, 2));
    printf("out %u %u, a length of %u, %u held\n", out[0], out[1], (unsigned)treadwharf_file_length(header),
           (unsigned)treadwharf_entries(header, buckets));
    beside[0] = list[0];
    told("write to a byte less", treadwharf_write(LISTED, file, out[0] - 1, out, 2));
    told("write with no out", treadwharf_write(LISTED, file, sizeof file, NULL, 0));
    told("clear", treadwharf_clear(LISTED));
    told("read with no header", treadwharf_read(NULL, 0, shelves, TREADWHARF_SHELVES, buckets, TREADWHARF_BUCKETS, file, 3));
    told("read to a bucket short", treadwharf_read(header, TREADWHARF_HEADER, shelves, TREADWHARF_SHELVES, buckets, TREADWHARF_BUCKETS - 1, file, 3));
    told("read of nothing", treadwharf_read(PARTS, NULL, 0));
    told("read of the whole buffer", treadwharf_read(PARTS, file, sizeof file));
    told("read", treadwharf_read(PARTS, file, out[0]));
    told("clear with no list", treadwharf_clear(PARTS, NULL, 0));
    printf("the list beside it fits: %s\n", yes_no(treadwharf_fits(PARTS, beside, 1)));
    list[0] = beside[0];
}

/* the first and the last byte of the text, and the one behind it */
static void pictured(void) {
    static uint8_t text[1024];
    uint32_t out[2] = {7, 7};
    told("picture to no byte", treadwharf_picture(LISTED, NULL, 0, out, 2));
    told("picture", treadwharf_picture(LISTED, text, sizeof text, out, 2));
    printf("out %u %u, from %c to %c%c", out[0], out[1], text[0], text[out[0] - 2], text[out[0] - 1]);
    text[0] = text[out[0]] = 9;
    told("picture to a byte less", treadwharf_picture(LISTED, text, out[0] - 1, out, 2));
    told("picture with no out", treadwharf_picture(LISTED, text, sizeof text, NULL, 0));
    told("picture with no list", treadwharf_picture(PARTS, NULL, 0, text, sizeof text, out, 2));
    printf("refused, the text is kept: %s\n", yes_no(text[0] == 9));
    told("picture to just enough", treadwharf_picture(LISTED, text, out[0], out, 2));
    printf("what is past it is kept: %s\n", yes_no(text[0] == '<' && text[out[0]] == 9));
}

/* a part too short is told before anything else is looked at; a part of no numbers may be NULL */
static void short_parts(void) {
    uint32_t out[5];
    told("no header", treadwharf_clear(NULL, 0, shelves, TREADWHARF_SHELVES, buckets, TREADWHARF_BUCKETS, list, LABELS));
    told("no parts", treadwharf_new(NULL, 0, NULL, 0, NULL, 0, 64, 64, 1, 1, 1, 0));
    told("no out", treadwharf_size(LISTED, NULL, 0));
    told("no list", treadwharf_size(PARTS, NULL, 0, out, 2));
    told("out of 4", treadwharf_allocate(LISTED, out, 4, 10, 7));
    told("a shelf short", treadwharf_grow(header, TREADWHARF_HEADER, shelves, TREADWHARF_SHELVES - 1, buckets, TREADWHARF_BUCKETS, list, LABELS, 80, 80));
    printf("sound without tables: %s\n", yes_no(treadwharf_is_sound(header, TREADWHARF_HEADER, NULL, 0, NULL, 0)));
    printf("fits without a list: %s\n", yes_no(treadwharf_fits(PARTS, NULL, 0)));
}

static void figures(void) {
    uint32_t sides[2], empty[1], occupied[1], free_figure[1];
    if (treadwharf_size(LISTED, sides, 2) || treadwharf_is_empty(LISTED, empty, 1) || treadwharf_allocated_space(LISTED, occupied, 1) ||
        treadwharf_free_space(LISTED, free_figure, 1))
        puts("no figures");
    else printf("%u by %u, empty %u, occupied %u, free %u\n", sides[0], sides[1], empty[0], occupied[0], free_figure[0]);
}

int main(void) {
    marked();
    printf("sound before new: %s\n", yes_no(treadwharf_is_sound(PARTS)));
    told("new", treadwharf_new(PARTS, 64, 64, 1, 1, 1, 0));
    printf("sound: %s, the list fits: %s\n", yes_no(treadwharf_is_sound(PARTS)), yes_no(treadwharf_fits(LISTED)));
    full();
    place(10, 7);
    place(10, 70);
    told("deallocate", treadwharf_deallocate(LISTED, 4097));
    told("deallocate", treadwharf_deallocate(LISTED, 4097));
    told("grow", treadwharf_grow(LISTED, 64, 128));
    place(10, 70);
    figures();
    short_parts();
    figures();
    pictured();
    kept();
    figures();
    told("clear", treadwharf_clear(LISTED));
    figures();
    printf("what is past the numbers is kept: %s\n", yes_no(spare_kept()));
    return 0;
}
