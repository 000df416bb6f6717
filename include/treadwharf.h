/* Treadwharf: one GPU texture's rectangles, handed out and taken back. The functions of libtreadwharf.a (tools/archive).
 *
 * Most callers hold one `struct treadwharf_atlas` and use the calls named treadwharf_atlas_*. Who places header and tables himself lends
 * them in parts, by the functions below those.
 *
 * Each call tests what it is lent and then answers: TREADWHARF_OK, or a refusal, which has written nothing. Any numbers are answered.
 * A caller owes only that each pointer has as many numbers or entries as its count says (NULL where the count is 0), and that a part which is
 * written overlaps no other. No call keeps a pointer, allocates, or has a state of its own: calls on different atlases may run at the same time.
 * Sides and figures are in pixels. docs/PANEL.md says how to link it, docs/REFUSALS.md what each refusal asks of the caller. */
#ifndef TREADWHARF_H
#define TREADWHARF_H

#include <stdbool.h>
#include <stddef.h>
#include <stdint.h>

#ifdef __cplusplus
extern "C" {
#endif

#define TREADWHARF_VERSION "0.7.0"

/* the numbers of each part: a shelf is 5 and a bucket 7, and there is room for 4,095 of each */
#define TREADWHARF_HEADER 12
#define TREADWHARF_SHELVES (5 * 4095)
#define TREADWHARF_BUCKETS (7 * 4095)

/* the entries of the held list in a struct treadwharf_atlas: one for each rectangle that is out at the same time. Another number may be
 * defined before this header, the same in every file of a program. */
#ifndef TREADWHARF_HELD
#define TREADWHARF_HELD 4096
#endif

/* the bytes of the longest file that an atlas is written to; treadwharf_file_length has those of the file at hand */
#define TREADWHARF_FILE_MOST 131077

/* the bytes of a buffer that is long enough for the picture of any atlas: two lines of at most 72 for each of 4,095 buckets, and at most 144 for
 * the other three */
#define TREADWHARF_PICTURE_MOST (72 * (2 * 4095 + 2))

enum treadwharf_refusal {
    TREADWHARF_OK = 0,
    TREADWHARF_TABLES = 1,           /* lent room too short, or tables not sound; read: the file's contents not sound */
    TREADWHARF_SIDE = 2,             /* new, grow: a side outside 1 to 46,340 */
    TREADWHARF_OPTIONS = 3,          /* new: alignment or columns outside 1 to 46,340, column width 0, or vertical */
    TREADWHARF_SMALL = 4,            /* allocate: a side below 1 */
    TREADWHARF_LARGE = 5,            /* allocate: a side above 65,535 */
    TREADWHARF_NO_PLACE = 6,         /* allocate: no place */
    TREADWHARF_FILLER = 7,           /* allocate: the filler shelf would take the last buckets */
    TREADWHARF_ITEMS = 8,            /* not given any more; before 0.7.0 allocate: the merge's bucket has counted 65,535 items */
    TREADWHARF_UNKNOWN = 9,          /* deallocate: the id names no bucket */
    TREADWHARF_STALE = 10,           /* deallocate: the id is of an earlier generation: its bucket has been emptied since, by a first return say */
    TREADWHARF_UNHELD = 11,          /* deallocate: the id is of the bucket's generation, and nothing is held in the bucket */
    TREADWHARF_SHRINK = 12,          /* grow: a side below the present one */
    TREADWHARF_BROKEN = 16,          /* read: the file is malformed or cut */
    TREADWHARF_UNKNOWN_VERSION = 17, /* read: a whole file, of a version that this library does not read */
    TREADWHARF_BUFFER = 18,          /* write: the buffer is shorter than the file */
    TREADWHARF_FULL = 19,            /* allocate: the request would be placed, but the held list is full */
    TREADWHARF_NOT_HELD = 20,        /* deallocate: the id is not held; a second return, say */
    TREADWHARF_LIST = 21,            /* the held list does not fit the tables; after a read, until one is lent anew */
    TREADWHARF_WIDE = 22,            /* allocate: the aligned width is above the column width */
    TREADWHARF_TALL = 23,            /* allocate: the aligned height is above the atlas height */
    TREADWHARF_OUTPUT = 24           /* picture: the buffer is shorter than the text */
};

/* A refusal in words, for a log; "unknown refusal" for any other number. */
static inline const char *treadwharf_text(enum treadwharf_refusal refusal) {
    switch (refusal) {
    case TREADWHARF_OK: return "accepted";
    case TREADWHARF_TABLES: return "lent room too short, or tables not sound";
    case TREADWHARF_SIDE: return "a side outside 1 to 46,340";
    case TREADWHARF_OPTIONS: return "alignment or columns outside 1 to 46,340, column width 0, or vertical";
    case TREADWHARF_SMALL: return "request with a side below 1";
    case TREADWHARF_LARGE: return "request with a side above 65,535";
    case TREADWHARF_NO_PLACE: return "no place";
    case TREADWHARF_FILLER: return "the filler shelf would take the last buckets";
    case TREADWHARF_ITEMS: return "the merge's bucket has counted 65,535 items";
    case TREADWHARF_UNKNOWN: return "the id names no bucket";
    case TREADWHARF_STALE: return "the id is of an earlier generation";
    case TREADWHARF_UNHELD: return "nothing is held in the id's bucket";
    case TREADWHARF_SHRINK: return "a side below the present one";
    case TREADWHARF_BROKEN: return "the file is malformed or cut";
    case TREADWHARF_UNKNOWN_VERSION: return "the file is of an unknown version";
    case TREADWHARF_BUFFER: return "the buffer is too short for the file";
    case TREADWHARF_FULL: return "the held list is full";
    case TREADWHARF_NOT_HELD: return "the id is not held";
    case TREADWHARF_LIST: return "the held list does not fit the tables";
    case TREADWHARF_WIDE: return "request wider than a column, once aligned";
    case TREADWHARF_TALL: return "request taller than the atlas, once aligned";
    case TREADWHARF_OUTPUT: return "the buffer is too short for the picture";
    }
    return "unknown refusal";
}

/* An entry of the held list: an id, and the rectangle that was handed out under it. */
struct treadwharf_held {
    uint32_t id;
    uint16_t left;
    uint16_t top;
    uint16_t right;
    uint16_t bottom;
};

/* ---- the functions over parts, those of the archive.
 *
 * header: width, height, width alignment, height alignment, columns, column width, current column, room, shelf count, bucket count, first
 * released bucket, occupied figure. A part may be longer than its numbers; what is past them stays as it is. TREADWHARF_TABLES is also the
 * refusal of a header, table or `out` that is too short. list: the held list, as the last call left it; its first treadwharf_entries entries are
 * what is held, bucket by bucket (the id's low 12 bits) and in each from left to right. Any other order is answered the same, slower. Its room is
 * the caller's to choose. The numbers in brackets are the refusals that a call can give, in their order. */

/* Makes an atlas: writes the header, and looks at the tables' room only (1, 2, 3). No list is lent: nothing is held, so any list has no entry. */
enum treadwharf_refusal treadwharf_new(uint32_t *header, size_t header_count, const uint16_t *shelves, size_t shelves_count,
                                       const uint16_t *buckets, size_t buckets_count, int32_t width, int32_t height,
                                       int32_t align_width, int32_t align_height, int32_t columns, uint8_t vertical);

/* Empties the atlas: writes the header (1, 21). Ids given before are of no use after it, and are given again. */
enum treadwharf_refusal treadwharf_clear(uint32_t *header, size_t header_count, const uint16_t *shelves, size_t shelves_count,
                                         const uint16_t *buckets, size_t buckets_count, const struct treadwharf_held *list,
                                         size_t list_count);

/* Makes the atlas larger; what is held stays where it is (1, 21, 2, 12). */
enum treadwharf_refusal treadwharf_grow(uint32_t *header, size_t header_count, uint16_t *shelves, size_t shelves_count,
                                        uint16_t *buckets, size_t buckets_count, const struct treadwharf_held *list,
                                        size_t list_count, int32_t width, int32_t height);

/* Hands out a rectangle at least width by height: out gets its id, left, top, right, bottom, the list its entry (1, 21, 4, 5, 22, 23, then 6 or 7,
 * then 19). out_count: 5. */
enum treadwharf_refusal treadwharf_allocate(uint32_t *header, size_t header_count, uint16_t *shelves, size_t shelves_count,
                                            uint16_t *buckets, size_t buckets_count, struct treadwharf_held *list,
                                            size_t list_count, uint32_t *out, size_t out_count, int32_t width, int32_t height);

/* Takes the rectangle of a held id back, and its entry out of the list (1, 21, 9, 10, 11, 20). With its last rectangle a bucket is as new: its items
 * are counted from 0 again, and its generation rises by 1, 255 being followed by 0. */
enum treadwharf_refusal treadwharf_deallocate(uint32_t *header, size_t header_count, const uint16_t *shelves, size_t shelves_count,
                                              uint16_t *buckets, size_t buckets_count, struct treadwharf_held *list,
                                              size_t list_count, uint32_t id);

/* The tables test: true where header and tables are sound, so that no call would refuse them with TREADWHARF_TABLES. */
bool treadwharf_is_sound(const uint32_t *header, size_t header_count, const uint16_t *shelves, size_t shelves_count,
                         const uint16_t *buckets, size_t buckets_count);

/* The list's test: true where header and tables are sound and the list fits them, so that no call would refuse it with TREADWHARF_LIST. */
bool treadwharf_fits(const uint32_t *header, size_t header_count, const uint16_t *shelves, size_t shelves_count,
                     const uint16_t *buckets, size_t buckets_count, const struct treadwharf_held *list, size_t list_count);

/* The atlas's sides: out gets width, height (1, 21). out_count: 2. */
enum treadwharf_refusal treadwharf_size(const uint32_t *header, size_t header_count, const uint16_t *shelves, size_t shelves_count,
                                        const uint16_t *buckets, size_t buckets_count, const struct treadwharf_held *list,
                                        size_t list_count, uint32_t *out, size_t out_count);

/* Whether there is no shelf: out gets 1 or 0 (1, 21). out_count: 1, here and below. */
enum treadwharf_refusal treadwharf_is_empty(const uint32_t *header, size_t header_count, const uint16_t *shelves,
                                            size_t shelves_count, const uint16_t *buckets, size_t buckets_count,
                                            const struct treadwharf_held *list, size_t list_count, uint32_t *out, size_t out_count);

/* The occupied figure: out gets it (1, 21). */
enum treadwharf_refusal treadwharf_allocated_space(const uint32_t *header, size_t header_count, const uint16_t *shelves,
                                                   size_t shelves_count, const uint16_t *buckets, size_t buckets_count,
                                                   const struct treadwharf_held *list, size_t list_count, uint32_t *out,
                                                   size_t out_count);

/* The free figure: out gets width times height less the occupied figure (1, 21). Not all of it can be handed out as one rectangle. */
enum treadwharf_refusal treadwharf_free_space(const uint32_t *header, size_t header_count, const uint16_t *shelves,
                                              size_t shelves_count, const uint16_t *buckets, size_t buckets_count,
                                              const struct treadwharf_held *list, size_t list_count, uint32_t *out, size_t out_count);

/* Writes the atlas as the bytes of a file, from the start of `file` on: out gets how many (1, 21, 18). What is past them stays. out_count: 1. The
 * list is not in the file: keep it beside. */
enum treadwharf_refusal treadwharf_write(const uint32_t *header, size_t header_count, const uint16_t *shelves, size_t shelves_count,
                                         const uint16_t *buckets, size_t buckets_count, const struct treadwharf_held *list,
                                         size_t list_count, uint8_t *file, size_t file_count, uint32_t *out, size_t out_count);

/* Draws the atlas as SVG, from the start of `text` on: out gets how many bytes (1, 21, 24). What is past them stays; no 0 is put behind them.
 * out_count: 1. The whole atlas is a rectangle, then, shelf by shelf, each bucket's used part and its free part, if it has one. The used areas add up
 * to the occupied figure. */
enum treadwharf_refusal treadwharf_picture(const uint32_t *header, size_t header_count, const uint16_t *shelves, size_t shelves_count,
                                           const uint16_t *buckets, size_t buckets_count, const struct treadwharf_held *list,
                                           size_t list_count, uint8_t *text, size_t text_count, uint32_t *out, size_t out_count);

/* Makes the atlas that the file's bytes are of, all of them and no others: writes header and tables, whatever stood there (1 for the room,
 * 16, 17, then 1 for the contents). It takes no list and ends the one before: lend the one kept with the file. Ids given after the writing are not
 * in that, and are refused until they are given again. Files of libraries before 0.7.0 are repaired as they are read: a bucket in which nothing is held
 * and whose items were counted gets item count 0 and the next generation. A write then makes other bytes than were read. */
enum treadwharf_refusal treadwharf_read(uint32_t *header, size_t header_count, uint16_t *shelves, size_t shelves_count,
                                        uint16_t *buckets, size_t buckets_count, const uint8_t *file, size_t file_count);

/* How many bytes a write takes, from the counts among the header's 12 numbers, which are not tested here. */
static inline size_t treadwharf_file_length(const uint32_t *header) { return 37 + 14 * (size_t)header[8] + 18 * (size_t)header[9]; }

/* How many entries of the list are what is held: the reference counts of the buckets below the header's count, added up. Neither is tested here. */
static inline size_t treadwharf_entries(const uint32_t *header, const uint16_t *buckets) {
    size_t entries = 0;
    for (size_t i = 0; i < header[9]; i++) entries += buckets[7 * i + 3];
    return entries;
}

/* ---- the calls on one atlas */

/* All that an atlas is: 147,480 bytes with 4,096 entries, so rather static than on a stack. Written by the calls alone. Copied as a whole it is
 * another atlas. */
struct treadwharf_atlas {
    uint32_t header[TREADWHARF_HEADER];
    uint16_t shelves[TREADWHARF_SHELVES];
    uint16_t buckets[TREADWHARF_BUCKETS];
    struct treadwharf_held held[TREADWHARF_HELD];
};

/* What an atlas is made with besides its sides. vertical: 0 alone is taken. */
struct treadwharf_options {
    int32_t align_width;
    int32_t align_height;
    int32_t columns;
    uint8_t vertical;
};

/* From (left, top) up to, and without, (right, bottom). */
struct treadwharf_allocation {
    uint32_t id;
    uint32_t left;
    uint32_t top;
    uint32_t right;
    uint32_t bottom;
};

/* No alignment, one column. */
static inline struct treadwharf_options treadwharf_default_options(void) {
    struct treadwharf_options options;
    options.align_width = options.align_height = options.columns = 1;
    options.vertical = 0;
    return options;
}

/* the parts of an atlas, as the functions over parts take them */
#define TREADWHARF_PARTS(atlas) \
    (atlas)->header, TREADWHARF_HEADER, (atlas)->shelves, TREADWHARF_SHELVES, (atlas)->buckets, TREADWHARF_BUCKETS
#define TREADWHARF_LISTED(atlas) TREADWHARF_PARTS(atlas), (atlas)->held, TREADWHARF_HELD

/* Makes an atlas of any memory, and forgets the one that was there (2, 3). */
static inline enum treadwharf_refusal treadwharf_atlas_new(struct treadwharf_atlas *atlas, int32_t width, int32_t height,
                                                           struct treadwharf_options options) {
    return treadwharf_new(TREADWHARF_PARTS(atlas), width, height, options.align_width, options.align_height, options.columns,
                          options.vertical);
}

/* Empties the atlas (1, 21). Ids given before are of no use after it, and are given again. */
static inline enum treadwharf_refusal treadwharf_atlas_clear(struct treadwharf_atlas *atlas) {
    return treadwharf_clear(TREADWHARF_LISTED(atlas));
}

/* Makes the atlas larger; what is held stays where it is (1, 21, 2, 12). */
static inline enum treadwharf_refusal treadwharf_atlas_grow(struct treadwharf_atlas *atlas, int32_t width, int32_t height) {
    return treadwharf_grow(TREADWHARF_LISTED(atlas), width, height);
}

/* Hands out a rectangle at least width by height (1, 21, 4, 5, 22, 23, then 6 or 7, then 19). A refusal leaves *allocation as it was. */
static inline enum treadwharf_refusal treadwharf_atlas_allocate(struct treadwharf_atlas *atlas, int32_t width, int32_t height,
                                                                struct treadwharf_allocation *allocation) {
    uint32_t out[5];
    enum treadwharf_refusal refusal = treadwharf_allocate(TREADWHARF_LISTED(atlas), out, 5, width, height);
    if (refusal == TREADWHARF_OK) {
        allocation->id = out[0];
        allocation->left = out[1];
        allocation->top = out[2];
        allocation->right = out[3];
        allocation->bottom = out[4];
    }
    return refusal;
}

/* Takes the rectangle of a held id back (1, 21, 9, 10, 11, 20). An id that is handed back twice is refused. */
static inline enum treadwharf_refusal treadwharf_atlas_deallocate(struct treadwharf_atlas *atlas, uint32_t id) {
    return treadwharf_deallocate(TREADWHARF_LISTED(atlas), id);
}

/* The tables test: true where the atlas is sound. */
static inline bool treadwharf_atlas_is_sound(const struct treadwharf_atlas *atlas) {
    return treadwharf_is_sound(TREADWHARF_PARTS(atlas));
}

/* The sides (1, 21). A refusal leaves what the pointers point to as it was, here and below. */
static inline enum treadwharf_refusal treadwharf_atlas_size(const struct treadwharf_atlas *atlas, uint32_t *width, uint32_t *height) {
    uint32_t out[2];
    enum treadwharf_refusal refusal = treadwharf_size(TREADWHARF_LISTED(atlas), out, 2);
    if (refusal == TREADWHARF_OK) {
        *width = out[0];
        *height = out[1];
    }
    return refusal;
}

/* Whether there is no shelf (1, 21). */
static inline enum treadwharf_refusal treadwharf_atlas_is_empty(const struct treadwharf_atlas *atlas, bool *empty) {
    uint32_t out[1];
    enum treadwharf_refusal refusal = treadwharf_is_empty(TREADWHARF_LISTED(atlas), out, 1);
    if (refusal == TREADWHARF_OK) *empty = out[0] != 0;
    return refusal;
}

/* The occupied figure (1, 21). */
static inline enum treadwharf_refusal treadwharf_atlas_allocated_space(const struct treadwharf_atlas *atlas, uint32_t *pixels) {
    return treadwharf_allocated_space(TREADWHARF_LISTED(atlas), pixels, 1);
}

/* The free figure (1, 21). Not all of it can be handed out as one rectangle. */
static inline enum treadwharf_refusal treadwharf_atlas_free_space(const struct treadwharf_atlas *atlas, uint32_t *pixels) {
    return treadwharf_free_space(TREADWHARF_LISTED(atlas), pixels, 1);
}

/* Writes the atlas as the bytes of a file, from the start of `file` on (1, 21, 18). *length gets how many; what is past them stays. The list is not
 * in it: keep the first treadwharf_atlas_entries of held beside the file. */
static inline enum treadwharf_refusal treadwharf_atlas_write(const struct treadwharf_atlas *atlas, uint8_t *file, size_t file_count,
                                                             size_t *length) {
    uint32_t out[1];
    enum treadwharf_refusal refusal = treadwharf_write(TREADWHARF_LISTED(atlas), file, file_count, out, 1);
    if (refusal == TREADWHARF_OK) *length = out[0];
    return refusal;
}

/* Draws the atlas as SVG, from the start of `text` on (1, 21, 24). *length gets how many bytes; what is past them stays, and no 0 is put behind
 * them. TREADWHARF_PICTURE_MOST are enough for any atlas. */
static inline enum treadwharf_refusal treadwharf_atlas_picture(const struct treadwharf_atlas *atlas, uint8_t *text, size_t text_count,
                                                               size_t *length) {
    uint32_t out[1];
    enum treadwharf_refusal refusal = treadwharf_picture(TREADWHARF_LISTED(atlas), text, text_count, out, 1);
    if (refusal == TREADWHARF_OK) *length = out[0];
    return refusal;
}

/* Makes the atlas that a file's bytes are of, in any memory, and forgets the one that was there (16, 17, 1). A refusal leaves it. It ends the
 * list: where something was held at the writing every call but new and read is refused with TREADWHARF_LIST from here on, until the list of that
 * moment is lent (below). Files of libraries before 0.7.0 are repaired, as treadwharf_read says. */
static inline enum treadwharf_refusal treadwharf_atlas_read(struct treadwharf_atlas *atlas, const uint8_t *file, size_t file_count) {
    enum treadwharf_refusal refusal = treadwharf_read(TREADWHARF_PARTS(atlas), file, file_count);
    if (refusal == TREADWHARF_OK) atlas->held[0].right = 0; /* an empty rectangle, which fits no tables */
    return refusal;
}

/* How many entries of held are what is held. */
static inline size_t treadwharf_atlas_entries(const struct treadwharf_atlas *atlas) { return treadwharf_entries(atlas->header, atlas->buckets); }

/* The list's test: true where the atlas is sound and its list fits. */
static inline bool treadwharf_atlas_fits(const struct treadwharf_atlas *atlas) { return treadwharf_fits(TREADWHARF_LISTED(atlas)); }

/* Lends the atlas a list anew after a read: the one that was kept with the file (1, 21; 21 too where the atlas has not the room). It is copied, as
 * many entries as are held. A refusal leaves the atlas as it is. What the list says is held from here on. */
static inline enum treadwharf_refusal treadwharf_atlas_lend(struct treadwharf_atlas *atlas, const struct treadwharf_held *list, size_t list_count) {
    if (!treadwharf_atlas_is_sound(atlas)) return TREADWHARF_TABLES;
    size_t entries = treadwharf_atlas_entries(atlas);
    if (entries > TREADWHARF_HELD || !treadwharf_fits(TREADWHARF_PARTS(atlas), list, list_count)) return TREADWHARF_LIST;
    for (size_t i = 0; i < entries; i++) atlas->held[i] = list[i];
    return TREADWHARF_OK;
}

/* How many bytes treadwharf_atlas_write takes. */
static inline size_t treadwharf_atlas_file_length(const struct treadwharf_atlas *atlas) { return treadwharf_file_length(atlas->header); }

#ifdef __cplusplus
}
#endif
#endif
