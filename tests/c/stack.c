/* The stack that the calls take: bytes below the caller's own frame are painted, the calls run, and what is no longer paint is counted.
 * It prints the most that any call took, on an atlas whose calls merge, lay shelves with fillers, grow and walk tables of 4,095 buckets with a
 * full list, in its order and in another; and what a write, a picture and a read of those took. */
#include <stdio.h>
#include "treadwharf.h"

#define AREA 65536
#define PAINT 0xA5

static struct treadwharf_atlas atlas;
static struct treadwharf_allocation got;
static uint32_t number;
static uint8_t file[TREADWHARF_FILE_MOST], text[TREADWHARF_PICTURE_MOST];
static size_t length, drawn;
static struct treadwharf_held list[TREADWHARF_HELD];

__attribute__((noinline)) static void paint(void) {
    volatile uint8_t area[AREA];
    for (size_t i = 0; i < AREA; i++) area[i] = PAINT;
}

/* the same frame as paint's: its low end is where no call has been */
__attribute__((noinline)) static size_t taken(void) {
    volatile uint8_t area[AREA];
    size_t clean = 0;
    while (clean < AREA && area[clean] == PAINT) clean++;
    return AREA - clean;
}

enum call { NEW_SMALL, NEW_WIDE, ALLOCATE, ALLOCATE_LOW, ALLOCATE_TALL, RETURN, GROW, GROW_WIDE, SOUND, FITS, FIGURE, CLEAR, WRITE, PICTURE, READ,
            LEND };

__attribute__((noinline)) static void run(enum call call) {
    struct treadwharf_options columns = {1, 1, 3, 0};
    switch (call) {
    case NEW_SMALL: treadwharf_atlas_new(&atlas, 300, 300, columns); break;
    case NEW_WIDE: treadwharf_atlas_new(&atlas, 46340, 200, treadwharf_default_options()); break;
    case ALLOCATE: treadwharf_atlas_allocate(&atlas, 9, 9, &got); break;
    case ALLOCATE_LOW: treadwharf_atlas_allocate(&atlas, 1, 1, &got); break;
    case ALLOCATE_TALL: treadwharf_atlas_allocate(&atlas, 90, 40, &got); break;
    case RETURN: treadwharf_atlas_deallocate(&atlas, got.id); break;
    case GROW: treadwharf_atlas_grow(&atlas, 400, 400); break;
    case GROW_WIDE: treadwharf_atlas_grow(&atlas, 46340, 201); break;
    case SOUND: number = treadwharf_atlas_is_sound(&atlas); break;
    case FITS: number = treadwharf_atlas_fits(&atlas); break;
    case FIGURE: treadwharf_atlas_free_space(&atlas, &number); break;
    case CLEAR: treadwharf_atlas_clear(&atlas); break;
    case WRITE: treadwharf_atlas_write(&atlas, file, sizeof file, &length); break;
    case PICTURE: treadwharf_atlas_picture(&atlas, text, sizeof text, &drawn); break;
    case READ: number = treadwharf_atlas_read(&atlas, file, length); break;
    case LEND: number = treadwharf_atlas_lend(&atlas, list, TREADWHARF_HELD); break;
    }
}

static size_t most;

static size_t measured(enum call call) {
    paint();
    run(call);
    size_t bytes = taken();
    if (bytes > most) most = bytes;
    return bytes;
}

static void all(const enum call *calls, size_t count) {
    for (size_t i = 0; i < count; i++) measured(calls[i]);
}

#define ALL(calls) all(calls, sizeof calls / sizeof *calls)

/* the same entries from the last one on: no order that the calls keep */
static void turn(void) {
    for (size_t i = 0; i < TREADWHARF_HELD; i++) list[i] = atlas.held[TREADWHARF_HELD - 1 - i];
}

/* on 4,095 buckets and as many references as the list has room for: whether that is what they are */
static bool full(void) {
    static const enum call calls[] = {ALLOCATE_LOW, RETURN, ALLOCATE_LOW, GROW_WIDE, SOUND, FIGURE, FITS};
    ALL(calls);
    return number == 1 && atlas.header[9] == 4095 && treadwharf_atlas_entries(&atlas) == TREADWHARF_HELD;
}

int main(void) {
    static const enum call small[] = {NEW_SMALL, ALLOCATE, ALLOCATE_TALL, ALLOCATE, RETURN, ALLOCATE_TALL, GROW,  SOUND,   FIGURE,
                                      PICTURE,   WRITE,    READ,          CLEAR,    FITS,   ALLOCATE_TALL, CLEAR, NEW_WIDE};
    ALL(small);
    for (int i = 0; i < TREADWHARF_HELD; i++) run(ALLOCATE_LOW);
    bool ordered = full();
    turn();
    printf("write %u\n", (unsigned)measured(WRITE));
    printf("picture %u\n", (unsigned)measured(PICTURE));
    printf("read %u\n", (unsigned)measured(READ));
    measured(LEND);
    bool lent = number == TREADWHARF_OK, turned = full();
    printf("stack %u\n", (unsigned)most);
    return most == AREA || drawn == 0 || !ordered || !lent || !turned;
}
