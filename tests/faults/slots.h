/* Memory of refuse.c, given out in slots of 16, 32, 64 and so on bytes, with tables aside: a child
   that frees what it has touches few pages of it, and what is freed twice aborts. Until make_slots
   was called it is that of the C library. */
#include <stdint.h>
enum { CLASSES = 24, ROOM = 28 };
#define FREE UINT32_MAX
extern void *__libc_malloc(size_t);
extern void *__libc_realloc(void *, size_t);
extern void __libc_free(void *);

/* The size of what a slot has; FREE, and the slot that was freed before it. */
typedef struct { uint32_t size, other; } Slot;
static struct { Slot *slots; uint32_t used, freed; } classes[CLASSES];
static char *arena;

static void *anonymous(size_t size) {
    int flags = MAP_PRIVATE | MAP_ANONYMOUS | MAP_NORESERVE;
    void *found = mmap(0, size, PROT_READ | PROT_WRITE, flags, -1, 0);
    if (found == MAP_FAILED) abort();
    return found;
}
static void make_slots(void) {
    for (int kind = 0; kind < CLASSES; kind++) {
        classes[kind].slots = anonymous(sizeof(Slot) << (ROOM - 4 - kind));
        classes[kind].freed = FREE;
    }
    size_t base = (size_t)anonymous((size_t)(CLASSES + 1) << ROOM), step = (size_t)1 << ROOM;
    char *start = (char *)((base + step - 1) & ~(step - 1));
    madvise(start, (size_t)CLASSES << ROOM, MADV_HUGEPAGE);
    arena = start;
}
static int has_slot(const void *old) {
    return arena && (size_t)((const char *)old - arena) < (size_t)CLASSES << ROOM;
}
static void *slot(size_t size) {
    int kind = 0;
    uint32_t at;
    if (!arena) return __libc_malloc(size);
    while (kind < CLASSES && (size_t)16 << kind < size) kind++;
    if (kind == CLASSES) return 0;
    if (classes[kind].freed != FREE) {
        at = classes[kind].freed;
        classes[kind].freed = classes[kind].slots[at].other;
    } else if (classes[kind].used < (uint32_t)1 << (ROOM - 4 - kind)) {
        at = classes[kind].used++;
    } else {
        return 0;
    }
    classes[kind].slots[at].size = size;
    return arena + ((size_t)kind << ROOM) + ((size_t)at << (4 + kind));
}
static int kind_of(const void *old) {
    return ((const char *)old - arena) >> ROOM;
}
static uint32_t number_of(const void *old) {
    int kind = kind_of(old);
    size_t from = (const char *)old - arena - ((size_t)kind << ROOM);
    uint32_t at = from >> (4 + kind);
    if (at >= classes[kind].used || (size_t)at << (4 + kind) != from) abort();
    if (classes[kind].slots[at].size == FREE) abort();
    return at;
}
static void free_slot(void *old) {
    if (!has_slot(old)) {
        __libc_free(old);
        return;
    }
    int kind = kind_of(old);
    uint32_t at = number_of(old);
    classes[kind].slots[at] = (Slot){FREE, classes[kind].freed};
    classes[kind].freed = at;
}
static void *slot_again(void *old, size_t size) {
    if (!old) return slot(size);
    if (!has_slot(old)) return __libc_realloc(old, size);
    int kind = kind_of(old);
    Slot *had = classes[kind].slots + number_of(old);
    if (size && size <= (size_t)16 << kind) {
        had->size = size;
        return old;
    }
    void *found = size ? slot(size) : 0;
    if (found) memcpy(found, old, had->size);
    if (found || !size) free_slot(old);
    return found;
}
