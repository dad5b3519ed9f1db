/* Preloaded before a program, hands out memory whose bytes are all 0xAA. With FILL_HIGH it lies as high as addresses
   go, and with FILL_LOW below 2 GB; of both nothing is given back. */
#define _GNU_SOURCE
#include <dlfcn.h>
#include <malloc.h>
#include <stdint.h>
#include <stdlib.h>
#include <string.h>
#include <sys/mman.h>

#define ROOM (1ul << 28)
#define HEAD 16

static char *room, *end;
static size_t taken;

static void *next_of(const char *name) {
    return dlsym(RTLD_NEXT, name);
}

/* The room for all that is handed out; none where it may lie anywhere. */
static void find_room(void) {
    int how = MAP_PRIVATE | MAP_ANONYMOUS | MAP_NORESERVE;
    if (room || !(getenv("FILL_HIGH") || getenv("FILL_LOW")))
        return;
    if (getenv("FILL_LOW")) {
        room = mmap(0, ROOM, PROT_READ | PROT_WRITE, how | MAP_32BIT, -1, 0);
    } else {
        uintptr_t at = 0x7fffffffe000;
        do {
            at -= ROOM / 2;
            room = mmap((void *)at, ROOM, PROT_READ | PROT_WRITE, how | MAP_FIXED_NOREPLACE, -1, 0);
        } while (room == MAP_FAILED && at > ROOM);
    }
    if (room == MAP_FAILED)
        abort();
    end = room + ROOM;
}

static int is_ours(void *place) {
    return room && (char *)place >= room && (char *)place < end;
}

static void *from_room(size_t size) {
    size_t whole = (size + 2 * HEAD - 1) & -(size_t)HEAD;
    size_t at = __atomic_fetch_add(&taken, whole, __ATOMIC_SEQ_CST);
    if (size > ROOM || at + whole > ROOM)
        return 0;
    *(size_t *)(room + at) = size;
    return room + at + HEAD;
}

void *malloc(size_t size) {
    static void *(*next)(size_t);
    if (!next)
        next = next_of("malloc");
    find_room();
    void *place = room ? from_room(size) : next(size);
    return place ? memset(place, 0xaa, room ? size : malloc_usable_size(place)) : 0;
}

void *realloc(void *old, size_t size) {
    if (!old)
        return malloc(size);
    size_t kept = is_ours(old) ? *(size_t *)((char *)old - HEAD) : malloc_usable_size(old);
    void *place = malloc(size);
    if (!place)
        return 0;
    memcpy(place, old, kept < size ? kept : size);
    free(old);
    return place;
}

void free(void *place) {
    static void (*next)(void *);
    if (!next)
        next = next_of("free");
    if (!is_ours(place))
        next(place);
}
