/* An allocator of other habits than that of the C library, for a program that is started with it in LD_PRELOAD: each block begins 8 octets behind a
   multiple of 16, a block that another allocator made ends the program, and malloc_usable_size is useless. WAY says how: `zero`, `few` (8 octets),
   `many` (2^40) or `none` (a call ends the program, as in an allocator that lacks the function). */
#define _GNU_SOURCE
#include <errno.h>
#include <stdint.h>
#include <stdlib.h>
#include <string.h>
#include <unistd.h>

void *__libc_malloc(size_t size);
void __libc_free(void *start);

/* In front of each block. */
struct front {
    uint64_t mark, size;
    void *start;
};
enum { ODD = 8, MARK = 0x10c0de };

static void ends(const char *why) {
    if (write(2, why, strlen(why)) >= 0) _exit(9);
    _exit(8);
}

static struct front *front_of(void *block) {
    struct front *front = (struct front *)block - 1;
    if ((uintptr_t)block % 8 || front->mark != MARK) ends("a block of another allocator\n");
    return front;
}

static void *new_block(size_t alignment, size_t odd, size_t size) {
    if (size > SIZE_MAX / 2 || alignment > SIZE_MAX / 4) return errno = ENOMEM, NULL;
    size_t more = sizeof(struct front) + alignment + odd;
    uint8_t *start = __libc_malloc(more + size);
    if (!start) return NULL;
    uint8_t *block = start + sizeof(struct front);
    block += (alignment - (uintptr_t)block % alignment) % alignment + odd;
    ((struct front *)block)[-1] = (struct front){MARK, size, start};
    return block;
}

void *malloc(size_t size) {
    return new_block(16, ODD, size);
}

void free(void *block) {
    if (!block) return;
    struct front *front = front_of(block);
    front->mark = 0;
    __libc_free(front->start);
}

void *calloc(size_t count, size_t size) {
    size_t all;
    if (__builtin_mul_overflow(count, size, &all)) return errno = ENOMEM, NULL;
    void *block = malloc(all);
    return block ? memset(block, 0, all) : NULL;
}

void *realloc(void *old, size_t size) {
    void *block = malloc(size);
    if (!block || !old) return block;
    size_t kept = front_of(old)->size;
    memcpy(block, old, kept < size ? kept : size);
    free(old);
    return block;
}

void *aligned_alloc(size_t alignment, size_t size) {
    return new_block(alignment < 16 ? 16 : alignment, 0, size);
}

void *memalign(size_t alignment, size_t size) {
    return aligned_alloc(alignment, size);
}

int posix_memalign(void **block, size_t alignment, size_t size) {
    *block = aligned_alloc(alignment, size);
    return *block ? 0 : ENOMEM;
}

size_t malloc_usable_size(void *block) {
    const char *way = getenv("WAY");
    if (!block) return 0;
    front_of(block);
    if (!way || !strcmp(way, "none")) ends("malloc_usable_size is called\n");
    return !strcmp(way, "zero") ? 0 : !strcmp(way, "few") ? 8 : (size_t)1 << 40;
}
