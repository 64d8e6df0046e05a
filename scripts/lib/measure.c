/* Replaces the C library's calls for memory, reading and writing in a program that is run with this library preloaded. It counts the calls
   that the program itself makes; those that the C library makes for itself are not counted. Each block of the program has a head with the
   size that was asked for. At the end it writes eight numbers to the descriptor COUNT: the most octets that were held at once, the calls
   that asked for memory, the octets that these asked for in sum, the reads, the octets that were read, the writes, the octets that were
   written, and the files that were opened or synchronized. A call that makes a block larger or smaller counts with the whole new size,
   since it may copy the block. */
#include "preload.h"
#include <fcntl.h>
#include <stdarg.h>
#include <sys/syscall.h>
#include <sys/uio.h>

/* The head keeps blocks aligned to 16 octets. `mark` is made from the block's address, so that no other block has it by accident. */
struct head {
    size_t size;
    uintptr_t mark;
};
static const uintptr_t MARK = 0x6a6f7365206d656d;

static size_t held, most, asks, asked, reads, octets_read, writes, octets_written, opens;

__attribute__((destructor)) static void end(void) {
    if (getenv("COUNT"))
        dprintf(number("COUNT", 0), "%zu %zu %zu %zu %zu %zu %zu %zu", most, asks, asked, reads, octets_read, writes, octets_written, opens);
}

/* What the program holds now. */
size_t held_now(void) {
    return held;
}

/* The head of a block of the program, or none for a block of the C library. */
static struct head *head_of(void *place) {
    struct head *head = (struct head *)place - 1;
    return place && head->mark == ((uintptr_t)place ^ MARK) ? head : 0;
}

/* Counts a block of this size that was asked for, and returns its place. Without a head there is no block. */
static void *counted(struct head *head, size_t size) {
    asks++;
    asked += size;
    if (!head) return 0;
    void *place = head + 1;
    *head = (struct head){size, (uintptr_t)place ^ MARK};
    held += size;
    if (held > most) most = held;
    return place;
}

void *malloc(size_t size) {
    if (!is_own(__builtin_return_address(0)) || size > SIZE_MAX / 2) return __libc_malloc(size);
    return counted(__libc_malloc(size + sizeof(struct head)), size);
}

void *calloc(size_t number, size_t each) {
    size_t size;
    if (__builtin_mul_overflow(number, each, &size)) return __libc_malloc(SIZE_MAX);
    int own = is_own(__builtin_return_address(0)) && size <= SIZE_MAX / 2;
    void *place = own ? counted(__libc_malloc(size + sizeof(struct head)), size) : __libc_malloc(size);
    return place ? memset(place, 0, size) : 0;
}

void *realloc(void *place, size_t size) {
    struct head *head = head_of(place);
    if (!head && (place || !is_own(__builtin_return_address(0)))) return __libc_realloc(place, size);
    if (size > SIZE_MAX / 2) return __libc_malloc(size);
    size_t before = head ? head->size : 0;
    struct head *moved = __libc_realloc(head, size + sizeof(struct head));
    if (moved) held -= before;
    return counted(moved, size);
}

void free(void *place) {
    struct head *head = head_of(place);
    if (!head) {
        __libc_free(place);
        return;
    }
    held -= head->size;
    head->mark = 0;
    __libc_free(head);
}

/* Counts a call that moved this many octets, or failed. */
static ssize_t moved(void *caller, ssize_t octets, size_t *calls, size_t *sum) {
    if (is_own(caller)) {
        *calls += 1;
        *sum += octets > 0 ? octets : 0;
    }
    return octets;
}

#define READ(call) moved(__builtin_return_address(0), call, &reads, &octets_read)
#define WRITE(call) moved(__builtin_return_address(0), call, &writes, &octets_written)

ssize_t read(int file, void *place, size_t length) {
    return READ(syscall(SYS_read, file, place, length));
}

ssize_t pread(int file, void *place, size_t length, off_t at) {
    return READ(syscall(SYS_pread64, file, place, length, at));
}

ssize_t pread64(int file, void *place, size_t length, off_t at) {
    return READ(syscall(SYS_pread64, file, place, length, at));
}

ssize_t readv(int file, const struct iovec *places, int number) {
    return READ(syscall(SYS_readv, file, places, number));
}

ssize_t write(int file, const void *octets, size_t length) {
    return WRITE(syscall(SYS_write, file, octets, length));
}

ssize_t pwrite(int file, const void *octets, size_t length, off_t at) {
    return WRITE(syscall(SYS_pwrite64, file, octets, length, at));
}

ssize_t pwrite64(int file, const void *octets, size_t length, off_t at) {
    return WRITE(syscall(SYS_pwrite64, file, octets, length, at));
}

ssize_t writev(int file, const struct iovec *octets, int number) {
    return WRITE(syscall(SYS_writev, file, octets, number));
}

static int opened(void *caller, const char *name, int flags, mode_t mode) {
    opens += is_own(caller);
    return syscall(SYS_openat, AT_FDCWD, name, flags, mode);
}

int open(const char *name, int flags, ...) {
    va_list rest;
    va_start(rest, flags);
    int file = opened(__builtin_return_address(0), name, flags, flags & O_CREAT ? va_arg(rest, mode_t) : 0);
    va_end(rest);
    return file;
}

int fsync(int file) {
    opens += is_own(__builtin_return_address(0));
    return syscall(SYS_fsync, file);
}
