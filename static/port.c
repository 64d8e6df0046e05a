/* The C functions that Rattle's crates `os` and `libc` declare, for a processor for which the kit has no C of its own. These are the ones
   that jose.o asks for. With LIBRARY defined they are the ones that the library for C asks for. scripts/build-static refuses to link if the
   two lists differ.

   Nothing proves this file. Each comment has what the declaration in Rattle asks of the function (os/src/c.rt, libc/src/heap.rt and
   libc/src/types.rt in the kit). It is plain C11 over glibc, which passes the words of the program to each constructor. */
#include <stdbool.h>
#include <stddef.h>
#include <stdlib.h>

/* libc::types::Tried: whether there is memory, and the pointer to it. If there is none, the pointer is not null, and nothing is owned
   where it points. */
struct tried {
    bool ok;
    void *p;
};

struct tried rattle_alloc(size_t size, size_t alignment);
struct tried rattle_realloc(void *old, size_t kept, size_t size, size_t alignment);
void rattle_dealloc(void *old);

static char nothing;

static struct tried tried(void *found) {
    return (struct tried){found != NULL, found != NULL ? found : &nothing};
}

/* New memory of this size and alignment, or the answer that there is none. The alignment divides 16, and malloc aligns to 16. The size is
   below 2^63. For a size of 0 the block has as many octets as the alignment, since malloc(0) may return null without a failure. */
struct tried rattle_alloc(size_t size, size_t alignment) {
    return tried(malloc(size != 0 ? size : alignment));
}

/* The block of `old` with another size, which may be at another place. Its first `kept` octets, which are within both sizes, are as they
   were. If there is no memory, the old block is as it was. */
struct tried rattle_realloc(void *old, size_t kept, size_t size, size_t alignment) {
    (void)kept;
    return tried(realloc(old, size != 0 ? size : alignment));
}

/* Frees a block that one of these two functions returned. */
void rattle_dealloc(void *old) {
    free(old);
}

#ifndef LIBRARY
#include <errno.h>

ptrdiff_t rattle_arg(size_t at, char *place, size_t room);
int rattle_errno(void);
void rattle_set_errno(int error);

static size_t count;
static char **words;

__attribute__((constructor)) static void keep(int argc, char **argv) {
    count = argc > 0 ? (size_t)argc : 0;
    words = argv;
}

/* Puts the word with this number at the start of the place, and returns its length. The name of the program is word 0. Without such a word
   it returns -1. If the word does not fit, it returns -2, and the place is full of the first octets of the word. A Rattle slice is a
   pointer and a length. */
ptrdiff_t rattle_arg(size_t at, char *place, size_t room) {
    if (at >= count || words[at] == NULL) return -1;
    const char *word = words[at];
    size_t length = 0;
    for (; word[length] != '\0'; length++) {
        if (length == room) return -2;
        place[length] = word[length];
    }
    return (ptrdiff_t)length;
}

/* The error of the last call to the C library that failed. */
int rattle_errno(void) {
    return errno;
}

/* Sets it. */
void rattle_set_errno(int error) {
    errno = error;
}
#endif
