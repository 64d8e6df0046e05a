/* Replaces the C library's malloc and realloc in a program that is run with this library preloaded. It counts the growths that the program
   itself asks for from 1, and refuses the one with the number REFUSE, all later ones if AND_ALL is set, and those of FROM octets or more.
   At the end it writes their number to the descriptor COUNT. */
#include "preload.h"
#include <limits.h>

static long asked, refused, and_all, from, held;

__attribute__((constructor)) static void begin(void) {
    refused = number("REFUSE", 0);
    and_all = number("AND_ALL", 0);
    from = number("FROM", LONG_MAX);
}

__attribute__((destructor)) static void end(void) {
    if (getenv("COUNT")) dprintf(number("COUNT", 0), "%ld", asked);
}

/* Whether this growth is refused. Growths that the C library itself asks for are not counted. */
static int refuses(void *caller, size_t size) {
    if (!is_own(caller)) return 0;
    asked++;
    return size >= (size_t)from || (refused && (asked == refused || (and_all && asked > refused)));
}

static void *none(void) {
    errno = ENOMEM;
    return 0;
}

/* The blocks that the program holds. */
size_t held_now(void) {
    return held;
}

void *malloc(size_t size) {
    void *place = refuses(__builtin_return_address(0), size) ? none() : __libc_malloc(size);
    held += place && is_own(__builtin_return_address(0));
    return place;
}

void *realloc(void *place, size_t size) {
    void *moved = refuses(__builtin_return_address(0), size) ? none() : __libc_realloc(place, size);
    held += !place && moved && is_own(__builtin_return_address(0));
    return moved;
}

void free(void *place) {
    held -= place && is_own(__builtin_return_address(0));
    __libc_free(place);
}
