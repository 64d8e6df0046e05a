/* A getrandom(2) that is put before that of libc (LD_PRELOAD). It gives octets that count up, 0, 1, 2 and so on, in the way that WAY names:
   whole, one octet a call, interrupted before each piece, nothing at all, ten octets and then nothing, or a failure. With `threads` each
   thread gets an octet of its own again and again, and the others draw before the call ends. A program that asks again and again is ended. Calls with flags are those of other libraries, and get what the system gives. */
#define _GNU_SOURCE
#include <errno.h>
#include <stdatomic.h>
#include <stdint.h>
#include <stdlib.h>
#include <string.h>
#include <sys/types.h>
#include <sys/syscall.h>
#include <unistd.h>

enum { MOST_CALLS = 100000 };

ssize_t getrandom(void *place, size_t length, unsigned flags) {
    static size_t calls;
    static uint8_t next;
    if (flags) return syscall(SYS_getrandom, place, length, flags);
    const char *way = getenv("WAY");
    if (!way || ++calls > MOST_CALLS) {
        static const char why[] = "getrandom is asked without end\n";
        if (write(2, why, sizeof why - 1) < 0) _exit(4);
        abort();
    }
    if (!strcmp(way, "nothing") || (!strcmp(way, "ten") && calls > 1)) return 0;
    if (!strcmp(way, "failure")) return errno = EIO, -1;
    if (!strcmp(way, "threads")) {
        static _Atomic uint8_t threads;
        static _Thread_local uint8_t own;
        memset(place, own ? own : (own = ++threads), length);
        return usleep(5000), (ssize_t)length;
    }
    if (!strcmp(way, "interrupted") && calls % 2) return errno = EINTR, -1;
    size_t given = !strcmp(way, "short") ? 1 : !strcmp(way, "whole") || length < 10 ? length : 10;
    for (size_t at = 0; at < given; at++) ((uint8_t *)place)[at] = next++;
    return (ssize_t)given;
}
