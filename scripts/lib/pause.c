/* Replaces functions of the C library in a program that is run with this library preloaded. Before each call that the program itself makes of
   them, it writes a line to the descriptor TELLS, and waits until it can read an octet from the descriptor WAITS. So a trial can do, between any
   two calls, what another process could do there. The line has the name of the function, the flags of an `open` in decimal digits or `-`, and
   the name of the file, or the number of its descriptor. Of two names it has the first. */
#include "preload.h"
#include <dlfcn.h>
#include <fcntl.h>
#include <stdarg.h>
#include <sys/stat.h>
#include <sys/types.h>
#include <sys/xattr.h>

#define OLD(name) ((__typeof__(&name))dlsym(RTLD_NEXT, #name))

static void tell(void *caller, const char *call, const char *flags, const char *name) {
    char line[8192], octet;
    if (!is_own(caller) || !getenv("TELLS")) return;
    int length = snprintf(line, sizeof line, "%s %s %s\n", call, flags, name);
    if (length < 0 || length >= (int)sizeof line) abort();
    /* Where the trial has ended, so does the program. */
    if (OLD(write)(number("TELLS", -1), line, length) != length || OLD(read)(number("WAITS", -1), &octet, 1) != 1) abort();
}

static void tell_file(void *caller, const char *call, int file) {
    char name[16];
    snprintf(name, sizeof name, "%d", file);
    tell(caller, call, "-", name);
}

static void tell_open(void *caller, const char *call, const char *name, int flags) {
    char digits[16];
    snprintf(digits, sizeof digits, "%d", flags);
    tell(caller, call, digits, name);
}

/* Whether an `open` with these flags has a mode. */
static int makes(int flags) {
    return flags & O_CREAT || (flags & O_TMPFILE) == O_TMPFILE;
}

/* A function of a name, and one of a descriptor. */
#define NAMED(type, function, parameters, words, name) \
    type function parameters {                         \
        tell(__builtin_return_address(0), #function, "-", name); \
        return OLD(function) words;                    \
    }
#define OF_FILE(type, function, parameters, words, file) \
    type function parameters {                           \
        tell_file(__builtin_return_address(0), #function, file); \
        return OLD(function) words;                      \
    }
#define OPENS(function)                                                                    \
    int function(const char *name, int flags, ...) {                                       \
        va_list rest;                                                                      \
        va_start(rest, flags);                                                             \
        mode_t mode = makes(flags) ? va_arg(rest, mode_t) : 0;                           \
        va_end(rest);                                                                      \
        tell_open(__builtin_return_address(0), #function, name, flags);                    \
        return OLD(function)(name, flags, mode);                                           \
    }
#define OPENS_AT(function)                                                                 \
    int function(int folder, const char *name, int flags, ...) {                           \
        va_list rest;                                                                      \
        va_start(rest, flags);                                                             \
        mode_t mode = makes(flags) ? va_arg(rest, mode_t) : 0;                           \
        va_end(rest);                                                                      \
        tell_open(__builtin_return_address(0), #function, name, flags);                    \
        return OLD(function)(folder, name, flags, mode);                                   \
    }

OPENS(open)
OPENS(open64)
OPENS_AT(openat)
OPENS_AT(openat64)

int statx(int folder, const char *restrict name, int flags, unsigned mask, struct statx *restrict found) {
    *name ? tell(__builtin_return_address(0), "statx", "-", name) : tell_file(__builtin_return_address(0), "fstat", folder);
    return OLD(statx)(folder, name, flags, mask, found);
}

NAMED(int, stat, (const char *restrict name, struct stat *restrict found), (name, found), name)
NAMED(int, lstat, (const char *restrict name, struct stat *restrict found), (name, found), name)
NAMED(int, fstatat, (int folder, const char *restrict name, struct stat *restrict found, int flags), (folder, name, found, flags), name)
NAMED(int, access, (const char *name, int how), (name, how), name)
NAMED(int, faccessat, (int folder, const char *name, int how, int flags), (folder, name, how, flags), name)
NAMED(int, chmod, (const char *name, mode_t mode), (name, mode), name)
NAMED(int, fchmodat, (int folder, const char *name, mode_t mode, int flags), (folder, name, mode, flags), name)
NAMED(int, chown, (const char *name, uid_t owner, gid_t group), (name, owner, group), name)
NAMED(int, lchown, (const char *name, uid_t owner, gid_t group), (name, owner, group), name)
NAMED(int, fchownat, (int folder, const char *name, uid_t owner, gid_t group, int flags), (folder, name, owner, group, flags), name)
NAMED(int, rename, (const char *name, const char *other), (name, other), name)
NAMED(int, renameat, (int folder, const char *name, int place, const char *other), (folder, name, place, other), name)
NAMED(int, renameat2, (int folder, const char *name, int place, const char *other, unsigned flags), (folder, name, place, other, flags), name)
NAMED(int, link, (const char *name, const char *other), (name, other), name)
NAMED(int, linkat, (int folder, const char *name, int place, const char *other, int flags), (folder, name, place, other, flags), name)
NAMED(int, symlink, (const char *name, const char *other), (name, other), other)
NAMED(int, unlink, (const char *name), (name), name)
NAMED(int, unlinkat, (int folder, const char *name, int flags), (folder, name, flags), name)
NAMED(int, truncate, (const char *name, off_t length), (name, length), name)
NAMED(ssize_t, getxattr, (const char *name, const char *attribute, void *place, size_t size), (name, attribute, place, size), name)
NAMED(ssize_t, lgetxattr, (const char *name, const char *attribute, void *place, size_t size), (name, attribute, place, size), name)
NAMED(ssize_t, readlink, (const char *restrict name, char *restrict place, size_t size), (name, place, size), name)

OF_FILE(int, fstat, (int file, struct stat *found), (file, found), file)
OF_FILE(int, fchmod, (int file, mode_t mode), (file, mode), file)
OF_FILE(int, fchown, (int file, uid_t owner, gid_t group), (file, owner, group), file)
OF_FILE(int, ftruncate, (int file, off_t length), (file, length), file)
OF_FILE(ssize_t, read, (int file, void *place, size_t length), (file, place, length), file)
OF_FILE(ssize_t, write, (int file, const void *octets, size_t length), (file, octets, length), file)
OF_FILE(int, fsync, (int file), (file), file)
OF_FILE(int, fdatasync, (int file), (file), file)
OF_FILE(ssize_t, fgetxattr, (int file, const char *attribute, void *place, size_t size), (file, attribute, place, size), file)
OF_FILE(int, fsetxattr, (int file, const char *attribute, const void *place, size_t size, int flags), (file, attribute, place, size, flags), file)
OF_FILE(int, fremovexattr, (int file, const char *attribute), (file, attribute), file)
OF_FILE(int, close, (int file), (file), file)
