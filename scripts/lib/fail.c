/* Replaces the C library's open, statx, ftruncate, read, write and fsync in a program that is run with this library preloaded. Some of
   these calls then fail, as on a device that works again later. The calls are counted from 1: all of them, or only those that OF names, for
   example `read 0`. A file has the name that it was opened with, and a standard stream has its number. A statx of an open file is called
   `fstat`. The call with the number AT fails (1 by default). TIMES is the number of calls that fail from there on (1 by default). FAIL
   names the error; with `none` a read, a write or an fsync returns 0. Each failing call is written as a line to the descriptor FAILED.
   PIECE is the most octets that a read or a write moves. Before each call that BEFORE names, for example `open o`, the command of a shell
   in DO is run, as if another process came in between. A statx of the file LIKE finds the device and the inode number of the file OTHER, to
   which MINOR and INODE are added. */
#include "preload.h"
#include <dlfcn.h>
#include <fcntl.h>
#include <stdarg.h>
#include <sys/stat.h>

/* The function in place of the C library's, and the C library's. */
#ifdef LINKED
#define NEW(name) __wrap_##name
#define OLD(name) __real_##name
extern __typeof__(open) OLD(open);
extern __typeof__(statx) OLD(statx);
extern __typeof__(ftruncate) OLD(ftruncate);
extern __typeof__(read) OLD(read);
extern __typeof__(write) OLD(write);
extern __typeof__(fsync) OLD(fsync);
#else
#define NEW(name) name
#define OLD(name) ((__typeof__(&name))dlsym(RTLD_NEXT, #name))
#endif

static const struct {
    const char *name;
    int number;
} ERRORS[] = {
    {"none", 0},        {"EIO", EIO},       {"EINTR", EINTR},   {"EAGAIN", EAGAIN}, {"ECONNRESET", ECONNRESET}, {"ETIMEDOUT", ETIMEDOUT},
    {"EPIPE", EPIPE},   {"ENOSPC", ENOSPC}, {"EDQUOT", EDQUOT}, {"EFBIG", EFBIG},   {"EMFILE", EMFILE},         {"ENOMEM", ENOMEM},
    {"EINVAL", EINVAL}, {"ENOSYS", ENOSYS}, {"ENOTSUP", ENOTSUP},         {"EACCES", EACCES},
};

enum { FILES = 64, LONGEST = 100 };
static char names[FILES][LONGEST];
static long counted;

/* Whether this call fails. If it does, `errno` is set. */
static int fails(const char *call, const char *name) {
    char what[LONGEST + 8], line[LONGEST + 9];
    const char *error = getenv("FAIL"), *only = getenv("OF"), *before = getenv("BEFORE"), *other = getenv("DO");
    snprintf(what, sizeof what, "%s %s", call, name);
    if (before && other && !strcmp(before, what)) {
        unsetenv("LD_PRELOAD");
        if (system(other)) abort();
    }
    if (!error || (only && strcmp(only, what))) return 0;
    counted++;
    if (counted < number("AT", 1) || counted >= number("AT", 1) + number("TIMES", 1)) return 0;
    if (getenv("FAILED")) OLD(write)(number("FAILED", 0), line, snprintf(line, sizeof line, "%s\n", what));
    for (size_t at = 0; at < sizeof ERRORS / sizeof *ERRORS; at++)
        if (!strcmp(error, ERRORS[at].name)) errno = ERRORS[at].number;
    return 1;
}

static const char *name_of(int file) {
    static const char *streams[] = {"0", "1", "2"};
    if (file >= 0 && file < FILES && *names[file]) return names[file];
    return file >= 0 && file <= 2 ? streams[file] : "?";
}

static size_t piece(size_t length) {
    size_t most = number("PIECE", length);
    return length < most ? length : most;
}

int NEW(open)(const char *name, int flags, ...) {
    va_list rest;
    va_start(rest, flags);
    mode_t mode = flags & O_CREAT ? va_arg(rest, mode_t) : 0;
    va_end(rest);
    if (fails("open", name)) return -1;
    int file = OLD(open)(name, flags, mode);
    if (file >= 0 && file < FILES) snprintf(names[file], LONGEST, "%s", name);
    return file;
}

int NEW(statx)(int file, const char *restrict name, int flags, unsigned mask, struct statx *restrict found) {
    if (*name ? fails("statx", name) : fails("fstat", name_of(file))) return -1;
    int result = OLD(statx)(file, name, flags, mask, found);
    const char *like = getenv("LIKE"), *other = getenv("OTHER");
    struct statx its;
    if (!result && like && other && !strcmp(like, name) && !OLD(statx)(AT_FDCWD, other, 0, mask, &its)) {
        found->stx_dev_major = its.stx_dev_major;
        found->stx_dev_minor = its.stx_dev_minor + number("MINOR", 0);
        found->stx_ino = its.stx_ino + number("INODE", 0);
    }
    return result;
}

int NEW(ftruncate)(int file, off_t length) {
    if (fails("ftruncate", name_of(file))) return -1;
    return OLD(ftruncate)(file, length);
}

ssize_t NEW(read)(int file, void *place, size_t length) {
    if (fails("read", name_of(file))) return errno ? -1 : 0;
    return OLD(read)(file, place, piece(length));
}

ssize_t NEW(write)(int file, const void *octets, size_t length) {
    if (fails("write", name_of(file))) return errno ? -1 : 0;
    return OLD(write)(file, octets, piece(length));
}

int NEW(fsync)(int file) {
    if (fails("fsync", name_of(file))) return errno ? -1 : 0;
    return OLD(fsync)(file);
}
