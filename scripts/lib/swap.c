/* A library that is loaded before the programs of scripts/install. Before one of their calls, another user (65534) exchanges a name for a link,
   as he could in a folder in which he may write. The attack comes at that call, and not by chance.

   SWAP_CALL    the call: open (to write), create (open with O_EXCL), read (open to read), chmod, rename, mkdir, unlink, rmdir or chdir
   SWAP_PART    a part of the path that the call is about
   SWAP_WHAT    last, to exchange the last name of the path, or folder, to exchange the name before it
   SWAP_TO      where the link leads
   SWAP_DONE    a file that is made when the attack was tried: with `yes` in it if the name could be exchanged. There is one attack. */
#define _GNU_SOURCE
#include <dlfcn.h>
#include <errno.h>
#include <fcntl.h>
#include <limits.h>
#include <stdarg.h>
#include <stdbool.h>
#include <stdio.h>
#include <stdlib.h>
#include <string.h>
#include <sys/stat.h>
#include <sys/syscall.h>
#include <sys/types.h>
#include <sys/wait.h>
#include <unistd.h>

enum { STRANGER = 65534 };

/* Puts the real path of the folder, a slash and the last name into `whole`. The folder of a path is one that the kernel knows: that of a working
   directory, which others may have moved. */
static bool absolute(int at, const char *path, char *whole, const char **name) {
    char folder[PATH_MAX], link[64], start[PATH_MAX] = "";
    const char *last = strrchr(path, '/');
    if (at != AT_FDCWD && *path != '/') {
        snprintf(link, sizeof link, "/proc/self/fd/%d", at);
        if (readlink(link, start, sizeof start - 1) < 0) return false;
    }
    int length = last ? (int)(last - path) + (last == path) : 1;
    const char *of = last ? path : ".";
    if (snprintf(folder, sizeof folder, "%s%s%.*s", start, *start ? "/" : "", length, of) >= PATH_MAX || !realpath(folder, whole)) return false;
    *name = last ? last + 1 : path;
    return **name && strcmp(*name, ".") && strcmp(*name, "..");
}

/* What the stranger does: he takes the name away and puts a link there. */
static bool exchanges(const char *name, const char *to) {
    char aside[PATH_MAX];
    return snprintf(aside, sizeof aside, "%s.aside", name) < PATH_MAX && (!rename(name, aside) || errno == ENOENT) && !symlink(to, name);
}

static void attack(const char *call, int at, const char *path) {
    const char *wanted = getenv("SWAP_CALL"), *part = getenv("SWAP_PART"), *what = getenv("SWAP_WHAT"), *to = getenv("SWAP_TO"), *done = getenv("SWAP_DONE"), *name;
    char whole[PATH_MAX], victim[PATH_MAX];
    int kept = errno;
    if (!wanted || strcmp(call, wanted) || !part || !what || !to || !done || !path || !absolute(at, path, whole, &name)) goto end;
    if (snprintf(victim, sizeof victim, "%s/%s", whole, name) >= PATH_MAX || !strstr(victim, part)) goto end;
    long file = syscall(SYS_openat, AT_FDCWD, done, O_WRONLY | O_CREAT | O_EXCL, 0600);
    if (file < 0) goto end;
    pid_t child = fork();
    if (child == 0) {
        /* The setuid of a library is for all threads: this process has one. */
        bool is_done = !syscall(SYS_setgroups, 0, NULL) && !syscall(SYS_setgid, STRANGER) && !syscall(SYS_setuid, STRANGER)
            && exchanges(strcmp(what, "folder") ? victim : whole, to);
        if (is_done && write((int)file, "yes\n", 4) != 4) _exit(1);
        _exit(0);
    }
    if (child > 0) waitpid(child, NULL, 0);
    close((int)file);
end:
    errno = kept;
}

#define OWN(name) __typeof__(name) *own = (__typeof__(name) *)dlsym(RTLD_NEXT, #name)
#define MODE(flags) \
    mode_t mode = 0; \
    if ((flags) & (O_CREAT | O_TMPFILE)) { \
        va_list more; \
        va_start(more, flags); \
        mode = va_arg(more, mode_t); \
        va_end(more); \
    }

static const char *kind(int flags) {
    return (flags & O_ACCMODE) == O_RDONLY ? "read" : flags & O_EXCL ? "create" : "open";
}

int open(const char *path, int flags, ...) {
    MODE(flags)
    OWN(open);
    return attack(kind(flags), AT_FDCWD, path), own(path, flags, mode);
}

int open64(const char *path, int flags, ...) {
    MODE(flags)
    OWN(open64);
    return attack(kind(flags), AT_FDCWD, path), own(path, flags, mode);
}

int openat(int at, const char *path, int flags, ...) {
    MODE(flags)
    OWN(openat);
    return attack(kind(flags), at, path), own(at, path, flags, mode);
}

int openat64(int at, const char *path, int flags, ...) {
    MODE(flags)
    OWN(openat64);
    return attack(kind(flags), at, path), own(at, path, flags, mode);
}

int chmod(const char *path, mode_t mode) {
    OWN(chmod);
    return attack("chmod", AT_FDCWD, path), own(path, mode);
}

int fchmodat(int at, const char *path, mode_t mode, int flags) {
    OWN(fchmodat);
    return attack("chmod", at, path), own(at, path, mode, flags);
}

int rename(const char *from, const char *to) {
    OWN(rename);
    return attack("rename", AT_FDCWD, to), own(from, to);
}

int renameat(int from_at, const char *from, int to_at, const char *to) {
    OWN(renameat);
    return attack("rename", to_at, to), own(from_at, from, to_at, to);
}

int renameat2(int from_at, const char *from, int to_at, const char *to, unsigned flags) {
    OWN(renameat2);
    return attack("rename", to_at, to), own(from_at, from, to_at, to, flags);
}

int mkdir(const char *path, mode_t mode) {
    OWN(mkdir);
    return attack("mkdir", AT_FDCWD, path), own(path, mode);
}

int mkdirat(int at, const char *path, mode_t mode) {
    OWN(mkdirat);
    return attack("mkdir", at, path), own(at, path, mode);
}

int unlink(const char *path) {
    OWN(unlink);
    return attack("unlink", AT_FDCWD, path), own(path);
}

int unlinkat(int at, const char *path, int flags) {
    OWN(unlinkat);
    return attack(flags & AT_REMOVEDIR ? "rmdir" : "unlink", at, path), own(at, path, flags);
}

int rmdir(const char *path) {
    OWN(rmdir);
    return attack("rmdir", AT_FDCWD, path), own(path);
}

int chdir(const char *path) {
    OWN(chdir);
    return attack("chdir", AT_FDCWD, path), own(path);
}
