/* What the libraries have in common that are loaded before a program, and count or refuse its calls of the C library: the numbers in their
   environment, and which calls the program itself makes. A call that the C library makes for itself is not the program's. */
#define _GNU_SOURCE
#include <errno.h>
#include <link.h>
#include <stdint.h>
#include <stdio.h>
#include <stdlib.h>
#include <string.h>
#include <unistd.h>

void *__libc_malloc(size_t size);
void *__libc_realloc(void *place, size_t size);
void __libc_free(void *place);

/* The value of a variable of the environment, or this other number without it. */
static inline long number(const char *name, long otherwise) {
    const char *word = getenv(name);
    return word ? atol(word) : otherwise;
}

/* The addresses of the first object, which is the program. */
static uintptr_t program_begin, program_end;

static int see(struct dl_phdr_info *info, size_t size, void *data) {
    (void)size, (void)data;
    program_begin = UINTPTR_MAX;
    for (int at = 0; at < info->dlpi_phnum; at++) {
        const ElfW(Phdr) *part = &info->dlpi_phdr[at];
        if (part->p_type != PT_LOAD) continue;
        uintptr_t begin = info->dlpi_addr + part->p_vaddr, end = begin + part->p_memsz;
        if (begin < program_begin) program_begin = begin;
        if (end > program_end) program_end = end;
    }
    return 1;
}

__attribute__((constructor)) static void note_program(void) {
    dl_iterate_phdr(see, 0);
}

static inline int is_own(void *caller) {
    return (uintptr_t)caller >= program_begin && (uintptr_t)caller < program_end;
}
