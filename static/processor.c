/* Ends a static program with one line if the processor lacks an instruction of x86-64-v2, for which the program was compiled. Without this the
   kernel would end it at the first such instruction. A program with a loader needs no such test: the loader reads a note in the file. */
#include <stdlib.h>
#include <unistd.h>

static const char LINE[] = "jose: this processor lacks instructions of x86-64-v2\n";

__attribute__((constructor)) static void test(void) {
    __builtin_cpu_init();
    if (__builtin_cpu_supports("ssse3") && __builtin_cpu_supports("sse4.1") && __builtin_cpu_supports("sse4.2") && __builtin_cpu_supports("popcnt"))
        return;
    if (write(2, LINE, sizeof LINE - 1) < 0) abort();
    _exit(1);
}
