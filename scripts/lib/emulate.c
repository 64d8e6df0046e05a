/* Becomes the emulator EMULATOR, which runs PROGRAM with the words of this program. A program for this machine's processor is a better
   wrapper than a script: a shell opens a descriptor of its own, and changes closed streams. */
#include <stdlib.h>
#include <unistd.h>

int main(int count, char **words) {
    char **all = calloc((size_t)count + 3, sizeof *all);
    if (!all) return 126;
    all[0] = EMULATOR;
    all[1] = PROGRAM;
    for (int at = 1; at < count; at++) all[at + 1] = words[at];
    execv(EMULATOR, all);
    return 127;
}
