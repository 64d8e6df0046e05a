/* Runs a command, and writes to the descriptor COUNT how many octets of memory the largest of its processes held. The kernel counts the
   memory of the process that starts another one too, and this program has little. Each process may take SECONDS of the processor. */
#include <stdio.h>
#include <stdlib.h>
#include <sys/resource.h>
#include <sys/wait.h>
#include <unistd.h>

int main(int count, char **words) {
    int status, file = atoi(getenv("COUNT"));
    if (count < 2) return 125;
    rlim_t seconds = atoi(getenv("SECONDS"));
    if (setrlimit(RLIMIT_CPU, &(struct rlimit){seconds, seconds + 1})) return 125;
    pid_t child = fork();
    if (child == 0) {
        close(file);
        execvp(words[1], words + 1);
        _exit(127);
    }
    struct rusage used;
    if (child < 0 || wait4(child, &status, 0, &used) != child) return 126;
    dprintf(file, "%ld", used.ru_maxrss * 1024);
    return WIFEXITED(status) ? WEXITSTATUS(status) : 128 + WTERMSIG(status);
}
