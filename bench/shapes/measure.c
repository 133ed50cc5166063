// Runs a program and tells its processor milliseconds, the most memory that it held in KiB, and its status.
//
//     measure PROGRAM WORDS.. 3>FIGURES
#include <stdio.h>
#include <stdlib.h>
#include <sys/resource.h>
#include <sys/wait.h>
#include <unistd.h>

static double millis(struct timeval time) {
    return 1e3 * (double)time.tv_sec + (double)time.tv_usec / 1e3;
}

int main(int count, char **words) {
    if (count < 2)
        return 1;
    pid_t child = fork();
    if (child == 0) {
        execv(words[1], words + 1);
        _exit(127);
    }
    int status = 0;
    struct rusage used;
    if (child < 0 || wait4(child, &status, 0, &used) < 0)
        return 1;
    int end = WIFEXITED(status) ? WEXITSTATUS(status) : 128 + WTERMSIG(status);
    dprintf(3, "%.0f %ld %d\n", millis(used.ru_utime) + millis(used.ru_stime), used.ru_maxrss, end);
    return 0;
}
