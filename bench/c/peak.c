/* Runs a command, and prints its peak memory in KiB: peak COMMAND.. */
#include <spawn.h>
#include <stdio.h>
#include <sys/resource.h>
#include <sys/wait.h>

int main(int count, char **words) {
    pid_t it;
    int status;
    struct rusage usage;
    char *none[] = {NULL};
    if (count < 2 || posix_spawn(&it, words[1], NULL, NULL, words + 1, none) || wait4(it, &status, 0, &usage) < 0 || status) return 1;
    return fprintf(stderr, "%ld\n", usage.ru_maxrss) < 0;
}
