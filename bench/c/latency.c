/* Sends lines to a command one at a time, each PAUSE microseconds after the last answer, and prints the median and the
   99th of 100 of the times for an answer, in microseconds: latency PAUSE COMMAND.. < LINES

   A line has at most 65,536 bytes, and the command answers it by one line. There are at most 65,536 lines. */
#include <stdio.h>
#include <stdlib.h>
#include <string.h>
#include <sys/wait.h>
#include <time.h>
#include <unistd.h>

enum { LONGEST = 65536 };

static void fail(const char *what)
{
    perror(what);
    exit(1);
}

static double now(void)
{
    struct timespec it;
    clock_gettime(CLOCK_MONOTONIC, &it);
    return it.tv_sec * 1e6 + it.tv_nsec / 1e3;
}

static int compare(const void *left, const void *right)
{
    double a = *(const double *)left, b = *(const double *)right;
    return (a > b) - (a < b);
}

/* Writes a line, and reads until one has come back. How long that took. */
static double answered(int to, int from, const char *line, size_t length)
{
    static char answer[LONGEST];
    ssize_t got;
    double start = now();
    if (write(to, line, length) != (ssize_t)length)
        fail("write");
    do {
        if ((got = read(from, answer, sizeof answer)) <= 0)
            fail("read");
    } while (answer[got - 1] != '\n');
    return now() - start;
}

int main(int argc, char **argv)
{
    static char line[LONGEST + 2];
    int in[2], out[2], status;
    static double taken[LONGEST];
    size_t count = 0;
    if (argc < 3) {
        fputs("latency PAUSE COMMAND.. < LINES\n", stderr);
        return 64;
    }
    useconds_t pause = (useconds_t)atoi(argv[1]);
    if (pipe(in) || pipe(out))
        fail("pipe");
    pid_t child = fork();
    if (child < 0)
        fail("fork");
    if (child == 0) {
        dup2(in[0], 0);
        dup2(out[1], 1);
        close(in[0]), close(in[1]), close(out[0]), close(out[1]);
        execvp(argv[2], argv + 2);
        fail(argv[2]);
    }
    close(in[0]), close(out[1]);
    while (count < LONGEST && fgets(line, sizeof line, stdin)) {
        if (pause)
            usleep(pause);
        taken[count++] = answered(in[1], out[0], line, strlen(line));
    }
    close(in[1]);
    if (waitpid(child, &status, 0) < 0 || status != 0 || count == 0) {
        fputs("the command failed, or there was no line\n", stderr);
        return 1;
    }
    qsort(taken, count, sizeof *taken, compare);
    printf("%.0f %.0f\n", taken[count / 2], taken[count * 99 / 100]);
    return 0;
}
