/* Times gs1_row and gs1_find beside the limit's answers: library YEAR < ROWS, with lines of `lanes`. First it compares each answer of gs1_row. Times
 * are the least processor times of 40 runs. It also times a search in rows of 599 runs with random widths. */
#include "rows.c"
#include "gs1.h"
#include <time.h>

enum { TRIES = 40, NOISE = 200, NOISE_RUNS = 599 };

static struct row *all;
static size_t many, sum;
static uint16_t noise[NOISE][NOISE_RUNS];

/* What gs1_row answers: it takes widths that are not checked. */
static char *put_row(char *out, const uint16_t *w, int count) {
    uint32_t dots = 0, zeros = 0;
    for (int i = 0; i < count; i++) dots += w[i], zeros += !w[i];
    if (count % 2 == 0 || (zeros && zeros > (uint32_t)(!w[0] + (count > 1 && !w[count - 1])))) return put_refusal(out, 18, -1);
    return dots > 65535 ? put_refusal(out, 17, -1) : put_answer(out, w, count, dots);
}

static void limit_alone(void) {
    char out[LINE];
    for (size_t i = 0; i < many; i++) sum += (size_t)(put_row(out, all[i].widths, all[i].count) - out);
}

static void row_alone(void) {
    uint8_t out[GS1_LINE];
    for (size_t i = 0; i < many; i++) sum += gs1_row(all[i].widths, (size_t)all[i].count, (uint16_t)year, out, sizeof out);
}

static void find_alone(void) {
    uint8_t out[8 * GS1_FOUND];
    for (size_t i = 0; i < many; i++) sum += gs1_find(all[i].widths, (size_t)all[i].count, (uint16_t)year, out, sizeof out);
}

static void find_in_noise(void) {
    uint8_t out[GS1_FOUND];
    for (size_t i = 0; i < NOISE; i++) sum += gs1_find(noise[i], NOISE_RUNS, (uint16_t)year, out, sizeof out);
}

static double now(void) {
    struct timespec time;
    clock_gettime(CLOCK_PROCESS_CPUTIME_ID, &time);
    return (double)time.tv_sec + (double)time.tv_nsec / 1e9;
}

int main(int count, char **words) {
    static char line[1 << 16];
    void (*const calls[])(void) = {limit_alone, row_alone, find_alone, find_in_noise};
    double least[] = {1e9, 1e9, 1e9, 1e9};
    int fault;
    make_tables();
    year = atoi(words[count - 1]);
    while (fgets(line, sizeof line, stdin)) {
        if (many % 1024 == 0 && !(all = realloc(all, (many + 1024) * sizeof *all))) return perror("realloc"), 1;
        read_record(line, 16, &all[many], &fault);
        many += !fault && all[many].count <= MOST_RUNS + 2;
    }
    for (size_t i = 0; i < many; i++) {
        char ours[LINE], theirs[GS1_LINE];
        size_t length = gs1_row(all[i].widths, (size_t)all[i].count, (uint16_t)year, (uint8_t *)theirs, sizeof theirs);
        if (put_row(ours, all[i].widths, all[i].count) != ours + length || memcmp(ours, theirs, length))
            return fprintf(stderr, "row %zu has another answer\n", i), 1;
    }
    srand(7);
    for (size_t i = 0; i < NOISE; i++) for (size_t k = 0; k < NOISE_RUNS; k++) noise[i][k] = (uint16_t)(1 + rand() % 8);
    for (int try = 0; try < TRIES; try++)
        for (int i = 0; i < 4; i++) {
            double from = now();
            calls[i]();
            if (now() - from < least[i]) least[i] = now() - from;
        }
    for (int i = 0; i < 3; i++) printf("%.0f ", (double)many / least[i]);
    return printf("%.2f\n", 1e6 * least[3] / NOISE), sum == 0;
}
