/* Reads pictures from C: labels that gs1_label draws, upright and turned, and data that are no pictures. Buffers end where memory ends, so a byte
 * read or written past them ends the test. It counts the stack of each call. */
#include "lent.h"
#include <pthread.h>

enum { MOST_STACK = 128000, STACK = 1024 * 1024 };

static void *ask_in_thread(void *q) {
    ask(q);
    return NULL;
}

/* Asks on a stack that is painted, and counts how much of it was written over. */
static void ask_counting(struct asked *q) {
    uint8_t *stack = mmap(NULL, STACK, PROT_READ | PROT_WRITE, MAP_PRIVATE | MAP_ANONYMOUS, -1, 0);
    pthread_attr_t attributes;
    pthread_t thread;
    if (stack == MAP_FAILED) abort();
    memset(stack, PAINT, STACK);
    pthread_attr_init(&attributes);
    if (pthread_attr_setstack(&attributes, stack, STACK) || pthread_create(&thread, &attributes, ask_in_thread, q)) abort();
    pthread_join(thread, NULL);
    size_t left = 0;
    while (left < STACK && stack[left] == PAINT) left++;
    q->stack = STACK - left;
    munmap(stack, STACK);
}

static void want(const char *what, struct asked q, const char *wanted) {
    uint8_t out[8192];
    q.out = out;
    q.room = q.room ? q.room : sizeof out;
    q.year = q.year ? q.year : YEAR;
    ask(&q);
    size_t length = strlen(wanted);
    if (q.count != length || memcmp(out, wanted, length)) {
        wrong++;
        printf("wrong: %s: %.*s\n", what, (int)(q.count < q.room ? q.count : q.room), (char *)out);
    }
    checks++;
}

/* The most that the corners of the one symbol of an answer are from those of the bars of a label that is drawn so, in dots; a million if
 * there is no symbol, or more than one. The bars stand 11 modules from the left, and a module from above and from below. */
static double astray(const char *answer, int dots, int down, int x, int y, double cos, double sin) {
    static const int right[] = {0, 1, 1, 0}, low[] = {0, 0, 1, 1};
    unsigned at[8];
    if (sscanf(answer, "%u %u %u %u %u %u %u %u", at, at + 1, at + 2, at + 3, at + 4, at + 5, at + 6, at + 7) != 8 ||
        strchr(answer, '\n') != answer + strlen(answer) - 1)
        return 1e6;
    double most = 0;
    for (int i = 0; i < 4; i++) {
        double u = dots * (11 + 95 * right[i]), v = low[i] ? down - dots : dots;
        double across = at[2 * i] / 256.0 - (x + u * cos - v * sin), along = at[2 * i + 1] / 256.0 - (y + u * sin + v * cos);
        double square = across * across + along * along;
        most = square > most ? square : most;
    }
    // The root, to a tenth.
    double root = 0;
    while (root * root < most) root += 0.1;
    return root;
}

static void refuse(const uint8_t *grey) {
    struct asked q = of(grey, 700, 300);
    want("no dot", of(grey, 0, 0), "none");
    want("no row", of(grey, 300, 0), "none");
    want("rows of no dot", of(grey, 0, 300), "none");
    want("one dot", of(grey, 1, 1), "none");
    want("a level", (struct asked){.grey = grey, .width = 1, .height = 1, .stride = 1, .values = 1, .words = gs1_picture_room(1, 1), .level = 255}, "none");
    want("too wide", (struct asked){.grey = grey, .width = 65536, .height = 1, .stride = 65536, .values = 65536, .words = 400000}, "refused 17 TooWide");
    want("too high", (struct asked){.grey = grey, .width = 1, .height = 65536, .stride = 1, .values = 65536, .words = 400000}, "refused 17 TooWide");
    want("far too wide", (struct asked){.grey = grey, .width = UINT32_MAX, .height = UINT32_MAX, .stride = SIZE_MAX}, "refused 17 TooWide");
    q.values--;
    want("a value short", q, "refused 18 BadRuns");
    q.values = 0;
    want("no values", q, "refused 18 BadRuns");
    q = of(grey, 700, 300), q.stride = 699;
    want("a stride below the width", q, "refused 18 BadRuns");
    q.stride = SIZE_MAX;
    want("a stride that is too long", q, "refused 18 BadRuns");
    q = of(grey, 700, 300), q.words--;
    want("a word short", q, "refused 43 NoMemory");
    q.words = 0;
    want("no words", q, "refused 43 NoMemory");
    q = of(grey, 700, 300), q.year = 1950;
    want("no year", q, "refused 42 Words");
    checks++, wrong += gs1_picture_room(65536, 1) != 0 || gs1_picture_room(1, 65536) != 0 || gs1_picture_room(0, 0) == 0;
}

int main(void) {
    static uint8_t grey[1200 * 1600], wide[65535 * 4];
    size_t most = 0;
    uint8_t out[8192];
    memset(grey, 220, sizeof grey);
    draw(grey, 700, 300, GS1_EAN13, "9501101530003", 3, 400, 140, 100, 80, 1, 0);
    // The bars begin 11 modules to the right, and stand in all rows but a module's above and below.
    want("a label", of(grey, 700, 300), "34048 21248 107008 21248 107008 55552 34048 55552 134 ]E0 01=09501101530003\n");
    struct asked level = of(grey, 700, 300);
    level.level = 128;
    want("a label by a level", level, "34048 21248 107008 21248 107008 55552 34048 55552 134 ]E0 01=09501101530003\n");
    level.level = 30;
    want("a label by a level below it", level, "none");
    level = of(grey, 700, 300), level.values = 700 * 299 + 690, level.width = 690;
    want("as many values as are read", level, "34048 21248 107008 21248 107008 55552 34048 55552 134 ]E0 01=09501101530003\n");
    refuse(grey);
    memset(wide, 220, sizeof wide);
    want("the widest", of(wide, 65535, 4), "none");
    want("the highest", of(wide, 4, 65535), "none");

    // 15 by 16 labels are more than are reported.
    static uint8_t lines[80000];
    memset(grey, 220, sizeof grey);
    for (int i = 0; i < 240; i++) draw(grey, 1320, 576, GS1_EAN8, "96385074", 1, 88, 22, i % 15 * 88, i / 15 * 36, 1, 0);
    struct asked many = of(grey, 1320, 576);
    many.year = YEAR, many.out = lines, many.room = sizeof lines;
    ask(&many);
    size_t ends = 0;
    for (size_t i = 0; i < many.count && i < sizeof lines; i++) ends += lines[i] == '\n';
    checks++;
    if (many.count > sizeof lines || ends != 193 || memcmp(lines + many.count - 11, "dropped 48\n", 11)) {
        wrong++;
        printf("wrong: %zu lines of 240 symbols, and %.11s", ends, (char *)lines + many.count - 11);
    }

    // The corners are those of the bars, however the label is turned: by 0, 10, 30, 45 and 80 degrees.
    for (int turn = 0; turn < 5; turn++) {
        static const double cos[] = {1, .98481, .86603, .70711, .17365}, sin[] = {0, .17365, .5, .70711, .98481};
        int x = 300, y = 100;
        memset(grey, 220, sizeof grey);
        draw(grey, 700, 600, GS1_EAN13, "9501101530003", 3, 400, 140, x, y, cos[turn], sin[turn]);
        struct asked q = of(grey, 700, 600);
        q.year = YEAR, q.out = out, q.room = sizeof out - 1;
        ask(&q);
        out[q.count < q.room ? q.count : q.room] = 0;
        double far = astray((char *)out, 3, 140, x, y, cos[turn], sin[turn]);
        checks++;
        if (far > 3) {
            wrong++;
            printf("wrong: corners %.1f dots from the bars, turned by cosine %.2f: %s\n", far, cos[turn], out);
        }
    }

    for (int turn = 0; turn < 12; turn++) {
        static const double cos[] = {1, .99619, .90631, .70711, 0, -1}, sin[] = {0, .08716, .42262, .70711, 1, 0};
        memset(grey, 220, sizeof grey);
        for (int i = 0; i < 9; i++) {
            int x = 200 + 420 * (i % 3) + (turn == 5) * 300, y = 100 + 320 * (i / 3) + (turn == 5) * 200;
            draw(grey, 1600, 1200, (enum gs1_kind)(i % 3 == 2 ? GS1_GS1128 : GS1_EAN13), i % 3 == 2 ? "10AB\x1d" "21C" : "9501101530003", 2, 290, 120,
                 turn == 4 || turn == 3 ? x + 150 : x, y, cos[turn % 6], sin[turn % 6]);
        }
        for (size_t i = 0; turn > 5 && i < sizeof grey; i++) grey[i] = (uint8_t)(grey[i] / 2 + (i * 2654435761u >> 13) % 60);
        struct asked q = of(grey, 1600, 1200);
        q.year = YEAR, q.out = out, q.room = sizeof out;
        ask_counting(&q);
        most = q.stack > most ? q.stack : most;
        size_t lines = 0;
        for (size_t i = 0; i < q.count && i < sizeof out; i++) lines += out[i] == '\n';
        checks++;
        if (q.count > sizeof out || (turn < 6 && lines < 6)) {
            wrong++;
            printf("wrong: %zu symbols of picture %d: %.*s\n", lines, turn, (int)q.count, (char *)out);
        }
    }
    printf("%ld pictures read from C, %ld wrong; at most %zu bytes of stack, of %d\n", checks, wrong, most, MOST_STACK);
    return wrong != 0 || most > MOST_STACK;
}
