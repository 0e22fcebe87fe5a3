/* Asks gs1_picture about damaged and hostile pictures: damaged [SECONDS] [SEED]
 *
 * Labels that are turned, blurred, dimmed, inverted, cut and covered by noise; stripes; noise alone; sizes, strides, counts and levels that
 * do not fit. Memory ends where it is lent. Each call must end within LIMIT seconds of processor time, leave what was not lent as it was, and
 * answer with whole lines, `none` or a refusal. The last line is the counts. */
#include "../embed/lent.h"
#include <inttypes.h>
#include <math.h>
#include <time.h>

enum { LIMIT = 5, MOST = 1600 * 1200 };

static uint64_t state;

/* A number below a limit, by xorshift. */
static uint32_t below(uint32_t limit) {
    state ^= state << 13, state ^= state >> 7, state ^= state << 17;
    return (uint32_t)((state >> 32) % limit);
}

static uint8_t grey[MOST], other[MOST];
static uint32_t width, height;

static void draw_labels(void) {
    static const struct { enum gs1_kind kind; const char *text; int across; } labels[] = {
        {GS1_EAN13, "9501101530003", 113}, {GS1_UPCA, "614141000036", 113}, {GS1_EAN8, "96385074", 81}, {GS1_UPCE, "01234565", 67},
        {GS1_ITF14, "19501101530000", 155}, {GS1_GS1128, "10AB\x1d" "21C", 178}};
    for (uint32_t left = 1 + below(6); left; left--) {
        uint32_t which = below(6), dots = 1 + below(4);
        double turn = below(4) ? below(628) / 100.0 : 0;
        draw(grey, (int)width, (int)height, labels[which].kind, labels[which].text, (int)dots, labels[which].across * (int)dots + (int)below(40),
             20 + (int)below(150), (int)below(width), (int)below(height), cos(turn), sin(turn));
    }
}

static void draw_stripes(void) {
    double turn = below(628) / 100.0, across = cos(turn) / (1 + below(60) / 4.0), down = sin(turn) / (1 + below(60) / 4.0);
    for (uint32_t y = 0; y < height; y++)
        for (uint32_t x = 0; x < width; x++) grey[y * width + x] = (uint8_t)(127 + 100 * sin(x * across + y * down));
}

static void blur(void) {
    uint32_t far = 1 + below(4);
    memcpy(other, grey, (size_t)width * height);
    for (uint32_t y = 0; y < height; y++)
        for (uint32_t x = 0; x < width; x++) {
            uint32_t sum = 0, count = 0;
            for (uint32_t u = x < far ? 0 : x - far; u <= x + far && u < width; u++) sum += other[y * width + u], count++;
            grey[y * width + x] = (uint8_t)(sum / count);
        }
}

static void damage(void) {
    size_t dots = (size_t)width * height;
    uint32_t kind = below(8), much = 1 + below(120);
    if (kind == 0) blur();
    for (size_t i = 0; kind == 1 && i < dots; i++) grey[i] = (uint8_t)(255 - grey[i]);
    for (size_t i = 0; kind == 2 && i < dots; i++) grey[i] = (uint8_t)(grey[i] * (100 - much / 2) / 100 + below(much));
    for (size_t i = 0; kind == 3 && i < dots; i++) grey[i] = (uint8_t)(grey[i] * (40 + 200 * (i % width) / width) / 255);
    for (uint32_t left = kind == 4 ? much : 0; left; left--) {
        uint32_t x = below(width), y = below(height), across = 1 + below(40), down = 1 + below(40), value = below(256);
        for (uint32_t v = y; v < y + down && v < height; v++)
            for (uint32_t u = x; u < x + across && u < width; u++) grey[v * width + u] = (uint8_t)value;
    }
    for (uint32_t left = kind == 5 ? much * 50 : 0; left; left--) grey[below((uint32_t)dots)] = (uint8_t)below(256);
    for (uint32_t y = 0; kind == 6 && y + 1 < height; y++) {
        uint32_t by = (y * much / 7 + below(3)) % width;
        memcpy(other, grey + y * width, width);
        for (uint32_t x = 0; x < width; x++) grey[y * width + x] = other[(x + by) % width];
    }
    for (size_t i = 0; kind == 7 && i < dots; i++) grey[i] = grey[i] > much ? 255 : 0;
}

static void make(void) {
    uint32_t shape = below(20);
    width = 1 + below(shape ? 700 : 1600), height = 1 + below(shape ? 400 : 1200);
    if (shape == 1) width = 1 + below(65535), height = 1 + below(29);
    if (shape == 2) width = 1 + below(29), height = 1 + below(65535);
    memset(grey, (int)(150 + below(100)), (size_t)width * height);
    uint32_t content = below(10);
    if (content < 7) draw_labels();
    else if (content < 9) draw_stripes();
    else for (size_t i = 0; i < (size_t)width * height; i++) grey[i] = (uint8_t)below(256);
    for (uint32_t left = below(4); left; left--) damage();
}

/* Whether an answer is whole lines, each a symbol or the count of what was dropped, or `none`, or a refusal. */
static int is_answer(const uint8_t *out, size_t count) {
    if (count && out[count - 1] == '\n') return (out[0] >= '0' && out[0] <= '9') || !memcmp(out, "dropped ", 8);
    return (count == 4 && !memcmp(out, "none", 4)) || (count > 8 && !memcmp(out, "refused ", 8));
}

int main(int count, char **words) {
    static uint8_t out[1 << 16];
    double seconds = count > 1 ? atof(words[1]) : 20, slowest = 0;
    state = 0x9E3779B97F4A7C15u ^ (count > 2 ? strtoull(words[2], NULL, 10) : 83);
    long read = 0, misfits = 0;
    time_t end = time(NULL) + (time_t)seconds;
    while (time(NULL) < end) {
        make();
        struct asked q = of(grey, width, height);
        q.year = YEAR, q.out = out, q.room = below(3) ? sizeof out : below(300);
        q.level = (uint8_t)(below(3) ? 0 : below(256));
        int misfit = below(10) == 0;
        if (misfit) {
            uint32_t which = below(5);
            if (which == 0) q.values = below((uint32_t)q.values + 1);
            if (which == 1) q.stride = below(2 * width);
            if (which == 2) q.words = below((uint32_t)q.words + 1);
            if (which == 3) q.width = below(1 << 17);
            if (which == 4) q.height = below(1 << 17);
            misfits++;
        }
        clock_t begin = clock();
        ask(&q);
        double took = (double)(clock() - begin) / CLOCKS_PER_SEC;
        slowest = took > slowest ? took : slowest;
        checks++;
        if (took > LIMIT || (q.count <= q.room && !is_answer(out, q.count))) {
            wrong++;
            printf("wrong: picture %ld of %" PRIu32 " by %" PRIu32 " took %.1f s: %.*s\n", checks, width, height, took, (int)(q.count < 200 ? q.count : 200), (char *)out);
        }
        read += q.count && q.count <= q.room && out[q.count - 1] == '\n';
    }
    printf("%ld damaged and hostile pictures, %ld with numbers that do not fit, %ld read; the slowest took %.2f s; %ld wrong\n", checks, misfits, read, slowest, wrong);
    return wrong != 0;
}
