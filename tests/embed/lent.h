/* Pictures for gs1_picture, in memory that ends where it is lent: a byte read or written behind it ends the test, one written before it is
 * counted. */
#ifndef LENT_H
#define LENT_H
#define _GNU_SOURCE
#include "gs1.h"
#include <stdio.h>
#include <stdlib.h>
#include <string.h>
#include <sys/mman.h>

enum { YEAR = 2026, PAINT = 0xa5, PAGE = 4096 };

static long checks, wrong;

/* Bytes of a mapping: the last ones before a page that nobody may touch. */
struct lent {
    uint8_t *mapping, *bytes;
    size_t length;
};

static inline struct lent lend(size_t bytes) {
    struct lent l = {.length = (bytes / PAGE + 3) * PAGE};
    l.mapping = mmap(NULL, l.length, PROT_READ | PROT_WRITE, MAP_PRIVATE | MAP_ANONYMOUS, -1, 0);
    if (l.mapping == MAP_FAILED || mprotect(l.mapping + l.length - PAGE, PAGE, PROT_NONE)) abort();
    l.bytes = l.mapping + l.length - PAGE - bytes;
    return l;
}

static inline void give_back(struct lent l) { munmap(l.mapping, l.length); }

/* A question, and its answer. */
struct asked {
    const uint8_t *grey;
    uint32_t width, height;
    size_t stride, values, words, room;
    uint8_t level;
    uint16_t year;
    size_t count, stack;
    uint8_t *out;
};

static inline void ask(struct asked *q) {
    struct lent grey = lend(q->values), memory = lend(4 * q->words), out = lend(q->room);
    if (q->values) memcpy(grey.bytes, q->grey, q->values);
    memset(memory.mapping, PAINT, memory.length - PAGE);
    memset(out.mapping, '.', out.length - PAGE);
    q->count = gs1_picture(grey.bytes, q->values, q->width, q->height, q->stride, q->level, q->year, (uint32_t *)(void *)memory.bytes, q->words,
                           out.bytes, q->room);
    for (uint8_t *before = memory.mapping; before < memory.bytes; before++) wrong += *before != PAINT;
    for (uint8_t *before = out.mapping; before < out.bytes; before++) wrong += *before != '.';
    wrong += q->values && memcmp(grey.bytes, q->grey, q->values);
    memcpy(q->out, out.bytes, q->room);
    give_back(grey), give_back(memory), give_back(out);
}

static inline struct asked of(const uint8_t *grey, uint32_t width, uint32_t height) {
    return (struct asked){.grey = grey, .width = width, .height = height, .stride = width, .values = (size_t)width * height,
                          .words = gs1_picture_room(width, height)};
}

/* Puts a label that fits its cell into a picture, its left upper corner at a place, turned by an angle whose cosine and sine are these. */
static inline void draw(uint8_t *grey, int width, int height, enum gs1_kind kind, const char *text, int dots, int across, int down, int x, int y, double cos, double sin) {
    static uint8_t image[1 << 20];
    size_t length = gs1_label(kind, (const uint8_t *)text, strlen(text), YEAR, (uint16_t)dots, (uint16_t)across, (uint16_t)down, image, sizeof image);
    size_t row = (size_t)(across + 7) / 8;
    if (length < row * (size_t)down) return;
    const uint8_t *bits = image + length - row * (size_t)down;
    for (int v = 0; v < height; v++)
        for (int u = 0; u < width; u++) {
            int i = (int)((u - x) * cos + (v - y) * sin + 1000) - 1000, j = (int)((v - y) * cos - (u - x) * sin + 1000) - 1000;
            if (i >= 0 && i < across && j >= 0 && j < down)
                grey[v * width + u] = bits[(size_t)j * row + (size_t)i / 8] >> (7 - i % 8) & 1 ? 40 : 220;
        }
}

#endif
