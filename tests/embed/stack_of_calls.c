/* Counts the stack that each call of gs1.h takes, other than gs1_picture (picture_calls.c), on its dearest inputs: docs/C.md says how much. */
#define _GNU_SOURCE
#include "gs1.h"
#include <pthread.h>
#include <stdio.h>
#include <stdlib.h>
#include <string.h>
#include <sys/mman.h>

enum { MOST_STACK = 48 * 1024, MOST_OF_DRAW = 160 * 1024, STACK = 1024 * 1024, PAINT = 0xa5, YEAR = GS1_EVERY_AI | 2026 };

static const char STRING[] = "0109501101530003" "3103001750" "390201995\x1d" "17261231" "10LOT7\x1d" "7007260228260301\x1d" "21SERIAL";
static const char LINK[] = "https://id.gs1.org/some/path/01/9501101530003/10/LOT%37/21/SERIAL?17=261231&3103=001750&7007=260228260301&x=y";
static const char PRINTED[] = "(01) 0 9501101 53000 3 (3103)001750 (3902)01995 (17)261231 (10)LOT(7) (7007)260228260301 (310)001750";
static uint16_t widths[600];
static uint8_t bits[100], out[1 << 16];
static struct gs1_answer answer;

static void nothing(const uint8_t *text, size_t length) { (void)text, (void)length; }
static void row(const uint8_t *text, size_t length) { (void)text, gs1_row(widths, length, YEAR, out, sizeof out); }
static void row_elements(const uint8_t *text, size_t length) { (void)text, gs1_row_elements(widths, length, YEAR, out, sizeof out); }
static void find(const uint8_t *text, size_t length) { (void)text, gs1_find(widths, length, YEAR, out, sizeof out); }
static void dots(const uint8_t *text, size_t length) { gs1_dots(text, 8 * length, YEAR, out, sizeof out); }
static void dots_elements(const uint8_t *text, size_t length) { gs1_dots_elements(text, 8 * length, YEAR, out, sizeof out); }
static void find_dots(const uint8_t *text, size_t length) { gs1_find_dots(text, 8 * length, YEAR, out, sizeof out); }
static void date(const uint8_t *text, size_t length) { gs1_date(text, length, YEAR, out, sizeof out); }
static void scan(const uint8_t *text, size_t length) { gs1_scan(text, length, YEAR, out, sizeof out); }
static void gtin(const uint8_t *text, size_t length) { gs1_gtin(text, length, out, sizeof out); }
static void digit(const uint8_t *text, size_t length) { gs1_digit(text, length, out, sizeof out); }
static void text_hri(const uint8_t *text, size_t length) { gs1_text(text, length, YEAR, out, sizeof out); }
static void text_elements(const uint8_t *text, size_t length) { gs1_text_elements(text, length, YEAR, out, sizeof out); }
static void label(const uint8_t *text, size_t length) { gs1_label(GS1_GS1128, text, length, YEAR, 1, 800, 60, out, sizeof out); }
static void symbol(const uint8_t *text, size_t length) { gs1_symbol(GS1_GS1128, text, length, YEAR, out, sizeof out); }
static void read_message(const uint8_t *text, size_t length) { gs1_read_message(text, length, YEAR, &answer); }
static void read_elements(const uint8_t *text, size_t length) { gs1_read_elements(text, length, YEAR, &answer); }
static void read_gtin(const uint8_t *text, size_t length) { gs1_read_gtin(text, length, YEAR, &answer); }
static void read_text(const uint8_t *text, size_t length) { gs1_read_text(text, length, YEAR, &answer); }
static void read_row(const uint8_t *text, size_t length) { (void)text, gs1_read_row(widths, length, YEAR, &answer); }
static void read_dots(const uint8_t *text, size_t length) { gs1_read_dots(text, 8 * length, YEAR, &answer); }
static void read_data(const uint8_t *text, size_t length) { gs1_read_data(text, length, YEAR, &answer); }
static void format(const uint8_t *text, size_t length) { read_message(text, length), gs1_format(&answer, GS1_AS_DATA, out, sizeof out); }
static void read_messages(const uint8_t *text, size_t length) { gs1_read_messages(text, length, YEAR, &answer, 1, NULL); }
static void read_gtins(const uint8_t *text, size_t length) { gs1_read_gtins(text, length, YEAR, &answer, 1, NULL); }
static void scan_text(const uint8_t *text, size_t length) {
    read_message(text, length), gs1_scan_text(&answer, (const uint8_t *)"]d2", 3, YEAR, out, sizeof out);
}
static void link_of(const uint8_t *text, size_t length) {
    read_message(text, length), gs1_link(&answer, (const uint8_t *)"https://id.gs1.org", 18, YEAR, out, sizeof out);
}
static void compose(const uint8_t *text, size_t length) {
    struct gs1_element elements[48] = {0};
    read_message(text, length);
    for (unsigned i = 0; i < answer.count; i++)
        elements[i].ai = (struct gs1_bytes){answer.text + answer.element[i].ai, (size_t)(answer.element[i].value - answer.element[i].ai)},
        elements[i].value = (struct gs1_bytes){answer.text + answer.element[i].value, (size_t)(answer.element[i].end - answer.element[i].value)};
    struct gs1_answer composed;
    gs1_compose(elements, answer.count, YEAR, &composed);
}
static void gtin_as(const uint8_t *text, size_t length) { read_message(text, length), gs1_use_of_gtin(&answer), gs1_gtin_as(&answer, 13, out, sizeof out); }
static void unit(const uint8_t *text, size_t length) { gs1_unit(text, length, out, sizeof out); }
static void conflicts(const uint8_t *text, size_t length) { read_message(text, length), gs1_conflicts(&answer, (struct gs1_conflict *)out, 48); }

static void draw(const uint8_t *text, size_t length) {
    static const struct gs1_font font = {.other = 8192, .ascent = 15893, .descent = 3769, .digits = 12124};
    static const struct gs1_look look = {.dots = 8, .width = 1000, .height = 600, .price_first = 1, .regular = font, .bold = font};
    static const uint32_t letters[] = {'1', '.', '9', '0'};
    static struct gs1_part parts[GS1_PARTS];
    struct gs1_letters few = {letters, 4};
    struct gs1_article article = {{text, length}, few, few, few, few, few, few, few, few, GS1_GS1128, 0};
    struct gs1_measure measure;
    struct gs1_plan plan;
    struct gs1_drawing drawing;
    if (gs1_measure(&look, &article, YEAR, &measure) || gs1_plan(&look, &measure, 1, &plan) ||
        gs1_draw(&look, &plan, &article, YEAR, out, sizeof out, parts, GS1_PARTS, &drawing)) abort();
}

struct asked {
    const char *name;
    void (*call)(const uint8_t *text, size_t length);
    const void *text;
    size_t length;
};

static void *ask(void *asked) {
    const struct asked *it = asked;
    it->call(it->text, it->length);
    return NULL;
}

/* The bytes that a thread which makes the call writes on its stack. */
static size_t stack_of(struct asked it) {
    uint8_t *stack = mmap(NULL, STACK, PROT_READ | PROT_WRITE, MAP_PRIVATE | MAP_ANONYMOUS, -1, 0);
    pthread_attr_t attributes;
    pthread_t thread;
    if (stack == MAP_FAILED) abort();
    memset(stack, PAINT, STACK);
    pthread_attr_init(&attributes);
    if (pthread_attr_setstack(&attributes, stack, STACK) || pthread_create(&thread, &attributes, ask, &it)) abort();
    pthread_join(thread, NULL);
    size_t left = 0;
    while (left < STACK && stack[left] == PAINT) left++;
    munmap(stack, STACK);
    return STACK - left;
}

int main(int count, char **words) {
    const char *line = "]C1 01=09501101530003\t10=LOT7\t17=261231";
    /* The middle row of a label, as dots and as widths: a PBM image ends with its 60 rows. */
    size_t image = gs1_label(GS1_GS1128, (const uint8_t *)STRING, 26, YEAR, 1, 8 * sizeof bits, 60, out, sizeof out), runs = 0;
    if (image > sizeof out || gs1_status(out, image)) abort();
    memcpy(bits, out + image - 30 * sizeof bits, sizeof bits);
    for (size_t i = 0, dark = 0; i < 8 * sizeof bits; i++) {
        size_t here = bits[i / 8] >> (7 - i % 8) & 1;
        runs += here != dark, dark = here, widths[runs]++;
    }
    const struct asked all[] = {
        {"gs1_row", row, widths, runs + 1}, {"gs1_row_elements", row_elements, widths, runs + 1}, {"gs1_find", find, widths, runs + 1},
        {"gs1_dots", dots, bits, sizeof bits}, {"gs1_dots_elements", dots_elements, bits, sizeof bits}, {"gs1_find_dots", find_dots, bits, sizeof bits},
        {"gs1_date", date, "7007260228260301", 16}, {"gs1_scan", scan, LINK, sizeof LINK - 1}, {"gs1_gtin", gtin, "9501101530003", 13},
        {"gs1_digit", digit, "950110153000", 12}, {"gs1_text", text_hri, STRING, sizeof STRING - 1},
        {"gs1_text_elements", text_elements, STRING, sizeof STRING - 1}, {"gs1_label", label, STRING, 26}, {"gs1_symbol", symbol, STRING, 26},
        {"gs1_read_message", read_message, LINK, sizeof LINK - 1}, {"gs1_read_elements", read_elements, STRING, sizeof STRING - 1},
        {"gs1_read_gtin", read_gtin, "9501101530003", 13}, {"gs1_read_text", read_text, PRINTED, sizeof PRINTED - 1},
        {"gs1_read_row", read_row, widths, runs + 1}, {"gs1_read_dots", read_dots, bits, sizeof bits},
        {"gs1_read_data", read_data, line, strlen(line)}, {"gs1_format", format, LINK, sizeof LINK - 1},
        {"gs1_conflicts", conflicts, LINK, sizeof LINK - 1}, {"gs1_read_messages", read_messages, LINK, sizeof LINK - 1},
        {"gs1_read_gtins", read_gtins, "9501101530003", 13}, {"gs1_scan_text", scan_text, LINK, sizeof LINK - 1}, {"gs1_link", link_of, LINK, sizeof LINK - 1},
        {"gs1_compose", compose, LINK, sizeof LINK - 1}, {"gs1_gtin_as", gtin_as, LINK, sizeof LINK - 1}, {"gs1_unit", unit, "3103", 4},
    };
    size_t most = 0, empty = stack_of((struct asked){"nothing", nothing, NULL, 0});
    for (size_t i = 0; i < sizeof all / sizeof *all; i++) {
        size_t stack = stack_of(all[i]) - empty;
        if (count > 1 && words[1]) printf("%s %zu\n", all[i].name, stack);
        most = stack > most ? stack : most;
    }
    printf("%zu calls: at most %zu bytes of stack, of %d\n", sizeof all / sizeof *all, most, MOST_STACK);
    size_t drawn = stack_of((struct asked){"gs1_draw", draw, STRING, 26}) - empty;
    printf("gs1_draw: %zu bytes of stack, of %d\n", drawn, MOST_OF_DRAW);
    return most > MOST_STACK || drawn > MOST_OF_DRAW;
}
