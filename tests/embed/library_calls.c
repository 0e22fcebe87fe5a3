/* Calls the library from C. Without arguments it runs the worked cases, each with every buffer size from 0 to past its answer. With one of
 * these arguments it answers the lines of standard input, a line for each:
 *
 *   rows, dots        lines of `lanes`; the same as packed dots
 *   finds, dotfinds   the symbols of such rows, and an empty line after each row
 *   check             lines of `check`
 *   elements          element strings of every AI, read element by element
 *   titles            AIs, for their titles
 *   dates             a year, a comma and an element as a pair
 *   labels MODULE WIDTH HEIGHT   lines of `print`; it writes the images one after another
 *   time COUNT        the milliseconds of COUNT calls on such rows: gs1_find for lines that begin with `find`, gs1_row for others
 *   threads           whether several threads at once get the answers of one
 *
 * The year is 2026, except for `dates`. */
#include "gs1.h"
#include <pthread.h>
#include <stdio.h>
#include <stdlib.h>
#include <string.h>
#include <time.h>

enum { YEAR = 2026, MOST_RUNS = 70000 };

static long checks, wrong;

/* A question: which call, and what it is asked. */
struct asked {
    enum { ROW, ROW_ELEMENTS, FIND, DOTS, FIND_DOTS, DOTS_ELEMENTS, SCAN, DATE, GTIN, DIGIT, TEXT, TEXT_ELEMENTS, LABEL } call;
    const void *items;
    size_t count;
    unsigned year, kind, module_dots, width, height;
};

static size_t ask(const struct asked *q, uint8_t *out, size_t room) {
    switch (q->call) {
    case ROW: return gs1_row(q->items, q->count, (uint16_t)q->year, out, room);
    case ROW_ELEMENTS: return gs1_row_elements(q->items, q->count, (uint16_t)q->year, out, room);
    case FIND: return gs1_find(q->items, q->count, (uint16_t)q->year, out, room);
    case DOTS: return gs1_dots(q->items, (uint32_t)q->count, (uint16_t)q->year, out, room);
    case FIND_DOTS: return gs1_find_dots(q->items, (uint32_t)q->count, (uint16_t)q->year, out, room);
    case DOTS_ELEMENTS: return gs1_dots_elements(q->items, (uint32_t)q->count, (uint16_t)q->year, out, room);
    case SCAN: return gs1_scan(q->items, q->count, (uint16_t)q->year, out, room);
    case DATE: return gs1_date(q->items, q->count, (uint16_t)q->year, out, room);
    case GTIN: return gs1_gtin(q->items, q->count, out, room);
    case DIGIT: return gs1_digit(q->items, q->count, out, room);
    case TEXT: return gs1_text(q->items, q->count, (uint16_t)q->year, out, room);
    case TEXT_ELEMENTS: return gs1_text_elements(q->items, q->count, (uint16_t)q->year, out, room);
    case LABEL:
        return gs1_label((enum gs1_kind)q->kind, q->items, q->count, (uint16_t)q->year, (uint16_t)q->module_dots,
                         (uint16_t)q->width, (uint16_t)q->height, out, room);
    }
    abort();
}

/* Asks with buffers of each size from 0 to two past the answer; each is its own block, so that
 * the address sanitizer sees a byte past it. */
static void want(const char *what, const struct asked *asked, const void *wanted, size_t length) {
    struct asked q = *asked;
    size_t size = q.call <= FIND ? q.count * sizeof(uint16_t) : q.call <= DOTS_ELEMENTS ? (q.count + 7) / 8 : q.count;
    void *items = size ? malloc(size) : NULL;
    if (size) memcpy(items, asked->items, size);
    q.items = items;
    int bad = 0;
    for (size_t room = 0; room <= length + 2; room += room < 512 || room + 64 > length ? 1 : 61) {
        uint8_t *out = room ? malloc(room) : NULL;
        if (room) memset(out, '.', room);
        size_t count = ask(&q, out, room);
        bad |= count != length;
        size_t put = room >= length ? length : 0;
        bad |= put && memcmp(out, wanted, put);
        for (size_t i = put; i < room; i++) bad |= out[i] != '.';
        free(out);
        checks++;
    }
    bad |= size && memcmp(items, asked->items, size);
    free(items);
    if (bad) {
        wrong++;
        printf("wrong: %s\n", what);
    }
}

static void line(const char *what, struct asked q, const char *wanted) { want(what, &q, wanted, strlen(wanted)); }

static void gtin(const char *text, const char *wanted) {
    line(text, (struct asked){.call = GTIN, .items = text, .count = strlen(text)}, wanted);
}

static void digit(const char *text, const char *wanted) {
    line(text, (struct asked){.call = DIGIT, .items = text, .count = strlen(text)}, wanted);
}

static void text(const char *text, unsigned year, const char *wanted) {
    line(text, (struct asked){.call = TEXT, .items = text, .count = strlen(text), .year = year}, wanted);
}

static void row(const char *what, const uint16_t *widths, size_t count, unsigned year, const char *wanted) {
    line(what, (struct asked){.call = ROW, .items = widths, .count = count, .year = year}, wanted);
}

static void scan(const char *text, unsigned year, const char *wanted) {
    line(text, (struct asked){.call = SCAN, .items = text, .count = strlen(text), .year = year}, wanted);
}

static void date(const char *pair, unsigned year, const char *wanted) {
    line(pair, (struct asked){.call = DATE, .items = pair, .count = strlen(pair), .year = year}, wanted);
}

/* The dots of widths, packed; the bits behind the last are set. The answer is how many dots they are. */
static size_t pack(const uint16_t *widths, size_t count, uint8_t **bits) {
    size_t dots = 0, at = 0;
    for (size_t i = 0; i < count; i++) dots += widths[i];
    *bits = malloc(dots / 8 + 1);
    memset(*bits, 0xFF, dots / 8 + 1);
    for (size_t i = 0; i < count; i++)
        for (size_t k = 0; k < widths[i]; k++, at++)
            if (i % 2 == 0) (*bits)[at / 8] &= (uint8_t)~(0x80 >> at % 8);
    return dots;
}

static void dots(const char *what, const uint16_t *widths, size_t count, unsigned year, const char *wanted) {
    uint8_t *bits;
    size_t many = pack(widths, count, &bits);
    line(what, (struct asked){.call = DOTS, .items = bits, .count = many, .year = year}, wanted);
    free(bits);
}

static void label(unsigned kind, const char *text, unsigned year, unsigned dots, unsigned width, unsigned height,
                  const void *wanted, size_t length) {
    struct asked q = {LABEL, text, strlen(text), year, kind, dots, width, height};
    want(text, &q, wanted, length);
}

static void refused(unsigned kind, const char *text, unsigned year, unsigned dots, unsigned width, unsigned height,
                    const char *wanted) {
    label(kind, text, year, dots, width, height, wanted, strlen(wanted));
}

static const uint16_t EAN13[] = {11, 1, 1, 1, 1, 2, 3, 1, 1, 1, 2, 3, 1, 2, 2, 2, 2, 2, 2, 1, 1, 1, 2, 3, 2, 2, 2, 1, 1, 1, 1,
    1, 1, 1, 2, 3, 1, 1, 4, 1, 1, 3, 2, 1, 1, 3, 2, 1, 1, 3, 2, 1, 1, 1, 4, 1, 1, 1, 1, 1, 7};
enum { COUNT = sizeof EAN13 / sizeof *EAN13 };

/* 9501101530003 as an EAN-13 in a cell of 113 by 3 dots. */
static const uint8_t IMAGE[] = "P4\n113 3\n"
    "\x00\x00\x00\x00\x00\x00\x00\x00\x00\x00\x00\x00\x00\x00\x00"
    "\x00\x15\x8A\x76\x66\x53\x99\x54\xE8\x5C\xB9\x72\x85\x40\x00"
    "\x00\x00\x00\x00\x00\x00\x00\x00\x00\x00\x00\x00\x00\x00\x00";

static void cases(void) {
    uint16_t turned[COUNT], narrow[COUNT];
    for (size_t i = 0; i < COUNT; i++) turned[i] = EAN13[COUNT - 1 - i];
    memcpy(narrow, EAN13, sizeof EAN13);
    narrow[0] = 4;
    row("a row", EAN13, COUNT, YEAR, "]E0 (01)09501101530003");
    row("a turned row", turned, COUNT, YEAR, "]E0 (01)09501101530003");
    row("a narrow quiet zone", narrow, COUNT, YEAR, "refused 21 QuietZone");
    row("a blank row", (uint16_t[]){100}, 1, YEAR, "refused 19 Blank");
    row("two runs", (uint16_t[]){5, 3}, 2, YEAR, "refused 18 BadRuns");
    row("a run of no dot", (uint16_t[]){5, 0, 3}, 3, YEAR, "refused 18 BadRuns");
    row("no widths", EAN13, 0, YEAR, "refused 18 BadRuns");
    row("65,535 dots", (uint16_t[]){0, 65535, 0}, 3, YEAR, "refused 20 RunCount");
    row("65,536 dots", (uint16_t[]){0, 65535, 1}, 3, YEAR, "refused 17 TooWide");
    row("the year 1950", EAN13, COUNT, 1950, "refused 42 Words");
    row("the year 2150", EAN13, COUNT, 2150, "refused 42 Words");
    row("the year 1951", EAN13, COUNT, 1951, "]E0 (01)09501101530003");
    row("the year 2149", EAN13, COUNT, 2149, "]E0 (01)09501101530003");

    uint16_t *long_row = calloc(MOST_RUNS, sizeof *long_row);
    for (size_t i = 0; i < MOST_RUNS; i++) long_row[i] = 1;
    row("65,535 runs", long_row, 65535, YEAR, "refused 20 RunCount");
    row("65,537 runs", long_row, 65537, YEAR, "refused 17 TooWide");
    row("69,999 runs", long_row, 69999, YEAR, "refused 17 TooWide");

    dots("the dots of a row", EAN13, COUNT, YEAR, "]E0 (01)09501101530003");
    dots("those of a turned row", turned, COUNT, YEAR, "]E0 (01)09501101530003");
    dots("those of a narrow quiet zone", narrow, COUNT, YEAR, "refused 21 QuietZone");
    dots("light dots", (uint16_t[]){100}, 1, YEAR, "refused 19 Blank");
    dots("no dots", EAN13, 0, YEAR, "refused 19 Blank");
    dots("a dark dot", (uint16_t[]){0, 1}, 2, YEAR, "refused 20 RunCount");
    dots("65,535 dark dots", (uint16_t[]){0, 65535}, 2, YEAR, "refused 20 RunCount");
    dots("65,536 dark dots", (uint16_t[]){0, 65535, 0, 1}, 4, YEAR, "refused 17 TooWide");
    dots("65,535 dots in turn", long_row, 65535, YEAR, "refused 20 RunCount");
    dots("65,536 dots in turn", long_row, 65536, YEAR, "refused 17 TooWide");
    dots("597 dots in turn", long_row, 597, YEAR, "refused 21 QuietZone");
    dots("599 dots in turn", long_row, 599, YEAR, "refused 20 RunCount");
    dots("dots and the year 1950", EAN13, COUNT, 1950, "refused 42 Words");
    free(long_row);

    gtin("9501101530003", "gtin 09501101530003");
    gtin("96385074", "gtin 00000096385074");
    gtin("9501101530004", "refused 3 CheckDigit");
    gtin("950110153000X", "refused 2 NotDigit 12");
    gtin("123", "refused 1 Length");
    gtin("", "refused 1 Length");
    digit("950110153000", "digit 3");
    digit("", "refused 1 Length");
    digit("123456789012345678", "refused 1 Length");
    digit("12A", "refused 2 NotDigit 2");
    text("10AB\x1d" "17261231", YEAR, "hri (10)AB(17)261231");
    text("10AB\x1d" "17261231", 1950, "refused 42 Words");
    text("17250229", YEAR, "refused 9 ValueDate 0");
    text("10AB\x1d\x1d" "21C", YEAR, "refused 5 UnknownAi 5");
    text("0109501101530", YEAR, "refused 6 ValueLength 0");
    text("", YEAR, "refused 4 Empty");

    line("a row's elements", (struct asked){.call = ROW_ELEMENTS, .items = EAN13, .count = COUNT, .year = YEAR}, "]E0 01=09501101530003");
    line("no row's", (struct asked){.call = ROW_ELEMENTS, .items = EAN13, .count = 2, .year = YEAR}, "refused 18 BadRuns");
    uint8_t *bits;
    size_t dots_of_row = pack(EAN13, COUNT, &bits);
    line("the symbol of dots", (struct asked){.call = FIND_DOTS, .items = bits, .count = dots_of_row, .year = YEAR}, "0 61 ]E0 (01)09501101530003\n");
    line("that of no dots", (struct asked){.call = FIND_DOTS, .items = bits, .count = 0, .year = YEAR}, "");
    line("that and the year 1950", (struct asked){.call = FIND_DOTS, .items = bits, .count = dots_of_row, .year = 1950}, "refused 42 Words");
    line("the elements of dots", (struct asked){.call = DOTS_ELEMENTS, .items = bits, .count = dots_of_row, .year = YEAR}, "]E0 01=09501101530003");
    line("those of no dots", (struct asked){.call = DOTS_ELEMENTS, .items = bits, .count = 0, .year = YEAR}, "refused 19 Blank");
    free(bits);
    const char *lot = "10A(17)261231", *dated = "10A\x1d" "17261231";
    line(lot, (struct asked){.call = TEXT_ELEMENTS, .items = lot, .count = strlen(lot), .year = YEAR}, "data 10=A(17)261231");
    line(dated, (struct asked){.call = TEXT_ELEMENTS, .items = dated, .count = strlen(dated), .year = YEAR}, "data 10=A\t17=261231");
    scan("]E09501101530003", YEAR, "]E0 01=09501101530003");
    scan("]I109501101530003", YEAR, "]I1 01=09501101530003");
    scan("]E496385074", YEAR, "]E4 01=00000096385074");
    scan("]E496385075", YEAR, "refused 3 CheckDigit");
    scan("]E096385074", YEAR, "refused 1 Length");
    scan("]d210A\x1d" "17261231", YEAR, "]d2 10=A\t17=261231");
    scan("]E001234565", YEAR, "]E0 01=00012345000065");
    scan("]E009501101530003", YEAR, "refused 1 Length");
    scan("^10A^17261231\r\n", YEAR, "- 10=A\t17=261231");
    scan("9501101530003", YEAR, "- 01=09501101530003");
    scan("01234565", YEAR, "refused 40 Kind");
    scan("https://id.gs1.org/01/9501101530003/10/A%3DB?17=261231", YEAR, "- 01=09501101530003\t10=A=B\t17=261231");
    scan("]Q1https://id.gs1.org/01/9501101530003?17=260231", YEAR, "refused 9 ValueDate 1");
    scan("]Q1https://example.com/", YEAR, "refused 40 Kind");
    scan("]C117250229", YEAR, "refused 9 ValueDate 0");
    scan("]C1", YEAR, "refused 4 Empty");
    scan("]A010AB", YEAR, "refused 40 Kind");
    scan("]C", YEAR, "refused 40 Kind");
    scan("", YEAR, "refused 40 Kind");
    scan("]A0", 1950, "refused 42 Words");
    date("17=261231", YEAR, "date 2026-12-31");
    date("7003=2612312359", YEAR, "date 2026-12-31 23:59:00");
    date("8008=261231235958", YEAR, "date 2026-12-31 23:59:58");
    date("10=17=261231", YEAR, "none");
    date("", YEAR, "refused 4 Empty");
    date("17261231", YEAR, "refused 5 UnknownAi 0");
    date("17=270229", YEAR, "refused 9 ValueDate 0");
    date("17=261231", 2150, "refused 42 Words");

    /* Two symbols that share a light end: as many whole lines as there is room for. */
    uint16_t two[2 * COUNT - 1];
    memcpy(two, EAN13, sizeof EAN13);
    memcpy(two + COUNT - 1, EAN13, sizeof EAN13);
    const char *lines = "0 61 ]E0 (01)09501101530003\n60 61 ]E0 (01)09501101530003\n";
    size_t first = (size_t)(strchr(lines, '\n') - lines) + 1, all = strlen(lines);
    for (size_t room = 0; room <= all + 2; room++) {
        uint8_t *found = room ? malloc(room) : NULL;
        if (room) memset(found, '.', room);
        size_t put = room < first ? 0 : room < all ? first : all;
        int bad = gs1_find(two, 2 * COUNT - 1, YEAR, found, room) != all || (put && memcmp(found, lines, put));
        for (size_t i = put; i < room; i++) bad |= found[i] != '.';
        if (bad) wrong++, puts("wrong: two symbols");
        free(found);
        checks++;
    }

    /* The same as packed dots, and 300 of them: the row has 18,001 runs. */
    uint8_t *dots_of_two;
    size_t many_dots = pack(two, 2 * COUNT - 1, &dots_of_two);
    for (size_t room = 0; room <= all + 2; room++) {
        uint8_t *found = room ? malloc(room) : NULL;
        if (room) memset(found, '.', room);
        size_t put = room < first ? 0 : room < all ? first : all;
        int bad = gs1_find_dots(dots_of_two, (uint32_t)many_dots, YEAR, found, room) != all || (put && memcmp(found, lines, put));
        for (size_t i = put; i < room; i++) bad |= found[i] != '.';
        if (bad) wrong++, puts("wrong: two symbols of dots");
        free(found);
        checks++;
    }
    free(dots_of_two);
    uint16_t *wide = malloc((300 * (COUNT - 1) + 1) * sizeof *wide);
    for (size_t i = 0; i < 300; i++) memcpy(wide + i * (COUNT - 1), EAN13, sizeof EAN13);
    many_dots = pack(wide, 300 * (COUNT - 1) + 1, &dots_of_two);
    char *told = malloc(300 * GS1_FOUND), *end = told;
    for (int i = 0; i < 300; i++) end += sprintf(end, "%d 61 ]E0 (01)09501101530003\n", 60 * i);
    uint8_t *found = malloc(300 * GS1_FOUND);
    size_t length = gs1_find_dots(dots_of_two, (uint32_t)many_dots, YEAR, found, 300 * GS1_FOUND);
    if (length != (size_t)(end - told) || memcmp(found, told, length)) wrong++, puts("wrong: 300 symbols of dots");
    checks++;
    free(found), free(told), free(dots_of_two), free(wide);

    /* Dots that are none. */
    uint8_t refusal[GS1_LINE];
    uint8_t *too_many = calloc(8192, 1);
    if (gs1_find_dots(too_many, 65536, YEAR, refusal, sizeof refusal) != 18 || memcmp(refusal, "refused 17 TooWide", 18))
        wrong++, puts("wrong: the symbols of 65,536 dots");
    if (gs1_find_dots(too_many, 65535, YEAR, refusal, sizeof refusal) != 0) wrong++, puts("wrong: the symbols of light dots");
    checks += 2;
    free(too_many);

    char many[194];
    memset(many, '1', 193);
    many[193] = 0;
    text(many, YEAR, "refused 11 TooLong");

    /* The longest line. */
    char longest[GS1_LINE + 1] = "hri ";
    for (size_t i = 0; i < 48; i++) {
        memcpy(many + 4 * i, "2011", 4);
        memcpy(longest + 4 + 6 * i, "(20)11", 6);
    }
    many[192] = longest[GS1_LINE] = 0;
    text(many, YEAR, longest);

    label(GS1_EAN13, "9501101530003", YEAR, 1, 113, 3, IMAGE, sizeof IMAGE - 1);
    refused(6, "9501101530003", 1950, 1, 113, 3, "refused 40 Kind");
    refused(UINT32_MAX, "9501101530003", YEAR, 1, 113, 3, "refused 40 Kind");
    refused(GS1_EAN13, "1", 1950, 0, 113, 3, "refused 42 Words");
    refused(GS1_EAN13, "1", YEAR, 0, 113, 3, "refused 25 BadGrid");
    refused(GS1_EAN13, "1", YEAR, 1, 113, 2, "refused 25 BadGrid");
    refused(GS1_EAN13, "1", YEAR, 1, 4097, 3, "refused 25 BadGrid");
    refused(GS1_EAN13, "1", YEAR, 1, 113, 3, "refused 1 Length");
    refused(GS1_EAN13, "9501101530003", YEAR, 1, 112, 3, "refused 27 LabelWidth 0");
    refused(GS1_UPCE, "9501101530003", YEAR, 1, 113, 3, "refused 26 LabelKind 0");
    refused(GS1_GS1128, "10A#", YEAR, 1, 113, 3, "refused 7 ValueCharacter 0");
}

/* A call with null pointers, into a buffer and into none. */
static uint8_t answer[GS1_LINE];

static void none(const char *call, size_t unasked, size_t length, const char *wanted) {
    checks++;
    if (unasked != length || length != strlen(wanted) || memcmp(answer, wanted, length)) wrong++, printf("wrong: %s of null\n", call);
    memset(answer, '.', sizeof answer);
}

#define NONE(wanted, call, ...) none(#call, call(__VA_ARGS__, NULL, n), call(__VA_ARGS__, answer, sizeof answer), wanted)

/* Each call with null pointers: they stand for no items, whatever their counts. */
static void nulls(void) {
    for (uint32_t n = 0; n <= 100000; n += 50000) {
        NONE("refused 18 BadRuns", gs1_row, NULL, n, YEAR);
        NONE("refused 18 BadRuns", gs1_row_elements, NULL, n, YEAR);
        NONE("refused 18 BadRuns", gs1_find, NULL, n, YEAR);
        NONE(n ? "refused 18 BadRuns" : "refused 19 Blank", gs1_dots, NULL, n, YEAR);
        NONE(n ? "refused 18 BadRuns" : "refused 19 Blank", gs1_dots_elements, NULL, n, YEAR);
        NONE(n ? "refused 18 BadRuns" : "", gs1_find_dots, NULL, n, YEAR);
        NONE("refused 4 Empty", gs1_date, NULL, n, YEAR);
        NONE("refused 40 Kind", gs1_scan, NULL, n, YEAR);
        NONE("refused 1 Length", gs1_gtin, NULL, n);
        NONE("refused 1 Length", gs1_digit, NULL, n);
        NONE("refused 4 Empty", gs1_text, NULL, n, YEAR);
        NONE("refused 4 Empty", gs1_text_elements, NULL, n, GS1_EVERY_AI | YEAR);
        NONE("refused 1 Length", gs1_label, GS1_EAN13, NULL, n, YEAR, 1, 113, 3);
        NONE("refused 1 Length", gs1_symbol, GS1_EAN13, NULL, n, YEAR);
        NONE("", gs1_title, NULL, n);
        NONE("refused 43 NoMemory", gs1_picture, NULL, n, 0, 0, n, 0, YEAR, NULL, n);
        struct gs1_bytes rest = {NULL, n};
        struct gs1_element element;
        checks += 4;
        if (gs1_status(NULL, n) || gs1_next(&rest, &element) || gs1_next(NULL, &element) || gs1_next(&rest, NULL)) wrong++, puts("wrong: a line of null");
    }
}

/* The elements of a line as the human-readable line has them; the line is a block of its own, so that the address sanitizer sees a byte past it. */
static size_t walked(const void *line, size_t length, char *out) {
    uint8_t *block = malloc(length + !length);
    memcpy(block, line, length);
    char *end = out;
    struct gs1_bytes rest = {block, length};
    struct gs1_element element;
    while (gs1_next(&rest, &element))
        end += sprintf(end, "(%.*s)%.*s", (int)element.ai.count, element.ai.at, (int)element.value.count, element.value.at);
    free(block);
    return (size_t)(end - out);
}

static void walk(const char *line, int status, const char *wanted) {
    char got[4096];
    size_t count = walked(line, strlen(line), got);
    checks++;
    if (gs1_status((const uint8_t *)line, strlen(line)) != status || count != strlen(wanted) || memcmp(got, wanted, count))
        wrong++, printf("wrong: elements of %s\n", line);
}

static void walks(void) {
    walk("]E0 01=09501101530003", 0, "(01)09501101530003");
    walk("]C1 01=09501101530003\t10=A=B(17)\t17=261231", 0, "(01)09501101530003(10)A=B(17)(17)261231");
    walk("- 8200==", 0, "(8200)=");
    walk("5632 512 54272 512 54272 14848 5632 14848 56 ]E0 01=09501101530003\n1 2 ]E4 01=00000096385074\n", 0, "(01)09501101530003(01)00000096385074");
    walk("", 0, "");
    walk("none", 0, "");
    walk("hri", 0, "");
    walk("refused", 0, "");
    walk("refused 3 CheckDigit", GS1_FAULT_CHECK_DIGIT, "");
    walk("refused 9 ValueDate 17", GS1_FAULT_VALUE_DATE, "");
    walk("refused 43 NoMemory", GS1_FAULT_NO_MEMORY, "");
}

/* Answers a question with as much room as it takes. */
static void print(const struct asked *q, const char *end) {
    size_t length = ask(q, NULL, 0);
    uint8_t *out = malloc(length);
    if (ask(q, out, length) != length) abort();
    fwrite(out, 1, length, stdout);
    fputs(end, stdout);
    free(out);
}

static void answer_widths(char *words, int call) {
    uint16_t *widths = malloc(MOST_RUNS * sizeof *widths);
    size_t count = 0;
    for (char *word = strtok(strchr(words, ',') + 1, " "); word; word = strtok(NULL, " ")) widths[count++] = (uint16_t)atoi(word);
    struct asked q = {.items = widths, .count = count, .year = YEAR};
    q.call = call;
    print(&q, "\n");
    free(widths);
}

static void answer_row(char *words) { answer_widths(words, ROW); }

static void answer_finds(char *words) { answer_widths(words, FIND); }

static void answer_packed(char *words, int call) {
    uint16_t *widths = malloc(MOST_RUNS * sizeof *widths);
    size_t count = 0;
    for (char *word = strtok(strchr(words, ',') + 1, " "); word; word = strtok(NULL, " ")) widths[count++] = (uint16_t)atoi(word);
    uint8_t *bits;
    size_t many = pack(widths, count, &bits);
    struct asked q = {.items = bits, .count = many, .year = YEAR};
    q.call = call;
    print(&q, "\n");
    free(bits);
    free(widths);
}

static void answer_dots(char *words) { answer_packed(words, DOTS); }

static void answer_dotfinds(char *words) { answer_packed(words, FIND_DOTS); }

static void answer_check(char *words) {
    char *text = strchr(words, ',');
    *text++ = 0;
    for (char *c = text; *c; c++)
        if (*c == '^') *c = 29;
    struct asked q = {.items = text, .count = strlen(text), .year = YEAR};
    q.call = !strcmp(words, "gtin") ? GTIN : !strcmp(words, "digit") ? DIGIT : TEXT;
    print(&q, "\n");
}

/* An element string by every AI: its human-readable line, put together of its elements as data. */
static void answer_elements(char *text) {
    for (char *c = text; *c; c++)
        if (*c == '^') *c = 29;
    uint8_t line[GS1_LINE];
    char all[4096] = "hri ";
    size_t length = gs1_text_elements((const uint8_t *)text, strlen(text), GS1_EVERY_AI | YEAR, line, sizeof line);
    if (gs1_status(line, length)) {
        printf("%.*s\n", (int)length, line);
        return;
    }
    size_t count = 4 + walked(line, length, all + 4);
    length = gs1_text((const uint8_t *)text, strlen(text), GS1_EVERY_AI | YEAR, line, sizeof line);
    puts(length == count && !memcmp(line, all, length) ? all : "two answers");
}

/* The title of an AI. */
static void answer_title(const char *ai) {
    uint8_t title[GS1_TITLE];
    printf("%.*s\n", (int)gs1_title((const uint8_t *)ai, strlen(ai), title, sizeof title), title);
}

static void answer_date(char *words) {
    char *pair = strchr(words, ',') + 1;
    struct asked q = {.items = pair, .count = strlen(pair), .year = (unsigned)atoi(words)};
    q.call = DATE;
    print(&q, "\n");
}

static void answer_label(char *words, char **sizes) {
    static const char *kinds[] = {"ean13", "upca", "ean8", "upce", "gs1128", "itf14"};
    char *text = strchr(words, ',');
    *text++ = 0;
    for (char *c = text; *c; c++)
        if (*c == '^') *c = 29;
    struct asked q = {LABEL, text, strlen(text), YEAR, 0, (unsigned)atoi(sizes[0]), (unsigned)atoi(sizes[1]), (unsigned)atoi(sizes[2])};
    while (strcmp(kinds[q.kind], words)) q.kind++;
    print(&q, "");
}

/* The milliseconds of this many calls on the rows of standard input: the least of seven tries. */
static void measure(long calls) {
    static char input[1 << 16];
    static uint16_t widths[64][4096];
    static size_t counts[64];
    static size_t (*asked[64])(const uint16_t *, size_t, uint16_t, uint8_t *, size_t);
    size_t rows = 0;
    while (rows < 64 && fgets(input, sizeof input, stdin)) {
        size_t count = 0;
        asked[rows] = strncmp(input, "find,", 5) ? gs1_row : gs1_find;
        for (char *word = strtok(strchr(input, ',') + 1, " \n"); word && count < 4096; word = strtok(NULL, " \n"))
            widths[rows][count++] = (uint16_t)atoi(word);
        counts[rows++] = count;
    }
    double least = 1e9;
    for (int attempt = 0; attempt < 7; attempt++) {
        uint8_t out[16 * GS1_FOUND];
        clock_t from = clock();
        for (long i = 0; i < calls; i++) asked[i % (long)rows](widths[i % (long)rows], counts[i % (long)rows], YEAR, out, sizeof out);
        double passed = (double)(clock() - from) * 1000 / CLOCKS_PER_SEC;
        if (passed < least) least = passed;
    }
    printf("%f\n", least);
}

/* The questions that all threads ask, and the answers that one thread got. */
enum { THREADS = 8, QUESTIONS = 4000, ROOM = 16 * GS1_FOUND };
static struct asked questions[QUESTIONS];
static struct answer { size_t length; uint8_t bytes[ROOM]; } answers[QUESTIONS];
static size_t question_count;

/* Asks all questions, each into a buffer of its own. */
static void *ask_all(void *others) {
    for (size_t i = 0; i < question_count; i++) {
        uint8_t out[ROOM];
        size_t length = ask(&questions[i], out, sizeof out);
        *(long *)others += length != answers[i].length || memcmp(out, answers[i].bytes, length);
    }
    return NULL;
}

/* Asks what the rows of standard input say, and which symbols they have, in one thread and then in several at once. */
static int ask_at_once(void) {
    static char input[1 << 16];
    while (question_count + 2 <= QUESTIONS && fgets(input, sizeof input, stdin)) {
        uint16_t *widths = malloc(MOST_RUNS * sizeof *widths);
        size_t count = 0;
        for (char *word = strtok(strchr(input, ',') + 1, " \n"); word; word = strtok(NULL, " \n")) widths[count++] = (uint16_t)atoi(word);
        widths = realloc(widths, (count + 1) * sizeof *widths);
        questions[question_count++] = (struct asked){.call = ROW_ELEMENTS, .items = widths, .count = count, .year = YEAR};
        questions[question_count++] = (struct asked){.call = FIND, .items = widths, .count = count, .year = YEAR};
    }
    for (size_t i = 0; i < question_count; i++) answers[i].length = ask(&questions[i], answers[i].bytes, ROOM);
    pthread_t threads[THREADS];
    long others[THREADS] = {0}, all = 0;
    for (int i = 0; i < THREADS; i++) pthread_create(&threads[i], NULL, ask_all, &others[i]);
    for (int i = 0; i < THREADS; i++) {
        pthread_join(threads[i], NULL);
        all += others[i];
    }
    printf("%zu questions of %d threads at once, %ld answered otherwise\n", question_count, THREADS, all);
    return all != 0 || question_count == 0;
}

int main(int count, char **words) {
    if (count == 1) {
        cases();
        nulls();
        walks();
        printf("%ld calls, %ld cases wrong\n", checks, wrong);
        return wrong != 0;
    }
    if (!strcmp(words[1], "time")) {
        measure(atol(words[2]));
        return 0;
    }
    if (!strcmp(words[1], "threads")) return ask_at_once();
    static char input[1 << 20];
    while (fgets(input, sizeof input, stdin)) {
        input[strcspn(input, "\n")] = 0;
        if (!strcmp(words[1], "rows")) answer_row(input);
        else if (!strcmp(words[1], "finds")) answer_finds(input);
        else if (!strcmp(words[1], "dots")) answer_dots(input);
        else if (!strcmp(words[1], "dotfinds")) answer_dotfinds(input);
        else if (!strcmp(words[1], "check")) answer_check(input);
        else if (!strcmp(words[1], "elements")) answer_elements(input);
        else if (!strcmp(words[1], "titles")) answer_title(input);
        else if (!strcmp(words[1], "dates")) answer_date(input);
        else answer_label(input, words + 2);
    }
    return 0;
}
