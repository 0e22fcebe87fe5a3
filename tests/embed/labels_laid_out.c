/* Lays labels out by gs1_measure, gs1_plan and gs1_draw: looks at each part, reads rows of the parts, as dark rectangles, by gs1_find_dots, and
 * gives the calls measures that no label has, long texts, null pointers and too little room. Buffers end where memory ends. */
#define _GNU_SOURCE
#include "gs1.h"
#include <math.h>
#include <stdio.h>
#include <stdlib.h>
#include <string.h>
#include <sys/mman.h>
#include <time.h>

enum { YEAR = 2026, PAGE = 4096 };

static long checks, wrong;

static void check(int holds, const char *what) {
    checks++;
    if (!holds) wrong++, printf("wrong: %s\n", what);
}

/* Memory whose last byte stands before a page that nobody may touch. */
static void *lend(size_t bytes) {
    size_t length = (bytes / PAGE + 2) * PAGE;
    uint8_t *at = mmap(NULL, length, PROT_READ | PROT_WRITE, MAP_PRIVATE | MAP_ANONYMOUS, -1, 0);
    if (at == MAP_FAILED || mprotect(at + length - PAGE, PAGE, PROT_NONE)) abort();
    return at + length - PAGE - bytes;
}

static uint32_t codes[16][16384];

/* The letters of an ASCII text, in one of the arrays. */
static struct gs1_letters letters(int number, const char *text) {
    size_t count = strlen(text);
    for (size_t i = 0; i < count; i++) codes[number][i] = (uint8_t)text[i];
    return (struct gs1_letters){codes[number], count};
}

static struct gs1_bytes bytes(const char *text) { return (struct gs1_bytes){(const uint8_t *)text, strlen(text)}; }

/* Half a size wide, and as high as Liberation Sans. */
static const struct gs1_font font = {NULL, 0, 8192, 15893, 3769, 12124};

static struct gs1_look look_of(double dots, double wide_mm, double high_mm, uint32_t price_first) {
    return (struct gs1_look){2.3 * dots, 2.3 * dots, dots, 0, 0, (uint16_t)(wide_mm * dots), (uint16_t)(high_mm * dots), price_first, font, font};
}

/* The dots of a row of a label: all of each part are dark. */
static void row_of(const struct gs1_part *parts, size_t count, unsigned y, unsigned width, uint8_t *bits) {
    memset(bits, 0, (width + 7) / 8);
    for (size_t i = 0; i < count; i++)
        if (parts[i].top <= y && y < parts[i].top + parts[i].height)
            for (unsigned x = parts[i].left; x < parts[i].left + (unsigned)parts[i].width && x < width; x++) bits[x / 8] |= (uint8_t)(128 >> x % 8);
}

static void look_at(const struct gs1_look *look, const struct gs1_article *article, const struct gs1_drawing *d, const struct gs1_part *parts,
                    const char *said) {
    check(d->width == look->width && d->height == look->height && d->top < d->end && d->end <= d->height, "size and rows");
    for (size_t i = 0; i < d->count; i++) {
        const struct gs1_part *p = parts + i;
        check(p->left + p->width <= d->width && p->top + p->height <= d->height, "a part lies on the label");
        for (size_t k = 0; k < i; k++) {
            const struct gs1_part *q = parts + k;
            check(p->left + p->width <= q->left || q->left + q->width <= p->left || p->top + p->height <= q->top || q->top + q->height <= p->top,
                  "two parts lie apart");
        }
    }
    uint8_t line[GS1_SYMBOL], bits[8192], found[4096];
    size_t length = gs1_symbol((enum gs1_kind)article->kind, article->text.at, article->text.count, YEAR, line, sizeof line);
    /* `symbol`, the text under the bars, which has no blank, two quiet zones, and the widths. */
    char *at = memchr(line + 7, ' ', length - 7);
    unsigned quiet_left = (unsigned)strtoul(at, &at, 10), quiet_right = (unsigned)strtoul(at, &at, 10), total = 0;
    size_t bars = 0;
    for (char *digit = at + 1; digit < (char *)line + length; digit++) {
        if ((digit - at) % 2) {
            const struct gs1_part *p = parts + bars++;
            check(p->ink == GS1_BAR && p->left == d->left + d->module * (quiet_left + total) && p->width == d->module * (unsigned)(*digit - '0') &&
                      p->top <= d->top && d->end <= p->top + p->height, "a bar stands where its modules say");
        }
        total += (unsigned)(*digit - '0');
    }
    unsigned right = d->left + d->module * (quiet_left + total + quiet_right);
    check(right <= d->width, "the quiet zones lie on the label");
    for (size_t i = bars; i < d->count; i++) {
        const struct gs1_part *p = parts + i;
        check(p->ink == GS1_LETTERS || (p->ink == GS1_BEARER && article->bearers && article->kind == GS1_ITF14), "letters, or a bearer");
        check(p->left + p->width <= d->left || right <= p->left || p->top + p->height <= d->top || d->end <= p->top, "nothing in the quiet zones");
        if (p->ink == GS1_LETTERS && p->field == GS1_FIELD_PRICE)
            check(p->from == 0 && p->count == article->price.count && !(p->flags & GS1_CUT), "the price is whole");
        check(p->ink != GS1_LETTERS || !!(p->flags & GS1_STRUCK) == (p->field == GS1_FIELD_OLD_PRICE), "only the old price is struck");
    }
    for (unsigned y = d->top; y < d->end; y += 1 + (d->end - d->top) / 7) {
        row_of(parts, d->count, y, d->width, bits);
        size_t answer = gs1_find_dots(bits, d->width, YEAR, found, sizeof found - 1);
        found[answer < sizeof found ? answer : 0] = 0;
        char *behind = strchr((char *)found, ' ');
        behind = behind ? strchr(behind + 1, ' ') : NULL;
        check(behind && !strncmp(behind + 1, said, strlen(said)) && behind[1 + strlen(said)] == '\n' && !behind[2 + strlen(said)],
              "each row answers the article, and nothing else");
    }
}

static struct gs1_drawing drawing;
static struct gs1_part parts[GS1_PARTS];
static uint8_t *row;

/* Draws as all callers do. */
static int draw(const struct gs1_look *look, const struct gs1_article *article) {
    struct gs1_measure measure;
    struct gs1_plan plan;
    int fault = gs1_measure(look, article, YEAR, &measure);
    if (!fault) fault = gs1_plan(look, &measure, 1, &plan);
    return fault ? fault : gs1_draw(look, &plan, article, YEAR, row, GS1_ROW, parts, GS1_PARTS, &drawing);
}

static const struct {
    enum gs1_kind kind;
    const char *text, *said;
} symbols[] = {
    {GS1_EAN13, "9501101530003", "]E0 (01)09501101530003"}, {GS1_UPCA, "614141007349", "]E0 (01)00614141007349"},
    {GS1_EAN8, "96385074", "]E4 (01)00000096385074"},       {GS1_UPCE, "012345000058", "]E0 (01)00012345000058"},
    {GS1_ITF14, "09501101530003", "]I1 (01)09501101530003"}, {GS1_GS1128, "010950110153000310AB", "]C1 (01)09501101530003(10)AB"},
};

/* Every kind in both looks, at three resolutions, on three labels; with texts and without. */
static void draw_all(void) {
    static const double sizes[][2] = {{105, 60}, {70, 42.3}, {148, 105}}, resolutions[] = {8, 11.811, 23.622};
    long drawn = 0;
    for (size_t s = 0; s < sizeof symbols / sizeof *symbols; s++)
        for (int i = 0; i < 36; i++) {
            struct gs1_look look = look_of(resolutions[i / 2 % 3], sizes[i / 6 % 3][0], sizes[i / 6 % 3][1], (uint32_t)i % 2);
            struct gs1_article article = {.text = bytes(symbols[s].text), .kind = symbols[s].kind, .bearers = 1};
            if (i >= 18) {
                article.name = letters(0, "Rye bread, sliced, with a name that is longer than its label by far and goes on and on and on, since nobody has cut it");
                article.price = letters(1, "12.90");
                article.old_price = letters(2, "14.90");
                article.unit_price = letters(3, "1 kg = 25.80");
                article.deposit = letters(4, "Deposit 0.25");
                article.lines = letters(5, "A line\nAnother line");
            }
            int fault = draw(&look, &article);
            if (fault) check(fault == GS1_FAULT_LABEL_WIDTH || fault == GS1_FAULT_NO_HEIGHT || fault == GS1_FAULT_NO_PLACE, "a fault for want of room");
            else drawn++, look_at(&look, &article, &drawing, parts, symbols[s].said);
        }
    check(drawn >= 150, "most labels are drawn");
    printf("%ld labels drawn\n", drawn);
}

/* A price that is as high as its band is drawn, whatever its quotients are rounded to. */
static void draw_high_prices(void) {
    struct gs1_article article = {.text = bytes("9501101530003"), .kind = GS1_EAN13, .price = letters(1, "1.20"), .name = letters(0, "Rye")};
    for (uint16_t ascent = 14000; ascent < 17000; ascent++)
        for (uint32_t price_first = 0; price_first < 2; price_first++) {
            struct gs1_look look = look_of(11.811, price_first ? 63.5 : 99.1, 38.1, price_first);
            look.regular.ascent = look.bold.ascent = ascent;
            check(draw(&look, &article) == 0, "a high price");
        }
}

/* What the labels of a list have in common, and what a look asks for. */
static void plan_list(void) {
    struct gs1_look look = look_of(8, 105, 60, 0);
    look.bold.other = 16384;
    struct gs1_article narrow = {.text = bytes("96385074"), .kind = GS1_EAN8, .price = letters(0, "12.90")};
    struct gs1_article wide = {.text = bytes("9501101530003"), .kind = GS1_EAN13, .price = letters(1, "2.90"), .batch = letters(2, "L42")};
    struct gs1_measure measures[2];
    struct gs1_plan plan;
    check(!gs1_measure(&look, &narrow, YEAR, measures) && !gs1_measure(&look, &wide, YEAR, measures + 1), "two measures");
    check(measures[0].wide == 3 * 81 && measures[1].wide == 3 * 113, "symbols of 3 dots a module, with their quiet zones");
    check(measures[0].price == 5 * 16384 && measures[1].price == 4 * 16384, "prices as wide as their letters in bold");
    check(!gs1_plan(&look, measures, 2, &plan) && plan.articles.column == 3 * 113, "a column for the widest symbol");
    for (look.price_first = 0; look.price_first < 2; look.price_first++) {
        look.above = 40, look.module_mm = 0.62, look.bars_mm = 9;
        check(!draw(&look, &wide) && drawing.module == 5 && drawing.end - drawing.top >= 71 && drawing.end - drawing.top <= 72, "a module and bars that were asked for");
        unsigned batch = 0, lowest = 0;
        for (const struct gs1_part *p = parts; p < parts + drawing.count; p++) {
            batch += p->ink == GS1_LETTERS && p->field == GS1_FIELD_BATCH ? p->count : 0;
            lowest = p->top + p->height > (int)lowest ? p->top + p->height : lowest;
        }
        check(batch == 3, "the batch is shown");
        check(lowest <= 480 - 40, "what was asked for stays white");
    }
    look = look_of(8, 105, 60, 0);
    look.width = 375;
    check(draw(&look, &narrow) == 0 && draw(&look, &wide) == GS1_FAULT_LABEL_WIDTH, "white at both sides");
    look.width = 376;
    check(draw(&look, &wide) == 0, "just enough white at both sides");
}

static double seconds(void) {
    struct timespec t;
    clock_gettime(CLOCK_MONOTONIC, &t);
    return (double)t.tv_sec + (double)t.tv_nsec / 1e9;
}

/* What no caller should give: an answer or an error, and no part behind the room. */
static void refuse(void) {
    static uint16_t widths[2][256];
    struct gs1_look look = look_of(8, 63.5, 38.1, 1);
    struct gs1_article article = {.text = bytes("9501101530003"), .kind = GS1_EAN13, .price = letters(1, "1.20"), .name = letters(0, "Rye")};
    check(draw(&look, &article) == 0, "a label");
    memset(widths[1], 255, sizeof widths[1]);
    const double odd[] = {INFINITY, -INFINITY, NAN, -1, 0, 1e300, 3.9, 100.1};
    for (size_t i = 0; i < sizeof odd / sizeof *odd; i++) {
        struct gs1_look other = look;
        other.dots = odd[i];
        check(draw(&other, &article) == GS1_FAULT_MEASURES, "dots of no printer");
        other = look, other.aside = odd[i];
        draw(&other, &article);
        other = look, other.above = odd[i];
        draw(&other, &article);
        other = look, other.module_mm = odd[i];
        check(odd[i] == 0 || draw(&other, &article) == GS1_FAULT_MODULE, "a module of no symbol");
        other = look, other.bars_mm = odd[i];
        check(odd[i] == 0 || draw(&other, &article) == GS1_FAULT_BARS, "bars of no height");
    }
    for (int i = 0; i < 4; i++) {
        struct gs1_look other = look;
        other.bold.widths = other.regular.widths = widths[i % 2], other.bold.count = other.regular.count = 256;
        other.bold.other = other.regular.other = i < 2 ? 0 : 65535;
        int fault = draw(&other, &article);
        check(fault == 0 || fault == GS1_FAULT_NO_PLACE || fault == GS1_FAULT_NO_HEIGHT, "fonts that nobody has");
    }
    for (unsigned i = 0; i < 9; i++) {
        struct gs1_look other = look;
        other.width = i / 3 == 0 ? 0 : i / 3 == 1 ? 1 : 65535, other.height = i % 3 == 0 ? 0 : i % 3 == 1 ? 1 : 65535;
        draw(&other, &article);
    }
    for (size_t i = 0; i < 10000; i++) codes[6][i] = i % 7 ? 'a' + i % 26 : ' ', codes[7][i] = ' ', codes[8][i] = 0x301, codes[9][i] = '\n';
    for (int field = 0; field < 8; field++)
        for (int i = 6; i < 10; i++) {
            struct gs1_article other = article;
            struct gs1_letters *texts[] = {&other.name, &other.price, &other.old_price, &other.unit_price, &other.deposit, &other.best_before, &other.batch, &other.lines};
            *texts[field] = (struct gs1_letters){codes[i], 10000};
            double begun = seconds();
            draw(&look, &other);
            if (seconds() - begun > 0.1) printf("10,000 letters took %.0f ms\n", 1000 * (seconds() - begun));
        }
    article.price = letters(1, "1234567890123456789012345678901234567890");
    look.width = 430;
    check(draw(&look, &article) == GS1_FAULT_NO_PLACE, "a price of 40 digits");
    look = look_of(8, 63.5, 38.1, 1);
    article.price = letters(1, "1.20");
    article.lines = letters(5, "1\n2\n3\n4\n5\n6\n7\n8\n9");
    check(draw(&look, &article) == GS1_FAULT_LINES, "nine lines");
    article.lines.count = 0;
    article.kind = 6;
    check(draw(&look, &article) == GS1_FAULT_KIND, "no kind");
    article.kind = GS1_UPCE;
    check(draw(&look, &article) == GS1_FAULT_LABEL_KIND, "no UPC-E");
    article.kind = GS1_EAN13, article.text = bytes("9501101530004");
    check(draw(&look, &article) == GS1_FAULT_CHECK_DIGIT, "a wrong check digit");
    article.text = bytes("9501101530003");
    struct gs1_measure measure;
    struct gs1_plan plan;
    check(gs1_measure(&look, &article, 1950, &measure) == GS1_FAULT_WORDS, "no year");
    check(!gs1_measure(&look, &article, YEAR, &measure) && !gs1_plan(&look, &measure, 1, &plan) && measure.retail == 1, "a plan");
    check(gs1_draw(&look, &plan, &article, YEAR, row + 1, GS1_ROW - 1, parts, GS1_PARTS, &drawing) == GS1_FAULT_NO_MEMORY, "a short row");
    check(gs1_draw(&look, &plan, &article, YEAR, NULL, GS1_ROW, parts, GS1_PARTS, &drawing) == GS1_FAULT_NO_MEMORY, "no row");
    struct gs1_part *few = lend(3 * sizeof *few);
    memset(few, 0xa5, 3 * sizeof *few);
    check(!gs1_draw(&look, &plan, &article, YEAR, row, GS1_ROW, few, 3, &drawing) && drawing.count > 3 && ((uint8_t *)few)[0] == 0xa5 && ((uint8_t *)few)[95] == 0xa5,
          "too little room");
    struct gs1_part *all = lend(drawing.count * sizeof *all);
    check(!gs1_draw(&look, &plan, &article, YEAR, row, GS1_ROW, all, drawing.count, &drawing), "just enough room");
    look_at(&look, &article, &drawing, all, symbols[0].said);
    check(!gs1_draw(&look, &plan, &article, YEAR, row, GS1_ROW, NULL, 400, NULL), "no parts");
    check(gs1_draw(NULL, NULL, NULL, YEAR, row, GS1_ROW, parts, GS1_PARTS, NULL) == GS1_FAULT_LENGTH, "nothing");
    check(gs1_measure(NULL, NULL, YEAR, NULL) == GS1_FAULT_LENGTH && gs1_plan(NULL, NULL, 5, NULL) == GS1_FAULT_MEASURES, "nothing measured");
    struct gs1_plan wild = {{NAN, INFINITY, -1e300}, {1e300, NAN, 0}};
    check(gs1_draw(&look, &wild, &article, YEAR, row, GS1_ROW, parts, GS1_PARTS, &drawing) == GS1_FAULT_MEASURES, "a plan of no list");
}

int main(int argc, char **argv) {
    row = lend(GS1_ROW);
    if (argc > 1) {
        /* The time of so many labels. */
        long count = atol(argv[1]), drawn = 0;
        struct gs1_look look = look_of(8, 63.5, 38.1, 1);
        struct gs1_article article = {.text = bytes("9501101530003"), .kind = GS1_EAN13, .name = letters(0, "Rye bread, sliced, 500 g"),
                                      .price = letters(1, "2.90"), .unit_price = letters(2, "1 kg = 5.80"), .lines = letters(3, "Organic")};
        double begun = seconds();
        for (long i = 0; i < count; i++) drawn += !draw(&look, &article);
        printf("%ld labels of %u parts in %.3f s\n", drawn, drawing.count, seconds() - begun);
        return drawn != count;
    }
    draw_all();
    draw_high_prices();
    plan_list();
    refuse();
    printf("%ld checks of laid out labels, %ld wrong\n", checks, wrong);
    return wrong != 0;
}
