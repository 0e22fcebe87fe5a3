/* Asks the library so many questions, of numbers that are the same on each machine, and prints how many it accepts and a sum of all answers. */
#include "gs1.h"

#include <stdio.h>
#include <stdlib.h>
#include <string.h>

static uint64_t state = 7, sum = 14695981039346656037u;
static long accepted;

static uint32_t chance(uint32_t below) {
    state = state * 6364136223846793005u + 1442695040888963407u;
    return (uint32_t)(state >> 33) % below;
}

static void add(const void *data, size_t bytes) {
    for (size_t i = 0; i < bytes; i++) {
        sum = (sum ^ ((const uint8_t *)data)[i]) * 1099511628211u;
    }
}

static void answered(const uint8_t *line, size_t length, size_t room) {
    add(&(uint32_t){(uint32_t)length}, 4);
    add(line, room);
    accepted += length <= room && gs1_status(line, length) == 0;
}

/* A number with its right check digit, mostly. */
static size_t number(char *text) {
    static const int lengths[] = {8, 12, 13, 14};
    const int length = lengths[chance(4)];
    uint32_t total = 0;
    for (int i = 0; i < length - 1; i++) {
        text[i] = (char)('0' + chance(10));
        total += (uint32_t)(text[i] - '0') * ((length - i) % 2 ? 1 : 3);
    }
    text[length - 1] = (char)('0' + (chance(9) ? (10 - total % 10) % 10 : chance(10)));
    return (size_t)length;
}

static size_t text(char *made) {
    static const char *begin[] = {"]C1", "]E0", "]E4", "]I1", "]d2", "", "^", "https://id.gs1.org/01/09501101530003/10/", "]Q1https://a.b/00/", "01095011015300031726123110"};
    size_t length = (size_t)sprintf(made, "%s", begin[chance(10)]);
    if (chance(3) == 0) {
        return length + number(made + length);
    }
    for (uint32_t more = chance(30); more > 0; more--) {
        made[length++] = "0123456789012345678901234567890123456789ABc^\x1d/=?&%-+"[chance(53)];
    }
    return length;
}

static enum gs1_kind kind_of(size_t length) {
    return length == 8 ? GS1_EAN8 : length == 12 ? GS1_UPCA : length == 13 ? GS1_EAN13 : GS1_ITF14;
}

/* A label of a number with texts, perhaps without room for them. */
static void label(void) {
    static struct gs1_part parts[GS1_PARTS];
    static uint8_t scratch[GS1_ROW];
    char made[16];
    uint16_t widths[128];
    uint32_t codes[3][24];
    const size_t length = number(made), room = chance(9) ? GS1_PARTS : chance(20);
    for (int i = 0; i < 128; i++) {
        widths[i] = (uint16_t)(chance(9) ? 4000 + chance(9000) : 0);
    }
    for (int i = 0; i < 3 * 24; i++) {
        codes[i / 24][i % 24] = 32 + chance(90);
    }
    const struct gs1_font font = {widths, 128, 8192, 15893, 3769, 12124};
    const struct gs1_look look = {.aside = chance(30), .above = chance(30), .dots = 8, .width = (uint16_t)(200 + chance(600)),
                                  .height = (uint16_t)(100 + chance(400)), .price_first = chance(2), .regular = font, .bold = font};
    const struct gs1_article article = {.text = {(const uint8_t *)made, length}, .kind = kind_of(length), .name = {codes[0], chance(24)},
                                        .price = {codes[1], chance(7)}, .lines = {codes[2], chance(24)}};
    struct gs1_measure measure = {0};
    struct gs1_plan plan = {0};
    struct gs1_drawing drawing = {0};
    memset(parts, 0, sizeof parts);
    int fault = gs1_measure(&look, &article, 2026, &measure);
    add(&fault, sizeof fault);
    fault = gs1_plan(&look, &measure, 1, &plan);
    add(&fault, sizeof fault);
    fault = gs1_draw(&look, &plan, &article, 2026, scratch, sizeof scratch, parts, room, &drawing);
    add(&fault, sizeof fault);
    add(&measure, sizeof measure);
    add(&plan, sizeof plan);
    add(parts, sizeof parts);
    add(&drawing, sizeof drawing);
    accepted += fault == 0;
}

/* The widths of a symbol that the library draws, in pixels, perhaps with a fault. */
static size_t row(uint16_t *widths) {
    char made[16];
    uint8_t out[GS1_SYMBOL] = {0};
    size_t length = number(made), count = 0;
    const size_t wrote = gs1_symbol(kind_of(length), (const uint8_t *)made, length, 2026, out, sizeof out);
    const uint16_t pixels = (uint16_t)(1 + chance(4));
    char *at = (char *)out;
    answered(out, wrote, sizeof out);
    if (wrote >= sizeof out || gs1_status(out, wrote)) {
        return 0;
    }
    out[wrote] = 0;
    at = strchr(at + 7, ' ');
    at = at ? strchr(at + 1, ' ') : NULL;
    at = at ? strchr(at + 1, ' ') : NULL;
    widths[count++] = (uint16_t)(20 * pixels);
    while (at && *at) {
        widths[count++] = (uint16_t)(strtoul(at, &at, 10) * pixels);
    }
    widths[count++] = (uint16_t)(20 * pixels);
    if (chance(3) == 0) {
        widths[chance((uint32_t)count)] = (uint16_t)chance(40);
    }
    return count;
}

/* What is written of an answer, and the answers to what was written as lines. */
static void written(const struct gs1_answer *answer, uint16_t year, uint8_t *out, size_t room) {
    struct gs1_answer lines[2];
    size_t used = 0;
    memset(lines, 0, sizeof lines);
    memset(out, 0, GS1_LINE);
    const size_t link = gs1_link(answer, (const uint8_t *)"https://id.gs1.org", 18, year, out, room - (room > 0));
    answered(out, link, room);
    if (link < room) {
        out[link] = '\n';
        const size_t count = gs1_read_messages(out, room, year, lines, 2, &used);
        add(&(uint32_t){(uint32_t)count}, 4);
        add(&(uint32_t){(uint32_t)used}, 4);
        add(lines, sizeof lines);
    }
    memset(out, 0, GS1_LINE);
    answered(out, gs1_scan_text(answer, (const uint8_t *)"]d2", 3, year, out, room), room);
}

int main(int argc, char **argv) {
    static uint8_t out[GS1_FOUND];
    const long questions = argc > 1 ? atol(argv[1]) : 1000;
    for (long i = 0; i < questions; i++) {
        char made[256];
        uint16_t widths[256];
        struct gs1_answer answer;
        const uint16_t year = (uint16_t)(chance(2) ? 2026 : GS1_EVERY_AI | 2026);
        const size_t room = chance(20) ? GS1_LINE : chance(40);
        memset(out, 0, GS1_LINE);
        memset(&answer, 0, sizeof answer);
        if (i % 4 == 0) {
            const size_t count = row(widths);
            memset(out, 0, GS1_LINE);
            answered(out, (i % 8 ? gs1_row_elements : gs1_find)(widths, count, year, out, room), room);
            gs1_read_row(widths, count, year, &answer);
        } else {
            const size_t length = text(made);
            const uint8_t *bytes = (const uint8_t *)made;
            answered(out, i % 4 == 1 ? gs1_scan(bytes, length, year, out, room) : i % 4 == 2 ? gs1_text_elements(bytes, length, year, out, room)
                     : gs1_gtin(bytes, length, out, room), room);
            gs1_read_message(bytes, length, year, &answer);
        }
        add(&answer, sizeof answer);
        if (i % 8 == 3) {
            written(&answer, year, out, room);
        }
        if (i % 64 == 0) {
            label();
        }
    }
    printf("%ld questions, %ld accepted, sum %08lx%08lx\n", questions, accepted, (unsigned long)(sum >> 32), (unsigned long)(sum & 0xffffffff));
    return 0;
}
