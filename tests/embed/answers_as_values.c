/* Compares the answers of the calls that fill a struct with the lines of the other calls: of the texts, a line each, of standard input.
 * `^` stands for itself, and \xNN for a byte. The last line is the counts, and the status is 0 if none differs. */
#include <gs1.h>
#include <stdio.h>
#include <stdlib.h>
#include <string.h>

static unsigned long asked, wrong;

/* A line that is being written. */
struct line {
    char at[1200];
    size_t count;
};

static void put(struct line *line, const void *bytes, size_t count) {
    memcpy(line->at + line->count, bytes, count);
    line->count += count;
}

static void put_text(struct line *line, const char *text) {
    put(line, text, strlen(text));
}

/* The elements as data. */
static void put_pairs(struct line *line, const struct gs1_answer *answer) {
    for (unsigned i = 0; i < answer->count; i++) {
        const struct gs1_place *it = &answer->element[i];
        if (i) put_text(line, "\t");
        put(line, answer->text + it->ai, (size_t)(it->value - it->ai));
        put_text(line, "=");
        put(line, answer->text + it->value, (size_t)(it->end - it->value));
    }
}

/* What gs1_date says of an element. */
static void put_date(struct line *line, const struct gs1_place *it) {
    char text[40];
    if (!(it->named & GS1_NAMES_DAY)) {
        put_text(line, "none");
        return;
    }
    snprintf(text, sizeof text, "date %04u-%02u-%02u", it->day.year, it->day.month, it->day.day);
    put_text(line, text);
    if (!(it->named & GS1_NAMES_TIME)) return;
    snprintf(text, sizeof text, " %02u:%02u:%02u", it->hour, it->minute, it->second);
    put_text(line, text);
}

static void same(const char *what, const struct line *got, const uint8_t *wanted, size_t count) {
    asked++;
    if (got->count == count && !memcmp(got->at, wanted, count)) return;
    if (++wrong <= 10) fprintf(stderr, "%s: %.*s, not %.*s\n", what, (int)got->count, got->at, (int)count, wanted);
}

static void same_number(const char *what, unsigned long got, unsigned long wanted) {
    asked++;
    if (got != wanted && ++wrong <= 10) fprintf(stderr, "%s: %lu, not %lu\n", what, got, wanted);
}

/* The place at the end of a line of an error, or GS1_NO_PLACE. */
static unsigned long place_of(const uint8_t *line, size_t count) {
    char text[GS1_LINE + 1];
    memcpy(text, line, count);
    text[count] = 0;
    char *space = strrchr(text, ' ');
    return space && space[1] >= '0' && space[1] <= '9' && strchr(text, ' ') != space ? strtoul(space + 1, NULL, 10) : GS1_NO_PLACE;
}

/* The days and the times. */
static void compare_dates(const struct gs1_answer *answer, uint16_t year) {
    for (unsigned i = 0; i < answer->count; i++) {
        const struct gs1_place *it = &answer->element[i];
        struct line pair = {.count = 0}, got = {.count = 0};
        uint8_t wanted[64];
        put(&pair, answer->text + it->ai, (size_t)(it->value - it->ai));
        put_text(&pair, "=");
        put(&pair, answer->text + it->value, (size_t)(it->end - it->value));
        put_date(&got, it);
        same("date", &got, wanted, gs1_date((const uint8_t *)pair.at, pair.count, year, wanted, sizeof wanted));
    }
}

/* The line of an answer beside the line of the call before, whose word is another if the text of the answer has no identifier. */
static void compare_format(const struct gs1_answer *answer, const char *word, const uint8_t *line, size_t count, uint16_t year) {
    uint8_t text[GS1_LINE];
    struct line got = {.count = 0};
    size_t length = gs1_format(answer, GS1_AS_DATA, text, sizeof text);
    same_number("line without room", (unsigned long)gs1_format(answer, GS1_AS_DATA, text, 0), length);
    if (word && !answer->fault) {
        put_text(&got, word);
        put(&got, text + 1, length - 1);
    } else {
        put(&got, text, length);
    }
    same("line", &got, line, count);

    /* Its line is read back, except that of an error behind 65,534. */
    struct gs1_answer again;
    memset(&again, 0x77, sizeof again);
    same_number("error read back", (unsigned long)gs1_read_data(text, length, year, &again), answer->fault);
    same_number("place read back", again.place, answer->place);
    same_number("count read back", again.count, answer->count);
    same_number("length read back", again.length, answer->length);
    same_number("GTIN read back", again.gtin, answer->gtin);
    same_number("elements read back", (unsigned long)memcmp(again.element, answer->element, answer->count * sizeof *answer->element), 0);
    same_number("text read back", (unsigned long)memcmp(again.text, answer->text, answer->length), 0);
    if (!answer->fault) same_number("identifier read back", (unsigned long)memcmp(again.identifier, answer->identifier, 4), 0);
    /* A line does not tell a UPC-E from a UPC-A. */
    if (!answer->fault && answer->symbol != GS1_SYMBOL_UPCE) same_number("symbol read back", again.symbol, answer->symbol);
    if (length > 9) text[length / 2] = (uint8_t)(text[length / 2] ^ 1);
    if (!gs1_read_data(text, length, year, &again) || again.fault != GS1_FAULT_KIND) {
        uint8_t other[GS1_LINE];
        struct line damaged = {.count = 0};
        put(&damaged, other, gs1_format(&again, GS1_AS_DATA, other, sizeof other));
        same("damaged line", &damaged, text, length);
    }
}

/* An answer of the elements of another: the same, without a symbol; with one of them wrong, its index. */
static void compare_composed(const struct gs1_answer *answer, uint16_t year) {
    struct gs1_element elements[48];
    struct gs1_answer again;
    memset(&again, 0x33, sizeof again);
    for (unsigned i = 0; i < answer->count; i++) {
        const struct gs1_place *it = &answer->element[i];
        elements[i].ai = (struct gs1_bytes){answer->text + it->ai, (size_t)(it->value - it->ai)};
        elements[i].value = (struct gs1_bytes){answer->text + it->value, (size_t)(it->end - it->value)};
    }
    same_number("composed", (unsigned long)gs1_compose(elements, answer->count, year, &again), 0);
    same_number("composed count", again.count, answer->count);
    same_number("composed length", again.length, answer->length);
    same_number("composed GTIN", again.gtin, answer->gtin);
    same_number("composed symbol", again.symbol || again.identifier[0], 0);
    same_number("composed text", (unsigned long)memcmp(again.text, answer->text, answer->length), 0);
    same_number("composed elements", (unsigned long)memcmp(again.element, answer->element, answer->count * sizeof *answer->element), 0);
    unsigned last = answer->count - 1u;
    elements[last].value = (struct gs1_bytes){(const uint8_t *)"\x1d", 1};
    same_number("composed of a wrong one", gs1_compose(elements, answer->count, year, &again) != 0, 1);
    same_number("the wrong one", again.place, last);
    elements[last].ai = (struct gs1_bytes){NULL, 9};
    same_number("composed without an AI", (unsigned long)gs1_compose(elements, answer->count, year, &again), GS1_FAULT_UNKNOWN_AI);
    same_number("the one without", again.place, last);
}

/* The GTIN of an answer with fewer digits: without its zeros, if it has them. */
static void compare_gtin(const struct gs1_answer *answer) {
    static const uint32_t counts[] = {0, 7, 8, 9, 12, 13, 14, 15, 4294967295u};
    for (size_t i = 0; i < sizeof counts / sizeof *counts; i++) {
        struct line got = {.count = 0}, wanted = {.count = 0};
        uint32_t count = counts[i];
        int is_length = count == 8 || count == 12 || count == 13 || count == 14;
        if (answer->gtin != GS1_NONE && is_length) {
            const uint8_t *digits = answer->text + answer->element[answer->gtin].value;
            if (strspn((const char *)digits, "0") >= 14 - count) put(&wanted, digits + 14 - count, count);
        }
        got.count = gs1_gtin_as(answer, count, (uint8_t *)got.at, sizeof got.at);
        same("GTIN in fewer digits", &got, (const uint8_t *)wanted.at, wanted.count);
    }
    same_number("kind of GTIN", gs1_use_of_gtin(answer) == GS1_NO_GTIN, answer->gtin == GS1_NONE);
}

/* GTINs and what they identify: as in figure "GS1 Prefixes" of the GS1 General Specifications, section 1.4.2. */
static void kinds_of_gtins(void) {
    static const struct {
        const char *digits;
        int kind;
    } all[] = {
        {"9501101530003", GS1_TRADE_ITEM}, {"4006381333931", GS1_TRADE_ITEM}, {"036000291452", GS1_TRADE_ITEM}, {"96385074", GS1_TRADE_ITEM},
        {"19501101530000", GS1_TRADE_ITEM}, {"0200000000004", GS1_IN_STORE}, {"0299999999994", GS1_IN_STORE}, {"0300000000001", GS1_TRADE_ITEM},
        {"0199999999997", GS1_TRADE_ITEM}, {"0400000000008", GS1_IN_STORE}, {"212345678909", GS1_IN_STORE}, {"2012345678903", GS1_IN_STORE},
        {"2999999999991", GS1_IN_STORE}, {"3000000000007", GS1_TRADE_ITEM}, {"1999999999992", GS1_TRADE_ITEM}, {"00000017", GS1_IN_STORE},
        {"20000011", GS1_IN_STORE}, {"10000014", GS1_TRADE_ITEM}, {"50000012", GS1_TRADE_ITEM}, {"0500000000005", GS1_COUPON},
        {"9770317847001", GS1_ISSN}, {"9783161484100", GS1_ISBN}, {"9790260000438", GS1_ISMN}, {"9791090636071", GS1_ISBN},
        {"9800000000007", GS1_COUPON}, {"9810000000006", GS1_COUPON}, {"9840000000003", GS1_COUPON}, {"9850000000002", GS1_TRADE_ITEM},
        {"9900000000004", GS1_COUPON}, {"9999999999994", GS1_COUPON}, {"9890000000008", GS1_TRADE_ITEM}, {"00000000000000", GS1_ZEROS},
        {"00000000", GS1_ZEROS}, {"9501101530004", GS1_NO_GTIN},
    };
    struct gs1_answer answer;
    for (size_t i = 0; i < sizeof all / sizeof *all; i++) {
        gs1_read_gtin((const uint8_t *)all[i].digits, strlen(all[i].digits), 2026, &answer);
        same_number(all[i].digits, (unsigned long)gs1_use_of_gtin(&answer), (unsigned long)all[i].kind);
    }
    gs1_read_elements((const uint8_t *)"10AB", 4, 2026, &answer);
    same_number("kind of no GTIN", (unsigned long)(gs1_use_of_gtin(&answer) + gs1_use_of_gtin(NULL)), 0);
}

/* Units of AIs: as in the GS1 General Specifications, section 3.6. */
static void units_of_ais(void) {
    static const char *const all[][2] = {
        {"3103", "kg"}, {"3302", "kg"}, {"3110", "m"}, {"3141", "m\xc2\xb2"}, {"3155", "l"}, {"3160", "m\xc2\xb3"}, {"3201", "lb"}, {"3270", "in"}, {"3280", "ft"},
        {"3290", "yd"}, {"3370", "kg/m\xc2\xb2"}, {"3500", "in\xc2\xb2"}, {"3560", "t oz"}, {"3570", "oz"}, {"3600", "qt"}, {"3610", "gal"}, {"3690", "yd\xc2\xb3"},
        {"3940", "%"}, {"4330", "\xc2\xb0" "F"}, {"4331", "\xc2\xb0" "C"}, {"4332", "\xc2\xb0" "F"}, {"4333", "\xc2\xb0" "C"}, {"30", ""}, {"37", ""},
        {"3922", ""}, {"8005", ""}, {"01", ""}, {"", ""}, {"31", ""}, {"31031", ""},
    };
    for (size_t i = 0; i < sizeof all / sizeof *all; i++) {
        struct line got = {.count = 0};
        got.count = gs1_unit((const uint8_t *)all[i][0], strlen(all[i][0]), (uint8_t *)got.at, GS1_UNIT);
        same(all[i][0], &got, (const uint8_t *)all[i][1], strlen(all[i][1]));
    }
    same_number("unit of no AI", (unsigned long)gs1_unit(NULL, 4, NULL, 9), 0);
}

/* Elements that no answer has room for, or that are none. */
static void composed_of_others(void) {
    static const struct gs1_element lot = {{(const uint8_t *)"10", 2}, {(const uint8_t *)"A", 1}};
    static uint8_t letters[300];
    struct gs1_element many[60];
    struct gs1_answer answer;
    memset(letters, 'A', sizeof letters);
    for (size_t i = 0; i < 60; i++) many[i] = lot;
    same_number("48 elements", (unsigned long)gs1_compose(many, 48, 2026, &answer), 0);
    same_number("48 elements", answer.count * 1000u + answer.length, 48191);
    for (size_t count = 49; count <= 60; count++) same_number("more elements", (unsigned long)gs1_compose(many, count, 2026, &answer), GS1_FAULT_TOO_LONG);
    same_number("place of none", answer.place, GS1_NO_PLACE);
    many[1].value = (struct gs1_bytes){letters, 300};
    same_number("long value", (unsigned long)gs1_compose(many, 2, 2026, &answer), GS1_FAULT_TOO_LONG);
    many[1].value.count = 192;
    same_number("longer value", (unsigned long)gs1_compose(many, 2, 2026, &answer), GS1_FAULT_VALUE_LENGTH);
    same_number("place of the longer one", answer.place, 1);
    same_number("no elements", (unsigned long)gs1_compose(NULL, 3, 2026, &answer), GS1_FAULT_EMPTY);
    same_number("no year", (unsigned long)gs1_compose(many, 1, 1950, NULL), GS1_FAULT_WORDS);
}

/* An answer beside the line of the call before. */
static void compare(const char *what, int fault, const struct gs1_answer *answer, const char *word, const uint8_t *line, size_t count,
                    uint16_t year) {
    same_number(what, (unsigned long)fault, (unsigned long)gs1_status(line, count));
    same_number(what, answer->fault, (unsigned long)fault);
    if ((year & 0x7fff) >= 1951) compare_format(answer, word, line, count, year);
    if (fault) {
        same_number("place", answer->place, place_of(line, count));
        same_number("count", answer->count, 0);
        return;
    }
    struct line got = {.count = 0};
    put_text(&got, word ? word : answer->identifier[0] ? answer->identifier : "-");
    put_text(&got, " ");
    put_pairs(&got, answer);
    same(what, &got, line, count);
    compare_dates(answer, year);
    compare_composed(answer, year);
    compare_gtin(answer);
}

static void compare_text(const uint8_t *text, size_t length, uint16_t year) {
    struct gs1_answer answer;
    uint8_t line[GS1_LINE];
    memset(&answer, 0xa5, sizeof answer);
    int fault = gs1_read_message(text, length, year, &answer);
    compare("message", fault, &answer, NULL, line, gs1_scan(text, length, year, line, sizeof line), year);
    memset(&answer, 0x5a, sizeof answer);
    fault = gs1_read_elements(text, length, year, &answer);
    compare("elements", fault, &answer, "data", line, gs1_text_elements(text, length, year, line, sizeof line), year);
    fault = gs1_read_gtin(text, length, 2026, &answer);
    size_t count = gs1_gtin(text, length, line, sizeof line);
    same_number("gtin", (unsigned long)fault, (unsigned long)gs1_status(line, count));
    if (!fault) {
        struct line got = {.count = 0};
        put_text(&got, "gtin ");
        put(&got, answer.text + answer.element[0].value, 14);
        same("gtin", &got, line, count);
        same_number("index of the GTIN", answer.gtin, 0);
    }
}

/* A row of widths, and the same as dots. */
static void compare_row(const char *widths, uint16_t year) {
    static uint16_t row[70000];
    static uint8_t bits[8200];
    size_t count = 0, dots = 0;
    for (char *end; *widths && count < 70000; widths = end) {
        row[count++] = (uint16_t)strtoul(widths, &end, 10);
        if (end == widths) return;
    }
    struct gs1_answer answer;
    uint8_t line[GS1_LINE];
    int fault = gs1_read_row(row, count, year, &answer);
    compare("row", fault, &answer, NULL, line, gs1_row_elements(row, count, year, line, sizeof line), year);
    memset(bits, 0, sizeof bits);
    for (size_t i = 0; i < count; i++)
        for (unsigned k = 0; k < row[i] && dots < 65000; k++, dots++)
            if (i % 2) bits[dots / 8] |= (uint8_t)(0x80 >> dots % 8);
    fault = gs1_read_dots(bits, (uint32_t)dots, year, &answer);
    compare("dots", fault, &answer, NULL, line, gs1_dots_elements(bits, (uint32_t)dots, year, line, sizeof line), year);
}

/* The bytes of a line of input, its escapes undone. */
static size_t bytes_of(const char *line, uint8_t *out) {
    size_t count = 0;
    while (*line) {
        unsigned byte;
        if (line[0] == '\\' && line[1] == 'x' && sscanf(line + 2, "%2x", &byte) == 1) {
            out[count++] = (uint8_t)byte;
            line += 4;
        } else {
            out[count++] = (uint8_t)*line++;
        }
    }
    return count;
}

/* The conflicts of a struct of any bytes, of as many elements as it has: they fit into the room, are in order, and do not depend on it. */
static void conflicts_of_any(const struct gs1_answer *answer, size_t room) {
    static struct gs1_conflict all[241], some[241];
    unsigned elements = answer->count < 48 ? answer->count : 48;
    size_t count = gs1_conflicts(answer, all, 240), first = count < room ? count : room;
    memset(&some[room], 0x5c, sizeof *some);
    same_number("conflicts in a room", (unsigned long)gs1_conflicts(answer, some, room), (unsigned long)first);
    same_number("conflicts again", (unsigned long)memcmp(some, all, first * sizeof *all), 0);
    same_number("beyond the conflicts", some[room].kind, 0x5c);
    for (size_t i = 0; i < count; i++) {
        same_number("kind of a conflict", all[i].kind < GS1_NEEDS || all[i].kind > GS1_NO_TRADE_ITEM || all[i].text[44], 0);
        same_number("element of a conflict", all[i].element >= elements || (i && all[i].element < all[i - 1].element), 0);
        same_number("other element", all[i].other != 255, all[i].kind == GS1_EXCLUDES || all[i].kind == GS1_DIFFERS);
    }
}

/* What is written of a struct of any bytes: nothing beyond the room, and an error or a text that is read as the same elements. */
static void write_any(const struct gs1_answer *answer, size_t room) {
    static const char *const words[] = {"]C1", "]d1", "https://id.gs1.org", "https://x.de/?"};
    static uint8_t out[1001];
    for (size_t i = 0; i < 4; i++) {
        size_t (*write)(const struct gs1_answer *, const uint8_t *, size_t, uint16_t, uint8_t *, size_t) = i < 2 ? gs1_scan_text : gs1_link;
        const uint8_t *word = (const uint8_t *)words[i];
        size_t size = write(answer, word, strlen(words[i]), GS1_EVERY_AI | 2026, out, 1000), length = size;
        same_number("most of what is written", size > GS1_LINK + 18, 0);
        if (!answer->fault && !gs1_status(out, size)) {
            struct gs1_answer again;
            same_number("written and read", (unsigned long)gs1_read_message(out, length, GS1_EVERY_AI | 2026, &again), 0);
            same_number("elements written and read", again.count, answer->count);
        }
        out[0] = out[room] = 0x5c;
        same_number("size of what is written", (unsigned long)write(answer, word, strlen(words[i]), GS1_EVERY_AI | 2026, out, room), size);
        same_number("beyond what is written", out[room], 0x5c);
        if (size > room) same_number("what does not fit", out[0], 0x5c);
    }
}

/* A million structs of any bytes, and rooms of 0 to 4,096: nothing is read outside of the struct, nothing is written beyond the room. */
static void format_any(unsigned long times) {
    static uint8_t out[4097];
    uint64_t seed = 1;
    for (unsigned long i = 0; i < times; i++) {
        struct gs1_answer answer;
        uint8_t *bytes = (uint8_t *)&answer;
        for (size_t k = 0; k < sizeof answer; k++) {
            seed = seed * 6364136223846793005u + 1442695040888963407u;
            bytes[k] = (uint8_t)(seed >> 56);
        }
        if (i & 1) answer.fault = 0;
        if (i & 2) answer.count %= 49;
        enum gs1_form form = (enum gs1_form)(i % 3);
        size_t room = (size_t)(seed >> 40) % 4097;
        out[room] = 0x5c;
        out[0] = room ? 0x5c : out[0];
        size_t count = gs1_format(&answer, form, out, room);
        same_number("beyond the room", out[room], 0x5c);
        if (count > room && room) same_number("line that does not fit", out[0], 0x5c);
        same_number("size", (unsigned long)gs1_format(&answer, form, NULL, 9), (unsigned long)count);
        if (i % 20) continue;
        /* Half of them have digits alone. */
        for (size_t k = 0; i % 40 && k < sizeof answer.text; k++) answer.text[k] = (uint8_t)('0' + answer.text[k] % 10);
        conflicts_of_any(&answer, room % 240);
        write_any(&answer, room % 1000);
    }
}

int main(int count, char **words) {
    static char line[400000];
    static uint8_t text[400000];
    int rows = count > 1 && !strcmp(words[1], "rows");
    while (fgets(line, sizeof line, stdin)) {
        line[strcspn(line, "\n")] = 0;
        if (rows) {
            const char *comma = strchr(line, ',');
            compare_row(comma ? comma + 1 : line, 2026);
            continue;
        }
        size_t length = bytes_of(line, text);
        compare_text(text, length, 2026);
        compare_text(text, length, GS1_EVERY_AI | 2026);
        compare_text(text, length, 1950);
    }
    struct gs1_answer answer;
    same_number("no text", (unsigned long)gs1_read_message(NULL, 3, 2026, NULL), GS1_FAULT_KIND);
    same_number("no row", (unsigned long)gs1_read_row(NULL, 3, 2026, &answer), GS1_FAULT_BAD_RUNS);
    same_number("no dots", (unsigned long)gs1_read_dots(NULL, 9, 2026, &answer), GS1_FAULT_BAD_RUNS);
    same_number("no answer", (unsigned long)gs1_format(NULL, GS1_AS_DATA, NULL, 0), strlen("refused 40 Kind"));
    same_number("no conflicts", (unsigned long)(gs1_conflicts(NULL, NULL, 3) + gs1_conflicts(&answer, NULL, 3)), 0);
    same_number("no text of a scanner", (unsigned long)gs1_scan_text(NULL, NULL, 3, 2026, NULL, 9), strlen("refused 40 Kind"));
    same_number("no link", (unsigned long)gs1_link(NULL, NULL, 3, 2026, NULL, 9), strlen("refused 40 Kind"));
    same_number("no year", (unsigned long)gs1_link(NULL, NULL, 3, 1950, NULL, 9), strlen("refused 42 Words"));
    same_number("no lines", (unsigned long)(gs1_read_messages(NULL, 3, 2026, &answer, 1, NULL) + gs1_read_gtins((const uint8_t *)"1", 1, 2026, NULL, 9, NULL)), 0);
    same_number("no GTIN", (unsigned long)gs1_gtin_as(NULL, 14, NULL, 9), 0);
    kinds_of_gtins();
    units_of_ais();
    composed_of_others();
    if (!rows) format_any(1000000);
    printf("%lu answers as values, %lu differ\n", asked, wrong);
    return wrong ? 1 : 0;
}
