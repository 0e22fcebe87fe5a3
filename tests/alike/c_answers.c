/* Answers lines from standard input: `3 012345000065` with the symbol of a label of kind 3, and `- 10AB` with the elements of an element string, and
 * `= ]C110AB` with what the text of a scanner says: `scan`, the identifier, the number of the symbol, the GTIN, and the elements; `-` is none. `~ (10)AB`
 * asks the same of a printed text. It accepts every Application Identifier. The year is 2026. */
#include "gs1.h"
#include <stdio.h>
#include <string.h>

/* What the text of a scanner or a printed text says. */
static int print_scan(char kind, const uint8_t *text, size_t length, uint16_t terms) {
    static uint8_t out[GS1_LINE];
    struct gs1_answer answer;
    if (kind == '~' ? gs1_read_text(text, length, terms, &answer) : gs1_read_message(text, length, terms, &answer)) {
        size_t count = gs1_format(&answer, GS1_AS_DATA, out, sizeof out);
        if (count > sizeof out) return 1;
        printf("%.*s\n", (int)count, (const char *)out);
        return 0;
    }
    const char *said = (const char *)answer.text, *gtin = "-";
    int digits = 1;
    if (answer.gtin != GS1_NONE) {
        const struct gs1_place *it = &answer.element[answer.gtin];
        gtin = said + it->value;
        digits = it->end - it->value;
    }
    printf("scan %s %d %.*s ", *answer.identifier ? answer.identifier : "-", answer.symbol, digits, gtin);
    for (int i = 0; i < answer.count; i++) {
        const struct gs1_place *it = &answer.element[i];
        printf("%s%.*s=%.*s", i ? "\t" : "", it->value - it->ai, said + it->ai, it->end - it->value, said + it->value);
    }
    putchar('\n');
    return 0;
}

int main(void) {
    static char line[1000];
    static uint8_t out[GS1_SYMBOL];
    uint16_t terms = GS1_EVERY_AI | 2026;
    while (fgets(line, sizeof line, stdin)) {
        const uint8_t *text = (const uint8_t *)line + 2;
        size_t length = strcspn(line, "\n") - 2;
        if (*line == '=' || *line == '~') {
            if (print_scan(*line, text, length, terms)) return 1;
            continue;
        }
        size_t count = *line == '-' ? gs1_text_elements(text, length, terms, out, sizeof out)
                                    : gs1_symbol((enum gs1_kind)(*line - '0'), text, length, terms, out, sizeof out);
        if (count > sizeof out) return 1;
        printf("%.*s\n", (int)count, (const char *)out);
    }
    return 0;
}
