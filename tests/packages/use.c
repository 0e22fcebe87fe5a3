/* What a program does with the library: a number, a check digit, and the row of a scan whose widths are its arguments. */
#include <gs1.h>
#include <stdio.h>
#include <stdlib.h>

static void line(const uint8_t *out, size_t length) {
    fwrite(out, 1, length, stdout);
    putchar('\n');
}

int main(int count, char **words) {
    uint8_t out[GS1_LINE];
    uint16_t widths[1000];
    int width;
    for (width = 0; width + 1 < count && width < 1000; width++) {
        widths[width] = (uint16_t)atoi(words[width + 1]);
    }
    line(out, gs1_gtin((const uint8_t *)"9501101530003", 13, out, sizeof out));
    line(out, gs1_digit((const uint8_t *)"950110153000", 12, out, sizeof out));
    line(out, gs1_row(widths, (size_t)width, 2026, out, sizeof out));
    return 0;
}
