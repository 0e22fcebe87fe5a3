/* Answers pictures from standard input with the lines of gs1_picture and an empty line. A picture is a line with its width and height, and then its
 * grey values. The year is 2026. */
#include "gs1.h"
#include <stdio.h>
#include <stdlib.h>

int main(void) {
    static uint8_t out[80000];
    unsigned width, height;
    while (scanf("%u %u", &width, &height) == 2 && getchar() == '\n') {
        size_t values = (size_t)width * height, words = gs1_picture_room(width, height);
        uint8_t *grey = malloc(values + 1);
        uint32_t *memory = malloc(4 * words + 1);
        if (!grey || !memory || fread(grey, 1, values, stdin) != values) return 1;
        size_t length = gs1_picture(grey, values, width, height, width, 0, 2026, memory, words, out, sizeof out);
        if (length > sizeof out) return 1;
        fwrite(out, 1, length, stdout);
        fputs(length && out[length - 1] == '\n' ? "\n" : "\n\n", stdout);
        free(grey), free(memory);
    }
    return 0;
}
