/* Fills structs that nobody has initialised, and uses all that gs1.h says is written then, byte by byte. Under valgrind, which reports bytes that
 * are used but were never written. The last line is the counts. */
#include <gs1.h>
#include <stddef.h>
#include <stdint.h>
#include <stdio.h>
#include <stdlib.h>
#include <string.h>

enum { YEAR = GS1_EVERY_AI | 2026, CALLS = 7, CONFLICTS = 240 };

static const char *const TEXTS[] = {
    "]C10109501101530003\x1d" "17261231\x1d" "10LOT7", "]E09501101530003", "]E001234565", "]d27007260101261231\x1d" "3922195\x1d" "70032612312359",
    "https://id.gs1.org/01/09501101530003/10/A?17=261231", "]C117261331", "]C1", "x", "", "0109501101530003010950110153001017261231",
    "(01)09501101530003(10)AB", "9501101530003",
};

static const uint16_t EAN8[] = {7, 1, 1, 1, 3, 1, 1, 2, 1, 1, 1, 4, 1, 4, 1, 1, 1, 2, 1, 3, 1, 1,
                                1, 1, 1, 1, 2, 3, 1, 3, 2, 1, 1, 1, 3, 1, 2, 1, 1, 3, 2, 1, 1, 1, 7};

static uint32_t sum;

/* Branches on each bit, so that valgrind sees a byte that was never written. */
static void use(const void *bytes, size_t count) {
    for (size_t i = 0; i < count; i++)
        for (int bit = 0; bit < 8; bit++)
            if (((const uint8_t *)bytes)[i] >> bit & 1) sum += (uint32_t)(i + 1);
}

/* Fills the struct by the call of this number, about a text. */
static void fill(int call, const uint8_t *text, size_t length, struct gs1_answer *answer) {
    uint8_t line[GS1_LINE];
    switch (call) {
    case 0: gs1_read_message(text, length, YEAR, answer); break;
    case 1: gs1_read_elements(text, length, YEAR, answer); break;
    case 2: gs1_read_gtin(text, length, YEAR, answer); break;
    case 3: gs1_read_text(text, length, YEAR, answer); break;
    case 4: gs1_read_data(line, gs1_scan(text, length, YEAR, line, sizeof line), YEAR, answer); break;
    case 5: gs1_read_row(EAN8, sizeof EAN8 / sizeof *EAN8 - length % 2, YEAR, answer); break;
    default: gs1_read_message(text, length, 1900, answer); break;
    }
}

/* Uses what a filled struct has, and what is written of it. */
static void use_answer(const struct gs1_answer *answer) {
    uint8_t line[2048];
    struct gs1_conflict *conflicts = malloc(CONFLICTS * sizeof *conflicts);
    if (conflicts == NULL) abort();
    use(answer, offsetof(struct gs1_answer, text));
    use(answer->text, answer->length);
    use(answer->element, answer->count * sizeof *answer->element);
    use(line, gs1_format(answer, GS1_AS_DATA, line, sizeof line));
    use(line, gs1_format(answer, GS1_AS_HRI, line, sizeof line));
    use(line, gs1_link(answer, (const uint8_t *)"https://id.gs1.org", 18, YEAR, line, sizeof line));
    use(line, gs1_scan_text(answer, (const uint8_t *)"]C1", 3, YEAR, line, sizeof line));
    use(conflicts, gs1_conflicts(answer, conflicts, CONFLICTS) * sizeof *conflicts);
    free(conflicts);
}

int main(void) {
    unsigned structs = 0;
    for (size_t i = 0; i < sizeof TEXTS / sizeof *TEXTS; i++) {
        for (int call = 0; call < CALLS; call++) {
            struct gs1_answer *answer = malloc(sizeof *answer);
            if (answer == NULL) abort();
            fill(call, (const uint8_t *)TEXTS[i], strlen(TEXTS[i]), answer);
            use_answer(answer);
            free(answer);
            structs++;
        }
    }
    printf("%u structs that nobody had initialised, %s used\n", structs, sum ? "all their bytes" : "none");
    return sum == 0;
}
