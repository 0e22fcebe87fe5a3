/* Prints structs of gs1.h whose fields all differ, a line each: its bytes in hexadecimal digits, a tab, and what the struct says as JSON. Then a line
 * for each kind of symbol: its number, a tab and its name. */
#include <gs1.h>
#include <stddef.h>
#include <stdio.h>
#include <string.h>

#define SYMBOLS(of) of(UNKNOWN) of(EAN13) of(UPCA) of(UPCE) of(EAN8) of(ITF14) of(GS1128) of(DATABAR) of(DATAMATRIX) of(QR_CODE) of(DOTCODE)
#define PRINT(name) printf("%d\t%s\n", GS1_SYMBOL_##name, #name);

static struct gs1_answer answer;

/* Empties the answer. Bytes that no field below sets are no zeros. */
static void begin(void) {
    memset(&answer, 0xa5, sizeof answer);
    answer.fault = 0;
    answer.place = GS1_NO_PLACE;
    answer.symbol = GS1_SYMBOL_UNKNOWN;
    answer.count = answer.length = 0;
    answer.gtin = GS1_NONE;
    memset(answer.identifier, 0, sizeof answer.identifier);
}

static void end(const char *said) {
    const unsigned char *byte = (const unsigned char *)&answer;
    for (size_t i = 0; i < sizeof answer; i++) printf("%02x", byte[i]);
    printf("\t%s\n", said);
}

int main(void) {
    begin();
    answer.symbol = GS1_SYMBOL_QR_CODE;
    answer.count = 2;
    answer.length = 9;
    answer.gtin = 1;
    memcpy(answer.identifier, "]Q3", 4);
    memcpy(answer.text, "12345678901", 11);
    answer.element[0] = (struct gs1_place){.ai = 0, .value = 2, .end = 5, .named = GS1_NAMES_DAY | GS1_NAMES_TIME, .day = {1962, 7, 29},
                                           .last_day = {2001, 5, 17}, .hour = 21, .minute = 42, .second = 36, .number = 3, .decimals = 4};
    answer.element[1] = (struct gs1_place){.ai = 5, .value = 8, .end = 9, .named = GS1_NAMES_DAY | GS1_NAMES_LAST_DAY, .day = {2149, 12, 31},
                                           .last_day = {2150, 1, 2}, .hour = 1, .minute = 2, .second = 3, .number = GS1_NONE, .decimals = GS1_NONE};
    end("{\"identifier\": \"]Q3\", \"symbol\": \"qr_code\", \"count\": 2, "
        "\"first\": {\"ai\": \"12\", \"value\": \"345\", \"date\": \"1962-07-29\", \"time\": \"21:42:36\"}, "
        "\"last\": {\"ai\": \"678\", \"value\": \"9\", \"date\": \"2149-12-31\", \"until\": \"2150-01-02\"}}");
    /* The last element. */
    begin();
    answer.count = 48;
    answer.length = 192;
    for (int i = 0; i < 192; i++) answer.text[i] = (uint8_t)('A' + i % 26);
    memset(answer.element, 0, sizeof answer.element);
    answer.element[47] = (struct gs1_place){.ai = 187, .value = 190, .end = 192, .named = GS1_NAMES_TIME, .hour = 23};
    end("{\"identifier\": null, \"symbol\": null, \"count\": 48, \"first\": {\"ai\": \"\", \"value\": \"\"}, "
        "\"last\": {\"ai\": \"FGH\", \"value\": \"IJ\", \"time\": \"23:00:00\"}}");
    begin();
    answer.fault = GS1_FAULT_VALUE_DATE;
    answer.place = 300;
    end("{\"refused\": \"refused 9 ValueDate 300\"}");
    begin();
    answer.fault = GS1_FAULT_CHECK_DIGIT;
    end("{\"refused\": \"refused 3 CheckDigit\"}");
    SYMBOLS(PRINT)
    return 0;
}
