/* Reads GS1 barcodes, checks numbers and element strings, and draws labels.
 *
 * Each call with `out` and `room` writes its answer into `out`, without a terminating 0, and returns its size. If `room` is smaller, `out` is
 * unchanged. So the returned value is the buffer size required, and you can call with a `room` of 0 to query it. A line has at most GS1_LINE
 * bytes, one of gs1_find and gs1_find_dots at most GS1_FOUND, and one of gs1_picture at most GS1_PLACED. An error is an answer too: `refused`,
 * a number, a name and, if there is one, a place, such as `refused 2 NotDigit 12`. gs1_status reads the number, and docs/FAULTS.md says what
 * to do about it.
 *
 * No call allocates memory, keeps state, waits, prints or ends the program, so several threads may call at a time.
 *
 * You must ensure this, since nothing checks it: each pointer is aligned for its type, and points to as many items as its count says, which are
 * set; `out` overlaps no input; nothing else writes the inputs or uses `out` during the call. A null pointer stands for no items, whatever its
 * count. */
#ifndef GS1_H
#define GS1_H

#include <stddef.h>
#include <stdint.h>

#ifdef __cplusplus
extern "C" {
#endif

/* The most bytes of a line: enough for each answer except an image. */
#define GS1_LINE 292

/* The most bytes of the line of a symbol that gs1_find or gs1_find_dots found. */
#define GS1_FOUND 304

/* The most bytes of the line of a symbol that gs1_picture found. */
#define GS1_PLACED 384

/* Enough for each answer of gs1_symbol. */
#define GS1_SYMBOL 900

/* The most bytes of a title, and of a unit. */
#define GS1_TITLE 32
#define GS1_UNIT 8

/* Together with a year, as GS1_EVERY_AI | 2026: accept every Application Identifier of the GS1 General Specifications. A year alone
 * accepts those of the profile (docs/DECISIONS.md). */
#define GS1_EVERY_AI 0x8000

/* The version of this header. */
#define GS1_VERSION "2.0.0"

/* The numbers of errors (docs/FAULTS.md). */
enum gs1_fault {
    GS1_FAULT_LENGTH = 1, GS1_FAULT_NOT_DIGIT = 2, GS1_FAULT_CHECK_DIGIT = 3, GS1_FAULT_EMPTY = 4,
    GS1_FAULT_UNKNOWN_AI = 5, GS1_FAULT_VALUE_LENGTH = 6, GS1_FAULT_VALUE_CHARACTER = 7,
    GS1_FAULT_VALUE_CHECK_DIGIT = 8, GS1_FAULT_VALUE_DATE = 9, GS1_FAULT_MISSING_SEPARATOR = 10,
    GS1_FAULT_TOO_LONG = 11, GS1_FAULT_TOO_MANY_CHARACTERS = 12, GS1_FAULT_CHECK_CHARACTER = 13,
    GS1_FAULT_NOT_GS1 = 14, GS1_FAULT_FUNCTION_CHARACTER = 15, GS1_FAULT_CODE_SET = 16,
    GS1_FAULT_TOO_WIDE = 17, GS1_FAULT_BAD_RUNS = 18, GS1_FAULT_BLANK = 19, GS1_FAULT_RUN_COUNT = 20,
    GS1_FAULT_QUIET_ZONE = 21, GS1_FAULT_MODULES = 22, GS1_FAULT_PATTERN = 23,
    GS1_FAULT_SYMBOL_CHECK_DIGIT = 24, GS1_FAULT_BAD_GRID = 25, GS1_FAULT_LABEL_KIND = 26,
    GS1_FAULT_LABEL_WIDTH = 27, GS1_FAULT_KIND = 40, GS1_FAULT_WORDS = 42, GS1_FAULT_NO_MEMORY = 43,
    /* of gs1_measure, gs1_plan and gs1_draw alone */
    GS1_FAULT_MEASURES = 51, GS1_FAULT_MODULE = 52, GS1_FAULT_BARS = 53, GS1_FAULT_NO_PLACE = 54, GS1_FAULT_NO_HEIGHT = 55,
    GS1_FAULT_LINES = 56, GS1_FAULT_MISDRAWN = 57
};

/* The kinds of labels: GS1_GS1128 shows an element string, the others a GTIN. */
enum gs1_kind { GS1_EAN13 = 0, GS1_UPCA = 1, GS1_EAN8 = 2, GS1_UPCE = 3, GS1_GS1128 = 4, GS1_ITF14 = 5 };

/* Bytes without a terminating 0. */
struct gs1_bytes {
    const uint8_t *at;
    size_t count;
};

/* An element: its Application Identifier and its value. */
struct gs1_element {
    struct gs1_bytes ai, value;
};

/* The version of the library that runs and the beginning of its sources' checksum, such as "2.0.0 (sources 7b9649c13394)", with a
 * terminating 0. */
const char *gs1_version(void);

/* The number of the error that a line reports, as in enum gs1_fault, or 0 if it reports none. `length` is the value that the call
 * returned which wrote the line. */
int gs1_status(const uint8_t *line, size_t length);

/* Takes the next element from a line of gs1_scan, or of a call whose name ends with `_elements`, and returns 1. If none follows, it returns
 * 0 and changes nothing. `rest` is the rest of the line, at first all of it. The element's pointers point into the line:
 *
 *     struct gs1_bytes rest = {line, length};
 *     struct gs1_element element;
 *     while (gs1_next(&rest, &element)) ..
 *
 * An error has no elements. In a line of gs1_picture the elements follow the corners. */
int gs1_next(struct gs1_bytes *rest, struct gs1_element *element);

/* The data title of an Application Identifier in the GS1 General Specifications, in UTF-8, such as `BATCH/LOT` for `10`. Empty if there is
 * no such AI, or if it has no title. A title has at most GS1_TITLE bytes. */
size_t gs1_title(const uint8_t *ai, size_t length, uint8_t *out, size_t room);

/* What a scanned row says. `widths` are the `count` widths, in pixels, of its light and dark bars, starting and ending with light, in either
 * direction. The answer is the symbology identifier and the elements, such as `]E0 (01)09501101530003`. Dates are read by the reference
 * year, 1951 to 2149; any other year is `refused 42 Words`. */
size_t gs1_row(const uint16_t *widths, size_t count, uint16_t year, uint8_t *out, size_t room);

/* The same with the elements as data: for each its AI, `=` and its value, with tabs between them, such as `]E0 01=09501101530003`. Different
 * lists of elements have different answers. */
size_t gs1_row_elements(const uint16_t *widths, size_t count, uint16_t year, uint8_t *out, size_t room);

/* Every symbol of a row, from left to right. A symbol is a part of the row that begins and ends with light and can be read as a row. Its
 * line has its first run, its number of runs and what gs1_row says about these, such as `0 61 ]E0 (01)09501101530003`, and ends with a line
 * feed. A row without a symbol has no line. Unlike other calls it writes as many whole lines as fit; the returned value is the size of
 * all of them. */
size_t gs1_find(const uint16_t *widths, size_t count, uint16_t year, uint8_t *out, size_t room);

/* What gs1_row says about a row of `count` dots, packed in bytes as in PBM: the first dot of a byte is its high bit, and 1 is dark. `bits`
 * has (count + 7) / 8 bytes; bits after the last dot do not matter. More than 65,535 dots are `refused 17 TooWide`. */
size_t gs1_dots(const uint8_t *bits, uint32_t count, uint16_t year, uint8_t *out, size_t room);

/* The same with the elements as data, as gs1_row_elements. */
size_t gs1_dots_elements(const uint8_t *bits, uint32_t count, uint16_t year, uint8_t *out, size_t room);

/* Every symbol of a row of `count` packed dots, as for gs1_dots: the lines of gs1_find for the row's widths. It writes as many whole lines as
 * fit; the returned value is the size of all of them. More than 65,535 dots are `refused 17 TooWide`. */
size_t gs1_find_dots(const uint8_t *bits, uint32_t count, uint16_t year, uint8_t *out, size_t room);

/* The day and the time of an element, which is its AI, `=` and its value as in gs1_row_elements: `date 2026-12-31` for `17=261231`,
 * `date 2026-12-31 23:59:00` for `7003=2612312359`, and `none` for an AI without a date. The year, 1951 to 2149, is that of the call which
 * gave the element; day 00 is the last of its month. The answer to a text that is no element is its first error, at place 0. */
size_t gs1_date(const uint8_t *text, size_t length, uint16_t year, uint8_t *out, size_t room);

/* What the text of a scanner says. It begins with a symbology identifier; what must follow depends on it:
 *
 *     `]E0`, `]E4`, `]I1`                  12 or 13 digits of a GTIN or the 8 of a UPC-E; 8 digits; 14 digits
 *     `]C1`, `]e0`, `]d2`, `]Q3`, `]J1`    an element string, with byte 29 or `^` as the separator
 *     `]Q1`, `]d1`                         a GS1 Digital Link
 *
 * Without an identifier it is an element string if it begins with a separator, a GTIN if it begins with eight digits, and a Digital Link if
 * it begins with `http://` or `https://`. The answer is the identifier, or `-` without one, and the elements as data, such as
 * `]C1 10=AB<TAB>17=261231`. An error's place counts from after the identifier and a separator there; in a Digital Link it is the index of
 * the element. Blanks and line ends after the text are skipped. Any other text is `refused 40 Kind`. */
size_t gs1_scan(const uint8_t *text, size_t length, uint16_t year, uint8_t *out, size_t room);

/* The 14 digits of a GTIN that is written with 8, 12, 13 or 14, such as `gtin 09501101530003`. */
size_t gs1_gtin(const uint8_t *text, size_t length, uint8_t *out, size_t room);

/* The check digit for 1 to 17 digits, such as `digit 3`. */
size_t gs1_digit(const uint8_t *text, size_t length, uint8_t *out, size_t room);

/* The elements of an element string, such as `hri (10)AB(17)261231`. Byte 29 is the separator. */
size_t gs1_text(const uint8_t *text, size_t length, uint16_t year, uint8_t *out, size_t room);

/* The same with the elements as data, as gs1_row_elements: `data 10=AB<TAB>17=261231`. */
size_t gs1_text_elements(const uint8_t *text, size_t length, uint16_t year, uint8_t *out, size_t room);

/* How many words of memory gs1_picture needs for a picture of this size: 0.4 MB for 4,000 by 3,000 pixels. 0 if a side has more than 65,535. */
size_t gs1_picture_room(uint32_t width, uint32_t height);

/* Every symbol that a picture shows. The picture is `values` grey values, 0 black: `height` rows of `width` pixels, each `stride` values
 * after the one above. With a `level`, pixels below it are dark. A level of 0 stands for the picture's own; then symbols are also found at
 * other angles, blurred, aslant, round a bottle and light on dark.
 *
 * Each symbol is a line with a line feed: the x and the y of its four corners, clockwise from the upper left one, in 1/256 pixel from the
 * upper left of the picture; how many rows show it; and what gs1_row_elements says about these, such as
 * `38400 20480 111360 20480 111360 51200 38400 51200 120 ]E0 01=09501101530003`. The lines are in reading order. If it found more than 192,
 * a line `dropped 3` at the end says how many are missing, at least. The answer to a picture without a symbol is `none`, or the error of the
 * row that came furthest, such as `refused 21 QuietZone`.
 *
 * `memory` has as many words as gs1_picture_room says, with any contents. Fewer are `refused 43 NoMemory`, a side of more than 65,535 pixels
 * is `refused 17 TooWide`, and a stride below the width, or fewer values than the rows need, `refused 18 BadRuns`.
 *
 * Like gs1_find, it writes as many whole lines as fit; the returned value is the size of all of them. The call needs at most 128 kB of
 * stack. */
size_t gs1_picture(const uint8_t *grey, size_t values, uint32_t width, uint32_t height, size_t stride, uint8_t level,
                   uint16_t year, uint32_t *memory, size_t words, uint8_t *out, size_t room);

/* A label as a PBM image (P4, netpbm's pbm(5)) of `width` by `height` dots. A module has `module_dots`, 1 to 8; the width is 1 to 4,096, the
 * height more than two modules and at most 1,024. The symbol begins after its nominal left quiet zone. An image begins with `P4`, an error
 * with `refused`. */
size_t gs1_label(enum gs1_kind kind, const uint8_t *text, size_t length, uint16_t year,
                 uint16_t module_dots, uint16_t width, uint16_t height, uint8_t *out, size_t room);

/* The symbol of a label in modules, for programs that draw it, such as `symbol 96385074 7 7 111...`: the text under the bars, the quiet zones
 * left and right, and a digit for the width of each bar and space, starting and ending with a bar. The text is the digits of the number as
 * its kind writes them, all eight for a UPC-E; for an element string it is the elements, with AIs in parentheses. Errors are those of
 * gs1_label without 25 and 27. */
size_t gs1_symbol(enum gs1_kind kind, const uint8_t *text, size_t length, uint16_t year, uint8_t *out,
                  size_t room);

/* ---- Answers as values. Each call of this part fills a struct of yours, and returns `fault`: 0, or the number of the error. */

/* The kind of a symbol. In rows and dots it is known exactly. Of the text of a scanner it is what the identifier says; behind `]E0` it is a
 * guess from the number of digits, since a scanner may send a UPC-E as the 12 digits of a UPC-A. */
enum gs1_symbol_kind {
    GS1_SYMBOL_UNKNOWN = 0, GS1_SYMBOL_EAN13 = 1, GS1_SYMBOL_UPCA = 2, GS1_SYMBOL_UPCE = 3, GS1_SYMBOL_EAN8 = 4, GS1_SYMBOL_ITF14 = 5,
    GS1_SYMBOL_GS1128 = 6, GS1_SYMBOL_DATABAR = 7, GS1_SYMBOL_DATAMATRIX = 8, GS1_SYMBOL_QR_CODE = 9, GS1_SYMBOL_DOTCODE = 10
};

/* What an element names: the sum of these. */
enum gs1_named { GS1_NAMES_DAY = 1, GS1_NAMES_TIME = 2, GS1_NAMES_LAST_DAY = 4 };

/* No place, no GTIN, no number. */
#define GS1_NO_PLACE 65535
#define GS1_NONE 255

/* A day, or zeros. */
struct gs1_day {
    uint16_t year;
    uint8_t month, day;
};

/* Where an element stands in the text of its answer, and what it names. */
struct gs1_place {
    uint8_t ai, value, end;       /* the indices of the first byte of its AI, of its value, and behind its value */
    uint8_t named;                /* enum gs1_named */
    struct gs1_day day, last_day; /* the last day of a period (AI 7007) */
    uint8_t hour, minute, second;
    uint8_t number, decimals;     /* the index of the first digit of a count, a measure or an amount, behind a currency, and how many of
                                     its digits are decimals; GS1_NONE if it is none */
    uint8_t reserved;
};

/* What a barcode says, or why it says nothing. Only `length` bytes of the text and `count` elements are written. */
struct gs1_answer {
    uint16_t fault, place;        /* the number of the error, or 0; its place, or GS1_NO_PLACE */
    uint8_t symbol;               /* enum gs1_symbol_kind */
    uint8_t count, length;        /* of the elements; of the text */
    uint8_t gtin;                 /* the index of the element of AI 01; GS1_NONE if there is none, or two whose values differ */
    char identifier[4];           /* the symbology identifier, such as "]C1", with a terminating 0; "" if there is none */
    uint8_t text[192];            /* the element string of these elements, with a separator only where one must stand */
    struct gs1_place element[48];
};

/* This layout does not change within a major version. */
typedef char gs1_place_size[sizeof(struct gs1_place) == 18 ? 1 : -1];
typedef char gs1_answer_size[sizeof(struct gs1_answer) == 1068 ? 1 : -1];

/* What the text of a scanner says, as gs1_scan reads it. */
int gs1_read_message(const uint8_t *text, size_t length, uint16_t year, struct gs1_answer *answer);

/* The elements of an element string. Byte 29 is the separator. */
int gs1_read_elements(const uint8_t *text, size_t length, uint16_t year, struct gs1_answer *answer);

/* A GTIN that is written with 8, 12, 13 or 14 digits, as the element of AI 01. */
int gs1_read_gtin(const uint8_t *digits, size_t length, uint16_t year, struct gs1_answer *answer);

/* What a text says as people type, print and paste it, in UTF-8: a number with blanks and hyphens, such as an ISBN; an element string with each
 * AI in parentheses or each in brackets, as it is printed, or with byte 29 or `^` as the separator; and what gs1_read_message reads behind an
 * identifier or a separator, and as a Digital Link. White space is ignored at the ends, around a printed value, and in one of digits alone. A
 * printed value ends before the next AI: if a value has an AI in parentheses, put brackets around each AI. The place of a printed element is
 * its offset in the string of AIs and values with a separator between each two elements. Zeros alone, and eight digits that begin with 0, are
 * GS1_FAULT_KIND. */
int gs1_read_text(const uint8_t *text, size_t length, uint16_t year, struct gs1_answer *answer);

/* What a scanned row says, given as for gs1_row. */
int gs1_read_row(const uint16_t *widths, size_t count, uint16_t year, struct gs1_answer *answer);

/* What a row of packed dots says, given as for gs1_dots. */
int gs1_read_dots(const uint8_t *bits, uint32_t count, uint16_t year, struct gs1_answer *answer);

/* The answer whose line this is, with the elements as data: a line of gs1_scan, gs1_row_elements, gs1_dots_elements or gs1_format, and one of
 * `live --elements` behind its lane and number. A line of an error gives that error. Of `]E0` the symbol is a guess. Any other text is
 * GS1_FAULT_KIND, without a place; and so is a line whose elements the year's terms do not allow. */
int gs1_read_data(const uint8_t *line, size_t length, uint16_t year, struct gs1_answer *answer);

/* The answer that has these elements: its text is their element string. The place of an error is the index of the element. More than 48 elements,
 * and a value of more than 192 bytes, are GS1_FAULT_TOO_LONG without a place. */
int gs1_compose(const struct gs1_element *elements, size_t count, uint16_t year, struct gs1_answer *answer);

/* The answers to the lines of a text, each as gs1_read_message or gs1_read_gtin gives it, for as many lines as there is room for. Returns how
 * many lines it answered, and sets `*used` to the bytes of these lines with their ends, so that the next call begins there:
 *
 *     while (length > 0) {
 *         size_t used, count = gs1_read_messages(text, length, year, answers, room, &used);
 *         ..
 *         text += used, length -= used;
 *     }
 *
 * A line ends with a line feed, or a carriage return and a line feed; the last one may end with the text. In a text that you read in pieces,
 * pass whole lines. `used` may be null. Without room, no line is answered. */
size_t gs1_read_messages(const uint8_t *text, size_t length, uint16_t year, struct gs1_answer *answers, size_t room, size_t *used);
size_t gs1_read_gtins(const uint8_t *text, size_t length, uint16_t year, struct gs1_answer *answers, size_t room, size_t *used);

/* The forms of a line: `]C1 10=AB<TAB>17=261231`, and `]C1 (10)AB(17)261231`. */
enum gs1_form { GS1_AS_DATA = 0, GS1_AS_HRI = 1 };

/* The line of an answer: its identifier, or `-` without one, and its elements; or its error. It has at most GS1_LINE bytes if a call of this
 * part filled the answer. You may change the answer or fill it yourself: any bytes give a line, in which a place that is no span of the text
 * is empty. If `form` is none of these, the line is `refused 40 Kind`. */
size_t gs1_format(const struct gs1_answer *answer, enum gs1_form form, uint8_t *out, size_t room);

/* The text that a scanner sends of a symbol with the elements of an answer, such as `]d2010950110153000310AB`. The identifier is `]C1` (GS1-128),
 * `]e0` (DataBar), `]d2` (DataMatrix), `]Q3` (QR code) or `]J1` (DotCode); any other is `refused 40 Kind`. gs1_read_message reads the text as the
 * same elements by the same year. The answer is an error's line if `answer` has an error. You may change the elements or fill them yourself:
 * wrong ones are refused, with the index of the element as the place. It has at most GS1_LINE bytes. */
size_t gs1_scan_text(const struct gs1_answer *answer, const uint8_t *identifier, size_t length, uint16_t year, uint8_t *out, size_t room);

/* The most bytes of a link behind its stem. */
#define GS1_LINK 672

/* The GS1 Digital Link of the elements with a stem such as `https://id.gs1.org`: `https://id.gs1.org/01/09501101530003/10/AB?17=261231`. The first
 * element whose AI is a key stands in the path with its qualifiers, and the others in the query. gs1_read_message reads it as the same elements in
 * this order. Without a key, or with a stem that is no http or https URI or has a `?` or a `#`, it is `refused 40 Kind`; with too many bytes in this
 * order, `refused 11 TooLong`. Other errors are those of gs1_scan_text. */
size_t gs1_link(const struct gs1_answer *answer, const uint8_t *stem, size_t length, uint16_t year, uint8_t *out, size_t room);

/* What is wrong with an element beside the others: it needs an element of one of the AIs of `text`, such as "01,02,310n", in which n stands for
 * any digit; it excludes the element `other`; the element `other`, before it, has the same AI and another value; or `text` is a code of no
 * country (ISO 3166), a code of no currency (ISO 4217), the beginning of a value that begins with no GS1 Company Prefix, or a GTIN that identifies
 * no trade item: it is GS1_IN_STORE, GS1_COUPON or GS1_ZEROS of enum gs1_gtin_use. */
enum gs1_conflict_kind {
    GS1_NEEDS = 1, GS1_EXCLUDES = 2, GS1_DIFFERS = 3, GS1_NO_COUNTRY = 4, GS1_NO_CURRENCY = 5, GS1_NO_PREFIX = 6, GS1_NO_TRADE_ITEM = 7
};

/* A conflict of the element of an index. `other` is an index too, or 255. A 0 ends the text. */
struct gs1_conflict {
    uint8_t kind, element, other;
    char text[45];
};

/* Writes the conflicts of an answer, in the order of its elements, as many as there is room for, and returns how many it wrote. They are no
 * errors: what a needed element says may stand in another symbol, and lists of codes change. You may fill the answer yourself, as for
 * gs1_format. */
size_t gs1_conflicts(const struct gs1_answer *answer, struct gs1_conflict *conflicts, size_t room);

/* What a GTIN identifies, by its first digits. The standard reserves 02, 04 and 2 for numbers that shops and companies give themselves, 980 for refund
 * receipts, 981 to 984 and 99 for coupons, as 05 was, 977 for serial publications (ISSN), 9790 for printed music (ISMN), and 978 and 979 for
 * books (ISBN). Of eight digits, those that begin with 0 or 2 are of shops. Zeros alone identify nothing. */
enum gs1_gtin_use {
    GS1_NO_GTIN = 0, GS1_TRADE_ITEM = 1, GS1_IN_STORE = 2, GS1_COUPON = 3, GS1_ISSN = 4, GS1_ISMN = 5, GS1_ISBN = 6, GS1_ZEROS = 7
};

/* What the GTIN of an answer identifies: a number of enum gs1_gtin_use. */
int gs1_use_of_gtin(const struct gs1_answer *answer);

/* The GTIN of an answer as 8, 12, 13 or 14 digits. It has no bytes if there is no GTIN or it has more digits, and for any other number of `digits`. */
size_t gs1_gtin_as(const struct gs1_answer *answer, uint32_t digits, uint8_t *out, size_t room);

/* The unit of the number of an element, by its AI, in UTF-8, such as `kg` for `3103`: of measures, percentages and temperatures. It has no
 * bytes for any other AI, and at most GS1_UNIT. */
size_t gs1_unit(const uint8_t *ai, size_t length, uint8_t *out, size_t room);

/* ---- Labels laid out: what is drawn of an article, and where. Each call returns 0, or the number of the error. Lengths are dots unless a
 * name says mm. Labels of a list look even if they have a plan in common: call gs1_measure for each article, gs1_plan once for all measures,
 * and then gs1_draw for each article. */

/* The most parts of a label, and the bytes of a row of 65,535 dots. */
#define GS1_PARTS 400
#define GS1_ROW 8192

/* Letters by their code points. */
struct gs1_letters {
    const uint32_t *codes;
    size_t count;
};

/* What a label shows: the symbol of this kind and text, as for gs1_symbol, and texts. An empty text is not shown. */
struct gs1_article {
    struct gs1_bytes text;
    struct gs1_letters name, price, old_price, unit_price, deposit, best_before, batch;
    struct gs1_letters lines;       /* at most 8, with a line feed between two */
    uint32_t kind;                  /* enum gs1_kind */
    uint32_t bearers;               /* 1: an ITF-14 has a bar above it and one below it */
};

/* The measures of a font, in 1/16,384 of its size. */
struct gs1_font {
    const uint16_t *widths;         /* of its letters by their code points; 0 for a letter that it lacks */
    size_t count;
    uint16_t other;                 /* the width of its sign for letters that it lacks */
    uint16_t ascent, descent;       /* how far its letters go up and down from their base line; together at least half a size */
    uint16_t digits;                /* how far its digits go up */
};

/* An empty label, and how it looks. */
struct gs1_look {
    double aside, above;            /* how much stays white at each side, and above and below */
    double dots;                    /* of a millimetre, 4 to 100 */
    double module_mm, bars_mm;      /* the width of a module and the height of the bars, 5 to 100; 0 if you do not ask for them */
    uint16_t width, height;
    uint32_t price_first;           /* 1: the price is the largest, and the bars are a strip below it */
    struct gs1_font regular, bold;
};

/* What the label of an article counts for the others of its list. */
struct gs1_measure {
    uint32_t wide, price;
    uint8_t retail;
};

/* What labels of a list have in common. */
struct gs1_common {
    double column, beside, above;
};

struct gs1_plan {
    struct gs1_common articles, cases;
};

/* What is drawn in a part. */
enum gs1_ink { GS1_BAR = 0, GS1_BEARER = 1, GS1_LETTERS = 2 };

/* The texts of an article. GS1_FIELD_DIGITS is what people read under the symbol, as gs1_symbol answers it. */
enum gs1_field {
    GS1_FIELD_NAME = 0, GS1_FIELD_PRICE = 1, GS1_FIELD_OLD_PRICE = 2, GS1_FIELD_UNIT_PRICE = 3, GS1_FIELD_DEPOSIT = 4,
    GS1_FIELD_BEST_BEFORE = 5, GS1_FIELD_BATCH = 6, GS1_FIELD_LINES = 7, GS1_FIELD_DIGITS = 8
};

/* How letters are set: the sum of these. GS1_CUT: an ellipsis follows. */
enum gs1_set { GS1_CUT = 1, GS1_BOLD = 2, GS1_STRUCK = 4 };

/* A rectangle of a label, and what is drawn in it. Bars and bearers are dark all over; letters lie in it. */
struct gs1_part {
    uint16_t left, top, width, height;
    uint16_t field, from, count;    /* of letters: enum gs1_field, the first of them in that text, and how many */
    uint8_t ink, flags;             /* enum gs1_ink, enum gs1_set */
    uint32_t size, letters_left, base; /* in 1/64 dot: the size of the font, where the letters begin, and their base line */
    uint32_t step;                  /* in 1/64 dot: each letter stands in the middle of this much; 0 if they follow one another */
};

/* A drawn label. */
struct gs1_drawing {
    uint32_t count;                 /* of its parts */
    uint32_t nominal;               /* the height of bars that the standard asks for, in 1/64 dot */
    uint16_t width, height;
    uint16_t top, end;              /* the first row through all bars, and the one below the last */
    uint16_t left, module;          /* where the left quiet zone begins, and the dots of a module */
};

/* This layout does not change within a major version. */
typedef char gs1_part_size[sizeof(struct gs1_part) == 32 ? 1 : -1];
typedef char gs1_drawing_size[sizeof(struct gs1_drawing) == 20 ? 1 : -1];

/* What the label of an article counts for the others of its list. */
int gs1_measure(const struct gs1_look *look, const struct gs1_article *article, uint16_t year, struct gs1_measure *measure);

/* What the labels of a list have in common, from the measures of its articles. */
int gs1_plan(const struct gs1_look *look, const struct gs1_measure *measures, size_t count, struct gs1_plan *plan);

/* The label of an article. All parts lie on it and do not overlap. The first are the bars of its symbol, the others letters or bearers outside
 * of the symbol and its quiet zones. Each letter is shown, unless it follows an ellipsis, and a price is never cut. Each row through the bars
 * answers the article, and nothing else.
 *
 * `row` has GS1_ROW bytes, with any contents; fewer are GS1_FAULT_NO_MEMORY. `parts` has room for `room` parts. If there are more, `parts` is
 * unchanged, and `count` of the drawing says how many there are. The call needs at most 160 KiB of stack. */
int gs1_draw(const struct gs1_look *look, const struct gs1_plan *plan, const struct gs1_article *article, uint16_t year, uint8_t *row,
             size_t row_bytes, struct gs1_part *parts, size_t room, struct gs1_drawing *drawing);

#ifdef __cplusplus
}
#endif
#endif
