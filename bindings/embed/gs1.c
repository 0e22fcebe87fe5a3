/* The calls of gs1.h: each passes what it was given on to the proved call of crates/gs1_c, which takes no null pointer. A null pointer
 * stands for no items, whatever its count. */
#include "gs1.h"

/* Where an element stands in a line: its AI, the `=` behind it, and the end of its value. */
struct gs1_c_place {
    size_t start, equals, end;
};

size_t gs1_c_row(const uint16_t *widths, size_t count, uint16_t year, uint8_t *out, size_t room);
size_t gs1_c_row_elements(const uint16_t *widths, size_t count, uint16_t year, uint8_t *out, size_t room);
size_t gs1_c_find(const uint16_t *widths, size_t count, uint16_t year, uint8_t *out, size_t room);
size_t gs1_c_dots(const uint8_t *bits, size_t bytes, uint32_t count, uint16_t year, uint8_t *out, size_t room);
size_t gs1_c_dots_elements(const uint8_t *bits, size_t bytes, uint32_t count, uint16_t year, uint8_t *out, size_t room);
size_t gs1_c_find_dots(const uint8_t *bits, size_t bytes, uint32_t count, uint16_t year, uint8_t *out, size_t room);
size_t gs1_c_date(const uint8_t *text, size_t length, uint16_t year, uint8_t *out, size_t room);
size_t gs1_c_scan(const uint8_t *text, size_t length, uint16_t year, uint8_t *out, size_t room);
size_t gs1_c_gtin(const uint8_t *text, size_t length, uint8_t *out, size_t room);
size_t gs1_c_digit(const uint8_t *text, size_t length, uint8_t *out, size_t room);
size_t gs1_c_text(const uint8_t *text, size_t length, uint16_t year, uint8_t *out, size_t room);
size_t gs1_c_text_elements(const uint8_t *text, size_t length, uint16_t year, uint8_t *out, size_t room);
size_t gs1_c_picture_room(uint32_t width, uint32_t height);
size_t gs1_c_picture(const uint8_t *grey, size_t values, uint32_t width, uint32_t height, size_t stride, uint8_t level, uint16_t year,
                     uint32_t *words, size_t word_count, uint16_t *widths, size_t width_count, uint8_t *out, size_t room);
size_t gs1_c_label(uint32_t kind, const uint8_t *text, size_t length, uint16_t year, uint16_t module_dots, uint16_t width,
                   uint16_t height, uint8_t *out, size_t room);
size_t gs1_c_symbol(uint32_t kind, const uint8_t *text, size_t length, uint16_t year, uint8_t *out, size_t room);
size_t gs1_c_title(const uint8_t *ai, size_t length, uint8_t *out, size_t room);
uint32_t gs1_c_status(const uint8_t *line, size_t length);
_Bool gs1_c_next(const uint8_t *line, size_t length, struct gs1_c_place *place);
uint32_t gs1_c_read_message(const uint8_t *text, size_t length, uint16_t year, struct gs1_answer *answer);
uint32_t gs1_c_read_elements(const uint8_t *text, size_t length, uint16_t year, struct gs1_answer *answer);
uint32_t gs1_c_read_gtin(const uint8_t *digits, size_t length, uint16_t year, struct gs1_answer *answer);
uint32_t gs1_c_read_text(const uint8_t *text, size_t length, uint16_t year, struct gs1_answer *answer);
uint32_t gs1_c_read_row(const uint16_t *widths, size_t count, uint16_t year, struct gs1_answer *answer);
uint32_t gs1_c_read_dots(const uint8_t *bits, size_t bytes, uint32_t count, uint16_t year, struct gs1_answer *answer);
uint32_t gs1_c_read_data(const uint8_t *line, size_t length, uint16_t year, struct gs1_answer *answer);
size_t gs1_c_read_messages(const uint8_t *text, size_t length, uint16_t year, struct gs1_answer *answers, size_t room, size_t *used);
size_t gs1_c_read_gtins(const uint8_t *text, size_t length, uint16_t year, struct gs1_answer *answers, size_t room, size_t *used);
size_t gs1_c_format(const struct gs1_answer *answer, uint32_t form, uint8_t *out, size_t room);
size_t gs1_c_scan_text(const struct gs1_answer *answer, const uint8_t *identifier, size_t length, uint16_t year, uint8_t *out, size_t room);
size_t gs1_c_link(const struct gs1_answer *answer, const uint8_t *stem, size_t length, uint16_t year, uint8_t *out, size_t room);
size_t gs1_c_conflicts(const struct gs1_answer *answer, struct gs1_conflict *out, size_t room);
uint32_t gs1_c_compose(const struct gs1_element *elements, size_t count, uint16_t year, struct gs1_answer *answer);
uint32_t gs1_c_use_of_gtin(const struct gs1_answer *answer);
size_t gs1_c_gtin_as(const struct gs1_answer *answer, uint32_t digits, uint8_t *out, size_t room);
size_t gs1_c_unit(const uint8_t *ai, size_t length, uint8_t *out, size_t room);
uint32_t gs1_c_measure(const struct gs1_look *look, const struct gs1_article *article, uint16_t year, struct gs1_measure *measure);
uint32_t gs1_c_plan(const struct gs1_look *look, const struct gs1_measure *measures, size_t count, struct gs1_plan *plan);
uint32_t gs1_c_draw(const struct gs1_look *look, const struct gs1_plan *plan, const struct gs1_article *article, uint16_t year, uint8_t *row,
                    size_t row_bytes, struct gs1_part *parts, size_t room, struct gs1_drawing *drawing);

/* No items, aligned for each type. Nothing is read or written there, since the count is 0. */
static const uint64_t none;

/* A pointer and its count, as the proved calls take them. */
#define READ(type, items, count) (items) ? (items) : (const type *)&none, (items) ? (count) : 0
#define WRITE(type, items, count) (items) ? (items) : (type *)&none, (items) ? (count) : 0
#define OUT WRITE(uint8_t, out, room)

/* How many bytes so many packed dots have. */
static size_t bytes_of(uint32_t count) {
    return (size_t)(((uint64_t)count + 7) / 8);
}

/* How many words of its memory gs1_picture takes for the widths of a row. */
static size_t width_words(uint32_t width) {
    return ((size_t)width + 3) / 2;
}

const char *gs1_version(void) {
    return GS1_VERSION " (sources " GS1_SOURCES ")";
}

size_t gs1_row(const uint16_t *widths, size_t count, uint16_t year, uint8_t *out, size_t room) {
    return gs1_c_row(READ(uint16_t, widths, count), year, OUT);
}

size_t gs1_row_elements(const uint16_t *widths, size_t count, uint16_t year, uint8_t *out, size_t room) {
    return gs1_c_row_elements(READ(uint16_t, widths, count), year, OUT);
}

size_t gs1_find(const uint16_t *widths, size_t count, uint16_t year, uint8_t *out, size_t room) {
    return gs1_c_find(READ(uint16_t, widths, count), year, OUT);
}

size_t gs1_dots(const uint8_t *bits, uint32_t count, uint16_t year, uint8_t *out, size_t room) {
    return gs1_c_dots(READ(uint8_t, bits, bytes_of(count)), count, year, OUT);
}

size_t gs1_dots_elements(const uint8_t *bits, uint32_t count, uint16_t year, uint8_t *out, size_t room) {
    return gs1_c_dots_elements(READ(uint8_t, bits, bytes_of(count)), count, year, OUT);
}

size_t gs1_find_dots(const uint8_t *bits, uint32_t count, uint16_t year, uint8_t *out, size_t room) {
    return gs1_c_find_dots(READ(uint8_t, bits, bytes_of(count)), count, year, OUT);
}

size_t gs1_date(const uint8_t *text, size_t length, uint16_t year, uint8_t *out, size_t room) {
    return gs1_c_date(READ(uint8_t, text, length), year, OUT);
}

size_t gs1_scan(const uint8_t *text, size_t length, uint16_t year, uint8_t *out, size_t room) {
    return gs1_c_scan(READ(uint8_t, text, length), year, OUT);
}

size_t gs1_gtin(const uint8_t *text, size_t length, uint8_t *out, size_t room) {
    return gs1_c_gtin(READ(uint8_t, text, length), OUT);
}

size_t gs1_digit(const uint8_t *text, size_t length, uint8_t *out, size_t room) {
    return gs1_c_digit(READ(uint8_t, text, length), OUT);
}

size_t gs1_text(const uint8_t *text, size_t length, uint16_t year, uint8_t *out, size_t room) {
    return gs1_c_text(READ(uint8_t, text, length), year, OUT);
}

size_t gs1_text_elements(const uint8_t *text, size_t length, uint16_t year, uint8_t *out, size_t room) {
    return gs1_c_text_elements(READ(uint8_t, text, length), year, OUT);
}

size_t gs1_picture_room(uint32_t width, uint32_t height) {
    size_t words = gs1_c_picture_room(width, height);
    return words ? words + width_words(width) : 0;
}

size_t gs1_picture(const uint8_t *grey, size_t values, uint32_t width, uint32_t height, size_t stride, uint8_t level, uint16_t year,
                   uint32_t *memory, size_t words, uint8_t *out, size_t room) {
    /* The widths of a row stand at the end of the memory. */
    uint32_t *some = memory ? memory : (uint32_t *)&none;
    size_t all = memory ? words : 0;
    size_t last = width_words(width) < all ? width_words(width) : all;
    return gs1_c_picture(READ(uint8_t, grey, values), width, height, stride, level, year, some, all - last,
                         (uint16_t *)(some + (all - last)), 2 * last, OUT);
}

size_t gs1_label(enum gs1_kind kind, const uint8_t *text, size_t length, uint16_t year, uint16_t module_dots, uint16_t width,
                 uint16_t height, uint8_t *out, size_t room) {
    return gs1_c_label((uint32_t)kind, READ(uint8_t, text, length), year, module_dots, width, height, OUT);
}

size_t gs1_symbol(enum gs1_kind kind, const uint8_t *text, size_t length, uint16_t year, uint8_t *out, size_t room) {
    return gs1_c_symbol((uint32_t)kind, READ(uint8_t, text, length), year, OUT);
}

size_t gs1_title(const uint8_t *ai, size_t length, uint8_t *out, size_t room) {
    return gs1_c_title(READ(uint8_t, ai, length), OUT);
}

int gs1_status(const uint8_t *line, size_t length) {
    return (int)gs1_c_status(READ(uint8_t, line, length));
}

int gs1_next(struct gs1_bytes *rest, struct gs1_element *element) {
    struct gs1_c_place place;
    if (!rest || !element || !rest->at || !gs1_c_next(rest->at, rest->count, &place)) return 0;
    element->ai.at = rest->at + place.start;
    element->ai.count = place.equals - place.start;
    element->value.at = rest->at + place.equals + 1;
    element->value.count = place.end - place.equals - 1;
    rest->at += place.end;
    rest->count -= place.end;
    return 1;
}

/* Without a place for the answer, only the number of the error is returned. */
#define INTO(answer) (answer) ? (answer) : &(struct gs1_answer){0}

int gs1_read_message(const uint8_t *text, size_t length, uint16_t year, struct gs1_answer *answer) {
    return (int)gs1_c_read_message(READ(uint8_t, text, length), year, INTO(answer));
}

int gs1_read_elements(const uint8_t *text, size_t length, uint16_t year, struct gs1_answer *answer) {
    return (int)gs1_c_read_elements(READ(uint8_t, text, length), year, INTO(answer));
}

int gs1_read_gtin(const uint8_t *digits, size_t length, uint16_t year, struct gs1_answer *answer) {
    return (int)gs1_c_read_gtin(READ(uint8_t, digits, length), year, INTO(answer));
}

int gs1_read_text(const uint8_t *text, size_t length, uint16_t year, struct gs1_answer *answer) {
    return (int)gs1_c_read_text(READ(uint8_t, text, length), year, INTO(answer));
}

int gs1_read_row(const uint16_t *widths, size_t count, uint16_t year, struct gs1_answer *answer) {
    return (int)gs1_c_read_row(READ(uint16_t, widths, count), year, INTO(answer));
}

int gs1_read_dots(const uint8_t *bits, uint32_t count, uint16_t year, struct gs1_answer *answer) {
    return (int)gs1_c_read_dots(READ(uint8_t, bits, bytes_of(count)), count, year, INTO(answer));
}

int gs1_read_data(const uint8_t *line, size_t length, uint16_t year, struct gs1_answer *answer) {
    return (int)gs1_c_read_data(READ(uint8_t, line, length), year, INTO(answer));
}

size_t gs1_read_messages(const uint8_t *text, size_t length, uint16_t year, struct gs1_answer *answers, size_t room, size_t *used) {
    return gs1_c_read_messages(READ(uint8_t, text, length), year, WRITE(struct gs1_answer, answers, room), used ? used : &(size_t){0});
}

size_t gs1_read_gtins(const uint8_t *text, size_t length, uint16_t year, struct gs1_answer *answers, size_t room, size_t *used) {
    return gs1_c_read_gtins(READ(uint8_t, text, length), year, WRITE(struct gs1_answer, answers, room), used ? used : &(size_t){0});
}

/* What stands for a null pointer: the answer to no text, `refused 40 Kind`. */
static const struct gs1_answer no_answer = {.fault = GS1_FAULT_KIND, .place = GS1_NO_PLACE};

size_t gs1_format(const struct gs1_answer *answer, enum gs1_form form, uint8_t *out, size_t room) {
    return gs1_c_format(answer ? answer : &no_answer, (uint32_t)form, OUT);
}

size_t gs1_scan_text(const struct gs1_answer *answer, const uint8_t *identifier, size_t length, uint16_t year, uint8_t *out, size_t room) {
    return gs1_c_scan_text(answer ? answer : &no_answer, READ(uint8_t, identifier, length), year, OUT);
}

size_t gs1_link(const struct gs1_answer *answer, const uint8_t *stem, size_t length, uint16_t year, uint8_t *out, size_t room) {
    return gs1_c_link(answer ? answer : &no_answer, READ(uint8_t, stem, length), year, OUT);
}

size_t gs1_conflicts(const struct gs1_answer *answer, struct gs1_conflict *conflicts, size_t room) {
    return gs1_c_conflicts(answer ? answer : &no_answer, WRITE(struct gs1_conflict, conflicts, room));
}

int gs1_use_of_gtin(const struct gs1_answer *answer) {
    return (int)gs1_c_use_of_gtin(answer ? answer : &no_answer);
}

size_t gs1_gtin_as(const struct gs1_answer *answer, uint32_t digits, uint8_t *out, size_t room) {
    return gs1_c_gtin_as(answer ? answer : &no_answer, digits, OUT);
}

size_t gs1_unit(const uint8_t *ai, size_t length, uint8_t *out, size_t room) {
    return gs1_c_unit(READ(uint8_t, ai, length), OUT);
}

static struct gs1_bytes bytes_at(struct gs1_bytes given) {
    return given.at ? given : (struct gs1_bytes){(const uint8_t *)&none, 0};
}

int gs1_compose(const struct gs1_element *elements, size_t count, uint16_t year, struct gs1_answer *answer) {
    /* One more than an answer has room for is refused like any number above. */
    struct gs1_element some[49];
    size_t few = !elements ? 0 : count < 49 ? count : 49;
    for (size_t i = 0; i < few; i++) some[i] = (struct gs1_element){bytes_at(elements[i].ai), bytes_at(elements[i].value)};
    return (int)gs1_c_compose(some, few, year, INTO(answer));
}

/* What is lent, with pointers to nothing in the place of null pointers. */
static struct gs1_article article_of(const struct gs1_article *given) {
    struct gs1_article article = given ? *given : (struct gs1_article){0};
    struct gs1_letters *texts[] = {&article.name,        &article.price, &article.old_price, &article.unit_price, &article.deposit,
                                   &article.best_before, &article.batch, &article.lines};
    if (!article.text.at) article.text = (struct gs1_bytes){(const uint8_t *)&none, 0};
    for (size_t i = 0; i < sizeof texts / sizeof *texts; i++)
        if (!texts[i]->codes) *texts[i] = (struct gs1_letters){(const uint32_t *)&none, 0};
    return article;
}

static struct gs1_look look_of(const struct gs1_look *given) {
    struct gs1_look look = given ? *given : (struct gs1_look){0};
    struct gs1_font *fonts[] = {&look.regular, &look.bold};
    for (size_t i = 0; i < 2; i++)
        if (!fonts[i]->widths) fonts[i]->widths = (const uint16_t *)&none, fonts[i]->count = 0;
    return look;
}

int gs1_measure(const struct gs1_look *look, const struct gs1_article *article, uint16_t year, struct gs1_measure *measure) {
    struct gs1_article some = article_of(article);
    struct gs1_look label = look_of(look);
    return (int)gs1_c_measure(&label, &some, year, measure ? measure : &(struct gs1_measure){0});
}

int gs1_plan(const struct gs1_look *look, const struct gs1_measure *measures, size_t count, struct gs1_plan *plan) {
    struct gs1_look label = look_of(look);
    return (int)gs1_c_plan(&label, READ(struct gs1_measure, measures, count), plan ? plan : &(struct gs1_plan){0});
}

int gs1_draw(const struct gs1_look *look, const struct gs1_plan *plan, const struct gs1_article *article, uint16_t year, uint8_t *row,
             size_t row_bytes, struct gs1_part *parts, size_t room, struct gs1_drawing *drawing) {
    struct gs1_article some = article_of(article);
    struct gs1_look label = look_of(look);
    return (int)gs1_c_draw(&label, plan ? plan : &(struct gs1_plan){0}, &some, year, WRITE(uint8_t, row, row_bytes),
                           WRITE(struct gs1_part, parts, room), drawing ? drawing : &(struct gs1_drawing){0});
}
