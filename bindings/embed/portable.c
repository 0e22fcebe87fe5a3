/* The proved calls of crates/gs1_c for any machine with a C compiler: each copies what it is given into the memory of the module that wasm2c has
 * made C of, calls it there, and copies the answer back. bindings/embed/gs1.c, above it, is the same as everywhere. Each thread has a module of its own. */
#include "gs1.h"
#include "gs1_module.h"

#include <string.h>

#ifdef _MSC_VER
#define EACH_THREAD __declspec(thread)
#else
#define EACH_THREAD _Thread_local
#endif

/* What bindings/embed/gs1.c calls, in the module's order of arguments. */
struct gs1_c_place {
    size_t start, equals, end;
};

#define NO_MEMORY "refused 43 NoMemory"

static EACH_THREAD Z_gs1_instance_t module;
static EACH_THREAD wasm_rt_memory_t *memory;
/* Where the next item of this call is put, and whether one found no memory. */
static EACH_THREAD u64 top;
static EACH_THREAD int is_full;

static void begin(void) {
    if (!memory) {
        if (!wasm_rt_is_initialized()) {
            wasm_rt_init();
        }
        Z_gs1_init_module();
        Z_gs1_instantiate(&module);
        memory = Z_gs1Z_memory(&module);
    }
    top = *Z_gs1Z___heap_base(&module);
    is_full = 0;
}

/* Room for so many bytes in the module's memory. */
static u64 place(u64 bytes) {
    const u64 at = (top + 15) / 16 * 16, most = (u64)65536 * 65535;
    if (bytes > most || at + bytes > most) {
        is_full = 1;
    } else if (at + bytes > memory->size) {
        is_full |= wasm_rt_grow_memory(memory, (u32)((at + bytes - memory->size + 65535) / 65536)) == (u32)-1;
    }
    top = is_full ? at : at + bytes;
    return at;
}

static u64 given(const void *data, u64 bytes) {
    const u64 at = place(bytes);
    if (!is_full) {
        memcpy(memory->data + at, data, (size_t)bytes);
    }
    return at;
}

/* The answer of a call. Where it wrote nothing, `out` gets back what it had. */
static size_t told(u64 length, u64 at, uint8_t *out, size_t room) {
    memcpy(out, memory->data + at, room);
    return (size_t)length;
}

static size_t no_memory(uint8_t *out, size_t room) {
    if (sizeof NO_MEMORY - 1 <= room) {
        memcpy(out, NO_MEMORY, sizeof NO_MEMORY - 1);
    }
    return sizeof NO_MEMORY - 1;
}

/* A call that writes a line: what it is given, and its arguments; `at` and `to` are the places of what is given and of the answer. */
#define LINE(name, parameters, items, size, ...)                                \
    size_t gs1_c_##name parameters {                                            \
        begin();                                                                \
        const u64 at = given(items, size), to = given(out, room);               \
        if (is_full) {                                                          \
            return no_memory(out, room);                                        \
        }                                                                       \
        return told(Z_gs1Z_gs1_c_##name(&module, __VA_ARGS__, to, room), to, out, room); \
    }

#define WIDTHS(name)                                                                                                              \
    LINE(name, (const uint16_t *widths, size_t count, uint16_t year, uint8_t *out, size_t room), widths, (u64)count * 2, at, count, year)
#define DOTS(name)                                                                                                                \
    LINE(name, (const uint8_t *bits, size_t bytes, uint32_t count, uint16_t year, uint8_t *out, size_t room), bits, bytes, at, bytes, count, year)
#define TEXT(name) \
    LINE(name, (const uint8_t *text, size_t length, uint16_t year, uint8_t *out, size_t room), text, length, at, length, year)
#define DIGITS(name) LINE(name, (const uint8_t *text, size_t length, uint8_t *out, size_t room), text, length, at, length)

WIDTHS(row) WIDTHS(row_elements) WIDTHS(find)
DOTS(dots) DOTS(dots_elements) DOTS(find_dots)
TEXT(date) TEXT(scan) TEXT(text) TEXT(text_elements)
DIGITS(gtin) DIGITS(digit) DIGITS(title) DIGITS(unit)
LINE(format, (const struct gs1_answer *answer, uint32_t form, uint8_t *out, size_t room), answer, sizeof *answer, at, form)
LINE(symbol, (uint32_t kind, const uint8_t *text, size_t length, uint16_t year, uint8_t *out, size_t room), text, length, kind, at, length, year)
LINE(label, (uint32_t kind, const uint8_t *text, size_t length, uint16_t year, uint16_t module_dots, uint16_t width, uint16_t height, uint8_t *out, size_t room),
     text, length, kind, at, length, year, module_dots, width, height)

/* A call that writes a text of the elements of an answer. */
#define WRITTEN(name)                                                                                                                             \
    size_t gs1_c_##name(const struct gs1_answer *answer, const uint8_t *word, size_t length, uint16_t year, uint8_t *out, size_t room) {           \
        begin();                                                                                                                                   \
        const u64 from = given(answer, sizeof *answer), at = given(word, length), to = given(out, room);                                           \
        return is_full ? no_memory(out, room) : told(Z_gs1Z_gs1_c_##name(&module, from, at, length, year, to, room), to, out, room);               \
    }

WRITTEN(scan_text) WRITTEN(link)

/* A call that answers lines: none, if there is no memory for so many answers. */
#define LINES(name)                                                                                                                               \
    size_t gs1_c_##name(const uint8_t *text, size_t length, uint16_t year, struct gs1_answer *answers, size_t room, size_t *used) {                \
        begin();                                                                                                                                   \
        const u64 at = given(text, length), behind = place(sizeof(u64)), to = given(answers, (u64)room * sizeof *answers);                         \
        u64 said = 0, count = is_full ? 0 : Z_gs1Z_gs1_c_##name(&module, at, length, year, to, room, behind);                                      \
        if (!is_full) {                                                                                                                            \
            memcpy(&said, memory->data + behind, sizeof said);                                                                                     \
            memcpy(answers, memory->data + to, room * sizeof *answers);                                                                            \
        }                                                                                                                                          \
        *used = (size_t)said;                                                                                                                      \
        return (size_t)count;                                                                                                                      \
    }

LINES(read_messages) LINES(read_gtins)

LINE(gtin_as, (const struct gs1_answer *answer, uint32_t digits, uint8_t *out, size_t room), answer, sizeof *answer, at, digits)

uint32_t gs1_c_use_of_gtin(const struct gs1_answer *answer) {
    begin();
    const u64 at = given(answer, sizeof *answer);
    return is_full ? 0 : Z_gs1Z_gs1_c_use_of_gtin(&module, at);
}

size_t gs1_c_conflicts(const struct gs1_answer *answer, struct gs1_conflict *out, size_t room) {
    begin();
    const u64 at = given(answer, sizeof *answer), to = given(out, (u64)room * sizeof *out);
    return is_full ? 0 : told(Z_gs1Z_gs1_c_conflicts(&module, at, to, room), to, (uint8_t *)out, room * sizeof *out);
}

size_t gs1_c_picture_room(uint32_t width, uint32_t height) {
    begin();
    return (size_t)Z_gs1Z_gs1_c_picture_room(&module, width, height);
}

size_t gs1_c_picture(const uint8_t *grey, size_t values, uint32_t width, uint32_t height, size_t stride, uint8_t level, uint16_t year,
                     uint32_t *words, size_t word_count, uint16_t *widths, size_t width_count, uint8_t *out, size_t room) {
    begin();
    /* The memory that is lent is only scratch, so the module takes its own. */
    const u64 at = given(grey, values), lent = place((u64)word_count * 4), row = place((u64)width_count * 2), to = given(out, room);
    (void)words, (void)widths;
    if (is_full) {
        return no_memory(out, room);
    }
    return told(Z_gs1Z_gs1_c_picture(&module, at, values, width, height, stride, level, year, lent, word_count, row, width_count, to, room), to, out, room);
}

uint32_t gs1_c_status(const uint8_t *line, size_t length) {
    begin();
    const u64 at = given(line, length);
    return is_full ? GS1_FAULT_NO_MEMORY : Z_gs1Z_gs1_c_status(&module, at, length);
}

_Bool gs1_c_next(const uint8_t *line, size_t length, struct gs1_c_place *found) {
    begin();
    /* The module's sizes have 64 bits. */
    const u64 at = given(line, length), to = place(3 * sizeof(u64));
    u64 said[3];
    if (is_full || !Z_gs1Z_gs1_c_next(&module, at, length, to)) {
        return 0;
    }
    memcpy(said, memory->data + to, sizeof said);
    *found = (struct gs1_c_place){(size_t)said[0], (size_t)said[1], (size_t)said[2]};
    return 1;
}

/* A call that fills an answer. */
#define ANSWER(name, parameters, items, size, ...)                                  \
    uint32_t gs1_c_##name parameters {                                              \
        begin();                                                                    \
        const u64 at = given(items, size), to = given(answer, sizeof *answer);      \
        if (is_full) {                                                              \
            return GS1_FAULT_NO_MEMORY;                                             \
        }                                                                           \
        const uint32_t fault = Z_gs1Z_gs1_c_##name(&module, __VA_ARGS__, to);       \
        memcpy(answer, memory->data + to, sizeof *answer);                          \
        return fault;                                                               \
    }

#define READ_TEXT(name) ANSWER(name, (const uint8_t *text, size_t length, uint16_t year, struct gs1_answer *answer), text, length, at, length, year)

READ_TEXT(read_message) READ_TEXT(read_elements) READ_TEXT(read_gtin) READ_TEXT(read_text) READ_TEXT(read_data)
ANSWER(read_row, (const uint16_t *widths, size_t count, uint16_t year, struct gs1_answer *answer), widths, (u64)count * 2, at, count, year)
ANSWER(read_dots, (const uint8_t *bits, size_t bytes, uint32_t count, uint16_t year, struct gs1_answer *answer), bits, bytes, at, bytes, count, year)

/* What structs with pointers are, as the module has them: its pointers and sizes have 64 bits. */
struct items {
    u64 at, count;
};

static struct items items_of(struct gs1_bytes bytes) {
    return (struct items){given(bytes.at, bytes.count), bytes.count};
}

uint32_t gs1_c_compose(const struct gs1_element *elements, size_t count, uint16_t year, struct gs1_answer *answer) {
    struct items some[2 * 49];
    begin();
    for (size_t i = 0; i < count; i++) {
        some[2 * i] = items_of(elements[i].ai), some[2 * i + 1] = items_of(elements[i].value);
    }
    const u64 at = given(some, count * 2 * sizeof *some), to = given(answer, sizeof *answer);
    if (is_full) {
        return GS1_FAULT_NO_MEMORY;
    }
    const uint32_t fault = Z_gs1Z_gs1_c_compose(&module, at, count, year, to);
    memcpy(answer, memory->data + to, sizeof *answer);
    return fault;
}

/* What the calls that draw labels are given. */
struct font {
    struct items widths;
    uint16_t other, ascent, descent, digits;
};

static struct items letters_of(struct gs1_letters text) {
    return (struct items){given(text.codes, (u64)text.count * 4), text.count};
}

static u64 article_of(const struct gs1_article *its) {
    const struct {
        struct items texts[9];
        uint32_t kind, bearers;
    } article = {{items_of(its->text), letters_of(its->name), letters_of(its->price),
                  letters_of(its->old_price), letters_of(its->unit_price), letters_of(its->deposit), letters_of(its->best_before),
                  letters_of(its->batch), letters_of(its->lines)}, its->kind, its->bearers};
    return given(&article, sizeof article);
}

static struct font font_of(struct gs1_font its) {
    return (struct font){{given(its.widths, (u64)its.count * 2), its.count}, its.other, its.ascent, its.descent, its.digits};
}

static u64 look_of(const struct gs1_look *its) {
    const struct {
        double aside, above, dots, module_mm, bars_mm;
        uint16_t width, height;
        uint32_t price_first;
        struct font regular, bold;
    } look = {its->aside, its->above, its->dots, its->module_mm, its->bars_mm, its->width, its->height, its->price_first,
              font_of(its->regular), font_of(its->bold)};
    return given(&look, sizeof look);
}

uint32_t gs1_c_measure(const struct gs1_look *look, const struct gs1_article *article, uint16_t year, struct gs1_measure *measure) {
    begin();
    const u64 label = look_of(look), some = article_of(article), to = given(measure, sizeof *measure);
    if (is_full) {
        return GS1_FAULT_NO_MEMORY;
    }
    const uint32_t fault = Z_gs1Z_gs1_c_measure(&module, label, some, year, to);
    memcpy(measure, memory->data + to, sizeof *measure);
    return fault;
}

uint32_t gs1_c_plan(const struct gs1_look *look, const struct gs1_measure *measures, size_t count, struct gs1_plan *plan) {
    begin();
    const u64 label = look_of(look), at = given(measures, (u64)count * sizeof *measures), to = given(plan, sizeof *plan);
    if (is_full) {
        return GS1_FAULT_NO_MEMORY;
    }
    const uint32_t fault = Z_gs1Z_gs1_c_plan(&module, label, at, count, to);
    memcpy(plan, memory->data + to, sizeof *plan);
    return fault;
}

uint32_t gs1_c_draw(const struct gs1_look *look, const struct gs1_plan *plan, const struct gs1_article *article, uint16_t year, uint8_t *row,
                    size_t row_bytes, struct gs1_part *parts, size_t room, struct gs1_drawing *drawing) {
    begin();
    const u64 label = look_of(look), shared = given(plan, sizeof *plan), some = article_of(article), scratch = given(row, row_bytes),
              at = given(parts, (u64)room * sizeof *parts), to = given(drawing, sizeof *drawing);
    if (is_full) {
        return GS1_FAULT_NO_MEMORY;
    }
    const uint32_t fault = Z_gs1Z_gs1_c_draw(&module, label, shared, some, year, scratch, row_bytes, at, room, to);
    memcpy(row, memory->data + scratch, row_bytes);
    memcpy(parts, memory->data + at, room * sizeof *parts);
    memcpy(drawing, memory->data + to, sizeof *drawing);
    return fault;
}
