/* Answers `lanes`, `live`, `print` and `scan` with one thread, as soon as their bytes have come: bench/limit compares the program with it.
 *
 *   limit lanes | live LANES YEAR                            limit hub LANES WORKERS YEAR
 *   limit print | scan MODULE WIDTH HEIGHT COLUMNS ROWS YEAR
 *
 * The first refused record or label ends it, except in `live`. A line has at most 960 KiB. */
#include "rows.c"

struct text { char *at; size_t length, room; };

/* Room for this much after a text. */
static char *room_in(struct text *text, size_t more) {
    if (text->room - text->length < more && !(text->at = realloc(text->at, text->room = 2 * text->room + PIECE))) exit((perror("realloc"), 1));
    return text->at + text->length;
}

static void write_text(struct text *text) {
    for (size_t done = 0; done < text->length;) {
        ssize_t more = write(1, text->at + done, text->length - done);
        if (more < 0) exit((perror("write"), 1));
        done += (size_t)more;
    }
    text->length = 0;
}

/* Reads a piece behind this many bytes of the input. How many whole lines' bytes there are then; the last line may lack its end. */
static size_t read_lines(char *input, size_t *left, size_t room) {
    ssize_t got = room - *left > PIECE ? read(0, input + *left, PIECE) : -1;
    if (got < 0) exit((perror("read"), 1));
    *left += (size_t)got;
    if (!got && *left) input[(*left)++] = '\n';
    char *end = memrchr(input, '\n', *left);
    return end ? (size_t)(end + 1 - input) : 0;
}

static void answer_rows(int lanes, int is_live) {
    static char input[16 * PIECE];
    struct text texts[16] = {0};
    unsigned numbers[16] = {0};
    struct row row;
    int fault;
    for (size_t left = 0, whole; (whole = read_lines(input, &left, sizeof input)) || left;) {
        const char *p = input, *end = input + whole;
        while (p < end) {
            if (*p == '\n') { p++; continue; }
            p = read_record(p, lanes, &row, &fault);
            if (fault && !is_live) stop(fault, -1);
            struct text *text = &texts[is_live ? 0 : row.lane];
            char *out = room_in(text, LINE);
            out = row.lane < 0 ? put(out, "- ") : put_number(out, (unsigned)row.lane, ' ');
            if (fault) out = put_refusal(put(out, "- "), fault, -1);
            else out = put_answer(put_number(out, numbers[row.lane]++, ' '), row.widths, row.count, row.dots);
            *out++ = '\n', text->length = (size_t)(out - text->at);
        }
        if (is_live) write_text(texts);
        memmove(input, end, left -= whole);
    }
    for (int i = 0; i < 16; i++) write_text(&texts[i]);
}

#include "hub.c"
#include "sheets.c"

int main(int count, char **words) {
    make_tables();
    year = atoi(words[count - 1]);
    if (count == 4) answer_rows(atoi(words[2]), words[1][1] == 'i');
    else if (count == 5) answer_by_hub(atoi(words[2]), atoi(words[3]));
    else if (count == 8) (words[1][0] == 'p' ? print : scan)(words + 2);
    else return 64;
    return 0;
}
