/* Prints and scans sheets: writes a sheet row by row, and reads only the middle row of each cell. */

static int module, cell_width, cell_height, columns, rows;

static char *put_left(char *out, const char *digits, int count, int sets) {
    for (int i = 0; i < count; i++)
        for (int k = 0; k < 4; k++) *out++ = SET_A[digits[i] - '0'][sets >> (count - 1 - i) & 1 ? 3 - k : k];
    return out;
}

static char *put_ean(char *out, const char *digits, int half, int sets) {
    out = put(put_left(put(out, "111"), digits, half, sets), "11111");
    return put(put_left(out, digits + half, half, 0), "111");
}

/* The six digits of a GTIN-12's first UPC-E, if it has one. */
static int are_six(char *six, const char *digits12) {
    for (int line = 0; line < 4; line++) {
        int fits = digits12[0] == '0';
        six[5] = (char)('2' + line);
        for (int i = 0; i < 10; i++)
            if (UPCE_DIGITS[line][i] == '0') fits &= digits12[1 + i] == '0';
            else six[UPCE_DIGITS[line][i] - '1'] = digits12[1 + i];
        if (fits && (line == 0 ? six[5] < '3' : line < 3 || six[5] > '4')) return 1;
    }
    return 0;
}

/* A GTIN's symbol, if it has one of the kind. */
static char *put_gtin(char *out, int kind, const char *text, int length, int label) {
    char digits[] = "00000000000000", six[6];
    int bad = length != 8 && (length < 12 || length > 14);
    for (int i = 0; i < length; i++) bad |= ~class_of[(byte)text[i]] & N;
    if (bad || (memcpy(digits + 14 - length, text, (size_t)length), !is_checked(digits, 14))) stop(3, label);
    if (strspn(digits, "0") < (size_t)(int[]){1, 2, 6, 3, 0}[kind]) return NULL;
    if (kind < 2) return put_ean(out, digits + 2, 6, FIRST_SETS[digits[1] - '0']);
    if (kind == 2) return put_ean(out, digits + 6, 4, 0);
    if (kind == 3) return are_six(six, digits + 2) ? put(put_left(put(out, "111"), six, 6, UPCE_SETS[digits[13] - '0']), "111111") : NULL;
    out = put(out, "1111");
    for (int i = 0; i < 70; i++) *out++ = FIVES[digits[i / 10 * 2 + i % 2] - '0'] >> (4 - i % 10 / 2) & 1 ? '3' : '1';
    return put(out, "311");
}

/* A GS1-128 of a text of at most 48 characters: start C and FNC1, then digits in pairs where two, or in set B an even four, stand together. */
static char *put_elements128(char *out, const char *text, int length, int label) {
    char copy[200], canonical[200], line[LINE], *put_at = line, *end = canonical;
    int place, fault, sum = 105 + 102, weight = 1, set_c = 1;
    for (int i = 0; i < length && i < 200; i++) copy[i] = text[i] == '^' ? 29 : text[i];
    if (length > 192) stop(11, label);
    if ((fault = put_elements(&put_at, &end, copy, length, &place))) stop(fault, place);
    if (end - canonical > 48) return NULL;
    out = mempcpy(mempcpy(out, CODE128 + 6 * 105, 6), CODE128 + 6 * 102, 6);
    for (const char *at = canonical; at < end;) {
        int ahead = 0, value;
        while (at + ahead < end && class_of[(byte)at[ahead]] & N) ahead++;
        if (*at == 29) value = 102, at++;
        else if (set_c && ahead > 1) value = two(at), at += 2;
        else if (set_c) value = 100, set_c = 0;
        else if (ahead > 3 && ahead % 2 == 0) value = 99, set_c = 1;
        else value = *at++ - 32;
        sum += ++weight * value, out = mempcpy(out, CODE128 + 6 * value, 6);
    }
    return put(mempcpy(out, CODE128 + 6 * (sum % 103), 6), STOP);
}

/* Puts how wide the left end of a label's cell is, and its widths. */
static char *put_label(char *out, int label, const char *kind, const char *text, int length) {
    static const char *const KINDS[] = {"ean13", "upca", "ean8", "upce", "itf14", "gs1128"};
    static const byte LEFT[] = {11, 9, 7, 9, 10, 10}, RIGHT[] = {7, 9, 7, 7, 10, 10};
    int it = 0, modules;
    while (it < 6 && strcmp(KINDS[it], kind)) it++;
    if (it == 6) stop(40, label);
    char *end = it == 5 ? put_elements128(out + 1, text, length, label) : put_gtin(out + 1, it, text, length, label);
    if (!end) stop(26, label);
    modules = (*out = (char)LEFT[it]) + RIGHT[it];
    for (char *w = out + 1; w < end; w++) modules += *w - '0';
    if (modules * module > cell_width) stop(27, label);
    *end = 0;
    return end + 1;
}

/* Sets the bars of a label in its row of cells, and goes on behind it. */
static const char *draw(byte *dots, const char *label, int column) {
    int x = column * cell_width + *label++ * module;
    for (int dark = 1; *label; dark = !dark)
        for (int end = x + (*label++ - '0') * module; x < end; x++) if (dark) dots[x / 8] |= (byte)(128 >> x % 8);
    return label + 1;
}

static void put_bytes(struct text *out, const void *from, size_t length) {
    if (out->length + length > out->room) write_text(out);
    memcpy(out->at + out->length, from, length), out->length += length;
}

static void take_grid(char **words) {
    module = atoi(words[0]), cell_width = atoi(words[1]), cell_height = atoi(words[2]), columns = atoi(words[3]), rows = atoi(words[4]);
}

/* Nothing is written before each label is known to be drawn. */
static void print(char **grid) {
    static const byte light[2048];
    static char line[1 << 12], page[2 * PIECE];
    static byte dots[2048];
    struct text out = {page, 0, sizeof page}, labels = {0};
    int count = 0;
    for (take_grid(grid); fgets(line, sizeof line, stdin); count++) {
        char *comma = strchrnul(line, ','), *text = comma + (*comma == ','), *from = room_in(&labels, MOST_RUNS + 2);
        *comma = 0;
        labels.length += (size_t)(put_label(from, count, line, text, (int)strcspn(text, "\r\n")) - from);
    }
    size_t stride = (size_t)(columns * cell_width + 7) / 8;
    const char *next = labels.at;
    char head[32];
    int heads = sprintf(head, "P4\n%d %d\n", columns * cell_width, rows * cell_height);
    for (int label = 0; label < count || label % (columns * rows); label++) {
        if (label % (columns * rows) == 0) put_bytes(&out, head, (size_t)heads);
        if (label < count) next = draw(dots, next, label % columns);
        if (label % columns < columns - 1) continue;
        for (int y = 0; y < cell_height; y++) put_bytes(&out, y < module || y >= cell_height - module ? light : dots, stride);
        memset(dots, 0, stride);
    }
    write_text(&out);
}

static byte input[PIECE + 8];
static size_t from, filled;

/* This many bytes of the input that follow each other, or none at its end. */
static const byte *take(size_t count) {
    if (filled - from < count) {
        memmove(input, input + from, filled -= from), from = 0;
        for (ssize_t got; filled < count && (got = read(0, input + filled, PIECE - filled)) > 0;) filled += (size_t)got;
        if (filled < count) return NULL;
    }
    return from += count, input + from - count;
}

static int take_number(void) {
    const byte *it;
    int number = 0;
    while ((it = take(1)) && (*it == ' ' || *it == '\n' || *it == '\t' || *it == '\r')) {}
    for (; it && *it >= '0' && *it <= '9' && number < 65536; it = take(1)) number = 10 * number + *it - '0';
    return number;
}

/* The runs of this many dots: at each place where a dot differs from the one before it a run ends. */
static int cut(uint16_t *w, const byte *bits, int from, int width) {
    int count = 0, last = 0;
    for (uint64_t at = 0, before = 0, it, edges; (int)at < width; at += 56, before = it >> 8 & 1) {
        memcpy(&it, bits + (from + (int)at) / 8, 8);
        it = __builtin_bswap64(it) << (from + (int)at) % 8;
        edges = (it ^ (it >> 1 | before << 63)) & ~0ULL << (width - (int)at < 56 ? 64 - width + (int)at : 8);
        for (int place; edges; edges &= ~(1ULL << 63 >> (place - (int)at)), last = place)
            place = (int)at + __builtin_clzll(edges), w[count++] = (uint16_t)(place - last);
    }
    w[count++] = (uint16_t)(width - last);
    if (count % 2 == 0) w[count++] = 0;
    return count;
}

static void scan(char **grid) {
    take_grid(grid);
    static uint16_t widths[4100];
    struct text texts[16] = {0};
    const byte *bits;
    for (unsigned number = 0; (bits = take(1)); ) {
        if (*bits != 'P' || !(bits = take(1)) || *bits != '4') stop(28, -1);
        if (take_number() != columns * cell_width || take_number() != rows * cell_height) stop(31, -1);
        for (int y = 0; y < rows * cell_height; y++) {
            if (!(bits = take((size_t)(columns * cell_width + 7) / 8))) stop(30, -1);
            if (y % cell_height != cell_height / 2) continue;
            for (int column = 0; column < columns; column++) {
                char *out = put_number(put_number(room_in(&texts[column], LINE), (unsigned)column, ' '), number, ' ');
                out = put_answer(out, widths, cut(widths, bits, column * cell_width, cell_width), (uint32_t)cell_width);
                *out++ = '\n', texts[column].length = (size_t)(out - texts[column].at);
            }
            number++;
        }
    }
    for (int column = 0; column < columns; column++) write_text(&texts[column]);
}
