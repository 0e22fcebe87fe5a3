/* Turns a record of `lanes` into the answer of its row, with the least work that C needs if it knows everything in advance. Written from the rules
 * of the standard and of docs/DECISIONS.md, not from the program. Quotation marks have no meaning, and the AIs are those of the profile. */
#define _GNU_SOURCE
#include <stdint.h>
#include <stdio.h>
#include <stdlib.h>
#include <string.h>
#include <unistd.h>

enum { MOST_RUNS = 597, PIECE = 1 << 16, LINE = 320, NONE = 255, N = 1, X = 2 };
typedef unsigned char byte;

static const char *const FAULTS[] = {[3] = "CheckDigit", "Empty", "UnknownAi", "ValueLength", "ValueCharacter", "ValueCheckDigit", "ValueDate",
    "MissingSeparator", "TooLong", [13] = "CheckCharacter", "NotGs1", "FunctionCharacter", "CodeSet", "TooWide", "BadRuns", "Blank", "RunCount",
    "QuietZone", "Modules", "Pattern", "SymbolCheckDigit", [26] = "LabelKind", "LabelWidth", "NotP4", [30] = "Truncated", "PbmSize",
    [40] = "Kind", "BadLane"};

/* ISO/IEC 15420: number set A; the sets by the first digit, and by the check digit of UPC-E, where 1 is B; and a UPC-E's digits in its GTIN-12. */
static const char SET_A[10][5] = {"3211", "2221", "2122", "1411", "1132", "1231", "1114", "1312", "1213", "3112"};
static const byte FIRST_SETS[] = {0, 11, 13, 14, 19, 25, 28, 21, 22, 26}, UPCE_SETS[] = {56, 52, 50, 49, 44, 38, 35, 42, 41, 37};
static const char UPCE_DIGITS[4][11] = {"1260000345", "1230000045", "1234000005", "1234500006"};
/* ISO/IEC 16390: a digit's five widths, where 1 is wide. ISO/IEC 15417: the values 0 to 105, and the stop. */
static const byte FIVES[] = {6, 17, 9, 24, 5, 20, 12, 3, 18, 10};
static const char CODE128[] = "212222222122222221121223121322131222122213122312132212221213221312231212112232122132122231113222123122123221223211221132"
    "221231213212223112312131311222321122321221312212322112322211212123212321232121111323131123131321112313132113132311211313231113231311112133112331"
    "132131113123113321133121313121211331231131213113213311213131311123311321331121312113312311332111314111221411431111111224111422121124121421141122"
    "141221112214112412122114122411142112142211241211221114413111241112134111111242121142121241114212124112124211411212421112421211212141214121412121"
    "111143111341131141114113114311411113411311113141114131311141411131211412211214211232", STOP[] = "2331112";

/* GS1 General Specifications, section 3: AIs, whether predefined, and the kind and length of their one or two parts; the first may have a
 * check digit (c), a date (d) or a date and a time (t). */
static const struct ai {
    char from[5], to[5];
    byte fixed, kind, least, most, test, kind2, least2, most2;
} AIS[] = {
    {"00", "00", 1, N, 18, 18, 'c'}, {"01", "02", 1, N, 14, 14, 'c'}, {"10", "10", 0, X, 1, 20}, {"11", "13", 1, N, 6, 6, 'd'},
    {"15", "17", 1, N, 6, 6, 'd'}, {"20", "20", 1, N, 2, 2}, {"21", "22", 0, X, 1, 20}, {"240", "241", 0, X, 1, 30},
    {"250", "250", 0, X, 1, 30}, {"253", "253", 0, N, 13, 13, 'c', X, 0, 17}, {"254", "254", 0, X, 1, 20}, {"30", "30", 0, N, 1, 8},
    {"37", "37", 0, N, 1, 8}, {"3100", "3165", 1, N, 6, 6}, {"3200", "3295", 1, N, 6, 6}, {"3300", "3375", 1, N, 6, 6},
    {"3400", "3495", 1, N, 6, 6}, {"3500", "3575", 1, N, 6, 6}, {"3600", "3695", 1, N, 6, 6}, {"3900", "3909", 0, N, 1, 15},
    {"3910", "3919", 0, N, 3, 3, 0, N, 1, 15}, {"3920", "3929", 0, N, 1, 15}, {"3930", "3939", 0, N, 3, 3, 0, N, 1, 15},
    {"400", "401", 0, X, 1, 30}, {"402", "402", 0, N, 17, 17, 'c'}, {"403", "403", 0, X, 1, 30}, {"410", "417", 1, N, 13, 13, 'c'},
    {"420", "420", 0, X, 1, 20}, {"422", "422", 0, N, 3, 3}, {"7003", "7003", 0, N, 10, 10, 't'}, {"8005", "8005", 0, N, 6, 6},
    {"8008", "8008", 0, N, 8, 12, 't'}, {"8018", "8018", 0, N, 18, 18, 'c'}, {"8020", "8020", 0, X, 1, 25}, {"90", "90", 0, X, 1, 30},
    {"91", "99", 0, X, 1, 90}};

static byte ean[256], fives[32], code128[4096], first_of[64], check_of[64], class_of[256], ai_digits[100], ai_at[10000];
static uint16_t ean_modules[MOST_RUNS] = {[33] = 51, [59] = 95, [43] = 67, [77] = 135}, code128_modules[MOST_RUNS];
static int year;

static int pack(const char *widths, int count) {
    int packed = 0;
    for (int i = 0; i < count; i++) packed = packed << 2 | (widths[i] - '1');
    return packed;
}

static void make_tables(void) {
    memset(ean, NONE, sizeof ean), memset(code128, NONE, sizeof code128), memset(first_of, NONE, sizeof first_of);
    memset(check_of, NONE, sizeof check_of), memset(fives, NONE, sizeof fives), memset(ai_at, NONE, sizeof ai_at);
    for (int d = 0; d < 10; d++) {
        const char *a = SET_A[d], b[] = {a[3], a[2], a[1], a[0]};
        ean[pack(a, 4)] = (byte)d, ean[pack(b, 4)] = (byte)(16 | d), first_of[FIRST_SETS[d]] = check_of[UPCE_SETS[d]] = fives[FIVES[d]] = (byte)d;
    }
    for (int v = 0; v < 106; v++) code128[pack(CODE128 + 6 * v, 6)] = (byte)v;
    for (int k = 3; k <= 98; k++) code128_modules[6 * k + 7] = (uint16_t)(11 * k + 13);
    for (const char *c = "!\"%&'()*+,-./:;<=>?ABCDEFGHIJKLMNOPQRSTUVWXYZ_abcdefghijklmnopqrstuvwxyz"; *c; c++) class_of[(byte)*c] = X;
    for (int d = '0'; d <= '9'; d++) class_of[d] = N | X;
    for (size_t i = 0; i < sizeof AIS / sizeof *AIS; i++)
        for (int ai = atoi(AIS[i].from), digits = (int)strlen(AIS[i].from); ai <= atoi(AIS[i].to); ai++) {
            int inside = 1, rest = ai;
            for (int at = digits - 1; at >= 0; at--, rest /= 10) inside &= AIS[i].from[at] - '0' <= rest % 10 && rest % 10 <= AIS[i].to[at] - '0';
            if (inside) ai_at[ai] = (byte)i, ai_digits[digits == 2 ? ai : digits == 3 ? ai / 10 : ai / 100] = (byte)digits;
        }
}

static char *put(char *out, const char *text) { return stpcpy(out, text); }

static char *put_number(char *out, unsigned number, char after) {
    char digits[11] = {[10] = after};
    int at = 10;
    do digits[--at] = (char)('0' + number % 10); while (number /= 10);
    return mempcpy(out, digits + at, (size_t)(11 - at));
}

static char *put_refusal(char *out, int fault, int place) {
    out = put(put_number(put(out, "refused "), (unsigned)fault, ' '), FAULTS[fault]);
    return place < 0 ? out : put_number(put(out, " "), (unsigned)place, 0) - 1;
}

static _Noreturn void stop(int fault, int place) {
    char line[LINE];
    *put_refusal(line, fault, place) = 0;
    exit((fprintf(stderr, "%s\n", line), 1));
}

static int is_checked(const char *digits, int count) {
    int sum = 0;
    for (int i = count - 1, weight = 1; i >= 0; i--, weight ^= 2) sum += weight * (digits[i] - '0');
    return sum % 10 == 0;
}

static int two(const char *digits) { return 10 * (digits[0] - '0') + digits[1] - '0'; }

static int is_time(const char *v, int count) {
    int month = two(v + 2), day = two(v + 4), from = two(v) - year % 100, it = year + from + (from > 50 ? -100 : from < -49 ? 100 : 0);
    int days = month == 2 ? 28 + ((it % 4 == 0 && it % 100 != 0) || it % 400 == 0) : 30 + ((month + (month > 7)) & 1);
    return month >= 1 && month <= 12 && day <= days && (day || count == 6) && (count < 8 || two(v + 6) < 24) && (count < 10 || two(v + 8) < 60)
        && (count < 12 || two(v + 10) < 60);
}

/* Puts the line of a text for people, and its canonical form if there is a place for it; or returns an error and its place. */
static int put_elements(char **line, char **canonical, const char *text, int length, int *place) {
    char *out = *line;
    *place = -1;
    if (!length) return 4;
    for (int at = 0, fixed = 1; at < length; at += at < length && text[at] == 29) {
        const char *t = text + (*place = at), *v, *end;
        int left = length - at, number = 0, count, bad = 0;
        int digits = left > 1 && (class_of[(byte)t[0]] & class_of[(byte)t[1]] & N) ? ai_digits[two(t)] : 0;
        if (!digits || left < digits) return 5;
        for (int i = 0; i < digits; i++) number = 10 * number + t[i] - '0', bad |= ~class_of[(byte)t[i]] & N;
        if (bad || ai_at[number] == NONE) return 5;
        const struct ai *ai = &AIS[ai_at[number]];
        v = t + digits, left -= digits;
        if (ai->fixed && (left < ai->most || memchr(v, 29, ai->most))) return 6;
        count = ai->fixed ? ai->most : (end = memchr(v, 29, (size_t)left)) ? (int)(end - v) : left;
        if (count < ai->least + ai->least2 || (ai->test == 't' && count < ai->most && count & 1)) return 6;
        if (count > ai->most + ai->most2) return 10;
        int front = count < ai->most ? count : ai->most;
        for (int i = 0; i < front; i++) bad |= ~class_of[(byte)v[i]] & ai->kind;
        for (int i = front; i < count; i++) bad |= ~class_of[(byte)v[i]] & ai->kind2;
        if (bad) return 7;
        if (ai->test && !(ai->test == 'c' ? is_checked : is_time)(v, front)) return ai->test == 'c' ? 8 : 9;
        if (canonical && !fixed) *(*canonical)++ = 29;
        if (canonical) *canonical = mempcpy(*canonical, t, (size_t)(digits + count));
        *out++ = '(', out = mempcpy(out, t, (size_t)digits), *out++ = ')', out = mempcpy(out, v, (size_t)count);
        fixed = ai->fixed, at += digits + count;
    }
    return *line = out, 0;
}

/* The readers of symbols take modules less one, each `s` behind the one before it, so that they read both ways. */
static int are_ones(const byte *m, int s, int count) {
    int any = 0;
    for (int i = 0; i < count; i++) any |= m[i * s];
    return !any;
}

static int character(const byte *m, int s) { return ean[m[0] << 6 | m[s] << 4 | m[2 * s] << 2 | m[3 * s]]; }

static int read_ean(const byte *m, int s, int half, char *digits) {
    int sets = 0, bad = 0;
    for (int i = 0; i < half; i++) {
        int left = character(m + (3 + 4 * i) * s, s), right = character(m + (8 + 4 * half + 4 * i) * s, s);
        if (i == 0 && left > 9) return 0;
        bad |= (left & ~31) | (right & ~15), sets = sets << 1 | (left >> 4 & 1);
        digits[14 - 2 * half + i] = (char)('0' + (left & 15)), digits[14 - half + i] = (char)('0' + (right & 15));
    }
    if (half == 6) bad |= first_of[sets] & 240, digits[1] = (char)('0' + first_of[sets]);
    else bad |= sets;
    return !bad && are_ones(m, s, 3) && are_ones(m + (3 + 4 * half) * s, s, 5) && are_ones(m + (8 + 8 * half) * s, s, 3);
}

static int read_upce(const byte *m, int s, char *digits) {
    int sets = 0, bad = 0;
    char six[6];
    if (!are_ones(m + 27 * s, s, 6) || !are_ones(m, s, 3)) return 0;
    for (int i = 0; i < 6; i++) {
        int it = character(m + (3 + 4 * i) * s, s);
        bad |= it & ~31, sets = sets << 1 | (it >> 4 & 1), six[i] = (char)('0' + (it & 15));
    }
    const char *places = UPCE_DIGITS[six[5] < '3' ? 0 : six[5] == '3' ? 1 : six[5] == '4' ? 2 : 3];
    for (int i = 0; i < 10; i++) if (places[i] != '0') digits[3 + i] = six[places[i] - '1'];
    return digits[13] = (char)('0' + check_of[sets]), !bad && check_of[sets] != NONE;
}

static int read_itf14(const byte *m, int s, char *digits) {
    int bad = 0;
    if (!are_ones(m, s, 4) || m[74 * s] != 2 || !are_ones(m + 75 * s, s, 2)) return 0;
    for (int i = 0; i < 14; i++) {
        int it = 0;
        for (int k = 0; k < 5; k++) bad |= m[(4 + i / 2 * 10 + i % 2 + 2 * k) * s] & 1, it = it << 1 | m[(4 + i / 2 * 10 + i % 2 + 2 * k) * s] >> 1;
        bad |= fives[it] & 240, digits[i] = (char)('0' + fives[it]);
    }
    return !bad;
}

/* A fault, or -1 if it is no symbol, or 0 and the text behind its FNC1. */
static int read_code128(const byte *m, int s, int count, char *text, int *length) {
    byte values[100];
    int bad = 0, sum = 0, at = 0;
    for (int i = 0; i < count; i++, m += 6 * s) {
        int it = code128[m[0] << 10 | m[s] << 8 | m[2 * s] << 6 | m[3 * s] << 4 | m[4 * s] << 2 | m[5 * s]];
        if (i == 0 && (it < 103 || it == NONE)) return -1;
        bad |= i > 0 && it > 102, sum += i ? i * it : it, values[i] = (byte)it;
    }
    for (int i = 0; i < 7; i++) bad |= m[i * s] ^ (STOP[i] - '1');
    if (bad) return -1;
    if ((sum - (count - 1) * values[count - 1]) % 103 != values[count - 1]) return 13;
    if (values[1] != 102) return 14;
    for (int i = 2, set = values[0] - 103; i < count - 1; i++) {
        int it = values[i], now = set;
        if (set == 2 && it < 100) { text[at++] = (char)('0' + it / 10), text[at++] = (char)('0' + it % 10); continue; }
        if (set < 2 && it == 98 && (now = 1 - set, it = i + 2 < count ? values[++i] : NONE) > 95) return 16;
        if (it < 96) text[at++] = (char)(it < 64 || now ? it + 32 : it - 64);
        else if (it == 102) text[at++] = 29;
        else if (it >= 99 && it <= 101 && it != 101 - set) set = 101 - it;
        else return 15;
    }
    return *length = at, 0;
}

/* The modules less one of each run, and whether each is within a third of a module of a whole number m: from 3m - 1 to 3m + 1 thirds of a module. What a
 * width is stands in a table, which has one place above four modules and a third. */
static int round_runs(byte *m, const uint16_t *w, int count, uint32_t dots, uint32_t modules) {
    static _Thread_local byte all[8192];
    uint32_t most = 0, any = 0;
    for (uint32_t thirds = 0, now = 0; thirds <= 13 * dots; thirds += 3 * modules, most++) {
        while (thirds > (3 * now + 4) * dots) now++;
        all[most] = thirds < (3 * now + 2) * dots ? NONE : (byte)now;
    }
    all[most] = NONE;
    for (int i = 0; i < count; i++) any |= m[i] = all[w[i] < most ? w[i] : most];
    return any < 4;
}

/* Puts what a symbol says, read forwards or backwards, if it is one. */
static inline char *put_symbol(char *out, const byte *m, int s, int n, int is_code128) {
    char text[200] = "00000000000000";
    int length, place, fault;
    if (is_code128) {
        if ((fault = read_code128(m, s, (n - 7) / 6, text, &length)) < 0) return NULL;
        char *end = put(out, "]C1 ");
        if (fault) return put_refusal(out, fault, -1);
        fault = put_elements(&end, NULL, text, length, &place);
        return fault ? put_refusal(out, fault, place) : end;
    }
    if (!(n == 33 ? read_upce(m, s, text) : n == 77 ? read_itf14(m, s, text) : read_ean(m, s, n == 59 ? 6 : 4, text))) return NULL;
    if (!is_checked(text, 14)) return put_refusal(out, 24, -1);
    return mempcpy(put(out, n == 43 ? "]E4 (01)" : n == 77 ? "]I1 (01)" : "]E0 (01)"), text, 14);
}

/* Puts what a row of this many runs and dots says. */
static char *put_answer(char *out, const uint16_t *w, int count, uint32_t dots) {
    byte m[MOST_RUNS];
    int n = count - 2, fault = 20;
    if (n < 1) return put_refusal(out, 19, -1);
    for (int kind = 0; kind < 2 && n < MOST_RUNS; kind++) {
        uint32_t modules = (kind ? code128_modules : ean_modules)[n], inner = dots - w[0] - w[n + 1];
        char *end;
        if (!modules) continue;
        int it = w[0] * modules < 5 * inner || w[n + 1] * modules < 5 * inner ? 21 : !round_runs(m, w + 1, n, inner, modules) ? 22 : 23;
        if (it == 23 && ((end = put_symbol(out, m, 1, n, kind)) || (end = put_symbol(out, m + n - 1, -1, n, kind)))) return end;
        if (it > fault) fault = it;
    }
    return put_refusal(out, fault, -1);
}

struct row { int lane, count; uint32_t dots; uint16_t widths[MOST_RUNS + 2]; };

/* Reads a record up to a line feed, and answers what stands behind it. */
static const char *read_record(const char *p, int lanes, struct row *row, int *fault) {
    uint32_t it, digit, zeros = 0;
    uint64_t dots = 0;
    uint16_t *to = row->widths, *const end = to + MOST_RUNS + 2;
    int lane = *p++ - '0', more = 0, bad = 0;
    if (lane >= 0 && lane < 10 && *p >= '0' && *p <= '9') lane = 10 * lane + *p++ - '0';
    row->lane = lane >= 0 && lane < lanes && *p == ',' ? lane : -1;
    do {
        it = (uint32_t)*++p - '0';
        if (it > 9) { bad = 1; break; }
        if ((digit = (uint32_t)*++p - '0') < 10) {
            const char *from = p;
            do it = 10 * it + digit; while ((digit = (uint32_t)*++p - '0') < 10);
            if (p - from > 4) bad = 1;
        }
        if (!it) zeros++;
        if (to < end) *to++ = (uint16_t)it;
        else more++;
        dots += it;
    } while (*p == ' ');
    row->count = (int)(to - row->widths) + more, row->dots = (uint32_t)dots;
    bad |= row->count % 2 == 0 || zeros > (uint32_t)(!row->widths[0] + (row->count > 1 && !it));
    if (*p == '\r') p++;
    *fault = row->lane < 0 ? 41 : bad || *p != '\n' ? 18 : dots > 65535 ? 17 : 0;
    return *p == '\n' ? p + 1 : (const char *)rawmemchr(p, '\n') + 1;
}
