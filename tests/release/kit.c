/* Calls each function that replaces the kit's C code on arm64, and reports what its contract forbids (rattle/os/src/c.rt and
 * rattle/libc/src/heap.rt of the kit). tests/release/arm64 links it with package/aarch64/kit.c, and with the kit's own archives. */
#include <errno.h>
#include <stdbool.h>
#include <stddef.h>
#include <stdint.h>
#include <stdio.h>
#include <string.h>

struct tried {
    bool ok;
    void *p;
};

extern size_t rattle_arg_count(void);
extern ptrdiff_t rattle_arg(size_t i, uint8_t *into, size_t room);
extern int32_t rattle_errno(void);
extern void rattle_set_errno(int32_t error);
extern struct tried rattle_alloc(size_t n, size_t a);
extern struct tried rattle_realloc(void *p, size_t kept, size_t n, size_t a);
extern void rattle_dealloc(void *p);

static int checks, wrong;

#define EXPECT(what)                                                                                                   \
    do {                                                                                                               \
        checks++;                                                                                                      \
        if (!(what)) {                                                                                                 \
            wrong++;                                                                                                   \
            fprintf(stderr, "kit.c: line %d: not so: %s\n", __LINE__, #what);                                          \
        }                                                                                                              \
    } while (0)

/* More than any process has: half of the addresses that there are. */
static const size_t too_much = (size_t)1 << 62;

/* Each word comes whole if there is room; otherwise its first bytes fill the room. */
static void arguments(int count, char **words) {
    uint8_t told[64];
    EXPECT(rattle_arg_count() == (size_t)count);
    for (int i = 0; i < count; i++) {
        size_t length = strlen(words[i]);
        if (length + 2 > sizeof told) continue;
        memset(told, '#', sizeof told);
        EXPECT(rattle_arg((size_t)i, told, sizeof told) == (ptrdiff_t)length);
        EXPECT(memcmp(told, words[i], length) == 0 && told[length] == '#');
        EXPECT(rattle_arg((size_t)i, told, length) == (ptrdiff_t)length);
        if (length == 0) continue;
        memset(told, '#', sizeof told);
        EXPECT(rattle_arg((size_t)i, told, length - 1) == -2);
        EXPECT(memcmp(told, words[i], length - 1) == 0 && told[length - 1] == '#');
    }
    EXPECT(rattle_arg((size_t)count, told, sizeof told) == -1);
    EXPECT(rattle_arg(SIZE_MAX, told, sizeof told) == -1);
}

static void errors(void) {
    rattle_set_errno(ENOENT);
    EXPECT(errno == ENOENT && rattle_errno() == ENOENT);
    errno = EINTR;
    EXPECT(rattle_errno() == EINTR);
    rattle_set_errno(0);
    EXPECT(errno == 0 && rattle_errno() == 0);
}

static bool is_aligned(const void *p) {
    return (uintptr_t)p % 16 == 0;
}

static void memory(void) {
    struct tried none = rattle_alloc(0, 1), some = rattle_alloc(1000, 16), failed = rattle_alloc(too_much, 8), more;
    EXPECT(none.ok && none.p);
    EXPECT(some.ok && some.p && is_aligned(some.p) && some.p != none.p);
    EXPECT(!failed.ok && failed.p);
    memset(some.p, 7, 1000);
    more = rattle_realloc(some.p, 1000, too_much, 16);
    EXPECT(!more.ok && more.p);
    EXPECT(((uint8_t *)some.p)[0] == 7 && ((uint8_t *)some.p)[999] == 7);
    more = rattle_realloc(some.p, 1000, 1000000, 16);
    EXPECT(more.ok && is_aligned(more.p) && ((uint8_t *)more.p)[0] == 7 && ((uint8_t *)more.p)[999] == 7);
    memset(more.p, 8, 1000000);
    more = rattle_realloc(more.p, 10, 10, 16);
    EXPECT(more.ok && ((uint8_t *)more.p)[9] == 8);
    more = rattle_realloc(more.p, 0, 0, 1);
    EXPECT(more.ok && more.p);
    rattle_dealloc(more.p);
    rattle_dealloc(none.p);
}

int main(int count, char **words) {
    arguments(count, words);
    errors();
    memory();
    printf("%d checks, %d wrong\n", checks, wrong);
    return wrong != 0;
}
