/* calls F: every exported call on 01's example F, whose file is named: its results, its refusals, and that a refusal or a stop changes nothing. One line for
 * each group of tests; the exit status is 1 where one fails. */
#include <stdio.h>
#include <string.h>

#include "malachirp.h"

/* All that one caller has lent. */
struct lent {
    uint8_t file[64];
    int64_t coefficients[4];
    uint8_t head[8];
    int64_t store[26];
    uint16_t list[16];
    uint64_t state[4];
    uint16_t seen[9];
    double middles[6];
    uint64_t sizes[2];
    uint64_t length;
    uint32_t word;
};

static int failures;

static void group(const char *name, int holds)
{
    printf("%s: %s\n", name, holds ? "ok" : "FAILED");
    failures += !holds;
}

/* Every place has a value of its own before a call. */
static struct lent filled(void)
{
    struct lent x;
    memset(&x, 0, sizeof x);
    for (size_t i = 0; i < sizeof x.file; i++) x.file[i] = (uint8_t)(200 + i % 50);
    for (size_t i = 0; i < 4; i++) x.coefficients[i] = -77 - (int64_t)i;
    for (size_t i = 0; i < 8; i++) x.head[i] = (uint8_t)(90 + i);
    for (size_t i = 0; i < 26; i++) x.store[i] = 1000 + (int64_t)i;
    for (size_t i = 0; i < 16; i++) x.list[i] = (uint16_t)(500 + i);
    for (size_t i = 0; i < 4; i++) x.state[i] = 60 + i;
    for (size_t i = 0; i < 9; i++) x.seen[i] = (uint16_t)(40 + i);
    for (size_t i = 0; i < 6; i++) x.middles[i] = 30.5 + (double)i;
    x.sizes[0] = 21, x.sizes[1] = 22, x.length = 23, x.word = 24;
    return x;
}

static int same(const struct lent *a, const struct lent *b) { return memcmp(a, b, sizeof *a) == 0; }

/* A refusal with that code and offset, and nothing else is changed. */
static int refused(uint32_t code, uint32_t wanted, uint64_t offset, uint64_t at, const struct lent *x, const struct lent *before)
{
    return code == wanted && offset == at && same(x, before);
}

static void files(const uint8_t *file, size_t length)
{
    struct lent x = filled(), before = x;
    uint64_t o = 9;
    uint32_t c = malachirp_read(file, length, x.coefficients, 1, x.head, &o);
    group("read refuses a short buffer", refused(c, MALACHIRP_TOO_SHORT, o, 0, &x, &before));
    c = malachirp_read(file, 20, x.coefficients, 4, x.head, &o);
    group("read refuses a file cut short", refused(c, MALACHIRP_ENDED, o, 12, &x, &before));
    c = malachirp_read(file, length, x.coefficients, 4, x.head, &o);
    const uint8_t head[8] = {1, 1, 1, 0, 0, 2, 0, 0};
    group("read", c == MALACHIRP_DONE && o == 0 && memcmp(x.head, head, 8) == 0 && x.coefficients[0] == -1 && x.coefficients[1] == 2 && x.coefficients[2] == -79);
    before = x;
    c = malachirp_write(x.head, x.coefficients, 2, x.file, length - 1, &x.length, &o);
    group("write refuses a short target", refused(c, MALACHIRP_TOO_SHORT, o, 0, &x, &before));
    c = malachirp_write(x.head, x.coefficients, 2, x.file, sizeof x.file, &x.length, &o);
    group("write", c == MALACHIRP_DONE && o == 0 && x.length == length && memcmp(x.file, file, length) == 0 && x.file[length] == before.file[length]);
}

static void starts(const uint8_t *head, const int64_t *coefficients)
{
    struct lent x = filled(), before = x;
    uint64_t o = 9;
    const uint8_t large[8] = {3, 1, 6, 6, 1, 0, 0, 0};
    uint32_t c = malachirp_sizes(large, x.sizes, &o);
    group("sizes refuses S above 64", refused(c, MALACHIRP_OUT_OF_LIMITS, o, 0, &x, &before));
    c = malachirp_start(head, coefficients, 2, x.store, 23, x.state, &o);
    group("start refuses a short store", refused(c, MALACHIRP_TOO_SHORT, o, 0, &x, &before));
    group("sizes", malachirp_sizes(head, x.sizes, &o) == MALACHIRP_DONE && x.sizes[0] == 2 && x.sizes[1] == 24);
    c = malachirp_start(head, coefficients, 2, x.store, 26, x.state, &o);
    const int64_t slot[9] = {0, 0, 0, 0, 0, 0, -1, 1, 0};
    const uint64_t state[4] = {1, 0, 0, 0};
    group("start", c == MALACHIRP_DONE && memcmp(x.store, slot, sizeof slot) == 0 && x.store[23] == 0 && x.store[24] == 1024 && memcmp(x.state, state, 32) == 0);
}

/* Visits one by one leave what runs of budget 1 leave. */
static void visits(const uint8_t *head, const int64_t *coefficients)
{
    struct lent x = filled(), y = filled(), before;
    uint64_t o = 9;
    uint32_t c;
    int agree = malachirp_start(head, coefficients, 2, x.store, 26, x.state, &o) == MALACHIRP_DONE
                && malachirp_start(head, coefficients, 2, y.store, 26, y.state, &o) == MALACHIRP_DONE;
    do {
        c = malachirp_run(head, 1, y.store, 26, y.list, 16, y.state, &y.word, &o);
        agree = agree && c == MALACHIRP_DONE && o == 0 && malachirp_visit(head, x.store, 26, x.list, 16, x.state, x.seen, &x.word, &o) == MALACHIRP_DONE;
        if (x.word == MALACHIRP_VISITED) {
            for (int i = 0; i < 9; i++) printf("%d%c", x.seen[i], i < 8 ? ' ' : '\n');
        }
        before = y, before.word = x.word, memcpy(before.seen, x.seen, sizeof x.seen);
        agree = agree && same(&x, &before);
    } while (agree && x.word == MALACHIRP_VISITED);
    group("visits and runs agree, to the end", agree && x.word == MALACHIRP_FINISHED && y.word == MALACHIRP_FINISHED && x.state[2] == 7 && x.list[14] == 514);

    before = x;
    x.state[1] = before.state[1] = UINT64_MAX;
    c = malachirp_run(head, 5, x.store, 26, x.list, 16, x.state, &x.word, &o);
    group("run refuses a kept count that no list has", refused(c, MALACHIRP_OUTSIDE_RULES, o, 0, &x, &before));
    c = malachirp_visit(head, x.store, 23, x.list, 16, x.state, x.seen, &x.word, &o);
    group("visit refuses a short store first", refused(c, MALACHIRP_TOO_SHORT, o, 0, &x, &before));
}

/* 01's example E: list room 1 and a large budget stop full at 5 visits. */
static void full(const uint8_t *head, const int64_t *coefficients)
{
    struct lent x = filled(), before;
    uint64_t o = 9;
    const uint64_t state[4] = {2, 1, 5, 1};
    uint32_t c = malachirp_start(head, coefficients, 2, x.store, 26, x.state, &o);
    c += malachirp_run(head, 1000000, x.store, 26, x.list, 13, x.state, &x.word, &o);
    group("full at room 1", c == MALACHIRP_DONE && x.word == MALACHIRP_FULL && memcmp(x.state, state, sizeof state) == 0 && x.list[7] == 507);
    before = x;
    c = malachirp_visit(head, x.store, 26, x.list, 13, x.state, x.seen, &x.word, &o);
    group("a visit at a full list changes nothing", c == MALACHIRP_DONE && x.word == MALACHIRP_FULL && same(&x, &before));
}

static void middles(void)
{
    struct lent x = filled(), before = x;
    uint64_t o = 9;
    const uint16_t kept[7] = {2, 1, 10, 1023, 0, 0, 1}, deep[7] = {0, 0, 256, 0, 0, 0, 1}, far[7] = {2, 4, 0, 0, 0, 0, 1};
    const double wanted[6] = {0.375, 0.125, 2047.0 / 2048, 1.0 / 2048, 0.5, 0.5};
    uint32_t c = malachirp_middles(deep, x.middles, &o);
    group("middles refuses 256 cuts", refused(c, MALACHIRP_OUTSIDE_RULES, o, 0, &x, &before));
    c = malachirp_middles(far, x.middles, &o);
    group("middles refuses k = 2^s", refused(c, MALACHIRP_OUTSIDE_RULES, o, 0, &x, &before));
    group("middles", malachirp_middles(kept, x.middles, &o) == MALACHIRP_DONE && o == 0 && memcmp(x.middles, wanted, sizeof wanted) == 0);
}

int main(int argc, char **argv)
{
    uint8_t file[64];
    int64_t coefficients[2];
    uint8_t head[8];
    uint64_t o;
    FILE *in = argc == 2 ? fopen(argv[1], "rb") : NULL;
    if (in == NULL) {
        fprintf(stderr, "usage: calls FILE\n");
        return 2;
    }
    size_t length = fread(file, 1, sizeof file, in);
    fclose(in);
    if (malachirp_read(file, length, coefficients, 2, head, &o) != MALACHIRP_DONE) return 1;
    files(file, length);
    starts(head, coefficients);
    visits(head, coefficients);
    full(head, coefficients);
    middles();
    return failures != 0;
}
