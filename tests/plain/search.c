/* The same search as the desk program, in plain C: reads a system file that is in order from standard input, searches with the
   budget and the list room of the desk program, and prints what it prints. The degree is a variable; nothing is checked.
   It is here to be measured beside the proved program, and for nothing else. */
#include <stdint.h>
#include <stdio.h>
#include <stdlib.h>
#include <string.h>

enum { MOST = 4096, ROOM = 1024, BUDGET = 1000000 };

static unsigned char file[MOST];
static int m, n[3], g[3], size, width;
static int64_t store[31 * 198];
static int kept[ROOM][7];
static const int64_t scale[7] = {1, 1, 2, 3, 12, 10, 60};
static const int64_t choose[7][7] = {{1}, {1, 1}, {1, 2, 1}, {1, 3, 3, 1}, {1, 4, 6, 4, 1}, {1, 5, 10, 10, 5, 1}, {1, 6, 15, 20, 15, 6, 1}};

static int stride(int r) { return r == 0 ? (n[1] + 1) * (n[2] + 1) : r == 1 ? n[2] + 1 : 1; }

static void read_system(void)
{
    int at = 12, place, t;
    int32_t a;
    m = file[5];
    for (int r = 0; r < 3; r++) n[r] = file[6 + r], g[r] = file[9 + r];
    size = (n[0] + 1) * (n[1] + 1) * (n[2] + 1);
    width = 6 + m * size;
    for (t = 0; t < m; t++) {
        int len = file[at] + 256 * file[at + 1];
        for (int k = at + 5; k < at + 4 + len; k += 7) {
            int i = file[k], j = file[k + 1], l = file[k + 2];
            place = (i * (n[1] + 1) + j) * (n[2] + 1) + l;
            memcpy(&a, file + k + 3, 4);
            store[6 + t * size + place] = a * (scale[n[0]] / choose[n[0]][i]) * (scale[n[1]] / choose[n[1]][j]) * (scale[n[2]] / choose[n[2]][l]);
        }
        at += 4 + len;
    }
}

/* the starting numbers: n steps along each line */
static void spread(int r)
{
    int s = stride(r), block = s * (n[r] + 1);
    for (int b = 0; b < m * size; b += block)
        for (int q = 0; q < s; q++)
            for (int k = 1; k <= n[r]; k++)
                for (int j = n[r]; j >= k; j--) store[6 + b + q + j * s] += store[6 + b + q + (j - 1) * s];
}

static int one_signed(const int64_t *b)
{
    int i = 0;
    if (b[0] > 0) {
        while (i < size && b[i] > 0) i++;
        return i == size ? 1 : 0;
    }
    while (i < size && b[i] < 0) i++;
    return i == size ? -1 : 0;
}

static int direction(const int64_t *slot)
{
    int best = -1;
    for (int r = 0; r < 3; r++)
        if (slot[2 * r] < g[r] && (best < 0 || slot[2 * r] < slot[2 * best])) best = r;
    return best;
}

static int can_cut(const int64_t *slot, int r)
{
    int64_t most = ((int64_t)1 << (62 - n[r])) - 1;
    for (int i = 6; i < width; i++)
        if (slot[i] > most || slot[i] < -most) return 0;
    return 1;
}

/* the upper half takes the slot, the lower half the one above */
static void cut(int64_t *up, int r)
{
    int64_t *lo = up + width, line[7];
    int d = n[r], s = stride(r), block = s * (d + 1);
    memcpy(lo, up, 6 * sizeof *up);
    lo[2 * r]++, up[2 * r]++, lo[2 * r + 1] *= 2, up[2 * r + 1] = 2 * up[2 * r + 1] + 1;
    for (int b = 6; b < width; b += block)
        for (int q = b; q < b + s; q++) {
            int64_t *u = up + q, *l = lo + q;
            for (int j = 0; j <= d; j++, u += s) line[j] = *u;
            u -= s;
            *u = line[d] * ((int64_t)1 << d);
            for (int k = 1; k <= d; k++) {
                for (int j = d; j >= k; j--) line[j] += line[j - 1];
                u -= s;
                *u = line[d] * ((int64_t)1 << (d - k));
            }
            for (int j = 0; j <= d; j++, l += s) *l = line[j] * ((int64_t)1 << (d - j));
        }
}

int main(void)
{
    const char *word = "spent";
    int waiting = 1, list = 0, left = BUDGET, visits, dropped = 0;
    if (fread(file, 1, MOST, stdin) < 12) return 1;
    read_system();
    for (int r = 2; r >= 0; r--) spread(r);
    for (;; left--) {
        int64_t *slot = store + (waiting - 1) * width;
        int sign = 0, r, mark;
        if (waiting == 0) { word = "finished"; break; }
        if (left == 0) break;
        for (int t = 0; t < m && !sign; t++) sign = one_signed(slot + 6 + t * size);
        if (sign) {
            dropped++, waiting--;
            memset(slot, 0, width * sizeof *slot);
            continue;
        }
        r = direction(slot);
        mark = r < 0 ? 1 : can_cut(slot, r) ? 0 : 2;
        if (!mark) { cut(slot, r), waiting++; continue; }
        if (list == ROOM) { word = "full"; break; }
        for (int i = 0; i < 6; i++) kept[list][i] = (int)slot[i];
        kept[list++][6] = mark, waiting--;
        memset(slot, 0, width * sizeof *slot);
    }
    visits = BUDGET - left;
    printf("%s %d %d %d %d\n", word, visits, dropped, list, waiting);
    for (int k = 0; k < list; k++) {
        for (int i = 0; i < 7; i++) printf("%d%c", kept[k][i], i < 6 ? ' ' : '\n');
    }
    return 0;
}
