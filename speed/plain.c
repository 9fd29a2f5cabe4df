/* A plain decoder of standard-raster frames, to measure the proved one against.
 *
 *     plain PASSES < STREAM
 *
 * Decodes the frames of the stream PASSES times, each time from cleared memories, prints the parity and
 * held pels of each frame of the last pass on standard output and the speed on standard error. It tests
 * each record as the proved decoder does. Memories are rings of a power of two, masked; nothing else is
 * special. */
#include <stdint.h>
#include <stdio.h>
#include <stdlib.h>
#include <string.h>
#include <time.h>

enum { COLOUR = 4, K = 28, N = 32, W = 7 + 16 * K, LINES = 13 + 16 * N, F = LINES * W };
enum { WORDS = (10 * K + 7) / 8, LEVELS = W - 3, RECORD = 1 + WORDS + 8 * LEVELS, FRAME = 5 + 2 * N * RECORD };
enum { RING = 1 << 18, MASK = RING - 1 };

static const int8_t outputs[4][29] = {
    {0, 1, 2, 3, 5, 7, 10, 13, 16, 19, 22, 25, 28, 31, 35, 40, 45, 51, 57, 64, 71, 78, 85, 92, 99, 106, 113, 120, 127},
    {0, 3, 6, 9, 12, 15, 18, 21, 24, 28, 32, 37, 42, 47, 52, 57, 62, 67, 72, 77, 82, 87, 92, 97, 102, 107, 113, 120, 127},
    {0, 5, 10, 15, 20, 25, 30, 35, 40, 45, 50, 55, 60, 65, 70, 75, 80, 85, 90, 95, 100, 105, 110, 115, 121, 127},
    {0, 7, 14, 21, 28, 35, 42, 49, 56, 63, 70, 77, 84, 91, 98, 105, 112, 119, 127},
};
static const int tops[4] = {28, 28, 25, 18};

typedef struct { uint8_t r1, r2, gone; } Marks;

static int8_t picture[RING], background[RING];
static int8_t xs[3][W + 2];       /* the line in work, the one above and the one above that, from pel 1 */
static Marks marks[2][W + 2];
static uint32_t at;               /* absolute position of the next pel to enter picture and background */
static uint8_t planes;
static long held;

static inline int mean(int a, int b) { return (a + b + 1) >> 1; }
static inline int far_off(int a, int b) { return a < b ? b - a : a - b; }
static inline int luma(int p) { return p > 7 + 16 * COLOUR; }

static inline void enter(int8_t y, int forced, int brc, int buc)
{
    uint32_t k = (at - F) & MASK;
    int b = background[k], before = picture[k], next = b;
    if (forced || !brc) next = y;
    else if (!buc && far_off(y, before) <= 1) next = b < y ? b + 1 : b > y ? b - 1 : b;
    picture[at & MASK] = y;
    background[at & MASK] = (int8_t)next;
    planes ^= (uint8_t)y;
    at++;
}

static void resets(int lines)
{
    for (int i = 0; i < lines * W; i++, at++) picture[at & MASK] = background[at & MASK] = 0;
    memset(xs, 0, sizeof xs);
    memset(marks, 0, sizeof marks);
}

/* the line above enters, with the line in work (or 0) below it */
static void settle(const int8_t *above, const int8_t *line, const int8_t *below, const Marks *m, int forced, int brc, int buc)
{
    for (int p = 1; p <= W; p++) {
        int y = line[p];
        if (m[p].gone) {
            int across = mean(line[p - 1], p < W ? line[p + 1] : 0);
            y = luma(p) ? mean(across, mean(above[p], below[p])) : across;
        }
        enter((int8_t)y, forced, brc, buc);
    }
}

typedef struct { int s, vx, vy; } Word;

static int signed_field(int v, int half) { return v < half ? v : v - 2 * half; }

static int decode(const uint8_t *f)
{
    if ((f[1] & 15) != 8 || (f[3] & 0xa7) != 0xa7) return 5;
    int sbc = f[1] >> 7, brc = f[1] >> 6 & 1, buc = f[1] >> 5 & 1, drm = f[1] >> 4 & 1, crm = f[3] >> 3 & 3;
    static const int8_t nothing[W + 2];
    int pending = 0, pending_forced = 0;
    planes = 0;
    held = 0;
    resets(7);
    for (int j = 0; j < 2 * N; j++) {
        const uint8_t *rec = f + 5 + j * RECORD, *levels = rec + 1 + WORDS;
        int q = rec[0] >> 6, ifm = rec[0] >> 5 & 1, frp = rec[0] >> 4 & 1, top = tops[q];
        if ((rec[0] & 15) != 15) return 6;
        if (!ifm && !frp) return 7;
        Word words[K + 2];
        for (int b = 2; b <= K + 1; b++) {
            int bit = 10 * (b - 2), v = rec[1 + bit / 8] << 8 | rec[2 + bit / 8];
            v = v >> (6 - bit % 8) & 1023;
            words[b] = (Word){v >> 9, signed_field(v >> 4 & 31, 16), signed_field(v & 15, 8)};
            if ((words[b].s && !sbc) || (!frp && v)) return 8;
        }
        for (int b = 2; b <= K + 1; b++) if (words[b].vx == -16 || words[b].vy == -8) return 9;
        for (int l = 1; l <= 8; l++)
            for (int p = 4; p <= W; p++) {
                int v = (int8_t)levels[(l - 1) * LEVELS + p - 4], b = (p + 24) / 16;
                int gone = !frp || (b > 1 && (!sbc || words[b].s) && ((l ^ p) & 1));
                if (v > top || v < -top || (gone && v)) return 10;
            }
        if (j == N) {
            settle(xs[1], xs[0], nothing, marks[0], pending_forced, brc, buc);
            pending = 0;
            resets(6);
        }
        for (int l = 1; l <= 8; l++) {
            memcpy(xs[2], xs[1], sizeof xs[1]);
            memcpy(xs[1], xs[0], sizeof xs[0]);
            memcpy(marks[1], marks[0], sizeof marks[0]);
            int forced = !ifm && (!drm || (l - 1) / 2 == crm);
            uint32_t start = at + (pending ? W : 0) - 1;    /* position of pel p is start + p */
            int8_t *x = xs[0];
            Marks *m = marks[0];
            const Marks *up = marks[1];
            for (int p = 1; p <= 3; p++) { x[p] = 0; m[p] = (Marks){0, 0, 0}; }
            m[0] = up[W];
            for (int p = 4; p <= W; p++) {
                uint32_t here = start + p;
                int b = (p + 24) / 16;
                if (!frp) {
                    int near = picture[(here - (6 + 8 * N) * W) & MASK], far = picture[(here - (7 + 8 * N) * W) & MASK];
                    x[p] = (int8_t)(luma(p) ? mean(near, far) : j >= N ? near : far);
                    m[p] = (Marks){0, 0, 0};
                    continue;
                }
                if (b > 1 && (!sbc || words[b].s) && ((l ^ p) & 1)) { x[p] = 0; m[p] = (Marks){0, 0, 1}; continue; }
                int v = (int8_t)levels[(l - 1) * LEVELS + p - 4];
                int value = v < 0 ? -outputs[q][-v] : outputs[q][v];
                int i = m[p - 1].gone ? x[p - 2] : x[p - 1], sum;
                if (forced) {
                    sum = i + value;
                    m[p] = (Marks){0, 1, 0};
                } else if (p <= 7) {
                    sum = picture[(here - F) & MASK] + value;
                    m[p] = (Marks){0, 0, 0};
                } else {
                    int mo = picture[(here - F - words[b].vx - W * words[b].vy) & MASK], bg = background[(here - F) & MASK];
                    Marks right = p < W ? up[p + 1] : m[1], left = up[p - 1];
                    int s1 = right.r1 + up[p].r1 + left.r1 >= 2, x1 = s1 ? bg : mo;
                    int before = m[p - 1].gone ? m[p - 2].r2 : m[p - 1].r2;
                    int above = up[p].gone ? right.r2 && left.r2 : up[p].r2;
                    sum = (before && above ? i : x1) + value;
                    int y = sum < -128 ? -128 : sum > 127 ? 127 : sum;
                    m[p] = (Marks){far_off(y, bg) < far_off(y, mo), far_off(y, i) < far_off(y, x1), 0};
                }
                int y = sum < -128 ? -128 : sum > 127 ? 127 : sum;
                held += y != sum;
                x[p] = (int8_t)y;
            }
            if (pending) settle(xs[2], xs[1], xs[0], marks[1], pending_forced, brc, buc);
            pending = 1;
            pending_forced = forced;
        }
    }
    settle(xs[1], xs[0], nothing, marks[0], pending_forced, brc, buc);
    return 0;
}

int main(int argc, char **argv)
{
    int passes = argc > 1 ? atoi(argv[1]) : 1;
    size_t size = 0, room = 1 << 20;
    uint8_t *data = malloc(room);
    for (size_t came; (came = fread(data + size, 1, room - size, stdin)) > 0;) {
        size += came;
        if (size == room) data = realloc(data, room *= 2);
    }
    size_t frames = size / FRAME;
    struct timespec from, to;
    clock_gettime(CLOCK_MONOTONIC, &from);
    for (int k = 0; k < passes; k++) {
        memset(picture, 0, sizeof picture);
        memset(background, 0, sizeof background);
        at = F + 8 * W;
        for (size_t i = 0; i < frames; i++) {
            int refused = decode(data + i * FRAME);
            if (refused) { printf("REFUSED %d\n", refused); return 0; }
            if (k == passes - 1) printf("FRAME %zu PARITY %02X HELD %ld\n", i + 1, 0xff ^ planes, held);
        }
    }
    clock_gettime(CLOCK_MONOTONIC, &to);
    double s = (to.tv_sec - from.tv_sec) + 1e-9 * (to.tv_nsec - from.tv_nsec), n = (double)frames * passes;
    fprintf(stderr, "plain: %.0f frames, %.1f frames a second, %.1f ns a pel\n", n, n / s, 1e9 * s / (n * F));
    return 0;
}
