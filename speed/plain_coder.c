/* A plain coder of standard-raster frames, to measure the proved one against.
 *
 *     plain_coder PASSES
 *
 * Makes the six frames described below, codes them PASSES times, each time from cleared memories, and
 * prints a line for each frame of the last pass on standard output,
 *
 *     FRAME number PARITY parity SUM hash
 *
 * the number counting from 1 and the hash being the 32-bit FNV-1a of the frame's header and records as they
 * go out, in hexadecimal; and the speed of the coding alone on standard error. It tests each head and its
 * words as the proved coder does. Memories are rings of a power of two, masked; nothing else is special.
 *
 * The frames. All numbers are whole; "mod" has a result from 0 up, "/" drops the fraction. Frames f = 0 to
 * 5, block-lines j = 0 to 63, lines l = 0 to 7, blocks b = 2 to 29, pels p = 1 to 455.
 *
 * Pictures. x starts as 12345. For each pel, in the order of f, then j, then l, then p:
 *
 *     row  = 8 j + l
 *     base = ((p + 3 f) 5 + (row + 2 f) 3) mod 201 - 100
 *     if |p - (100 + 20 f)| <= 30 and |row - 256| <= 60:   base = 90 - base / 2
 *     x    = (x 1103515245 + 12345) mod 2^31
 *     pel  = base + (x / 65536) mod 7 - 3, limited to -128 to 127
 *
 * Header. BC and FC are 0 and
 *
 *     f     0   1   2   3   4   5
 *     FM1   E8  98  D8  B8  C8  58        SBC BRC BUC DRM 1 0 0 0
 *     FM2   FF  E7  EF  F7  BF  EF        1 DRR 1 CRM1 CRM2 1 1 1
 *
 * Head. QC = (f + j) mod 4; IFM is 0 where f = 0 or j mod 16 = 5; FRP is 0 where f = 3 and j mod 8 = 3; both
 * are 1 elsewhere. So the head is QC 64 + IFM 32 + FRP 16 + 15.
 *
 * Words. S is 1 where f is 1, 2 or 4 and (b + j) mod 3 = 0, else 0. Where f is 2, 4 or 5,
 * vx = (3 b + j) mod 7 - 3 and vy = (b + f) mod 5 - 2, else both are 0. Stop is 0 throughout. */
#include <stdint.h>
#include <stdio.h>
#include <stdlib.h>
#include <string.h>
#include <time.h>

enum { COLOUR = 4, K = 28, N = 32, W = 7 + 16 * K, LINES = 13 + 16 * N, F = LINES * W };
enum { WORDS = (10 * K + 7) / 8, FRONT = 1 + WORDS, LEVELS = W - 3, RECORD = FRONT + 8 * LEVELS };
enum { FRAME = 5 + 2 * N * RECORD, FRAMES = 6 };
enum { RING = 1 << 18, MASK = RING - 1 };

static const int8_t outputs[4][29] = {
    {0, 1, 2, 3, 5, 7, 10, 13, 16, 19, 22, 25, 28, 31, 35, 40, 45, 51, 57, 64, 71, 78, 85, 92, 99, 106, 113, 120, 127},
    {0, 3, 6, 9, 12, 15, 18, 21, 24, 28, 32, 37, 42, 47, 52, 57, 62, 67, 72, 77, 82, 87, 92, 97, 102, 107, 113, 120, 127},
    {0, 5, 10, 15, 20, 25, 30, 35, 40, 45, 50, 55, 60, 65, 70, 75, 80, 85, 90, 95, 100, 105, 110, 115, 121, 127},
    {0, 7, 14, 21, 28, 35, 42, 49, 56, 63, 70, 77, 84, 91, 98, 105, 112, 119, 127},
};
/* the largest error of each number */
static const uint8_t ends[4][29] = {
    {1, 2, 3, 5, 7, 9, 11, 14, 17, 20, 23, 26, 29, 32, 37, 42, 48, 54, 60, 67, 74, 81, 88, 95, 102, 109, 116, 123, 255},
    {3, 6, 8, 10, 13, 16, 19, 22, 26, 30, 34, 39, 44, 49, 54, 59, 64, 69, 74, 79, 84, 89, 94, 99, 104, 109, 116, 123, 255},
    {4, 8, 12, 17, 22, 27, 32, 37, 42, 47, 52, 57, 62, 67, 72, 77, 82, 87, 92, 97, 102, 107, 112, 118, 124, 255},
    {6, 11, 17, 24, 31, 38, 45, 52, 59, 66, 73, 80, 87, 94, 101, 108, 115, 123, 255},
};

typedef struct { int8_t number, value; } Step;
typedef struct { uint8_t r1, r2, gone; } Marks;
typedef struct { int s, vx, vy; } Word;

static Step steps[4][512];        /* for each error from -255, its number and value */
static int8_t picture[RING], background[RING];
static int8_t xs[3][W + 2];       /* the line in work, the one above and the one above that, from pel 1 */
static Marks marks[2][W + 2];
static uint32_t at;               /* absolute position of the next pel to enter picture and background */
static uint8_t planes, parity;
static int sbc, brc, buc, drm, crm, done, pending, pending_forced;

static inline int mean(int a, int b) { return (a + b + 1) >> 1; }
static inline int far_off(int a, int b) { return a < b ? b - a : a - b; }
static inline int luma(int p) { return p > 7 + 16 * COLOUR; }

static void make_steps(void)
{
    for (int q = 0; q < 4; q++)
        for (int e = -255; e <= 255; e++) {
            int k = 0;
            while (ends[q][k] < abs(e)) k++;
            steps[q][e + 255] = (Step){(int8_t)(e < 0 ? -k : k), (int8_t)(e < 0 ? -outputs[q][k] : outputs[q][k])};
        }
}

static inline void enter(int8_t y, int forced)
{
    uint32_t k = (at - F) & MASK;
    int b = background[k], before = picture[k], next = b;
    if (forced || !brc) next = y;
    else if (!buc && far_off(y, before) <= 1) next = b < y ? b + 1 : b > y ? b - 1 : b;
    picture[at & MASK] = y;
    background[at & MASK] = (int8_t)next;
    planes ^= (uint8_t)y;
    at++;
}

static void resets(int lines)
{
    for (int i = 0; i < lines * W; i++, at++) picture[at & MASK] = background[at & MASK] = 0;
    memset(xs, 0, sizeof xs);
    memset(marks, 0, sizeof marks);
}

/* the line above enters, with the line in work (or 0) below it */
static void settle(const int8_t *above, const int8_t *line, const int8_t *below, const Marks *m, int forced)
{
    for (int p = 1; p <= W; p++) {
        int y = line[p];
        if (m[p].gone) {
            int across = mean(line[p - 1], p < W ? line[p + 1] : 0);
            y = luma(p) ? mean(across, mean(above[p], below[p])) : across;
        }
        enter((int8_t)y, forced);
    }
}

static int signed_field(int v, int half) { return v < half ? v : v - 2 * half; }

static int open_frame(const uint8_t *modes, uint8_t *header)
{
    if ((modes[0] & 15) != 8 || (modes[2] & 0xa7) != 0xa7) return 5;
    header[0] = parity;
    memcpy(header + 1, modes, 4);
    sbc = modes[0] >> 7;
    brc = modes[0] >> 6 & 1;
    buc = modes[0] >> 5 & 1;
    drm = modes[0] >> 4 & 1;
    crm = modes[2] >> 3 & 3;
    planes = 0;
    done = pending = 0;
    resets(7);
    return 0;
}

static const int8_t nothing[W + 2];

static int code_block_line(const uint8_t *front, int stop, const int8_t *given, uint8_t *record)
{
    int q = front[0] >> 6, ifm = front[0] >> 5 & 1, frp = front[0] >> 4 & 1;
    if (done == 2 * N) return 3;
    if ((front[0] & 15) != 15) return 6;
    if (!ifm && !frp) return 7;
    Word words[K + 2];
    for (int b = 2; b <= K + 1; b++) {
        int bit = 10 * (b - 2), v = front[1 + bit / 8] << 8 | front[2 + bit / 8];
        v = v >> (6 - bit % 8) & 1023;
        words[b] = (Word){v >> 9, signed_field(v >> 4 & 31, 16), signed_field(v & 15, 8)};
        if ((words[b].s && !sbc) || (!frp && v)) return 8;
    }
    for (int b = 2; b <= K + 1; b++) if (words[b].vx == -16 || words[b].vy == -8) return 9;
    memcpy(record, front, FRONT);
    if (stop) {
        memset(record + 1, 0, WORDS);
        for (int b = 2; b <= K + 1; b++) {
            int bit = 10 * (b - 2);
            record[1 + bit / 8] |= (uint8_t)(words[b].s << (7 - bit % 8));
            words[b].vx = words[b].vy = 0;
        }
    }
    if (done == N) {
        settle(xs[1], xs[0], nothing, marks[0], pending_forced);
        pending = 0;
        resets(6);
    }
    for (int l = 1; l <= 8; l++) {
        memcpy(xs[2], xs[1], sizeof xs[1]);
        memcpy(xs[1], xs[0], sizeof xs[0]);
        memcpy(marks[1], marks[0], sizeof marks[0]);
        int8_t wanted[W + 1];
        for (int p = 1; p <= W; p++) {
            int v = given[(l - 1) * W + p - 1];
            wanted[p] = (int8_t)(v < -124 ? -124 : v > 123 ? 123 : v);
        }
        wanted[7] = wanted[8 + 16 * COLOUR] = 0;
        int forced = !ifm && (!drm || (l - 1) / 2 == crm);
        uint32_t start = at + (pending ? W : 0) - 1;    /* position of pel p is start + p */
        int8_t *x = xs[0];
        Marks *m = marks[0];
        const Marks *up = marks[1];
        uint8_t *levels = record + FRONT + (l - 1) * LEVELS - 4;
        const Step *step = steps[q] + 255;
        for (int p = 1; p <= 3; p++) { x[p] = 0; m[p] = (Marks){0, 0, 0}; }
        for (int p = 4; p <= W; p++) {
            uint32_t here = start + p;
            int b = (p + 24) / 16;
            if (!frp) {
                int near = picture[(here - (6 + 8 * N) * W) & MASK], far = picture[(here - (7 + 8 * N) * W) & MASK];
                x[p] = (int8_t)(luma(p) ? mean(near, far) : done >= N ? near : far);
                m[p] = (Marks){0, 0, 0};
                levels[p] = 0;
                continue;
            }
            if (b > 1 && (!sbc || words[b].s) && ((l ^ p) & 1)) {
                x[p] = 0;
                m[p] = (Marks){0, 0, 1};
                levels[p] = 0;
                continue;
            }
            int i = m[p - 1].gone ? x[p - 2] : x[p - 1], from, mo = 0, bg = 0, x1 = 0;
            if (forced) {
                from = i;
            } else if (p <= 7) {
                from = picture[(here - F) & MASK];
            } else {
                mo = picture[(here - F - words[b].vx - W * words[b].vy) & MASK];
                bg = background[(here - F) & MASK];
                Marks right = p < W ? up[p + 1] : m[1], left = up[p - 1];
                x1 = right.r1 + up[p].r1 + left.r1 >= 2 ? bg : mo;
                int before = m[p - 1].gone ? m[p - 2].r2 : m[p - 1].r2;
                int above = up[p].gone ? right.r2 && left.r2 : up[p].r2;
                from = before && above ? i : x1;
            }
            Step s = stop ? (Step){0, 0} : step[wanted[p] - from];
            int y = from + s.value;
            if (forced) m[p] = (Marks){0, 1, 0};
            else if (p <= 7) m[p] = (Marks){0, 0, 0};
            else m[p] = (Marks){far_off(y, bg) < far_off(y, mo), far_off(y, i) < far_off(y, x1), 0};
            levels[p] = (uint8_t)s.number;
            x[p] = (int8_t)y;
        }
        if (pending) settle(xs[2], xs[1], xs[0], marks[1], pending_forced);
        pending = 1;
        pending_forced = forced;
    }
    done++;
    return 0;
}

static int finish_frame(void)
{
    if (done != 2 * N) return 3;
    settle(xs[1], xs[0], nothing, marks[0], pending_forced);
    parity = 0xff ^ planes;
    return 0;
}

static uint8_t modes[FRAMES][4], fronts[FRAMES][2 * N][FRONT];
static int8_t pictures[FRAMES][2 * N][8 * W];
static uint8_t out[FRAMES][FRAME], parities[FRAMES];

static int code_frame(int f)
{
    int refused = open_frame(modes[f], out[f]);
    for (int j = 0; !refused && j < 2 * N; j++)
        refused = code_block_line(fronts[f][j], 0, pictures[f][j], out[f] + 5 + j * RECORD);
    if (!refused) refused = finish_frame();
    parities[f] = parity;
    return refused;
}

static void make_frames(void)
{
    static const uint8_t fm1[FRAMES] = {0xe8, 0x98, 0xd8, 0xb8, 0xc8, 0x58};
    static const uint8_t fm2[FRAMES] = {0xff, 0xe7, 0xef, 0xf7, 0xbf, 0xef};
    uint32_t x = 12345;
    for (int f = 0; f < FRAMES; f++) {
        modes[f][0] = fm1[f];
        modes[f][2] = fm2[f];
        for (int j = 0; j < 2 * N; j++) {
            for (int l = 0; l < 8; l++)
                for (int p = 1; p <= W; p++) {
                    int row = 8 * j + l, base = ((p + 3 * f) * 5 + (row + 2 * f) * 3) % 201 - 100;
                    if (abs(p - (100 + 20 * f)) <= 30 && abs(row - 256) <= 60) base = 90 - base / 2;
                    x = (uint32_t)(((uint64_t)x * 1103515245u + 12345u) & 0x7fffffffu);
                    int pel = base + (int)((x >> 16) % 7) - 3;
                    pictures[f][j][l * W + p - 1] = (int8_t)(pel < -128 ? -128 : pel > 127 ? 127 : pel);
                }
            uint8_t *front = fronts[f][j];
            int ifm = !(f == 0 || j % 16 == 5), frp = !(f == 3 && j % 8 == 3);
            front[0] = (uint8_t)((f + j) % 4 << 6 | ifm << 5 | frp << 4 | 15);
            for (int b = 2; b <= K + 1; b++) {
                int s = (f == 1 || f == 2 || f == 4) && (b + j) % 3 == 0, vx = 0, vy = 0;
                if (f == 2 || f == 4 || f == 5) {
                    vx = (3 * b + j) % 7 - 3;
                    vy = (b + f) % 5 - 2;
                }
                int word = s << 9 | (vx & 31) << 4 | (vy & 15);
                for (int k = 0; k < 10; k++) {
                    int bit = 10 * (b - 2) + k;
                    if (word >> (9 - k) & 1) front[1 + bit / 8] |= (uint8_t)(0x80 >> bit % 8);
                }
            }
        }
    }
}

int main(int argc, char **argv)
{
    int passes = argc > 1 ? atoi(argv[1]) : 1;
    struct timespec from, to;
    make_steps();
    make_frames();
    clock_gettime(CLOCK_MONOTONIC, &from);
    for (int k = 0; k < passes; k++) {
        memset(picture, 0, sizeof picture);
        memset(background, 0, sizeof background);
        at = F + 8 * W;
        parity = 0xff;
        for (int f = 0; f < FRAMES; f++) {
            int refused = code_frame(f);
            if (refused) { printf("REFUSED %d\n", refused); return 0; }
        }
    }
    clock_gettime(CLOCK_MONOTONIC, &to);
    for (int f = 0; passes > 0 && f < FRAMES; f++) {
        uint32_t sum = 2166136261u;
        for (int i = 0; i < FRAME; i++) sum = (sum ^ out[f][i]) * 16777619u;
        printf("FRAME %d PARITY %02X SUM %08X\n", f + 1, parities[f], sum);
    }
    double s = (to.tv_sec - from.tv_sec) + 1e-9 * (to.tv_nsec - from.tv_nsec), n = (double)FRAMES * passes;
    fprintf(stderr, "plain: %.0f frames, %.1f frames a second, %.1f ns a pel\n", n, n / s, 1e9 * s / (n * F));
    return 0;
}
