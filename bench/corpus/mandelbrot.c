/* The Mandelbrot set and a Julia set by numbers with 24 bits after the point; long products by 64 bits. */
#include "program.h"
#define WIDTH 72
#define HEIGHT 48

typedef int i32;
typedef long long i64;

static u8 picture[HEIGHT][WIDTH];

static i32 times(i32 a, i32 b) { return (i32)((i64)a * b >> 24); }

static u32 steps(i32 x, i32 y, i32 cx, i32 cy, u32 most) {
    u32 n = 0;
    for (; n < most; n++) {
        i32 xx = times(x, x), yy = times(y, y);
        if (xx + yy > 4 << 24) break;
        y = 2 * times(x, y) + cy;
        x = xx - yy + cx;
    }
    return n;
}

static u32 run(u32 most) {
    u32 sum = 0;
    for (u32 zoom = 0; zoom < 4; zoom++) {
        i32 width = (3 << 24) >> zoom, left = -12000000 - width / 2, top = -(width / 3);
        for (u32 y = 0; y < HEIGHT; y++)
            for (u32 x = 0; x < WIDTH; x++) {
                i32 cx = left + (i32)((i64)width * x / WIDTH), cy = top + (i32)((i64)width * y / WIDTH);
                u32 n = steps(0, 0, cx, cy, most);
                picture[y][x] = (u8)(n + steps(cx, cy, -13421773, 2617246, most));
                sum = sum * 31 + n;
            }
        for (u32 y = 1; y < HEIGHT; y++)
            for (u32 x = 1; x < WIDTH; x++) sum += picture[y][x] != picture[y - 1][x - 1];
    }
    return sum;
}

PROGRAM(run(90))
