/* Texts in UTF-8: made of code points, validated by a table of states, decoded, turned to upper case and to UTF-16. */
#include "program.h"
#define SIZE 24000

static u8 text[SIZE + 8];
static unsigned short wide[SIZE];
static u8 classes[256];

enum { TAIL_LOW, TAIL_MIDDLE, TAIL_HIGH, ASCII, TWO, E0, THREE, ED, F0, FOUR, F4, BAD };
enum { START, ONE, TWO_LEFT, THREE_LEFT, AFTER_E0, AFTER_ED, AFTER_F0, AFTER_F4, FAIL };

static const u8 next[FAIL][12] = {
    {FAIL, FAIL, FAIL, START, ONE, AFTER_E0, TWO_LEFT, AFTER_ED, AFTER_F0, THREE_LEFT, AFTER_F4, FAIL},
    {START, START, START, FAIL, FAIL, FAIL, FAIL, FAIL, FAIL, FAIL, FAIL, FAIL},
    {ONE, ONE, ONE, FAIL, FAIL, FAIL, FAIL, FAIL, FAIL, FAIL, FAIL, FAIL},
    {TWO_LEFT, TWO_LEFT, TWO_LEFT, FAIL, FAIL, FAIL, FAIL, FAIL, FAIL, FAIL, FAIL, FAIL},
    {FAIL, FAIL, ONE, FAIL, FAIL, FAIL, FAIL, FAIL, FAIL, FAIL, FAIL, FAIL},
    {ONE, ONE, FAIL, FAIL, FAIL, FAIL, FAIL, FAIL, FAIL, FAIL, FAIL, FAIL},
    {FAIL, TWO_LEFT, TWO_LEFT, FAIL, FAIL, FAIL, FAIL, FAIL, FAIL, FAIL, FAIL, FAIL},
    {TWO_LEFT, FAIL, FAIL, FAIL, FAIL, FAIL, FAIL, FAIL, FAIL, FAIL, FAIL, FAIL},
};

static void classify(void) {
    for (u32 i = 0; i < 256; i++)
        classes[i] = i < 0x80 ? ASCII : i < 0x90 ? TAIL_LOW : i < 0xa0 ? TAIL_MIDDLE : i < 0xc0 ? TAIL_HIGH : i < 0xc2 ? BAD :
                     i < 0xe0 ? TWO : i == 0xe0 ? E0 : i == 0xed ? ED : i < 0xf0 ? THREE : i == 0xf0 ? F0 : i < 0xf4 ? FOUR :
                     i == 0xf4 ? F4 : BAD;
}

static u32 put(u8 *at, u32 point) {
    if (point < 0x80) return *at = (u8)point, 1;
    u32 size = point < 0x800 ? 2 : point < 0x10000 ? 3 : 4;
    for (u32 i = size; --i > 0; point >>= 6) at[i] = (u8)(0x80 | (point & 0x3f));
    *at = (u8)(0xf00 >> size | point);
    return size;
}

static u32 valid(u32 size) {
    u32 state = START, at = 0;
    while (at < size && state != FAIL) state = next[state][classes[text[at++]]];
    return state == START ? size : at;
}

static u32 to_wide(u32 size, u32 *sum) {
    u32 out = 0;
    for (u32 at = 0; at < size;) {
        u32 byte = text[at++], tails = byte < 0xc0 ? 0 : byte < 0xe0 ? 1 : byte < 0xf0 ? 2 : 3;
        u32 point = tails ? byte & (0x3fu >> tails) : byte;
        for (; tails > 0; tails--) point = point << 6 | (text[at++] & 0x3f);
        if ((point >= 'a' && point <= 'z') || (point >= 0xe0 && point <= 0xfe) || (point >= 0x3b1 && point <= 0x3c9))
            point -= 32;
        *sum = *sum * 31 + point;
        if (point >= 0x10000) {
            wide[out++] = (unsigned short)(0xd7c0 + (point >> 10));
            point = 0xdc00 | (point & 0x3ff);
        }
        wide[out++] = (unsigned short)point;
    }
    return out;
}

static u32 run(u32 rounds) {
    u32 sum = 0, state = 1;
    classify();
    for (u32 round = 0; round < rounds; round++) {
        u32 size = 0;
        while (size < SIZE - 8) {
            state = state * 1664525u + 1013904223u;
            u32 kind = state >> 28, number = state >> 6 & 0xffff;
            u32 first = kind < 9 ? 32 : kind < 12 ? 0xa0 : kind < 15 ? 0x3000 : 0x1f300;
            u32 point = first + number % (kind < 9 ? 95 : kind < 12 ? 0x700 : kind < 15 ? 0x6000 : 700);
            size += put(text + size, point);
        }
        sum = sum * 31 + valid(size) + to_wide(size, &sum);
        text[state % size] ^= (u8)(state >> 24);
        sum = sum * 31 + valid(size) + wide[state % 5000];
    }
    return sum;
}

PROGRAM(run(25))
