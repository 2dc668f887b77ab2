/* Samples as differences, in zigzag form and in groups of seven bits, runs of bytes, and Adler-32 of each. */
#include "program.h"
#define SAMPLES 8000

static int samples[SAMPLES], again[SAMPLES];
static u8 groups[SAMPLES * 5], packed[SAMPLES * 6], unpacked[SAMPLES * 5];

static u32 adler(const u8 *data, u32 size) {
    u32 a = 1, b = 0;
    while (size > 0) {
        u32 part = size < 5552 ? size : 5552;
        size -= part;
        for (; part > 0; part--) b += a += *data++;
        a %= 65521;
        b %= 65521;
    }
    return b << 16 | a;
}

static u32 to_groups(void) {
    u32 out = 0;
    int last = 0;
    for (u32 i = 0; i < SAMPLES; i++) {
        int step = samples[i] - last;
        u32 zigzag = (u32)step << 1 ^ (u32)(step >> 31);
        last = samples[i];
        for (; zigzag >= 128; zigzag >>= 7) groups[out++] = (u8)(zigzag | 128);
        groups[out++] = (u8)zigzag;
    }
    return out;
}

static void from_groups(const u8 *at) {
    int last = 0;
    for (u32 i = 0; i < SAMPLES; i++) {
        u32 zigzag = 0, shift = 0;
        do zigzag |= (u32)(*at & 127) << shift, shift += 7;
        while (*at++ & 128);
        last += (int)(zigzag >> 1) ^ -(int)(zigzag & 1);
        again[i] = last;
    }
}

static u32 pack(u32 size) {
    u32 out = 0;
    for (u32 i = 0; i < size;) {
        u32 run = 1;
        while (i + run < size && run < 130 && groups[i + run] == groups[i]) run++;
        if (run >= 3) {
            packed[out++] = (u8)(run + 125);
            packed[out++] = groups[i];
            i += run;
            continue;
        }
        u32 begin = i, place = out++;
        while (i < size && i - begin < 128 && (i + 2 >= size || groups[i] != groups[i + 1] || groups[i] != groups[i + 2]))
            packed[out++] = groups[i++];
        packed[place] = (u8)(i - begin - 1);
    }
    return out;
}

static u32 unpack(u32 size) {
    u32 out = 0;
    for (u32 i = 0; i < size;) {
        u32 head = packed[i++];
        for (u32 k = head < 128 ? head + 1 : head - 125; k > 0; k--) unpacked[out++] = head < 128 ? packed[i++] : packed[i];
        i += head >= 128;
    }
    return out;
}

static u32 run(u32 rounds) {
    u32 sum = 0, state = 1;
    for (u32 round = 0; round < rounds; round++) {
        for (u32 i = 0, level = 0; i < SAMPLES; i++) {
            state = state * 1664525u + 1013904223u;
            if (state >> 28 == 0) level += (state >> 8 & 0xffff) - 0x7f00;
            samples[i] = (int)(level + (i / 400 % 2 ? state >> 29 : 0));
        }
        u32 size = to_groups(), small = pack(size), back = unpack(small);
        from_groups(unpacked);
        for (u32 i = 0; i < SAMPLES; i++) sum += (samples[i] != again[i]) + (u32)again[i];
        sum = sum * 31 + (adler(packed, small) ^ adler(unpacked, back)) + (back != size);
    }
    return sum;
}

PROGRAM(run(40))
